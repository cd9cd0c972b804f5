"""Which frames pass, and which slices two versions share."""
import os
import pathlib
import stat
import tempfile
import unittest

from mend_reel.containers.own_checks import has_only_sizes, is_astray, passes, share_slice, slices
from mend_reel.engine.frame_checks import Judged, Scan, part_overlaps, read_line
from mend_reel.model import Content, Fault, Kind, Outcome, State, Stretch, What
from . import made
from .framed import frame, judge, parity, slice_of


class SliceTest(unittest.TestCase):
    def test_the_parity_is_that_of_the_format(self):
        self.assertEqual(parity(b"123456789"), 0x89A1897F)
        self.assertTrue(passes(slice_of(b"some content")))

    def test_any_wrong_bit_fails(self):
        piece = slice_of(bytes(range(20)))
        for bit in range(8 * len(piece)):
            wrong = bytearray(piece)
            wrong[bit // 8] ^= 1 << bit % 8
            self.assertFalse(passes(bytes(wrong)), bit)

    def test_a_slice_without_content_says_nothing(self):
        self.assertFalse(passes(bytes(8)))
        self.assertFalse(passes(b""))

    def test_slices_are_found_from_the_end(self):
        self.assertEqual(list(slices(frame(1, 10, 20))), [(18, 46), (0, 18)])

    def test_slices_end_where_footers_lead_out_of_the_frame(self):
        content = bytearray(frame(1, 10, 20))
        content[10:13] = b"\xff\xff\xff"
        self.assertEqual(list(slices(bytes(content))), [(18, 46)])


class ShareTest(unittest.TestCase):
    def test_equal_frames_share(self):
        self.assertTrue(share_slice(b"abcd" * 9, b"abcd" * 9))

    def test_lost_frames_do_not(self):
        self.assertFalse(share_slice(bytes(40), bytes(40)))

    def test_one_common_slice_is_enough(self):
        one, other = bytearray(frame(1, 30, 40)), bytearray(frame(1, 30, 40))
        one[3] ^= 1
        self.assertTrue(share_slice(bytes(one), bytes(other)))

    def test_frames_of_other_recordings_share_none(self):
        self.assertFalse(share_slice(frame(1, 30, 40), frame(2, 30, 40)))
        self.assertFalse(share_slice(frame(1, 30), frame(1, 31)))

    def test_a_common_slice_that_does_not_pass_says_nothing(self):
        one, other = bytearray(frame(1, 30, 40)), bytearray(frame(2, 30, 40))
        one[5:30] = other[5:30] = bytes(25)
        one[:5] = other[:5]
        one[30:38] = other[30:38]
        self.assertFalse(share_slice(bytes(one), bytes(other)))

    def test_sizes_alone_divide_a_frame_without_parities(self):
        self.assertTrue(has_only_sizes(bytes(10) + b"\0\0\x0a" + b"x" * 300 + b"\0\x01\x2c"))
        self.assertFalse(has_only_sizes(frame(1)))
        self.assertFalse(has_only_sizes(b""))


class AstrayTest(unittest.TestCase):
    def test_a_damaged_version_is_none(self):
        whole = frame(1, 30, 40)
        for place in (3, 50, len(whole) - 6):
            damaged = bytearray(whole)
            damaged[place] ^= 1
            self.assertFalse(is_astray(whole, bytes(damaged)), place)

    def test_bytes_across_two_frames_are_astray(self):
        two = frame(1, 30, 40) + frame(2, 30, 40)
        self.assertTrue(is_astray(two[:86], two[38:124]))

    def test_slices_of_a_frame_in_another_order_are_astray(self):
        one, other = slice_of(made.noise(1, 30)), slice_of(made.noise(2, 40))
        self.assertTrue(is_astray(one + other, other + one))

    def test_another_frame_that_passes_is_a_version(self):
        self.assertFalse(is_astray(frame(1, 30, 40), frame(2, 30, 40)))

    def test_garbage_is_no_frame_astray(self):
        self.assertFalse(is_astray(frame(1, 30, 40), made.noise(3, 86)))


class ScanTest(unittest.TestCase):
    def scan(self, folder, body):
        path = pathlib.Path(folder, "program")
        path.write_text("#!/bin/sh\n" + body)
        path.chmod(path.stat().st_mode | stat.S_IXUSR)
        return Scan(str(path), pathlib.Path(folder))

    def test_a_line(self):
        self.assertEqual(read_line("range 3 links 24 pass 23 whole"), Judged(24, 23, True))
        self.assertFalse(read_line("range 4 links 3 pass 3 broken at 112233").is_whole)
        self.assertTrue(Judged(2, 2, True).is_intact())
        self.assertFalse(Judged(2, 1, True).is_intact() or Judged(0, 0, True).is_intact() or Judged(2, 2, False).is_intact())

    def test_ranges_that_overlap_are_parted(self):
        self.assertEqual(part_overlaps([(0, 5), (3, 9), (5, 2)]), ([(0, 5), (5, 2)], [(3, 9)]))

    def test_ranges_are_asked_once_and_in_order(self):
        with tempfile.TemporaryDirectory() as folder, made.opened(bytes(100)) as (copy,):
            asked = os.path.join(folder, "asked")
            scan = self.scan(folder, f'cat "$2" >> {asked}; n=1; while read -r place size; do echo "range $n links $size pass $place whole"; '
                                     'n=$((n + 1)); done < "$2"\nexit 3\n')
            self.assertEqual(scan(copy, [(20, 5), (0, 10), (90, 20), (5, 10)]),
                             [Judged(5, 20, True), Judged(10, 0, True), Judged(), Judged(10, 5, True)])
            self.assertEqual(scan(copy, [(20, 5)]), [Judged(5, 20, True)])
            self.assertEqual(pathlib.Path(asked).read_text(), "0 10\n20 5\n5 10\n")

    def test_frames_that_are_whole_in_out_are_not_asked_for_again(self):
        """Those that pass in each copy, that pass in the first one alone, that no copy has whole, and an element, whose CRC-32 is no parity."""
        kinds, outcomes = [Kind.FRAME, Kind.FRAME, Kind.FRAME, Kind.ELEMENT], [Outcome(1, State.WHOLE, 0, "10"), Outcome(2, State.MISSING, 0, "10")]
        stretches = [Stretch(kind, 10 * number, 10, What(Content.FRAME), (10 * number, 10 * number + 1)) for number, kind in enumerate(kinds)]
        with tempfile.TemporaryDirectory() as folder, made.opened(bytes(100), bytes(100)) as copies:
            scan = self.scan(folder, "")
            scan.learn(stretches, outcomes, copies)
            self.assertEqual([sorted(place for path, place, _ in scan.known if path == copy.path) for copy in copies], [[0, 10], [1]])
            self.assertTrue(all(each.is_intact() for each in scan(copies[0], [(0, 10), (10, 10)])))

    def test_a_fault_names_the_copy(self):
        with tempfile.TemporaryDirectory() as folder, made.opened(bytes(100)) as (copy,):
            scan = self.scan(folder, "echo 'ffv1restore: cannot read it' >&2; exit 1\n")
            with self.assertRaisesRegex(Fault, f"{copy.path}: cannot read it"):
                scan(copy, [(0, 10)])
            for line in ("nonsense", "range 1 links x pass 2 whole", "range 1 links 1 pass 1"):
                with self.assertRaisesRegex(Fault, f"did not report what it found in {copy.path}"):
                    self.scan(folder, f"echo '{line}'\n")(copy, [(0, 10)])

    def test_a_file_of_any_length_is_checked_once(self):
        with tempfile.TemporaryDirectory() as folder, made.opened(bytes(100)) as (copy,):
            asked = os.path.join(folder, "asked")
            scan = self.scan(folder, f"echo $1 >> {asked}; echo bytes 100 checked 0; echo whole\n")
            copy.size = 1 << 40
            self.assertEqual([scan.check(copy).is_whole, scan.check(copy).is_whole], [True, True])
            self.assertEqual(pathlib.Path(asked).read_text(), "check\n")
            scan.forget(copy)
            self.assertTrue(scan.check(copy).is_whole)
            self.assertEqual(pathlib.Path(asked).read_text(), "check\ncheck\n")

    def test_the_judge_of_the_tests(self):
        with made.opened(frame(1, 10, 20)) as (copy,):
            self.assertEqual(judge(copy, [(0, 46), (0, 45), (1, 45)]), [Judged(2, 2, True), Judged(0, 0, False), Judged(1, 1, False)])
