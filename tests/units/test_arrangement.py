"""Which copies are of one file, which are other files, and which belong to another recording."""
import os
import pathlib
import tempfile
import unittest

from mend_reel.containers.ffprobe import Probed
from mend_reel.containers.known import OTHER as NO_CONTAINER
from mend_reel.containers.known import by_start
from mend_reel.copies.arrangement import Leaving, arrange, claimed_size, group, renumbered
from mend_reel.copies.frame_pairing import Matched
from mend_reel.judging.judgment import judge_file
from mend_reel.model import Fault, Frame, Layout, open_copy
from . import made
from .framed import frame, judge, matroska
from .test_structure import MOV

FRAMES = [(0.04 * number, frame(number, 200, 150 + number)) for number in range(10)]
REEL = matroska(FRAMES)
OTHER = matroska([(time, frame(100 + number, 200, 150 + number)) for number, (time, _) in enumerate(FRAMES * 2)],
                 seed=5000)
REWRAPPED = matroska(FRAMES, crc=False, seed=50)
# The same with other places.
CONTENT = REWRAPPED[len(made.ebml_header()) + 6 :]
MOVED = made.ebml_header() + made.element(made.SEGMENT, made.element(made.VOID, bytes(90)), CONTENT)


def place_of(number, reel=REEL):
    """Where a frame begins in a reel."""
    return reel.index(FRAMES[number][1])


def spoilt(reel, *numbers):
    """A reel with damage in some of its frames."""
    return made.damaged(reel, *(place_of(number, reel) + 30 for number in numbers))


class RenumberedTest(unittest.TestCase):
    def test_frames_that_one_copy_alone_shows_have_no_number_in_another(self):
        frames = [Frame(1, 0.0, 100, 10), Frame(1, 0.04, 120, 10), Frame(1, 0.08, 140, 10)]
        found = renumbered(Matched(2, {0: 7, 2: 9}), Layout(200, [], frames, []), Layout(200, [], frames[1:], []))
        self.assertEqual((found.number, found.places), (2, {1: 9}))


class GroupTest(unittest.TestCase):
    def group(self, *contents):
        with made.opened(*contents) as copies:
            return group(copies)[0]

    def test_copies_of_one_length(self):
        lost = made.damaged(REEL, (0, bytes(3 * len(REEL) // 4)))
        self.assertEqual(self.group(REEL, spoilt(REEL, 1, 5), lost), [[0, 1, 2]])

    def test_a_copy_that_is_all_zero(self):
        self.assertEqual(self.group(REEL, bytes(len(REEL)), bytes(len(REEL))), [[0], [1], [2]])

    def test_a_copy_that_is_cut_short(self):
        self.assertEqual(self.group(REEL[: len(REEL) // 2], REEL, REEL[: len(REEL) // 3]), [[0, 1, 2]])

    def test_a_cut_copy_with_a_lost_end(self):
        half = len(REEL) // 2
        self.assertEqual(self.group(REEL, REEL[: half - 1000] + bytes(1000)), [[0, 1]])

    def test_a_file_that_lost_its_middle_is_another_file(self):
        middle = len(REEL) // 2
        self.assertEqual(self.group(REEL, REEL[:middle] + REEL[middle + 100 :]), [[0], [1]])

    def test_a_cut_copy_with_other_bytes_at_its_end(self):
        self.assertEqual(self.group(REEL, REEL[: len(REEL) // 2] + made.noise(3, 600)), [[0, 1]])

    def test_a_copy_with_bytes_after_its_end(self):
        self.assertEqual(self.group(REEL, REEL + bytes(900), REEL + made.noise(4, 300)), [[0, 1, 2]])

    def test_other_files_of_one_length(self):
        other = made.noise(77, len(REEL))
        self.assertEqual(self.group(REEL, other), [[0], [1]])

    def test_a_short_copy_joins_what_it_is_a_front_of(self):
        self.assertEqual(self.group(REEL, OTHER, OTHER[:3000], REEL[:2500]), [[0, 3], [1, 2]])

    def test_the_size_that_a_header_claims(self):
        avi = b"RIFF" + (5000).to_bytes(4, "little") + bytes(90)
        mov = (20).to_bytes(4, "big") + b"ftyp" + bytes(12) + (1).to_bytes(4, "big") + b"mdat" + (9000).to_bytes(8, "big") + bytes(90)
        with made.opened(REEL, REEL[:400], avi, mov, mov[:20] + bytes(90), b"", bytes(50)) as copies:
            self.assertEqual([claimed_size(copy) for copy in copies], [len(REEL), len(REEL), 5008, 9020, None, None, None])

    def test_the_same_file_counts_once(self):
        with tempfile.TemporaryDirectory() as folder:
            one, link, empty = (os.path.join(folder, name) for name in ("one", "link", "empty"))
            with open(one, "wb") as file:
                file.write(REEL)
            with open(empty, "wb"):
                os.symlink(one, link)
            copies = [open_copy(path) for path in (one, link, empty)]
            files, left = group(copies)
            for copy in copies:
                os.close(copy.file)
        self.assertEqual(files, [[0]])
        self.assertEqual([(each.number, each.why, each.text()) for each in left],
                         [(1, Leaving.REPEATED, "it is the same file as copy 1"), (2, Leaving.EMPTY, "it is empty")])


def arranged(copies, scan=judge):
    """How copies serve, whose containers are known by their starts."""
    for copy in copies:
        copy.form = (by_start(copy) or NO_CONTAINER).name
    with tempfile.TemporaryDirectory() as work:
        return arrange(copies, scan, lambda number: judge_file(copies[number], scan), pathlib.Path(work))


class ArrangeTest(unittest.TestCase):
    def arrange(self, *contents):
        with made.opened(*contents) as copies:
            return arranged(copies)

    def test_copies_of_one_file_are_not_judged(self):
        def never(*_):
            raise AssertionError("judged")

        with made.opened(REEL, spoilt(REEL, 2)) as copies:
            arrangement = arranged(copies, never)
        self.assertEqual((arrangement.basis, arrangement.matched, len(arrangement.layout.frames)), ([0, 1], [], 10))

    def test_of_damaged_files_that_with_most_verified_bytes_is_the_basis(self):
        other = made.damaged(REWRAPPED, *(REWRAPPED.index(FRAMES[number][1]) + 30 for number in (7, 8, 9)))
        for contents in ([spoilt(REEL, 2), other], [other, spoilt(REEL, 2)]):
            arrangement = self.arrange(*contents)
            self.assertEqual(arrangement.basis, [contents.index(spoilt(REEL, 2))])
            self.assertEqual(len(arrangement.matched[0].places), 10)
        self.assertEqual(self.arrange(spoilt(REEL, 2), spoilt(REEL, 5), other).basis, [0, 1])

    def test_an_undamaged_copy_is_the_basis(self):
        for contents in ([spoilt(REEL, 2), REWRAPPED], [REWRAPPED, spoilt(REEL, 2)]):
            arrangement = self.arrange(*contents)
            self.assertEqual((arrangement.basis, arrangement.good), ([contents.index(REWRAPPED)], contents.index(REWRAPPED)))
        spoilt_ = made.damaged(MOVED, MOVED.index(FRAMES[2][1]) + 30)
        self.assertEqual((self.arrange(spoilt_, REWRAPPED).basis, self.arrange(REWRAPPED, spoilt_).basis), ([1], [0]))

    def test_a_file_with_frames_that_were_damaged_before_it_was_written_is_not_the_basis(self):
        damaged_before = matroska([*FRAMES[:2], (0.08, made.damaged(FRAMES[2][1], 20)), *FRAMES[3:]], seed=90)
        for contents in ([damaged_before, MOVED], [MOVED, damaged_before]):
            self.assertEqual(self.arrange(*contents).basis, [contents.index(MOVED)])

    def test_attachments_count_where_as_much_is_verified(self):
        more = made.ebml_header() + made.element(made.SEGMENT, CONTENT, made.element(0x1941A469, made.element(0x61A7, made.element(0x466E, b"name"))))
        for contents in ([more, MOVED], [MOVED, more]):
            arrangement = self.arrange(*contents)
            self.assertEqual(arrangement.basis, [contents.index(more)])
            with made.opened(*contents) as copies:
                self.assertRegex(arrangement.notes(copies)[-1], f"^OUT is copy {contents.index(more) + 1} as it is: no damage was found in it$")

    def test_the_first_of_undamaged_copies(self):
        self.assertEqual((self.arrange(REWRAPPED, REEL).basis, self.arrange(REEL, REWRAPPED).basis), ([0], [0]))

    def test_the_first_of_equals(self):
        self.assertEqual((self.arrange(REWRAPPED, MOVED).basis, self.arrange(MOVED, REWRAPPED).basis), ([0], [0]))

    def test_a_file_beside_one_that_is_ruined(self):
        ruined = made.damaged(OTHER, *(OTHER.index(frame(100 + number, 200, 150 + number)) + at for number in range(20) for at in (30, 330)))
        arrangement = self.arrange(ruined, matroska(FRAMES[:1], False))
        self.assertEqual((arrangement.basis, [(each.number, each.why) for each in arrangement.left]), ([1], [(0, Leaving.RUINED)]))

    def test_an_undamaged_file_is_the_basis_though_another_has_more_frames(self):
        front = matroska(FRAMES[:9])
        arrangement = self.arrange(front, spoilt(REEL, 4))
        self.assertEqual((arrangement.basis, len(arrangement.matched[0].unplaced)), ([0], 1))

    def test_a_cut_file_is_not_the_basis_where_the_rest_can_be_mended(self):
        front = made.damaged(matroska(FRAMES[:9]), matroska(FRAMES[:9]).index(FRAMES[6][1]) + 30)
        arrangement = self.arrange(front, spoilt(REEL, 4))
        self.assertEqual(arrangement.basis, [1])
        self.assertEqual(sorted(arrangement.matched[0].places), list(range(9)))

    def test_a_file_that_lost_bytes_is_distinguished_from_one_written_anew(self):
        cut = place_of(4) + 50
        self.assertTrue(self.arrange(spoilt(REEL, 7), REEL[:cut] + REEL[cut + 90 :]).matched[0].alignment)
        self.assertIsNone(self.arrange(spoilt(REEL, 7), REWRAPPED).matched[0].alignment)

    def test_two_other_recordings_are_refused(self):
        with self.assertRaisesRegex(Fault, "^other recordings: .*copy.0 and .*copy.1 have no slice in common"):
            self.arrange(spoilt(REEL, 3), OTHER)

    def test_another_recording_among_copies_is_left(self):
        for contents in ([OTHER, spoilt(REEL, 3), REEL], [REWRAPPED, OTHER, spoilt(REEL, 3)]):
            arrangement = self.arrange(*contents)
            self.assertEqual([(each.number, each.why) for each in arrangement.left], [(contents.index(OTHER), Leaving.OTHER)])
            self.assertNotIn(contents.index(OTHER), arrangement.basis)

    def test_what_is_no_container_is_left(self):
        arrangement = self.arrange(b"no container " * 99, bytes(5000), b"", spoilt(REEL, 3))
        self.assertEqual((arrangement.basis, [each.why for each in arrangement.left]), ([3], [Leaving.UNREAD, Leaving.UNREAD, Leaving.EMPTY]))

    def test_frames_are_found_in_a_file_whose_container_is_lost(self):
        begin = place_of(2)
        arrangement = self.arrange(REEL, made.noise(8, 300) + REEL[begin + 50 :])
        self.assertEqual(sorted(arrangement.matched[0].places), list(range(2, 10)))
        self.assertEqual(arrangement.matched[0].places[5], place_of(5) + 250 - begin)

    def test_frames_without_a_place_are_reported(self):
        damaged = bytearray(frame(56, 300))
        damaged[7] ^= 1
        other = matroska([*FRAMES[:4], (0.16, frame(55, 400)), (0.2, bytes(damaged))], seed=9)
        arrangement = self.arrange(other, spoilt(matroska(FRAMES[:3] + FRAMES[4:]), 1))
        matched = arrangement.matched[0]
        self.assertEqual(arrangement.basis, [1])
        self.assertEqual(([each.time for each in matched.unplaced], [each.time for each in matched.contrary]), ([0.12], [0.16]))

    def test_compressed_frames_are_video(self):
        packed = made.track(1, b"V_FFV1", 1, made.RECORD, more=made.element(0x6D80, made.element(0x6240, b"")))
        content = made.ebml_header() + made.element(made.SEGMENT, made.tracks(packed), made.cluster(0, made.block(1, 0, made.noise(1, 900))))
        arrangement = self.arrange(content, content)
        self.assertEqual((arrangement.basis, arrangement.layout.frames), ([0, 1], []))

    def test_a_file_that_lost_its_table_is_named(self):
        lost = (8).to_bytes(4, "big") + b"ftyp" + (9000).to_bytes(4, "big") + b"mdat" + made.noise(1, 2000)
        with self.assertRaisesRegex(Fault, "copy.0 has lost what says where its frames lie"):
            self.arrange(lost)

    def test_a_file_that_ffmpeg_refuses_is_named(self):
        """As where what describes the video to a decoder is damaged."""
        with made.opened(MOV, b"no container " * 99) as copies:
            for copy in copies:
                copy.probed = Probed()
            with self.assertRaisesRegex(Fault, r"^no FFV1 video was found in .*; FFmpeg can't read \S*copy.0, though its parts hang together[^;]*$"):
                arranged(copies)

    def test_no_video_at_all(self):
        with self.assertRaisesRegex(Fault, "no FFV1 video was found in .*copy.0; .*copy.1 is empty"):
            self.arrange(b"no container " * 99, b"")
