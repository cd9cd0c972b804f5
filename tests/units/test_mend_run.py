"""The lines that `ffv1restore mend` prints."""
import os
import pathlib
import stat
import tempfile
import unittest

from mend_reel.model import Content, Fault, Kind, Outcome, SliceReport, State, Stretch, What, open_copy
from mend_reel.engine.mend_run import ReportReader, mend

LINES = b"""stretch 1 crc32 whole 11-
stretch 2 crc32 woven 2 00-
  part 1
  4515..6117 settled 10-
  844..4515 woven 4 00-
  0..844 settled 01-
  end whole
  part 3
  90..99 voted 4 00-
  80..90 repaired 80 00-
  70..80 missing 00-
  end broken at 70
stretch 3 frame missing 01-
  11..22 disputed 01-
  end broken at 11
stretch 4 plain open 01-
"""
STRETCHES = [Stretch(Kind.PLAIN, 10 * number, 10, What(Content.UNKNOWN)) for number in range(4)]


def program(folder, body):
    """A program that does what a shell script says."""
    path = folder / "program"
    path.write_text(f"#!/bin/sh\n{body}\n")
    path.chmod(path.stat().st_mode | stat.S_IXUSR)
    return str(path)


class ReaderTest(unittest.TestCase):
    def test_each_stretch_with_its_slices(self):
        parts = {
            0: (SliceReport(4515, 6117, "settled", 0, "10-"), SliceReport(844, 4515, "woven", 4, "00-"), SliceReport(0, 844, "settled", 0, "01-")),
            2: (SliceReport(90, 99, "voted", 4, "00-"), SliceReport(80, 90, "repaired", 80, "00-"), SliceReport(70, 80, "missing", 0, "00-"), SliceReport(0, 70, "broken")),
        }
        wanted = [
            Outcome(0, State.WHOLE, 0, "11-"),
            Outcome(1, State.WOVEN, 2, "00-", parts),
            Outcome(2, State.MISSING, 0, "01-", {0: (SliceReport(11, 22, "disputed", 0, "01-"), SliceReport(0, 11, "broken"))}),
            Outcome(3, State.OPEN, 0, "01-"),
        ]
        self.assertEqual(list(ReportReader(LINES.splitlines(True)).outcomes()), wanted)

    def test_a_place_that_is_not_divided(self):
        lines = b"stretch 1 frame missing 00\n  30..40 settled 11\n  20..30 undivided 10\n  0..20 settled 01\n  end whole\n"
        slices = (SliceReport(30, 40, "settled", 0, "11"), SliceReport(20, 30, "undivided", 0, "10"), SliceReport(0, 20, "settled", 0, "01"))
        self.assertEqual(list(ReportReader(lines.splitlines(True)).outcomes()), [Outcome(0, State.MISSING, 0, "00", {0: slices})])

    def test_no_lines(self):
        self.assertEqual(list(ReportReader([]).outcomes()), [])


class MendTest(unittest.TestCase):
    def setUp(self):
        self.temporary = tempfile.TemporaryDirectory()
        self.folder = pathlib.Path(self.temporary.name)
        (self.folder / "lines").write_bytes(LINES)
        path = os.fsencode(self.folder) + b"/a \xff.mkv"
        with open(path, "wb") as file:
            file.write(b"abc")
        self.copy = open_copy(os.fsdecode(path))

    def tearDown(self):
        os.close(self.copy.file)
        self.temporary.cleanup()

    def mend(self, body):
        reported = []
        found = mend(program(self.folder, body), STRETCHES, self.folder / "list", str(self.folder / "out"), "OUT", [self.copy] * 3, self.folder, reported.append)
        return found, reported

    def test_what_is_damaged_is_returned_and_all_is_reported(self):
        found, reported = self.mend(f"cat {self.folder}/lines; exit 3")
        self.assertEqual(([outcome.number for outcome in found], reported), ([1, 2, 3], [10, 20, 30, 40]))

    def test_program_is_called_with_a_name_that_is_text(self):
        body = f'[ "$1" = mend ] && [ "$2" = {self.folder}/list ] && [ "$3" = {self.folder}/out ] && cmp -s "$4" {self.folder}/a*mkv || exit 1'
        self.mend(f"{body}\ncat {self.folder}/lines; exit 3")

    def test_status_that_is_not_what_the_lines_say_is_a_fault(self):
        with self.assertRaisesRegex(Fault, "did not report"):
            self.mend(f"cat {self.folder}/lines")

    def test_lines_that_are_missing_are_a_fault(self):
        with self.assertRaisesRegex(Fault, "did not report"):
            self.mend(f"head -n 1 {self.folder}/lines")

    def test_lines_that_are_none_are_a_fault(self):
        for lines in (r"\377", "nonsense", "stretch 1", "stretch 2 crc32 whole 111", "stretch 1 crc32 whole 1", "stretch 1 crc32 good 111",
                      r"stretch 1 crc32 whole 111\npart x", r"stretch 1 crc32 whole 111\npart 1\n12"):
            for status in (0, 3):
                with self.assertRaisesRegex(Fault, "did not report"):
                    self.mend(f"printf '{lines}\\n'; exit {status}")

    def test_each_stretch_has_its_number_and_a_mark_for_each_copy(self):
        lines = LINES.decode().splitlines(True)
        for change, status in ((lambda: [*lines[:-1], lines[-1].replace("stretch 4", "stretch 5")], 3),
                               (lambda: [lines[0].replace("11-", "11"), *lines[1:]], 3),
                               (lambda: [lines[0].replace("11-", "11-1"), *lines[1:]], 3), (lambda: lines[:-1], 3),
                               (lambda: ["stretch 1 plain agreed 111\n", "stretch 2 plain agreed 111\n", "stretch 3 plain agreed 111\n"], 0),
                               (lambda: [*lines, "stretch 5 plain open 011\n"], 3)):
            (self.folder / "changed").write_text("".join(change()))
            with self.assertRaisesRegex(Fault, "did not report"):
                self.mend(f"cat {self.folder}/changed; exit {status}")

    def test_fault_names_the_copy_itself(self):
        with self.assertRaises(Fault) as caught:
            self.mend('echo "ffv1restore: cannot read $4" >&2; exit 1')
        self.assertEqual(str(caught.exception), f"cannot read {self.copy.path}")

    def test_fault_names_out_itself(self):
        with self.assertRaises(Fault) as caught:
            self.mend('echo "ffv1restore: cannot write $3" >&2; exit 1')
        self.assertEqual(str(caught.exception), "cannot write OUT: No such file or directory")

    def test_fault_has_the_cause_that_the_system_gives(self):
        (self.folder / "out").symlink_to("/dev/full")
        with self.assertRaises(Fault) as caught:
            self.mend('echo "ffv1restore: cannot write $3" >&2; exit 1')
        self.assertEqual(str(caught.exception), "cannot write OUT: No space left on device")
        (self.folder / "out").unlink()
        (self.folder / "out").write_bytes(b"part")
        with self.assertRaisesRegex(Fault, "cannot write OUT: the program could not, though there is room now"):
            self.mend('echo "ffv1restore: cannot write $3" >&2; exit 1')

    def test_program_that_says_nothing_is_named(self):
        with self.assertRaisesRegex(Fault, "^ffv1restore ended with status 1 and no word, as where the folder of temporary files is full$"):
            self.mend("exit 1")

    def test_program_that_is_killed_is_a_fault(self):
        with self.assertRaisesRegex(Fault, r"^ffv1restore was ended by signal 9 \(Killed\), as where memory runs out$"):
            self.mend("kill -9 $$")

    def test_program_that_is_not_there_is_a_fault(self):
        with self.assertRaisesRegex(Fault, "cannot run .*none: No such file"):
            mend(str(self.folder / "none"), STRETCHES, self.folder / "list", "out", "OUT", [self.copy], self.folder, print)


if __name__ == "__main__":
    unittest.main()
