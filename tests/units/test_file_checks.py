"""What the program prints of a whole file, as it is read."""
import pathlib
import stat
import tempfile
import unittest

from mend_reel.engine.frame_checks import Line, TrackCount, check, read_report
from mend_reel.model import Fault
from . import made

REPORT = "at 4096 crc32 Cluster 30720\nat 9 endless Segment\ntrack 1 V_FFV1 blocks 5 checked 4\ntrack 2 - blocks 3 checked 3\nbytes 99 checked 7\nnot whole\n"


class ReportTest(unittest.TestCase):
    def test_lines_and_tracks(self):
        found = read_report(REPORT)
        self.assertEqual(found.lines, [Line(4096, ["crc32", "Cluster", "30720"]), Line(9, ["endless", "Segment"])])
        self.assertEqual((found.tracks, found.is_whole), ({1: TrackCount("V_FFV1", 5, 4), 2: TrackCount("-", 3, 3)}, False))
        self.assertEqual(read_report("bytes 0 checked 0\nwhole\n"), ([], {}, True))

    def test_what_is_no_report(self):
        for text in ("", "whole\n", REPORT.replace("not whole\n", ""), REPORT.replace("track 2", "trick 2"), REPORT + "whole\n"):
            self.assertIsNone(read_report(text))

    def checked(self, body):
        with tempfile.TemporaryDirectory() as folder, made.opened(b"film") as (copy,):
            program = pathlib.Path(folder, "program")
            program.write_text("#!/bin/sh\n" + body)
            program.chmod(program.stat().st_mode | stat.S_IXUSR)
            return check(str(program), copy, pathlib.Path(folder))

    def test_the_program_is_asked(self):
        whole = 'test "$1 $(cat "$2")" = "check film" && echo bytes 4 checked 0 && echo whole'
        self.assertTrue(self.checked(whole).is_whole)
        self.assertFalse(self.checked(f"cat <<'E'\n{REPORT}E\nexit 3").is_whole)

    def test_a_program_that_fails_or_contradicts_itself(self):
        for body in ("echo ffv1restore: memory >&2; exit 1", f"cat <<'E'\n{REPORT}E\nexit 0", "echo bytes 4 checked 0; echo whole; exit 3", "exit 0"):
            with self.assertRaises(Fault):
                self.checked(body)
