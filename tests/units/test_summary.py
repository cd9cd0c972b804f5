"""The lines that are printed."""
import unittest

from mend_reel.judging.results import Counts, Sums
from mend_reel.reports.summary import Unreadable, of_bytes, of_files, of_frames, share_of
from .test_reports import DAMAGED, summary
from .test_verdict import recording


class FilesTest(unittest.TestCase):
    def test_files_are_counted_by_what_was_found(self):
        entries = [Unreadable("", {}, [], "a.mkv", "cannot read a.mkv: Permission denied", status) for status in (0, 3, 1, 0, 3, 0)]
        self.assertEqual(of_files(entries), "6 files: 3 undamaged, 2 damaged, 1 unreadable")
        self.assertEqual(of_files(entries[:1] * 1200), "1,200 files: 1,200 undamaged, 0 damaged, 0 unreadable")
        self.assertEqual(entries[0].lines(), ["a.mkv could not be judged: cannot read a.mkv: Permission denied"])


class PrintedLinesTest(unittest.TestCase):
    def test_the_verdict_comes_first_and_then_the_counts(self):
        made = summary(recording(), *DAMAGED, notes=["a note"]).lines()
        self.assertEqual(made[0], "OUT is not known to be what was recorded: one place is in doubt.")
        self.assertEqual(made[1], "frames: 6, 2 damaged, 1 restored (1 woven), 1 not restored")
        self.assertRegex(made[2], r"^bytes: \d,\d+ verified \(\d\d\.\d %\), \d+ agreed, \d+ open$")
        self.assertRegex(made[3], r"^frame 1 .*: damaged in every copy")
        self.assertEqual(made[4], "a note")

    def test_of_frames_only_what_there_is_is_named(self):
        for counts, line in ((Counts(50), "frames: 50, 0 damaged"), (Counts(1234, 3, 3), "frames: 1,234, 3 damaged, 3 restored"),
                             (Counts(50, 3, 2, 1, 1), "frames: 50, 3 damaged, 2 restored (1 woven), 1 not restored"),
                             (Counts(50, 2, 0, 0, 2), "frames: 50, 2 damaged, 2 not restored")):
            self.assertEqual(of_frames(counts), line)

    def test_of_bytes_only_what_there_is_is_named(self):
        for sums, line in ((Sums(881357, 521), "bytes: 881,357 verified (99.9 %), 521 agreed"), (Sums(1), "bytes: 1 verified (100 %)"),
                           (Sums(0, 0, 5, 7), "bytes: 0 verified (0.0 %), 5 alone, 7 open"), (Sums(), "bytes: 0 verified (100 %)")):
            self.assertEqual(of_bytes(sums), line)

    def test_a_share_is_not_rounded_to_all(self):
        self.assertEqual(of_bytes(Sums(999999, 1)), "bytes: 999,999 verified (99.9 %), 1 agreed")
        self.assertEqual([share_of(part, 10000) for part in (10000, 9996, 9999, 1239, 9, 0)], ["100 %", "99.9 %", "99.9 %", "12.3 %", "0.0 %", "0.0 %"])


if __name__ == "__main__":
    unittest.main()
