"""Mapfiles of GNU ddrescue."""
import pathlib
import tempfile
import unittest

from mend_reel.model import Copy, Fault
from mend_reel.program.ddrescue_maps import unread

REAL = pathlib.Path(__file__).resolve().parent.parent / "real/avi-pcm"
HEAD = "# Mapfile. Created by GNU ddrescue version 1.27\n0x00002E00     +               1\n"


class MapTest(unittest.TestCase):
    def of_text(self, text, size):
        with tempfile.TemporaryDirectory() as folder:
            path = pathlib.Path(folder) / "map"
            path.write_bytes(text.encode())
            try:
                return unread(str(path), Copy("a.avi", 0, size))
            except Fault as fault:
                return str(fault).replace(str(path), "MAP")

    def test_maps_that_ddrescue_wrote(self):
        copy = Copy("a.avi", 0, (REAL / "reel.avi").stat().st_size)
        self.assertEqual(unread(str(REAL / "lost-sector.map"), copy), [(10752, 11264)])
        self.assertEqual(unread(str(REAL / "untrimmed.map"), Copy("a.avi", 0, 4096)), [(0, 2048)])

    def test_all_but_what_is_finished_is_unread(self):
        blocks = "0x0 0x10 +\n0x10 0x10 ?\n0x20 0x10 *\n0x30 0x10 /\n0x40 0x10 -\n0x50 0x10 +\n0x60 0x10 -\n"
        self.assertEqual(self.of_text(HEAD + blocks, 0x70), [(0x10, 0x50), (0x60, 0x70)])
        self.assertEqual(self.of_text(HEAD + blocks, 0x65), [(0x10, 0x50), (0x60, 0x65)])
        self.assertEqual(self.of_text(HEAD + blocks, 0x30), [(0x10, 0x30)])

    def test_numbers_as_they_are_in_c(self):
        self.assertEqual(self.of_text("0 ?\n0 010 -\n8 0XA +\n18 2 -\n", 20), [(0, 8), (18, 20)])

    def test_what_lies_before_the_first_block_was_not_tried(self):
        self.assertEqual(self.of_text(HEAD + "0x10 0x10 +\n", 0x20), [(0, 0x10)])

    def test_the_map_of_another_file_is_a_fault(self):
        self.assertEqual(self.of_text(HEAD + "0x0 0x10 +\n", 0x11), "MAP is the map of another file: it ends at 16, and a.avi has 17 bytes")
        self.assertEqual(self.of_text(HEAD, 5), "MAP is the map of another file: it ends at 0, and a.avi has 5 bytes")

    def test_what_is_no_map_is_a_fault(self):
        for text, line in (("", 1), ("# only a comment\n", 1), ("RIFF", 1), ("0x0 +\n0x0 0x10\n", 2), (HEAD + "0x0 0x10 x\n", 3),
                           (HEAD + "0x0 0x10 +\n0x20 0x10 -\n", 4), (HEAD + "0x0 0x10 +\n0x8 0x10 -\n", 4), (HEAD + "-1 0x10 +\n", 3),
                           (HEAD + "0x0 1e3 +\n", 3), ("\0" * 5000, 1)):
            self.assertEqual(self.of_text(text, 16), f"MAP is no mapfile of GNU ddrescue: see its line {line}")

    def test_a_map_that_is_not_there_is_a_fault(self):
        with self.assertRaisesRegex(Fault, "cannot read none: No such file"):
            unread("none", Copy("a", 0, 1))


if __name__ == "__main__":
    unittest.main()
