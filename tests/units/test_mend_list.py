"""The list that the program mends by."""
from __future__ import annotations

import dataclasses
import pathlib
import tempfile
import typing
import unittest

from mend_reel.engine import mend_run as mend_list
from mend_reel.model import Content, Fault, Frame, Kind, Stretch, What

Places = typing.Tuple[typing.Optional[int], ...]


def stretch(kind: Kind, start: int, size: int, places: Places, source: int = 0, parts: typing.Sequence[typing.Tuple[int, int]] = ()) -> Stretch:
    frames = tuple(Frame(1, 0.0, place, length) for place, length in parts)
    return Stretch(kind, start, size, What(Content.UNKNOWN), places, frames, source=source)


def write(*stretches: Stretch) -> typing.Tuple[typing.List[str], mend_list.Listed]:
    listed = mend_list.list_of(iter(stretches))
    with tempfile.TemporaryDirectory() as folder:
        mend_list.write_list(listed, path := pathlib.Path(folder, "list"))
        return path.read_text().splitlines(), listed


class Lines(unittest.TestCase):
    def test_kinds_and_parts(self) -> None:
        first = stretch(Kind.PLAIN, 0, 40, (0, 5, None))
        second = stretch(Kind.ELEMENT, 40, 100, (40, 45, 7), 2, [(46, 10), (60, 80)])
        third = stretch(Kind.FRAME, 140, 22, (None, 145, 107), 1, [(140, 22)])
        lines, listed = write(first, second, third)
        self.assertEqual(lines, ["plain 40 1 0 5 -", "crc32 100 3 40 45 7", "part 6 10", "part 20 80", "frame 22 2 - 145 107"])
        self.assertEqual(listed, [first, second, third])

    def test_records_and_frames_of_flac(self) -> None:
        record, sound = stretch(Kind.RECORD, 0, 40, (0, 5)), stretch(Kind.FLAC, 40, 30, (40, 45))
        element = dataclasses.replace(stretch(Kind.ELEMENT, 70, 100, (70, 75), 0, [(90, 10)]), sound=((80, 10), (110, 20), (165, 9)))
        lines, listed = write(record, sound, element)
        self.assertEqual(lines, ["record 40 1 0 5", "flac 30 1 40 45", "crc32 100 1 70 75", "part 10 10 flac", "part 20 10", "part 40 20 flac"])
        self.assertEqual(listed[2].sound, ((80, 10), (110, 20)))

    def test_places_that_do_not_rise(self) -> None:
        lines, listed = write(stretch(Kind.PLAIN, 0, 10, (100, 0)), stretch(Kind.PLAIN, 10, 10, (109, 10)), stretch(Kind.PLAIN, 20, 10, (110, 19)),
                              stretch(Kind.PLAIN, 30, 10, (120, 20), 1))
        self.assertEqual(lines, ["plain 10 1 100 0", "plain 10 2 - 10", "plain 10 1 110 -", "plain 10 2 120 20"])
        self.assertEqual([each.source for each in listed], [0, 1, 0, 1])

    def test_a_stretch_that_no_copy_has_is_a_mistake(self) -> None:
        with self.assertRaisesRegex(Fault, "^no copy has the bytes from 10 on"):
            write(stretch(Kind.PLAIN, 10, 10, (None, None)))

    def test_source_that_lacks_it(self) -> None:
        self.assertEqual(write(stretch(Kind.PLAIN, 0, 10, (None, 3), 0))[0], ["plain 10 2 - 3"])

    def test_parts_that_would_be_refused(self) -> None:
        parts = [(5, 1), (6, 4), (9, 5), (10, 0), (10, 5), (90, 11), (95, 5)]
        lines, listed = write(stretch(Kind.ELEMENT, 0, 100, (0,), 0, parts))
        self.assertEqual(lines, ["crc32 100 1 0", "part 6 4", "part 10 5", "part 95 5"])
        self.assertEqual([frame.place for frame in listed[0].parts], [6, 10, 95])

    def test_sizes(self) -> None:
        most = 1 << 30
        lines, listed = write(stretch(Kind.PLAIN, 0, 0, (0,)), stretch(Kind.ELEMENT, 0, most, (0,)), stretch(Kind.FRAME, most, 2 * most + 1, (most,)))
        self.assertEqual(lines, [f"crc32 {most} 1 0", f"plain {most} 1 {most}", f"plain {most} 1 {2 * most}", f"plain 1 1 {3 * most}"])
        self.assertEqual([each.start for each in listed], [0, most, 2 * most, 3 * most])

    def test_many(self) -> None:
        lines, _ = write(*(stretch(Kind.PLAIN, at, 1, (at, at)) for at in range(2000)))
        self.assertEqual((len(lines), lines[-1]), (2000, "plain 1 1 1999 1999"))


if __name__ == "__main__":
    unittest.main()
