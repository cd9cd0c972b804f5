"""Where the copies of a stretch differ."""
from __future__ import annotations

import random
import typing
import unittest

from mend_reel.copies import differences
from mend_reel.model import Content, Kind, Stretch, What
from . import made


def stretch(size: int, *places: typing.Optional[int], start: int = 0, kind: Kind = Kind.PLAIN) -> Stretch:
    return Stretch(kind, start, size, What(Content.SOUND, 2, 1.0), places, vouched=frozenset({1}))


def split(*contents: bytes, places: typing.Sequence[typing.Optional[int]] = (), size: int = 0) -> typing.List[typing.Tuple[int, int]]:
    """The parts of a stretch, which have to follow each other, and to be of the same bytes in each copy."""
    with made.opened(*contents) as copies:
        whole = stretch(size or len(contents[0]), *(places or [0] * len(contents)), start=1000)
        parts = differences.split(whole, copies)
        assert [part.start for part in parts] + [whole.end] == [1000] + [part.end for part in parts]
        for part in parts:
            assert part.places == tuple(None if place is None else place + part.start - 1000 for place in whole.places)
            assert (part.kind, part.what, part.vouched) == (whole.kind, whole.what, whole.vouched)
        return [(part.start - 1000, part.end - 1000) for part in parts]


class Split(unittest.TestCase):
    def test_agreed(self) -> None:
        for size in (1, 100, differences.PIECE, 2 * differences.PIECE + 1):
            self.assertEqual(split(*[made.noise(1, size)] * 3), [(0, size)])

    def test_where_copies_begin_and_end_to_differ(self) -> None:
        first = made.noise(1, 100)
        self.assertEqual(split(first, made.damaged(first, 30, 31, 32)), [(0, 30), (30, 33), (33, 100)])
        self.assertEqual(split(first, made.damaged(first, 0), first), [(0, 1), (1, 100)])
        self.assertEqual(split(first, first, made.damaged(first, 99)), [(0, 99), (99, 100)])
        self.assertEqual(split(first, bytes(byte ^ 1 for byte in first)), [(0, 100)])

    def test_short_agreed_runs(self) -> None:
        first = made.noise(1, 100)
        self.assertEqual(split(first, made.damaged(first, 30, 38)), [(0, 30), (30, 39), (39, 100)])
        self.assertEqual(split(first, made.damaged(first, 30, 39)), [(0, 30), (30, 31), (31, 39), (39, 40), (40, 100)])

    def test_other_copies_differ(self) -> None:
        """What changes is which copies are equal: runs of two damaged copies that touch, or overlap, stand apart."""
        first = made.noise(1, 100)
        self.assertEqual(split(first, made.damaged(first, 30, 31), made.damaged(first, 32)), [(0, 30), (30, 32), (32, 33), (33, 100)])
        self.assertEqual(split(first, made.damaged(first, 30, 31), made.damaged(first, 31, (32, first[32:33]))),
                         [(0, 30), (30, 31), (31, 32), (32, 100)])
        self.assertEqual(split(first, made.damaged(first, 30), made.damaged(first, 36)), [(0, 30), (30, 31), (31, 36), (36, 37), (37, 100)])

    def test_across_pieces(self) -> None:
        first = made.noise(1, 2 * differences.PIECE + 50)
        edge = differences.PIECE
        damaged = made.damaged(first, edge - 2, edge - 1, edge, edge + 1)
        self.assertEqual(split(first, damaged), [(0, edge - 2), (edge - 2, edge + 2), (edge + 2, len(first))])
        self.assertEqual(split(first, made.damaged(first, edge - 1), made.damaged(first, edge)),
                         [(0, edge - 1), (edge - 1, edge), (edge, edge + 1), (edge + 1, len(first))])

    def test_places(self) -> None:
        first = made.noise(1, 100)
        others = b"ab" + made.damaged(first, 50), b"unlike", first
        self.assertEqual(split(first, *others, places=(0, 2, None, 0)), [(0, 50), (50, 51), (51, 100)])
        self.assertEqual(split(first, b"unlike", places=(0, None)), [(0, 100)])

    def test_same_as_byte_by_byte(self) -> None:
        """Each part has one set of equal copies, but for agreed runs of less than eight bytes, and its neighbours another."""
        rot = random.Random(1)
        for _ in range(40):
            size, count = rot.choice([5, 200, 1500]), rot.choice([2, 3, 4])
            contents = [bytes(size)] * count
            for _ in range(6):
                place, copy = rot.randrange(size), rot.randrange(count)
                wrong = bytes(rot.randrange(3) for _ in range(min(rot.choice([1, 5, 40]), size - place)))
                contents[copy] = made.damaged(contents[copy], (place, wrong))
            labels = [tuple(next(at for at, other in enumerate(column) if other == byte) for byte in column) for column in zip(*contents)]
            agreed, before = (0,) * count, None
            for start, end in split(*contents):
                found = set(labels[start:end])
                self.assertLessEqual(len(found - {agreed}), 1)
                self.assertTrue(found == {agreed} or agreed not in (labels[start], labels[end - 1]))
                longest = max(map(len, "".join(".x"[label == agreed] for label in labels[start:end]).split(".")))
                self.assertTrue(found == {agreed} or longest < 8)
                self.assertNotEqual(found - {agreed}, before)
                before = found - {agreed}

    def test_hostile_differences(self) -> None:
        size = 1 << 20
        for step in (2, 9, 20, 40, 100):
            first = bytes(size)
            second = (b"\x01" + bytes(step - 1)) * (size // step) + bytes(size % step)
            for contents in ((first, second), (first, second, b"\x02" + first[1:])):
                self.assertLessEqual(len(split(*contents)), differences.MOST_RUNS)
        runs = (b"\x01" * 20 + bytes(20)) * 12 + bytes(32)
        self.assertEqual(split(runs * 2048, bytes(1 << 20), places=(0, 0)), [(0, 1 << 20)])
        pieces = bytes(differences.PIECE), b"\x01" + bytes(9) + (b"\x01" + bytes(9)) * (differences.PIECE // 10) + bytes(6)
        self.assertEqual([len(list(differences._runs([each[: differences.PIECE] for each in pieces], differences.PIECE)))],
                         [differences.PIECE // differences.SECTOR])
        apart = (b"\x01" + bytes(99)) * 5000 + bytes(1 << 19)
        self.assertEqual(split(bytes(100) + apart, bytes(100 + len(apart)), places=(100, 100), size=len(apart)),
                         [(0, 500224 - 100), (500224 - 100, len(apart))])
        wide = (b"\x01" + bytes(1023)) * 1024
        self.assertEqual(len(split(wide, bytes(1 << 20))), 2048)


class Partition(unittest.TestCase):
    def partition(self, contents: typing.Sequence[bytes], *places: typing.Optional[int]) -> differences.Partition:
        with made.opened(*contents) as copies:
            return differences.partition(stretch(len(contents[0]), *places, kind=Kind.ELEMENT), copies)

    def test_groups(self) -> None:
        first = made.noise(1, differences.PIECE + 100)
        second, third = made.damaged(first, 5), made.damaged(first, len(first) - 1)
        self.assertEqual(self.partition([first, first], 0, 0), ((0, 1),))
        self.assertEqual(self.partition([first, second, first, third], 0, 0, 0, 0), ((0, 2), (1,), (3,)))
        self.assertEqual(self.partition([first, second, third, third], 0, 0, 0, 0), ((0,), (1,), (2, 3)))
        self.assertEqual(self.partition([first, second, first], None, 0, 0), ((1,), (2,)))
        self.assertEqual(self.partition([first, b"x" + first], 0, 1), ((0, 1),))
        self.assertEqual(self.partition([first], None), ())


if __name__ == "__main__":
    unittest.main()
