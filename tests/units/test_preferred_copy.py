"""The copy FROM of each stretch."""
from __future__ import annotations

import dataclasses
import typing
import unittest
import zlib

from mend_reel.copies import known_wrong, preferred_copy
from mend_reel.model import Content, Kind, Stretch, What
from . import made

NOISE = made.noise(1, 4096)
ELEMENT = b"\xbf\x84" + zlib.crc32(NOISE).to_bytes(4, "little") + NOISE


def nothing(stretches: typing.Sequence[Stretch]) -> typing.Sequence[typing.FrozenSet[int]]:
    return [frozenset() for _ in stretches]


def plain(start: int, end: int, count: int, vouched: typing.Iterable[int] = (), kind: Kind = Kind.PLAIN) -> Stretch:
    return Stretch(kind, start, end - start, What(Content.SOUND), (start,) * count, vouched=frozenset(vouched))


class Case(unittest.TestCase):
    def choose(self, contents: typing.Sequence[bytes], *stretches: Stretch, health: typing.Sequence[int] = (), reads: typing.Sequence[bool] = (),
               judge: preferred_copy.Judge = nothing) -> typing.List[int]:
        """The source of each stretch; what was found of the copies is kept."""
        with made.opened(*contents) as copies:
            self.found = [preferred_copy.KnownDamage(each, preferred_copy.Sectors(copy.size), verified)
                          for copy, each, verified in zip(copies, reads or [True] * len(copies), health or [0] * len(copies))]
            cases = dict(preferred_copy.differing(stretches, copies, self.found, None))
            preferred_copy.judged(list(cases.values()), copies, judge)
            preferred_copy.decide(list(cases.values()), copies, self.found)
            return [cases[at].candidates[0] if at in cases else stretch.source for at, stretch in enumerate(stretches)]


class Rules(Case):
    def test_check_of_the_container(self) -> None:
        wrong = made.damaged(NOISE, 100, 101)
        self.assertEqual(self.choose([wrong, wrong, NOISE], plain(90, 110, 3, {2}), health=[9, 9, 0]), [2])
        self.assertEqual(self.choose([NOISE, NOISE, wrong], plain(90, 110, 3, {0, 1})), [0])
        self.assertTrue(self.found[2].damaged.touch(100, 101))
        self.assertFalse(self.found[0].damaged.touch(0, 4096))
        self.assertEqual(self.choose([wrong, NOISE, made.damaged(NOISE, 105)], plain(90, 110, 3, {1, 2}), health=[9, 1, 2]), [2])
        self.assertFalse(self.found[0].damaged.touch(0, 4096))

    def test_element(self) -> None:
        wrong = made.damaged(ELEMENT, 1000)
        whole = plain(0, len(ELEMENT), 3, kind=Kind.ELEMENT)
        self.assertEqual(self.choose([wrong, ELEMENT, wrong], whole), [1])
        self.assertEqual([each.verified for each in self.found], [0, len(ELEMENT), 0])
        self.assertEqual([each.damaged.count() for each in self.found], [1, 0, 1])
        self.assertTrue(self.found[0].damaged.touch(1000, 1001))

    def test_frames_are_judged_once(self) -> None:
        calls: typing.List[typing.Sequence[Stretch]] = []

        def judge(stretches: typing.Sequence[Stretch]) -> typing.Sequence[typing.FrozenSet[int]]:
            calls.append(stretches)
            return [frozenset({1}) for _ in stretches]

        wrong = made.damaged(NOISE, 100, 700)
        stretches = [plain(start, start + 500, 2, kind=Kind.FRAME) for start in (0, 500, 1000)]
        self.assertEqual(self.choose([wrong, NOISE], *stretches, judge=judge), [1, 1, 0])
        self.assertEqual(calls, [stretches[:2]])
        self.assertEqual([each.verified for each in self.found], [500, 1500])

    def test_lost_sector(self) -> None:
        """Zero bytes in a stretch, or across one end of it, are a lost sector."""
        zero = made.damaged(NOISE, (1024, bytes(512)))
        for start, end in ((1024, 1536), (900, 1100), (1500, 1600), (1535, 1536), (1024, 1025)):
            for contents, source in (([zero, NOISE], 1), ([NOISE, zero], 0), ([zero, zero, NOISE], 2)):
                self.assertEqual(self.choose(contents, plain(start, end, len(contents)), health=[9] * (len(contents) - 1) + [0]), [source])
        self.assertTrue(self.found[0].damaged.touch(1024, 1025))

    def test_shorter_run_of_zeros(self) -> None:
        zero = made.damaged(NOISE, (1024, bytes(511)), (1023, b"x"), (1535, b"x"))
        self.assertEqual(self.choose([zero, NOISE], plain(1024, 1535, 2)), [0])

    def test_silence_with_a_wrong_byte(self) -> None:
        silence = bytes(4096)
        self.assertEqual(self.choose([made.damaged(silence, 2000), silence], plain(2000, 2001, 2), health=[0, 1]), [1])
        self.assertEqual(self.choose([silence, made.damaged(silence, 2000)], plain(2000, 2001, 2), health=[1, 0]), [0])

    def test_vote(self) -> None:
        wrong, other = made.damaged(NOISE, 100), made.damaged(NOISE, (100, b"?"))
        self.assertEqual(self.choose([wrong, NOISE, NOISE], plain(100, 101, 3), health=[9, 0, 0]), [1])
        self.assertEqual(self.choose([wrong, NOISE, NOISE], plain(100, 101, 3), reads=[True, True, False], health=[0, 9, 0]), [1])
        self.assertEqual(self.choose([wrong, NOISE, NOISE], plain(100, 101, 3), reads=[True, False, False]), [0])
        self.assertEqual(self.choose([wrong, other, NOISE], plain(100, 101, 3), health=[0, 0, 5]), [2])
        self.assertEqual(self.choose([wrong, wrong, NOISE, NOISE], plain(100, 101, 4), health=[0, 0, 0, 5]), [3])

    def test_no_vote_of_a_copy_that_is_damaged_there(self) -> None:
        """Two copies lost the same sector, in part within an element that the third has whole: they do not outvote it."""
        file = ELEMENT + NOISE[:400]
        lost = made.damaged(file, (3900, b"?" * 500))
        element, rest = plain(0, len(ELEMENT), 3, kind=Kind.ELEMENT), plain(len(ELEMENT), 4400, 3)
        self.assertEqual(self.choose([lost, lost, file], element, rest, health=[9999999, 9999999, 0]), [2, 2])

    def test_healthiest(self) -> None:
        wrong = made.damaged(NOISE, 100)
        self.assertEqual(self.choose([wrong, NOISE], plain(100, 101, 2), health=[1, 2]), [1])
        self.assertEqual(self.choose([wrong, NOISE], plain(100, 101, 2), health=[2, 1]), [0])
        self.assertEqual(self.choose([wrong, NOISE], plain(100, 101, 2), health=[2, 2]), [0])
        file = ELEMENT + NOISE
        element, rest = plain(0, len(ELEMENT), 2, kind=Kind.ELEMENT), plain(8000, 8100, 2)
        self.assertEqual(self.choose([made.damaged(file, 50, 8050), file], element, rest), [1, 1])

    def test_healthiest_by_damage_alone(self) -> None:
        wrong = made.damaged(NOISE, 100, (1024, bytes(512)))
        self.assertEqual(self.choose([wrong, NOISE], plain(100, 101, 2), plain(1024, 1536, 2)), [1, 1])

    def test_only_copies_that_have_it(self) -> None:
        stretch = dataclasses.replace(plain(100, 200, 3), places=(None, 100, 100))
        self.assertEqual(self.choose([NOISE, made.damaged(NOISE, 150), NOISE], stretch, health=[9, 0, 1]), [2])

    def test_a_copy_in_which_nothing_is_wrong_comes_before_rules_about_zeros(self) -> None:
        """A good copy has zeros of its own, where a damaged one has bytes of another place."""
        file = ELEMENT + bytes(2048)
        spilt = made.damaged(file, 1000, (len(ELEMENT) + 600, NOISE[:600]))
        element, rest = plain(0, len(ELEMENT), 2, kind=Kind.ELEMENT), plain(len(ELEMENT) + 600, len(ELEMENT) + 1200, 2)
        self.assertEqual((self.choose([spilt, file], element, rest), self.choose([file, spilt], element, rest)), ([1, 1], [0, 0]))

    def test_a_copy_that_can_not_be_read_is_not_without_damage(self) -> None:
        filled = made.damaged(bytes(600) + NOISE, (0, b"\xff" * 512))
        for contents, reads, source in (([filled, bytes(600) + NOISE], [False, True], 1), ([bytes(600) + NOISE, filled], [True, False], 0)):
            self.assertEqual(self.choose(contents, plain(0, 512, 2), reads=reads), [source])

    def test_a_sector_that_was_filled(self) -> None:
        filled = made.damaged(NOISE, (1024, b"\xee" * 512))
        self.assertEqual((self.choose([filled, NOISE], plain(1024, 1536, 2)), self.choose([NOISE, filled], plain(1024, 1536, 2))), ([1], [0]))

    def test_a_last_sector_that_is_shorter(self) -> None:
        content = NOISE[:2000]
        lost = content[:1536] + bytes(464)
        self.assertEqual(self.choose([lost, content], plain(1536, 2000, 2)), [1])
        self.assertEqual(self.choose([content[:1600] + bytes(400), content], plain(1600, 2000, 2)), [0])


class Lost(unittest.TestCase):
    def seems_lost(self, stretch: Stretch, *contents: bytes) -> typing.List[bool]:
        """Of each copy whether it seems to have lost a sector there."""
        with made.opened(*contents) as copies:
            numbers = range(len(copies))
            return [known_wrong.has_lost_sector(stretch, copies, number, numbers) for number in numbers]

    def test_a_sector_of_one_value_where_another_copy_has_more(self) -> None:
        zero = made.damaged(NOISE, (1024, bytes(512)))
        self.assertEqual(self.seems_lost(plain(1024, 1536, 3), NOISE, zero, NOISE), [False, True, False])
        self.assertEqual(self.seems_lost(plain(1024, 1536, 2), zero, made.damaged(NOISE, (1024, b"\xff" * 512))), [False, False])

    def test_a_run_that_goes_on_in_all_copies_is_content(self) -> None:
        silent = made.damaged(NOISE, (512, bytes(2048)))
        stretch = dataclasses.replace(plain(1024, 1100, 2), part_of=(512, 2560))
        self.assertEqual(self.seems_lost(stretch, silent, made.damaged(silent, *range(1024, 1100))), [False, False])
        # It begins with the part and goes to its end in all copies.
        self.assertEqual(self.seems_lost(dataclasses.replace(stretch, part_of=(1024, 1100)), silent, made.damaged(silent, *range(1024, 1100))), [True, False])


class Sectors(unittest.TestCase):
    def test_marks(self) -> None:
        sectors = preferred_copy.Sectors(512 * 20 + 1)
        sectors.mark(511, 513)
        sectors.mark(512 * 20, 512 * 20 + 1)
        self.assertEqual(sectors.count(), 3)
        self.assertEqual([sectors.touch(*each) for each in ((0, 1), (1023, 1024), (1024, 9000), (512 * 20, 512 * 20 + 1))],
                         [True, True, False, True])

    def test_of_shifted_places(self) -> None:
        """What is marked are the sectors of the wrong copy's own file."""
        shifted = bytes(300) + made.damaged(ELEMENT, 600, 900)
        stretch = Stretch(Kind.ELEMENT, 0, len(ELEMENT), What(Content.TAGS), (0, 300))
        with made.opened(ELEMENT, shifted) as copies:
            found = [preferred_copy.KnownDamage(True, preferred_copy.Sectors(copy.size)) for copy in copies]
            cases = [case for _, case in preferred_copy.differing([stretch], copies, found, None)]
            preferred_copy.judged(cases, copies, nothing)
            preferred_copy.decide(cases, copies, found)
        self.assertEqual([found[1].damaged.touch(at, at + 1) for at in (511, 512, 1023, 1024, 1535, 1536)],
                         [False, True, True, True, True, False])
        self.assertEqual(found[1].damaged.count(), 2)


if __name__ == "__main__":
    unittest.main()
