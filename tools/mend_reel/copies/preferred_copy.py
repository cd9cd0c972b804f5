"""The copy FROM of each stretch: whose bytes OUT has where no checksum decides."""
from __future__ import annotations

import dataclasses
from collections.abc import Callable, Container, Iterable, Iterator, Sequence, Set

from ..containers import ebml
from ..model import Because, Content, Copy, Kind, Layout, Stretch
from . import differences
from .differences import PIECE, SECTOR
from .known_wrong import differ_widely, has_lost_sector

# What is no part of how a file hangs together.
PLAYED = frozenset({Content.SOUND, Content.VIDEO, Content.SUBTITLES, Content.FRAME, Content.CLUSTER})
Numbers = frozenset[int]
# Returns for each of some frames the copies that have it with all its slices passing.
Judge = Callable[[Sequence[Stretch]], Sequence[Numbers]]


class Sectors:
    """The sectors of a file in which bytes are known to be wrong."""

    def __init__(self, size: int) -> None:
        self._bits = bytearray((size + 8 * SECTOR - 1) // (8 * SECTOR))

    def mark(self, start: int, end: int) -> None:
        for number in range(start // SECTOR, (end - 1) // SECTOR + 1):
            self._bits[number >> 3] |= 1 << (number & 7)

    def touch(self, start: int, end: int) -> bool:
        """Reports whether one of them has bytes of a range."""
        return any(self._bits[number >> 3] >> (number & 7) & 1 for number in range(start // SECTOR, (end - 1) // SECTOR + 1))

    def count(self) -> int:
        return bin(int.from_bytes(self._bits, "big")).count("1")


@dataclasses.dataclass
class KnownDamage:
    """What is known of a copy: whether its container can be read to its end, the sectors in which bytes are wrong, and how many bytes of
    elements and frames pass their checksums, or are as in all copies that have them."""

    reads: bool
    damaged: Sectors
    verified: int = 0


@dataclasses.dataclass
class Case:
    """A stretch in which copies differ: those with equal bytes, those that pass, those that may serve, and the rule that decided."""

    stretch: Stretch
    groups: differences.Partition
    passing: Numbers
    candidates: list[int]
    because: Because = Because.ALONE

    def place(self, number: int) -> int:
        return self.stretch.places[number] or 0

    def narrow(self, serving: Iterable[int], rule: Because) -> None:
        """Keeps those candidates that a rule names, if it names some. The rule after which all that are left have equal bytes decides."""
        self.candidates = sorted(set(serving).intersection(self.candidates)) or self.candidates
        if self.because is Because.ALONE and any(set(self.candidates).issubset(group) for group in self.groups):
            self.because = rule


def choose(layout: Layout, copies: Sequence[Copy], reads: Sequence[bool], judge: Judge, unlike: Container[int] | None = None
           ) -> dict[int, Stretch]:
    """Returns the stretches in which copies differ, with their sources, by their numbers. `reads` says whose container can be read, and
    `judge` is called once, with the frames in which copies differ. Only the stretches of the numbers `unlike` are compared, where it is
    known that all others are alike in all copies."""
    found = [KnownDamage(can_be_read, Sectors(copy.size)) for copy, can_be_read in zip(copies, reads)]
    for copy, known in zip(copies, found):
        for start, end in copy.unread:
            known.damaged.mark(start, end)
    cases = dict(differing(layout.stretches, copies, found, unlike))
    judged(list(cases.values()), copies, judge)
    decide(list(cases.values()), copies, found)
    return {at: dataclasses.replace(case.stretch, source=case.candidates[0], because=case.because) for at, case in cases.items()}


def follow(stretch: Stretch, number: int) -> Stretch:
    """Returns a stretch that is taken from a copy whose container shows most frames, if it is of how the file hangs together."""
    if stretch.kind is not Kind.PLAIN or stretch.what.content in PLAYED or stretch.places[number] is None:
        return stretch
    return dataclasses.replace(stretch, source=number, because=Because.SHOWS)


def without_broken(stretch: Stretch, broken: Set[int]) -> Stretch:
    """Returns a stretch of how the file hangs together without the versions of some copies, whose own parts do not."""
    if stretch.kind is not Kind.PLAIN or stretch.is_alike or stretch.what.content in PLAYED:
        return stretch
    return dataclasses.replace(stretch, places=tuple(None if number in broken else place for number, place in enumerate(stretch.places)))


def differing(stretches: Iterable[Stretch], copies: Sequence[Copy], found: Sequence[KnownDamage], unlike: Container[int] | None
              ) -> Iterator[tuple[int, Case]]:
    """Yields the stretches in which copies differ. Of the others each copy that has them is verified, but for plain ones."""
    for at, stretch in enumerate(stretches):
        having = stretch.having()
        groups = differences.partition(stretch, copies) if unlike is None or at in unlike else (tuple(having),)
        if len(groups) > 1:
            yield at, Case(stretch, groups, stretch.vouched.intersection(having), having)
        for number in having if len(groups) == 1 and stretch.kind is not Kind.PLAIN else ():
            found[number].verified += stretch.size


def judged(cases: Sequence[Case], copies: Sequence[Copy], judge: Judge) -> None:
    """Sees what passes: elements by their CRC-32s, frames as they are judged."""
    frames = [case for case in cases if case.stretch.kind is Kind.FRAME]
    for case, passing in zip(frames, judge([case.stretch for case in frames]) if frames else ()):
        case.passing = frozenset(passing).intersection(case.candidates)
    for case in (case for case in cases if case.stretch.kind is Kind.ELEMENT):
        case.passing = frozenset(number for group in case.groups if ebml.passes_in(case.stretch, copies, group[0]) for number in group)


def decide(cases: Sequence[Case], copies: Sequence[Copy], found: Sequence[KnownDamage]) -> None:
    """Leaves one candidate of each case, by the rules in their order, and notes what is known of each copy."""
    for case in cases:
        case.narrow(case.passing, Because.CONFIRMED)
        note(case, copies, found)
    sound = [number for number, each in enumerate(found) if each.reads and not each.damaged.count()]
    for case in cases:
        # A copy in which nothing is known to be wrong comes before any sector that seems to be lost.
        lost = [number for number in case.candidates if has_lost_sector(case.stretch, copies, number, case.candidates)]
        kept = [number for number in case.candidates if number not in lost] if lost else []
        kept = kept if any(differ_widely(case.stretch, copies, lost[0], other) for other in kept) else []
        case.narrow(sound if kept else (), Because.SOUND)
        for number in case.candidates if kept and case.stretch.kind is Kind.PLAIN else ():
            if number not in kept:
                found[number].damaged.mark(case.place(number), case.place(number) + case.stretch.size)
        case.narrow(kept, Because.NOT_LOST)
    ranks = [(-each.verified, each.damaged.count()) for each in found]
    for case in cases:
        case.narrow([number for number in case.candidates
                     if not found[number].damaged.touch(case.place(number), case.place(number) + case.stretch.size)], Because.UNDAMAGED)
        voters = [number for number in case.candidates if found[number].reads]
        most = next((group for group in case.groups if 2 * sum(number in group for number in voters) > len(voters)), ())
        case.narrow([number for number in voters if number in most], Because.MOST)
        case.narrow(sound, Because.SOUND)
        best = min(ranks[number] for number in case.candidates)
        case.narrow([number for number in case.candidates if ranks[number] == best], Because.HEALTHIEST)
        case.narrow(case.candidates[:1], Because.FIRST)


# ---- what is known to be wrong


def note(case: Case, copies: Sequence[Copy], found: Sequence[KnownDamage]) -> None:
    """Counts what passes, and marks the sectors in which the other copies differ from it."""
    right = [group for group in case.groups if case.passing.issuperset(group)]
    for number in case.passing if case.stretch.kind is not Kind.PLAIN else ():
        found[number].verified += case.stretch.size
    for group in case.groups if len(right) == 1 else ():
        if case.passing.isdisjoint(group):
            mark_differences(case, copies, right[0][0], group, found)


def mark_differences(case: Case, copies: Sequence[Copy], right: int, wrong: Sequence[int], found: Sequence[KnownDamage]) -> None:
    """Marks the sectors in which copies with equal bytes differ from one that is right."""
    for offset in range(0, case.stretch.size, PIECE):
        size = min(PIECE, case.stretch.size - offset)
        ours, theirs = (copies[number].read(case.place(number) + offset, size) for number in (right, wrong[0]))
        for start in range(0, len(ours) if ours != theirs else 0, SECTOR):
            pairs = zip(ours[start : start + SECTOR], theirs[start : start + SECTOR])
            unequal = [offset + start + at for at, (one, other) in enumerate(pairs) if one != other]
            for number in wrong if unequal else ():
                found[number].damaged.mark(case.place(number) + unequal[0], case.place(number) + unequal[-1] + 1)
