"""Versions of a stretch that are wrong, or seem so: element headers that lead nowhere, and sectors that were lost."""
from __future__ import annotations

import collections
import re
from collections.abc import Iterable, Sequence

from ..judging.unread import only
from ..model import Content, Copy, Kind, Stretch
from . import differences
from .differences import PIECE, SECTOR

# A sector that was lost has one value all over: zero, or what the program that read it filled it with.
FILLING = re.compile(rb"(.)\1{%d,}" % (SECTOR - 1), re.DOTALL)
# Copies that differ in fewer bytes than this around a stretch do not show a lost sector: one of silence with a wrong byte looks the same.
FEWEST_LOST = 16


# ---- element headers


def drop_broken(stretches: Iterable[Stretch], copies: Sequence[Copy]) -> tuple[list[Stretch], collections.Counter[int]]:
    """Takes away the place of a copy in an element's header where it has other bytes than the copies whose headers the container confirms:
    the size of an element and its ID are right where they lead on. Returns the stretches, and how many places were taken away by copy."""
    dropped: collections.Counter[int] = collections.Counter()
    made = []
    for stretch in stretches:
        may_be = stretch.kind is Kind.PLAIN and not stretch.is_alike and stretch.what.content is Content.FRAMING and stretch.vouched
        groups = differences.partition(stretch, copies) if may_be else ()
        right = [group for group in groups if not stretch.vouched.isdisjoint(group)]
        if len(groups) > 1 and len(right) == 1:
            dropped.update(number for group in groups if group is not right[0] for number in group)
            stretch = only(stretch, right[0])
        made.append(stretch)
    return made, dropped


# ---- sectors that were lost


def around(stretch: Stretch, number: int) -> tuple[int, int]:
    """Returns the range of a copy in which a lost sector would lie that has bytes of a stretch."""
    place = stretch.places[number] or 0
    return max(place - SECTOR + 1, 0), place + stretch.size + SECTOR - 1


def has_lost_sector(stretch: Stretch, copies: Sequence[Copy], number: int, others: Iterable[int]) -> bool:
    """Whether a copy has one value all over a sector at a stretch, or zeros in a short last one, where another has more values. A run that
    goes on in all copies beside the stretch is content."""
    start, end = around(stretch, number)
    shifts = [(other, (stretch.places[other] or 0) - (stretch.places[number] or 0)) for other in others if other != number]
    for place in range(start, end, PIECE):
        piece = copies[number].read(place, min(PIECE + SECTOR - 1, end - place))
        runs, tail = [match.span() for match in FILLING.finditer(piece)], (place + len(piece)) % SECTOR
        if place + len(piece) == copies[number].size and tail and not any(piece[-tail:]):
            runs.append((len(piece) - tail, len(piece)))
        for first, last in ((place + first, place + last) for first, last in runs):
            theirs = (copies[other].read(max(first + shift, 0), last - first) for other, shift in shifts)
            if any(each.count(each[:1]) < len(each) for each in theirs) and not goes_on(stretch, copies, number, (first, last), shifts):
                return True
    return False


def goes_on(stretch: Stretch, copies: Sequence[Copy], number: int, run: tuple[int, int], shifts: Sequence[tuple[int, int]]) -> bool:
    """Whether a run of one value in a copy goes on in all copies beside a stretch, within the part that this was cut of: silence or padding.
    One that begins within a part and goes to its end is a lost sector."""
    place, whole = stretch.places[number] or 0, stretch.part_of or (stretch.start, stretch.end)
    first, last = (place - stretch.start + bound for bound in whole)
    if first < run[0] < last <= run[1]:
        return False
    sides = ((max(run[0], first), place), (place + stretch.size, min(run[1], last)))
    return any(end - start >= FEWEST_LOST and all(copies[other].read(start + shift, end - start) == copies[number].read(start, end - start)
                                                  for other, shift in shifts) for start, end in sides)


def differ_widely(stretch: Stretch, copies: Sequence[Copy], one: int, other: int) -> bool:
    """Reports whether two copies differ in many bytes in a stretch and around it."""
    if stretch.size >= FEWEST_LOST * differences.SHORTEST_AGREED:
        return True
    ours, theirs = (copies[number].read(start, end - start) for number in (one, other) for start, end in [around(stretch, number)])
    return sum(map(int.__ne__, ours, theirs)) >= FEWEST_LOST
