"""Where the bytes of one copy of a file lie in another that lost or gained bytes: at one shift between two places that have that shift."""
from __future__ import annotations

import dataclasses
import os
from typing import NamedTuple

from ..model import Copy

# How many places are compared, how far apart they are at least and at most, how many bytes each has, and how many of them are values.
PLACES, MOST_PLACES, LEAST_STEP, MOST_STEP, CHUNK, VALUES = 64, 1024, 256, 4096, 64, 16
# How far away bytes are looked for that are not where they are expected, and how often.
WINDOW, MOST_SEARCHES, MOST_SHIFTS, AHEAD, ENDS = 1 << 20, 16, 32, 32, 64
QUARTER, MOST_SPANS = 4, 8


class Span(NamedTuple):
    """From where to where bytes of the one copy lie in the other, and how far after their place."""

    start: int
    end: int
    shift: int


@dataclasses.dataclass
class Alignment:
    """The spans in their order, how many of the places that were compared are alike in both copies, and the length of the shorter one."""

    spans: list[Span]
    alike: int
    compared: int
    least: int

    def is_same_file(self) -> bool:
        """Whether a quarter of the places is alike, and few spans cover all but a quarter of the shorter copy."""
        covered = sum(span.end - span.start for span in self.spans)
        is_alike, is_covered = QUARTER * self.alike >= self.compared > 0, QUARTER * covered >= (QUARTER - 1) * self.least
        return is_alike and is_covered and len(self.spans) <= MOST_SPANS

    def is_shifted(self) -> bool:
        return any(span.shift for span in self.spans)

    def place(self, start: int, end: int) -> int | None:
        """Where a range of the one copy lies in the other, if all of it lies in one span."""
        return next((start + span.shift for span in self.spans if span.start <= start and end <= span.end), None)

    def bounds(self) -> set[int]:
        """Where spans begin and end."""
        return {place for span in self.spans for place in (span.start, span.end)}


def align(one: Copy, other: Copy) -> Alignment:
    """Compares two copies at places all over the first."""
    search = Search(one, other, max(min(one.size // PLACES, MOST_STEP), one.size // MOST_PLACES, LEAST_STEP))
    for place in range(0, one.size - CHUNK + 1, search.step):
        search.compare(place)
    search.compare_end()
    return Alignment(search.spans(), search.alike, search.compared, min(one.size, other.size))


class Search:
    """Follows the shift. Another one counts where more of the next places have it: still pictures have bytes alike in many places."""

    def __init__(self, one: Copy, other: Copy, step: int) -> None:
        self.one, self.other, self.step = one, other, step
        self.anchors: list[tuple[int, int]] = []
        self.shift, self.misses, self.searches, self.alike, self.compared = 0, 0, 0, 0, 0

    def has(self, place: int, shift: int) -> bool:
        """Whether the bytes at a place, which are no mere filling, lie in the other copy at a shift."""
        chunk = self.one.read(place, CHUNK)
        return place + shift >= 0 and len(set(chunk)) >= VALUES and self.other.read(place + shift, len(chunk)) == chunk

    def compare(self, place: int) -> None:
        """Compares the bytes at a place, if both copies have some and they are no mere filling in either."""
        there = self.other.read(max(place + self.shift, 0), CHUNK)
        if min(len(set(self.one.read(place, CHUNK))), len(set(there))) < VALUES:
            return
        self.compared += 1
        is_alike = self.has(place, self.shift)
        self.misses = 0 if is_alike else self.misses + 1
        if is_alike or self.misses > 1 and self.searches < MOST_SEARCHES and self.looks(place):
            self.anchors.append((place, self.shift))
            self.alike += 1

    def looks(self, place: int) -> bool:
        """Looks near where bytes are expected, after the last place that is known, for a shift that is better than the one so far."""
        self.searches += 1
        chunk = self.one.read(place, CHUNK)
        start = max(place + self.shift - WINDOW, sum(self.anchors[-1]) if self.anchors else 0, 0)
        window, shifts = self.other.read(start, 2 * WINDOW), [self.other.size - self.one.size]
        at = window.find(chunk)
        while at >= 0 and len(shifts) < MOST_SHIFTS:
            shifts.append(start + at - place)
            at = window.find(chunk, at + 1)
        # How many of the places from this one on are alike at each shift.
        scores = {shift: sum(self.has(place + at * self.step // 4, shift) for at in range(AHEAD)) for shift in (self.shift, *shifts)}
        best = max(shifts, key=scores.__getitem__)
        if scores[best] <= max(scores[self.shift], 1):
            return False
        self.shift, self.misses = best, 0
        return self.has(place, best)

    def compare_end(self) -> None:
        """Sees whether the ends are alike, and not at the shift so far: bytes were lost shortly before them."""
        shift, last = self.other.size - self.one.size, self.anchors[-1][0] + CHUNK if self.anchors else 0
        places = range(max(self.one.size - ENDS * CHUNK, last), self.one.size - CHUNK + 1, CHUNK)
        alike = [place for place in places if self.has(place, shift)]
        if len(alike) > max(1, sum(self.has(place, self.shift) for place in places)):
            self.anchors += [(place, shift) for place in alike]

    def spans(self) -> list[Span]:
        """The spans of one shift each, grown to where the copies differ: the first to the begin and the last to the end of both."""
        found: list[Span] = []
        for place, shift in self.anchors:
            if found and found[-1].shift == shift:
                found[-1] = found[-1]._replace(end=place + CHUNK)
            else:
                found.append(Span(place, place + CHUNK, shift))
        if found:
            found[0] = found[0]._replace(start=max(0, -found[0].shift))
            found[-1] = found[-1]._replace(end=min(self.one.size, self.other.size - found[-1].shift))
        for number in range(1, len(found)):
            before, after = found[number - 1 : number + 1]
            end = before.end + self.alike_bytes(before.end, after.start - before.end, before.shift, 1)
            least = max(end, end + before.shift - after.shift)
            found[number - 1] = before._replace(end=end)
            found[number] = after._replace(start=after.start - self.alike_bytes(after.start, after.start - least, after.shift, -1))
        return found

    def alike_bytes(self, place: int, limit: int, shift: int, way: int) -> int:
        """How many bytes from a place onwards (`way` is 1) or backwards (-1) the copies have alike, up to a limit."""
        done, same = 0, CHUNK
        while done < limit and same == CHUNK:
            size = min(CHUNK, limit - done)
            start = place + done if way > 0 else place - done - size
            same = len(os.path.commonprefix([copy.read(at, size)[::way] for copy, at in ((self.one, start), (self.other, start + shift))]))
            done += same
        return done
