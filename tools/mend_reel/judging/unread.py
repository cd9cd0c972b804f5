"""What of a copy could not be read, by its map: it has no version there."""
from __future__ import annotations

import bisect
import dataclasses
from collections.abc import Iterable, Sequence

from ..model import Copy, Kind, Stretch


def only(stretch: Stretch, numbers: Iterable[int]) -> Stretch:
    """A stretch that some copies alone have."""
    return dataclasses.replace(stretch, places=tuple(place if at in numbers else None for at, place in enumerate(stretch.places)))


def without_unread(stretch: Stretch, copies: Sequence[Copy], own: int) -> list[Stretch]:
    """The parts of a stretch, in which no copy has a place that it could not be read at, or that is long filling: plain ones are cut there.
    A frame or an element is one part: its check says what of it is right. The first copies, so many as `own`, are of OUT's file."""
    if stretch.kind is not Kind.PLAIN or not any(copy.unread or copy.filling for copy in copies):
        return [stretch]
    cuts = {stretch.start, stretch.end}
    for copy, place in zip(copies, stretch.places):
        if place is not None:
            cuts.update(stretch.start + at - place for spans in (copy.unread, copy.filling)
                        for span in spans_in(spans, place, place + stretch.size) for at in span)
    ends = sorted(cuts)
    return [read_part(stretch.part(start - stretch.start, end - start), copies, own) for start, end in zip(ends, ends[1:])]


def spans_in(spans: Sequence[tuple[int, int]], start: int, end: int) -> list[tuple[int, int]]:
    """What of some spans, which rise, lies between two places."""
    first = bisect.bisect_right(spans, (start, start))
    first -= first > 0 and spans[first - 1][1] > start
    return [(max(one, start), min(other, end)) for one, other in spans[first : bisect.bisect_left(spans, (end, end))]]


def read_part(stretch: Stretch, copies: Sequence[Copy], own: int) -> Stretch:
    """A plain stretch as the copies have it that could be read there. If one copy alone could be, and each other one of OUT's file not by its map,
    what it has stands without doubt. That long filling is no content is a guess: then it does where the container confirms it. What none could be
    read is that of the first copy, and open."""
    having, span = stretch.having(), {number: (place, place + stretch.size) for number, place in enumerate(stretch.places) if place is not None}
    unread = {number for number in having if spans_in(copies[number].unread, *span[number]) == [span[number]]}
    filled = {number for number in having if spans_in(copies[number].filling, *span[number]) == [span[number]]} - unread
    read = [number for number in having if number not in unread | filled] or sorted(filled)
    if read or not having:
        # What has the value of the filling is alike in both.
        contents = {copies[number].read(span[number][0], stretch.size) for number in read} if filled else set()
        filled = {number for number in filled if copies[number].read(span[number][0], stretch.size) not in contents}
        read = [number for number in having if number not in unread | filled]
        explained = unread | filled if stretch.vouched.issuperset(read) else unread
        is_read = len(read) == 1 < len(having) and having[:own] == list(range(own)) and len(explained) >= len(having) - 1
        return dataclasses.replace(only(stretch, read), is_read=is_read)
    return dataclasses.replace(only(stretch, having[:1]), is_unread=True)
