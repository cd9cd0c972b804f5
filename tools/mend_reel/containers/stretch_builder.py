"""The stretches of a file as they are found, one after the other."""
from __future__ import annotations

import dataclasses
from collections.abc import Sequence

from ..model import MOST_STRETCH, Copy, Frame, Kind, Stretch, What

MOST_PLAIN = 1 << 20


class Stretches:
    """The stretches of OUT as they are found, one after the other. Plain ones of the same content are joined, and none is too long."""

    def __init__(self, copies: Sequence[Copy]) -> None:
        self.made: list[Stretch] = []
        self.frames: list[Frame] = []
        self._sizes = [copy.size for copy in copies]
        self._least = min(self._sizes)

    def _places(self, start: int, end: int) -> tuple[int | None, ...]:
        return (start,) * len(self._sizes) if end <= self._least else tuple(start if end <= size else None for size in self._sizes)

    def add(self, kind: Kind, start: int, end: int, what: What, parts: Sequence[Frame] = (), sound: Sequence[tuple[int, int]] = ()) -> None:
        """Adds what has a check of its own: a frame outside elements (if not too long), an element, a Configuration Record, FLAC."""
        self.frames += parts
        if kind is Kind.FRAME and end - start > MOST_STRETCH:
            self.plain(start, end, what)
        else:
            self.made.append(Stretch(kind, start, end - start, what, self._places(start, end), tuple(parts), tuple(sound)))

    def plain(self, start: int, end: int, what: What, vouched: frozenset[int] = frozenset(), joins: bool = True) -> None:
        """Adds bytes without a checksum, cut where copies end. An element's header joins nothing before it: its content may pass."""
        bounds = [start, *sorted({size for size in self._sizes if start < size < end}), end]
        for first, after in zip(bounds, bounds[1:]):
            last = self.made[-1] if joins and self.made else None
            if (last and last.kind is Kind.PLAIN and last.end == first and last.size + after - first <= MOST_PLAIN
                    and last.places.count(None) == self._places(first, after).count(None)
                    and (last.vouched, last.what[:2]) == (vouched, what[:2])):
                self.made[-1] = dataclasses.replace(last, size=after - last.start, what=last.what._replace(end=what.end))
                continue
            for place in range(first, after, MOST_PLAIN):
                stop = min(place + MOST_PLAIN, after)
                self.made.append(Stretch(Kind.PLAIN, place, stop - place, what, self._places(place, stop), vouched=vouched))
