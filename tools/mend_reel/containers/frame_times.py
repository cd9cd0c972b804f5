"""When the frames of a file are shown, and when the file ends."""
from __future__ import annotations

import bisect
import statistics
from collections.abc import Sequence
from typing import Any

from ..model import Frame, Layout

# A step is constant where so many of a track's steps are within a half of it.
CONSTANT = 0.9
# Sound ends where its last block does, which is known to begin up to so long before. Without sound the clock's thousandths count.
SOUND_BLOCK, THOUSANDTHS = 0.25, 0.002


class TrackTimes:
    """An FFV1 track: its frames by their times, the time from one to the next (None if not constant), and the size of the smallest."""

    def __init__(self, number: int, frames: Sequence[Frame], claimed: float | None) -> None:
        self.number, self.frames = number, sorted(frames, key=lambda frame: frame.time)
        self.times, self.size = [frame.time for frame in self.frames], min(frame.size for frame in frames)
        self.step = constant_step(self.times, claimed)

    def most_step(self) -> float:
        """The constant step, or the longest one that there is."""
        return self.step or max((after - before for before, after in zip(self.times, self.times[1:])), default=0.0)

    def end(self) -> float:
        return self.times[-1] + self.most_step()


def tracks_of(layout: Layout) -> list[TrackTimes]:
    found: dict[int, list[Frame]] = {}
    for frame in layout.frames:
        found.setdefault(frame.track, []).append(frame)
    steps = {track.number: track.step for track in layout.tracks}
    return [TrackTimes(number, frames, steps.get(number)) for number, frames in sorted(found.items())]


def constant_step(times: Sequence[float], claimed: float | None) -> float | None:
    """The time from a frame to the next, if it is constant: what the container claims, if the frames have it so; else what most have."""
    steps = [after - before for before, after in zip(times, times[1:]) if after > before]
    if not steps:
        return claimed
    usual = statistics.median(steps)
    if claimed and 0.75 * claimed < usual < 1.25 * claimed:
        usual = claimed
    near = sum(0.5 * usual < step < 1.5 * usual for step in steps)
    return usual if near >= CONSTANT * len(steps) or usual == claimed and 2 * near > len(steps) else None


def end_of(layout: Layout) -> tuple[float, float]:
    """When a file ends by what lies in it, and how much later it may end."""
    tracks = tracks_of(layout)
    end = max((track.end() for track in tracks), default=0.0)
    step = max((track.most_step() for track in tracks), default=0.0)
    if all(track.is_ffv1 for track in layout.tracks):
        return end, max(0.5 * step, THOUSANDTHS)
    return max([end, *(stretch.what.end or 0.0 for stretch in layout.stretches)]), max(0.5 * step, SOUND_BLOCK)


def lasts(layout: Layout) -> float | None:
    """How long a file says that it lasts, if it ends before."""
    end, room = end_of(layout)
    duration = layout.claims.duration
    return duration if duration and duration - end > room else None


def longest_chain(ranges: Sequence[tuple[int, int]]) -> list[int]:
    """The numbers of the most ranges, in the order given, of which each begins at or after the end of the one before."""
    ends: list[int] = []
    # For each length of a chain the last range of the one that ends first, as a pair of its number and what comes before it.
    chains: list[tuple[int, Any]] = []
    for number, (start, end) in enumerate(ranges):
        length = bisect.bisect_right(ends, start)
        if length == len(ends) or end < ends[length]:
            ends[length : length + 1] = [end]
            chains[length : length + 1] = [(number, chains[length - 1] if length else None)]
    chain, link = [], chains[-1] if chains else None
    while link:
        chain.append(link[0])
        link = link[1]
    return chain[::-1]
