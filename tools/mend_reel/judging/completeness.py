"""Whether a file shows all frames that its times, its duration, its index and its counts speak of."""
from __future__ import annotations

import bisect
import itertools
from collections.abc import Iterator, Sequence

from ..containers.frame_times import THOUSANDTHS, TrackTimes, end_of, longest_chain, tracks_of
from ..model import Claims, Content, Frame, Layout
from .reasons import Reason, Why
from .results import VERIFIED, Results

# A hidden frame is no smaller than so much of the smallest that is shown. It does not hide in the head of an element.
SMALLER, SMALL_HEAD = 0.25, 32
MICROSECONDS = 1_000_000


def lacks(layout: Layout, claims: Sequence[Claims], results: Results) -> Iterator[Reason]:
    """What a file does not show of what it claims, in the order of what is surest. `results` are of the bytes in which the frames lie."""
    tracks = tracks_of(layout)
    yield from misplaced(layout)
    excuses = Excuses(claims, results, tracks)
    found = {track.number: list(holes(track, excuses)) for track in tracks}
    yield from itertools.chain.from_iterable(found.values())
    yield from counts(layout, claims, tracks)
    yield from ends(layout, claims, tracks)
    for track in tracks:
        yield from indexed(claims, track, [reason.times for reason in found[track.number] if reason.times])


def misplaced(out: Layout) -> Iterator[Reason]:
    """The frames whose times do not rise with those of the others: what lies there is of another place."""
    tracks: dict[int, list[Frame]] = {}
    for frame in out.frames if out.rises else ():
        tracks.setdefault(frame.track, []).append(frame)
    for track, frames in tracks.items():
        times = [round(frame.time * MICROSECONDS) for frame in frames]
        risen = set(longest_chain([(time, time + 1) for time in times]))
        for frame in (frame for number, frame in enumerate(frames) if number not in risen):
            yield Reason(Why.ORDER, Content.FRAME, track, bytes=(frame.place, frame.end), times=(frame.time, frame.time))


class Excuses:
    """Why a hole in the times may have been recorded: OUT has as many frames as the file counts, or the bytes between the frames on both
    sides of it are verified, so that no frame can be hidden there."""

    def __init__(self, claims: Sequence[Claims], results: Results, tracks: Sequence[TrackTimes]) -> None:
        self.counted = {track.number for track in tracks
                        if {each.counts[track.number] for each in claims if track.number in each.counts} == {len(track.frames)}}
        unsure = [stretch for stretch, state in zip(results.stretches, results.states) if state not in VERIFIED
                  and not (stretch.what.content is Content.FRAMING and stretch.size < SMALL_HEAD)]
        self.starts = [stretch.start for stretch in unsure]
        self.sums = [0, *itertools.accumulate(stretch.size for stretch in unsure)]

    def unverified(self, start: int, end: int) -> int:
        """How many bytes from a place to another are not verified, those of stretches that begin between them."""
        return self.sums[bisect.bisect_left(self.starts, end)] - self.sums[bisect.bisect_left(self.starts, start)]

    def has(self, track: TrackTimes, start: int, end: int) -> bool:
        return track.number in self.counted or self.unverified(start, end) < SMALLER * track.size


def holes(track: TrackTimes, excuses: Excuses) -> Iterator[Reason]:
    """Times at which a frame is expected, and none is shown: between two frames, and before the first."""
    step, first = track.step, track.frames[0]
    if not step:
        return
    # Of each hole the times of the frames around it, and from where to where it may lie.
    spans = [(before.time, after.time, *sorted((before.end, after.place))) for before, after in zip(track.frames, track.frames[1:])
             if after.time - before.time > 1.5 * step]
    if first.time > 0.75 * step:
        spans.insert(0, (-step, first.time, 0, first.place))
    for before, after, start, end in spans:
        if not excuses.has(track, start, end):
            times, count = (before + step, max(before + step, after - step)), max(round((after - before) / step) - 1, 1)
            yield Reason(Why.HOLE, Content.FRAME, track.number, bytes=(start, end), times=times, count=count)


def counts(layout: Layout, claims: Sequence[Claims], tracks: Sequence[TrackTimes]) -> Iterator[Reason]:
    """Where fewer frames are shown than the file counts."""
    shown = {track.number: len(track.frames) for track in tracks}
    for number in (track.number for track in layout.tracks if track.is_ffv1):
        count, has = max((each.counts.get(number, 0) for each in claims), default=0), shown.get(number, 0)
        if count > has:
            yield Reason(Why.COUNT, track=number, has=has, count=count)


def ends(out: Layout, claims: Sequence[Claims], tracks: Sequence[TrackTimes]) -> Iterator[Reason]:
    """Where a file ends before the time that it claims, or a track does."""
    for track in tracks:
        claimed = max((each.ends[track.number] for each in claims if track.number in each.ends), default=0.0)
        if claimed - track.end() > 0.5 * track.most_step():
            yield Reason(Why.SHORT, track=track.number, times=(track.end(), claimed))
    end, room = end_of(out)
    duration = max((each.duration or 0.0 for each in claims), default=0.0)
    yield from [Reason(Why.SHORT, times=(end, duration))] if duration - end > room else []


def indexed(claims: Sequence[Claims], track: TrackTimes, known: Sequence[tuple[float, float]]) -> Iterator[Reason]:
    """The times that an index has of a track, at which no frame is shown. Those in holes are known already."""
    times, near = track.times, 0.5 * track.most_step() or THOUSANDTHS
    starts = [start for start, _ in known]
    for time in sorted({time for each in claims for time in each.index.get(track.number, ())}):
        at, before = bisect.bisect(times, time), bisect.bisect(starts, time + near)
        in_hole = before and time <= known[before - 1][1] + near
        if not in_hole and all(abs(other - time) > near for other in times[max(at - 1, 0) : at + 1]):
            yield Reason(Why.INDEX, Content.FRAME, track.number, times=(time, time))
