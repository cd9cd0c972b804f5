"""What lies where in a file that FFmpeg reads (AVI, NUT, MOV, MXF and others), over all copies of it."""
from __future__ import annotations

import bisect
import collections
import dataclasses
from collections.abc import Iterable, Iterator, Sequence
from typing import NamedTuple

from ..engine.frame_checks import Judge, Judged
from ..model import Content, Copy, Frame, Kind, Layout, Stretch, Track, What
from ..model import Packet as Heard
from . import own_checks
from .ffprobe import Packet, Probed, probe, with_records
from .known import structure_of
from .stretch_builder import Stretches

MOST_HEADER = 1 << 24
# The containers that give the size of each packet, so that FFmpeg does not divide sound by what seems to be the head of a frame.
GIVE_SIZES = {"avi", "mov", "nut"}

# Where a packet lies: its place, its size, and its track.
Spot = tuple[int, int, int]


def reads(copy: Copy) -> bool:
    """Whether a copy's container can be read, and shows frames that lie in it: its parts lead to its tables."""
    return structure_of(copy).table is None and bool(probe(copy).found())


def frames(copy: Copy) -> list[Frame]:
    """The frames that one copy alone shows, in the order of their places."""
    return layout([copy]).frames if reads(copy) else []


def layout(copies: Sequence[Copy], judge: Judge | None = None, records: bool = True) -> Layout:
    """What lies where in a file, over all its copies: a packet that the container of one hides is that which another shows. Where packets
    overlap, `judge` says which is a frame."""
    containers = [probe(copy) for copy in copies]
    base = max(containers, key=lambda container: (len(container.found()), len(container.tracks), len(container.packets)))
    shown = Shown(copies, containers, base)
    size, end = ends_at([copy.size for copy in copies], [structure_of(copy).end for copy in copies], shown.end())
    found, copy = [frame for frame in shown.frames(judge) if frame.end <= size], copies[containers.index(base)]
    tracks = with_records(copy, base.tracks) if records else base.tracks
    others = shown.others(found)
    pieces = [*of_packets(copies, others, base), *find_records(copy, tracks, found)]
    order = [track.number for track in base.tracks if track.content is Content.SOUND]
    sound = [Heard(order.index(track), packet.time, place, size_) for (place, size_, track), packet in others if track in order]
    # What most of the containers claim, or else the base.
    claims = [container.claims for container in containers if container.form == base.form]
    return Layout(size, tracks, found, cover(copies, found, pieces, base.tracks, size),
                  max(claims, key=lambda each: (claims.count(each), each == base.claims)), end=end, sound=sound)


def ends_at(sizes: Sequence[int], ends: Sequence[int | None], shown: int) -> tuple[int, int | None]:
    """Where OUT ends, and where the file does by what most copies say: what lies after that is never preferred to nothing. `shown` is where the
    last packet ends that a container shows: a size that is damaged hides none."""
    known = [end for end in ends if end is not None]
    end = max(known, key=known.count, default=None)
    reaching = [size for size in sizes if end is not None and size >= end]
    if end is not None and reaching and shown <= end:
        return end, end
    return (min(reaching) if reaching else max(sizes)), end


# ---- what covers a file


class Piece(NamedTuple):
    """What lies between two places: how it is checked, and what it is."""

    start: int
    end: int
    kind: Kind
    what: What
    parts: Sequence[Frame] = ()


def find_records(copy: Copy, tracks: Sequence[Track], frames: Sequence[Frame]) -> list[Piece]:
    """The Configuration Records in a file: before its first frame, or after its last one."""
    around = ((0, frames[0].place), (frames[-1].end, max(copy.size - frames[-1].end, 0))) if frames else ()
    return [Piece(first, last, Kind.RECORD, What(Content.TRACKS)) for start, size in around
            for first, last in own_checks.records_in(copy.read(start, min(size, MOST_HEADER)), start, tracks)]


def of_packets(copies: Sequence[Copy], packets: Iterable[tuple[Spot, Packet]], base: Probed) -> Iterator[Piece]:
    """The packets as pieces. Those are frames of FLAC of which some copy has the head."""
    contents = {track.number: track.content for track in base.tracks}
    flac = {track.number for track in base.tracks if track.is_flac and base.form in GIVE_SIZES}
    for (place, size, stream), packet in packets:
        heads = (copy.read(place, min(size, own_checks.LONGEST_FLAC_HEAD)) for copy in (copies if stream in flac else ()))
        kind = Kind.FLAC if any(map(own_checks.is_flac, heads)) else Kind.PLAIN
        what = What(contents.get(stream, Content.UNKNOWN), stream, packet.time, packet.time + packet.lasts)
        yield Piece(place, place + size, kind, what)


def cover(copies: Sequence[Copy], frames: Sequence[Frame], others: Sequence[Piece], tracks: Sequence[Track], size: int) -> list[Stretch]:
    """The stretches that cover a file: its frames, other packets, Configuration Records, and what lies between them. Of pieces that overlap
    the first counts."""
    pieces, steps = [piece for piece in others if piece.end <= size], {track.number: track.step or 0.0 for track in tracks}
    for frame in frames:
        what = What(Content.FRAME, frame.track, frame.time, frame.time + steps.get(frame.track, 0.0))
        pieces.append(Piece(frame.place, frame.end, Kind.FRAME, what, (frame,)))
    played = [piece for piece in pieces if piece.kind is not Kind.RECORD]
    first, last = min((piece.start for piece in played), default=0), max((piece.end for piece in played), default=size)
    made, end = Stretches(copies), 0
    for piece in sorted(pieces, key=lambda piece: (piece.start, piece.kind is not Kind.FRAME)):
        if piece.start < end:
            continue
        made.plain(end, piece.start, What(Content.HEADER if piece.start <= first else Content.INDEX if end >= last else Content.UNKNOWN))
        if piece.kind is Kind.PLAIN:
            made.plain(piece.start, piece.end, piece.what)
        else:
            made.add(piece.kind, piece.start, piece.end, piece.what, piece.parts)
        end = piece.end
    made.plain(end, size, What(Content.INDEX if end else Content.UNKNOWN))
    return made.made


# ---- what containers show


class Shown:
    """The packets that the containers of some copies show. `base` is the container that shows most frames."""

    def __init__(self, copies: Sequence[Copy], containers: Sequence[Probed], base: Probed) -> None:
        self.copies, self.base, self.video = copies, base, base.video()
        self.spots: dict[Spot, list[Packet]] = {}
        for container in sorted(containers, key=lambda container: container is not base):
            for packet in container.packets:
                if packet.place is not None:
                    self.spots.setdefault((packet.place, packet.size, packet.stream), []).append(packet)

    def end(self) -> int:
        """Where the last packet ends."""
        return max((place + size for place, size, _ in self.spots), default=0)

    def frames(self, judge: Judge | None) -> list[Frame]:
        """The frames by their places, at the times that the base shows if it does. Of those that overlap the worthiest stand."""
        found = []
        for cluster in overlapping(sorted(spot for spot in self.spots if spot[2] in self.video)):
            worth = self.worth(cluster, judge) if len(cluster) > 1 else {}
            for place, size, stream in chosen_without_overlaps(sorted(cluster, key=worth.__getitem__, reverse=True) if worth else cluster):
                packet = self.spots[place, size, stream][0]
                found.append(Frame(stream, packet.time, place, size, packet.key))
        return self.with_counted_times(found) if self.base.form == "avi" else found

    def worth(self, spots: Sequence[Spot], judge: Judge | None) -> dict[Spot, tuple[bool, int, int]]:
        """Whether a spot has a passing frame in some copy, how many slices of it pass at most, and how many containers show it."""
        ranges = [spot[:2] for spot in spots]
        judged = [judge(copy, ranges) for copy in self.copies] if judge else [[Judged()] * len(spots)]
        return {spot: (any(each.is_intact() for each in answers), max(each.passing for each in answers), len(self.spots[spot]))
                for spot, answers in zip(spots, zip(*judged))}

    def with_counted_times(self, frames: list[Frame]) -> list[Frame]:
        """The frames, counted anew where times do not rise: those of an AVI file come too early after one that a container hides."""
        steps = {track.number: track.step or 0.0 for track in self.base.tracks}
        counts: collections.Counter[int] = collections.Counter()
        counted, last, is_rising = [], {}, True
        for frame in frames:
            is_rising &= frame.time > last.get(frame.track, float("-inf"))
            last[frame.track] = frame.time
            counted.append(dataclasses.replace(frame, time=counts[frame.track] * steps.get(frame.track, 0.0)))
            counts[frame.track] += 1
        return frames if is_rising or not all(steps.get(track) for track in counts) else counted

    def others(self, frames: Sequence[Frame]) -> list[tuple[Spot, Packet]]:
        """The packets of other tracks, in the order of their places: those that overlap no frame and none before."""
        starts, end = [frame.place for frame in frames], 0
        clear = []
        for spot in sorted(spot for spot in self.spots if spot[2] not in self.video):
            place, size, _ = spot
            after = bisect.bisect_right(starts, place)
            hits = after and frames[after - 1].end > place or after < len(starts) and starts[after] < place + size
            if place >= end and not hits:
                clear.append((spot, self.spots[spot][0]))
                end = place + size
        return clear


def overlapping(spots: Iterable[Spot]) -> Iterator[list[Spot]]:
    """Spots in the order of their places, those together that hang together by overlaps."""
    cluster: list[Spot] = []
    end = 0
    for spot in spots:
        if cluster and spot[0] >= end:
            yield cluster
            cluster = []
        cluster.append(spot)
        end = max(end, spot[0] + spot[1])
    yield from [cluster] if cluster else []


def chosen_without_overlaps(spots: Iterable[Spot]) -> list[Spot]:
    """Of spots in the order of their worth those that overlap none before them, in the order of their places."""
    chosen: list[Spot] = []
    for spot in spots:
        at = bisect.bisect(chosen, spot)
        before, after = chosen[at - 1 : at] if at else [], chosen[at : at + 1]
        if not (before and before[0][0] + before[0][1] > spot[0]) and not (after and after[0][0] < spot[0] + spot[1]):
            chosen.insert(at, spot)
    return chosen
