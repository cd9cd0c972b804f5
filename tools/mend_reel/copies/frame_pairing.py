"""Where the frames of one file lie in another file of the same recording: one that was written anew, cut, or lost bytes."""
from __future__ import annotations

import bisect
import collections
import dataclasses
import itertools
from collections.abc import Iterable, Iterator, Mapping, Sequence

from ..containers.own_checks import is_uniform, share_slice
from ..model import Copy, Frame, Layout
from .alignment import Alignment

TAIL = 32
MOST_READ, DIGITS = 4, 2
NEAR = 0.4
# So much of a packet of sound is alike in two copies of it, of which one may be damaged.
NEARLY = 0.9
PIECE = WINDOW = 1 << 20
# How often a whole file is searched: for a first frame, and after so many frames were looked for near by in vain.
MOST_SEARCHES, MOST_MISSES = 8, 4
# What distinguishes a frame from others: its size and its last bytes.
Key = tuple[int, bytes]


class Recording:
    """Copies of one file, and what lies where in it."""

    def __init__(self, copies: Sequence[Copy], layout: Layout) -> None:
        self.copies, self.layout = copies, layout
        self._keys: dict[Key, int] | None = None

    def tails(self, frame: Frame) -> Iterator[bytes]:
        """The last bytes of a frame, as some copies have them. A frame that ends in bytes that are all the same has none."""
        size = min(TAIL, frame.size)
        for copy in self.copies[:MOST_READ]:
            tail = copy.read(frame.end - size, size)
            if len(tail) == size and not is_uniform(tail):
                yield tail

    def keys(self) -> dict[Key, int]:
        """The number of each frame by its key, if no other frame has it. They are read once."""
        if self._keys is None:
            found: dict[Key, set[int]] = {}
            for number, frame in enumerate(self.layout.frames):
                for tail in self.tails(frame):
                    found.setdefault((frame.size, tail), set()).add(number)
            self._keys = {key: min(numbers) for key, numbers in found.items() if len(numbers) == 1}
        return self._keys


@dataclasses.dataclass
class Matched:
    """A copy that is another file, and how it serves. Times are those of OUT."""

    number: int = -1
    places: dict[int, int] = dataclasses.field(default_factory=dict)  # where it has frames of OUT, by their numbers in the layout
    unplaced: list[Frame] = dataclasses.field(default_factory=list)  # at times at which OUT has no frame
    contrary: list[Frame] = dataclasses.field(default_factory=list)  # at times at which OUT has another frame
    lasts: float | None = None  # how long it says that it lasts, if it is cut short itself
    tracks: dict[int, int] = dataclasses.field(default_factory=dict)  # OUT's numbers of its FFV1 tracks
    # Where it has packets of OUT's sound, by their places in OUT, and their sizes.
    sound: dict[int, tuple[int, int]] = dataclasses.field(default_factory=dict)
    alignment: Alignment | None = None  # where its bytes lie, if it is OUT's file with bytes lost or added


def pair(ours: Recording, theirs: Recording) -> Matched:
    """Pairs the frames that end alike, then those between them by their times."""
    here, there = ours.keys(), theirs.keys()
    alike = {there[key]: here[key] for key in here.keys() & there.keys()}
    pairing = Matched(places={number: theirs.layout.frames[other].place for other, number in alike.items()})
    for track, own in pair_tracks(ours.layout.frames, theirs.layout.frames, alike).items():
        pairing.tracks.update({} if own is None else {track: own})
        TrackPairing(ours.layout.frames, theirs.layout.frames, track, own, alike).add_to(pairing)
    return pairing


def pair_tracks(ours: Sequence[Frame], theirs: Sequence[Frame], alike: Mapping[int, int]) -> dict[int, int | None]:
    """For each FFV1 track of the other file that of the first that most of its frames are in, or else one that is left, in order."""
    votes = collections.Counter((theirs[other].track, ours[number].track) for other, number in alike.items())
    pairs: dict[int, int | None] = {}
    for (track, own), _ in votes.most_common():
        pairs.setdefault(track, own)
    left = iter(sorted({frame.track for frame in ours} - set(pairs.values())))
    return {**pairs, **{track: next(left, None) for track in sorted({frame.track for frame in theirs} - set(pairs))}}


def pair_sound(ours: Recording, theirs: Layout, copy: Copy) -> dict[int, tuple[int, int]]:
    """Where a copy of another file has packets of sound, by their places in the first file, with their sizes: those of one time and one size, if
    of each track most that have content are alike in both but for a few bytes, so that it is of one codec."""
    there = {(packet.track, round(packet.time, DIGITS), packet.size): packet.place for packet in theirs.sound}
    found: dict[int, dict[int, tuple[int, int]]] = collections.defaultdict(dict)
    equal: collections.Counter[int] = collections.Counter()
    for packet in ours.layout.sound:
        place = there.get((packet.track, round(packet.time, DIGITS), packet.size))
        if place is not None and place + packet.size <= copy.size:
            found[packet.track][packet.place] = place, packet.size
            content = copy.read(place, packet.size)
            same = any(are_near(own.read(packet.place, packet.size), content) for own in ours.copies[:MOST_READ])
            equal[packet.track] += 0 if is_uniform(content) else 1 if same else -1
    return {place: pair for track, pairs in found.items() if equal[track] > 0 for place, pair in pairs.items()}


def are_near(one: bytes, other: bytes) -> bool:
    """Whether bytes of one length are equal but for a few."""
    return one == other or len(one) == len(other) and sum(map(int.__eq__, one, other)) > NEARLY * len(one)


class TrackPairing:
    """Pairs the frames of one track by times. An offset is how much later a frame comes in the first file: that of the frames that are
    paired nearest before and after, as an AVI file that lost a packet has all after it too early."""

    def __init__(self, ours: Sequence[Frame], theirs: Sequence[Frame], track: int, own: int | None, alike: Mapping[int, int]) -> None:
        self.theirs, self.alike = theirs, alike
        self.numbers = sorted((at for at, frame in enumerate(theirs) if frame.track == track), key=lambda at: theirs[at].time)
        self.frames = sorted((frame.time, number, frame.size) for number, frame in enumerate(ours) if frame.track == own)
        self.times = [time for time, _, _ in self.frames]
        self.near = NEAR * min((after - before for before, after in zip(self.times, self.times[1:]) if after > before), default=1.0)
        offsets = [round(ours[alike[at]].time - theirs[at].time, 3) if at in alike and ours[alike[at]].track == own else None
                   for at in self.numbers]
        self.around = list(zip(carried(offsets), carried(offsets[::-1])[::-1]))

    def add_to(self, pairing: Matched) -> None:
        """Adds what frames lie where, and those that find no place. Where the offsets before and after a frame differ, nothing is known."""
        for number, (early, late) in zip(self.numbers, self.around):
            offset = early if early is not None else late if late is not None else 0.0
            if number in self.alike or early is not None and late is not None and abs(early - late) > self.near:
                continue
            frame = dataclasses.replace(self.theirs[number], time=self.theirs[number].time + offset)
            nearest = self.nearest(frame.time)
            if nearest is None:
                pairing.unplaced.append(frame)
            elif nearest[2] != frame.size or nearest[1] in pairing.places:
                pairing.contrary.append(frame)
            else:
                pairing.places[nearest[1]] = frame.place

    def nearest(self, time: float) -> tuple[float, int, int] | None:
        at = bisect.bisect(self.times, time)
        found = min(self.frames[max(at - 1, 0) : at + 1], key=lambda frame: abs(frame[0] - time), default=None)
        return found if found and abs(found[0] - time) <= self.near else None


def carried(values: Sequence[float | None]) -> list[float | None]:
    """Each value, or the last one before it that is one."""
    return list(itertools.accumulate(values, lambda last, value: last if value is None else value))


def share(ours: Recording, theirs: Recording, pairing: Matched) -> bool:
    """Whether two files have a slice in common: they are of one recording. Slices are looked for all over the file."""
    numbers = sorted(pairing.places)
    steps = [step for step in (1009, 101, 11, 1) if step < len(numbers) or step == 1]
    for number in dict.fromkeys(number for step in steps for number in numbers[::step]):
        frame, place = ours.layout.frames[number], pairing.places[number]
        versions = {copy.read(frame.place, frame.size) for copy in ours.copies}
        others = {copy.read(place, frame.size) for copy in theirs.copies}
        if any(share_slice(one, other) for one in versions for other in others):
            return True
    return False


# ---- frames that a container does not show: shifted by the bytes that the file lost or gained


def complete(ours: Recording, theirs: Sequence[Copy], places: Mapping[int, int]) -> dict[int, int]:
    """The places of frames in another file, with those that its container does not show."""
    search, numbers = Displaced(ours, max(theirs, key=lambda each: each.size), dict(places)), range(len(ours.layout.frames))
    if not search.places:
        search.begin()
    if search.places and len(search.places) < len(numbers):
        search.walk(numbers, True)
        search.walk(numbers[::-1], False)
        search.fill()
    return search.places


@dataclasses.dataclass
class Displaced:
    """Looks for frames in a copy by their last bytes, where they are expected from the frames beside them."""

    ours: Recording
    copy: Copy
    places: dict[int, int]
    searches: int = 0

    def frame(self, number: int) -> Frame:
        return self.ours.layout.frames[number]

    def ends_at(self, number: int, end: int) -> bool:
        """Whether a frame ends at a place of the copy."""
        return self.frame(number).size <= end <= self.copy.size and any(
            self.copy.read(end - len(tail), len(tail)) == tail for tail in self.ours.tails(self.frame(number)))

    def find(self, number: int, start: int, end: int) -> bool:
        """Places a frame whose end lies from `start` on, up to `end`: the first one. Reports whether there is one."""
        size = self.frame(number).size
        for tail in dict.fromkeys(self.ours.tails(self.frame(number))):
            at = search_bytes(self.copy, tail, max(start, size) - len(tail), end)
            if at is not None:
                self.places[number] = at + len(tail) - size
                return True
        return False

    def begin(self) -> None:
        """Finds a first frame anywhere in the copy, of some that are spread over the recording."""
        count = len(self.ours.layout.frames)
        most = min(MOST_SEARCHES, count)
        any(self.find((2 * step + 1) * count // (2 * most), 0, self.copy.size) for step in range(most))

    def walk(self, numbers: Iterable[int], onward: bool) -> None:
        """Looks for the frames after (or before) those that are placed: at the same shift, then near by, and then anywhere beyond."""
        shift, edge, misses, patience = None, 0 if onward else self.copy.size, 0, 0
        for number in numbers:
            frame = self.frame(number)
            if number not in self.places and shift is not None:
                expected = frame.place + shift
                if self.ends_at(number, expected + frame.size):
                    self.places[number] = expected
                elif patience <= 0:
                    self.look(number, expected, edge, onward, misses)
                    misses, patience = misses + 1, misses
                else:
                    patience -= 1
            if number in self.places:
                shift, misses, patience = self.places[number] - frame.place, 0, 0
                edge = self.places[number] + (frame.size if onward else 0)

    def look(self, number: int, expected: int, edge: int, onward: bool, misses: int) -> None:
        """Looks for a frame near the place where it is expected, or anywhere beyond the edge after many misses."""
        size, end = self.frame(number).size, expected + self.frame(number).size
        first, last = (max(edge + size, end - WINDOW), end + WINDOW) if onward else (end - WINDOW, min(edge, end + WINDOW))
        if misses == MOST_MISSES and self.searches < MOST_SEARCHES:
            self.searches += 1
            first, last = (edge + size, self.copy.size) if onward else (0, edge)
        self.find(number, first, min(last, self.copy.size))

    def fill(self) -> None:
        """Places the frames between two that lie at one shift, whatever their last bytes are."""
        placed = sorted(self.places)
        for before, after in zip(placed, placed[1:]):
            shift = self.places[before] - self.frame(before).place
            if shift == self.places[after] - self.frame(after).place:
                self.places.update((number, self.frame(number).place + shift) for number in range(before + 1, after))


def search_bytes(copy: Copy, wanted: bytes, start: int, end: int) -> int | None:
    """The first place from `start` on at which bytes lie, all of them before `end`."""
    for place in range(max(start, 0), end - len(wanted) + 1, PIECE):
        at = copy.read(place, min(PIECE + len(wanted) - 1, end - place)).find(wanted)
        if at >= 0:
            return place + at
    return None
