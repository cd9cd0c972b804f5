"""What became of each frame, and how many bytes of OUT each kind of check vouches for."""
from __future__ import annotations

import bisect
import collections
import dataclasses
import enum
from collections.abc import Iterable, Mapping, Sequence, Set

from ..model import Content, Frame, Kind, Layout, Outcome, SliceReport, State, Stretch

GIVEN, GUESSED = ("settled", "woven"), ("voted", "repaired")
VERIFIED = (State.WHOLE, State.WOVEN)
# Stands for a file that is none of the copies.
NO_COPY = -1


class FrameState(enum.Enum):
    """How a frame stands in OUT, from the best to the worst."""

    WHOLE = "whole"
    RESTORED = "restored"
    WOVEN = "woven"
    LOST = "not restored"


ORDER = list(FrameState)


class NearEnd(enum.Enum):
    """Whether guessed bytes of a slice lie near its end, where a clean end says little of them; of a frame's slices that of which it says least."""

    NONE = "none"
    SOME = "some"
    ALL = "all"


@dataclasses.dataclass(frozen=True)
class FrameResult:
    """A frame that is damaged in some copy."""

    number: int  # in the layout
    order: int  # in its track
    frame: Frame
    stretch: int  # the number of its stretch
    state: FrameState  # how it stands in OUT
    damaged: tuple[int, ...]  # the copies in which it is damaged
    slices: tuple[SliceReport, ...] = ()  # as the program listed them
    near_end: NearEnd | None = None  # where its guessed bytes lie, if it decodes with guessed slices

    def settled(self) -> int:
        """How many of its slices are settled."""
        return sum(each.state == "settled" for each in self.slices)


@dataclasses.dataclass
class Counts:
    """How many frames there are, how many of them some copy has damaged, and what became of these."""

    frames: int = 0
    damaged: int = 0
    restored: int = 0
    woven: int = 0
    lost: int = 0

    def named(self) -> dict[str, int]:
        return {"not restored" if name == "lost" else name: count for name, count in dataclasses.asdict(self).items()}


@dataclasses.dataclass
class Sums:
    """How many bytes of OUT pass, are equal in several copies, are of one alone, are none of these, or could be read in one alone."""

    verified: int = 0
    agreed: int = 0
    alone: int = 0
    open: int = 0
    read: int = 0

    def named(self) -> dict[str, int]:
        return dataclasses.asdict(self)

    def unchecked(self) -> float:
        """The share of the bytes that no checksum covers."""
        return 1 - self.verified / max(sum(self.named().values()), 1)


def is_given(slices: Sequence[SliceReport]) -> bool:
    """Whether all slices of a frame are settled or woven."""
    return all(place.state in GIVEN for place in slices)


def is_guessed(slices: Sequence[SliceReport]) -> bool:
    """Whether all slices of a frame are settled, woven or guessed, and some are guessed: voted or repaired."""
    return not is_given(slices) and all(place.state in GIVEN + GUESSED for place in slices)


class Results:
    """What became of the frames of a recording. `copy_of_mark` has the copy that each mark of an outcome is of; `near_end` by their places
    the frames with guessed slices that decode; `failing` the numbers of frames that fail their parities, also where the element around
    them passes; `alike` by the numbers of elements how many bytes beside their frames all of several copies have alike."""

    def __init__(self, layout: Layout, stretches: Sequence[Stretch], outcomes: Iterable[Outcome], copy_of_mark: Sequence[int],
                 near_end: Mapping[int, NearEnd] | None = None, failing: Set[int] = frozenset(), alike: Mapping[int, int] | None = None) -> None:
        self.layout, self.stretches, self.copy_of_mark, self.failing, self.alike = layout, stretches, copy_of_mark, failing, alike or {}
        # That it decodes vouches for no frame of which all was guessed near the end of a slice.
        self.near_end = dict(near_end or {})
        self.decoded = {place for place, near in self.near_end.items() if near is not NearEnd.ALL}
        self.places = [frame.place for frame in layout.frames]
        self.outcomes = {outcome.number: outcome for outcome in outcomes}
        self.orders = layout.orders()
        self.tracks: dict[int, list[Frame]] = collections.defaultdict(list)
        for frame in layout.frames:
            self.tracks[frame.track].append(frame)
        self.states = list(map(self.find_state, range(len(stretches))))
        self.vouch_for_headers()
        self.frames: dict[int, FrameResult] = {}
        for number in self.outcomes:
            self.add(number)
        self.add_failing()

    def copies_with(self, marks: str, mark: str) -> set[int]:
        """The copies that have a mark. Several marks may be of one copy."""
        return {self.copy_of_mark[at] for at, each in enumerate(marks) if each == mark} - {NO_COPY}

    def source(self, stretch: Stretch) -> int:
        """The copy that a stretch is taken from where nothing vouches for its bytes."""
        return self.copy_of_mark[stretch.source]

    def numbers(self, stretch: Stretch) -> range:
        """The numbers of the frames that have bytes in a stretch."""
        first = bisect.bisect_left(self.places, stretch.start)
        first -= first > 0 and self.layout.frames[first - 1].end > stretch.start
        return range(first, bisect.bisect_left(self.places, stretch.end))

    def within(self, number: int) -> list[FrameResult]:
        """The damaged frames of a stretch."""
        return [self.frames[at] for at in self.numbers(self.stretches[number]) if at in self.frames]

    # ---- frames

    def add(self, number: int) -> None:
        """Adds those frames of a stretch that some copy has damaged. A frame that no checksum is of may lie in several stretches."""
        parts = {place: part for part, (place, _, is_flac) in enumerate(self.stretches[number].listed_parts()) if not is_flac}
        for at in self.numbers(self.stretches[number]):
            result, known = self.judge(number, parts.get(self.places[at]), at), self.frames.get(at)
            if result and known:
                worse = max(result, known, key=lambda each: ORDER.index(each.state))
                result = dataclasses.replace(worse, damaged=tuple(sorted({*result.damaged, *known.damaged})))
            self.frames.update({at: result} if result else {})

    def judge(self, number: int, part: int | None, at: int) -> FrameResult | None:
        """What became of a frame; `part` is its number in its stretch, where the program lists its slices."""
        outcome = self.outcomes[number]
        slices = () if part is None else tuple(outcome.slices.get(part, ()))
        damaged = self.damaged(self.stretches[number].kind, outcome, part is not None, slices)
        if not damaged:
            return None
        place = self.places[at]
        state = FrameState.WOVEN if place in self.decoded else how_it_stands(outcome.state, slices, part is not None)
        return FrameResult(at, self.orders[at], self.layout.frames[at], number, state, tuple(sorted(damaged)), slices, self.near_end.get(place))

    def damaged(self, kind: Kind, outcome: Outcome, is_part: bool, slices: Sequence[SliceReport]) -> set[int]:
        """The copies that have a frame, and not as it was recorded: other bytes than OUT has in a slice, or none that passes."""
        zeros, ones = self.copies_with(outcome.marks, "0"), self.copies_with(outcome.marks, "1")
        if not slices:
            is_right = kind is Kind.ELEMENT and is_part
            return set() if is_right else zeros if outcome.state.is_good() or outcome.state is State.ALONE else zeros | ones
        if not is_given(slices) and outcome.state not in VERIFIED:
            return zeros | ones
        return set().union(*(self.copies_with(place.marks, "0") for place in slices), () if is_given(slices) else zeros)

    def add_failing(self) -> None:
        """Adds the frames that fail although nothing else does: they were damaged before the file was written, and all copies have them so."""
        starts = [stretch.start for stretch in self.stretches]
        self.rotten = {at for at in self.failing if at not in self.frames or self.states[self.frames[at].stretch] in VERIFIED}
        for at in self.rotten:
            number = bisect.bisect_right(starts, self.places[at]) - 1
            damaged = {self.copy_of_mark[mark] for mark in self.stretches[number].having()}
            self.frames[at] = FrameResult(at, self.orders[at], self.layout.frames[at], number, FrameState.LOST, tuple(sorted(damaged)))

    def counts(self) -> Counts:
        states = collections.Counter(frame.state for frame in self.frames.values())
        lost = states[FrameState.LOST]
        return Counts(len(self.layout.frames), len(self.frames), len(self.frames) - lost, states[FrameState.WOVEN], lost)

    # ---- stretches

    def find_state(self, number: int) -> State:
        """The state of a stretch: undamaged if not listed. What one copy alone has was read where others could not be, by their maps."""
        stretch, outcome = self.stretches[number], self.outcomes.get(number)
        several = State.AGREED if len(stretch.having()) > 1 else State.ALONE
        state = outcome.state if outcome else several if stretch.kind is Kind.PLAIN else State.WHOLE
        if state is State.ALONE and (stretch.is_read or stretch.is_unread):
            return State.READ if stretch.is_read else State.OPEN
        return state

    def vouch_for_headers(self) -> None:
        """Counts the header of an element that passes as verified, as no other size could pass, but not one known by its content alone."""
        gaps = {place for place, _ in self.layout.gaps}
        for number, (header, content) in enumerate(zip(self.stretches, self.stretches[1:])):
            if (self.states[number] in (State.ALONE, State.READ) and header.what.content is Content.FRAMING and header.start not in gaps
                    and content.kind is Kind.ELEMENT and self.states[number + 1] in VERIFIED):
                self.states[number] = State.WHOLE

    def is_vouched(self, number: int) -> bool:
        """Whether a checksum or several copies vouch for a stretch, or it is a frame that decodes with guessed slices."""
        return self.states[number].is_good() or self.is_decoded(self.stretches[number])

    def is_decoded(self, stretch: Stretch) -> bool:
        return stretch.kind is Kind.FRAME and bool(stretch.parts) and all(frame.place in self.decoded for frame in stretch.parts)

    # ---- bytes

    def sums(self) -> Sums:
        sums: collections.Counter[str] = collections.Counter()
        for number, (stretch, state) in enumerate(zip(self.stretches, self.states)):
            is_named = state in (State.AGREED, State.ALONE, State.READ)
            verified, agreed = stretch.size if is_named else self.verified(number, stretch), 0 if is_named else self.alike.get(number, 0)
            sums.update({state.value if is_named else "verified": verified})
            sums.update(agreed=agreed, open=stretch.size - verified - agreed)
        return Sums(*(sums[name] for name in Sums().named()))

    def verified(self, number: int, stretch: Stretch) -> int:
        """How many bytes of a stretch pass a checksum in OUT: all, or those of its frames that are given back, or decode with guessed
        slices, and of its FLAC frames that the program does not list as lost."""
        if self.states[number] in VERIFIED or self.is_decoded(stretch):
            return stretch.size - sum(self.layout.frames[at].size for at in self.numbers(stretch) if at in self.rotten)
        slices, given = self.outcomes[number].slices if number in self.outcomes else {}, 0
        for part, (place, size, is_flac) in enumerate(stretch.listed_parts() if stretch.kind is Kind.ELEMENT else ()):
            result = None if is_flac else self.frames.get(bisect.bisect_left(self.places, place))
            is_lost = result and not (result.slices and is_given(result.slices) or place in self.decoded)
            given += size * (all(each.state == "whole" for each in slices.get(part, ())) if is_flac else not is_lost)
        return given

    def open_beside(self, number: int) -> int:
        """How many bytes of an element nothing vouches for beside its frames that are lost."""
        stretch = self.stretches[number]
        lost = sum(each.frame.size for each in self.within(number) if each.state is FrameState.LOST)
        return max(stretch.size - self.verified(number, stretch) - self.alike.get(number, 0) - lost, 0)

    def verified_in(self, copy: int) -> int:
        """How many bytes of a copy pass a checksum: those of stretches that do, and that it has as OUT has them."""
        found = 0
        for number, stretch in enumerate(self.stretches):
            outcome = self.outcomes.get(number)
            marks = outcome.marks if outcome else "".join("-" if place is None else "1" for place in stretch.places)
            found += stretch.size * (self.states[number] in VERIFIED and copy in self.copies_with(marks, "1"))
        return found


def how_it_stands(state: State, slices: Sequence[SliceReport], has_parts: bool) -> FrameState:
    """How a damaged frame stands in OUT."""
    given = bool(slices) and is_given(slices)
    if not given and state not in VERIFIED and (has_parts or not state.is_good()):
        return FrameState.LOST
    if any(place.state == "woven" for place in slices) or not given and state is State.WOVEN:
        return FrameState.WOVEN
    return FrameState.RESTORED
