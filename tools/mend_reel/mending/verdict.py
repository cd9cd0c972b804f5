"""Whether OUT, or a file that is checked, is what was recorded, as far as any check can tell, and if not why. The status is decided here and
nowhere else."""
from __future__ import annotations

import bisect
import dataclasses
from collections.abc import Iterable, Iterator, Mapping, Sequence, Set

from ..containers.frame_times import end_of
from ..containers.own_checks import passes_as_record
from ..containers.structure import Flaw, Found
from ..copies.arrangement import Left, Matched
from ..engine.frame_checks import FileCheck
from ..judging.completeness import lacks
from ..judging.judgment import OF_CLUSTERS, Judgment, frame_reason, not_whole, of_bytes, of_flaws, of_lines, unchecked, without_track
from ..judging.kept_digests import Compared
from ..judging.reasons import UNTOLD, Note, Reason, Why, join, lines
from ..judging.results import GUESSED, VERIFIED, Counts, FrameResult, FrameState, NearEnd, Results, Sums, is_guessed
from ..model import BESIDE_TRACKS, Claims, Content, Kind, Layout, Outcome, State, Stretch

# What copies agree on may be so, and that a part has no size.
MAY_BE_AGREED = (Flaw.BARE, Flaw.AFTER_END, Flaw.ZEROS)
PLAYED = (Content.SOUND, Content.VIDEO, Content.SUBTITLES)


@dataclasses.dataclass
class Evidence:
    """What the verdict on OUT is judged by."""

    layout: Layout  # what OUT was made by
    stretches: Sequence[Stretch]  # as they were listed
    outcomes: Sequence[Outcome]  # what became of those that are not undamaged
    out: Layout | None  # what lies where in OUT as it was read again; None where nothing can be read
    claims: Sequence[Claims] = ()  # what the containers of copies claim of the recording
    matched: Sequence[Matched] = ()  # copies that are other files
    left: Sequence[Left] = ()  # copies that are left out
    copy_of_mark: Sequence[int] = ()  # which copy each mark of an outcome is of
    others: Mapping[int, Layout] = dataclasses.field(default_factory=dict)  # what the other files have, by copy
    has_damaged_heads: bool = False  # damaged element headers of copies were left out
    decoded: Mapping[int, NearEnd] = dataclasses.field(default_factory=dict)  # frames with guessed slices that decode, by their places
    compared: Compared | None = None  # what a kept digest says
    flaws: Sequence[Found] = ()  # where the parts of OUT do not hang together
    failing: Set[int] = frozenset()  # the numbers of the frames that fail their parities in OUT, though the element around them passes
    alike: Mapping[int, int] = dataclasses.field(default_factory=dict)  # how many bytes beside the frames of an element all copies have alike
    told: Sequence[Reason] = ()  # what is in doubt by the copies themselves: maps, and changes of shift
    is_alone: bool = False  # there is one copy, so that OUT is judged as a file that is checked
    is_good: bool = False  # OUT is an undamaged copy
    checked: FileCheck | None = None  # what a check of OUT says, if it is Matroska
    disordered: Set[int] = frozenset()  # the copies whose own parts say that bytes were lost from them or put into them


@dataclasses.dataclass
class Verdict:
    """What is known of OUT, or of a file that was checked. A digest of a whole file decides; so does one of its frames that differ."""

    reasons: list[Reason]  # why it may not be what was recorded; of a file that was checked, why it is damaged
    notes: list[str]  # what else is to be said
    sums: Sums
    counts: Counts
    results: Results
    has_damage: bool = False
    compared: Compared | None = None
    is_check: bool = False
    is_walked: bool = True  # it is known how the parts of the file hang together
    can_mend: int = 0  # how many of the damaged frames of a file that was checked this one file can give back

    @property
    def status(self) -> int:
        """0 where OUT is what was recorded, as far as any check can tell (of a file that is checked: no damage was found), or else 3."""
        if self.compared and not self.compared.is_original:
            return 3
        return 3 if self.reasons else 0

    def sentence(self, out: str = "OUT") -> str:
        """The verdict for a person."""
        if self.compared and (self.compared.is_of_all or not self.compared.is_original):
            return self.compared.text
        if self.is_check:
            return f"{out}: {self.of_damage(out)}" if self.reasons else f"{out}: no damage was found; {self.unchecked()}."
        if self.reasons:
            many = len(self.reasons) > 1
            count = f"{len(self.reasons)} places are" if many else "one place is"
            return f"{out} is not known to be what was recorded: {count} in doubt."
        found = "all damage is mended" if self.has_damage else "no damage was found"
        return f"{out} is what was recorded, as far as any check can tell: {found}."

    def of_damage(self, name: str) -> str:
        """How much of a file that was checked is damaged, and what can be done about it."""
        if [reason.why for reason in self.reasons] == [Why.UNCHECKED]:
            return "no frame has a checksum, so no damage in them can be found."
        if UNTOLD.issuperset(reason.why for reason in self.reasons):
            return "whether it is damaged can't be told."
        frames = self.counts.damaged
        others = sum(not reason.frames for reason in self.reasons)
        words = [f"{frames:,} frames" if frames > 1 else "one frame"] if frames else []
        words += [f"{others:,} {'other ' if frames else ''}places" if others > 1 else f"one {'other ' if frames else ''}place"] if others else []
        some = f"{self.can_mend:,} of the frames"
        what = some if self.can_mend < frames or others else "it" if frames == 1 else "them"
        remedy = f"; mend-reel -o OUT {name} can mend {what}" if self.can_mend else ""
        return f"damaged in {' and '.join(words)}{remedy}."

    def unchecked(self) -> str:
        """How much no checksum covers, and which contents no checksum covers at all."""
        share, contents = 100 * self.sums.unchecked(), dict.fromkeys(stretch.what.content for stretch in self.results.stretches)
        checked = {stretch.what.content for stretch, state in zip(self.results.stretches, self.results.states) if state in VERIFIED}
        checked |= set(PLAYED) if Content.CLUSTER in checked else set()
        alone = [f"all of the {content.value}" for content in contents if content in PLAYED and content not in checked]
        amount = "under 0.1" if share < 0.1 else f"{share:.1f}"
        parts = "" if self.is_walked else "; whether its parts hang together is not checked in such a container"
        return f"{amount} % of the bytes can't be checked" + (", among them " + " and ".join(alone) if alone else "") + parts


def verdict_of_file(judged: Judgment, compared: Compared | None = None, mended: Set[int] = frozenset(), name: str = "FILE") -> Verdict:
    """The verdict on a file that was checked. `mended` are the numbers of the frames that `mend-reel -o` can give back by it alone."""
    results = judged.results
    remedy = f"mend-reel -o OUT {name} can mend {{}}"
    reasons = [dataclasses.replace(reason, remedy=remedy.format("them" if reason.is_many() else "it")) if reason.why is Why.FAILS and reason.frames
               and within(reason, results) <= mended else reason for reason in judged.reasons]
    is_original = compared is not None and compared.is_original
    is_of_all = compared is not None and compared.is_of_all
    notes = [*([compared.text] if compared and is_original and not is_of_all else []), *of_the_rest(results, "damaged frames")]
    return Verdict([] if is_original and is_of_all else reasons, notes, results.sums(), results.counts(), results, bool(judged.reasons), compared,
                   True, judged.is_walked, len(mended))


def within(reason: Reason, results: Results) -> set[int]:
    """The numbers of the damaged frames that a reason names."""
    first, last = (bisect.bisect_left(results.places, place) for place in reason.bytes or (0, 0))
    return {at for at in range(first, last) if at in results.frames}


def judge(evidence: Evidence) -> Verdict:
    """The verdict on OUT."""
    copy_of_mark = evidence.copy_of_mark or range(max((len(stretch.places) for stretch in evidence.stretches), default=0))
    results = Results(evidence.layout, evidence.stretches, evidence.outcomes, copy_of_mark, evidence.decoded, evidence.failing, evidence.alike)
    # Bytes that no copy divides, and those that none has.
    found = [Reason(Why.ABSENT if place >= evidence.layout.size else Why.UNDIVIDED, bytes=(place, place + size))
             for place, size in evidence.layout.gaps]
    found += [*evidence.told, *of_stretches(results), *of_shifts(evidence, results),
              *(frame_reason(Why.ROTTEN, results, at) for at in sorted(results.rotten)),
              *(unchecked(results) if evidence.is_alone or evidence.is_good else of_one_copy(results))]
    flaws = evidence.flaws if evidence.is_alone else [flaw for flaw in evidence.flaws if flaw.flaw not in MAY_BE_AGREED]
    found = [*found, *of_flaws(flaws, found)]
    found += [reason for reason in of_lines(evidence.checked, found) if evidence.is_alone or reason.why is not Why.ENDLESS]
    found = sorted(found, key=lambda reason: reason.bytes or (0, 0))
    # What other files have, and OUT lacks or has less of. Whoever writes a file writes tags.
    lacking = [(copy, content) for copy, other in evidence.others.items() for content in in_order(other.contents() - evidence.layout.contents())]
    found += [*find_lacks(evidence, results), *(Reason(Why.LACKS, what, copy=copy) for copy, what in lacking if what is not Content.TAGS)]
    found += [Reason(Why.RECORD, Content.TRACKS, track.number) for track in (evidence.out or evidence.layout).tracks
              if track.is_ffv1 and track.record and not passes_as_record(track.record)]
    found += [] if found or not evidence.is_alone else not_whole(evidence.checked, evidence.out or evidence.layout)
    late = [frame_reason(Note.NEAR_END, results, at) for at, result in results.frames.items() if result.near_end is NearEnd.SOME]
    if sum(track.is_ffv1 for track in evidence.layout.tracks) == 1:
        found, late = without_track(found), without_track(late)
    compared, counts = evidence.compared, results.counts()
    is_original, is_of_all = compared is not None and compared.is_original, compared is not None and compared.is_of_all
    notes = [f"copy {left.number + 1} is left out: {left.text()}" for left in evidence.left]
    notes += [*([compared.text] if compared and is_original and not is_of_all else []), *([] if is_original else lines(join(late))),
              *of_the_rest(results),
              *(f"copy {copy + 1} has tags, and OUT has none" for copy, what in lacking if what is Content.TAGS)]
    has_damage = bool(counts.damaged or results.outcomes or evidence.has_damaged_heads or is_cut(evidence, copy_of_mark))
    return Verdict([] if is_original and is_of_all else join(found), notes, results.sums(), counts, results, has_damage, compared)


def in_order(contents: Iterable[Content]) -> list[Content]:
    """Contents in an order that is the same in each run: tracks come first."""
    return sorted(contents, key=lambda each: (each in BESIDE_TRACKS, list(Content).index(each)))


def is_cut(evidence: Evidence, copy_of_mark: Sequence[int]) -> bool:
    """Whether a copy of OUT's file lacks a part of it."""
    others = {matched.number for matched in evidence.matched}
    own = [at for at, number in enumerate(copy_of_mark) if number not in others]
    return any(None in stretch.places and any(stretch.places[at] is None for at in own) for stretch in evidence.stretches)


# ---- what is in doubt


def find_lacks(evidence: Evidence, results: Results) -> Iterator[Reason]:
    """What OUT does not show, in the order of what is surest."""
    layout, out = evidence.layout, evidence.out
    if out is None or not out.frames:
        yield from [Reason(Why.UNREAD)] if layout.frames else []
    else:
        # What single copies claim counts where OUT says nothing. Where it does, their bytes were compared.
        claims = [out.claims, layout.claims, *(claims.beside(out.claims) for claims in evidence.claims)]
        shown = {(frame.track, frame.place, frame.size) for frame in out.frames}
        for order, frame in zip(results.orders, layout.frames):
            if (frame.track, frame.place, frame.size) not in shown:
                yield Reason(Why.HIDDEN, Content.FRAME, frame.track, (order, order), (frame.place, frame.end), (frame.time, frame.time))
        yield from lacks(out, claims, results)
        end, room = end_of(out)
        for other in evidence.matched:
            if other.lasts is not None and other.lasts - end > room:
                yield Reason(Why.SHORTER, times=(end, other.lasts), copy=other.number)
    for matched in evidence.matched:
        for why, frames in ((Why.UNPLACED, matched.unplaced), (Why.CONTRARY, matched.contrary)):
            for frame in sorted(frames, key=lambda frame: frame.time):
                yield Reason(why, Content.FRAME, times=(frame.time, frame.time), copy=matched.number)


def of_shifts(evidence: Evidence, results: Results) -> Iterator[Reason]:
    """Where a copy that lost or gained bytes begins to lie otherwise, if no checksum is over it in OUT. Of an undamaged copy those bytes alone
    are in doubt that the other one lacks: what this has more is nothing that its own parts speak of. Where the other one's own parts say that
    bytes were lost or put in, and it has all the others alike, nothing is in doubt."""
    starts = [stretch.start for stretch in results.stretches]
    for matched in (each for each in evidence.matched if each.alignment):
        is_told = evidence.is_good and matched.number in evidence.disordered
        for before, after in zip(matched.alignment.spans, matched.alignment.spans[1:]):
            place = min(before.end, evidence.layout.size - 1)
            at = bisect.bisect_right(starts, place) - 1
            is_lacking = after.start > before.end or not evidence.is_good
            is_in_frame = any(frame.place <= place < frame.end for frame in results.stretches[at].parts)
            is_known = is_told and (after.start == before.end or after.start + after.shift == before.end + before.shift)
            if is_lacking and not is_known and results.states[at] not in VERIFIED and not is_in_frame:
                yield Reason(Why.SHIFT, bytes=(place, max(after.start, place + 1)), source=results.source(results.stretches[at]))


def of_one_copy(results: Results) -> Iterator[Reason]:
    """What one copy alone has and no checksum covers: of one content one reason, up to the next for which something vouches."""
    runs: dict[tuple[Content, int | None], Reason] = {}
    for stretch, state in zip(results.stretches, results.states):
        key, copy = (stretch.what.content, stretch.what.track), results.source(stretch)
        before = runs.pop(key, None)
        if state is State.ALONE:
            runs[key] = reason = dataclasses.replace(of_bytes(Why.ALONE, stretch, copy), copy=copy, count=stretch.size)
            if before and before.copy == copy:
                runs[key], before = before.joined_with(reason), None
        yield from [before] if before else []
    yield from runs.values()


def of_the_rest(results: Results, frames: str = "frames that are not restored") -> list[str]:
    """What lies beside frames that are not restored, or are damaged, in elements that are so, and that nothing vouches for."""
    lost = {result.stretch for result in results.frames.values() if result.state is FrameState.LOST}
    size = sum(results.open_beside(number) for number in lost
               if not results.is_vouched(number) and results.stretches[number].kind is Kind.ELEMENT)
    words = f"beside {frames} {size} bytes of sound and headers can't be verified, as one checksum is over all"
    return [words] if size else []


def of_stretches(results: Results) -> Iterator[Reason]:
    """The stretches of OUT that are not whole, woven, agreed or read; what is alone stands apart."""
    for number, stretch in enumerate(results.stretches):
        state = results.states[number]
        if state is not State.ALONE and not results.is_vouched(number):
            lost = [result for result in results.within(number) if result.state is FrameState.LOST and result.number not in results.rotten]
            yield from of_stretch(results, stretch, state, lost, results.source(stretch))


def of_stretch(results: Results, stretch: Stretch, state: State, lost: Sequence[FrameResult], source: int) -> Iterator[Reason]:
    """Why a stretch is in doubt: the frames that are lost in it, if it is for them, else all of it."""
    having = len(stretch.having())
    damaged = Why.ALONE_DAMAGED if having == 1 else Why.DAMAGED
    if stretch.is_unread:
        yield of_bytes(Why.NEVER_READ, stretch)
    elif state is State.OPEN:
        differ = frame_reason(Why.DIFFER, results, lost[0].number, source) if lost else of_bytes(Why.DIFFER, stretch, source)
        yield dataclasses.replace(differ, because=stretch.because)
    elif state is State.DISPUTED:
        yield of_bytes(Why.DISPUTED, stretch, source)
    elif lost:
        for frame in lost:
            why = why_lost(frame) or damaged
            yield frame_reason(why, results, frame.number, source if why in (Why.DIFFER, Why.DISPUTED) else None)
    elif stretch.kind is Kind.ELEMENT and stretch.what.content in OF_CLUSTERS and having > 1:
        yield of_bytes(Why.BESIDE, stretch)
    else:
        yield of_bytes(damaged, stretch)


def why_lost(frame: FrameResult) -> Why | None:
    """Whether versions of a slice dispute it, or by what guesses a frame is put together, if by some."""
    states = {place.state for place in frame.slices}
    if "disputed" in states or not is_guessed(frame.slices):
        return Why.DISPUTED if "disputed" in states else None
    if frame.near_end is NearEnd.ALL:
        return Why.NEAR_END
    return Why.GUESSED if states.issuperset(GUESSED) else Why.VOTED if "voted" in states else Why.REPAIRED
