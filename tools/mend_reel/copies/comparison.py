"""The stretches of OUT as the copies have them: split where they differ, without versions that are known to be wrong; and whose bytes OUT
has where nothing vouches for any."""
from __future__ import annotations

import dataclasses
from collections.abc import Callable, Mapping, Sequence

from ..containers import ffmpeg_files, ffprobe, matroska
from ..engine.frame_checks import Judge
from ..judging.unread import without_unread
from ..model import MATROSKA, Claims, Copy, Layout, Outcome, Stretch, opened
from . import differences, known_wrong, preferred_copy
from .inputs import Inputs


@dataclasses.dataclass
class Comparison:
    """The stretches as they are listed, what each copy of OUT's file claims, whose container reads, and in how many places other copies have
    element headers that lead on."""

    layout: Layout
    inputs: Inputs
    claims: list[Claims]
    reads: list[bool]
    broken: Mapping[int, int]

    def sources(self, listed: Sequence[Stretch], outcomes: Sequence[Outcome], judge: Judge) -> dict[int, Stretch]:
        """The stretches that are to be taken from another copy than they were, as nothing vouches for them, by their numbers."""
        doubtful = {outcome.number for outcome in outcomes if not outcome.state.is_good()}
        chosen = preferred_copy.choose(dataclasses.replace(self.layout, stretches=list(listed)), self.inputs.files, self.reads,
                                       lambda frames: passing(frames, self.inputs.files, judge),
                                       {outcome.number for outcome in outcomes}) if doubtful else {}
        return {number: stretch for number, stretch in chosen.items() if number in doubtful}


def compare(layout: Layout, inputs: Inputs, report: Callable[[float, float], None]) -> Comparison:
    """Compares the copies. `report` is called with how many bytes of how many are done."""
    own, stretches = inputs.files[: inputs.own], []
    # What the copies of a Matroska file claim lies in the same elements.
    claims = ([layout.claims, *matroska.claims(own, layout)] if any(copy.form == MATROSKA for copy in own)
              else [ffprobe.probe(copy).claims for copy in own])
    for stretch in layout.stretches:
        for part in without_unread(stretch, inputs.files, inputs.own):
            stretches += differences.split(part, inputs.files)
        report(stretch.end, layout.size)
    stretches, broken = known_wrong.drop_broken(stretches, inputs.files)
    reads = [number < inputs.own and can_be_read(copy, layout, broken[number]) for number, copy in enumerate(inputs.files)]
    return Comparison(dataclasses.replace(layout, stretches=stretches), inputs, claims, reads, broken)


def can_be_read(copy: Copy, layout: Layout, broken: int) -> bool:
    """Whether a copy's container leads through it, and it is not cut."""
    is_led_through = not layout.gaps and not broken if copy.form == MATROSKA else bool(copy.form) and ffmpeg_files.reads(copy)
    return copy.size >= layout.size and is_led_through


def passing(frames: Sequence[Stretch], copies: Sequence[Copy], judge: Judge) -> list[frozenset[int]]:
    """For each of some frames the copies in which it passes."""
    found: list[set[int]] = [set() for _ in frames]
    for number, copy in enumerate(copies):
        having = [(at, place) for at, frame in enumerate(frames) if (place := frame.places[number]) is not None]
        judged = judge(copy, [(place, frames[at].size) for at, place in having])
        for at in (at for (at, _), each in zip(having, judged) if each.is_intact()):
            found[at].add(number)
    return list(map(frozenset, found))


def best_shown(out: str, copies: Sequence[Copy], judge: Judge) -> int | None:
    """The copy whose container shows more right frames than that of OUT, if one does: frames that both show are right in OUT."""
    if not ffprobe.can_ask():
        return None
    with opened(out) as made:
        shown, *others = ({(frame.place, frame.size) for frame in ffmpeg_files.frames(copy)} for copy in (made, *copies))
    margins = [sum(each.is_intact() for each in judge(copy, sorted(own - shown))) - len(shown - own) for copy, own in zip(copies, others)]
    best = max(range(len(copies)), key=margins.__getitem__)
    return best if margins[best] > 0 else None
