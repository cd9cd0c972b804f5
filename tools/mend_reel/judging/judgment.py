"""The judgment of one file: what its checksums, its parts, its counts and its index say of it. It is made once for each file, and decides
wherever it is asked whether a file is damaged. Nothing is repaired and nothing guessed."""
from __future__ import annotations

import dataclasses
from collections.abc import Iterator, Sequence, Set

from ..containers import ebml, files, own_checks
from ..containers.structure import Flaw, Found
from ..engine.frame_checks import FileCheck, Scan
from ..model import MATROSKA, Content, Copy, Kind, Layout, Outcome, SliceReport, State, Stretch
from .completeness import lacks
from .parities import lack_parities, without_parts
from .reasons import Note, Reason, Why, join
from .results import Results
from .unread import without_unread

# What remains of a cluster when the frames in it that fail are named.
OF_CLUSTERS = (Content.CLUSTER, Content.UNKNOWN)
OF_FLAWS = {Flaw.BROKEN: Why.BROKEN, Flaw.CUT: Why.CUT, Flaw.AFTER_END: Why.AFTER_END, Flaw.COUNT: Why.MISCOUNTED, Flaw.INDEX: Why.MISLED,
            Flaw.SUM: Why.SUM, Flaw.NO_TABLE: Why.NO_TABLE, Flaw.BARE: Why.BARE, Flaw.ZEROS: Why.ZEROS,
            Flaw.LOST: Why.LOST}
# What a line of a check of the whole file says, by its first word or all; the others tell damage that is found here too.
OF_LINES = {"endless": Why.ENDLESS, "misplaced": Why.MISPLACED, "time": Why.TIME, "laced": Why.LACED, "track": Why.OF_NO_TRACK,
            "block": Why.OF_NO_TRACK, "long": Why.TOO_LONG, "no Matroska": Why.NO_NAME}
JUDGED_CODECS = ("V_FFV1", "V_MS/VFW/FOURCC")
ALONE = "1"


@dataclasses.dataclass
class Judgment:
    """What is known of one file."""

    layout: Layout
    results: Results
    flaws: Sequence[Found]  # where its parts do not hang together
    reasons: list[Reason] = dataclasses.field(default_factory=list)  # why it is damaged
    has_parities: bool = True
    checked: FileCheck | None = None  # what a check of the whole file says, if it is Matroska

    @property
    def is_undamaged(self) -> bool:
        return not self.reasons

    @property
    def is_walked(self) -> bool:
        """Whether it is known how the parts of the file hang together."""
        return all(found.flaw is not Flaw.NOT_WALKED for found in self.flaws)


def judge_file(copy: Copy, scan: Scan, layout: Layout | None = None) -> Judgment:
    """The judgment of a file. `layout` is what lies where in it by this file alone, if that is known."""
    layout = files.describe([copy], scan) if layout is None else layout
    has_parities = not lack_parities(layout, [copy])
    layout = layout if has_parities else without_parts(layout)
    checked = scan.check(copy) if copy.form == MATROSKA else None
    is_whole = all_passes(checked, layout)
    answers = scan(copy, [(frame.place, frame.size) for frame in layout.frames]) if has_parities and not is_whole else []
    failing = frozenset(at for at, each in enumerate(answers) if not each.is_intact())
    parts = [part for stretch in layout.stretches for part in without_unread(stretch, [copy], 1)] if copy.unread else layout.stretches
    layout = dataclasses.replace(layout, stretches=parts)
    results = Results(layout, layout.stretches, () if is_whole else failures(copy, scan, layout, failing), [0], failing=failing)
    made = Judgment(layout, results, files.flaws_of(copy, copy.form, layout), has_parities=has_parities, checked=checked)
    made.reasons = join(reasons_of(made))
    return made


# ---- what fails


def all_passes(checked: FileCheck | None, layout: Layout) -> bool:
    """Whether a check of the whole file says of all frames and elements that they pass, so that none need be judged again."""
    return checked is not None and checked.is_whole and all(
        track.codec in JUDGED_CODECS and not track.is_encoded for track in layout.tracks if track.is_ffv1)


def failures(copy: Copy, scan: Scan, layout: Layout, failing: Set[int]) -> Iterator[Outcome]:
    """Yields the stretches of a file that fail their checks, with the slices of those of their frames that do."""
    places = {layout.frames[at].place for at in failing}
    elements = [at for at, each in enumerate(layout.stretches) if each.kind is Kind.ELEMENT and not ebml.passes(copy, each.start, each.end)]
    sound = {place: size for at in elements for place, size in layout.stretches[at].sound}
    sound.update({each.start: each.size for each in layout.stretches if each.kind is Kind.FLAC})
    lost = scan.failing_flac(copy, sorted(sound.items()))
    for at, stretch in enumerate(layout.stretches):
        fails = {Kind.ELEMENT: at in elements, Kind.FRAME: stretch.start in places, Kind.FLAC: stretch.start in lost,
                 Kind.RECORD: not own_checks.passes_as_record(copy.read(stretch.start, stretch.size)) if stretch.kind is Kind.RECORD else False}
        if fails.get(stretch.kind, False):
            yield Outcome(at, State.MISSING, 0, ALONE, dict(slices_of(copy, stretch, places, lost)))


def slices_of(copy: Copy, stretch: Stretch, failing: Set[int], lost: Set[int]) -> Iterator[tuple[int, tuple[SliceReport, ...]]]:
    """Yields the slices of each frame in a stretch that fails, and of FLAC frames that do all of them, by their numbers in the stretch."""
    for number, (place, size, is_flac) in enumerate(stretch.listed_parts()):
        if is_flac and place in lost:
            yield number, (SliceReport(0, size, "missing", 0, ALONE),)
        elif not is_flac and place in failing:
            frame = copy.read(place, size)
            found = [(start, end) for start, end in own_checks.slices(frame)]
            rest = [SliceReport(0, found[-1][0] if found else size, "broken", 0, ALONE)] if not found or found[-1][0] else []
            yield number, (*(SliceReport(start, end, "settled" if own_checks.passes(frame[start:end]) else "missing", 0, ALONE)
                             for start, end in found), *rest)


# ---- why it is damaged


def reasons_of(judged: Judgment) -> Iterator[Reason]:
    """Why a file is damaged, by its places; what it lacks comes last."""
    layout = judged.layout
    found = [Reason(Why.ABSENT if place >= layout.size else Why.UNDIVIDED, bytes=(place, place + size)) for place, size in layout.gaps]
    found += [frame_reason(Why.FAILS, judged.results, at) for at in sorted(judged.results.failing)]
    found += of_stretches(judged)
    found += unchecked(judged.results)
    found = [*found, *of_flaws(judged.flaws, found)]
    found = sorted([*found, *of_lines(judged.checked, found)], key=lambda reason: reason.bytes or (0, 0))
    found += lacks(layout, [layout.claims], judged.results)
    found += [Reason(Why.RECORD, Content.TRACKS, track.number) for track in layout.tracks
              if track.is_ffv1 and track.record and not own_checks.passes_as_record(track.record)]
    found += [] if found else not_whole(judged.checked, layout)
    return iter(without_track(found) if sum(track.is_ffv1 for track in layout.tracks) == 1 else found)


def of_stretches(judged: Judgment) -> Iterator[Reason]:
    """What fails beside frames: of an element with frames that fail only what remains."""
    yield from (of_bytes(Why.NEVER_READ, stretch) for stretch in judged.layout.stretches if stretch.is_unread)
    for outcome in judged.results.outcomes.values():
        stretch = judged.layout.stretches[outcome.number]
        named = judged.results.failing.intersection(judged.results.numbers(stretch))
        lost = [each for _, _, is_flac in stretch.listed_parts() if is_flac for each in outcome.slices.values()]
        if stretch.kind is not Kind.FRAME and not named:
            yield of_bytes(Why.FAILS_BESIDE if stretch.parts and not lost else Why.FAILS, stretch)


def unchecked(results: Results) -> Iterator[Reason]:
    """That no frame of a file has a checksum."""
    if all(state is State.ALONE for stretch, state in zip(results.stretches, results.states)
           if results.numbers(stretch) or stretch.what.content in OF_CLUSTERS):
        yield Reason(Why.UNCHECKED)


def of_flaws(flaws: Sequence[Found], found: Sequence[Reason]) -> Iterator[Reason]:
    """Where the parts of a file do not hang together, but for what is found already."""
    known = [reason.bytes for reason in found if reason.bytes and reason.why is not Why.ALONE]
    for flaw, start, end, has, count in flaws:
        is_known = any(known_start <= start and end <= known_end for known_start, known_end in known)
        if flaw in OF_FLAWS and not is_known:
            yield Reason(OF_FLAWS[flaw], Content.UNKNOWN, bytes=(start, end), has=has, count=count)


def of_lines(checked: FileCheck | None, found: Sequence[Reason]) -> Iterator[Reason]:
    """What a check of the whole file tells beside what is found already. Where a head is damaged, all that it led to is misplaced."""
    known = [reason.bytes for reason in found if reason.bytes]
    for place, words in checked.lines if checked else ():
        why = OF_LINES.get(words[0], OF_LINES.get(" ".join(words)))
        if why and not any(start <= place < end for start, end in known) and not (why is Why.MISPLACED and found):
            yield Reason(why, bytes=(place, place + 1))


def not_whole(checked: FileCheck | None, layout: Layout) -> Iterator[Reason]:
    """Why a file in which nothing is wrong is not whole by a check: of a track of video not all frames are checked."""
    if checked and not checked.is_whole:
        numbers = [track.number for track in layout.tracks if track.content is Content.VIDEO]
        unchecked = [number for number in numbers if number in checked.tracks and checked.tracks[number].checked < checked.tracks[number].blocks]
        yield from (Reason(Why.NO_CHECK, Content.VIDEO, number) for number in unchecked)
        yield from () if unchecked else (Reason(Why.NOT_WHOLE),)


def frame_reason(why: Why | Note, results: Results, at: int, source: int | None = None) -> Reason:
    """A reason that names a frame by its number in its track, and the frames after it that depend on it: up to the next keyframe."""
    frame, order = results.layout.frames[at], results.orders[at]
    own = results.tracks[frame.track]
    last = next((number for number in range(order + 1, len(own)) if own[number].key), len(own)) - 1
    return Reason(why, Content.FRAME, frame.track, (order, order), (frame.place, frame.end), (frame.time, frame.time), source,
                  spread=(order + 1, last) if last > order else None)


def of_bytes(why: Why, stretch: Stretch, source: int | None = None) -> Reason:
    what = stretch.what
    end = what.end if what.end is not None else what.start
    times = None if what.start is None or end is None else (what.start, end)
    return Reason(why, what.content, what.track, None, (stretch.start, stretch.end), times, source)


def without_track(reasons: Sequence[Reason]) -> list[Reason]:
    """Reasons in which frames do not name their track."""
    return [dataclasses.replace(reason, track=None) if reason.content is Content.FRAME else reason for reason in reasons]
