"""Which copies are of one file, which are other files of the same recording, and which belong to another recording."""
from __future__ import annotations

import dataclasses
import enum
import itertools
import os
import pathlib
from collections.abc import Callable, Iterator, Mapping, Sequence

from ..containers import ebml, ffmpeg_files, ffprobe, files, own_checks
from ..containers.files import describe
from ..containers.frame_times import lasts
from ..containers.known import structure_of
from ..containers.structure import Flaw
from ..engine.frame_checks import Judge
from ..judging.completeness import misplaced
from ..judging.judgment import Judgment
from ..judging.parities import lack_parities
from ..model import Content, Copy, Fault, Kind, Layout
from .alignment import Alignment, align
from .filling import complement, filled, find_filling
from .frame_pairing import Matched, Recording, complete, pair, pair_sound, share

# How many places say nothing where copies have hardly any content in common.
HEADER, FEW = 4096, 4
DESCRIBES = frozenset({Content.INFORMATION, Content.TAGS, Content.CHAPTERS, Content.ATTACHMENTS, Content.SEEK_HEAD, Content.INDEX, Content.PADDING})


class Leaving(enum.Enum):
    """Why a copy is left out."""

    REPEATED = "it is the same file as copy {other}"
    EMPTY = "it is empty"
    UNREAD = "its container can't be read, and no frame of the others was found in it"
    NO_VIDEO = "it has no FFV1 video, and no frame of the others was found in it"
    OTHER = "it shares no slice with the others, so it is of another recording"
    RUINED = "no frame of it passes, and it shares no slice with the others"


@dataclasses.dataclass(frozen=True)
class Left:
    """A copy that is left out, by its number, and why; `other` is the copy that is the same file."""

    number: int
    why: Leaving
    other: int = -1

    def text(self) -> str:
        return self.why.value.format(other=self.other + 1)


@dataclasses.dataclass
class Arrangement:
    """How copies serve, by their numbers."""

    basis: list[int]  # those of OUT's file
    layout: Layout  # of OUT's file
    matched: list[Matched] = dataclasses.field(default_factory=list)  # other files
    left: list[Left] = dataclasses.field(default_factory=list)
    good: int | None = None  # the undamaged copy that OUT is
    filled: Copy | None = None  # what the copies of OUT's file have together, where each has long filling
    is_read_again: bool = False  # the layout is what OUT showed when it was made a first time
    differ: bool = True  # the copies are not alike
    editions: list[int] = dataclasses.field(default_factory=list)  # other undamaged copies of it, whose descriptions differ

    def notes(self, copies: Sequence[Copy]) -> list[str]:
        """Whose file OUT is, where there are others, and which copies have bytes after its end."""
        longer = [f"copy {number + 1} has {copies[number].size - self.layout.size:,} bytes after the end of the file, which are left out"
                  for number in self.basis if copies[number].size > self.layout.size]
        own, others = (("copies " if len(numbers) > 1 else "copy ") + ", ".join(str(number + 1) for number in numbers)
                       for numbers in (self.basis, [each.number for each in self.matched]))
        longer += [f"OUT is copy {self.good + 1} as it is: no damage was found in it"] if self.good is not None and self.differ else []
        longer += [f"copy {number + 1} is undamaged too, and another edition of the file: what describes the recording differs in it"
                   for number in self.editions]
        is_mixed = bool(self.matched) and self.good is None
        return longer + ([f"OUT is the file of {own}; what serves of {others} is brought into it"] if is_mixed else [])


# ---- copies of one file


def group(copies: Sequence[Copy]) -> tuple[list[list[int]], list[Left]]:
    """The numbers of the copies of each file, in the order given, and those that are left: the same file again, and empty ones."""
    files: list[list[int]] = []
    left: list[Left] = []
    known: dict[tuple[int, int], int] = {}
    for number, copy in enumerate(copies):
        state = os.fstat(copy.file)
        first = known.setdefault((state.st_dev, state.st_ino), number)
        if first != number or not copy.size:
            left.append(Left(number, Leaving.REPEATED, first) if first != number else Left(number, Leaving.EMPTY))
        else:
            own = [file for file in files if any(is_same_file(copies[other], copy) for other in file)]
            files = [file for file in files if file not in own] + [sorted([*itertools.chain(*own), number])]
    return sorted(files), left


def is_same_file(one: Copy, other: Copy) -> bool:
    """Whether two copies are of one file: most of their bytes lie at the same places. Two that are read as different containers are not;
    nor is a shorter one whose header gives its own length, and not that of the longer one."""
    short, long = sorted((one, other), key=lambda copy: copy.size)
    is_whole = short.size < long.size and claimed_size(short) == short.size and claimed_size(long) not in (None, short.size)
    if not may_be_same(one, other) or is_whole:
        return False
    alignment = align(one, other)
    if alignment.is_same_file():
        return not alignment.is_shifted()
    is_unlike = alignment.compared > FEW and 2 * alignment.alike < alignment.compared
    return not is_unlike and complement(one, other)


def may_be_same(one: Copy, other: Copy) -> bool:
    return not one.form or not other.form or one.form == other.form


def aligned(basis: Sequence[Copy], other: Copy) -> Alignment | None:
    """Where the bytes of a file lie in a copy of it that lost or gained bytes, or None if it is none: its header gives the same length."""
    if claimed_size(other) not in {None, *map(claimed_size, basis)}:
        return None
    best = max((align(copy, other) for copy in basis if may_be_same(copy, other)), key=lambda each: each.alike, default=None)
    return best if best and best.is_same_file() else None


def claimed_size(copy: Copy) -> int | None:
    """The size that the header of a Matroska or AVI file claims, as one not cut has; of a MOV file the end of its first large atom."""
    data = copy.read(0, HEADER)
    if data[:4] == b"RIFF":
        return int.from_bytes(data[4:8], "little") + 8
    if data[4:8] == b"ftyp":
        return atoms_end(data)
    first = ebml.read_head(data, 0, 0)
    segment = ebml.read_head(data, first.end, first.end) if first and first.end is not None else None
    return segment.end if segment else None


def atoms_end(data: bytes) -> int | None:
    """Where the first atom of a MOV file ends that ends after its first bytes."""
    place = 0
    while place + 16 <= len(data):
        size = int.from_bytes(data[place : place + 4], "big")
        size = int.from_bytes(data[place + 8 : place + 16], "big") if size == 1 else size
        if size < 8:
            return None
        place += size
    return place


# ---- which file OUT is made of


# Judges one copy, by its number.
JudgeCopy = Callable[[int], Judgment]


@dataclasses.dataclass
class File:
    """The copies of one file by their numbers, what lies where in it, what passes in each copy, and where other files have its frames."""

    numbers: list[int]
    recording: Recording
    filled: Copy | None = None  # what its copies have together, where each has long filling
    intact: dict[int, set[int]] = dataclasses.field(default_factory=dict)  # the numbers of the frames that pass, by copy
    passing: dict[int, set[int]] = dataclasses.field(default_factory=dict)  # and of the elements
    undamaged: list[int] = dataclasses.field(default_factory=list)
    pairings: list[tuple[File, Matched]] = dataclasses.field(default_factory=list)

    @property
    def layout(self) -> Layout:
        return self.recording.layout

    def has_video(self) -> bool:
        """Whether it has FFV1 frames, or a track of them in another form, of which the container's checksums are judged."""
        return bool(self.layout.frames) or any(track.is_encoded for track in self.layout.tracks)

    def examine(self, judge: Judge, judgment: JudgeCopy) -> None:
        """Sees what passes in each copy."""
        for at, (number, copy) in enumerate(zip(self.numbers, self.recording.copies)):
            judged = judge(copy, [(frame.place, frame.size) for frame in self.layout.frames])
            self.intact[number] = {frame for frame, each in enumerate(judged) if each.is_intact()}
            self.passing[number] = {each for each, stretch in enumerate(self.layout.stretches) if stretch.kind is Kind.ELEMENT
                                    and ebml.passes_in(stretch, self.recording.copies, at)}
            self.undamaged += [number] if is_good(judgment(number)) else []

    def rotten(self) -> set[int]:
        """The numbers of the frames that fail in elements that pass: they were damaged before the file was written."""
        if lack_parities(self.layout, self.recording.copies):
            return set()
        numbers = {frame.place: at for at, frame in enumerate(self.layout.frames)}
        inside = {numbers[frame.place] for each in self.passing.values() for at in each for frame in self.layout.stretches[at].parts}
        return inside.difference(*self.intact.values())

    def has_some(self) -> bool:
        """Whether some frame of it passes, or an element with one."""
        return any(self.intact.values()) or any(self.layout.stretches[at].parts for each in self.passing.values() for at in each)

    def given(self, judge: Judge) -> set[int]:
        """The numbers of its frames that pass in another file."""
        found: set[int] = set()
        for copy, pairing in ((copy, pairing) for other, pairing in self.pairings for copy in other.recording.copies):
            judged = judge(copy, [(place, self.layout.frames[number].size) for number, place in pairing.places.items()])
            found.update(number for number, each in zip(pairing.places, judged) if each.is_intact())
        return found

    def can_be_opened(self) -> bool:
        """Whether FFmpeg reads the container of a copy, where it can be asked."""
        return not ffprobe.can_ask() or any(map(ffmpeg_files.frames, self.recording.copies))

    def shows(self) -> int:
        """How many frames its container shows, each once where their times are known."""
        frames = self.layout.frames
        return len({(frame.track, frame.time) for frame in frames}) if self.layout.rises else len(frames)

    def hangs_together(self, most: int) -> bool:
        """Whether its elements lead through it, its frames lie in the order of their times, and no other file shows more: `most` is the number
        of frames that one does."""
        return not self.layout.gaps and self.shows() >= most and not any(misplaced(self.layout))

    def rank(self, judge: Judge, most: int) -> tuple[int, ...]:
        """What speaks for a file. An undamaged copy comes first; of several files with one that with most kinds of content. Of damaged files one
        that can be opened; that has no frame that was damaged before it was written, and that another file has; that hangs together; of which
        most bytes pass a check in some copy of any file; with most kinds of content; and that which came first."""
        contents = sum(self.layout.contents().values())
        if self.undamaged:
            return 1, contents, -self.undamaged[0]
        given, rotten = self.given(judge), self.rotten()
        intact = given.union(*self.intact.values()) - rotten
        passing = set().union(*self.passing.values())
        inside = {frame.place for at in passing for frame in self.layout.stretches[at].parts}
        verified = sum(self.layout.stretches[at].size for at in passing)
        verified += sum(self.layout.frames[at].size for at in intact if self.layout.frames[at].place not in inside)
        return 0, self.can_be_opened(), -len(rotten & given), self.hangs_together(most), verified, contents, -self.numbers[0]

    def why_left(self) -> Leaving:
        if self.layout.frames:
            return Leaving.OTHER if self.has_some() else Leaving.RUINED
        return Leaving.NO_VIDEO if self.layout.tracks else Leaving.UNREAD


def arrange(copies: Sequence[Copy], judge: Judge, judgment: JudgeCopy, work: pathlib.Path) -> Arrangement:
    """Which copies OUT is made of, and how. Copies are judged only where they are of several files."""
    numbers, left = group(copies)
    found = [read_file(each, [copies[number] for number in each], judge, work / f"filled-{each[0]}") for each in numbers]
    if not any(file.has_video() for file in found):
        raise Fault("; ".join(why_no_video(copies)))
    if len(found) == 1:
        return Arrangement(found[0].numbers, found[0].layout, left=left, filled=found[0].filled)
    basis = choose(found, copies, judge, judgment)
    made = Arrangement(basis.numbers, basis.layout, left=left, filled=basis.filled)
    pairings = {id(file): each for file, each in basis.pairings}
    for file in (file for file in found if file is not basis):
        pairing = pairings.get(id(file))
        if pairing is None:
            made.left += [Left(number, file.why_left()) for number in file.numbers]
        else:
            made.matched += [matched(number, copy, file.layout, pairing, basis, judge)
                             for number, copy in zip(file.numbers, file.recording.copies)]
    made.left.sort(key=lambda each: each.number)
    made.matched.sort(key=lambda each: each.number)
    made = with_good(made, basis.undamaged, {number: judgment(number) for number in basis.undamaged}) if basis.undamaged else made
    return with_editions(made, copies, judge, judgment)


def read_file(numbers: Sequence[int], copies: Sequence[Copy], judge: Judge, path: pathlib.Path) -> File:
    """A file over all its copies. Where no copy's parts lead through it, it is read again without their long filling."""
    layout = describe(copies, judge)
    has_runs = len(copies) > 1 and find_filling(copies, layout.stretches)
    leads = has_runs and not layout.gaps and layout.frames and any(not files.flaws_of(copy, copy.form, layout) for copy in copies)
    together, layout = filled(copies, layout, judge, path) if has_runs and not leads else (None, layout)
    return File(list(numbers), Recording(copies, layout), together)


def is_good(judged: Judgment) -> bool:
    """Whether a file is undamaged, and it is known how its parts hang together: a table that hides frames could not be told else."""
    return judged.is_undamaged and judged.is_walked


def with_good(arrangement: Arrangement, undamaged: Sequence[int], judgments: Mapping[int, Judgment], votes: Mapping[int, int] | None = None
              ) -> Arrangement:
    """The same, but OUT is one of some undamaged copies of its file: that with most kinds of content, then that for which most copies speak
    where they differ, and the first of these. Others whose parts lie elsewhere are other editions of the file, and no versions of it."""
    known = votes or {}
    good = max(undamaged, key=lambda number: (sum(judgments[number].layout.contents().values()), known.get(number, 0), -number))
    parts = parts_of(judgments[good].layout)
    editions = [number for number in undamaged if parts_of(judgments[number].layout) != parts]
    basis, layout = [number for number in arrangement.basis if number not in editions], judgments[good].layout
    matched_now = [renumbered(each, arrangement.layout, layout) for each in arrangement.matched]
    return dataclasses.replace(arrangement, basis=basis, layout=layout, matched=matched_now, good=good, editions=editions, filled=None)


def renumbered(other: Matched, old: Layout, new: Layout) -> Matched:
    """How a copy of another file serves by a new layout of OUT's file, in which frames have other numbers."""
    numbers = {(frame.place, frame.size): number for number, frame in enumerate(new.frames)}
    known = ((numbers.get((old.frames[number].place, old.frames[number].size)), place) for number, place in other.places.items())
    return dataclasses.replace(other, places={number: place for number, place in known if number is not None})


def with_editions(arrangement: Arrangement, copies: Sequence[Copy], judge: Judge, judgment: JudgeCopy) -> Arrangement:
    """The same, with the frames and the sound that the other editions of the file have, as those of other files: where nothing checks them, they
    may differ."""
    if arrangement.good is None or not arrangement.editions:
        return arrangement
    basis, *others = (File([number], Recording([copies[number]], judgment(number).layout)) for number in (arrangement.good, *arrangement.editions))
    basis.examine(judge, judgment)
    found = [matched(other.numbers[0], copies[other.numbers[0]], other.layout, paired(basis, other), basis, judge) for other in others]
    return dataclasses.replace(arrangement, matched=sorted([*arrangement.matched, *found], key=lambda each: each.number))


def parts_of(layout: Layout) -> list[tuple[Kind, int, int]]:
    """Where what has checks of its own lies in a file, and what describes it."""
    return [(stretch.kind, stretch.start, stretch.size) for stretch in layout.stretches
            if stretch.kind is not Kind.PLAIN or stretch.what.content in DESCRIBES]


def why_no_video(copies: Sequence[Copy]) -> Iterator[str]:
    """Why no video was found: what of each file can be said."""
    names, structures = [copy.path for copy in copies if copy.size], [(copy, structure_of(copy).flaws) for copy in copies]
    yield from [f"no FFV1 video was found in {', '.join(names)}"] if names else []
    yield from (f"{copy.path} has lost what says where its frames lie" for copy, flaws in structures
                if any(found.flaw is Flaw.NO_TABLE for found in flaws))
    yield from (f"FFmpeg can't read {copy.path}, though its parts hang together: what describes its video to a decoder may be damaged, "
                "and a copy beside it may have that right"
                for copy, flaws in structures if copy.probed is not None and not copy.probed.form and not flaws)
    yield from (f"{copy.path} is empty" for copy in copies if not copy.size)


def choose(files: Sequence[File], copies: Sequence[Copy], judge: Judge, judgment: JudgeCopy) -> File:
    """The file for which most speaks. One that shares nothing serves only with several copies, or if it alone has what passes."""
    shown = [file for file in files if file.has_video()]
    for file in shown:
        file.examine(judge, judgment)
        file.pairings = [(other, pairing) for other in files if other is not file for pairing in [relate(file, other)] if pairing]
    some = [file for file in shown if file.has_some()]
    candidates = [file for file in shown if file.pairings or len(file.numbers) > 1 or len(shown) == 1 or some == [file]]
    if not candidates:
        raise Fault(f"other recordings: {' and '.join(copies[file.numbers[0]].path for file in shown)} have no slice in common")
    most = max(file.shows() for file in candidates)
    return max(candidates, key=lambda file: file.rank(judge, most))


def relate(basis: File, other: File) -> Matched | None:
    """Where another file has the frames of the basis, or all its bytes, if it is that with bytes lost or added; None if it shares none."""
    alignment = aligned(basis.recording.copies, max(other.recording.copies, key=lambda each: each.size))
    if alignment:
        placed = ((number, alignment.place(frame.place, frame.end)) for number, frame in enumerate(basis.layout.frames))
        return Matched(-1, {number: place for number, place in placed if place is not None},
                       tracks={track.number: track.number for track in basis.layout.tracks}, alignment=alignment)
    pairing = paired(basis, other)
    return pairing if share(basis.recording, other.recording, pairing) else None


def paired(basis: File, other: File) -> Matched:
    """Where another file has the frames of the basis, by what they have in common and by their times."""
    pairing = pair(basis.recording, other.recording)
    pairing.places = complete(basis.recording, other.recording.copies, pairing.places)
    return pairing


def without_astray(places: Mapping[int, int], copy: Copy, basis: File) -> dict[int, int]:
    """The places of frames in a copy of another file, but for those at which something else lies than the frame, which passes in the basis:
    tables that are damaged lead there."""
    passing = {at: own for number, own in zip(basis.numbers, basis.recording.copies) for at in basis.intact[number]}
    sizes = [frame.size for frame in basis.layout.frames]

    def is_astray(at: int, place: int) -> bool:
        frame, version = passing[at].read(basis.layout.frames[at].place, sizes[at]), copy.read(place, sizes[at])
        return frame != version and own_checks.is_astray(frame, version)

    return {at: place for at, place in places.items() if at not in passing or not is_astray(at, place)}


def matched(number: int, copy: Copy, layout: Layout, pairing: Matched, basis: File, judge: Judge) -> Matched:
    """How a copy of another file serves."""
    found = {each: place for each, place in pairing.places.items() if place + basis.layout.frames[each].size <= copy.size}
    places = without_astray(found, copy, basis)
    judged = judge(copy, [(frame.place, frame.size) for frame in pairing.contrary])
    sizes = {frame.size for frame in pairing.contrary}
    known = {own.read(frame.place, frame.size) for own in basis.recording.copies for frame in basis.layout.frames if frame.size in sizes}
    contrary = [frame for frame, each in zip(pairing.contrary, judged) if each.is_intact() and copy.read(frame.place, frame.size) not in known]
    unplaced = [frame for frame in pairing.unplaced if frame.end <= copy.size]
    sound = {} if pairing.alignment else pair_sound(basis.recording, layout, copy)
    return Matched(number, places, unplaced, contrary, None if pairing.alignment else lasts(layout), pairing.tracks, sound, pairing.alignment)
