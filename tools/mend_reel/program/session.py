"""The way from copies to OUT: what lies where, which copy serves for what, the list, the mending, the verdict, and the reports."""
from __future__ import annotations

import dataclasses
import datetime
import heapq
import os
import pathlib
import shutil
import stat
import sys
from collections.abc import Iterable, Iterator, Mapping, Sequence, Set

from ..containers import ffprobe
from ..containers.files import describe, flaws_of, form_of
from ..containers.known import ENDINGS, by_start
from ..containers.structure import Flaw, Found
from ..copies import evidence
from ..copies.arrangement import Arrangement, arrange, is_good, why_no_video, with_editions, with_good
from ..copies.comparison import Comparison, best_shown, compare
from ..copies.filling import filled, placed
from ..copies.inputs import Inputs, gather
from ..copies.preferred_copy import follow, without_broken
from ..engine.external_programs import find_ffv1restore, of_each, version_of
from ..engine.frame_checks import FileCheck, Scan
from ..engine.mend_run import list_of, mend, write_list
from ..judging import decoding, frame_digests, kept_digests
from ..judging.judgment import Judgment, all_passes, judge_file
from ..judging.parities import NO_PARITIES, lack_parities, without_parts
from ..judging.reasons import Reason, Why
from ..judging.results import NO_COPY, VERIFIED, FrameResult, FrameState, NearEnd, Results
from ..mending.verdict import Evidence, Verdict, judge, verdict_of_file
from ..model import MATROSKA, Because, Copy, Fault, Frame, Interrupted, Kind, Layout, Outcome, SliceReport, State, Stretch, Track, open_copy, opened, or_fault
from ..reports import json_document, page
from ..reports.summary import CopySummary, Entry, Role, Summary, Unreadable, of_files
from . import ddrescue_maps, output_files
from .kept_frames import Held, Keeper
from .options import VERSION, Options
from .output_files import Files, Output, WorkFolder, check_room, is_written_to
from .progress import Progress

PIECE = 1 << 20
# How many frames a report shows.
MOST_SHOWN = 200
WRITERS = {"report": page.write, "json": json_document.write}
# What is wrong with a file of which the parts that are there lie where they should.
NO_DISORDER = frozenset({Flaw.LOST, Flaw.CUT, Flaw.AFTER_END})


@dataclasses.dataclass
class Made:
    """What was made."""

    stretches: list[Stretch]  # in the order of OUT
    outcomes: list[Outcome]  # what became of those that are not undamaged, by their numbers
    out: Layout  # what lies where in OUT when it is read again
    flaws: list[Found]  # where its parts do not hang together
    part: str  # its path while it is made
    decoded: Mapping[int, NearEnd]  # frames with guessed slices that decode, by their places


@dataclasses.dataclass
class Attempt:
    """OUT as it was made of copies that were arranged so."""

    arrangement: Arrangement
    layout: Layout
    comparison: Comparison
    made: Made

    @property
    def inputs(self) -> Inputs:
        return self.comparison.inputs

    def is_copy(self, number: int) -> bool:
        """Whether OUT is byte for byte one of the copies of its file."""
        at, file = self.inputs.numbers.index(number), self.inputs.files[self.inputs.numbers.index(number)]
        has_all = all(stretch.places[at] is not None for stretch in self.made.stretches)
        return has_all and not self.layout.gaps and self.layout.size == file.size and all(each.marks[at] == "1" for each in self.made.outcomes)

    def damaged(self) -> set[int]:
        """The copies of OUT's file in which a check fails, as OUT passes it, where they have a check there by their own containers."""
        own = self.inputs.files[: self.inputs.own]
        shown = [{(packet.place, packet.size) for packet in ffprobe.probe(copy).packets} if copy.form not in ("", MATROSKA) else set() for copy in own]
        differs = {each.number: each.marks for each in self.made.outcomes}
        disputed = {each.number for each in self.made.outcomes if each.state is State.DISPUTED}

        def is_led_to(number: int, at: int) -> bool:
            """Whether a copy's container leads there: one that is not Matroska by its packets, else as the bytes before, which do, are OUT's."""
            before, stretch = self.made.stretches[number - 1].places[at] if number else 0, self.made.stretches[number]
            if own[at].form != MATROSKA:
                return (stretch.places[at], stretch.size) in shown[at]
            return before is not None and (number - 1 not in differs or differs[number - 1][at] == "1")

        return {self.inputs.numbers[at] for number, marks in differs.items() for at, mark in enumerate(marks[: self.inputs.own])
                if mark == "0" and self.made.stretches[number].kind is not Kind.PLAIN and is_led_to(number, at) and number not in disputed}


class Outputs:
    """The files that a call makes, as parts before the work begins; what killed runs left; and whether OUT is made."""

    def __init__(self, options: Options, files: Files, work: WorkFolder) -> None:
        self.files, self.is_out_made = files, False
        for folder in filter(None, (options.keep, options.pictures)):
            files.make_folder(folder)
        self.out, self.report, self.json = (None if path is None else files.make(path, str(work.path))
                                            for path in (options.out, options.report, options.json))
        self.left = [f"a run that was killed left {path}; remove it" for path in (*files.left, *output_files.left_folders())]

    def write_reports(self, entries: Sequence[Entry]) -> list[Fault]:
        """Writes the page and the document, if they are asked for, and returns why one can't be written."""
        faults = []
        for name, write in WRITERS.items():
            output: Output | None = getattr(self, name)
            try:
                if output is not None:
                    with or_fault(f"cannot write {output.path}"), open(output.part, "w", encoding="utf-8") as made:
                        write(made, entries)
                    self.files.settle(output)
            except Fault as fault:
                faults.append(fault)
        return faults


def run(options: Options, work: pathlib.Path, outputs: Outputs, progress: Progress) -> tuple[list[str], int, list[Fault]]:
    """Makes OUT, or judges each file by itself. OUT has its place before anything else is written. Returns the lines to print, the exit
    status, and what could not be judged or written. Where an interrupt ends a check, what was judged until then stands."""
    entries: list[Entry] = []
    faults: list[Fault] = []
    try:
        if options.out is not None:
            entries.append(Session(options, work, outputs, progress).run())
        for entry in () if options.out is not None else checked(options, work, outputs, progress):
            entries.append(entry)
    except Interrupted:
        if not entries:
            raise
        faults.append(Fault(f"interrupted: {len(options.copies) - len(entries)} of {len(options.copies)} files were not judged"))
    faults = [Fault(entry.fault) for entry in entries if isinstance(entry, Unreadable)] + faults + outputs.write_reports(entries)
    lines = [line for entry in entries for line in entry.lines()] + ([of_files(entries)] if len(entries) > 1 else [])
    return lines, max(entry.status for entry in entries), faults


def checked(options: Options, work: pathlib.Path, outputs: Outputs, progress: Progress) -> Iterator[Entry]:
    """What is found of each file that is checked. One that can't be judged costs the others nothing."""
    program, several = find_ffv1restore(), len(options.copies) > 1
    if options.digest is not None and several and kept_digests.is_of_frames(options.digest):
        raise Fault(f"{options.digest} has the digests of one file's frames, and several files are given")
    for number, path in enumerate(options.copies):
        alone = dataclasses.replace(options, copies=(path,), maps={0: options.maps[number]} if number in options.maps else {})
        try:
            if options.digest is not None and several:
                kept_digests.line_of(kept_digests.entries(options.digest), path, options.digest)
            (work / str(number)).mkdir()
            yield Session(alone, work / str(number), outputs, progress).run()
        except (Fault, OSError) as fault:
            yield Unreadable(*circumstances(program), path, str(fault))


def circumstances(program: str) -> tuple[str, Mapping[str, str], Sequence[str]]:
    """When, by which programs, and by which words the work is done."""
    date = datetime.datetime.now(datetime.timezone.utc).isoformat(timespec="seconds")
    versions = {"mend-reel": VERSION, "ffv1restore": version_of(program), "ffprobe": version_of("ffprobe")}
    return date, versions, ["mend-reel", *sys.argv[1:]]


def with_marks(slices: Mapping[int, Sequence[SliceReport]]) -> dict[int, tuple[SliceReport, ...]]:
    """The slices of parts with the mark of one more file, which has none of them."""
    return {part: tuple(dataclasses.replace(each, marks=each.marks + "-") for each in own) for part, own in slices.items()}


def patch(source: pathlib.Path, out: str, stretches: Iterable[Stretch]) -> None:
    """Writes stretches, which lie in a file one after the other, to their places in OUT."""
    with open(source, "rb") as file, open(out, "r+b") as made:
        for stretch in stretches:
            made.seek(stretch.start)
            for place in range(0, stretch.size, PIECE):
                made.write(file.read(min(PIECE, stretch.size - place)))


class Session:
    """One OUT, or one file that is checked."""

    def __init__(self, options: Options, work: pathlib.Path, outputs: Outputs, progress: Progress) -> None:
        self.options, self.work, self.outputs, self.progress = options, work, outputs, progress
        self.program = find_ffv1restore()
        self.scan = Scan(self.program, work)
        self.keeper = Keeper(self.program, work, options.keep, options.pictures, options.report is not None)
        self.notes: list[str] = list(outputs.left)
        self.told: list[Reason] = []
        self.copies: list[Copy] = []
        self.judgments: dict[int, Judgment] = {}
        self.layouts: dict[str, Layout] = {}

    def run(self) -> Summary:
        """Does the work."""
        self.copies = [open_copy(path) for path in self.options.copies]
        for number, path in self.options.maps.items():
            self.read_map(number, path)
        self.progress.watch(self.copies)
        try:
            self.progress.begin("reading the copies")
            for copy, form in zip(self.copies, of_each(self.options.jobs, form_of, self.copies)):
                copy.form = form
            return self.checked() if self.options.out is None else self.mended()
        finally:
            for copy in self.copies:
                os.close(copy.file)

    def read_map(self, number: int, path: str) -> None:
        """Takes what a map calls unread, but from one that calls so what has content: that is the map of another file."""
        copy = self.copies[number]
        copy.unread = ddrescue_maps.unread(path, copy)
        wrong = ddrescue_maps.contradicted(copy)
        self.told += [Reason(Why.MAP, bytes=span, copy=number) for span in wrong]
        copy.unread = [] if wrong else copy.unread

    def judgment(self, number: int) -> Judgment:
        """The judgment of a copy, which is made once."""
        if number not in self.judgments:
            self.judgments[number] = judge_file(self.copies[number], self.scan, self.layout_of(self.copies[number]))
        return self.judgments[number]

    def layout_of(self, copy: Copy) -> Layout:
        """What lies where in a copy by itself alone."""
        if copy.path not in self.layouts:
            self.layouts[copy.path] = describe([copy], self.scan)
        return self.layouts[copy.path]

    # ---- a file that is checked

    def checked(self) -> Summary:
        """What checks say of a file."""
        copy, judged = self.copies[0], self.judgment(0)
        layout = judged.layout
        if not layout.frames and not any(track.is_encoded for track in layout.tracks):
            raise Fault("; ".join(why_no_video(self.copies)))
        self.note_parities(judged.has_parities, layout)
        judged.reasons = [*self.told, *judged.reasons]
        verdict = verdict_of_file(judged, self.compared(copy.path, layout), self.mendable(judged), copy.path)
        self.keep_frames(layout, Inputs([copy], [0], 1), layout.stretches, verdict)
        return self.summary(Arrangement([0], layout), layout, verdict, None)

    def mendable(self, judged: Judgment) -> set[int]:
        """The numbers of the damaged frames of a file that it can give back alone: with a bit inverted they pass, and decode."""
        layout, copy = judged.layout, self.copies[0]
        failing = [layout.stretches[number] for number in judged.results.outcomes]
        if not judged.results.failing or not failing:
            return set()
        listed, outcomes = self.mend_listed("few", failing, str(self.work / "again"), [copy], layout.size)
        with opened(str(self.work / "again")) as made:
            overlay = evidence.Overlay(copy, made, listed)
            decoder = decoding.SamplesDecoder(overlay, layout.frames, self.program, self.work)
            decoded = decoding.decoded(layout, listed, outcomes, decoder, decoding.GuessFinder(overlay, [copy]))
        results = Results(layout, listed, outcomes, [0], decoded)
        return {at for at in judged.results.failing if at in results.frames and results.frames[at].state is not FrameState.LOST}

    def note_parities(self, has_parities: bool, layout: Layout) -> None:
        if not has_parities:
            self.notes.append(NO_PARITIES)
            for track in filter(lambda track: track.is_ffv1, layout.tracks):
                self.keeper.is_asked_for(track)

    # ---- OUT

    def mended(self) -> Summary:
        """OUT, and what became of the copies."""
        self.refuse_recording(self.copies)
        attempt = self.attempt(arrange(self.copies, self.scan, self.judgment, self.work))
        better = self.better(attempt)
        while better is not None:
            attempt = self.attempt(better)
            better = self.better(attempt)
        arrangement, layout, inputs, made = attempt.arrangement, attempt.layout, attempt.inputs, attempt.made
        failing, checked = self.judged_again(attempt)
        self.note_parities(bool(layout.frames) == any(stretch.parts for stretch in layout.stretches), layout)
        others = {matched.number: describe([self.copies[matched.number]], self.scan, False) for matched in arrangement.matched}
        claims = [*attempt.comparison.claims, *(others[matched.number].claims.of_tracks(matched.tracks) for matched in arrangement.matched)]
        self.notes += [*arrangement.notes(self.copies), *self.note_heads(attempt.comparison), *self.note_name(inputs.form())]
        alike = evidence.alike_beside(made.stretches, made.outcomes, inputs.files[: inputs.own])
        verdict = judge(Evidence(
            layout, made.stretches, made.outcomes, made.out, claims, arrangement.matched, arrangement.left, inputs.numbers, others,
            bool(attempt.comparison.broken), made.decoded, self.compared(made.part, made.out), made.flaws, failing, alike, [*self.told, *self.shorter(arrangement)],
            len(self.copies) == 1, arrangement.good is not None, checked,
            {matched.number for matched in arrangement.matched if matched.alignment and self.lost_or_gained(self.copies[matched.number])}))
        self.keep_frames(layout, inputs, made.stretches, verdict)
        summary = self.summary(arrangement, layout, verdict, made.part)
        if self.outputs.out is not None:
            self.outputs.files.settle(self.outputs.out)
            self.outputs.is_out_made = True
        self.notes += self.keeper.hand_over([*self.options.copies, *self.options.read(), *self.options.made()])
        return summary

    def note_heads(self, comparison: Comparison) -> Iterator[str]:
        """Of which copies element headers were left out, as those of another copy lead on: they are damaged, or the copy is another edition."""
        for at, count in sorted(comparison.broken.items()):
            copy = f"copy {comparison.inputs.numbers[at] + 1}"
            if self.is_disordered(comparison.inputs.files[at]):
                places = f"{count} places" if count > 1 else "one place"
                yield f"{copy} has damaged element headers in {places}, where those of another copy lead on"
            else:
                yield f"{copy} is another edition of the file: what describes the recording differs in it"

    def note_name(self, form: str) -> list[str]:
        """That OUT's name ends otherwise than that of a file of its container."""
        suffix = os.path.splitext(self.options.out or "")[1].lower()
        named = {each for each, endings in ENDINGS.items() if suffix in endings}
        return [f"OUT is a file of {form}, though its name ends with {suffix}"] if named and form and form not in named else []

    def attempt(self, arrangement: Arrangement) -> Attempt:
        """Has OUT made of copies that are arranged so."""
        own = [self.copies[number] for number in arrangement.basis]
        layout = placed(arrangement.layout, own, None if arrangement.good is None else self.copies[arrangement.good])
        layout = without_parts(layout) if lack_parities(layout, own) else layout
        if arrangement.good is not None:
            # What an undamaged copy has one value at may be what was recorded.
            for copy in (self.copies[number] for number in arrangement.basis if self.copies[number].filling and is_good(self.judgment(number))):
                copy.filling = ()
        inputs, layout = gather(arrangement, layout, self.copies, self.work)
        self.progress.begin("comparing the copies")
        comparison = compare(layout, inputs, self.progress.at)
        if arrangement.good is not None:
            at = inputs.numbers.index(arrangement.good)
            others = [number for number in range(inputs.own) if number != at and by_start(inputs.files[at])]
            broken = {number for number in others if self.is_broken(inputs.files[number], arrangement.good)}
            comparison.layout.stretches = [dataclasses.replace(without_broken(stretch, broken), source=at, because=Because.GOOD)
                                           for stretch in comparison.layout.stretches]
        return Attempt(arrangement, layout, comparison, self.make(comparison, arrangement.good is not None))

    def is_disordered(self, copy: Copy) -> bool:
        """Whether the parts of a copy do not hang together, so that where they lie is no doubt of an undamaged copy. It is asked once."""
        if copy.is_disordered is None:
            layout = self.layout_of(copy) if by_start(copy) else None
            copy.is_disordered = layout is None or any(place < copy.size for place, _ in layout.gaps) or any(
                found.flaw not in NO_DISORDER for found in flaws_of(copy, copy.form, layout))
        return copy.is_disordered

    def lost_or_gained(self, copy: Copy) -> bool:
        """Whether a copy's own parts say that bytes were lost from it or put into it."""
        return self.is_disordered(copy) or any(found.flaw is Flaw.CUT for found in flaws_of(copy, copy.form, self.layout_of(copy)))

    def ends_early(self, copy: Copy, good: Copy) -> bool:
        """Whether a copy is shorter than an undamaged one of its file, and its parts hang together as far as it goes."""
        layout = self.layout_of(copy)
        return copy.size < good.size and all(place + size >= copy.size for place, size in layout.gaps) and all(
            found.flaw in NO_DISORDER or found.flaw is Flaw.INDEX or found.end >= copy.size for found in flaws_of(copy, copy.form, layout))

    def is_broken(self, copy: Copy, number: int) -> bool:
        """Whether the parts of a copy do not hang together, or lead to other frames than those of an undamaged copy of its file, by that one's
        number. What an early end takes away is neither."""
        good = self.copies[number]
        is_early = bool(by_start(copy)) and self.ends_early(copy, good)
        pairs = () if self.is_disordered(copy) and not is_early else zip(self.layout_of(copy).frames, self.layout_of(good).frames)
        leads_elsewhere = any((one.place, one.size) != (other.place, other.size) for one, other in pairs
                              if not is_early or one.place + one.size < copy.size)
        return self.is_disordered(copy) and not is_early or leads_elsewhere

    def shorter(self, arrangement: Arrangement) -> Iterator[Reason]:
        """Where a shorter copy of its file, whose parts are all there and hang together, shows fewer frames than an undamaged OUT: bytes may have
        been put into that."""
        if arrangement.good is None:
            return
        good = self.copies[arrangement.good]
        frames = [(frame.place, frame.size) for frame in self.layout_of(good).frames]
        numbers = [*arrangement.basis, *(matched.number for matched in arrangement.matched if matched.alignment)]
        for copy in (self.copies[number] for number in numbers if self.copies[number].size < good.size and by_start(self.copies[number])):
            shown = [(frame.place, frame.size) for frame in self.layout_of(copy).frames]
            if 0 < len(shown) < len(frames) and not self.lost_or_gained(copy):
                place, _ = next((one for one, other in zip(frames, shown) if one != other), frames[len(shown)])
                yield Reason(Why.SHIFT, bytes=(place, place + 1), source=arrangement.good)

    def has_broken(self, attempt: Attempt, good: int) -> bool:
        """Whether something of OUT is open, and a copy is there that is broken: its versions may be all that says so."""
        own = attempt.inputs.files[: attempt.inputs.own]
        return any(each.state is State.OPEN for each in attempt.made.outcomes) and any(self.is_broken(copy, good) for copy in own)

    def better(self, attempt: Attempt) -> Arrangement | None:
        """Another way to arrange the copies, if OUT is none of the undamaged ones, or shows more of itself than they did; None if not."""
        arrangement = attempt.arrangement
        if arrangement.good is not None or arrangement.is_read_again:
            return None
        damaged = attempt.damaged()
        # Copies that are OUT byte for byte are judged once.
        same = [number for number in arrangement.basis if not self.copies[number].unread and attempt.is_copy(number)]
        self.judgments.update({number: self.judgment(same[0]) for number in same})
        undamaged = [number for number in arrangement.basis if number not in damaged and is_good(self.judgment(number))]
        if undamaged:
            own = attempt.inputs.files[: attempt.inputs.own]
            votes = evidence.votes(attempt.made.stretches, attempt.made.outcomes, own) if len(undamaged) > 1 else {}
            made = with_good(arrangement, undamaged, self.judgments, {number: votes.get(at, 0) for at, number in enumerate(arrangement.basis)})
            good = made.good or 0
            is_known = not made.editions and not any(self.copies[number].filling for number in undamaged) and not self.has_broken(attempt, good)
            if is_known and attempt.is_copy(good):
                arrangement.good, arrangement.differ = made.good, bool(attempt.made.outcomes or arrangement.matched)
                return None
            return with_editions(made, self.copies, self.scan, self.judgment)
        own, is_lost = attempt.inputs.files[: attempt.inputs.own], any(each.state is State.MISSING for each in attempt.made.outcomes)
        if is_lost and len(own) > 1 and not arrangement.filled:
            together, layout = filled(own, arrangement.layout, self.scan, self.work / "filled")
            if together:
                return dataclasses.replace(arrangement, layout=layout, filled=together, is_read_again=True)
        out = attempt.made.out
        is_more = len(out.frames) > len(attempt.layout.frames) or bool(attempt.layout.gaps) and not out.gaps
        return dataclasses.replace(arrangement, layout=out, is_read_again=True) if is_more and len(self.copies) > 1 else None

    def compared(self, path: str, layout: Layout) -> kept_digests.Compared | None:
        """What a kept digest, if there is one, says of OUT, or of the file that is checked, in which this lies. Where ffmpeg is there, it makes
        the digests of frames: then their times are compared too."""
        digest = self.options.digest
        if digest is None:
            return None
        self.progress.begin("comparing with the digest")
        with opened(path) as file:
            own = None if shutil.which("ffmpeg") else frame_digests.OwnDigests(file, layout, self.program, self.work)
            return kept_digests.compare(digest, path, self.options.out or path, self.options.copies, self.progress.at, own)

    def refuse_recording(self, copies: Sequence[Copy]) -> None:
        """Refuses to overwrite a recording of the same video where OUT is named by its place alone: OUT may have been forgotten."""
        path = self.options.out
        if path is None or self.options.is_named or not os.path.isfile(path) or is_written_to(path):
            return
        with opened(path) as there:
            try:
                there.form = form_of(there)
                both = [there, *copies]
                left = {left.number for left in arrange(both, self.scan, lambda number: judge_file(both[number], self.scan), self.work).left}
            except Fault:
                return
        if 0 not in left and len(left) < len(copies):
            raise Fault(f"{path} is a recording of the same video as the copies (-o {path} overwrites it)")

    # ---- how it is made

    def make(self, comparison: Comparison, is_good: bool) -> Made:
        """Has OUT made, and reads it again. `is_good` says that it is an undamaged copy."""
        inputs, layout, path = comparison.inputs, comparison.layout, self.options.out or ""
        part, link = self.outputs.out.part if self.outputs.out else "", self.work / "out"
        check_room(part, path, layout.size)
        if not link.is_symlink():
            link.symlink_to(os.path.abspath(part))
        stretches, outcomes = self.mend(comparison, str(link), is_good)
        if not is_good:
            stretches, outcomes = self.followed(comparison, *self.with_votes(comparison, stretches, outcomes, str(link)), str(link))
        with open(part, "rb") as made:
            os.fchmod(made.fileno(), stat.S_IMODE(os.fstat(inputs.files[0].file).st_mode))
            os.fsync(made.fileno())
        with opened(part) as out:
            self.progress.begin("reading OUT again")
            decoder = decoding.SamplesDecoder(out, layout.frames, self.program, self.work)
            decoded = decoding.decoded(layout, stretches, outcomes, decoder, decoding.GuessFinder(out, inputs.files))
            self.progress.watch([out])
            self.scan.forget(out)
            out.form = form_of(out)
            read = describe([out], self.scan)
            return Made(stretches, outcomes, read, flaws_of(out, out.form, read), part, decoded)

    def judged_again(self, attempt: Attempt) -> tuple[frozenset[int], FileCheck | None]:
        """The numbers of the frames of OUT that fail their parities in elements that pass, and what a check of all of it says, if it is Matroska. Of a
        judged copy that is OUT byte for byte both are known."""
        made = attempt.made
        same = next((number for number in attempt.arrangement.basis if number in self.judgments and attempt.is_copy(number)), None)
        with opened(made.part if same is None else self.copies[same].path) as out:
            self.progress.watch([out])
            out.form = form_of(out)
            checked = self.scan.check(out) if out.form == MATROSKA else None
            return frozenset() if all_passes(checked, made.out) else self.failing(out, attempt.layout, made), checked

    def failing(self, out: Copy, layout: Layout, made: Made) -> frozenset[int]:
        """The numbers of the frames of OUT that fail their parities in elements that pass."""
        lost = {outcome.number for outcome in made.outcomes if outcome.state not in VERIFIED}
        inside = {frame.place for number, stretch in enumerate(made.stretches) if stretch.kind is Kind.ELEMENT and number not in lost
                  for frame in stretch.parts}
        numbers = [number for number, frame in enumerate(layout.frames) if frame.place in inside]
        judged = self.scan(out, [(layout.frames[number].place, layout.frames[number].size) for number in numbers])
        return frozenset(number for number, each in zip(numbers, judged) if not each.is_intact())

    def mend(self, comparison: Comparison, out: str, is_good: bool) -> tuple[list[Stretch], list[Outcome]]:
        """Has the program make OUT. Returns the stretches in the order of OUT, and what became of those that are not undamaged."""
        files, size = comparison.inputs.files, comparison.layout.size
        listed, outcomes = self.mend_listed("list", comparison.layout.stretches, out, files, size)
        self.scan.learn(listed, outcomes, files)
        chosen, settled = {} if is_good else comparison.sources(listed, outcomes, self.scan), set[int]()
        # Of several versions of an element that pass that is right of which all frames pass, if it is one.
        for outcome in (each for each in outcomes if each.state is State.DISPUTED and listed[each.number].parts):
            right = evidence.right_versions(listed[outcome.number], files, self.scan)
            if len(right) == 1 and (not is_good or listed[outcome.number].source in right[0]):
                number, source = outcome.number, listed[outcome.number].source if is_good else right[0][0]
                chosen[number] = dataclasses.replace(listed[number], source=source, because=Because.CONFIRMED)
                settled.add(number)
        listed, outcomes = self.mend_anew(comparison, listed, outcomes, chosen, out)
        return listed, [dataclasses.replace(each, state=State.WHOLE) if each.number in settled else each for each in outcomes]

    def with_votes(self, comparison: Comparison, listed: list[Stretch], outcomes: list[Outcome], out: str) -> tuple[list[Stretch], list[Outcome]]:
        """OUT with those elements that pass as most copies have them."""
        found = list(evidence.voted(listed, outcomes, comparison.inputs.files))
        if not found:
            return listed, outcomes
        file, places = evidence.write_voted(found, self.work / "voted")
        comparison.inputs.files.append(file)
        comparison.inputs.numbers.append(NO_COPY)
        listed = [dataclasses.replace(stretch, places=(*stretch.places, places.get(number))) for number, stretch in enumerate(listed)]
        outcomes = [dataclasses.replace(each, marks=each.marks + "-", slices=with_marks(each.slices)) for each in outcomes]
        return self.mend_anew(comparison, listed, outcomes, {number: listed[number] for number in places}, out, set(places))

    def followed(self, comparison: Comparison, listed: list[Stretch], outcomes: list[Outcome], out: str
                 ) -> tuple[list[Stretch], list[Outcome]]:
        """OUT as it is, or with the container of the copy that shows more right frames than OUT does, where copies differ in it."""
        ways = {outcome.number: listed[outcome.number] for outcome in outcomes if outcome.state is State.OPEN}
        is_of_container = any(follow(stretch, stretch.source) is not stretch for stretch in ways.values())
        best = best_shown(os.path.realpath(out), comparison.inputs.files[: comparison.inputs.own], self.scan) if is_of_container else None
        if best is None:
            return listed, outcomes
        return self.mend_anew(comparison, listed, outcomes, {number: follow(stretch, best) for number, stretch in ways.items()}, out)

    def mend_anew(self, comparison: Comparison, listed: list[Stretch], outcomes: list[Outcome], chosen: Mapping[int, Stretch], out: str,
                  more: Set[int] = frozenset()) -> tuple[list[Stretch], list[Outcome]]:
        """OUT with those stretches of which another copy is followed than before made anew, and `more`: nothing else is read a second time."""
        changed = {number: stretch for number, stretch in chosen.items() if stretch.source != listed[number].source or number in more}
        listed = [chosen.get(number, stretch) for number, stretch in enumerate(listed)]
        if changed:
            again = self.work / "again"
            _, few = self.mend_listed("few", list(changed.values()), str(again), comparison.inputs.files, comparison.layout.size)
            patch(again, out, changed.values())
            anew = [dataclasses.replace(outcome, number=list(changed)[outcome.number]) for outcome in few]
            outcomes = sorted([*(each for each in outcomes if each.number not in changed), *anew], key=lambda outcome: outcome.number)
            write_list(listed, self.work / "list")
        self.keeper.keep_list(self.work / "list", comparison.inputs.files)
        return listed, outcomes

    def mend_listed(self, name: str, stretches: Sequence[Stretch], out: str, files: Sequence[Copy], size: int) -> tuple[list[Stretch], list[Outcome]]:
        """Has the program make a file by a list of stretches. Returns them as they are listed, and what became of them."""
        listed = list_of(stretches)
        write_list(listed, self.work / name)
        self.progress.begin("mending")
        return listed, mend(self.program, listed, self.work / name, out, self.options.out or out, files, self.work,
                            lambda done: self.progress.at(done, size))

    # ---- what is kept and reported

    def keep_frames(self, layout: Layout, inputs: Inputs, stretches: Sequence[Stretch], verdict: Verdict) -> None:
        """Keeps what was asked for of each damaged frame."""
        tracks = {track.number: track for track in layout.tracks}
        several = sum(track.is_ffv1 for track in layout.tracks) > 1
        shown = {result.number for result in self.worst(tracks, verdict)} if self.options.report else set()
        for result in verdict.results.frames.values():
            track, is_shown = tracks[result.frame.track], result.number in shown
            if (self.options.keep or self.options.pictures or is_shown) and self.keeper.is_asked_for(track):
                name = f"track-{track.number}-frame-{result.order}" if several else f"frame-{result.order}"
                pieces = self.versions(result.frame, stretches[result.stretch], inputs)
                self.keeper.hold(Held(name, track, pieces, result, is_shown))
        self.notes += self.keeper.notes

    def worst(self, tracks: Mapping[int, Track], verdict: Verdict) -> list[FrameResult]:
        """The frames that a report shows: of those that are not restored the ones with the most lost tiles, and of these the first ones."""
        lost = [result for result in verdict.results.frames.values() if result.state is FrameState.LOST]
        can_be_shown = [result for result in lost if self.keeper.is_asked_for(tracks[result.frame.track])]
        return heapq.nsmallest(MOST_SHOWN, can_be_shown, key=lambda result: (-self.keeper.lost_tiles(tracks[result.frame.track], result),
                                                                             result.number))

    def versions(self, frame: Frame, stretch: Stretch, inputs: Inputs) -> list[tuple[str, bytes]]:
        """What the copies have of a frame, each by its path."""
        return [(self.options.copies[number], file.read(place + frame.place - stretch.start, frame.size))
                for file, number, place in zip(inputs.files, inputs.numbers, stretch.places) if place is not None]

    def summary(self, arrangement: Arrangement, layout: Layout, verdict: Verdict, part: str | None) -> Summary:
        """What is to be said of OUT, or of a file that was checked. `part` is where OUT lies while it is made."""
        copies, digests, out = self.copies, self.options.digests, None
        if digests:
            self.progress.begin("taking digests")
        sums = of_each(self.options.jobs, kept_digests.sha256, copies) if digests else [None] * len(copies)
        left, others = {left.number: left.text() for left in arrangement.left}, {matched.number for matched in arrangement.matched}
        summaries = [CopySummary(copy.path, copy.size, copy.form,
                                 Role.LEFT if number in left else Role.OTHER if number in others else Role.BASIS, left.get(number, ""),
                                 None if number in left else verdict.results.verified_in(number), sum_)
                     for number, (copy, sum_) in enumerate(zip(copies, sums))]
        if part is not None and self.options.out is not None:
            form = next((copies[number].form for number in arrangement.basis if copies[number].form), "")
            sum_ = kept_digests.digest(part, "sha256", self.progress.at) if digests else None
            out = CopySummary(self.options.out, os.stat(part).st_size, form, sha256=sum_)
        return Summary(*circumstances(self.program), summaries, out, layout, verdict, arrangement.matched, self.notes, self.keeper.drawn)
