"""Which frames of a copy pass, and what a check says of a whole Matroska file, as the program reports it."""
from __future__ import annotations

import dataclasses
import os
import pathlib
import re
import tempfile
from collections.abc import Callable, Sequence
from typing import NamedTuple

from ..model import Content, Copy, Fault, Kind, Outcome, State, Stretch, What
from .external_programs import last_line, run, started
from .mend_run import mend, write_list

Range = tuple[int, int]
MOST_BYTES = 1 << 30
LINE, COUNT = re.compile(r"at (\d+) (.+)"), re.compile(r"track (\d+) (\S+) blocks (\d+) checked (\d+)")
# After these comes a line that counts bytes, and then the verdict.
WHOLE, LAST_LINES = {"whole": True, "not whole": False}, 1


@dataclasses.dataclass(frozen=True)
class Judged:
    """What the program reports of a frame: how many slices its footers lead to, how many of them pass, and whether they cover it."""

    links: int = 0
    passing: int = 0
    is_whole: bool = False

    def is_intact(self) -> bool:
        return self.is_whole and 0 < self.links == self.passing


Judge = Callable[[Copy, Sequence[Range]], list[Judged]]
# What passes, however many slices it has.
INTACT = Judged(1, 1, True)


class Scan:
    """Judges frames by `ffv1restore scan`, and remembers what that reported."""

    def __init__(self, program: str, work: pathlib.Path) -> None:
        self.program, self.work = program, work
        self.known: dict[tuple[str, int, int], Judged] = {}
        self.names: dict[str, int] = {}
        self.checks: dict[str, FileCheck] = {}

    def __call__(self, copy: Copy, ranges: Sequence[Range]) -> list[Judged]:
        """The judgement of each range. A range that the copy does not have has no slices."""
        fits = {(place, size) for place, size in ranges if 0 < size <= MOST_BYTES and 0 <= place and place + size <= copy.size}
        left = sorted(each for each in fits if (copy.path, *each) not in self.known)
        while left:
            now, left = part_overlaps(left)
            for each, judged in zip(now, self.scan(copy, now)):
                self.known[(copy.path, *each)] = judged
        return [self.known.get((copy.path, *each), Judged()) for each in ranges]

    def check(self, copy: Copy) -> FileCheck:
        """What a check of a whole Matroska file says, which is made once."""
        if copy.path not in self.checks:
            self.checks[copy.path] = check(self.program, copy, self.work)
        return self.checks[copy.path]

    def learn(self, stretches: Sequence[Stretch], outcomes: Sequence[Outcome], copies: Sequence[Copy]) -> None:
        """Notes the frames that pass in copies by what became of them: those that are whole pass in each copy that has what OUT has."""
        found = {outcome.number: outcome for outcome in outcomes}
        for number, stretch in ((number, each) for number, each in enumerate(stretches) if each.kind is Kind.FRAME):
            outcome = found.get(number)
            marks = "1" * len(copies) if outcome is None else outcome.marks if outcome.state is State.WHOLE else ""
            self.known.update({(copy.path, place, stretch.size): INTACT for copy, place, mark in zip(copies, stretch.places, marks)
                               if mark == "1" and place is not None})

    def forget(self, copy: Copy) -> None:
        """Forgets what is known of a file that was made anew."""
        self.checks.pop(copy.path, None)
        self.known = {each: judged for each, judged in self.known.items() if each[0] != copy.path}

    def failing_flac(self, copy: Copy, ranges: Sequence[Range]) -> set[int]:
        """The places of those of some frames of FLAC, which follow each other, that fail their checks, as `mend` finds them."""
        stretches = [Stretch(Kind.FLAC, place, size, What(Content.SOUND), (place,)) for place, size in ranges]
        if not stretches:
            return set()
        path = self.work / "flac-list"
        write_list(stretches, path)
        failing = mend(self.program, stretches, path, os.devnull, copy.path, [copy], self.work, lambda done: None)
        return {stretches[outcome.number].start for outcome in failing}

    def scan(self, copy: Copy, ranges: Sequence[Range]) -> list[Judged]:
        """Has the program judge ranges that rise and do not overlap. It reads the copy by a link, as it takes only names that are text."""
        name = self.names.setdefault(copy.path, len(self.names))
        path, link = self.work / f"ranges.{name}", self.work / f"scanned.{name}"
        path.write_text("".join(f"{place} {size}\n" for place, size in ranges), encoding="ascii")
        if not link.is_symlink():
            link.symlink_to(os.path.abspath(copy.path))
        lines: list[str] = []
        with tempfile.TemporaryFile(dir=self.work) as faults:
            with started([self.program, "scan", path, link], faults) as child:
                for line, (place, _) in zip(child.stdout or (), ranges):
                    lines.append(line.decode("ascii", "replace"))
                    copy.watch(place)
            faults.seek(0)
            status, said = child.returncode, faults.read()
        if status not in (0, 3) or len(lines) != len(ranges):
            raise Fault(f"cannot judge the frames of {copy.path}: {last_line(said, status)}")
        try:
            return [read_line(line) for line in lines]
        except (ValueError, IndexError):
            raise Fault(f"{self.program} did not report what it found in {copy.path}") from None


def part_overlaps(ranges: Sequence[Range]) -> tuple[list[Range], list[Range]]:
    """Of ranges in their order those that follow each other, and those that begin within one of these."""
    now: list[Range] = []
    later = []
    for each in ranges:
        (later if now and each[0] < sum(now[-1]) else now).append(each)
    return now, later


def read_line(line: str) -> Judged:
    """A line of `scan`: `range 3 links 24 pass 23 whole`."""
    words = line.split()
    return Judged(int(words[3]), int(words[5]), words[6] == "whole")


# ---- a whole file


class Line(NamedTuple):
    """A line: the place that it names, and what it says of it."""

    place: int
    words: list[str]


class TrackCount(NamedTuple):
    """How many blocks of a track there are, and how many of them some check covers."""

    codec: str
    blocks: int
    checked: int


class FileCheck(NamedTuple):
    """What is wrong in a file, its tracks by their numbers, and whether it is whole."""

    lines: list[Line]
    tracks: dict[int, TrackCount]
    is_whole: bool


def check(program: str, copy: Copy, work: pathlib.Path) -> FileCheck:
    """Has the program check a file. It is read by a link, as the program takes only names that are text."""
    link = work / "checked"
    link.unlink(missing_ok=True)
    link.symlink_to(os.path.abspath(copy.path))
    done = run(program, "check", link)
    if done.returncode not in (0, 3):
        raise Fault(f"cannot check {copy.path}: {last_line(done.stderr, done.returncode)}")
    found = read_report(done.stdout.decode("ascii", "replace"))
    if found is None or found.is_whole != (done.returncode == 0):
        raise Fault(f"{program} did not report what it found in {copy.path}")
    return found


def read_report(text: str) -> FileCheck | None:
    """What the lines say that the program printed, or None where they are not its lines."""
    *told, verdict = text.splitlines() or [""]
    found, counted = list(filter(None, map(LINE.fullmatch, told))), list(filter(None, map(COUNT.fullmatch, told)))
    if verdict not in WHOLE or len(found) + len(counted) + LAST_LINES != len(told):
        return None
    tracks = {int(number): TrackCount(codec, int(blocks), int(checked)) for number, codec, blocks, checked in (each.groups() for each in counted)}
    return FileCheck([Line(int(each[1]), each[2].split()) for each in found], tracks, WHOLE[verdict])
