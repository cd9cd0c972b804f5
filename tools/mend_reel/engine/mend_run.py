"""Writes the list that `ffv1restore mend` mends by, a line for each stretch and below an element one for each of its frames; runs it, and
reads the lines that it prints."""
from __future__ import annotations

import dataclasses
import itertools
import os
import pathlib
from collections.abc import Callable, Iterable, Iterator, Sequence

from ..model import MOST_STRETCH, Copy, Fault, Kind, Outcome, SliceReport, State, Stretch
from .external_programs import last_line, started

PIECE = 1 << 20
FIRST_PART = 6


# ---- the list


def list_of(stretches: Iterable[Stretch]) -> list[Stretch]:
    """The stretches as they can stand in a list. What the program would refuse is changed: a place that does not rise is none, and where
    the source lacks the stretch the first copy that has it is its source."""
    listed: list[Stretch] = []
    ends: list[int] = []
    for piece in itertools.chain.from_iterable(map(pieces, stretches)):
        ends += [0] * (len(piece.places) - len(ends))
        piece = rising(piece, ends)
        having = piece.having()
        if not having:
            raise Fault(f"no copy has the bytes from {piece.start} on, as its parts lie over each other")
        source = piece.source if piece.source in having else having[0]
        piece = piece if source == piece.source else dataclasses.replace(piece, source=source)
        for number in having:
            ends[number] = (piece.places[number] or 0) + piece.size
        listed.append(piece)
    return listed


def write_list(listed: Iterable[Stretch], path: pathlib.Path) -> None:
    """Writes the list to a file."""
    with open(path, "w", encoding="ascii") as file:
        file.writelines(itertools.chain.from_iterable(map(lines, listed)))


def pieces(stretch: Stretch) -> Iterator[Stretch]:
    """Yields a stretch, in several plain ones if it is too long for one, and nothing if it is empty."""
    if stretch.size <= MOST_STRETCH:
        if stretch.size > 0:
            yield stretch
        return
    for offset in range(0, stretch.size, MOST_STRETCH):
        yield stretch.part(offset, min(MOST_STRETCH, stretch.size - offset), kind=Kind.PLAIN, parts=())


def rising(stretch: Stretch, ends: Sequence[int]) -> Stretch:
    """Returns a stretch without the places that begin before the end of the stretch before, and without parts that can't be listed."""
    places = tuple(None if place is None or place < end else place for place, end in zip(stretch.places, ends))
    if stretch.kind is Kind.ELEMENT:
        listed = {(place, size) for place, size, _ in listable(stretch)}
        stretch = dataclasses.replace(stretch, parts=tuple(frame for frame in stretch.parts if (frame.place, frame.size) in listed),
                                      sound=tuple(each for each in stretch.sound if each in listed))
    return stretch if places == stretch.places else dataclasses.replace(stretch, places=places)


def listable(stretch: Stretch) -> Iterator[tuple[int, int, bool]]:
    """Yields the parts of an element that rise, begin after its CRC-32, and end within it."""
    end = stretch.start + FIRST_PART
    for place, size, is_flac in stretch.listed_parts():
        if end <= place and size > 0 and place + size <= stretch.end:
            yield place, size, is_flac
            end = place + size


def lines(stretch: Stretch) -> Iterator[str]:
    """Yields the lines of a stretch."""
    places = " ".join("-" if place is None else str(place) for place in stretch.places)
    yield f"{stretch.kind.value} {stretch.size} {stretch.source + 1} {places}\n"
    if stretch.kind is Kind.ELEMENT:
        for place, size, is_flac in stretch.listed_parts():
            yield f"part {place - stretch.start} {size}{' flac' if is_flac else ''}\n"


# ---- the run


def link_to(copy: Copy, work: pathlib.Path) -> pathlib.Path:
    """A name for a copy that is text, whatever its own name is: the program takes no others."""
    link = work / f"copy.{copy.file}"
    if not link.is_symlink():
        link.symlink_to(os.path.abspath(copy.path))
    return link


class ReportReader:
    """Reads the lines of a pass, which come a stretch after the other."""

    def __init__(self, lines: Iterable[bytes]) -> None:
        self.lines = iter(lines)
        self.words: list[str] = []
        self.next()

    def next(self) -> list[str]:
        """Goes on to the next line. Returns the words of the one before."""
        words, self.words = self.words, next(self.lines, b"").decode().split()
        return words

    def read_slices(self) -> Iterator[SliceReport]:
        """The slices of a frame, as `4515..6117 woven 4 00-`, and what its footers do not divide."""
        while self.words and self.words[0] not in ("end", "part", "stretch"):
            place, state, *more = self.next()
            start, end = map(int, place.split(".."))
            yield SliceReport(start, end, state, int(more[0]) if len(more) > 1 else 0, more[-1])
        words = self.next() if self.words[:1] == ["end"] else []
        if words[:2] == ["end", "broken"]:
            yield SliceReport(0, int(words[3]), "broken")

    def outcomes(self) -> Iterator[Outcome]:
        """What became of each stretch: `stretch 2 crc32 woven 2 00-`, and the slices of its parts."""
        while self.words:
            _, number, _, state, *count, marks = self.next()
            slices = {}
            while self.words and self.words[0] != "stretch":
                part = int(self.next()[1]) if self.words[0] == "part" else 1
                slices[part - 1] = tuple(self.read_slices())
            yield Outcome(int(number) - 1, State(state), int(count[0]) if count else 0, marks, slices)


def mend(program: str, stretches: Sequence[Stretch], listed: pathlib.Path, out: str, out_name: str, copies: Sequence[Copy],
         work: pathlib.Path, report: Callable[[int], None]) -> list[Outcome]:
    """Has the program write `out`, which a person knows by another name, by a list, and returns what became of each stretch that some copy
    has otherwise, or that is open. `report` is called with how many bytes of OUT are done."""
    links = [link_to(copy, work) for copy in copies]
    found, count, is_good, is_understood = [], 0, True, True
    with open(work / "faults", "w+b") as faults:
        with started([program, "mend", str(listed), out, *map(str, links)], faults) as child:
            try:
                for outcome in ReportReader(child.stdout or ()).outcomes():
                    if outcome.number != count or len(outcome.marks) != len(copies):
                        raise ValueError
                    report(stretches[count].start + stretches[count].size)
                    count += 1
                    is_good &= outcome.state.is_good()
                    found += [] if outcome.is_undamaged() else [outcome]
            except (ValueError, IndexError):
                is_understood = False
                child.kill()
        faults.seek(0)
        if is_understood and child.returncode not in (0, 3):
            said = last_line(faults.read(), child.returncode)
            cause = f": {why_not_written(out)}" if said == f"cannot write {out}" else ""
            for name, known in ((out, out_name), *((str(link), copy.path) for link, copy in zip(links, copies))):
                said = said.replace(name, known)
            raise Fault(said + cause)
    if not is_understood or count != len(stretches) or (child.returncode == 0) != is_good:
        raise Fault(f"{program} did not report what became of each stretch")
    return found


def why_not_written(out: str) -> str:
    """Why OUT can't be written to, which the program does not say: what the system says of one more try, at its end."""
    try:
        with open(out, "r+b") as made:
            made.seek(0, os.SEEK_END)
            made.write(bytes(PIECE))
    except OSError as error:
        return error.strerror
    return "the program could not, though there is room now"
