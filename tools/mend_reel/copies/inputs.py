"""The files that the program reads: the copies of OUT's file, other files that have some of its bytes, and files that carry frames of
those in the form of a copy, so that the program can join them with the others."""
from __future__ import annotations

import bisect
import dataclasses
import pathlib
from collections.abc import Iterable, Iterator, Sequence

from ..containers import ebml
from ..containers.frame_times import longest_chain
from ..judging.results import NO_COPY
from ..model import Copy, Fault, Kind, Layout, Stretch, open_copy, or_fault
from . import differences
from .arrangement import Arrangement, Matched

PIECE = 1 << 20


@dataclasses.dataclass
class Inputs:
    """The files that the list has places in, and the copy that each stands for. The first ones, so many as `own`, are of OUT's file."""

    files: list[Copy]
    numbers: list[int]
    own: int

    def form(self) -> str:
        """The container of OUT's file."""
        return next((copy.form for copy in self.files[: self.own] if copy.form), "")


def gather(arrangement: Arrangement, layout: Layout, copies: Sequence[Copy], work: pathlib.Path) -> tuple[Inputs, Layout]:
    """The files that serve, and the layout with the places of its stretches in each of them: of a copy that lost or gained bytes all that
    lies in its spans, and of other files frames and sound that no element covers, and elements that no copy of OUT's file has whole, with
    their frames and sound."""
    basis = [copies[number] for number in arrangement.basis]
    inputs = Inputs(list(basis), list(arrangement.basis), len(basis))
    bounds = set().union(*(matched.alignment.bounds() for matched in arrangement.matched if matched.alignment),
                         *({place, place + size} for matched in arrangement.matched for place, (_, size) in matched.sound.items()))
    stretches = differences.cut(layout.stretches, bounds)
    layout = dataclasses.replace(layout, stretches=stretches)
    lost = [number for number, stretch in enumerate(stretches if arrangement.matched else ()) if stretch.kind is Kind.ELEMENT
            and not any(ebml.passes_in(stretch, basis, copy) for copy in range(len(basis)))]
    if arrangement.filled:
        inputs.files.append(arrangement.filled)
        inputs.numbers.append(NO_COPY)
        stretches = [dataclasses.replace(stretch, places=(*stretch.places, None if stretch.kind is Kind.PLAIN else stretch.start))
                     for stretch in stretches]
    for matched in arrangement.matched:
        copy, path = copies[matched.number], str(work / f"frames-of-copy-{matched.number + 1}")
        whole = aligned(layout, matched, copy.size) if matched.alignment else rising(layout, matched)
        carried = carry(layout, basis, copy, matched, [number for number in lost if number not in whole], path)
        for places, file in ((whole, lambda: copy), (carried, lambda: open_copy(path))):
            if places:
                inputs.files.append(file())
                inputs.numbers.append(matched.number)
                stretches = [dataclasses.replace(stretch, places=(*stretch.places, places.get(at))) for at, stretch in enumerate(stretches)]
    return inputs, dataclasses.replace(layout, stretches=stretches)


def aligned(layout: Layout, matched: Matched, size: int) -> dict[int, int]:
    """Where the stretches lie in a copy of a size that lost or gained bytes, by their numbers. It may lack its end."""
    placed = ((number, stretch.size, matched.alignment.place(stretch.start, stretch.end) if matched.alignment else None)
              for number, stretch in enumerate(layout.stretches))
    return {number: place for number, length, place in placed if place is not None and place + length <= size}


# ---- frames that are carried


def carry(layout: Layout, copies: Sequence[Copy], other: Copy, matched: Matched, needed: Iterable[int], path: str) -> dict[int, int]:
    """Writes a file that has, one after the other, each of the stretches `needed` as the first copy that has it has it, with those frames
    and packets of sound over it that the other file has. Returns the place of each stretch there. Those without any are left out."""
    given = sorted([*((layout.frames[number].place, layout.frames[number].size, place) for number, place in matched.places.items()),
                    *((place, size, there) for place, (there, size) in matched.sound.items())])
    places: dict[int, int] = {}
    end = 0
    with or_fault(f"cannot write {path}"), open(path, "wb") as file:
        for number, stretch in ((number, layout.stretches[number]) for number in sorted(set(needed))):
            frames = given[bisect.bisect_left(given, (stretch.start,)) : bisect.bisect_left(given, (stretch.end,))]
            source = next((at for at in stretch.having() if at < len(copies)), None)
            if frames and source is not None:
                file.writelines(overlay(stretch, copies[source], stretch.places[source] or 0, other, frames))
                places[number] = end
                end += stretch.size
    return places


def overlay(stretch: Stretch, source: Copy, place: int, other: Copy, packets: Sequence[tuple[int, int, int]]) -> Iterator[bytes]:
    """The bytes of a stretch, with packets of the other file over those of the source, each by its place and size and its place there."""
    at = stretch.start
    for start, size, there in packets:
        if at <= start and start + size <= stretch.end:
            yield from pieces(source, place + at - stretch.start, start - at)
            yield from pieces(other, there, size)
            at = start + size
    yield from pieces(source, place + at - stretch.start, stretch.end - at)


def pieces(copy: Copy, place: int, size: int) -> Iterator[bytes]:
    """Bytes of a copy, so many at a time that memory holds them."""
    for at in range(place, place + size, PIECE):
        piece = copy.read(at, min(PIECE, place + size - at))
        if len(piece) < min(PIECE, place + size - at):
            raise Fault(f"cannot read {copy.path}: it became shorter while it was read")
        yield piece


def rising(layout: Layout, matched: Matched) -> dict[int, int]:
    """The places of frames and of sound in another file, by the numbers of their stretches. The program reads a copy once from its start on,
    so places have to rise: of those that do not as few as can be are left out."""
    given = {(layout.frames[number].place, layout.frames[number].size): place for number, place in matched.places.items()}
    given.update({(place, size): there for place, (there, size) in matched.sound.items()})
    found = [(number, place, place + stretch.size) for number, stretch in enumerate(layout.stretches)
             for place in [given.get((stretch.start, stretch.size))] if stretch.kind is not Kind.ELEMENT and place is not None]
    return {found[at][0]: found[at][1] for at in longest_chain([(start, end) for _, start, end in found])}
