"""Long filling: what a copy has one value all over, where another copy of the file has content. It counts as unread there."""
from __future__ import annotations

import dataclasses
import pathlib
from collections.abc import Iterable, Iterator, Sequence

from ..containers.files import describe, form_of
from ..engine.frame_checks import Judge
from ..judging.unread import spans_in
from ..model import Copy, Kind, Layout, Stretch, open_copy, or_fault
from .differences import cut

# Fewer sectors than this are no long filling, and not more of a file than its quarter stands against what copies have alike.
SECTOR, FEWEST, PIECE, QUARTER = 512, 2, 1 << 20, 4


def runs(copy: Copy) -> list[tuple[int, int]]:
    """From where to where a copy has one value over several sectors. It is looked for once."""
    if copy.runs is None:
        copy.runs = runs_at(copy, [(0, copy.size)])
    return copy.runs


def runs_at(copy: Copy, spans: Iterable[tuple[int, int]]) -> list[tuple[int, int]]:
    """The runs of one value over several sectors that have bytes of some spans, which rise."""
    found: list[tuple[int, int, bytes]] = []
    buffer = memoryview(bytearray(PIECE))
    for start, end in spans:
        for place in range(start // SECTOR * SECTOR, min(end, copy.size), PIECE):
            size = copy.read_into(buffer[: min(PIECE, -(-(end - place) // SECTOR) * SECTOR)], place)
            # Most sectors are told by their first byte and that of a neighbour.
            firsts = bytes(buffer[:size:SECTOR])
            for number in sorted({0, len(firsts) - 1, *(number for first in alike(firsts) for number in (first, first + 1))}):
                add(found, place + SECTOR * number, bytes(buffer[SECTOR * number : min(SECTOR * (number + 1), size)]))
    made: list[tuple[int, int]] = []
    for start, end, value in found:
        start, end = outward(copy, start, end, value) if not made or start >= made[-1][1] else (end, end)
        made += [grown(copy, start, end, value)] if start < end and (end - start >= FEWEST * SECTOR or end == copy.size) else []
    return made


def outward(copy: Copy, start: int, end: int, value: bytes) -> tuple[int, int]:
    """A run of one value with the sectors around it that have that all over."""
    while start and not copy.read(start - SECTOR, SECTOR).strip(value):
        start -= SECTOR
    while end < copy.size and not copy.read(end, SECTOR).strip(value):
        end = min(end + SECTOR, copy.size)
    return start, end


def alike(values: bytes) -> Iterator[int]:
    """Yields where a value stands before the same one."""
    size = max(len(values) - 1, 0)
    differing = (int.from_bytes(values[:size], "big") ^ int.from_bytes(values[1:], "big")).to_bytes(size, "big")
    place = differing.find(0)
    while place >= 0:
        yield place
        place = differing.find(0, place + 1)


def add(found: list[tuple[int, int, bytes]], place: int, sector: bytes) -> None:
    """Adds a sector that has one value, to the run before it if that ends there."""
    value = sector[:1]
    if sector.count(value) == len(sector):
        joins = found and found[-1][1:] == (place, value)
        found[-1 if joins else len(found) :] = [(found[-1][0] if joins else place, place + len(sector), value)]


def grown(copy: Copy, start: int, end: int, value: bytes) -> tuple[int, int]:
    """A run with the bytes of its value in the sectors beside it."""
    first = max(start - SECTOR, 0)
    before, after = copy.read(first, start - first), copy.read(end, SECTOR)
    return start - len(before) + len(before.rstrip(value)), end + len(after) - len(after.lstrip(value))


def hidden(copy: Copy, others: Sequence[Copy]) -> list[tuple[int, int]]:
    """What of the runs of a copy some other one has content at."""
    found: list[tuple[int, int]] = []
    for first, last in sorted(part for run in runs(copy) for other in others if other is not copy for part in shown(other, *run)):
        joins = bool(found) and first <= found[-1][1]
        found[-1 if joins else len(found) :] = [(found[-1][0], max(last, found[-1][1])) if joins else (first, last)]
    return found


def filling(copy: Copy, others: Sequence[Copy]) -> list[tuple[int, int]]:
    """The runs of a copy at which others have content, one or one after the other, from the first sector to the last: silence has the same value
    about what differs."""
    spans = hidden(copy, others)
    return [(start, end) for start, end in runs(copy) for found in [spans_in(spans, start, end)]
            if found and found[0][0] < start + SECTOR and found[-1][1] > end - SECTOR and all(
                after[0] < before[1] + SECTOR for before, after in zip(found, found[1:]))]


def shown(other: Copy, start: int, end: int) -> Iterator[tuple[int, int]]:
    """What of a run another copy has content at, and no long run: a sector or more, or all of a short run at the end."""
    least = min(SECTOR, end - start)
    for first, last in [*spans_in(runs(other), start, end), (end, end)]:
        if first - start >= least and has_content(other, start) and has_content(other, first - least):
            yield start, first
        start = last


def has_content(copy: Copy, place: int) -> bool:
    """Whether a copy has more than one value in the bytes of a sector from a place on."""
    piece = copy.read(max(place, 0), SECTOR)
    return piece.count(piece[:1]) < len(piece)


def complement(one: Copy, other: Copy) -> bool:
    """Whether two copies of one length have content where the other has long filling, so that they may be of one file."""
    ours, theirs = (sum(last - first for first, last in hidden(copy, [there])) for copy, there in ((one, other), (other, one)))
    return bool(ours and theirs) and one.size == other.size and QUARTER * (ours + theirs) >= one.size


def find_filling(copies: Sequence[Copy], stretches: Sequence[Stretch]) -> bool:
    """Notes the long filling of copies of one file in what nothing checks and no container confirms in all of them. Returns whether there is any
    run of one value."""
    known = [copy.runs for copy in copies]
    spans = [(each.start, each.end) for each in stretches if each.kind is Kind.PLAIN and len(each.vouched) < len(copies)]
    for copy in copies if len(copies) > 1 else ():
        copy.runs = runs_at(copy, spans) if copy.runs is None else copy.runs
    has_runs = any(copy.runs for copy in copies)
    for copy in copies if has_runs else ():
        copy.filling = filling(copy, copies)
    for copy, each in zip(copies, known):
        copy.runs = each
    return has_runs


def filled(copies: Sequence[Copy], layout: Layout, judge: Judge, path: pathlib.Path) -> tuple[Copy | None, Layout]:
    """A file as its copies have it together up to its end, which is written to a path, and what lies where in it: where a copy has a long run
    another one counts that has content. None if no copy has any; as it was known, if no more is found."""
    spans = [spans_in(hidden(copy, copies), 0, layout.size) for copy in copies]
    if not any(spans):
        return None, layout
    with or_fault(f"cannot write {path}"), open(path, "wb") as file:
        file.writelines(pieces(copies, spans, layout.size))
    made = open_copy(str(path))
    made.form = form_of(made)
    found = describe([made], judge)
    is_more = (len(found.frames), -len(found.gaps)) > (len(layout.frames), -len(layout.gaps))
    return made, placed(found, copies, made) if is_more else layout


def placed(layout: Layout, copies: Sequence[Copy], source: Copy | None = None) -> Layout:
    """A layout with the places of its stretches in copies of the file, if it was made of one file alone. What the container confirms in that file,
    the source, it confirms in the copies that have the same there."""
    if all(len(stretch.places) == len(copies) for stretch in layout.stretches):
        return layout
    return dataclasses.replace(layout, stretches=[dataclasses.replace(
        stretch, places=tuple(stretch.start if stretch.end <= copy.size else None for copy in copies), vouched=having_alike(stretch, copies, source))
        for stretch in cut(layout.stretches, {copy.size for copy in copies})])


def having_alike(stretch: Stretch, copies: Sequence[Copy], source: Copy | None) -> frozenset[int]:
    """The copies that have what the container confirms in the source."""
    content = source.read(stretch.start, stretch.size) if source and stretch.vouched else b""
    return frozenset(number for number, copy in enumerate(copies) if content and copy.read(stretch.start, stretch.size) == content)


def pieces(copies: Sequence[Copy], spans: Sequence[Sequence[tuple[int, int]]], size: int) -> Iterator[bytes]:
    """The bytes of a file of a size from its first one on, each as a copy has it that has no filling there, if one has not."""
    cuts = sorted({*range(0, size, PIECE), size, *(at for own in spans for span in own for at in span), *(min(copy.size, size) for copy in copies)})
    for start, end in zip(cuts, cuts[1:]):
        having = [(bool(spans_in(own, start, end)), number) for number, (copy, own) in enumerate(zip(copies, spans)) if end <= copy.size]
        yield copies[min(having)[1]].read(start, end - start)
