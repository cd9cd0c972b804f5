"""Where the copies of a stretch differ: which have equal bytes, and plain stretches split so that what all agree on stands apart."""
from __future__ import annotations

import bisect
import dataclasses
import itertools
import re
from collections.abc import Iterable, Iterator, Sequence, Set
from typing import NamedTuple

from ..model import Copy, Kind, Stretch

PIECE = 1 << 16
SECTOR = 512
# An agreed run that is shorter than this does not split a run in which copies differ.
SHORTEST_AGREED = 8
MOST_RUNS = 4096
DIFFERING = re.compile(rb"[^\0]+")
DIFFERING_MOSTLY = re.compile(rb"[^\0]+(?:\0{1,%d}[^\0]+)*" % (SHORTEST_AGREED - 1))
Label = tuple[int, ...]
Partition = tuple[Label, ...]


class Run(NamedTuple):
    """A run of bytes in which the same copies are equal: where it ends, and for each copy the first one that it is equal to."""

    end: int
    label: Label


def partition(stretch: Stretch, copies: Sequence[Copy]) -> Partition:
    """Returns the copies that have a stretch in groups with equal bytes, the group of the first copy first."""
    having = tuple(stretch.having())
    groups = [having] if having else []
    for offset in range(0, stretch.size, PIECE):
        parts: list[tuple[int, ...]] = []
        for group in groups:
            pieces: dict[bytes, list[int]] = {}
            for number in group:
                pieces.setdefault(_read(stretch, copies, number, offset) if len(group) > 1 else b"", []).append(number)
            parts += map(tuple, pieces.values())
        groups = parts
        if all(len(group) == 1 for group in groups):
            break
    return tuple(sorted(groups))


def _read(stretch: Stretch, copies: Sequence[Copy], number: int, offset: int) -> bytes:
    return copies[number].read((stretch.places[number] or 0) + offset, min(PIECE, stretch.size - offset))


def split(stretch: Stretch, copies: Sequence[Copy]) -> list[Stretch]:
    """Returns the parts of a plain stretch: it is split where copies begin or end to differ."""
    having = stretch.having()
    if stretch.kind is not Kind.PLAIN or len(having) < 2:
        return [dataclasses.replace(stretch, is_alike=True) if stretch.kind is Kind.PLAIN else stretch]
    agreed: Label = (0,) * len(having)
    runs: list[Run] = []
    for offset in range(0, stretch.size, PIECE):
        pieces = [_read(stretch, copies, number, offset) for number in having]
        size = min(PIECE, stretch.size - offset)
        for run in _runs(pieces, size) if pieces.count(pieces[0]) < len(pieces) else [Run(size, agreed)]:
            _extend(runs, Run(offset + run.end, run.label))
    runs = _joined(runs, agreed)
    if len(runs) > MOST_RUNS:
        runs = _coarser(runs, agreed, (stretch.places[having[0]] or 0) % SECTOR)
    return _parts(stretch, runs, agreed)


def _runs(pieces: Sequence[bytes], size: int) -> Iterator[Run]:
    """Yields the runs of some byte strings of one size. A bit for each pair of versions turns where they begin or end to differ."""
    versions = list(dict.fromkeys(pieces))
    indexes = [versions.index(piece) for piece in pieces]
    pairs = list(itertools.combinations(range(len(versions)), 2))
    pattern = DIFFERING if len(pairs) > 1 else DIFFERING_MOSTLY
    turns: dict[int, int] = {}
    for number, (first, second) in enumerate(pairs):
        difference = int.from_bytes(versions[first], "big") ^ int.from_bytes(versions[second], "big")
        for match in pattern.finditer(difference.to_bytes(size, "big")):
            for place in match.span():
                turns[place] = turns.get(place, 0) ^ 1 << number
            if len(turns) > MOST_RUNS:
                yield from _sectors(pieces, size)
                return
    labels: dict[int, Label] = {}
    turned = turns.pop(0, 0)
    for place in sorted({*turns, size}):
        if turned not in labels:
            labels[turned] = _label(turned, pairs, indexes)
        yield Run(place, labels[turned])
        turned ^= turns.get(place, 0)


def _label(turned: int, pairs: Sequence[tuple[int, int]], indexes: Sequence[int]) -> Label:
    """Returns the label where the pairs of versions whose bits are set differ; `indexes` are the versions of the copies."""
    equal = {index: index for index in indexes}
    for number, (first, second) in reversed(list(enumerate(pairs))):
        if not turned >> number & 1:
            equal[second] = first
    versions = [equal[index] for index in indexes]
    return tuple(versions.index(version) for version in versions)


def _sectors(pieces: Sequence[bytes], size: int) -> Iterator[Run]:
    """Yields a run for each sector of some byte strings between which there are too many differences to list each."""
    for start in range(0, size, SECTOR):
        end = min(start + SECTOR, size)
        is_agreed = all(piece[start:end] == pieces[0][start:end] for piece in pieces)
        yield Run(end, (0,) * len(pieces) if is_agreed else ())


def _extend(runs: list[Run], run: Run) -> None:
    """Adds a run, to the last one if nothing changes there."""
    if runs and runs[-1].label == run.label:
        runs[-1] = run
    else:
        runs.append(run)


def _joined(runs: Sequence[Run], agreed: Label) -> list[Run]:
    """Returns the runs without short ones in which all copies agree between two in which the same ones differ."""
    joined: list[Run] = []
    for at, run in enumerate(runs):
        is_short = 0 < at < len(runs) - 1 and run.end - runs[at - 1].end < SHORTEST_AGREED
        if is_short and run.label == agreed and joined[-1].label == runs[at + 1].label:
            joined[-1] = Run(run.end, joined[-1].label)
        else:
            _extend(joined, run)
    return joined


def _coarser(runs: Sequence[Run], agreed: Label, phase: int) -> list[Run]:
    """Returns runs that end where sectors do, in which all agree or some differ. `phase` is where in a sector the first begins."""
    coarser: list[Run] = []
    start = end = 0
    for run in runs:
        if run.label != agreed:
            first = max((start + phase) // SECTOR * SECTOR - phase, end)
            if first > end:
                _extend(coarser, Run(first, agreed))
            end = min(-(-(run.end + phase) // SECTOR) * SECTOR - phase, runs[-1].end)
            _extend(coarser, Run(end, ()))
        start = run.end
    if end < runs[-1].end:
        _extend(coarser, Run(runs[-1].end, agreed))
    return coarser


def cut(stretches: Iterable[Stretch], bounds: Set[int]) -> list[Stretch]:
    """Returns the stretches, plain ones cut at these places of OUT."""
    ordered, made = sorted(bounds), []
    for stretch in stretches:
        inner = ordered[bisect.bisect_right(ordered, stretch.start) : bisect.bisect_left(ordered, stretch.end)]
        runs = [Run(place - stretch.start, ()) for place in (*inner, stretch.end)]
        made += _parts(stretch, runs, None) if inner and stretch.kind is Kind.PLAIN else [stretch]
    return made


def _parts(stretch: Stretch, runs: Sequence[Run], agreed: Label | None) -> list[Stretch]:
    """Returns the parts of a stretch between the ends of runs. In those of the label `agreed` the copies are alike."""
    starts = [0, *(run.end for run in runs)]
    whole = stretch.part_of or (stretch.start, stretch.end)
    return [stretch.part(start, run.end - start, is_alike=run.label == agreed, part_of=whole) for start, run in zip(starts, runs)]
