"""What helps an element that no copy has whole: what most copies have of it, and what copies have alike beside its frames."""
from __future__ import annotations

import collections
import dataclasses
import pathlib
import zlib
from collections.abc import Iterator, Sequence

from ..containers import ebml
from ..engine.frame_checks import Judge
from ..judging.unread import only
from ..model import Copy, Kind, Outcome, State, Stretch, open_copy, or_fault
from . import differences
from .known_wrong import has_lost_sector

FEWEST_VOTES, CHUNK = 3, 64


class Overlay:
    """A copy in which some stretches are as another file has them, one after the other from its first byte on."""

    def __init__(self, copy: Copy, made: Copy, stretches: Sequence[Stretch]) -> None:
        self.copy, self.made, self.spans, at = copy, made, [], 0
        for stretch in stretches:
            self.spans.append((stretch.start, stretch.end, at))
            at += stretch.size

    def read(self, place: int, size: int) -> bytes:
        """Bytes that lie in one of the stretches, or beside all."""
        found = next(((start, at) for start, end, at in self.spans if start <= place and place + size <= end), None)
        return self.made.read(found[1] + place - found[0], size) if found else self.copy.read(place, size)


def most(versions: Sequence[bytes]) -> bytes:
    """What most of some versions of one size have at each byte."""
    if len(versions) == FEWEST_VOTES:
        one, two, three = (int.from_bytes(version, "big") for version in versions)
        return (one & two | one & three | two & three).to_bytes(len(versions[0]), "big")
    chunks = ([version[at : at + CHUNK] for version in versions] for at in range(0, len(versions[0]), CHUNK))
    return b"".join(pieces[0] if pieces.count(pieces[0]) == len(pieces) else bytes(collections.Counter(each).most_common(1)[0][0]
                                                                                  for each in zip(*pieces)) for pieces in chunks)


def passes(content: bytes) -> bool:
    """Whether the content of an element passes the CRC-32 that it begins with."""
    return content[:2] == ebml.CRC_HEAD and zlib.crc32(content[ebml.CRC_SIZE :]) == int.from_bytes(content[2 : ebml.CRC_SIZE], "little")


def voted(stretches: Sequence[Stretch], outcomes: Sequence[Outcome], copies: Sequence[Copy]) -> Iterator[tuple[int, bytes]]:
    """Yields the elements that are not restored and that pass as most of three copies or more have them, by their numbers."""
    for outcome in outcomes:
        stretch = stretches[outcome.number]
        having = [number for number in stretch.having() if number < len(copies)]
        if stretch.kind is Kind.ELEMENT and outcome.state is State.MISSING and len(having) >= FEWEST_VOTES:
            content = most([copies[number].read(stretch.places[number] or 0, stretch.size) for number in having])
            if passes(content):
                yield outcome.number, content


def write_voted(found: Sequence[tuple[int, bytes]], path: pathlib.Path) -> tuple[Copy, dict[int, int]]:
    """Writes contents one after the other to a file. Returns it, and where each lies in it."""
    places, end = {}, 0
    with or_fault(f"cannot write {path}"), open(path, "wb") as file:
        for number, content in found:
            file.write(content)
            places[number], end = end, end + len(content)
    return open_copy(str(path)), places


def right_versions(stretch: Stretch, copies: Sequence[Copy], scan: Judge) -> list[tuple[int, ...]]:
    """The copies in groups with equal bytes that have an element so that it passes, and all frames in it do."""
    found = []
    for group in differences.partition(stretch, copies):
        place = stretch.places[group[0]] or 0
        frames = [(place + frame.place - stretch.start, frame.size) for frame in stretch.parts]
        if ebml.passes_in(stretch, copies, group[0]) and all(each.is_intact() for each in scan(copies[group[0]], frames)):
            found.append(group)
    return found


def votes(stretches: Sequence[Stretch], outcomes: Sequence[Outcome], copies: Sequence[Copy]) -> collections.Counter[int]:
    """How many copies speak for each one, where they differ and nothing checks. One that seems to have lost a sector there has no vote, and
    none is given to it."""
    found: collections.Counter[int] = collections.Counter()
    for outcome in (each for each in outcomes if each.state is State.OPEN):
        stretch = only(stretches[outcome.number], range(len(copies)))
        having = stretch.having()
        lost = {number for number in having if has_lost_sector(stretch, copies, number, having)}
        for group in differences.partition(stretch, copies):
            found.update({number: len(set(group) - lost) for number in set(group) - lost})
    return found


def alike_beside(stretches: Sequence[Stretch], outcomes: Sequence[Outcome], copies: Sequence[Copy]) -> dict[int, int]:
    """How many bytes beside the frames of an element that is not restored all of several copies have alike, by the numbers of elements."""
    found = {}
    for outcome in (each for each in outcomes if each.state is State.MISSING):
        stretch = dataclasses.replace(stretches[outcome.number], places=stretches[outcome.number].places[: len(copies)])
        if stretch.kind is Kind.ELEMENT and len(stretch.having()) > 1:
            found[outcome.number] = sum(part.size for start, end in beside(stretch) for part in differences.split(
                stretch.part(start - stretch.start, end - start, kind=Kind.PLAIN, parts=(), sound=()), copies) if part.is_alike)
    return found


def beside(stretch: Stretch) -> Iterator[tuple[int, int]]:
    """From where to where bytes of an element lie that are of no frame, and no frame of FLAC."""
    place = stretch.start
    for start, size, _ in stretch.listed_parts():
        if place < start:
            yield place, start
        place = max(place, start + size)
    if place < stretch.end:
        yield place, stretch.end
