"""MOV and MP4 files: atoms, and what the tables of their tracks say of the media (Apple's QuickTime File Format; ISO/IEC 14496-12)."""
from __future__ import annotations

import bisect
import collections
import dataclasses
import itertools
import struct
from collections.abc import Iterator

from ..model import Copy
from .avi import NAME
from .structure import Container, Flaw, Found, Part, Structure, Walk

MASTERS = frozenset({b"moov", b"trak", b"mdia", b"minf", b"stbl", b"mvex", b"moof", b"traf"})
FIRST = frozenset({b"ftyp", b"moov", b"mdat", b"wide", b"free", b"skip"})
TABLES = frozenset({b"stts", b"stsc", b"stsz", b"stco", b"co64", b"stss"})
MOST_TABLE, LEAST = 1 << 26, 8


class Mov(Container):
    name, endings = "mov", frozenset({".mov", ".mp4", ".m4v", ".qt"})

    def begins(self, head: bytes) -> bool:
        return head[4:8] in FIRST

    def read(self, copy: Copy) -> Structure:
        """The tables of a MOV file count samples, of fragments too, and say where they lie."""
        walk = Walk(copy, atom, MASTERS, b"moov", LEAST, lambda part: part.name == b"ftyp")
        samples, tracks, track, media = collections.Counter[int](), [], 0, []
        tables: dict[int, Tables] = {}
        is_in_fragments = False
        for part in walk.parts(0, copy.size):
            if part.name in (b"tkhd", b"tfhd"):
                data = copy.read(part.content, 24)
                at = 4 if part.name == b"tfhd" else 20 if data[:1] == b"\1" else 12
                track = int.from_bytes(data[at : at + 4], "big")
                tracks += [track] if part.name == b"tkhd" else []
            elif part.name == b"mdat":
                media.append((part.content, part.end))
            elif part.name in TABLES or part.name == b"mdhd":
                tables.setdefault(track, Tables()).read(part.name, copy.read(part.content, min(part.end - part.content, MOST_TABLE)), part)
            is_in_fragments |= part.name == b"moof"
            if part.name in (b"stsz", b"trun"):
                samples[track] += int.from_bytes(copy.read(part.content + (8 if part.name == b"stsz" else 4), 4), "big")
        if not walk.has_last:
            ends = [found.start if found.flaw is Flaw.BROKEN else found.end for found in walk.made.flaws]
            walk.made.table = displaced_table(copy, min(ends, default=0))
            walk.made.flaws += [] if walk.made.table else [Found(Flaw.NO_TABLE, 0, copy.size)]
        elif not is_in_fragments:
            walk.made.flaws += compare_tables([tables[each] for each in tracks if each in tables], sorted(media))
        walk.made.counts, walk.made.stop = {number: samples[track] for number, track in enumerate(tracks)}, walk.stop
        return walk.made


def atom(copy: Copy, place: int, end: int, depth: int) -> Part | None:
    """An atom of a MOV or MP4 file. The last one may go on to the file's end."""
    head = copy.read(place, 16)
    size, content = int.from_bytes(head[:4], "big"), place + 8
    if size == 1:
        size, content = int.from_bytes(head[8:16], "big"), place + 16
    after = end if size == 0 and not depth else place + size
    is_atom = NAME.fullmatch(head[4:8]) and content <= after and (not depth or after <= end)
    return Part(head[4:8], content, after, place) if is_atom else None


def displaced_table(copy: Copy, expected: int) -> tuple[int, int, int] | None:
    """Where the tables of a MOV file are expected, where they lie as its last part, and how long they are."""
    start = max(copy.size - MOST_TABLE, 0)
    tail = copy.read(start, MOST_TABLE)
    at = tail.rfind(b"moov") - 4
    size = int.from_bytes(tail[at : at + 4], "big") if at >= 0 else 0
    return (expected, start + at, size) if size and at + size == len(tail) else None


@dataclasses.dataclass
class Tables:
    """The tables of a track: how many samples have a time, how long they last together and the track by its head, the sizes of all samples
    (or how many, of one size), how many are in each chunk, where the chunks lie, which samples are keyframes, and where each table lies."""

    timed: int = 0
    lasts: int = 0
    claimed: int | None = None
    count: int = 0
    sizes: tuple[int, ...] = ()
    size: int = 0
    runs: list[tuple[int, ...]] = dataclasses.field(default_factory=list)
    places: tuple[int, ...] = ()
    keys: tuple[int, ...] = ()
    parts: dict[bytes, Part] = dataclasses.field(default_factory=dict)

    def read(self, name: bytes, data: bytes, part: Part) -> None:
        self.parts[b"stco" if name == b"co64" else name] = part
        if name == b"mdhd":
            self.claimed = int.from_bytes(data[24:32] if data[:1] == b"\1" else data[16:20], "big")
            return
        self.size, count, at = (int.from_bytes(data[4:8], "big"), data[8:12], 12) if name == b"stsz" else (self.size, data[4:8], 8)
        numbers = numbers_of(data[at:], 8 if name == b"co64" else 4)
        if name == b"stsz":
            self.count, self.sizes = int.from_bytes(count, "big"), numbers
        elif name == b"stts":
            pairs = list(zip(numbers[::2], numbers[1::2]))[: int.from_bytes(count, "big")]
            self.timed, self.lasts = sum(each for each, _ in pairs), sum(each * step for each, step in pairs)
        elif name == b"stsc":
            self.runs = list(zip(numbers[::3], numbers[1::3]))[: int.from_bytes(count, "big")]
        elif name == b"stss":
            self.keys = numbers[: int.from_bytes(count, "big")]
        else:
            self.places = numbers[: int.from_bytes(count, "big")]

    def in_chunks(self) -> list[int]:
        """How many samples each chunk has."""
        ends = [first for first, _ in self.runs[1:]] + [len(self.places) + 1]
        most = len(self.places) + 1
        return list(itertools.chain.from_iterable([each] * max(min(end, most) - first, 0) for (first, each), end in zip(self.runs, ends)))

    def chunks(self) -> Iterator[tuple[int, int]]:
        """From where to where each chunk lies."""
        sums = [] if self.size else [0, *itertools.accumulate(self.sizes)]
        done = 0
        for place, count in zip(self.places, self.in_chunks()):
            yield place, place + (self.size * count if self.size else sums[min(done + count, len(sums) - 1)] - sums[min(done, len(sums) - 1)])
            done += count

    def flaws(self) -> Iterator[Found]:
        """Where the tables differ among each other."""
        for name, has in ((b"stts", self.timed), (b"stsc", sum(self.in_chunks())), (b"stsz", self.count if self.size else len(self.sizes))):
            if has != self.count and name in self.parts:
                yield Found(Flaw.COUNT, self.parts[name].place, self.parts[name].end, has, self.count)
        rising = all(one < other for one, other in zip((0, *self.keys), (*self.keys, self.count + 1)))
        for name, is_right in ((b"stss", rising), (b"mdhd", self.claimed in (None, self.lasts))):
            if not is_right and name in self.parts:
                yield Found(Flaw.INDEX, self.parts[name].place, self.parts[name].end)


def numbers_of(data: bytes, size: int) -> tuple[int, ...]:
    count = len(data) // size
    return struct.unpack(f">{count}{'Q' if size == 8 else 'I'}", data[: count * size])


def compare_tables(tables: list[Tables], media: list[tuple[int, int]]) -> Iterator[Found]:
    """Yields where tables differ among each other, and which say that chunks lie outside of the media, or where others do."""
    for each in tables:
        yield from each.flaws()
    spans = sorted((start, end, number) for number, each in enumerate(tables) for start, end in each.chunks())
    wrong = {number for start, end, number in spans if start < end and not lies_in(start, end, media)}
    for (_, before, one), (start, _, other) in zip(spans, spans[1:]):
        wrong |= {one, other} if start < before else set()
    for part in (tables[number].parts.get(b"stco") for number in sorted(wrong)):
        if part:
            yield Found(Flaw.INDEX, part.place, part.end)


def lies_in(start: int, end: int, media: list[tuple[int, int]]) -> bool:
    at = bisect.bisect(media, (start, float("inf"))) - 1
    return at >= 0 and media[at][0] <= start and end <= media[at][1]
