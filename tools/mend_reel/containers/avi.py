"""AVI files: chunks, what their headers count, and where their indexes lead (Microsoft's RIFF AVI, and OpenDML 1.02)."""
from __future__ import annotations

import re
import struct

from ..model import Copy
from .structure import Container, Flaw, Part, Structure, Walk

NAME = re.compile(rb"[\x20-\x7e\xa9][\x20-\x7e]{3}")
MEDIA = re.compile(rb"([0-9]{2})(?:d[bc]|wb|tx|pc)")
INDEX = re.compile(rb"ix[0-9]{2}")
MASTERS = frozenset({b"RIFF", b"LIST"})
FIRST, FURTHER = b"AVI ", b"AVIX"
# An entry of idx1: the name of a chunk, flags, its place and its size; of an index of OpenDML: its place and its size.
ENTRY, SHORT_ENTRY, SHORT_HEAD = struct.Struct("<4s3I"), struct.Struct("<2I"), struct.Struct("<HBBI4sQI")
MOST_INDEX = 1 << 28


class Avi(Container):
    name, endings = "avi", frozenset({".avi"})

    def begins(self, head: bytes) -> bool:
        return head[:4] == b"RIFF" and head[8:12] in (FIRST, FURTHER)

    def read(self, copy: Copy) -> Structure:
        """An AVI file has as many chunks of each stream as its header and the index of its first part count, and these lead to them."""
        walk = Walk(copy, chunk, MASTERS, b"RIFF", again=lambda part: part.form == FIRST)
        chunks: list[Part] = []
        heads, indexes, old, movie, main = [], [], None, None, b""
        for part in walk.parts(0, copy.size):
            if MEDIA.fullmatch(part.name):
                chunks.append(part)
            elif part.name == b"strh":
                heads.append(copy.read(part.content, 48))
            elif part.name == b"avih":
                main = copy.read(part.content, 56)
            elif part.name == b"idx1":
                old = part, len(chunks)
            elif part.name == b"LIST" and movie is None and part.form == b"movi":
                movie = part
            elif INDEX.fullmatch(part.name):
                indexes.append(part)
        made = walk.made
        if old and movie:
            compare_index(copy, made, *old, chunks, movie.place + 8)
        for part in indexes:
            compare_short_index(copy, made, part, chunks)
        count_streams(made, copy.size, heads, chunks)
        streams, frames = int.from_bytes(main[24:28], "little"), int.from_bytes(main[16:20], "little")
        if movie is None or streams != len(heads):
            made.add(Flaw.NO_TABLE, 0, copy.size)
        elif not indexes and frames and frames not in {sum(int(each.name[:2]) == number for each in chunks) for number in range(streams)}:
            made.add(Flaw.COUNT, 0, copy.size, 0, frames)
        return made


def chunk(copy: Copy, place: int, end: int, depth: int) -> Part | None:
    """A chunk of an AVI file, which fills up to an even size."""
    head = copy.read(place, 12)
    name, size = head[:4], int.from_bytes(head[4:8], "little")
    after = place + 8 + size
    is_chunk = NAME.fullmatch(name) and after <= end if depth else name == b"RIFF" and head[8:] in (FIRST, FURTHER)
    return Part(name, place + (12 if name in MASTERS else 8), after + (after & 1), place, size, head[8:]) if is_chunk else None


def compare_index(copy: Copy, made: Structure, part: Part, count: int, chunks: list[Part], base: int) -> None:
    """Compares idx1 with the chunks that come before it: their names, sizes and places, which count from the list's name or from the file."""
    entries = list(ENTRY.iter_unpack(copy.read(part.content, min(part.size, MOST_INDEX) // ENTRY.size * ENTRY.size)))
    if len(entries) != count:
        made.add(Flaw.COUNT, part.content, part.end, count, len(entries))
        return
    pairs = list(zip(entries, chunks))
    shifts = {each.place - place for (_, _, place, _), each in pairs}
    wrong = [number for number, ((name, _, place, size), each) in enumerate(pairs) if (name, size) != (each.name, each.size)
             or each.place - place not in (0, base)]
    if wrong or len(shifts) > 1:
        first = wrong[0] if wrong else 0
        made.add(Flaw.INDEX, part.content + ENTRY.size * first, part.content + ENTRY.size * ((wrong[-1] if wrong else len(entries) - 1) + 1))


def compare_short_index(copy: Copy, made: Structure, part: Part, chunks: list[Part]) -> None:
    """Compares an index of OpenDML with the chunks: each entry leads to the content of one of its name."""
    data = copy.read(part.content, min(part.size, MOST_INDEX))
    known = {(each.name, each.content): each.size for each in chunks}
    if len(data) < SHORT_HEAD.size:
        made.add(Flaw.INDEX, part.content, part.end)
        return
    _, kind, _, count, name, base, _ = SHORT_HEAD.unpack_from(data)
    entries = list(SHORT_ENTRY.iter_unpack(data[SHORT_HEAD.size : SHORT_HEAD.size + SHORT_ENTRY.size * count])) if not kind else []
    if not kind and (len(entries) != count or any(known.get((name, base + place)) != size & 0x7FFFFFFF for place, size in entries)):
        made.add(Flaw.INDEX, part.content, part.end)


def count_streams(made: Structure, size: int, heads: list[bytes], chunks: list[Part]) -> None:
    """Compares the length of each stream with its chunks: so many of video, and of sound of a constant size so many bytes."""
    for number, head in enumerate(heads):
        own = [each for each in chunks if int(each.name[:2]) == number]
        length, sample = int.from_bytes(head[32:36], "little"), int.from_bytes(head[44:48], "little")
        has = len(own) if head[:4] == b"vids" else sum(each.size for each in own) // sample if head[:4] == b"auds" and sample else length
        if has != length:
            made.add(Flaw.COUNT, 0, size, has, length)
