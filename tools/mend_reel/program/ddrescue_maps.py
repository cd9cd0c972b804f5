"""The mapfiles of GNU ddrescue, which say what of a copy could not be read."""
from __future__ import annotations

import re
from collections.abc import Iterator

from ..model import Copy, Fault, or_fault

FINISHED = "+"
NUMBER = r"(0[xX][0-9a-fA-F]{1,16}|[0-9]{1,20})"
STATUS = re.compile(rf"{NUMBER}\s+[?*/FG+-](?:\s+\S+)?", re.ASCII)
BLOCK = re.compile(rf"{NUMBER}\s+{NUMBER}\s+([?*/+-])", re.ASCII)
MOST_LINE, MOST_LINES, SECTOR = 4096, 1 << 22, 512


def unread(path: str, copy: Copy) -> list[tuple[int, int]]:
    """From where to where a copy could not be read. What lies before the map's first block was not tried."""
    blocks = list(read(path))
    end = max((end for _, end, _ in blocks), default=0)
    if end < copy.size:
        raise Fault(f"{path} is the map of another file: it ends at {end}, and {copy.path} has {copy.size} bytes")
    found: list[tuple[int, int]] = []
    for start, end, status in [(0, blocks[0][0] if blocks else 0, "?"), *blocks]:
        end = min(end, copy.size)
        if status != FINISHED and start < end:
            joins = found and found[-1][1] == start
            found[-1 if joins else len(found) :] = [(found[-1][0] if joins else start, end)]
    return found


def contradicted(copy: Copy) -> list[tuple[int, int]]:
    """What of a copy is called unread and holds no filling: neither one value all over a sector, nor the same in each of several."""
    found = []
    for start, end in copy.unread:
        pieces = [copy.read(place, min(SECTOR, end - place)) for place in range(start, end, SECTOR)]
        is_repeated = len(pieces) > 1 and all(piece == pieces[0][: len(piece)] for piece in pieces)
        if not is_repeated and not all(piece.count(piece[:1]) == len(piece) for piece in pieces):
            found.append((start, end))
    return found


def read(path: str) -> Iterator[tuple[int, int, str]]:
    """The blocks of a mapfile: from where to where, and their statuses. They follow each other, after a line of its status."""
    is_begun, last, number = False, None, 1
    for number, line in lines(path):
        block = BLOCK.fullmatch(line) if is_begun else None
        start = number_of(block[1]) if block else None
        if is_begun and (block is None or last is not None and start != last) or not is_begun and not STATUS.fullmatch(line):
            raise not_a_map(path, number)
        if block and start is not None:
            last = start + number_of(block[2])
            yield start, last, block[3]
        is_begun = True
    if not is_begun:
        raise not_a_map(path, 1)


def not_a_map(path: str, number: int) -> Fault:
    return Fault(f"{path} is no mapfile of GNU ddrescue: see its line {number}")


def number_of(word: str) -> int:
    """A number as C++ reads it: hexadecimal after 0x, octal after 0."""
    return int(word, 16 if word[:2] in ("0x", "0X") else 8 if word[0] == "0" and not set(word) - set("01234567") else 10)


def lines(path: str) -> Iterator[tuple[int, str]]:
    """The lines that are no comments, with their numbers."""
    with or_fault(f"cannot read {path}"), open(path, "rb") as file:
        for number in range(1, MOST_LINES):
            line = file.readline(MOST_LINE)
            if len(line) == MOST_LINE and not line.endswith(b"\n"):
                raise not_a_map(path, number)
            text = line.decode("ascii", "replace").strip()
            if not line:
                return
            if text and not text.startswith("#"):
                yield number, text
