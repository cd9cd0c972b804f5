"""EBML (RFC 8794): element heads, the values of elements, and the CRC-32 of an element's content."""
from __future__ import annotations

import struct
from collections.abc import Iterator, Sequence
from typing import NamedTuple
import zlib

from ..model import Copy, Stretch

CRC_HEAD = b"\xbf\x84"
CRC_SIZE = 6
LONGEST_HEAD = 12
PIECE = 1 << 16
# The length of an ID or a size by its first byte, and the data bits by the length.
LENGTHS = [9 - first.bit_length() for first in range(256)]
MASKS = [(1 << 7 * length) - 1 for length in range(9)]


class Head(NamedTuple):
    """An element's head: its ID with the marker bit, where its size and its content begin, and its end (None where that is unknown)."""

    identity: int
    sized: int
    content: int
    end: int | None


def read_identity(data: bytes, at: int) -> tuple[int, int] | None:
    """Returns an element's ID and its length in bytes, or None where there is none. IDs whose data bits are all equal are reserved."""
    length = LENGTHS[data[at]] if at < len(data) else 9
    if length > 4 or at + length > len(data):
        return None
    identity = int.from_bytes(data[at : at + length], "big")
    return None if identity & MASKS[length] in (0, MASKS[length]) else (identity, length)


def read_size(data: bytes, at: int) -> tuple[int | None, int] | None:
    """Returns a variable-size number and its length in bytes, or None where there is none. The number is None if it is the unknown size."""
    length = LENGTHS[data[at]] if at < len(data) else 9
    if length > 8 or at + length > len(data):
        return None
    size = int.from_bytes(data[at : at + length], "big") & MASKS[length]
    return None if size == MASKS[length] else size, length


def read_head(data: bytes, at: int, place: int) -> Head | None:
    """Returns the head at an offset of some bytes, which lies at a place of the file, or None where there is none. Most of what reads a file
    is spent here, so that it calls nothing."""
    sized = at + (LENGTHS[data[at]] if at < len(data) else 9)
    if sized > at + 4 or sized >= len(data):
        return None
    content = sized + LENGTHS[data[sized]]
    identity, size = int.from_bytes(data[at:sized], "big"), int.from_bytes(data[sized:content], "big")
    most, mask = MASKS[sized - at], MASKS[content - sized] if content <= min(sized + 8, len(data)) else 0
    if not mask or identity & most in (0, most):
        return None
    start, size = place + content - at, size & mask
    return Head(identity, place + sized - at, start, None if size == mask else start + size)


def passes(copy: Copy, content: int, end: int) -> bool:
    """Reports whether an element's content begins with a CRC-32 element that the rest of it matches."""
    head = copy.read(content, CRC_SIZE) if content + CRC_SIZE <= end <= copy.size else b""
    if head[:2] != CRC_HEAD or len(head) < CRC_SIZE:
        return False
    place, sum_ = content + CRC_SIZE, 0
    while place < end:
        piece = copy.read(place, min(PIECE, end - place))
        if not piece:
            return False
        sum_ = zlib.crc32(piece, sum_)
        place += len(piece)
    return sum_ == int.from_bytes(head[2:], "little")


def passes_in(stretch: Stretch, copies: Sequence[Copy], number: int) -> bool:
    """Reports whether a copy has an element's content, and it passes there."""
    place = stretch.places[number]
    return place is not None and passes(copies[number], place, place + stretch.size)


def heads(data: bytes) -> Iterator[Head]:
    """Yields the heads of the children in a master's content, up to the first that does not lie within it."""
    at = 0
    while at < len(data):
        head = read_head(data, at, at)
        if head is None or head.end is None or head.end > len(data):
            return
        yield head
        at = head.end


def children(data: bytes) -> Iterator[tuple[int, bytes]]:
    """Yields the ID and the content of each such child."""
    return ((head.identity, data[head.content : head.end]) for head in heads(data))


def divides(data: bytes) -> bool:
    """Reports whether children cover a master's content."""
    return max((head.end or 0 for head in heads(data)), default=0) == len(data)


def number(content: bytes) -> int:
    """Returns an unsigned number; 0 where it has no bytes or too many."""
    return int.from_bytes(content, "big") if len(content) <= 8 else 0


class Fields(dict):
    """The contents of a master's children by their IDs, the last one of each."""

    def __init__(self, content: bytes) -> None:
        super().__init__(children(content))

    def inside(self, identity: int) -> Fields:
        return Fields(self.get(identity, b""))

    def number(self, identity: int) -> int:
        """An unsigned number; 0 where it has no bytes or too many."""
        return number(self.get(identity, b""))

    def real(self, identity: int) -> float:
        """A floating-point number; 0 where its length is none of RFC 8794."""
        content = self.get(identity, b"")
        return float(struct.unpack(">f" if len(content) == 4 else ">d", content)[0]) if len(content) in (4, 8) else 0.0

    def text(self, identity: int) -> str:
        """A string up to its first zero byte."""
        return self.get(identity, b"").split(b"\0", 1)[0].decode(errors="replace")
