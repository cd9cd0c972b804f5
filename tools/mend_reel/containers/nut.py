"""NUT files: packets with checksums, syncpoints, the heads of frames, and the index (the NUT specification, version 3 and 4)."""
from __future__ import annotations

import dataclasses
from collections.abc import Iterator
from typing import NamedTuple

from ..model import Copy
from . import own_checks
from .elements import Steps
from .structure import TAIL, Container, Flaw, Structure

ID = b"nut/multimedia container\0"
MAIN, STREAM, SYNCPOINT, INDEX, INFO = (bytes.fromhex(each) for each in (
    "4e4d7a561f5f04ad", "4e5311405bf2f9db", "4e4be4adeeca4569", "4e58dd672f23e64e", "4e49ab68b596ba78"))
START, LONG = 8, 4096
KEY, CODED_TIME, OF_STREAM, LARGE, CHECKED, RESERVED, OF_HEAD, MATCHED, CODED, INVALID = (
    1 << bit for bit in (0, 3, 4, 5, 6, 7, 10, 11, 12, 13))
WINDOW, MOST_PACKET, FEWEST, MOST_NUMBER = 64, 1 << 26, 1 << 14, 10


class Nut(Container):
    name, endings = "nut", frozenset({".nut"})

    def begins(self, head: bytes) -> bool:
        return head.startswith(ID)

    def read(self, copy: Copy) -> Structure:
        """A NUT file ends with its index, which names the syncpoints. All packets but frames have checksums, and frames follow each other."""
        return Reader(copy).read()


class Reader:
    """A walk over a NUT file from its first packet to its index."""

    def __init__(self, copy: Copy) -> None:
        self.copy, self.made, self.steps = copy, Structure(), Steps(FEWEST)
        self.codes: list[Code] = []
        self.syncpoints: list[int] = []

    def read(self) -> Structure:
        place, is_ended = len(ID), False
        if self.copy.read(0, place) != ID:
            self.made.add(Flaw.BROKEN, 0, place)
        while place < self.copy.size and not is_ended:
            name = self.copy.read(place, START)
            if not self.steps.take(place):
                self.made.add(Flaw.BROKEN, place, self.copy.size)
                return self.made
            after = self.packet(place, name) if name[:1] == b"N" else self.frame(place)
            if after is None or after > self.copy.size:
                self.stop(place, after)
                return self.made
            place, is_ended = after, name == INDEX
        if not is_ended:
            self.made.add(Flaw.NO_TABLE, 0, self.copy.size)
            return self.made
        return self.made.close(place, self.copy.size)

    def stop(self, place: int, after: int | None) -> None:
        """Notes why the walk ends before the index."""
        is_index = self.copy.read(place, START) == INDEX
        start = max(self.copy.size - TAIL, 0)
        self.made.add(Flaw.CUT, self.copy.size, after) if is_index and after else self.made.add(Flaw.BROKEN, place, self.copy.size)
        if is_index and after:
            self.made.end = after
        elif INDEX not in self.copy.read(start, TAIL):
            self.made.add(Flaw.NO_TABLE, 0, self.copy.size)

    # ---- packets

    def packet(self, place: int, name: bytes) -> int | None:
        """Where what follows a packet begins. Its checksum is noted if it fails."""
        if name not in (MAIN, STREAM, SYNCPOINT, INDEX, INFO):
            return None
        head = Numbers(self.copy.read(place + START, WINDOW))
        size = head.next()
        content = place + START + head.at + (4 if size > LONG else 0)
        if head.is_short or size > MOST_PACKET:
            return None
        if content + size > self.copy.size:
            return content + size
        is_head_right = size <= LONG or own_checks.remainder_is_zero(self.copy.read(place, content - place))
        data = self.copy.read(content, size)
        if not is_head_right or not own_checks.remainder_is_zero(data):
            self.made.add(Flaw.SUM, place, content + size)
        elif name == MAIN and not self.codes:
            self.codes = list(read_codes(Numbers(data)))
        elif name == SYNCPOINT:
            self.syncpoints.append(place)
        elif name == INDEX:
            self.compare_index(Numbers(data), place, content + size)
        return content + size

    def compare_index(self, data: Numbers, place: int, end: int) -> None:
        """Compares the index with the syncpoints that were passed: it has their places in sixteenths, each after the one before."""
        data.next()
        count, at, found = data.next(), 0, []
        for _ in range(min(count, len(self.syncpoints) + 1)):
            at += data.next()
            found.append(at)
        if found != [each >> 4 for each in self.syncpoints]:
            self.made.add(Flaw.INDEX, place, end)

    # ---- frames

    def frame(self, place: int) -> int | None:
        """Where what follows a frame begins."""
        data = self.copy.read(place, WINDOW)
        code = self.codes[data[0]] if data and self.codes else None
        if code is None or code.flags & INVALID:
            return None
        numbers = Numbers(data, 1)
        flags = code.flags ^ (numbers.next() if code.flags & CODED else 0)
        for flag in (OF_STREAM, CODED_TIME):
            numbers.next() if flags & flag else 0
        more = numbers.next() if flags & LARGE else 0
        for flag in (MATCHED, OF_HEAD):
            numbers.next() if flags & flag else 0
        for _ in range(min(numbers.next(), WINDOW) if flags & RESERVED else code.reserved):
            numbers.next()
        end = numbers.at + (4 if flags & CHECKED else 0)
        if numbers.is_short or flags & CHECKED and not own_checks.remainder_is_zero(data[:end]):
            return None
        return place + end + code.low + more * code.multiplier


@dataclasses.dataclass
class Numbers:
    """Variable-length numbers in some bytes: seven bits in each byte, the highest first; all but the last have the high bit set."""

    data: bytes
    at: int = 0
    is_short: bool = False

    def next(self) -> int:
        value = 0
        for byte in self.data[self.at : self.at + MOST_NUMBER]:
            self.at += 1
            value = value << 7 | byte & 0x7F
            if byte < 0x80:
                return value
        self.is_short = True
        return 0


class Code(NamedTuple):
    """What the first byte of a frame says: its flags, the multiplier and the low part of its size, and how many fields it has that are
    reserved."""

    flags: int
    multiplier: int = 1
    low: int = 0
    reserved: int = 0


def read_codes(data: Numbers) -> Iterator[Code]:
    """Yields the codes that the main header has, one for each first byte of a frame."""
    version = data.next()
    for _ in range(1 if version > 3 else 0):
        data.next()
    data.next()
    data.next()
    for _ in range(min(data.next(), LONG)):
        data.next()
        data.next()
    made, multiplier = 0, 1
    while made < 256 and not data.is_short:
        flags, fields = data.next(), data.next()
        values = [data.next() for _ in range(min(fields, LONG))]
        multiplier = values[1] if fields > 1 else multiplier
        low, reserved = values[3] if fields > 3 else 0, values[4] if fields > 4 else 0
        count = values[5] if fields > 5 else multiplier - low
        for number in range(max(min(count, 256), 0)):
            if made == ord("N"):
                yield Code(INVALID)
                made += 1
            if made < 256:
                yield Code(flags, multiplier, low + number, reserved)
                made += 1
