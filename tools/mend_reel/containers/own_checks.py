"""What FFV1 frames, Configuration Records and frames of FLAC are known and judged by: sizes and parities within them (RFC 9043, sections
4.2.3 and 4.9; RFC 9639, section 9.1)."""
from __future__ import annotations

import itertools
import zlib
from collections.abc import Callable, Iterable, Iterator

from ..model import Copy, Track

# The footer of a slice has three bytes of size, one of error status, and four of parity.
FOOTER, MOST_SLICES, ENOUGH_SLICES = 8, 4096, 6
# A parity has the polynomial of CRC-32 with the bits of each byte the other way round, and begins with zeros.
TURNED, ZEROS = bytes(int(f"{byte:08b}"[::-1], 2) for byte in range(256)), 0xFFFFFFFF
FEWEST_RECORD = 6
# The head of a frame of FLAC: how many bytes the size of a block and the rate of samples have after the frame's number, by their codes.
LONGEST_FLAC_HEAD, FIXED, OF_SIZE, OF_RATE = 16, 4, {6: 1, 7: 2}, {12: 1, 13: 2, 14: 2}
Read = Callable[[int, int], bytes]


def is_uniform(piece: bytes) -> bool:
    return not piece or piece.count(piece[:1]) == len(piece)


def remainder_is_zero(piece: bytes) -> bool:
    """Whether the remainder of some bytes, which their parity is a part of, is zero."""
    return zlib.crc32(piece.translate(TURNED), ZEROS) == ZEROS


def passes(piece: bytes) -> bool:
    """Whether a slice passes its parity. One without content says nothing."""
    return len(piece) > FOOTER and remainder_is_zero(piece)


# ---- the slices of a frame


def walk(read: Read, start: int, end: int) -> Iterator[tuple[int, int]]:
    """Yields from where to where slices lie, the last first, as far as footers lead within a range. `read` gives bytes at a place."""
    for _ in range(MOST_SLICES):
        footer = read(end - FOOTER, FOOTER) if end - FOOTER >= start else b""
        size = int.from_bytes(footer[:3], "big") if len(footer) == FOOTER else 0
        first = end - FOOTER - size
        if size == 0 or first < start:
            return
        yield first, end
        end = first


def slices(frame: bytes) -> Iterator[tuple[int, int]]:
    """Yields from where to where the slices of a frame lie in it."""
    return walk(lambda place, size: frame[place : place + size], 0, len(frame))


def is_frame(copy: Copy, start: int, end: int) -> bool:
    """Reports whether footers lead from the end of a range to its start."""
    return any(first == start for first, _ in walk(copy.read, start, end))


def seems_frame(copy: Copy, start: int, end: int) -> bool:
    """Reports whether footers lead from the end of a range to its start, or through so many slices that this is no chance."""
    found = list(itertools.islice(walk(copy.read, start, end), ENOUGH_SLICES))
    return len(found) == ENOUGH_SLICES or bool(found) and found[-1][0] == start


def nearest(data: bytes, size: int, middle: int) -> int | None:
    """Returns where in some bytes a frame of a size lies, through which footers lead to its start: the one nearest to a place."""
    places = sorted(range(len(data) - size + 1), key=lambda start: abs(start - middle))
    return next((place for place in places if any(first == 0 for first, _ in slices(data[place : place + size]))), None)


def first_within(copies: Iterable[Copy], first: int, last: int, end: int) -> int | None:
    """Returns where a frame begins that ends at a place, if the footers of some copy lead to a place between two others."""
    return next((place for copy in copies for place, _ in walk(copy.read, first, end) if place <= last), None)


def share_slice(one: bytes, other: bytes) -> bool:
    """Whether two versions of a frame are equal, or share a slice in one place that passes. Bytes of one value are a lost sector."""
    if len(one) != len(other) or is_uniform(one) or is_uniform(other):
        return False
    alike = itertools.takewhile(lambda piece: one[piece[1] - 8 : piece[1] - 5] == other[piece[1] - 8 : piece[1] - 5], slices(one))
    return one == other or any(one[start:end] == other[start:end] and passes(one[start:end]) for start, end in alike)


def is_astray(frame: bytes, version: bytes) -> bool:
    """Whether what seems a version of a frame that passes was taken from other places: it has slices that pass and that the frame does not have
    there. A version that passes as a whole may be another one, but where it has a slice of the frame at another place."""
    own, found = ({(start, each[start:end]) for start, end in slices(each) if passes(each[start:end])} for each in (frame, version))
    is_whole = sum(len(piece) for _, piece in found) == len(version)
    return not found <= own and (not is_whole or not {piece for _, piece in found - own}.isdisjoint(piece for _, piece in own))


def has_only_sizes(frame: bytes) -> bool:
    """Whether the slices of a frame are divided by sizes of three bytes alone, as those without parities are."""
    end, size = len(frame), 1
    while end >= 3 and size:
        size = int.from_bytes(frame[end - 3 : end], "big")
        end -= 3 + size
    return end == 0 < len(frame) and size > 0


# ---- frames of FLAC


def is_flac(data: bytes) -> bool:
    """Reports whether some bytes begin with the head of a frame of FLAC, which ends with a CRC-8."""
    if len(data) <= FIXED or data[0] != 0xFF or data[1] & 0xFE != 0xF8:
        return False
    ones = 8 - (data[FIXED] ^ 0xFF).bit_length()
    end = FIXED + max(ones, 1) + OF_SIZE.get(data[2] >> 4, 0) + OF_RATE.get(data[2] & 15, 0)
    return end < len(data) and crc8(data[:end]) == data[end]


def crc8(data: bytes) -> int:
    """The CRC-8 of some bytes: the polynomial x^8 + x^2 + x + 1, from zero on."""
    value = int.from_bytes(data, "big") << 8
    for bit in range(value.bit_length() - 1, 7, -1):
        value ^= 0x107 << bit - 8 if value >> bit & 1 else 0
    return value


# ---- Configuration Records


def passes_as_record(record: bytes) -> bool:
    """Whether a Configuration Record passes its parity. Zeros pass every parity, and are no record."""
    return len(record) >= FEWEST_RECORD and any(record) and remainder_is_zero(record)


def records_in(data: bytes, start: int, tracks: Iterable[Track]) -> list[tuple[int, int]]:
    """From where to where the records of FFV1 tracks lie in some bytes, which begin at a place."""
    records = {track.record for track in tracks if track.is_ffv1 and len(track.record) >= FEWEST_RECORD and track.record in data}
    return sorted((start + data.find(record), start + data.find(record) + len(record)) for record in records)
