"""A small writer of Matroska files, and copies of them with damage, for the unit tests."""
from __future__ import annotations

import contextlib
import os
import pathlib
import struct
import sys
import tempfile
import typing
import zlib

sys.path.insert(0, str(pathlib.Path(__file__).resolve().parents[2] / "tools"))

from mend_reel import model  # noqa: E402

EBML, SEGMENT, CLUSTER, TRACKS, INFO, CUES, TAGS, SEEK_HEAD, VOID = (
    0x1A45DFA3, 0x18538067, 0x1F43B675, 0x1654AE6B, 0x1549A966, 0x1C53BB6B, 0x1254C367, 0x114D9B74, 0xEC)


def size_of(number: int, length: int = 0) -> bytes:
    """A size, in the fewest bytes or in as many as asked for."""
    length = length or next(one for one in range(1, 9) if number < (1 << 7 * one) - 1)
    return ((1 << 7 * length) | number).to_bytes(length, "big")


def element(identity: int, *parts: bytes, crc: bool = False, length: int = 0, unknown: bool = False) -> bytes:
    """An element of some content, with a CRC-32 as its first child if asked for; of unknown size if asked for."""
    content = b"".join(parts)
    if crc:
        content = b"\xbf\x84" + zlib.crc32(content).to_bytes(4, "little") + content
    head = identity.to_bytes((identity.bit_length() + 7) // 8, "big")
    return head + (b"\x01" + b"\xff" * 7 if unknown else size_of(len(content), length)) + content


def number(identity: int, value: int) -> bytes:
    """An element that holds an unsigned number."""
    return element(identity, value.to_bytes(max((value.bit_length() + 7) // 8, 1), "big"))


def block(track: int, time: int, payload: bytes, identity: int = 0xA3, flags: int = 0x80, length: int = 0) -> bytes:
    """A block without lacing: a SimpleBlock, or a Block where that identity is given."""
    return element(identity, size_of(track) + time.to_bytes(2, "big", signed=True) + bytes([flags]) + payload, length=length)


def group(track: int, time: int, payload: bytes) -> bytes:
    """A BlockGroup with a Block and its duration."""
    return element(0xA0, block(track, time, payload, 0xA1, 0), number(0x9B, 40))


def cluster(time: int, *blocks: bytes, crc: bool = True, unknown: bool = False) -> bytes:
    return element(CLUSTER, number(0xE7, time), *blocks, crc=crc, unknown=unknown)


def ebml_header(kind: bytes = b"matroska") -> bytes:
    fields = ((0x4286, 1), (0x42F7, 1), (0x42F2, 4), (0x42F3, 8))
    return element(EBML, *(number(*each) for each in fields), element(0x4282, kind), number(0x4287, 4), number(0x4285, 2))


def track(number_: int, codec: bytes, kind: int, private: bytes = b"", step: int = 0, more: bytes = b"") -> bytes:
    """A TrackEntry; of a video track of 48 by 40 samples where its kind is 1."""
    video = element(0xE0, number(0xB0, 48), number(0xBA, 40)) if kind == 1 else b""
    return element(0xAE, number(0xD7, number_), number(0x73C5, 1000 + number_), number(0x83, kind), element(0x86, codec),
                   element(0x63A2, private) if private else b"", number(0x23E383, step) if step else b"", video, more)


# It passes its parity.
# Of one sample in 8 bits, with parities, in 2 x 2 slices.
RECORD = bytes.fromhex("562b831798c183060c183060bb202980eb8f")
FFV1 = track(1, b"V_FFV1", 1, RECORD, 40_000_000)
PCM = track(2, b"A_PCM/INT/LIT", 2)


def tracks(*entries: bytes, crc: bool = True) -> bytes:
    return element(TRACKS, *(entries or (FFV1, PCM)), crc=crc)


def information(milliseconds: float, crc: bool = True) -> bytes:
    return element(INFO, number(0x2AD7B1, 1_000_000), element(0x4489, struct.pack(">d", milliseconds)), crc=crc)


def cues(*points: typing.Tuple[int, int, int], crc: bool = True) -> bytes:
    """An index: the time, the track and the cluster's place of each point."""
    return element(CUES, *(element(0xBB, number(0xB3, time), element(0xB7, number(0xF7, track_), number(0xF1, place)))
                           for time, track_, place in points), crc=crc)


def noise(seed: int, size: int) -> bytes:
    """Bytes without order, the same ones for a seed on every machine."""
    state, made = seed * 2654435761 % (1 << 32) or 1, bytearray()
    while len(made) < size:
        state = (state * 1664525 + 1013904223) % (1 << 32)
        made += (state >> 8).to_bytes(3, "big")
    return bytes(made[:size])


def frame(seed: int, *sizes: int) -> bytes:
    """What looks like an FFV1 frame from its end: slices, each with a footer that has its size."""
    return b"".join(noise(seed + at, size) + size.to_bytes(3, "big") + bytes(5) for at, size in enumerate(sizes))


def picture(seed: int, size: int) -> bytes:
    """A frame of two slices, of some bytes altogether."""
    return frame(seed, size // 2, size - size // 2 - 16)


def reel(count: int = 4, crc: bool = True, size: int = 700, unknown: bool = False, groups: bool = False) -> bytes:
    """A recording of some clusters, each with two frames of 40 ms and two blocks of sound."""
    make = group if groups else block
    clusters = [cluster(80 * at, make(1, 0, picture(10 * at + 1, size)), block(2, 0, noise(10 * at + 2, 160)),
                        make(1, 40, picture(10 * at + 3, size + 5)), block(2, 40, noise(10 * at + 4, 160)), crc=crc, unknown=unknown)
                for at in range(count)]
    content = information(80.0 * count, crc), tracks(crc=crc), *clusters, cues((0, 1, 300), crc=crc)
    return ebml_header() + element(SEGMENT, *content, unknown=unknown)


def damaged(content: bytes, *places: typing.Union[int, typing.Tuple[int, bytes]]) -> bytes:
    """The content with other bytes at some places: given ones, or one byte with all its bits the other way."""
    made = bytearray(content)
    for place in places:
        if isinstance(place, tuple):
            made[place[0] : place[0] + len(place[1])] = place[1]
        else:
            made[place] ^= 0xFF
    assert len(made) == len(content)
    return bytes(made)


@contextlib.contextmanager
def opened(*contents: bytes) -> typing.Iterator[typing.List[model.Copy]]:
    """Copies with these bytes, as open files, in memory where the system has such a folder."""
    with tempfile.TemporaryDirectory(dir="/dev/shm" if os.access("/dev/shm", os.W_OK) else None) as folder:
        copies = []
        for number_, content in enumerate(contents):
            path = os.path.join(folder, f"copy.{number_}")
            pathlib.Path(path).write_bytes(content)
            copies.append(model.open_copy(path))
        try:
            yield copies
        finally:
            for copy in copies:
                os.close(copy.file)
