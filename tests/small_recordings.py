"""Small recordings of FFmpeg, one in each container, and damage to them."""
from __future__ import annotations

import dataclasses
import itertools
import pathlib
import struct
import subprocess
import typing
import zlib

import readings
import reels

FRAMES, RATE, SECTOR = 8, 25, 512
CLUSTER, SEGMENT, EBML = 0x1F43B675, 0x18538067, 0x1A45DFA3
# By name: the ending, the codec of the sound, and what FFmpeg is asked for beside that.
KINDS: dict[str, tuple[str, str, tuple[str, ...]]] = {
    "matroska": ("mkv", "pcm_s16le", ("-cluster_time_limit", "80")),
    "matroska-plain": ("mkv", "pcm_s16le", ("-cluster_time_limit", "80", "-write_crc32", "0")),
    "avi": ("avi", "pcm_s16le", ()),
    "nut": ("nut", "pcm_s16le", ()),
    "mov": ("mov", "pcm_s16le", ()),
    "mov-tables-first": ("mov", "pcm_s16le", ("-movflags", "+faststart")),
    "matroska-flac": ("mkv", "flac", ("-cluster_time_limit", "80")),
    "nut-flac": ("nut", "flac", ()),
}
PICTURE, SOUND = f"testsrc2=s=64x48:r={RATE},noise=alls=3:allf=t", "sine=r=16000:f=440"
OTHER_PICTURE = f"mandelbrot=s=64x48:r={RATE}"


@dataclasses.dataclass(frozen=True)
class Recording:
    """A recording: its container, its bytes, and where each frame and each packet of sound lies in it."""

    name: str
    ending: str
    content: bytes
    frames: tuple[tuple[int, int], ...]
    sound: tuple[tuple[int, int], ...]

    @property
    def has_checksums(self) -> bool:
        return self.name in ("matroska", "matroska-flac")

    def slices(self, frame: int) -> list[tuple[int, int]]:
        """Where the slices of a frame lie, the first one first."""
        place, size = self.frames[frame]
        found, _ = readings.links(self.content[place : place + size])
        return sorted((place + start, len(piece)) for start, piece in found)

    def changed(self, content: bytes) -> Recording:
        return dataclasses.replace(self, content=content)


def make(folder: pathlib.Path, name: str, picture: str = PICTURE, group: int = 1, tone: str = SOUND) -> Recording:
    """Has FFmpeg make a recording, the same bytes each time."""
    ending, sound, more = KINDS[name]
    path = folder / f"{name}.{ending}"
    reels.ffmpeg("-f", "lavfi", "-i", picture, "-f", "lavfi", "-i", tone, "-t", FRAMES / RATE, "-pix_fmt", "yuv420p", "-c:v", "ffv1", "-level", 3,
                 "-coder", 1, "-g", group, "-slices", 4, "-slicecrc", 1, "-c:a", sound, "-fflags", "+bitexact", *more, path)
    return read(path, name)


def read(path: pathlib.Path, name: str) -> Recording:
    """A file of FFmpeg's, as ffprobe reads it."""
    frames, sound = (tuple((place, len(payload)) for place, payload in reels.packets(path, stream)) for stream in ("0:v:0", "0:a:0"))
    return Recording(name, path.suffix[1:], path.read_bytes(), frames, sound)


def written_again(folder: pathlib.Path, recording: Recording, name: str, *more: str) -> Recording:
    """A recording as FFmpeg writes it into another container, or into the same one, without coding it again."""
    ending, _, words = KINDS[name]
    source, path = folder / f"source.{recording.ending}", folder / f"again.{ending}"
    source.write_bytes(recording.content)
    reels.ffmpeg("-i", source, "-map", "0", "-c", "copy", "-fflags", "+bitexact", *words, *more, path)
    return read(path, name)


# ---- damage


def inverted(content: bytes, *places: int, bit: int = 3) -> bytes:
    """One bit of the bytes at some places inverted."""
    made = bytearray(content)
    for place in places:
        made[place] ^= 1 << bit
    return bytes(made)


def filled(content: bytes, place: int, size: int, value: int = 0) -> bytes:
    """Some bytes have one value, as in a sector that could not be read."""
    return content[:place] + bytes([value]) * len(content[place : place + size]) + content[place + size :]


def garbled(content: bytes, place: int, size: int, seed: int = 1) -> bytes:
    """Some bytes are others, each of them."""
    values = (1 + (seed * 7919 + 31 * at * at + 17 * at) % 255 for at in range(size))
    return content[:place] + bytes(byte ^ value for byte, value in zip(content[place : place + size], values)) + content[place + size :]


def lost(content: bytes, place: int, size: int) -> bytes:
    """Some bytes are not there, so that all after them are shifted."""
    return content[:place] + content[place + size :]


def put_in(content: bytes, place: int, more: bytes) -> bytes:
    return content[:place] + more + content[place:]


def in_turn(content: bytes, size: int, count: int, first: int = 0) -> list[bytes]:
    """Copies that lack the content's pieces in turn: each piece is zero in all of them but one."""
    made = [bytearray(content) for _ in range(count)]
    for number, place in enumerate(range(first, len(content), size)):
        for at, copy in enumerate(made):
            if number % count != at:
                copy[place : place + size] = bytes(len(copy[place : place + size]))
    return [bytes(copy) for copy in made]


def places_in_frame(recording: Recording, frame: int) -> dict[str, int]:
    """Ten places of a frame, by what stands there."""
    slices = recording.slices(frame)
    ends = [start + size for start, size in slices]
    return {
        "first byte": slices[0][0], "second byte": slices[0][0] + 1, "middle of slice 0": slices[0][0] + slices[0][1] // 2,
        "first byte of slice 1": slices[1][0], "middle of slice 2": slices[2][0] + slices[2][1] // 2, "last byte of slice 3": ends[3] - 9,
        "size of slice 1": ends[1] - 7, "size of slice 3": ends[3] - 6, "status of slice 2": ends[2] - 5, "parity of slice 3": ends[3] - 1,
    }


# ---- Matroska


def elements(content: bytes, start: int, end: int) -> typing.Iterator[tuple[int, int, int, int]]:
    """The elements in a range, each with its identity, its place, and where its content begins and ends (RFC 8794, sections 5 and 6)."""
    while start < end:
        length = 9 - content[start].bit_length()
        identity, at = int.from_bytes(content[start : start + length], "big"), start + length
        width = 9 - content[at].bit_length()
        size = int.from_bytes(content[at : at + width], "big") & (1 << 7 * width) - 1
        yield identity, start, at + width, min(at + width + size, end)
        start = at + width + size


def segment(content: bytes) -> tuple[int, int]:
    """Where the content of a Matroska file's Segment begins and ends."""
    return next((begin, end) for identity, _, begin, end in elements(content, 0, len(content)) if identity == SEGMENT)


def top(content: bytes, wanted: int) -> list[tuple[int, int, int]]:
    """The top elements of an identity: where each lies, and where its content begins and ends."""
    return [(place, begin, end) for identity, place, begin, end in elements(content, *segment(content)) if identity == wanted]


def sealed(content: bytes) -> bytes:
    """A Matroska file whose clusters have the CRC-32s of what they hold: it was written again after the damage."""
    made = bytearray(content)
    for _, begin, end in top(content, CLUSTER):
        if made[begin : begin + 2] == b"\xbf\x84":
            made[begin + 2 : begin + 6] = zlib.crc32(made[begin + 6 : end]).to_bytes(4, "little")
    return bytes(made)


# ---- AVI


def chunks(content: bytes, start: int = 12, end: int | None = None) -> typing.Iterator[tuple[bytes, int, int]]:
    """The chunks of an AVI file, those within lists too: the name, the place and the size of each."""
    end = len(content) if end is None else end
    while start + 8 <= end:
        name, size = content[start : start + 4], struct.unpack_from("<I", content, start + 4)[0]
        yield name, start, size
        if name == b"LIST":
            yield from chunks(content, start + 12, start + 8 + size)
        start += 8 + size + size % 2


def chunk(content: bytes, wanted: bytes) -> tuple[int, int]:
    """Where the data of the first chunk of a name begins, and its size."""
    return next((place + 8, size) for name, place, size in chunks(content) if name == wanted)


# ---- MOV


PARENTS = (b"moov", b"trak", b"mdia", b"minf", b"stbl", b"udta")


def atoms(content: bytes, start: int = 0, end: int | None = None) -> typing.Iterator[tuple[bytes, int, int]]:
    """The atoms of a MOV file, those within others too: the name, the place and the size of each."""
    end = len(content) if end is None else end
    while start + 8 <= end:
        size, name = struct.unpack_from(">I4s", content, start)
        yield name, start, size
        if name in PARENTS:
            yield from atoms(content, start + 8, start + size)
        start += max(size, 8)


def atom(content: bytes, wanted: bytes, number: int = 0) -> tuple[int, int]:
    """Where the data of an atom of a name begins, and its size: the first one, or that with a number."""
    found = [(place + 8, size - 8) for name, place, size in atoms(content) if name == wanted]
    return found[number]


# ---- others


def shows(path: pathlib.Path) -> int:
    """How many frames of video FFmpeg's demuxer finds in a file: none where it can't be opened."""
    done = subprocess.run(["ffprobe", "-v", "quiet", "-select_streams", "v:0", "-show_entries", "packet=size", "-of", "csv=p=0", str(path)],
                          capture_output=True, check=False)
    return len(done.stdout.split())


def orders(*contents: bytes) -> typing.Iterator[tuple[str, tuple[bytes, ...]]]:
    """Some copies in each order, with its name."""
    yield from ((" ".join(map(str, order)), tuple(contents[at] for at in order)) for order in itertools.permutations(range(len(contents))))
