"""Frames whose slices pass, files of them, and a judge that needs no program, for the unit tests."""
from __future__ import annotations

import typing

from mend_reel.containers import own_checks
import check_reading
from mend_reel.engine import frame_checks
from mend_reel.model import Claims, Content, Frame, Kind, Layout, Stretch, Track, What
from . import made

VIDEO = Track(1, Content.VIDEO, "ffv1", True, 48, 40, made.RECORD, 0.04)
SOUND = Track(2, Content.SOUND, "pcm")


def parity(piece: bytes) -> int:
    """The parity of a slice, bit by bit: CRC-32 with the highest bit first, from zero on (RFC 9043, section 4.9.3)."""
    value = 0
    for byte in piece:
        value ^= byte << 24
        for _ in range(8):
            value = (value << 1 ^ (0x104C11DB7 if value >> 31 else 0)) & 0xFFFFFFFF
    return value


def slice_of(content: bytes) -> bytes:
    """A slice with its footer: its size, its error status and its parity."""
    piece = content + len(content).to_bytes(3, "big") + b"\0"
    return piece + parity(piece).to_bytes(4, "big")


def frame(seed: int, *sizes: int) -> bytes:
    """A frame of slices of some sizes, all of which pass."""
    return b"".join(slice_of(made.noise(100 * seed + at, size)) for at, size in enumerate(sizes or (90, 60, 75)))


class Judge:
    """Judges frames as `ffv1restore scan` does, and frames of FLAC by whether they are among `wrong`."""

    def __init__(self, *wrong: int) -> None:
        self.wrong = set(wrong)

    def __call__(self, copy: typing.Any, ranges: typing.Sequence[frame_checks.Range]) -> typing.List[frame_checks.Judged]:
        answers = []
        for place, size in ranges:
            content = copy.read(place, size) if place + size <= copy.size else b""
            links = list(own_checks.slices(content))
            answers.append(frame_checks.Judged(len(links), sum(own_checks.passes(content[start:end]) for start, end in links),
                                               bool(links) and links[-1][0] == 0))
        return answers

    def check(self, copy: typing.Any) -> frame_checks.FileCheck:
        """What the program prints of a whole file, by its second reading."""
        found = frame_checks.read_report(check_reading.checked(copy.read(0, copy.size))[0].decode())
        assert found is not None
        return found

    def failing_flac(self, copy: typing.Any, ranges: typing.Sequence[frame_checks.Range]) -> typing.Set[int]:
        return self.wrong.intersection(place for place, _ in ranges)


judge = Judge()


def matroska(frames: typing.Sequence[typing.Tuple[float, bytes]], crc: bool = True, seed: int = 0) -> bytes:
    """A recording of a cluster for each frame, with some sound in it, at these times in seconds."""
    clusters = [made.cluster(round(1000 * time), made.block(1, 0, payload), made.block(2, 0, made.noise(seed + 7000 + at, 64)), crc=crc)
                for at, (time, payload) in enumerate(frames)]
    duration = 1000 * (frames[-1][0] + 0.04) if frames else 0
    return made.ebml_header() + made.element(made.SEGMENT, made.information(duration, crc), made.tracks(crc=crc), *clusters)


def plain_file(frames: typing.Sequence[bytes], gap: int = 8) -> typing.Tuple[bytes, Layout]:
    """A file of a header, frames and bytes between them, and what lies where in it."""
    content, found, stretches = made.noise(999, 40), [], [Stretch(Kind.PLAIN, 0, 40, What(Content.HEADER), (0,))]
    for number, payload in enumerate(frames):
        place = len(content)
        found.append(Frame(1, round(0.04 * number, 3), place, len(payload)))
        stretches.append(Stretch(Kind.FRAME, place, len(payload), What(Content.FRAME, 1, 0.04 * number, 0.04 * number + 0.04), (place,), (found[-1],)))
        content += payload
        stretches.append(Stretch(Kind.PLAIN, len(content), gap, What(Content.SOUND, 2, 0.04 * number), (len(content),)))
        content += made.noise(500 + number, gap)
    return content, Layout(len(content), [VIDEO, SOUND], found, stretches, Claims(0.04 * len(frames)))
