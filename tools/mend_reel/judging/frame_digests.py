"""The digests of the frames of FFV1 tracks, as FFmpeg's framehash has them: of packets, which are in the file, and of decoded frames, whose
samples `ffv1restore samples` writes."""
from __future__ import annotations

import hashlib
import os
import pathlib
import subprocess
import tempfile
from collections.abc import Callable, Iterator, Sequence
from typing import NamedTuple

from ..model import Content, Copy, Fault, Frame, Layout, Track, or_fault
from ..engine.external_programs import last_line, run
from .decoding import MOST_FRAMES, is_key
from .kept_digests import FrameDigests, Report, Stream

# FFmpeg's names of the hashes that Python has too.
HASHES = {"MD5": "md5", "SHA160": "sha1", "SHA224": "sha224", "SHA256": "sha256", "SHA384": "sha384", "SHA512": "sha512"}
PACKET, DECODED = "ffv1", "rawvideo"
# At most so many bytes of frames are written for one call, if they are not of one keyframe.
MOST_BYTES = 64 << 20
# What stands for the digest of a frame that can't be decoded.
NONE = ("", "", "")


class Format(NamedTuple):
    """How the samples of a track's frames are laid out: how many bytes a frame has, and which of its planes each byte of a pixel is of where
    FFmpeg packs them, with None for a byte of 0."""

    size: int
    packing: tuple[int | None, ...] = ()

    def packed(self, samples: bytes) -> bytes:
        """The samples of a frame as FFmpeg has them."""
        if not self.packing:
            return samples
        planes = max(plane for plane in self.packing if plane is not None) + 1
        count, made = len(samples) // planes, bytearray(len(samples) // planes * len(self.packing))
        for place, plane in enumerate(self.packing):
            if plane is not None:
                made[place :: len(self.packing)] = samples[plane * count : (plane + 1) * count]
        return bytes(made)


# By colour space and planes, of 8 bits: RGB comes as G, B and R, and FFmpeg has it as bgr0 and bgra; gray with alpha is ya8.
PACKINGS: dict[tuple[str, int], tuple[int | None, ...]] = {("1", 3): (1, 0, 2, None), ("1", 4): (1, 0, 2, 3), ("0", 2): (0, 1)}


def read_format(lines: Sequence[str], width: int, height: int) -> Format | None:
    """The format that the lines of `setup` name; None where FFmpeg has none, or has other bytes where no slice has a place."""
    words = {word: line.split() for line in lines for word in line.split()[:1]}
    space, depth, planes = words["coder"][3], int(words["coder"][5]), int(words["planes"][1])
    packing = PACKINGS.get((space, planes), ()) if depth == 8 else ()
    if words["format"][1] == "-" and not packing:
        return None
    grid, shifts = words["grid"][1].split("x"), words["planes"][3:5]
    sides = [(side, int(parts), int(shift)) for side, parts, shift in zip((width, height), grid, shifts)]
    if not all(is_covered(*each) for each in sides):
        return None
    across, down = (-(-side >> shift) for side, _, shift in sides)
    chroma = 2 if planes > 2 else 0
    return Format(((planes - chroma) * width * height + chroma * across * down) * (1 if depth == 8 else 2), packing)


def is_covered(side: int, parts: int, shift: int) -> bool:
    """Whether the tiles of a grid cover a side of a plane that is subsampled so."""
    end, edges = 0, [side * number // parts for number in range(parts + 1)]
    for start, next_start in zip(edges, edges[1:]):
        if start >> shift > end:
            return False
        end = (start >> shift) + -(-(next_start - start) >> shift)
    return end >= -(-side >> shift)


class OwnDigests:
    """Makes the digests of a file's frames without FFmpeg."""

    def __init__(self, file: Copy, layout: Layout, program: str, work: pathlib.Path) -> None:
        self.file, self.layout, self.program, self.work = file, layout, program, work

    def __call__(self, wanted: FrameDigests, report: Report) -> FrameDigests | None:
        """The sizes and digests of the frames of the streams that a digest file has; None where it has others than FFV1 video."""
        tracks = [track for track in self.layout.tracks if track.content is Content.VIDEO]
        pairs = list(zip(sorted(wanted.streams), tracks))
        makers = [self.maker(wanted.streams[number], track) for number, track in pairs]
        if wanted.hash not in HASHES or len(pairs) < len(wanted.streams) or None in makers:
            return None
        made, count = FrameDigests(wanted.hash, wanted.version), wanted.count()
        for (number, _), make in zip(pairs, makers):
            made.streams[number] = Stream(wanted.streams[number].kind, wanted.streams[number].codec)
            for found in make() if make else ():
                made.frames[number].append(found if found == NONE else ("", str(len(found[0])), hashlib.new(HASHES[wanted.hash], found[0]).hexdigest()))
                report(min(made.count(), count), count)
        return made

    def maker(self, stream: Stream, track: Track) -> Callable[[], Iterator[tuple[bytes] | tuple[str, str, str]]] | None:
        """What makes the bytes of which a stream has digests; None where that is not known here."""
        frames = [frame for frame in self.layout.frames if frame.track == track.number]
        times = [frame.time for frame in frames]
        if stream.kind != "video" or not track.is_ffv1 or track.is_encoded or times != sorted(set(times)):
            return None
        if stream.codec == PACKET:
            return lambda: ((self.read(frame),) for frame in frames)
        found = self.format_of(track) if stream.codec == DECODED else None
        return (lambda: self.decoded(track, frames, found)) if found else None

    def read(self, frame: Frame) -> bytes:
        return self.file.read(frame.place, frame.size)

    def format_of(self, track: Track) -> Format | None:
        """The format of a track, by what `ffv1restore setup` prints; None where it refuses the record."""
        path = self.work / "digested-record"
        path.write_bytes(track.record)
        done = run(self.program, "setup", path, str(track.width), str(track.height))
        return None if done.returncode else read_format(done.stdout.decode("ascii", "replace").splitlines(), track.width, track.height)

    def decoded(self, track: Track, frames: Sequence[Frame], found: Format) -> Iterator[tuple[bytes] | tuple[str, str, str]]:
        """The samples of each frame; NONE of one that can't be decoded, and of those after it up to the next keyframe."""
        keys = [number for number, frame in enumerate(frames) if number == 0 or is_key(self.file.read(frame.place, 2))]
        ends, start = [*keys[1:], len(frames)], 0
        while start < len(frames):
            end = batch(frames, start, [each for each in ends if each > start])
            count = 0
            for samples in self.samples(track, frames[start:end], found.size):
                yield (found.packed(samples),)
                count += 1
            start += count
            if start < end:
                lost = min(each for each in ends if each > start) - start
                yield from [NONE] * lost
                start += lost

    def samples(self, track: Track, frames: Sequence[Frame], size: int) -> Iterator[bytes]:
        """The samples of some frames, of which each has so many bytes, up to the first that can't be decoded."""
        with tempfile.TemporaryDirectory(dir=self.work) as name:
            folder, sides = pathlib.Path(name), [str(track.width), str(track.height)]
            paths = [folder / "record", *(folder / str(number) for number in range(len(frames)))]
            with or_fault("cannot write a frame for its digest"):
                paths[0].write_bytes(track.record)
                for path, frame in zip(paths[1:], frames):
                    path.write_bytes(self.read(frame))
            reader, writer = os.pipe()
            with open(reader, "rb") as made, open(folder / "fault", "w+b") as fault, or_fault(f"cannot run {self.program}"):
                try:
                    words = [self.program, "samples", paths[0], *sides, f"/dev/fd/{writer}", *paths[1:]]
                    child = subprocess.Popen(words, stdin=subprocess.DEVNULL, stdout=subprocess.DEVNULL, stderr=fault, pass_fds=[writer],
                                             restore_signals=False)
                finally:
                    os.close(writer)
                with child:
                    while len(content := made.read(size)) == size:
                        yield content
                fault.seek(0)
                said = last_line(fault.read(), child.returncode)
        if child.returncode not in (0, 3) and not said.startswith("samples fault "):
            raise Fault(f"cannot decode the frames of {self.file.path}: {said}")


def batch(frames: Sequence[Frame], start: int, ends: Sequence[int]) -> int:
    """Where the frames of one call end, which begin there with a keyframe: before another keyframe, and with as many as one call takes."""
    most = ends[0]
    for end in ends:
        if end - start > MOST_FRAMES or sum(frame.size for frame in frames[start:end]) > MOST_BYTES:
            break
        most = end
    return most
