"""Frames with guessed slices: each of these has what most copies have, or one bit inverted, and so passes. What decodes besides, and ends as an
encoder ends it, is taken for right, but where all that was guessed of a slice lies near its end: wrong bytes there often leave it clean."""
from __future__ import annotations

import collections
import pathlib
import tempfile
from collections.abc import Callable, Iterable, Sequence

from ..model import Copy, Frame, Layout, Outcome, SliceReport, State, Stretch, Track
from ..engine.external_programs import run
from .results import GUESSED, NearEnd, is_guessed

NOWHERE = "/dev/null"
# How many frames are decoded from a keyframe on: each is a word of a call.
MOST_FRAMES = 1000
# A frame begins with its range-coded keyframe bit, of even chance: 1 if the first two bytes are half of the range at least.
KEY = 65280 // 2
# The last bytes of a slice's content, and its footer: one wrong byte of 4 there leaves Golomb-Rice codes clean, and one of 103 the range coder's.
END = 64 + 8
# Makes each byte that is not 0 a 1.
MARKS = bytes([0]) + bytes([1]) * 255

Decodes = Callable[[Track, Frame], bool]
Looks = Callable[[Stretch, Frame, Sequence[SliceReport]], NearEnd]


def is_key(front: bytes) -> bool:
    """Whether a frame that begins with these bytes says that it is a keyframe."""
    return len(front) >= 2 and int.from_bytes(front[:2], "big") >= KEY


class SamplesDecoder:
    """Has `ffv1restore samples` decode frames of OUT. A wrong slice can't be decoded, or does not end as an encoder ends it, in all but a
    few of 1000 cases."""

    def __init__(self, out: Copy, frames: Iterable[Frame], program: str, work: pathlib.Path) -> None:
        self.out, self.program, self.work = out, program, work
        self.frames: dict[int, list[Frame]] = collections.defaultdict(list)
        for frame in frames:
            self.frames[frame.track].append(frame)

    def __call__(self, track: Track, frame: Frame) -> bool:
        """Whether a frame of a track is decoded with those from its keyframe on, and all slices of them are clean."""
        group = self.group(frame)
        if not group:
            return False
        with tempfile.TemporaryDirectory(dir=self.work) as name:
            folder = pathlib.Path(name)
            paths = [folder / str(number) for number in range(len(group))]
            try:
                (folder / "record").write_bytes(track.record)
                for path, each in zip(paths, group):
                    path.write_bytes(self.out.read(each.place, each.size))
            except OSError:
                # Without room for them, nothing is known of the frame.
                return False
            size = str(track.width), str(track.height)
            return run(self.program, "samples", folder / "record", *size, NOWHERE, *paths).returncode == 0

    def group(self, frame: Frame) -> list[Frame]:
        """The frames of a track from the last keyframe up to a frame, as the frames say it themselves; nothing if it is not there, or too far."""
        before = [each for each in self.frames[frame.track] if each.place <= frame.place][-MOST_FRAMES:]
        if not before or (before[-1].place, before[-1].size) != (frame.place, frame.size):
            return []
        for number, each in reversed(list(enumerate(before))):
            if is_key(self.out.read(each.place, 2)):
                return before[number:]
        return []


class GuessFinder:
    """Finds where the guessed bytes of OUT's slices lie."""

    def __init__(self, out: Copy, copies: Sequence[Copy]) -> None:
        self.out, self.copies = out, copies

    def __call__(self, stretch: Stretch, frame: Frame, slices: Sequence[SliceReport]) -> NearEnd:
        """How near the end of its slice the guesses of a frame lie, of the guessed slice of which they lie nearest. A stretch has a place in each copy."""
        found = (self.of_slice(stretch, frame.place + each.start, each) for each in slices if each.state in GUESSED)
        return max(found, key=list(NearEnd).index)

    def of_slice(self, stretch: Stretch, start: int, piece: SliceReport) -> NearEnd:
        """How near its end the guesses of a slice lie that begins at a place of OUT."""
        size = piece.end - piece.start
        made, versions = self.out.read(start, size), (copy.read(place + start - stretch.start, size) for copy, place in
                                                      zip(self.copies, stretch.places) if place is not None)
        guesses = guessed(made, list(versions), piece.state == "repaired")
        before, near = guesses >> 8 * END, guesses & ((1 << 8 * END) - 1)
        return NearEnd.NONE if not near else NearEnd.SOME if before else NearEnd.ALL


def guessed(made: bytes, versions: Sequence[bytes], is_repaired: bool) -> int:
    """A number with a byte 1 where a slice has guessed bytes: where a repaired one has what no version has, as that byte has the inverted bit;
    else where not all versions have what it has."""
    alone, some = -1, 0
    for version in versions:
        differs = int.from_bytes(made, "big") ^ int.from_bytes(version, "big")
        marks = int.from_bytes(differs.to_bytes(len(made), "big").translate(MARKS), "big")
        alone, some = alone & marks, some | marks
    return alone if is_repaired and alone else some


def decoded(layout: Layout, stretches: Sequence[Stretch], outcomes: Sequence[Outcome], decodes: Decodes, look: Looks) -> dict[int, NearEnd]:
    """The frames with guessed slices that decode, and that nothing else vouches for, by their places. Outcomes have numbers of stretches."""
    tracks, found = {track.number: track for track in layout.tracks}, {}
    for outcome in (outcome for outcome in outcomes if outcome.state is State.MISSING):
        stretch = stretches[outcome.number]
        frames = {frame.place: frame for frame in stretch.parts if frame.track in tracks}
        for part, slices in outcome.slices.items():
            place, _, is_flac = stretch.listed_parts()[part]
            frame = None if is_flac or not is_guessed(slices) else frames.get(place)
            if frame and decodes(tracks[frame.track], frame):
                found[place] = look(stretch, frame, slices)
    return found
