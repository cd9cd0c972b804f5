"""What is kept beside OUT: the list, and of each damaged frame its holding file, its report and a picture of what can be shown."""
from __future__ import annotations

import hashlib
import os
import pathlib
import re
import shutil
import tempfile
from collections.abc import Iterable, Sequence
from typing import NamedTuple

from ..engine.external_programs import last_line, run
from ..judging.results import FrameResult, FrameState
from ..model import Copy, Fault, Track
from ..reports.pictures import LONGEST, Drawn, Shape, Tiles, blank, picture, shape_of, tiles_of
from .output_files import in_one_line, is_recording, is_same

# The word by which ffv1restore holds frames of any recording with parities, and the statuses with which it has written a holding or a picture.
ANY, SHOWN = "--any", (0, 3)
# The names of the files that are kept.
KEPT = re.compile(r"list|copies|frames-of-copy-\d+|(?:track-\d+-)?frame-\d+\.(?:hold|report|png)")


class Held(NamedTuple):
    """A damaged frame: its name among what is kept, its track, what the copies have of it by their paths, what became of it, and whether the
    report is to show it."""

    name: str
    track: Track
    pieces: Sequence[tuple[str, bytes]]
    result: FrameResult
    is_drawn: bool = False

    def is_shown(self) -> bool:
        """Whether it is to be shown, if frames are."""
        return self.result.state is FrameState.LOST


def refuse_kept(folders: Iterable[str], copies: Sequence[str], force: bool) -> None:
    """Refuses to overwrite what an earlier call kept in some folders, and copies and recordings that have such names."""
    for path in (os.path.join(folder, name) for folder in folders if os.path.isdir(folder)
                 for name in sorted(os.listdir(folder)) if KEPT.fullmatch(name)):
        if any(is_same(path, copy) for copy in copies):
            raise Fault(f"{path} is one of the copies")
        if is_recording(path):
            raise Fault(f"{path} is a recording: only -o overwrites one")
        if not force:
            raise Fault(f"{path} is there (--force overwrites it)")


class Keeper:
    """Keeps what was asked for, in the working folder, until all is done. What fails here is a note: OUT is not lost for it."""

    def __init__(self, program: str, work: pathlib.Path, keep: str | None, pictures: str | None, draws: bool = False) -> None:
        self.program, self.work, self.keep, self.pictures, self.draws = program, work, keep, pictures, draws
        self.notes: list[str] = []
        self.shapes: dict[int, Shape | None] = {}
        self.drawn: list[Drawn] = []
        for name in ("keep", "pictures"):
            (work / name).mkdir()

    def keep_list(self, listed: pathlib.Path, copies: Sequence[Copy]) -> None:
        """Keeps the list, and the paths of its copies. A copy in the working folder is kept too, as it would be gone else."""
        made = [path for path in (pathlib.Path(copy.path) for copy in copies) if path.parent == self.work]
        paths = [os.path.join(os.path.realpath(self.keep or ""), path.name) if path in made else os.path.realpath(path)
                 for path in (pathlib.Path(copy.path) for copy in copies)]
        try:
            for path, name in [*((path, path.name) for path in made), (listed, "list")] if self.keep else ():
                shutil.copyfile(path, self.work / "keep" / name)
            if self.keep:
                (self.work / "keep/copies").write_bytes(b"".join(os.fsencode(path) + b"\0" for path in paths))
        except OSError as error:
            self.notes.append(f"the list is not kept: {error.strerror}")

    def is_asked_for(self, track: Track) -> bool:
        """Whether a track's frames are to be held, and can be."""
        return bool(self.keep or self.pictures or self.draws) and self.shape(track) is not None

    def shape(self, track: Track) -> Shape | None:
        """How a track's frames are recorded; None where they can't be held."""
        if track.number not in self.shapes:
            self.shapes[track.number] = self.judge(track)
        return self.shapes[track.number]

    def judge(self, track: Track) -> Shape | None:
        """How a track's frames are recorded by its record; None where they can't be held, which a note says if they were to be kept."""
        record = self.work / f"record.{track.number}"
        record.write_bytes(track.record)
        done = run(self.program, "setup", record, str(track.width), str(track.height))
        shape, has_parities = (None, False) if done.returncode else shape_of(done.stdout.decode(), (track.width, track.height))
        if (self.keep or self.pictures) and not has_parities:
            why = (f"ffv1restore does not read its Configuration Record ({last_line(done.stderr, done.returncode)})" if shape is None else
                   "its slices have no parities")
            self.notes.append(f"no frame of track {track.number} is kept or shown: {why}")
        return shape if has_parities else None

    def lost_tiles(self, track: Track, result: FrameResult) -> int:
        """How many tiles of a frame have no settled slice, by what became of the frame."""
        shape = self.shape(track)
        return shape.tiles() - result.settled() if shape else 0

    def hold(self, frame: Held) -> None:
        """Makes the holding file of a frame, its report, and pictures of what it has."""
        try:
            with tempfile.TemporaryDirectory(dir=self.work) as folder:
                hold = self.take(frame, pathlib.Path(folder))
                if self.keep:
                    shutil.copyfile(hold, self.work / "keep" / f"{frame.name}.hold")
                    self.report(frame, hold)
                if frame.is_drawn or self.pictures and frame.is_shown():
                    self.show(frame, hold)
        except (Fault, OSError) as fault:
            self.notes.append(f"{frame.name} is not kept: {fault}")

    def take(self, frame: Held, folder: pathlib.Path) -> pathlib.Path:
        """The holding file of a frame. What several copies have alike is taken once."""
        paths = {piece: folder / f"copy.{number}" for number, (_, piece) in reversed(list(enumerate(frame.pieces)))}
        for piece, path in paths.items():
            path.write_bytes(piece)
        size = str(frame.track.width), str(frame.track.height)
        done = run(self.program, "take", ANY, self.work / f"record.{frame.track.number}", *size, folder / "hold", *paths.values())
        if done.returncode not in SHOWN:
            raise Fault(f"{frame.name} can't be held: {last_line(done.stderr, done.returncode)}")
        if done.returncode:
            self.notes.append(f"{frame.name}: a copy has its slices in another order than the tiles, in which restore puts them")
        return folder / "hold"

    def report(self, frame: Held, hold: pathlib.Path) -> None:
        """The report of a holding file, with the paths of the copies after each origin."""
        givers: dict[str, list[str]] = {}
        for path, piece in frame.pieces:
            givers.setdefault(hashlib.sha256(piece).hexdigest(), []).append(in_one_line(os.path.realpath(path)))
        done = run(self.program, "report", ANY, hold)
        if done.returncode:
            raise Fault(f"its report can't be made: {last_line(done.stderr, done.returncode)}")
        lines = done.stdout.decode().splitlines()
        named = [line + " " + ", ".join(givers.get(line.split()[3], [])) if " origin " in line else line for line in lines]
        (self.work / "keep" / f"{frame.name}.report").write_bytes(b"".join(os.fsencode(line) + b"\n" for line in named))

    def show(self, frame: Held, hold: pathlib.Path) -> None:
        """Pictures of what a holding file has: an image of full size, and a small one for the report."""
        shape, samples = self.shape(frame.track), hold.parent / "samples"
        done = run(self.program, "picture", ANY, hold, samples)
        if shape is None or done.returncode not in SHOWN:
            self.notes.append(f"{frame.name} is not shown: {last_line(done.stderr, done.returncode)}")
            return
        tiles, content = tiles_of(done.stdout.decode()), samples.read_bytes()
        if not frame.result.frame.key and 0 in tiles.lost:
            # The slice of tile 0 alone would have said it: the program decoded slices that need the frames before.
            tiles, content = Tiles(tiles.lost, is_key=False), blank(shape, len(content))
        if self.pictures and frame.is_shown():
            (self.work / "pictures" / f"{frame.name}.png").write_bytes(picture(shape, content))
        small = picture(shape, content, tiles.hatched(), LONGEST) if frame.is_drawn else None
        self.drawn.append(Drawn(frame.result, tiles, shape.tiles(), small))

    def hand_over(self, others: Sequence[str]) -> list[str]:
        """Copies what was kept to where it is asked for, but over none of some other files. Returns what could not be, in lines."""
        made = [(path, os.path.join(asked, path.name)) for asked, name in ((self.keep, "keep"), (self.pictures, "pictures")) if asked
                for path in sorted((self.work / name).iterdir())]
        return list(filter(None, (copy_over(path, name, others) for path, name in made)))


def copy_over(path: pathlib.Path, name: str, others: Sequence[str]) -> str | None:
    """Copies a file, and returns why that could not be."""
    if any(is_same(name, other) for other in others):
        return f"{name} is not kept: it is another file of this call"
    if is_recording(name):
        return f"{name} is not kept: it is a recording"
    try:
        shutil.copyfile(path, name)
        return None
    except OSError as error:
        return f"{name} is not kept: {error.strerror}"
