"""A collection: folders of copies, the reels in them, the digests that lie with these, and what DIR keeps of each reel. Paths
of reels are relative to the copies' folders, which count from 0 here. Sizes count bytes, times nanoseconds."""
from __future__ import annotations

import collections
import contextlib
import dataclasses
import enum
import fcntl
import hashlib
import itertools
import json
import os
import re
import shutil
import tempfile
from collections.abc import Iterator, Sequence
from typing import NamedTuple, NoReturn, Optional, TextIO

from mend_reel.judging import kept_digests
from mend_reel.model import Fault, or_fault
from mend_reel.program.output_files import is_held

FOLDER = ".mend-collection"
ENDINGS = (".mkv", ".avi", ".nut", ".mov", ".webm")
MANIFEST = re.compile(r"manifest-(?:md5|sha1|sha256|sha512)\.txt")
BARE = re.compile(rb"\s*([0-9a-fA-F]{32,128})\s*")
# How many frames a reel has, and how many of them are what; and how many bytes nothing checks. None is what is not known.
Counts = collections.namedtuple("Counts", "frames damaged restored lost unchecked_bytes", defaults=[None] * 5)
# What is known of a reel, the worst first, and how a folder's copy of it is.
Verdict = enum.Enum("Verdict", {"UNREADABLE": "unreadable", "DOUBT": "in doubt", "MENDED": "mended", "UNDAMAGED": "undamaged"})
State = enum.Enum("State", {"UNDAMAGED": "undamaged", "DAMAGED": "damaged", "UNREADABLE": "unreadable", "MISSING": "missing"})


class Reel(NamedTuple):
    """Files of one path: of each folder the file's size and time, if it has one, and the digests with it, each as algorithm, digest and source."""
    path: str
    files: Sequence[Optional[Sequence[int]]]
    judges: Sequence[Sequence[Sequence[str]]]


@dataclasses.dataclass
class Copy:
    """What was found of a folder's copy, why, and whether it is the original by digests."""
    state: State
    why: str = ""
    counts: Counts = Counts()
    is_original: Optional[bool] = None


@dataclasses.dataclass
class Result:
    """What became of a reel. `mark` says of which files, `is_made` that the reel's file lies in DIR."""
    path: str
    mark: str
    verdict: Verdict
    reason: str
    copies: Sequence[Copy] = ()
    counts: Counts = Counts()
    is_made: bool = False

    def good(self) -> list[int]:
        """The folders whose copy is undamaged."""
        return [number for number, copy in enumerate(self.copies) if copy.state is State.UNDAMAGED]


@dataclasses.dataclass
class Collection:
    """The folders of copies, the names by which they were given, DIR, and whether each reel is written to it."""
    roots: Sequence[str]
    names: Sequence[str]
    out: str
    is_written: bool

    def place(self, *names: str) -> str:
        """Where something lies in the folder below DIR that keeps results, working files, tasks, and the log of GNU parallel."""
        return os.path.join(self.out, FOLDER, *names)

    def open(self, is_anew: bool) -> int:
        """Makes that folder, or takes it over from a run that was stopped: its tasks end, and its working files go. Returns the lock."""
        with or_fault(f"cannot write {self.out}"):
            os.makedirs(self.place("results"), exist_ok=True)
            if is_held(self.place("lock")):
                raise Fault(f"another run works in {self.out} now")
            lock = os.open(self.place("lock"), os.O_RDWR | os.O_CREAT, 0o666)
            with contextlib.suppress(OSError):  # on some network disks no lock can be had
                fcntl.flock(lock, fcntl.LOCK_EX | fcntl.LOCK_NB)
            for name in ("tasks", "work", "log", *(["results"] if is_anew else [])):
                shutil.rmtree(self.place(name), ignore_errors=True)
                os.makedirs(self.place(name), exist_ok=True)
        return lock

    @contextlib.contextmanager
    def aside(self, path: str) -> Iterator[TextIO]:
        """A file that gets its name when it is whole."""
        with tempfile.TemporaryDirectory(dir=self.place("work")) as folder:
            with open(os.path.join(folder, "part"), "w", encoding="utf-8", errors="surrogateescape", newline="") as file:
                yield file
            os.replace(file.name, path)

    def mark(self, reel: Reel) -> str:
        """What a result has to have to be of these copies in these folders, by these digests."""
        parts = [reel.path, self.roots, reel.files, [[judge[:2] for judge in own] for own in reel.judges]]
        return hashlib.sha256(json.dumps(parts).encode()).hexdigest()

    def result_path(self, reel: str) -> str:
        """Where the result of a reel lies."""
        return self.place("results", hashlib.sha256(os.fsencode(reel)).hexdigest())

    def write(self, result: Result) -> None:
        with self.aside(self.result_path(result.path)) as file:
            json.dump(dataclasses.asdict(result), file, default=lambda value: value.value)

    def read(self, reel: Reel) -> Result | None:
        """The result of a reel, if there is one of its files as they are now."""
        with contextlib.suppress(OSError, ValueError, KeyError, TypeError), open(self.result_path(reel.path), encoding="utf-8") as file:
            made = json.load(file)
            copies = [Copy(State(copy["state"]), copy["why"], Counts(*copy["counts"]), copy["is_original"]) for copy in made["copies"]]
            made.update(verdict=Verdict(made["verdict"]), copies=copies, counts=Counts(*made["counts"]))
            return Result(**made) if made["mark"] == self.mark(reel) else None
        return None

    def is_settled(self, reel: Reel) -> bool:
        """Whether a reel need not be judged: it could be read, and its file lies in DIR if it is to be written."""
        result = self.read(reel)
        return result is not None and result.verdict is not Verdict.UNREADABLE and (result.is_made or not self.is_written)


@dataclasses.dataclass
class Folder:
    """A folder of copies: its reels, the files of digests in it, and the digests that lie with each reel."""
    name: str
    files: dict[str, list[int]] = dataclasses.field(default_factory=dict)
    digest_files: list[str] = dataclasses.field(default_factory=list)
    judges: dict[str, list[tuple[str, str, str]]] = dataclasses.field(default_factory=dict)


def refuse(names: Sequence[str], out: str) -> None:
    """Refuses folders that are one another's, a DIR that lies in one or around one, and a DIR that has files and is of no collection."""
    for one, other in itertools.permutations([*names, out], 2):
        if is_within(one, other):
            what = "nothing is written into or around a copy's folder" if out in (one, other) else "each copy needs a folder of its own"
            raise Fault(f"{one} {'is' if is_within(other, one) else 'lies in'} {other}: {what}")
    if os.path.isdir(out) and os.listdir(out) and not os.path.isdir(os.path.join(out, FOLDER)):
        raise Fault(f"{out} has files, and none of a collection: name a new or an empty folder")


def is_within(path: str, folder: str) -> bool:
    """Whether a path is a folder or lies in it, by whatever names."""
    path, folder = os.path.realpath(path), os.path.realpath(folder)
    return os.path.commonpath([path, folder]) == folder


def is_reel(path: str) -> bool:
    return path.lower().endswith(ENDINGS)


def find(name: str) -> Folder:
    """Finds the reels of a folder, and the files of digests. Links are followed, but for those that lead back to a folder above them."""
    def fail(error: OSError) -> NoReturn:
        raise Fault(f"cannot read {error.filename}: {error.strerror}")
    folder = Folder(name)
    for above, names, files in os.walk(name, onerror=fail, followlinks=True):
        names[:] = [each for each in sorted(names) if not is_within(above, os.path.join(above, each))]
        for path in (os.path.relpath(os.path.join(above, each), name) for each in sorted(files)):
            stem, ending = os.path.splitext(path)
            if is_reel(path):
                folder.files[path] = state_of(os.path.join(name, path))
            elif MANIFEST.fullmatch(os.path.basename(path)) or ending[1:] in kept_digests.ALGORITHMS.values() and is_reel(stem):
                folder.digest_files.append(path)
    return folder


def state_of(path: str) -> list[int]:
    """The size and the time of a file; of one that can't be found none."""
    with contextlib.suppress(OSError):
        found = os.stat(path)
        return [found.st_size, found.st_mtime_ns]
    return [0, 0]


def pair(folders: Sequence[Folder]) -> list[Reel]:
    """The reels of all folders, by their paths."""
    paths = sorted({path for folder in folders for path in folder.files}, key=os.fsencode)
    reels = [Reel(path, [folder.files.get(path) for folder in folders], [folder.judges.get(path, []) for folder in folders]) for path in paths]
    if not any(sum(file is not None for file in reel.files) > 1 for reel in reels):
        raise Fault(f"no reel is in two of the folders by the same path; reels are files that end in {', '.join(ENDINGS)}")
    return reels


def read_judges(folders: Sequence[Folder]) -> tuple[dict[str, str], list[str]]:
    """Reads the digests. Returns the reels that manifests name and no folder has, each with its manifest, and what else is to be noted."""
    lost, notes = dict[str, str](), list[str]()
    for folder, path in ((folder, path) for folder in folders for path in folder.digest_files):
        source = os.path.join(folder.name, path)
        try:
            for name, algorithm, digest in named_by(folder.name, path):
                if name in folder.files:
                    folder.judges.setdefault(name, []).append((algorithm, digest, source))
                elif not any(os.path.lexists(os.path.join(each.name, name)) for each in folders):
                    lost.update({name: source} if is_reel(name) else {})
                    notes += [] if is_reel(name) else [f"{source} names {name}, and no folder has it"]
        except Fault as fault:
            notes.append(f"{source} is not used: {fault}")
    return lost, notes


def named_by(folder: str, path: str) -> Iterator[tuple[str, str, str]]:
    """What a file of digests has: paths below the folder, algorithms and digests. One beside a reel has the reel's, with its name or without."""
    full, reel = os.path.join(folder, path), path[: path.rindex(".")]
    if MANIFEST.fullmatch(os.path.basename(path)):
        for entry in kept_digests.entries(full):
            yield os.path.normpath(os.path.join(os.path.dirname(path), entry.name)), entry.algorithm, entry.digest
        return
    with or_fault(f"cannot read {full}"), open(full, "rb") as file:
        bare = BARE.fullmatch(file.read(1024))
    digest = bare[1].decode().lower() if bare else kept_digests.line_of(kept_digests.entries(full), os.path.join(folder, reel), full).digest
    if len(digest) in kept_digests.ALGORITHMS:
        yield reel, kept_digests.ALGORITHMS[len(digest)], digest
