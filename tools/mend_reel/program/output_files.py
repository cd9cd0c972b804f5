"""The files that are made: each as a part beside its name until it is done, so that what is there stays as it is. What names a device, a
pipe or an open file is written to at the end, and not replaced. Working files lie in a folder that is removed at the end."""
from __future__ import annotations

import contextlib
import dataclasses
import fcntl
import glob
import hashlib
import os
import pathlib
import re
import shutil
import signal
import stat
import tempfile
import time
from collections.abc import Iterator

from ..containers.known import KNOWN
from ..containers.nut import ID
from ..model import Fault, or_fault

INTERRUPTS = (signal.SIGINT, signal.SIGTERM, signal.SIGHUP)
PART = ".part"
# A name has at most 255 bytes on most file systems; the rest is for what is added to it.
LONGEST_FRONT, DIGITS = 200, 16
STANDARD_OUTPUT = "-"
OPEN_FILES = {"/dev/stdin": 0, "/dev/stdout": 1, "/dev/stderr": 2}
NUMBERED_FILE = re.compile(r"(?:/dev/fd|/proc/(?:self|thread-self)/fd)/([0-9]{1,9})")
MOST_LINKS, PIECE, START = 40, 1 << 20, len(ID)
FOLDER, LOCK = "mend-reel.", "lock"
# How often, and after how many seconds, it is tried to make a part alone in a folder.
TRIES, PAUSE = 50, 0.01
CONTROLS = re.compile(r"[\x00-\x1f\x7f]")


def in_one_line(text: str) -> str:
    """A line in which control characters, as names may have, stand as digits."""
    return CONTROLS.sub(lambda match: f"\\x{ord(match.group()):02x}", text)


@contextlib.contextmanager
def uninterrupted() -> Iterator[None]:
    """Has an interrupt wait until a file that is made is known, so that it can be removed."""
    before = signal.pthread_sigmask(signal.SIG_BLOCK, INTERRUPTS)
    try:
        yield
    finally:
        signal.pthread_sigmask(signal.SIG_SETMASK, before)


# ---- what a name stands for


def descriptor_of(path: str) -> int | None:
    """The number of the open file that a path names: `-` and /dev/stdout are standard output. Links are followed."""
    if path == STANDARD_OUTPUT:
        return 1
    for _ in range(MOST_LINKS):
        path = os.path.abspath(path)
        numbered = NUMBERED_FILE.fullmatch(path)
        if path in OPEN_FILES or numbered:
            return int(numbered.group(1)) if numbered else OPEN_FILES[path]
        if not os.path.islink(path):
            return None
        path = os.path.join(os.path.dirname(path), os.readlink(path))
    return None


def state_of(path: str) -> os.stat_result | None:
    """What the system says of the file that a path names, if it is there."""
    descriptor = descriptor_of(path)
    with contextlib.suppress(OSError):
        return os.stat(path) if descriptor is None else os.fstat(descriptor)
    return None


def is_written_to(path: str) -> bool:
    """Whether a path names a device, a pipe or an open file, which no other file may replace."""
    state = state_of(path)
    return descriptor_of(path) is not None or state is not None and not stat.S_ISREG(state.st_mode) and not stat.S_ISDIR(state.st_mode)


def holds_data(path: str) -> bool:
    """Whether something lies at a path that would be overwritten: a file, a link, a disk."""
    state = state_of(path)
    is_disk = descriptor_of(path) is None and state is not None and stat.S_ISBLK(state.st_mode)
    return is_disk if is_written_to(path) else os.path.lexists(path)


def is_recording(path: str) -> bool:
    """Whether a file is a recording, which no report overwrites: it begins as a container does, or has data and the name of one."""
    descriptor, state = descriptor_of(path), state_of(path)
    if state is None or not stat.S_ISREG(state.st_mode) or not state.st_size:
        return False
    with or_fault(f"cannot read {path}"), open(path if descriptor is None else f"/dev/fd/{descriptor}", "rb") as file:
        head = file.read(START)
    return any(each.begins(head) or os.path.realpath(path).lower().endswith(tuple(each.endings)) for each in KNOWN)


def is_same(path: str, other: str) -> bool:
    """Whether two paths name one file, by whatever names."""
    one, two = state_of(path), state_of(other)
    return one is not None and two is not None and os.path.samestat(one, two)


# ---- parts


def front_of(path: str) -> str:
    """How the name of a file begins while it is made. Of a long name a digest stands for the rest, so that no two files have one front."""
    name = os.fsencode(os.path.basename(path))
    if len(name) > LONGEST_FRONT:
        name = name[: LONGEST_FRONT - DIGITS] + hashlib.sha256(name).hexdigest()[:DIGITS].encode()
    return os.fsdecode(name) + "."


def parts_of(path: str) -> list[str]:
    """The parts of a file that are there, whoever made them."""
    return sorted(glob.glob(os.path.join(glob.escape(os.path.dirname(path)), glob.escape(front_of(path)) + "????????" + PART)))


def is_held(path: str) -> bool | None:
    """Whether a run holds the lock of a file: its part, or a file in its working folder. None where that can't be known."""
    with contextlib.suppress(OSError):
        way = os.O_RDWR if os.access(path, os.W_OK) else os.O_RDONLY
        file = os.open(path, way | os.O_NONBLOCK | getattr(os, "O_NOFOLLOW", 0))
        try:
            fcntl.flock(file, fcntl.LOCK_EX | fcntl.LOCK_NB)
            return False
        except BlockingIOError:
            return True
        finally:
            os.close(file)
    return None


def can_be_held(file: int, path: str) -> bool:
    """Takes the lock of a new file that is open, and keeps it if others can write to the file then: on some network disks they can't."""
    try:
        fcntl.flock(file, fcntl.LOCK_EX | fcntl.LOCK_NB)
        with open(path, "r+b", buffering=0) as other:
            other.write(b"\0")
            other.truncate(0)
        return True
    except OSError:
        with contextlib.suppress(OSError):
            fcntl.flock(file, fcntl.LOCK_UN)
    return False


@contextlib.contextmanager
def alone_in(folder: str) -> Iterator[None]:
    """Has runs make their parts in a folder one after the other, so that of two at once the second alone is refused. Where something else
    holds the folder, or it can't be held, the work goes on: then each of the two may be refused."""
    with contextlib.ExitStack() as stack:
        with contextlib.suppress(OSError):
            file = os.open(folder, os.O_RDONLY)
            stack.callback(os.close, file)
            hold(file, TRIES)
        yield


def hold(file: int, tries: int) -> None:
    """Waits for the lock of an open file, so many times and no longer."""
    for _ in range(tries):
        try:
            return fcntl.flock(file, fcntl.LOCK_EX | fcntl.LOCK_NB)
        except BlockingIOError:
            time.sleep(PAUSE)
    return None


def check_room(part: str, path: str, size: int) -> None:
    """Refuses to make a file that the disk has no room for."""
    with contextlib.suppress(OSError):
        room = shutil.disk_usage(os.path.dirname(part) or ".").free
        if room < size:
            raise Fault(f"cannot write {path}: it needs {size} bytes, and there are {room} bytes free")


@dataclasses.dataclass
class Output:
    """A file that is made: its name as it was asked for, and the part that it is made as. A file at `replaced` gives way to the part at the
    end; where that is nothing the part is written to what the name stands for. The part is held by a lock of its own until then."""

    path: str
    part: str
    replaced: str | None
    lock: int

    def settle(self) -> None:
        """Gives the part its place."""
        with or_fault(f"cannot write {self.path}"):
            if self.replaced is not None:
                os.replace(self.part, self.replaced)
                return
            descriptor = descriptor_of(self.path)
            target = os.open(self.path, os.O_WRONLY) if descriptor is None else os.dup(descriptor)
            with open(self.part, "rb") as made, os.fdopen(target, "wb") as written:
                shutil.copyfileobj(made, written, PIECE)
            os.unlink(self.part)


class Files:
    """The files that are made, and are not at their places yet; and the parts that runs left that were killed."""

    def __init__(self) -> None:
        self.outputs: list[Output] = []
        self.folders: list[str] = []
        self.left: list[str] = []

    def make(self, path: str, work: str) -> Output:
        """Makes the part of a file: beside the file that it is to be, or in a folder for working files. It is refused while another run makes
        that file."""
        replaced = None if is_written_to(path) else os.path.realpath(path)
        with or_fault(f"cannot write {path}"):
            if replaced is None and descriptor_of(path) is None and not os.access(path, os.W_OK):
                raise Fault(f"cannot write {path}: Permission denied")
            if replaced is None and state_of(path) is None:
                raise Fault(f"cannot write {path}: it is closed")
            folder = work if replaced is None else os.path.dirname(replaced)
            with uninterrupted(), alone_in(folder):
                file, part = tempfile.mkstemp(prefix=front_of(replaced or "output"), suffix=PART, dir=folder)
                self.outputs.append(Output(path, part, replaced, file))
                if replaced is not None and can_be_held(file, part):
                    self.look_at(path, [other for other in parts_of(replaced) if other != part])
            os.umask(umask := os.umask(0o077))
            os.fchmod(file, 0o666 & ~umask)
        return self.outputs[-1]

    def look_at(self, path: str, parts: list[str]) -> None:
        """Refuses to make a file of which another run makes a part, and keeps in mind which parts no run holds."""
        folder = os.path.dirname(path if not os.path.islink(path) else os.path.realpath(path))
        for part in parts:
            held, named = is_held(part), os.path.join(folder, os.path.basename(part))
            if held:
                raise Fault(f"another run makes {path} now: it holds {named}")
            self.left += [named] if held is False else []

    def make_folder(self, path: str) -> None:
        """Makes a folder, and those that it lies in."""
        self.folders += [str(folder) for folder in (pathlib.Path(path), *pathlib.Path(path).parents) if not folder.exists()]
        with or_fault(f"cannot make {path}"):
            os.makedirs(path, exist_ok=True)

    def settle(self, output: Output) -> None:
        """Gives a file its place. From then on the folders that were made stay."""
        with uninterrupted() if output.replaced is not None else contextlib.nullcontext():
            output.settle()
            self.outputs.remove(output)
            os.close(output.lock)
            self.folders = []

    def remove(self) -> None:
        """Removes what was made and has no place of its own yet."""
        for remove, path in [*((os.unlink, output.part) for output in self.outputs), *((os.rmdir, folder) for folder in self.folders)]:
            with contextlib.suppress(OSError):
                remove(path)
        while self.outputs:
            os.close(self.outputs.pop().lock)


# ---- working files


class WorkFolder:
    """A folder of this run's own, made while interrupts wait. Its lock tells one that a killed run left from one that is in use."""

    def __init__(self) -> None:
        self.path = pathlib.Path(tempfile.mkdtemp(prefix=FOLDER))
        self.lock = os.open(self.path / LOCK, os.O_WRONLY | os.O_CREAT, 0o600)
        with contextlib.suppress(OSError):
            fcntl.flock(self.lock, fcntl.LOCK_EX | fcntl.LOCK_NB)

    def remove(self) -> None:
        shutil.rmtree(self.path, ignore_errors=True)
        os.close(self.lock)


def left_folders() -> list[str]:
    """The folders that runs left that were killed: their locks can be had."""
    folders = glob.glob(os.path.join(glob.escape(tempfile.gettempdir()), FOLDER + "????????"))
    return sorted(folder for folder in folders if is_held(os.path.join(folder, LOCK)) is False)
