"""The programs that are run: ffv1restore, and FFmpeg's where a container other than Matroska is read."""
from __future__ import annotations

import concurrent.futures
import contextlib
import functools
import os
import pathlib
import shutil
import signal
import subprocess
import sys
from collections.abc import Callable, Iterator, Sequence
from typing import IO, TypeVar, Union

from ..model import Fault, or_fault

Item, Found = TypeVar("Item"), TypeVar("Found")
Word = Union[str, "os.PathLike[str]"]


def run(*words: Word) -> "subprocess.CompletedProcess[bytes]":
    """Runs a program to its end, without an input."""
    with or_fault(f"cannot run {os.fspath(words[0])}"):
        return subprocess.run([os.fspath(word) for word in words], stdin=subprocess.DEVNULL, capture_output=True, check=False,
                              restore_signals=False)


@contextlib.contextmanager
def started(words: Sequence[Word], faults: IO[bytes]) -> "Iterator[subprocess.Popen[bytes]]":
    """Runs a program whose standard output is read as it comes, and whose faults go to a file. It ends where the reader fails."""
    with or_fault(f"cannot run {os.fspath(words[0])}"):
        child = subprocess.Popen([os.fspath(word) for word in words], stdin=subprocess.DEVNULL, stdout=subprocess.PIPE, stderr=faults,
                                 restore_signals=False)
    with child:
        try:
            yield child
        except BaseException:
            child.kill()
            raise


def last_line(text: bytes, status: int) -> str:
    """The fault that a program reported on its standard error, without its name."""
    how = (f"was ended by signal {-status} ({signal.strsignal(-status)}), as where memory runs out" if status < 0 else
           f"ended with status {status} and no word, as where the folder of temporary files is full")
    lines = os.fsdecode(text).strip().splitlines() or [f"ffv1restore {how}"]
    return lines[-1].replace("ffv1restore: ", "", 1)


def find_ffv1restore() -> str:
    """The program: the one that FFV1RESTORE names, the one beside this tool, or the one on the PATH."""
    named = os.environ.get("FFV1RESTORE")
    beside = pathlib.Path(sys.argv[0]).resolve().parent / "ffv1restore"
    found = named or (str(beside) if os.access(beside, os.X_OK) else shutil.which("ffv1restore"))
    if not found:
        raise Fault("there is no ffv1restore on the PATH")
    return found


@functools.lru_cache(maxsize=None)
def version_of(program: str) -> str:
    """The first line that a program prints of its version, or nothing."""
    try:
        done = run(program, "-version" if os.path.basename(program).startswith("ff") and "restore" not in program else "version")
    except Fault:
        return ""
    return next(iter(done.stdout.decode(errors="replace").splitlines()), "") if done.returncode == 0 else ""


def of_each(jobs: int, work: Callable[[Item], Found], items: Sequence[Item]) -> list[Found]:
    """What is found for each item, in order, so many at a time. Threads serve, as programs work. After a fault nothing is begun."""
    if jobs == 1 or len(items) < 2:
        return list(map(work, items))
    pool = concurrent.futures.ThreadPoolExecutor(min(jobs, len(items)))
    try:
        return list(pool.map(work, items))
    finally:
        pool.shutdown(cancel_futures=True)
