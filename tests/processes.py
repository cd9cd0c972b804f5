"""Which processes run, by Linux's /proc: the children of one, and those of a session."""
from __future__ import annotations

import contextlib
import pathlib
import typing


def all_running() -> typing.Iterator[tuple[int, int, int]]:
    """Each process, its parent and its session."""
    for path in pathlib.Path("/proc").glob("[0-9]*/stat"):
        with contextlib.suppress(OSError):
            fields = path.read_text(errors="replace").rpartition(")")[2].split()
            yield int(path.parent.name), int(fields[1]), int(fields[3])


def children(pid: int) -> list[int]:
    return [each for each, parent, _ in all_running() if parent == pid]


def in_session(session: int) -> list[int]:
    return [each for each, _, own in all_running() if own == session]


def descendants(pid: int) -> list[int]:
    """A process and all that came of it."""
    return [pid, *(each for child in children(pid) for each in descendants(child))]
