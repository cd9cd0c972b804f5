"""What the reports for people and for machines are made of, and the lines that are printed."""
from __future__ import annotations

import collections
import dataclasses
import enum
import os
from collections.abc import Mapping, Sequence
from typing import Union

from ..copies.arrangement import Matched
from ..judging import reasons
from ..judging.results import Counts, Sums
from ..mending.verdict import Verdict
from ..model import Layout
from .pictures import Drawn


class Role(enum.Enum):
    """How a copy serves."""

    BASIS = "a copy of the mended file"
    OTHER = "another file of the same recording"
    LEFT = "left out"


@dataclasses.dataclass
class CopySummary:
    """A copy, or OUT: its path, its size, its container, how it serves, and if known how many of its bytes pass, and its SHA-256."""

    path: str
    size: int
    form: str = ""
    role: Role = Role.BASIS
    why: str = ""
    verified: int | None = None
    sha256: str | None = None

    def name(self) -> str:
        """The path as text: bytes that are none stand as the replacement character."""
        return os.fsencode(self.path).decode("utf-8", "replace")


@dataclasses.dataclass
class Summary:
    """One OUT, or one file that was checked."""

    date: str  # when
    versions: Mapping[str, str]  # by which programs
    command: Sequence[str]  # how the tool was called
    copies: Sequence[CopySummary]
    out: CopySummary | None  # if it was made
    layout: Layout  # what lies where
    verdict: Verdict
    matched: Sequence[Matched] = ()
    notes: Sequence[str] = ()  # what else is to be said
    shown: Sequence[Drawn] = ()  # frames that are not restored, of which a picture was made

    @property
    def status(self) -> int:
        return self.verdict.status

    def title(self) -> str:
        return self.out.name() if self.out else ", ".join(copy.name() for copy in self.copies[:4])

    def sentence(self) -> str:
        """The verdict for a person."""
        return self.verdict.sentence(self.out_name())

    def out_name(self) -> str:
        """What OUT is called within sentences, where there may be none."""
        return "OUT" if self.out else self.title()

    def lines(self) -> list[str]:
        """What is printed: first the verdict, then the counts, what is in doubt, and notes."""
        return [self.sentence(), of_frames(self.verdict.counts, self.verdict.is_check), of_bytes(self.verdict.sums),
                *reasons.lines(self.verdict.reasons, self.out_name()), *self.notes, *self.verdict.notes]


@dataclasses.dataclass
class Unreadable:
    """A file that could not be judged, and why."""

    date: str  # when
    versions: Mapping[str, str]  # by which programs
    command: Sequence[str]  # how the tool was called
    path: str
    fault: str
    status: int = 1

    def title(self) -> str:
        return CopySummary(self.path, 0).name()

    def sentence(self) -> str:
        return f"{self.path} could not be judged: {self.fault}"

    def lines(self) -> list[str]:
        return [self.sentence()]


# What is reported of a file, and what it is called by its status: the worst first.
Entry = Union[Summary, Unreadable]
STATES = {1: "unreadable", 3: "damaged", 0: "undamaged"}


def of_files(entries: Sequence[Entry]) -> str:
    """`32 files: 25 undamaged, 6 damaged, 1 unreadable`"""
    counts = collections.Counter(entry.status for entry in entries)
    return f"{len(entries):,} files: " + ", ".join(f"{counts[status]:,} {state}" for status, state in reversed(STATES.items()))


def of_frames(counts: Counts, is_check: bool = False) -> str:
    """`frames: 50, 3 damaged, 2 restored (1 woven), 1 not restored`. Of a file that was checked nothing is said to be restored."""
    woven = f" ({counts.woven:,} woven)" if counts.woven else ""
    restored = [f"{counts.restored:,} restored{woven}" if counts.restored else "", f"{counts.lost:,} not restored" if counts.lost else ""]
    return ", ".join(filter(None, [f"frames: {counts.frames:,}", f"{counts.damaged:,} damaged", *([] if is_check else restored)]))


def of_bytes(sums: Sums) -> str:
    """`bytes: 881,357 verified (99.9 %), 521 agreed`: of the others only what there is."""
    named = sums.named()
    others = [f"{size:,} {name}" for name, size in named.items() if size and name != "verified"]
    return ", ".join([f"bytes: {sums.verified:,} verified ({share_of(sums.verified, sum(named.values()))})", *others])


def share_of(part: int, whole: int) -> str:
    """A share in hundredths, cut and not rounded: `100 %` is all."""
    tenths = 1000 * part // max(whole, 1)
    return "100 %" if part == whole else f"{tenths // 10}.{tenths % 10} %"
