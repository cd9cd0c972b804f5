"""What the parts of one file say of it: where they lead nowhere, where the file ends by them, what they count, where its index leads."""
from __future__ import annotations

import dataclasses
import enum
from collections.abc import Callable, Iterator, Set
from typing import NamedTuple

from ..model import Copy
from .elements import Steps

TAIL = 1 << 20
MOST_DEPTH, FEWEST_PARTS = 16, 1 << 14


class Flaw(enum.Enum):
    """What is wrong with how a file hangs together."""

    BROKEN = "leads nowhere"
    CUT = "goes on after the file's end"
    AFTER_END = "lies after the end"
    COUNT = "counts otherwise"
    INDEX = "leads to something else"
    SUM = "fails a checksum"
    BARE = "has no checksum, though what lies beside it has"
    NO_TABLE = "lacks what says where its frames lie"
    ZEROS = "has zero bytes in a text"
    LOST = "has one value all over a sector"
    NOT_WALKED = "is of a container whose parts are not walked here"


class Found(NamedTuple):
    """A flaw, from which byte to which, and what there is, and what the file counts."""

    flaw: Flaw
    start: int
    end: int
    has: int = 0
    count: int = 0


@dataclasses.dataclass
class Structure:
    """What was read of a file."""

    flaws: list[Found] = dataclasses.field(default_factory=list)
    end: int | None = None  # where the file ends by its own account, if it says so
    counts: dict[int, int] = dataclasses.field(default_factory=dict)  # frames in its tables, by the order of tracks
    stop: int | None = None  # from where on a MOV file has more parts than are walked
    table: tuple[int, int, int] | None = None  # where tables to which no part leads are expected, where they lie, and their size

    def add(self, flaw: Flaw, start: int, end: int, has: int = 0, count: int = 0) -> None:
        self.flaws.append(Found(flaw, start, end, has, count))

    def close(self, place: int, size: int) -> Structure:
        """Notes where the last part ends, and what follows it or is cut."""
        self.end = place
        if place != size:
            self.flaws.append(Found(Flaw.AFTER_END, place, size) if place < size else Found(Flaw.CUT, size, place))
        return self


class Container:
    """A container: its name, how its files' names end, how they begin, and what the parts of one say. This one is of any other kind."""

    name, endings = "", frozenset[str]()

    def begins(self, head: bytes) -> bool:
        """Whether the first bytes of a file are this container's."""
        return False

    def read(self, copy: Copy) -> Structure:
        """What the parts of a file say."""
        return Structure([Found(Flaw.NOT_WALKED, 0, copy.size)])


def is_uniform(copy: Copy, place: int) -> bool:
    """Whether all bytes of a copy from a place on are the same."""
    value = copy.read(place, 1)
    return all((piece := copy.read(start, TAIL)).count(value) == len(piece) for start in range(place, copy.size, TAIL))


# ---- files of parts that have their sizes before them


class Part(NamedTuple):
    """A chunk, an atom or a key: its name, where its content starts, where the next one does, and where its head starts."""

    name: bytes
    content: int
    end: int
    place: int = 0
    size: int = 0  # of its content as its head says it
    form: bytes = b""  # the name within a list's head


class Walk:
    """A walk over the parts of a file, and those within `masters`. `head` reads the part at a place: of a file, up to an end, so deep
    within others. After a part of the name `last` the file may end, and something else follow: for MOV bytes of one value. `again` says
    that a part begins another file, as where two were joined."""

    def __init__(self, copy: Copy, head: Callable[[Copy, int, int, int], Part | None], masters: Set[bytes] = frozenset(), last: bytes = b"",
                 least: int = 1, again: Callable[[Part], bool] = lambda part: False) -> None:
        self.copy, self.head, self.masters, self.last, self.least, self.again = copy, head, masters, last, least, again
        self.made, self.steps, self.has_last, self.stop = Structure(), Steps(FEWEST_PARTS), False, None

    def parts(self, place: int, end: int, depth: int = 0) -> Iterator[Part]:
        """Yields the parts between two places, each before those within it."""
        while place + self.least <= min(end, self.copy.size):
            is_left = self.steps.take(place)
            part = self.head(self.copy, place, end, depth) if is_left and depth <= MOST_DEPTH else None
            if not is_left and self.stop is None:
                self.stop = place
            if not depth and self.has_last and (self.again(part) if part else self.last != b"moov" or is_uniform(self.copy, place)):
                break
            if part is None:
                self.made.flaws.append(Found(Flaw.BROKEN, place, min(end, self.copy.size)))
                return
            yield part
            self.has_last |= part.name == self.last
            yield from self.parts(part.content, part.end, depth + 1) if part.name in self.masters else ()
            place = part.end
        if not depth:
            self.made.close(place, self.copy.size)
