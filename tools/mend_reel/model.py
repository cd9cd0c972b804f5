"""What the parts of mend-reel pass to each other: copies, what lies where in a file, and what became of it.

Places and sizes count bytes, times are in seconds. Copies count from 0 here, and from 1 wherever a person reads them.
"""
from __future__ import annotations

import collections
import contextlib
import dataclasses
import enum
import os
import stat
from collections.abc import Callable, Iterator, Mapping, Sequence
from typing import Any, NamedTuple


MATROSKA = "matroska"
# The most bytes of a stretch that has a check.
MOST_STRETCH = 1 << 30


class Fault(Exception):
    """What ends the work, in one line: status 1."""


class Interrupted(BaseException):
    """What ends the work because a signal came. Nothing that gets over a fault gets over this."""


@contextlib.contextmanager
def or_fault(what: str) -> Iterator[None]:
    """Makes a fault of what the system refuses, in a line that begins with what could not be done."""
    try:
        yield
    except OSError as error:
        raise Fault(f"{what}: {error.strerror}") from None


class Kind(enum.Enum):
    """What vouches for the bytes of a stretch, by the word of the list."""

    FRAME = "frame"
    ELEMENT = "crc32"
    RECORD = "record"
    FLAC = "flac"
    PLAIN = "plain"


class State(enum.Enum):
    """What became of a stretch, by the word of the program; `read` is one that is alone because the others could not be read there."""

    WHOLE = "whole"
    WOVEN = "woven"
    DISPUTED = "disputed"
    MISSING = "missing"
    ALONE = "alone"
    AGREED = "agreed"
    OPEN = "open"
    READ = "read"

    def is_good(self) -> bool:
        """Whether a checksum, several copies, or a map of what could not be read in the others vouch for it."""
        return self in (State.WHOLE, State.WOVEN, State.AGREED, State.READ)


class Content(enum.Enum):
    """What the bytes of a stretch are, in an archivist's words."""

    HEADER = "file header"
    INFORMATION = "information on the recording"
    TRACKS = "description of the tracks"
    SEEK_HEAD = "table of contents"
    INDEX = "index"
    TAGS = "tags"
    CHAPTERS = "chapters"
    ATTACHMENTS = "attachments"
    CLUSTER = "frames and sound"
    FRAME = "frame"
    VIDEO = "video"
    SOUND = "sound"
    SUBTITLES = "subtitles"
    PADDING = "padding"
    FRAMING = "element header"
    UNKNOWN = "bytes between frames"


BESIDE_TRACKS = frozenset({Content.ATTACHMENTS, Content.CHAPTERS, Content.TAGS})


class What(NamedTuple):
    """What the bytes of a stretch are, of which track if of one, and from when to when they play if that is known."""

    content: Content
    track: int | None = None
    start: float | None = None
    end: float | None = None


@dataclasses.dataclass(frozen=True)
class Track:
    """A track as the container describes it."""

    number: int
    content: Content
    codec: str
    is_ffv1: bool = False
    width: int = 0
    height: int = 0
    record: bytes = b""
    step: float | None = None  # seconds from a frame to the next, if the container says so
    byte_rate: float = 0.0  # how many bytes of PCM play in a second
    is_encoded: bool = False  # FFV1 frames are stored in another form: compressed, say
    is_flac: bool = False  # each block is a frame of FLAC


@dataclasses.dataclass(frozen=True)
class Frame:
    """A frame of an FFV1 track: its bytes in the file, and when it is shown."""

    track: int
    time: float
    place: int
    size: int
    key: bool = True

    @property
    def end(self) -> int:
        return self.place + self.size


class Packet(NamedTuple):
    """A packet of sound: the number of its track among those of sound, when it plays, and where it lies."""

    track: int
    time: float
    place: int
    size: int


@dataclasses.dataclass(frozen=True)
class Claims:
    """What a file claims of itself beside its frames: how long it plays, and by track how many frames it has, at what times its index
    says that some lie, and when it ends. Nothing where it does not say."""

    duration: float | None = None
    counts: Mapping[int, int] = dataclasses.field(default_factory=dict)
    index: Mapping[int, Sequence[float]] = dataclasses.field(default_factory=dict)
    ends: Mapping[int, float] = dataclasses.field(default_factory=dict)

    def of_tracks(self, numbers: Mapping[int, int]) -> Claims:
        """What another file claims of OUT: how long it plays, and how many frames the tracks have that are OUT's. Its times may differ."""
        return Claims(self.duration, {numbers[track]: count for track, count in self.counts.items() if track in numbers})

    def beside(self, own: Claims) -> Claims:
        """What is claimed here of which another file's claims say nothing."""
        counts, index, ends = ({track: value for track, value in getattr(self, name).items() if track not in getattr(own, name)}
                               for name in ("counts", "index", "ends"))
        return Claims(None if own.duration else self.duration, counts, index, ends)


class Because(enum.Enum):
    """Why a stretch in which copies differ is taken from one of them, in words that follow its number."""

    ALONE = ""
    CONFIRMED = ", which the container confirms"
    SOUND = ", in which nothing is known to be wrong"
    GOOD = ", in which no damage was found"
    NOT_LOST = ", in which no sector seems to be lost there"
    UNDAMAGED = ", which is not known to be damaged there"
    SHOWS = ", whose container shows most frames"
    MOST = ", as most of the copies that can be read have that"
    HEALTHIEST = ", as more of that copy is verified"
    FIRST = ", the first"


@dataclasses.dataclass(frozen=True)
class Stretch:
    """A run of bytes of OUT."""

    kind: Kind
    start: int  # its place in OUT
    size: int
    what: What
    places: tuple[int | None, ...] = ()  # where it lies in each copy that has it
    parts: tuple[Frame, ...] = ()  # frames in an element, by their places in OUT, or its own frame
    sound: tuple[tuple[int, int], ...] = ()  # places and sizes of FLAC frames in an element
    vouched: frozenset[int] = frozenset()  # copies whose container confirms what they have: a header that leads on
    is_read: bool = False  # some copy has it, and maps say of all others that they could not be read there
    is_unread: bool = False  # maps say so of all copies
    is_alike: bool = False  # all copies that have it are known to have it alike
    source: int = 0  # the copy FROM
    because: Because = Because.ALONE  # why it is FROM
    part_of: tuple[int, int] | None = None  # from where to where in OUT what it was cut of lies

    @property
    def end(self) -> int:
        return self.start + self.size

    def having(self) -> list[int]:
        """The numbers of the copies that have it."""
        return [number for number, place in enumerate(self.places) if place is not None]

    def part(self, offset: int, size: int, **changes: Any) -> Stretch:
        """A part of it, with other changes."""
        places = tuple(None if place is None else place + offset for place in self.places)
        return dataclasses.replace(self, start=self.start + offset, size=size, places=places, **changes)

    def listed_parts(self) -> list[tuple[int, int, bool]]:
        """The places and sizes of the parts as they are listed, and whether each is a frame of FLAC."""
        return sorted([*((frame.place, frame.size, False) for frame in self.parts), *((*each, True) for each in self.sound)])


@dataclasses.dataclass
class Layout:
    """What lies where in a file. Stretches follow each other and cover it; frames are those of all FFV1 tracks by their places."""

    size: int
    tracks: list[Track]
    frames: list[Frame]
    stretches: list[Stretch]
    claims: Claims = Claims()
    gaps: list[tuple[int, int]] = dataclasses.field(default_factory=list)  # places and sizes of what no copy could divide
    rises: bool = False  # frames of a track lie in the order of their times
    end: int | None = None  # where the file ends by its own account, if it says so
    bare: list[tuple[int, int]] = dataclasses.field(default_factory=list)  # where elements lack the CRC-32 that those beside have
    sound: list[Packet] = dataclasses.field(default_factory=list)  # packets of sound by their places
    origin: int = 0  # from where on tables of a Matroska file count

    def orders(self) -> list[int]:
        """The number of each frame in its track."""
        counts: collections.Counter[int] = collections.Counter()
        found = []
        for frame in self.frames:
            found.append(counts[frame.track])
            counts[frame.track] += 1
        return found

    def contents(self) -> collections.Counter[Content]:
        """What a file has: how many tracks of each kind, and whether attachments, chapters and tags."""
        found = {stretch.what.content for stretch in self.stretches}
        return collections.Counter([*(track.content for track in self.tracks), *(found & BESIDE_TRACKS)])


@dataclasses.dataclass
class Copy:
    """A copy: its path, its open file, and its length in bytes."""

    path: str
    file: int
    size: int
    form: str = ""  # the container: `matroska`, a name of FFmpeg's, or empty
    unread: Sequence[tuple[int, int]] = ()  # from where to where it could not be read, by a map
    filling: Sequence[tuple[int, int]] = ()  # what counts as unread too: long filling, where another copy has content
    runs: list[tuple[int, int]] | None = dataclasses.field(default=None, repr=False, compare=False)  # where it has one value over several sectors
    is_disordered: bool | None = None  # its parts do not hang together, once that was asked
    watch: Callable[[int], None] = lambda place: None  # is called with each place that is read
    probed: Any = dataclasses.field(default=None, repr=False, compare=False)  # what ffprobe reported of it
    structure: Any = dataclasses.field(default=None, repr=False, compare=False)  # how its parts hang together

    def read(self, place: int, size: int) -> bytes:
        """Bytes of the file; fewer where it ends."""
        self.watch(place)
        try:
            return os.pread(self.file, size, place)
        except OSError as error:
            raise Fault(f"cannot read {self.path}: {error.strerror}") from None


    def read_into(self, buffer: memoryview, place: int) -> int:
        """Fills a buffer with bytes of the file, fewer where it ends. Returns how many. That costs half of what new memory for them does."""
        self.watch(place)
        try:
            return os.preadv(self.file, [buffer], place)
        except OSError as error:
            raise Fault(f"cannot read {self.path}: {error.strerror}") from None


def open_copy(path: str) -> Copy:
    """Opens a regular file."""
    with or_fault(f"cannot read {path}"):
        file = os.open(path, os.O_RDONLY | getattr(os, "O_NONBLOCK", 0))
        state = os.fstat(file)
    if not stat.S_ISREG(state.st_mode):
        os.close(file)
        raise Fault(f"cannot read {path}: it is no file")
    return Copy(path, file, state.st_size)


@contextlib.contextmanager
def opened(path: str) -> Iterator[Copy]:
    """A regular file that is open while it is used."""
    copy = open_copy(path)
    try:
        yield copy
    finally:
        os.close(copy.file)


@dataclasses.dataclass(frozen=True)
class SliceReport:
    """A slice of a frame as the program reports it, or what its footers do not divide."""

    start: int  # by the bytes of the frame
    end: int
    state: str  # the word of the program; `undivided` between slices, `broken` at the frame's start
    count: int = 0  # of combinations or repairs that were tried
    marks: str = ""  # for each copy


@dataclasses.dataclass(frozen=True)
class Outcome:
    """What became of a stretch."""

    number: int  # in the list, from 0
    state: State
    count: int  # of combinations that it is one of
    marks: str  # for each copy: `1` it has what OUT has, `0` something else, `-` it does not have it
    slices: Mapping[int, tuple[SliceReport, ...]] = dataclasses.field(default_factory=dict)  # of listed parts, by their numbers

    def is_undamaged(self) -> bool:
        """Whether each copy that has the stretch has what OUT has, and nothing is open."""
        return "0" not in self.marks and self.state in (State.WHOLE, State.AGREED, State.ALONE)
