"""Why OUT may not be what was recorded, in lines that an archivist understands."""
from __future__ import annotations

import dataclasses
import enum
from collections.abc import Iterable, Sequence
from typing import Any

from ..model import Because, Content

NEIGHBOUR = 512
MANY = frozenset({Content.TAGS, Content.CHAPTERS, Content.ATTACHMENTS, Content.CLUSTER, Content.SUBTITLES, Content.UNKNOWN})
MOST_LINES = 50


class Why(enum.Enum):
    """Why a place of OUT is in doubt, and what to do."""

    FAILS = "damaged{spread}; {remedy}"
    FAILS_BESIDE = "damaged beside the frames, where sound and block headers lie; {remedy}"
    DAMAGED = "damaged in every copy{spread}; a further copy may restore {it}"
    ALONE_DAMAGED = "damaged in the only copy that has {it}{spread}; a further copy may restore {it}"
    VOTED = ("damaged in every copy; {out} has {it} as most copies have each part of a slice, by which all slices pass. That can be by "
             "chance; a further copy may restore {it}")
    REPAIRED = ("damaged in every copy; {out} has {it} with inverted bits, one in a slice, by which all slices pass. That can be by "
                "chance; a further copy may restore {it}")
    GUESSED = ("damaged in every copy; {out} has {it} as most copies have each part of some slices, and with one inverted bit in others, "
               "by which all slices pass. That can be by chance; a further copy may restore {it}")
    NEAR_END = ("damaged in every copy; {out} has {it} with a slice that is voted or repaired in its last 64 bytes alone. All slices pass, "
                "decode and end as they should, but an end says little of the bytes right before it; a further copy may restore {it}")
    BESIDE = "damaged in every copy between the frames, where sound and block headers lie; a further copy may restore {it}"
    DISPUTED = "two different versions pass their checksums; see whether all copies are of one recording. {out} has that of copy {source}"
    DIFFER = "the copies differ, and no checksum says which is right; {out} has that of copy {source}{because}"
    ABSENT = "no copy has these bytes, so {out} lacks them; a further copy may have them"
    NEVER_READ = "no copy could be read there, as their maps say; a further copy may have {it}"
    UNDIVIDED = "no copy's element headers lead through these bytes, so frames may be hidden there; a further copy may show them"
    HIDDEN = "{out} has the bytes, but its container does not show {it}; a further copy may have what shows {it}"
    UNREAD = "its container can't be read by what the copies have of its headers; a further copy may have more of them"
    HOLE = "the times of the frames around leave room for {it}, but {out} shows none; a further copy may have {it}"
    SHORT = "{out} ends before the time at which the file says that it does; a further copy may have the end"
    SHORTER = "{out} ends before the time at which copy {copy} says that the recording does; a further copy may have the end"
    COUNT = "{out} has {has} frames, but the file says that it has {count}; a further copy may have the others"
    INDEX = "the index of the file names {it}, but {out} does not show {it}; a further copy may have {it}"
    ORDER = "by the times around, bytes of another place may lie here; a further copy may have the right ones"
    UNPLACED = "copy {copy} has {it}, and {out} has no place for {it}; see whether a copy of another length is the whole recording"
    LACKS = "copy {copy} has {it}, and {out} lacks {it}; see whether that copy's file is the whole recording"
    ALONE = "copy {copy} alone has {it}, {amount}, and no checksum covers {it}; a further copy may confirm {it}"
    BROKEN = "the parts of the file lead nowhere there; a further copy may have them right"
    CUT = "the file says that it goes on there; a further copy may have the end"
    AFTER_END = "this lies after the end of the file by its own account"
    MISLED = "a table there leads to something else; a further copy may have it right"
    SUM = "the checksum of these bytes fails; a further copy may have them right"
    SHIFT = ("from here on a copy lies otherwise, so bytes were lost from it or put into it, and no checksum says which; "
             "{out} has those of copy {source}")
    MAP = "the map of copy {copy} calls these bytes unread, and it has content there: it is the map of another file"
    MISCOUNTED = "the file counts {count} frames or blocks there, and {has} are in it; a further copy may have the others"
    NO_TABLE = "what says where the frames lie is lost or was never written; a further copy may have it"
    ZEROS = "a text there has zero bytes, as where the last sector of a file is lost; a further copy may have it right"
    LOST = "a sector of the sound there has one value all over, as where it was lost; a further copy may have it"
    BARE = "this has no checksum, though what lies beside it has one; its checksum may be lost"
    ENDLESS = ("no size was written for what begins there, as where a recording was streamed or stopped, so nothing shows whether its end is lost; "
               "a further copy may have it")
    MISPLACED = "what begins there has no place there; a further copy may have the file right"
    NO_NAME = "the start of the file does not say that it is Matroska; a further copy may have it right"
    TIME = "the time of a frame there is not after that of the frame before; a further copy may have it right"
    LACED = "frames are packed together there, as those of FFV1 never are; a further copy may have them right"
    OF_NO_TRACK = "a block there is of no track that the file has; a further copy may have it right"
    TOO_LONG = "a block there is too long to be checked"
    NO_CHECK = "ffv1restore check finds no check for its frames, so whether they are damaged can't be told; a further copy may confirm them"
    NOT_WHOLE = "ffv1restore check does not find it whole"
    RECORD = "what describes its video to a decoder (the Configuration Record) fails its parity; a further copy may have it right"
    ROTTEN = ("parts of {it} fail their own checks, though nothing else does: {they_were} damaged before this file was written{spread}; "
              "a copy of an earlier file may have {it}")
    UNCHECKED = "no frame has a checksum, so no damage in them can be found; a further copy may confirm them"
    CONTRARY = "copy {copy} has other intact frames at these times; see whether it is of the same recording"


class Note(enum.Enum):
    """What is to be said of a place of OUT that is not in doubt."""

    NEAR_END = "restored with a slice that is voted or repaired in its last 64 bytes too; that it ends as it should says little of these"


# What lies there is not known.
OF_BYTES = frozenset({Why.ABSENT, Why.UNDIVIDED, Why.BROKEN, Why.CUT, Why.AFTER_END, Why.MISCOUNTED, Why.BARE, Why.ZEROS,
                      Why.MISLED, Why.SUM, Why.MAP, Why.SHIFT, Why.LOST, Why.ENDLESS, Why.MISPLACED, Why.NO_NAME, Why.TIME, Why.LACED,
                      Why.OF_NO_TRACK, Why.TOO_LONG})
OF_FILE = frozenset({Why.SHORT, Why.SHORTER, Why.COUNT, Why.UNCHECKED, Why.NO_TABLE, Why.NO_CHECK, Why.NOT_WHOLE})
# Nothing that is damaged was found, but it may be.
UNTOLD = frozenset({Why.ENDLESS, Why.TOO_LONG, Why.NO_CHECK})
OF_FRAMES = frozenset({Why.HOLE, Why.INDEX, Why.ORDER, Why.UNPLACED, Why.CONTRARY})


@dataclasses.dataclass(frozen=True)
class Reason:
    """Why a place of OUT is in doubt, or what else is to be said of it: what lies there, from which byte to which, and from when to when."""

    why: Why | Note
    content: Content = Content.UNKNOWN
    track: int | None = None
    frames: tuple[int, int] | None = None  # their numbers, if it is frames
    bytes: tuple[int, int] | None = None
    times: tuple[float, float] | None = None
    source: int | None = None  # the copy that OUT follows there
    copy: int | None = None  # the copy that says so
    has: int = 0  # how many frames OUT has
    count: int = 1  # how many it would have
    because: Because = Because.ALONE
    spread: tuple[int, int] | None = None  # the frames after it that depend on it
    remedy: str = ""  # what may be done, if it is not to look for a further copy

    def joined_with(self, after: Reason) -> Reason:
        """This reason and that of what lies after it as one."""
        return dataclasses.replace(self, frames=widest(self.frames, after.frames), bytes=widest(self.bytes, after.bytes),
                                   times=widest(self.times, after.times), count=self.count + after.count,
                                   spread=after.spread)

    def is_many(self) -> bool:
        if self.frames:
            return self.frames[0] != self.frames[1]
        return self.why in OF_FRAMES and self.count > 1 or self.content in MANY

    def has_only_bytes(self) -> bool:
        return self.why in OF_BYTES and self.content is Content.UNKNOWN and self.bytes is not None

    def span(self) -> str:
        return f"bytes {self.bytes[0]} to {self.bytes[1]}" if self.bytes else ""

    def subject(self, out: str) -> str:
        """What is in doubt."""
        track = "" if self.track is None else f" of track {self.track}"
        if self.frames:
            return numbers_of(*self.frames) + track
        if self.why in OF_FRAMES:
            return f"{self.count} frame{'s' if self.count > 1 else ''}{track}"
        if self.why in OF_FILE:
            return track[4:] or "the recording"
        return self.span() if self.has_only_bytes() else out if self.why is Why.UNREAD else self.content.value + track

    def where(self) -> str:
        """When it plays, and which bytes it is: within brackets after frames, which are named by their numbers."""
        span, time = "" if self.has_only_bytes() else self.span(), span_of_times(self.times) if self.times else ""
        inner = [part for part in (time if self.frames else "", span) if part]
        outer = "" if self.frames or not time else f" from {time}" if " to " in time else f" at {time}"
        return outer + (f" ({', '.join(inner)})" if inner else "")

    def spread_text(self, it: str) -> str:
        return f", and {numbers_of(*self.spread)} depend{'s' if self.spread[0] == self.spread[1] else ''} on {it}" if self.spread else ""

    def text(self, out: str = "OUT") -> str:
        """The reason in a line, in which OUT has a name."""
        it = "them" if self.is_many() else "it"
        remedy = self.remedy or f"a further copy may have {it} whole"
        they_were = "they were" if self.is_many() else "it was"
        why = self.why.value.format(it=it, they_were=they_were, spread=self.spread_text(it), remedy=remedy, source=one_more(self.source), copy=one_more(self.copy),
                                    because=self.because.value, out=out, has=self.has, count=self.count,
                                    amount=f"{self.count:,} byte{'s' if self.count != 1 else ''}")
        return f"{self.subject(out)}{self.where()}: {why}"


def numbers_of(first: int, last: int) -> str:
    return f"frame {first}" if first == last else f"frames {first} to {last}"


def one_more(number: int | None) -> str:
    """The number of a copy as a person counts."""
    return "" if number is None else str(number + 1)


def time_code(seconds: float) -> str:
    """A time as hours, minutes and seconds."""
    thousandths = round(abs(seconds) * 1000)
    minutes, rest = divmod(thousandths, 60000)
    return f"{'-' if seconds < 0 and thousandths else ''}{minutes // 60}:{minutes % 60:02}:{rest // 1000:02}.{rest % 1000:03}"


def span_of_times(times: tuple[float, float]) -> str:
    first, last = map(time_code, times)
    return first if first == last else f"{first} to {last}"


# ---- reasons of neighbours


def key_of(reason: Reason) -> tuple[Any, ...]:
    """What reasons have in common that can be one."""
    return reason.why, reason.content, reason.track, reason.source, reason.because, reason.copy, reason.remedy


def goes_on(before: Reason, after: Reason) -> bool:
    """Whether a reason is the one before it, of what lies next."""
    if key_of(before) != key_of(after):
        return False
    if before.frames and after.frames:
        return after.frames[0] == before.frames[1] + 1
    if before.frames or after.frames or before.why in OF_FILE or before.why in (Why.ALONE, Why.MISCOUNTED):
        return False
    if before.bytes and after.bytes:
        return after.bytes[0] <= before.bytes[1] + NEIGHBOUR
    return before.why in OF_FRAMES and before.why is not Why.HOLE


def widest(before: tuple | None, after: tuple | None) -> tuple | None:
    if before is None or after is None:
        return before or after
    return min(before[0], after[0]), max(before[1], after[1])


def join(reasons: Iterable[Reason]) -> list[Reason]:
    """The reasons in order, those of neighbours as one."""
    joined: list[Reason] = []
    last: dict[tuple, int] = {}
    for reason in reasons:
        key = key_of(reason)
        at = last.get(key)
        if at is not None and goes_on(joined[at], reason):
            joined[at] = joined[at].joined_with(reason)
        else:
            last[key] = len(joined)
            joined.append(reason)
    return joined


def lines(reasons: Sequence[Reason], out: str = "OUT", most: int = MOST_LINES) -> list[str]:
    """The reasons in lines, so many at most, and how many more there are."""
    shown = [reason.text(out) for reason in reasons[:most]]
    return shown + ([f"and {len(reasons) - most} more"] if len(reasons) > most else [])
