"""What lies in a Matroska cluster: the heads and the payloads of its blocks, over all copies of one file (RFC 9559, section 10)."""
from __future__ import annotations

import collections
import re
from collections.abc import Callable, Iterable, Iterator, Sequence
from typing import NamedTuple

from ..model import Content, Copy, Frame
from . import ebml, elements, own_checks
from .elements import NONE, AlignedCopies, Budget, Numbers
from .metadata import NANOSECONDS, Metadata

CRC, VOID, TIMESTAMP, SIMPLE_BLOCK, GROUP, BLOCK, REFERENCE, DURATION = 0xBF, 0xEC, 0xE7, 0xA3, 0xA0, 0xA1, 0xFB, 0x9B
IN_CLUSTER = frozenset({CRC, VOID, TIMESTAMP, SIMPLE_BLOCK, GROUP, 0x5854, 0xA7, 0xAB, 0xAF})
IN_GROUP = frozenset({CRC, VOID, BLOCK, 0x75A1, 0x75A2, 0x9B, 0xFA, REFERENCE, 0xFD, 0xA4, 0x8E, 0xC8, 0xA2})
# Numbers have at most eight bytes (RFC 8794, section 7).
NUMBERS = {CRC: 4, TIMESTAMP: 8, 0xA7: 8, 0xAB: 8, 0x75A2: 8, 0x9B: 8, 0xFA: 8, REFERENCE: 8, 0xFD: 8}
LACING, KEY = 0x06, 0x80
BLOCK_FIELDS = SHORT_BLOCK_HEAD = 4
LONGEST_BLOCK_HEAD, DIGITS = 11, 9
# Enough of a child for its head and a block's, or a time.
SHORT_HEAD = 12
SIZE = rb"(?:[\x80-\xfe]|[\x40-\x7f].|[\x20-\x3f].{2}|[\x10-\x1f].{3}|[\x08-\x0f].{4}|[\x04-\x07].{5}|[\x02\x03].{6}|\x01.{7})"


class Item(NamedTuple):
    """A run of bytes of a cluster: what it is, and of which track and when, if it is of a block."""

    start: int
    end: int
    content: Content
    track: int | None = None
    time: float | None = None
    vouched: Numbers = NONE  # copies that the container vouches for there
    frame: Frame | None = None  # of an FFV1 track
    is_gap: bool = False  # no copy divides it
    lasts: float = 0.0  # its length of time, where it is given
    is_flac: bool = False  # a frame of FLAC


class BlockHead(NamedTuple):
    """The head of a block: its track, its time after the cluster's, its flags, and where its payload starts."""

    track: int
    time: int
    flags: int
    payload: int


def read_block_head(data: bytes, place: int) -> BlockHead | None:
    """Returns the head that some bytes begin with, which lie at a place of the file."""
    track, at = ebml.read_size(data, 0) or (None, 0)
    if track is None or len(data) < at + 3:
        return None
    return BlockHead(track, int.from_bytes(data[at : at + 2], "big", signed=True), data[at + 2], place + at + 3)


def block_signs(tracks: Iterable[int]) -> Callable[[bytes], Iterable[int]]:
    """Returns what finds the offsets in some bytes at which a block of one of some tracks seems to begin."""
    numbers = b"|".join(re.escape(bytes([0x80 | number])) for number in tracks if number < 127) or rb"[\x81-\xfe]"
    block = SIZE + rb"(?:" + numbers + rb")..[\x00-\xff])"
    pattern = re.compile(rb"\xa3(?=" + block + rb"|\xa0(?=" + SIZE + rb"\xa1" + block, re.DOTALL)
    return lambda piece: (match.start() for match in pattern.finditer(piece))


def framing(child: elements.Child, track: int | None = None, time: float | None = None) -> list[Item]:
    """Returns the items of an element's head: its ID and its size apart where different copies are right about them."""
    sized = child.content if child.identified == child.sized else child.place + (child.identity.bit_length() + 7) // 8
    parts = [(child.place, sized, child.identified), (sized, child.content, child.sized)]
    return [Item(start, end, Content.FRAMING, track, time, vouched) for start, end, vouched in parts if start < end]


class Clusters:
    """Reads the clusters of a file one after the other, over all its copies."""

    def __init__(self, aligned: AlignedCopies, metadata: Metadata, budget: Budget) -> None:
        self.aligned, self.scale, self.tracks, self.budget = aligned, metadata.scale, metadata.by_number(), budget
        self.schema = elements.Schema(IN_CLUSTER, signs=block_signs(self.tracks), reach=32, longest=NUMBERS, confirms=self._is_frame)
        self.steps = {track.number: track.step for track in metadata.tracks if track.step}
        self.ffv1 = [track.number for track in metadata.tracks if track.is_ffv1]
        self._last: dict[int, float] = {}
        self._expected: dict[int, float] = {}
        self._doubtful = False
        self.sound: list[tuple[int, float, int, int]] = []  # the track, the time, the place and the size of each block of sound

    def read(self, content: int, end: int, is_cut: bool = False) -> list[Item]:
        """The items of a cluster, which follow each other and cover it. Where copies differ, one that passes its CRC-32 is read alone."""
        agreed = self._agreed(content, end)
        if agreed is not None:
            return agreed
        division = elements.Walk(self.aligned, content, end, self.schema, self.budget, is_cut)
        children, before = division.quick(), (dict(self._last), dict(self._expected))
        self._doubtful = children is None
        items = self.items(children) if children else []
        passing = self.budget.passing(self.aligned, content, end) if self._doubtful and len(self.aligned.copies) > 1 else NONE
        if passing:
            self._last, self._expected = before
            whole, self.aligned = self.aligned, AlignedCopies(self.aligned.copies, sorted(passing)[:1], self.aligned.steps)
            try:
                return self.items(elements.divide(self.aligned, content, end, self.schema, self.budget))
            finally:
                self.aligned = whole
        return items or self.items(division.careful())

    def _agreed(self, content: int, end: int) -> list[Item] | None:
        """Returns the items of a cluster of SimpleBlocks whose heads all copies have alike, in one pass, as nearly all clusters are."""
        items: list[Item] = []
        last, expected = dict(self._last), dict(self._expected)
        place, start = content, None
        while place < end:
            data = self.aligned.agreed(place, SHORT_HEAD)
            head = ebml.read_head(data, 0, place)
            if not self.aligned.steps.take(place) or head is None or head.end is None or head.end > end or head.identity not in IN_CLUSTER:
                return None
            if head.identity == SIMPLE_BLOCK:
                block = read_block_head(data[head.content - place :], head.content)
                track = self.tracks.get(block.track) if block else None
                if block is None or track is None or start is None or track.is_ffv1 and block.flags & LACING or block.payload >= head.end:
                    return None
                time = self._seconds(start + block.time)
                expected[block.track] = round(time + self.steps.get(block.track, time - last.get(block.track, time)), DIGITS)
                last[block.track] = time
                if track.is_ffv1 or track.is_flac:
                    items.append(Item(place, block.payload, Content.FRAMING, block.track, time))
                    place = block.payload
                items.append(self._payload(block, head.end, time, bool(block.flags & KEY))._replace(start=place))
            elif head.identity in (CRC, TIMESTAMP) and head.end - place <= len(data):
                start = ebml.number(data[head.content - place : head.end - place]) if head.identity == TIMESTAMP else start
                items.append(Item(place, head.end, Content.FRAMING))
            else:
                return None
            place = head.end
        self._last, self._expected = last, expected
        return items

    def payloads(self, content: int, end: int) -> Iterator[tuple[int, int, int]]:
        """Yields the track, the start and the end of each payload in a cluster."""
        for child in elements.divide(self.aligned, content, end, self.schema, self.budget):
            head = self._head(child, None) if child.identity == SIMPLE_BLOCK else None
            if head:
                yield head.track, head.payload, child.end

    def items(self, children: Sequence[elements.Child]) -> list[Item]:
        """Returns the items of some children of a cluster."""
        items: list[Item] = []
        start: int | None = None
        for child in children:
            if child.identity == TIMESTAMP:
                start = self._start(child)
                items.append(Item(child.place, child.end, Content.FRAMING))
            elif child.identity == SIMPLE_BLOCK:
                items += self._block(child, start)
            elif child.identity == GROUP and not child.is_cut:
                items += self._group(child, start)
            elif child.is_cut or child.identity not in IN_CLUSTER:
                items += self._undivided(child, start)
            else:
                items.append(Item(child.place, child.end, Content.PADDING if child.identity == VOID else Content.FRAMING))
        return items

    # ---- what the copies have

    def _copies(self) -> list[Copy]:
        return [self.aligned.copies[number] for number in self.aligned.numbers]

    def _has_footers(self, payload: int, end: int) -> bool:
        return any(own_checks.is_frame(copy, payload, end) for copy in self._copies())

    def _is_frame(self, aligned: AlignedCopies, child: elements.Child) -> bool | None:
        """Reports whether footers lead through the payload of a block of an FFV1 track in some copy."""
        heads = [(copy, read_block_head(copy.read(child.content, LONGEST_BLOCK_HEAD), child.content))
                 for number in aligned.numbers for copy in [aligned.copies[number]] if child.identity == SIMPLE_BLOCK]
        of_frames = [(copy, head.payload) for copy, head in heads if head and head.track in self.ffv1]
        return any(own_checks.is_frame(copy, payload, child.end) for copy, payload in of_frames) if of_frames else None

    def _versions(self, place: int, size: int) -> list[tuple[bool, bytes]]:
        """Returns what the copies have at a place, each with whether it is in doubt: it is not what more than half of them have."""
        pieces = [self.aligned.peek(number, place, size) for number in self.aligned.reaching(place + size - 1)]
        if len(pieces) < 2 or pieces.count(pieces[0]) == len(pieces):
            return [(False, piece) for piece in pieces[:1]]
        self._doubtful = True
        return [(2 * count <= len(pieces), piece) for piece, count in collections.Counter(pieces).most_common()]

    # ---- times

    def _seconds(self, time: int) -> float:
        return time * self.scale / NANOSECONDS

    def _start(self, child: elements.Child) -> int | None:
        """Returns a cluster's time: that of most copies, or the one next to what is expected."""
        frames = [self._expected[number] for number in self.ffv1 if number in self._expected]
        expected = min(frames or self._expected.values(), default=0.0)
        times = [(is_doubtful, ebml.number(version))
                 for is_doubtful, version in self._versions(child.content, min(child.end - child.content, 8))]
        return min(times, key=lambda each: (each[0], abs(self._seconds(each[1]) - expected)), default=(True, None))[1]

    def _time(self, head: BlockHead, start: int | None) -> float:
        """Returns the time of a block, and keeps when the next one of its track is expected: after the time from a frame to the next, or
        as long after this one as this came after the one before. Where the cluster's time is lost, the block comes when it is expected."""
        time = self._expected.get(head.track, 0.0) if start is None else self._seconds(start + head.time)
        step = self.steps.get(head.track, time - self._last.get(head.track, time))
        self._last[head.track], self._expected[head.track] = time, round(time + step, DIGITS)
        return time

    # ---- blocks

    def _heads(self, place: int, size: int, end: int, start: int | None) -> list[BlockHead]:
        """Returns the heads that the copies have of a block which ends at a place, the likeliest first: that of a known track, which is of
        FFV1 if footers lead through its payload, without lacing, that most copies have, of a time next to what is expected."""
        heads = [(is_doubtful, head) for is_doubtful, version in self._versions(place, size)
                 for head in (read_block_head(version, place),) if head]
        is_frame = {head.payload: self._has_footers(head.payload, end) for _, head in heads} if len(heads) > 1 else {}

        def doubt(each: tuple[bool, BlockHead]) -> tuple[bool, bool, int, bool, float]:
            is_doubtful, head = each
            is_odd, time = is_frame[head.payload] and head.track not in self.ffv1, self._seconds((start or 0) + head.time)
            return head.track not in self.tracks, is_odd, head.flags & LACING, is_doubtful, abs(time - self._expected.get(head.track, 0.0))

        return [head for _, head in (sorted(heads, key=doubt) if is_frame else heads)]

    def _head(self, child: elements.Child, start: int | None) -> BlockHead | None:
        """The likeliest head of a block: of an FFV1 frame where footers lead through its payload, though of no track, or laced."""
        size = child.end - child.content
        found = (self._heads(child.content, min(size, most), child.end, start) for most in (SHORT_BLOCK_HEAD, LONGEST_BLOCK_HEAD))
        head = next((heads[0] for heads in found if heads), None)
        is_odd = head and (head.track not in self.tracks or head.track in self.ffv1 and head.flags & LACING)
        if head is None or not self.ffv1 or not is_odd or not self._has_footers(head.payload, child.end):
            return head
        return head._replace(track=head.track if head.track in self.ffv1 else self._next(), flags=head.flags & ~LACING)

    def _next(self) -> int:
        """The FFV1 track of which a frame is expected first."""
        return min(self.ffv1, key=lambda each: self._expected.get(each, 0.0))

    def _block(self, child: elements.Child, start: int | None, key: bool | None = None) -> list[Item]:
        """The items of a block: head and payload, in one if copies agree and it has no frame. In a group `key` says if it is a keyframe."""
        head = self._head(child, start)
        if head is None or child.is_cut:
            return [Item(child.place, child.end, Content.UNKNOWN, is_gap=child.is_cut)]
        time, track = self._time(head, start), self.tracks.get(head.track)
        has_frames = track is not None and (track.is_ffv1 or track.is_flac)
        if not has_frames and len(child.vouched) >= len(self.aligned.reaching(child.content - 1)):
            self._note_sound(head, child.end, time)
            return [Item(child.place, child.end, track.content if track else Content.UNKNOWN, head.track, time)]
        payload = self._payload(head, child.end, time, bool(head.flags & KEY) if key is None else key)
        return [*framing(child, head.track, time), Item(child.content, head.payload, Content.FRAMING, head.track, time),
                *([payload] if head.payload < child.end else [])]

    def _undivided(self, child: elements.Child, start: int | None) -> list[Item]:
        """Returns the items of bytes that no copy divides, or of an element of an unknown ID. Where footers lead from their end to where a
        block's payload would begin, they are a frame but for the block's head."""
        first, last = child.place + 2 + BLOCK_FIELDS, child.place + 9 + BLOCK_FIELDS
        payload = own_checks.first_within(self._copies(), first, last, child.end) if self.ffv1 and not child.is_cut else None
        if payload is None:
            return [Item(child.place, child.end, Content.UNKNOWN, is_gap=True)]
        named = [head.track for head in self._heads(payload - BLOCK_FIELDS, BLOCK_FIELDS, child.end, start) if head.track in self.ffv1]
        head = BlockHead(named[0] if named else self._next(), 0, KEY, payload)
        time = self._time(head, None)
        return [Item(child.place, payload, Content.FRAMING, head.track, time, is_gap=True), self._payload(head, child.end, time, True)]

    def _note_sound(self, head: BlockHead, end: int, time: float) -> None:
        if head.track in self.tracks and self.tracks[head.track].content is Content.SOUND:
            self.sound.append((head.track, time, head.payload, end - head.payload))

    def _payload(self, head: BlockHead, end: int, time: float, key: bool) -> Item:
        self._note_sound(head, end, time)
        track, is_laced = self.tracks.get(head.track), bool(head.flags & LACING)
        if track and track.is_ffv1 and not is_laced:
            frame = Frame(head.track, time, head.payload, end - head.payload, key)
            return Item(head.payload, end, Content.FRAME, head.track, time, frame=frame)
        is_flac = bool(track and track.is_flac and not is_laced)
        return Item(head.payload, end, track.content if track else Content.UNKNOWN, head.track, time, is_flac=is_flac)

    def _group(self, child: elements.Child, start: int | None) -> Iterator[Item]:
        """Yields the items of a BlockGroup."""
        yield from framing(child)
        children = elements.divide(self.aligned, child.content, child.end, elements.Schema(IN_GROUP, longest=NUMBERS), self.budget)
        key = all(each.identity != REFERENCE for each in children)
        lengths = [ebml.number(version) for each in children if each.identity == DURATION
                   for _, version in self._versions(each.content, min(each.end - each.content, 8))[:1]]
        for each in children:
            if each.identity == BLOCK:
                yield from (item._replace(lasts=self._seconds(lengths[0]) if lengths else 0.0) for item in self._block(each, start, key))
            else:
                yield Item(each.place, each.end, Content.FRAMING, is_gap=each.identity == elements.UNDIVIDED)
