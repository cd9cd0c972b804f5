"""What lies where in a Matroska or WebM file, read from all copies of it at once (RFC 9559)."""
from __future__ import annotations

import dataclasses
import itertools
from collections.abc import Iterable, Iterator, Sequence

from ..model import MATROSKA, MOST_STRETCH, Claims, Content, Copy, Kind, Layout, Packet, Track, What
from . import clusters, ebml, elements, metadata, own_checks
from .elements import NONE, WINDOW, AlignedCopies, Budget, Numbers
from .matroska_checks import MOST_MASTER
from .stretch_builder import Stretches
from .structure import Container

EBML, SEGMENT, CLUSTER = 0x1A45DFA3, 0x18538067, 0x1F43B675
CONTENTS = {EBML: Content.HEADER, 0x114D9B74: Content.SEEK_HEAD, metadata.INFORMATION: Content.INFORMATION, metadata.TRACKS: Content.TRACKS,
            metadata.CUES: Content.INDEX, CLUSTER: Content.CLUSTER, 0x1941A469: Content.ATTACHMENTS, 0x1043A770: Content.CHAPTERS,
            metadata.TAGS: Content.TAGS, clusters.VOID: Content.PADDING}
STRONG = frozenset(CONTENTS) - {clusters.VOID} | {SEGMENT}
SIGNS = [identity.to_bytes(4, "big") for identity in sorted(STRONG)]
PASSES_OVER_THE_FILE = 4
FIRST_BYTES = 1 << 20
CLUSTERS_TO_GUESS_BY = 16
DOCUMENT_TYPE, DOCUMENT_TYPES = 0x4282, ("matroska", "webm")
IN_HEADER = frozenset({0x4286, 0x42F7, 0x42F2, 0x42F3, DOCUMENT_TYPE, 0x4287, 0x4285, 0x4281, clusters.VOID, clusters.CRC})
# What the children of top-schema elements are: an element whose head no copy has is known by them.
CHILDREN = {identity: known | {clusters.CRC, clusters.VOID} for identity, known in (
    (EBML, IN_HEADER), (CLUSTER, clusters.IN_CLUSTER), (metadata.TRACKS, {metadata.TRACK}), (metadata.CUES, {metadata.POINT}),
    (metadata.TAGS, {metadata.TAG}), (0x114D9B74, {0x4DBB}), (0x1941A469, {0x61A7}), (0x1043A770, {0x45B9}),
    (metadata.INFORMATION, {metadata.SCALE, metadata.DURATION, 0x73A4, 0x7384, 0x3CB923, 0x3C83AB, 0x3EB923, 0x3E83BB, 0x4444, 0x6924,
                            0x4461, 0x7BA9, 0x4D80, 0x5741}))}


def signs(piece: bytes) -> Iterator[int]:
    """Yields the offsets at which a top-schema ID stands."""
    for sign in SIGNS:
        at = piece.find(sign)
        while at >= 0:
            yield at
            at = piece.find(sign, at + 1)


def is_divided(aligned: AlignedCopies, child: elements.Child) -> bool | None:
    """Reports whether the children that a top-schema element may have cover it in some copy."""
    known = CHILDREN.get(child.identity)
    return None if known is None else elements.divides(aligned, child.content, child.end, known)


TOP = elements.Schema(STRONG | {clusters.VOID, clusters.CRC}, STRONG, frozenset({SEGMENT}), frozenset({SEGMENT, CLUSTER}),
                      clusters.IN_CLUSTER, signs, confirms=is_divided)


class Matroska(Container):
    name, endings = MATROSKA, frozenset({".mkv", ".webm", ".mka"})

    def begins(self, head: bytes) -> bool:
        return head[:4] == EBML.to_bytes(4, "big")


def has_elements(copies: Sequence[Copy]) -> bool:
    """Whether copies of which no start can be read are Matroska files: they have top-level elements near their start."""
    end = min(max((copy.size for copy in copies), default=0), FIRST_BYTES)
    children = elements.divide(AlignedCopies(copies), 0, end, TOP, Budget(end), is_cut=True)
    return sum(child.identity in STRONG and bool(child.vouched) for child in children) > 1


class MatroskaReader:
    """Reads a file over all its copies."""

    def __init__(self, copies: Sequence[Copy]) -> None:
        self.copies, self.aligned = copies, AlignedCopies(copies)
        self.budget = Budget(PASSES_OVER_THE_FILE * sum(copy.size for copy in copies))
        self.stretches = Stretches(copies)
        self.gaps: list[tuple[int, int]] = []
        top = elements.divide(self.aligned, 0, self.aligned.end, TOP, self.budget, is_cut=True)
        self.top = [self._without_head(child) or child for child in top]
        contents: dict[int, bytes] = {}
        for child in (child for child in self.top if child.identity in metadata.READ):
            contents[child.identity] = contents.get(child.identity, b"") + self._content(child)
        self.metadata = metadata.read(contents)
        # The clusters are read in a pass of their own.
        self.clusters = clusters.Clusters(AlignedCopies(copies), self.metadata, self.budget)
        if not self.clusters.ffv1:
            tracks = {**self.metadata.by_number(), **{track.number: track for track in self._guessed_tracks()}}
            self.metadata = dataclasses.replace(self.metadata, tracks=list(tracks.values()))
            self.clusters = clusters.Clusters(AlignedCopies(copies), self.metadata, self.budget)

    def layout(self) -> Layout:
        segment = next((child for child in self.top if child.identity == SEGMENT), None)
        claimed_end, sized = self._read_end(segment) if segment else (None, NONE)
        strong = [child for child in self.top if child.identity in STRONG]
        # OUT ends where the Segment does, if nothing of it goes on, or else with the longest copy.
        size = self.aligned.end
        if claimed_end is not None and not self._goes_on(strong, claimed_end):
            size = min(size, claimed_end)
        live: list[elements.Child] = []
        for child in self.top:
            if child.identity in STRONG or child.identity == elements.UNDIVIDED:
                self._add_live(live)
                live = []
            if live or child.identity == CLUSTER and child.content == child.end:
                live.append(child)
            elif child is segment:
                self._add_head(child._replace(sized=sized))
            elif child.place < size:
                self._add(child, claimed_end)
        self._add_live(live)
        if claimed_end is not None and claimed_end > size:
            self.gaps.append((size, claimed_end - size))
        if segment and claimed_end is not None and any(child.place < claimed_end < child.end for child in strong):
            self.gaps.insert(0, (segment.place, segment.content - segment.place))
        return Layout(size, list(self.metadata.tracks), self.stretches.frames, self.stretches.made, self.metadata.claims, self.gaps,
                      rises=True, end=claimed_end, bare=list(self._bare()), sound=self._sound(), origin=segment.content if segment else 0)

    # ---- the file as a whole

    def _sound(self) -> list[Packet]:
        """The blocks of sound. What was read twice counts once."""
        order = [track.number for track in self.metadata.tracks if track.content is Content.SOUND]
        found = {place: Packet(order.index(track), time, place, size) for track, time, place, size in self.clusters.sound}
        return [found[place] for place in sorted(found)]

    def _goes_on(self, strong: Sequence[elements.Child], end: int) -> bool:
        """Whether an element lies over a place, or after it: but for another file that was joined to this one."""
        after = next((child for child in strong if child.end > end), None)
        return after is not None and (after.place < end or after.identity != EBML)

    def _bare(self) -> Iterator[tuple[int, int]]:
        """Yields where elements lie that have no CRC-32, though others of the same ID have one, or most others and it may have lost its own."""
        kinds = [(child, self._has_crc(child)) for child in self.top
                 if child.identity in STRONG - {EBML, SEGMENT} and child.content < child.end and not child.is_cut]
        mostly, checked = 2 * sum(has_crc for _, has_crc in kinds) > len(kinds), {child.identity for child, has_crc in kinds if has_crc}
        for child, has_crc in kinds:
            is_odd = child.identity in checked or mostly and self._may_lack_crc(child)
            if not has_crc and is_odd and child.end - child.content <= MOST_STRETCH:
                yield child.place, child.end

    def _read_end(self, segment: elements.Child) -> tuple[int | None, Numbers]:
        """Returns where the Segment ends by its head, and the copies that are right: where its last element ends or a copy does, or what
        most of them have, though nothing vouches for that. None is the unknown size."""
        ends: dict[int | None, set[int]] = {}
        for number in segment.identified:
            size = ebml.read_size(self.aligned.peek(number, segment.place + 4, 8), 0)
            if size and segment.place + 4 + size[1] == segment.content:
                ends.setdefault(None if size[0] is None else segment.content + size[0], set()).add(number)
        again = [child.place for child in self.top if child.identity == EBML and child.place > segment.place][:1]
        sure = {max((child.end for child in self.top if child.identity != elements.UNDIVIDED), default=0), *again}
        sizes = {copy.size for copy in self.copies}
        end = max(ends, key=lambda each: (each in again, each in sure, each in sizes, len(ends[each])), default=None)
        end = again[0] if end is None and again else end
        return end, frozenset(ends.get(end, ())) if end in sure | sizes else NONE

    def _without_head(self, child: elements.Child) -> elements.Child | None:
        """The element that undivided bytes are but for its head, or what one of an unknown ID is, if its children cover all the rest."""
        if child.identity in TOP.known or not self.aligned.steps.take(child.place, elements.CAREFUL_STEPS):
            return None
        heads = [self.aligned.peek(number, child.place, 4) for number in self.aligned.numbers]
        named = [identity for identity in CHILDREN if identity.to_bytes(4, "big") in heads] or list(CHILDREN)
        first, last = (child.place + 5, child.place + 13) if child.identity == elements.UNDIVIDED else (child.content, child.content + 1)
        for content, identity in itertools.product(range(first, min(last, child.end)), named):
            if elements.divides(self.aligned, content, child.end, CHILDREN[identity]):
                return elements.Child(identity, child.place, content, child.end, is_headless=True)
        return None

    def _guessed_tracks(self) -> list[Track]:
        """The tracks whose blocks are FFV1 frames by the footers or the sizes of slices, for files whose own description is lost."""
        found: set[int] = set()
        described = {track.number for track in self.metadata.tracks if track.codec}
        for child in [child for child in self.top if child.identity == CLUSTER][:CLUSTERS_TO_GUESS_BY]:
            for number, start, end in self.clusters.payloads(child.content, child.end):
                if number not in described | found and any(own_checks.is_frame(copy, start, end) or own_checks.has_only_sizes(
                        copy.read(start, end - start)) for copy in self.copies):
                    found.add(number)
        return [Track(number, Content.VIDEO, "V_FFV1", is_ffv1=True) for number in sorted(found)]

    def _content(self, child: elements.Child) -> bytes:
        """The content of an element in the copy that passes its CRC-32, or that divides, names most FFV1 tracks, and is as most have it."""
        size = min(child.end - child.content, MOST_MASTER)
        passing = self.budget.passing(self.aligned, child.content, child.end)
        contents = [self.copies[number].read(child.content, size) for number in sorted(passing)[:1] or self.aligned.numbers]

        def worth(content: bytes) -> tuple[bool, int, int, bytes]:
            tracks = metadata.read({child.identity: content}).tracks if child.identity == metadata.TRACKS else ()
            is_divided = len(content) == size and ebml.divides(content)
            return is_divided, sum(track.is_ffv1 for track in tracks), contents.count(content), content

        return max(contents, key=worth) if len(contents) > 1 else contents[0]

    # ---- its elements

    def _add_head(self, child: elements.Child) -> None:
        for item in clusters.framing(child):
            self.stretches.plain(item.start, item.end, What(Content.FRAMING), item.vouched, joins=False)

    def _add(self, child: elements.Child, claimed_end: int | None) -> None:
        """Adds a top-schema element, or bytes that no copy divides: after the Segment's end they are no gap."""
        if child.identity == elements.UNDIVIDED:
            is_after = claimed_end is not None and child.place >= claimed_end
            unknown = [clusters.Item(child.place, child.end, Content.UNKNOWN)]
            self._add_items(unknown if is_after else self.clusters.read(child.place, child.end))
            return
        self.gaps += [(child.place, child.content - child.place)] if child.is_headless else []
        self._add_head(child)
        what, has_crc = What(CONTENTS.get(child.identity, Content.UNKNOWN)), self._has_crc(child)
        if child.identity == CLUSTER:
            self._add_cluster(child, has_crc)
        elif has_crc:
            self.stretches.add(Kind.ELEMENT, child.content, child.end, what)
        elif child.content < child.end:
            self._add_plain(child, what)

    def _add_plain(self, child: elements.Child, what: What) -> None:
        """Adds an element without a CRC-32, and the Configuration Records in it."""
        vouched, place = self._sound_headers(child) if child.identity == EBML else NONE, child.content
        described = self._content(child) if child.identity == metadata.TRACKS else b""
        for start, end in own_checks.records_in(described, child.content, self.metadata.tracks):
            if place <= start:
                self.stretches.plain(place, start, what, vouched)
                self.stretches.add(Kind.RECORD, start, end, what)
                place = end
        self.stretches.plain(place, child.end, what, vouched)

    def _has_crc(self, child: elements.Child) -> bool:
        """Reports whether an element's content begins with a CRC-32 in some copy."""
        return not child.is_cut and ebml.CRC_SIZE < child.end - child.content <= MOST_STRETCH and any(
            self.aligned.peek(number, child.content, 2) == ebml.CRC_HEAD for number in self.aligned.numbers)

    def _may_lack_crc(self, child: elements.Child) -> bool:
        """Whether an element begins with what may be left of a CRC-32 in some copy: its ID, or four bytes by another ID of one byte. One that an
        editor added without a CRC-32 begins with a part of its own."""
        heads = [self.aligned.peek(number, child.content, 2) for number in self.aligned.numbers]
        return any(head[:1] == ebml.CRC_HEAD[:1] or head[:1] >= b"\x80" and head[1:] == ebml.CRC_HEAD[1:] for head in heads)

    def _sound_headers(self, child: elements.Child) -> Numbers:
        """Returns the copies whose EBML header has known children alone, and a document type that is known."""
        sound, size = set(), min(child.end - child.content, WINDOW)
        for number in self.aligned.numbers:
            data = self.copies[number].read(child.content, size)
            fields = ebml.Fields(data)
            if ebml.divides(data) and IN_HEADER.issuperset(fields) and fields.text(DOCUMENT_TYPE) in DOCUMENT_TYPES:
                sound.add(number)
        return frozenset(sound)

    def _add_cluster(self, child: elements.Child, has_crc: bool) -> None:
        items = self.clusters.read(child.content, child.end, child.is_cut)
        if not has_crc:
            self._add_items(items)
            return
        timed = [item for item in items if item.time is not None]
        what = What(Content.CLUSTER, None, min((item.time for item in timed), default=None), max(map(self._end, timed), default=None))
        self.stretches.add(Kind.ELEMENT, child.content, child.end, what, [item.frame for item in items if item.frame],
                           [(item.start, item.end - item.start) for item in items if item.is_flac])

    def _end(self, item: clusters.Item) -> float:
        track = self.clusters.tracks.get(item.track or 0)
        by_size = (item.end - item.start) / (track and track.byte_rate or float("inf"))
        lasts = item.lasts or self.clusters.steps.get(item.track or 0) or by_size
        return round((item.time or 0.0) + lasts, clusters.DIGITS)

    def _add_live(self, live: Sequence[elements.Child]) -> None:
        """Adds an element of unknown size: its head, and its children."""
        if live:
            self._add_head(live[0])
            self._add_items(self.clusters.items(live[1:]))

    def _add_items(self, items: Iterable[clusters.Item]) -> None:
        """Adds what no CRC-32 of an element covers."""
        for item in items:
            what = What(item.content, item.track, item.time, None if item.time is None else self._end(item))
            self.gaps += [(item.start, item.end - item.start)] if item.is_gap else []
            if item.frame or item.is_flac:
                self.stretches.add(Kind.FRAME if item.frame else Kind.FLAC, item.start, item.end, what, (item.frame,) if item.frame else ())
            else:
                self.stretches.plain(item.start, item.end, what, item.vouched)


def layout(copies: Sequence[Copy]) -> Layout:
    """What lies where in a file, from copies of it: they have the same bytes at the same places but for damage, and may end early."""
    return MatroskaReader(copies).layout()


def claims(copies: Sequence[Copy], layout: Layout) -> Iterator[Claims]:
    """Yields what each copy of the file that a layout describes claims of the recording."""
    identities = {content: identity for identity, content in CONTENTS.items() if identity in metadata.READ}
    described = [stretch for stretch in layout.stretches if stretch.what.content in identities]
    known: dict[tuple[tuple[int, bytes], ...], Claims] = {}
    for number, copy in enumerate(copies):
        contents: dict[int, bytes] = {}
        for stretch, place in ((stretch, stretch.places[number]) for stretch in described):
            if place is not None:
                identity = identities[stretch.what.content]
                contents[identity] = contents.get(identity, b"") + copy.read(place, min(stretch.size, MOST_MASTER))
        key = tuple(sorted(contents.items()))
        if key not in known:
            known[key] = metadata.read(contents).claims
        yield known[key]
