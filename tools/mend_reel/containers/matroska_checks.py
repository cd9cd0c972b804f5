"""What a Matroska file says of itself beside its frames: whether its parts hang together, and where its tables lead (RFC 9559)."""
from __future__ import annotations

import itertools
from collections.abc import Iterator

from ..model import Content, Copy, Kind, Layout
from . import ebml
from .clusters import LONGEST_BLOCK_HEAD, read_block_head
from .structure import Flaw, Found

MASTERS = frozenset({0x1654AE6B, 0x1549A966, 0x1C53BB6B, 0x1254C367, 0x114D9B74, 0x1941A469, 0x1043A770, 0xAE, 0xE0, 0xE1, 0x6D80,
                     0x6240, 0xBB, 0xB7, 0x7373, 0x63C0, 0x67C8, 0x4DBB, 0x61A7, 0x45B9, 0xB6, 0x1A45DFA3})
TEXTS = frozenset({0x45A3, 0x4487, 0x447A, 0x447B, 0x63CA, 0x467E, 0x466E, 0x4660, 0x437C, 0x437D, 0x5654, 0x7BA9, 0x4D80, 0x5741,
                   0x536E, 0x86, 0x258688, 0x22B59C, 0x22B59D})
CHAPTER_DISPLAY, ANY_ID, MOST_DEPTH, MOST_MASTER = 0x80, b"\xec", 16, 1 << 24
OF_MASTERS = frozenset({Content.HEADER, Content.SEEK_HEAD, Content.INFORMATION, Content.TRACKS, Content.INDEX, Content.ATTACHMENTS, Content.CHAPTERS,
                        Content.TAGS})
CLUSTER, TIMESTAMP, GROUP, BLOCKS = 0x1F43B675, 0xE7, 0xA0, (0xA3, 0xA1)
SEEK, SEEK_ID, SEEK_PLACE = 0x4DBB, 0x53AB, 0x53AC
POINT, POINT_TIME, POINT_PLACES, POINT_TRACK, POINT_CLUSTER, POINT_BLOCK = 0xBB, 0xB3, 0xB7, 0xF7, 0xF1, 0xF0
# Where a cluster's time is looked for: after its head, and a CRC-32 at most.
FRONT = 76
LONGEST_HEADS = 2 * ebml.LONGEST_HEAD + LONGEST_BLOCK_HEAD


def flaws(copy: Copy, layout: Layout) -> Iterator[Found]:
    """Yields where the elements of a file, which a layout describes, lead nowhere within top-level ones, which of these have no CRC-32, where
    tables lead to something else, and what lies after the file's end. A last sector that is shorter than others may be lost within a text:
    nothing else shows it."""
    for content, stretches in itertools.groupby(layout.stretches, key=lambda stretch: stretch.what.content):
        pieces = list(stretches) if content in OF_MASTERS else []
        start, end = (pieces[0].start, pieces[-1].end) if pieces else (0, 0)
        data = copy.read(start, end - start) if end - start <= MOST_MASTER else b""
        if data and not divides(data):
            yield Found(Flaw.BROKEN, start, end)
        elif data and pieces[-1].kind is Kind.PLAIN and end == layout.size and has_lost_text(data):
            yield Found(Flaw.ZEROS, start, end)
        elif layout.gaps:
            # What leads to bytes that nothing divides is no damage of its own.
            continue
        elif content is Content.SEEK_HEAD and not all(leads_to(copy, layout.origin, seek) for seek in fields_of(data, SEEK)):
            yield Found(Flaw.INDEX, start, end)
        elif content is Content.INDEX and not all(leads_to_block(copy, layout.origin, point) for point in fields_of(data, POINT)):
            yield Found(Flaw.INDEX, start, end)
    yield from (Found(Flaw.BARE, *each) for each in layout.bare)
    if layout.end is not None and layout.end < copy.size:
        yield Found(Flaw.AFTER_END, layout.end, copy.size)


def fields_of(data: bytes, identity: int) -> Iterator[bytes]:
    return (content for each, content in ebml.children(data) if each == identity)


def leads_to(copy: Copy, origin: int, seek: bytes) -> bool:
    """Whether an entry of the table of contents leads to an element with its ID."""
    fields = ebml.Fields(seek)
    identity = fields.get(SEEK_ID, b"")
    return bool(identity) and copy.read(origin + fields.number(SEEK_PLACE), len(identity)) == identity


def leads_to_block(copy: Copy, origin: int, point: bytes) -> bool:
    """Whether each place of an entry of the index leads to a cluster, and to a block of its track and time in it if it names one."""
    fields = list(ebml.children(point))
    time = next((ebml.number(content) for identity, content in reversed(fields) if identity == POINT_TIME), 0)
    return all(is_block(copy, origin, ebml.Fields(content), time) for identity, content in fields if identity == POINT_PLACES)


def is_block(copy: Copy, origin: int, places: ebml.Fields, time: int) -> bool:
    place = origin + places.number(POINT_CLUSTER)
    data = copy.read(place, FRONT)
    cluster = ebml.read_head(data, 0, place)
    if cluster is None or cluster.identity != CLUSTER:
        return False
    start = next((ebml.number(content) for identity, content in ebml.children(data[cluster.content - place :]) if identity == TIMESTAMP), None)
    if POINT_BLOCK not in places or start is None:
        return start is None or start <= time
    place = cluster.content + places.number(POINT_BLOCK)
    data = copy.read(place, LONGEST_HEADS)
    head = ebml.read_head(data, 0, place)
    if head and head.identity == GROUP:
        head = ebml.read_head(data, head.content - place, head.content)
    block = read_block_head(data[head.content - place :], head.content) if head and head.identity in BLOCKS else None
    return block is not None and block.track == places.number(POINT_TRACK) and start + block.time == time


def has_lost_text(content: bytes, depth: int = 0) -> bool:
    """Whether a text in the content of a master, or in the masters in it, has a zero byte, as where a sector is lost."""
    return any(0 in value if identity in TEXTS else identity in MASTERS and depth < MOST_DEPTH and has_lost_text(value, depth + 1)
               for identity, value in ebml.children(content))


def divides(content: bytes, depth: int = 0) -> bool:
    """Whether elements cover a master's content, and that of masters in it. The ID of a chapter's display has no data bits."""
    at = 0
    while at < len(content):
        is_display = content[at] == CHAPTER_DISPLAY
        start = content[at : at + ebml.LONGEST_HEAD]
        head = ebml.read_head(ANY_ID + start[1:] if is_display else start, 0, at)
        if head is None or head.end is None or head.end > len(content):
            return False
        is_master = is_display or head.identity in MASTERS
        if is_master and depth < MOST_DEPTH and not divides(content[head.content : head.end], depth + 1):
            return False
        at = head.end
    return True
