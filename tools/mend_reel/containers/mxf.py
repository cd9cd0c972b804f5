"""MXF files: keys, each with the size of what follows it (SMPTE 377-1, 379)."""
from __future__ import annotations

from ..model import Copy
from .structure import Container, Part, Structure, Walk

KEY, HEAD = bytes.fromhex("060e2b34"), 16


class Mxf(Container):
    name, endings = "mxf", frozenset({".mxf"})

    def begins(self, head: bytes) -> bool:
        return head[:4] == KEY

    def read(self, copy: Copy) -> Structure:
        walk = Walk(copy, key)
        for _ in walk.parts(0, copy.size):
            pass
        return walk.made


def key(copy: Copy, place: int, end: int, depth: int) -> Part | None:
    """A key, with the size of what follows it: in one byte, or in so many as the first one says."""
    head = copy.read(place, HEAD + 9)
    first = head[HEAD] if len(head) > HEAD else 0x80
    more = first & 0x7F if first & 0x80 else 0
    size, content = head[HEAD + 1 : HEAD + 1 + more] if more else bytes([first]), place + HEAD + 1 + more
    is_key = head[:4] == KEY and first != 0x80 and more <= 8 and len(size) >= more
    return Part(head[:HEAD], content, content + int.from_bytes(size, "big"), place) if is_key else None
