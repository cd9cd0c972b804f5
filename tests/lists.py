#!/usr/bin/env python3
"""The list of an undamaged Matroska file for `mend`: its stretches, one after the other, so that they cover the file.

    tests/lists.py FILE LENGTH...

Prints the list for copies of FILE of these lengths, which have what FILE has in the same places; a copy that ends before a stretch
does lacks it. Each stretch is taken from the first copy that has it.

The content of each element of the Segment that begins with a CRC-32 is a stretch of its own, whose parts are the frames of the FFV1
track; where sound is asked for, those of a FLAC track too. The EBML header, the ID and the size of each element, and what has no CRC-32 have no checksum.
"""
import pathlib
import sys

SEGMENT, CLUSTER, TRACKS, TRACK, NUMBER = 0x18538067, 0x1F43B675, 0x1654AE6B, 0xAE, 0xD7
SIMPLE_BLOCK, BLOCK_GROUP, BLOCK = 0xA3, 0xA0, 0xA1
CRC = b"\xbf\x84"


def number_at(content, place, marked):
    """A number of a variable length, with its marking bit or without, and the place after it (RFC 8794, section 4)."""
    length = 9 - content[place].bit_length()
    number = int.from_bytes(content[place : place + length], "big")
    return number if marked else number - (1 << 7 * length), place + length


def elements(content, start, end):
    """The elements of a range: the ID of each, where it starts, and where its content starts and ends."""
    while start < end:
        identity, place = number_at(content, start, True)
        size, place = number_at(content, place, False)
        yield identity, start, place, place + size
        start = place + size


def tracks_of(content, start, end, names):
    """The numbers of the tracks of a Tracks element whose CodecID, or CodecPrivate for Windows, has one of these names, and the words of a part
    of each."""
    found = {}
    for identity, _, first, last in elements(content, start, end):
        for name, words in names.items():
            if identity == TRACK and name in content[first:last]:
                place, after = next((place, after) for which, _, place, after in elements(content, first, last) if which == NUMBER)
                found[int.from_bytes(content[place:after], "big")] = words
    return found


def frames(content, start, end, tracks):
    """The frames of some tracks in a cluster, or in a group of blocks: where each starts and ends, and its words. A block has a frame alone:
    no lacing."""
    for identity, _, first, last in elements(content, start, end):
        if identity == BLOCK_GROUP:
            yield from frames(content, first, last, tracks)
        elif identity in (SIMPLE_BLOCK, BLOCK):
            number, place = number_at(content, first, False)
            if number in tracks:
                yield place + 3, last, tracks[number]


def stretches(content, with_sound=False):
    """The stretches of a file: the kind, the place, the size and the parts of each, the parts by their offsets, sizes and words."""
    (_, _, _, header), (identity, _, first, end) = elements(content, 0, len(content))
    assert identity == SEGMENT and end == len(content)
    yield from (("plain", 0, header, []), ("plain", header, first - header, []))
    tracks, names = {}, {b"FFV1": (), **({b"A_FLAC": ("flac",)} if with_sound else {})}
    for identity, start, place, after in elements(content, first, end):
        if identity == TRACKS:
            tracks = tracks_of(content, place, after, names)
        if content[place : place + 2] == CRC:
            parts = frames(content, place, after, tracks) if identity == CLUSTER else ()
            yield "plain", start, place - start, []
            yield "crc32", place, after - place, [(begin - place, stop - begin, *words) for begin, stop, words in parts]
        else:
            yield "plain", start, after - start, []


def list_text(content, lengths, with_sound=False):
    """The list of a file for copies of these lengths."""
    lines = []
    for kind, place, size, parts in stretches(content, with_sound):
        has = [place + size <= length for length in lengths]
        places = " ".join(str(place) if there else "-" for there in has)
        lines.append(f"{kind} {size} {1 + has.index(True)} {places}\n")
        lines += (" ".join(["part", *map(str, part)]) + "\n" for part in parts)
    return "".join(lines)


if __name__ == "__main__":
    if len(sys.argv) < 3:
        sys.exit("usage: tests/lists.py FILE LENGTH...")
    print(list_text(pathlib.Path(sys.argv[1]).read_bytes(), list(map(int, sys.argv[2:]))), end="")
