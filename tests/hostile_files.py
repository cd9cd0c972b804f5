"""Matroska files that are made to cost time or memory: sizes that lie, elements and tracks without number, the longest blocks."""
import check_reading
import readings

GREATEST = (1 << 56) - 2
EBML, SEGMENT, TRACKS, CLUSTER = (name.to_bytes(4, "big") for name in (0x1A45DFA3, 0x18538067, 0x1654AE6B, 0x1F43B675))
UNKNOWN = b"\x01" + b"\xff" * 7
BLOCK_HEAD = b"\x81\x00\x00\x00"
# A void of two bytes.
VOID = b"\xec\x80"


def element(name, content, size=None):
    """An element; its size is written in eight bytes."""
    return bytes(name) + ((len(content) if size is None else size) | 1 << 56).to_bytes(8, "big") + content


HEAD = element(EBML, element(b"\x42\x82", b"matroska"))


def entry(number, codec=b"V_X", more=b""):
    """A TrackEntry."""
    width = max((number.bit_length() + 7) // 8, 1)
    return element(b"\xae", element(b"\xd7", number.to_bytes(width, "big")) + element(b"\x83", b"\x01") + element(b"\x86", codec) + more)


def ffv1_entry(record, size):
    video = element(b"\xe0", element(b"\xb0", bytes([size])) + element(b"\xba", bytes([size])))
    return entry(1, b"V_FFV1", element(b"\x63\xa2", record) + video)


def film(*parts):
    """A file of one Segment."""
    return HEAD + element(SEGMENT, b"".join(parts))


def cluster(*blocks):
    return element(CLUSTER, element(b"\xe7", b"\x00") + b"".join(element(b"\xa3", BLOCK_HEAD + block) for block in blocks))


def tracks_of(size):
    """A Tracks whose content has so many bytes: one track, and voids."""
    own = entry(1)
    rest = size - len(own)
    return element(TRACKS, own + element(b"\xec", bytes(rest - 9)))


def lying():
    """Files whose sizes lie."""
    yield "a Segment of the greatest size", HEAD + element(SEGMENT, b"", GREATEST)
    yield "a Cluster of the greatest size", film(element(TRACKS, entry(1)), element(CLUSTER, bytes(100), GREATEST))
    yield "a Tracks of the greatest size", film(element(TRACKS, entry(1), GREATEST))
    yield "a block of the greatest size", film(element(TRACKS, entry(1)), element(CLUSTER, element(b"\xa3", BLOCK_HEAD, GREATEST)))
    yield "Segments of unknown size in each other", HEAD + (SEGMENT + UNKNOWN) * 20000
    yield "Clusters of unknown size in each other", film(element(TRACKS, entry(1))) + (CLUSTER + UNKNOWN) * 20000
    yield "heads alone", (EBML + b"\x80") * 20000
    yield "groups in groups", film(element(TRACKS, entry(1)), element(CLUSTER, (b"\xa0" + UNKNOWN) * 20000))
    yield "first bytes of heads", HEAD + b"\x1a\x45\xdf" * 20000


def many():
    """Files of elements and tracks without number, with what is printed of them and the exit status, and how much memory there may be."""
    count = 10_000_000
    content = film(element(TRACKS, entry(1)), VOID * count)
    yield "ten million voids", content, f"track 1 V_X blocks 0 checked 0\nbytes {len(content)} checked 0\nwhole\n", 0
    for more, tracks in ((0, "track 1 V_X blocks 0 checked 0\n"), (1, "")):
        content = film(tracks_of(check_reading.TRACKS_LIMIT + more))
        lines = "" if tracks else f"at {len(content)} no tracks\n"
        yield f"a Tracks of 2^24 bytes and {more}", content, f"{lines}{tracks}bytes {len(content)} checked 0\n{'whole' if tracks else 'not whole'}\n", 0 if tracks else 3
    content = film(element(TRACKS, b"".join(entry(number) for number in range(1, 100001))), cluster(b"frame"))
    lines = "".join(f"track {number} V_X blocks {int(number == 1)} checked 0\n" for number in range(1, 100001))
    yield "100000 tracks", content, f"{lines}bytes {len(content)} checked 0\nnot whole\n", 3


def long_blocks(record, size):
    """Files with one block of the most bytes that are judged, and of one more: what each is, its pieces, what is printed, and the exit status."""
    piece = readings.sliced(bytes((1 << 24) - 8))
    for more in (0, 1):
        payload = check_reading.FRAME_LIMIT + more
        inside = element(b"\xe7", b"\x00") + b"\xa3" + (payload + 4 | 1 << 56).to_bytes(8, "big") + BLOCK_HEAD
        body = element(TRACKS, ffv1_entry(record, size)) + CLUSTER + (len(inside) + payload | 1 << 56).to_bytes(8, "big")
        start = HEAD + SEGMENT + (len(body) + len(inside) + payload | 1 << 56).to_bytes(8, "big") + body
        place, length = len(start) + 10, len(start) + len(inside) + payload
        line = f"at {place} long frame of track 1\n" if more else ""
        checked = len(record) + (0 if more else payload)
        printed = f"{line}track 1 V_FFV1 blocks 1 checked {1 - more}\nbytes {length} checked {checked}\n{'not whole' if more else 'whole'}\n"
        yield f"a frame of 2^30 bytes and {more}", (start + inside, piece, 64, bytes(more)), printed, 3 if more else 0
