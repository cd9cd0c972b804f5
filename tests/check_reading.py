"""One Matroska file judged whole by the rules of docs/FORMAT.md, apart from the program: what `check` has to print of it."""
import collections
import re

from readings import Fault, crc_left, is_flac, links, parity, passes, recording_of

TOP = {
    0x1A45DFA3: "EBML",
    0x18538067: "Segment",
    0x114D9B74: "SeekHead",
    0x1549A966: "Info",
    0x1654AE6B: "Tracks",
    0x1C53BB6B: "Cues",
    0x1F43B675: "Cluster",
    0x1941A469: "Attachments",
    0x1043A770: "Chapters",
    0x1254C367: "Tags",
    0xEC: "Void",
}
EBML, SEGMENT, TRACKS, CLUSTER, VOID = 0x1A45DFA3, 0x18538067, 0x1654AE6B, 0x1F43B675, 0xEC
CHILDREN = {
    EBML: "4286 42F7 42F2 42F3 4282 4287 4285 4281",
    0x114D9B74: "4DBB",
    0x1549A966: "73A4 7384 3CB923 3C83AB 3EB923 3E83BB 4444 6924 2AD7B1 4489 4461 7BA9 4D80 5741",
    TRACKS: "AE",
    0x1C53BB6B: "BB",
    CLUSTER: "E7 A7 AB A3 A0 5854",
    0x1941A469: "61A7",
    0x1043A770: "45B9",
    0x1254C367: "7373",
    0xA0: "A1 9B FA FB FD A4 75A1 75A2 8E C8",
}
KNOWN = {master: {int(word, 16) for word in f"{words} EC BF".split()} for master, words in CHILDREN.items()}
AT_AN_ITEM = re.compile(b"|".join(re.escape(name.to_bytes(4, "big")) for name in TOP if name != VOID), re.DOTALL)
TRACKS_LIMIT, FRAME_LIMIT, FLAC_LIMIT = 1 << 24, 1 << 30, 1 << 24
VIDEO = 1

# An element's head: its ID, how long it is itself, and the size of what follows it, or None where that is unknown.
Head = collections.namedtuple("Head", "name length size")
# An element with its head: where its content begins and ends.
Element = collections.namedtuple("Element", "name place start end")


# FORMAT: A file judged whole
def number_at(content, place, longest):
    """A number that says its own length by the zeros before its first one: its length, and its bits with that one."""
    first = content[place] if place < len(content) else 0
    length = 9 - first.bit_length()
    if length > longest or place + length > len(content):
        return None
    return length, int.from_bytes(content[place : place + length], "big")


# FORMAT: A file judged whole
def head_at(content, place):
    name = number_at(content, place, 4)
    size = name and number_at(content, place + name[0], 8)
    if not size:
        return None
    length, bits = size
    data = bits - (1 << 7 * length)
    return Head(name[1], name[0] + length, None if data == (1 << 7 * length) - 1 else data)


# FORMAT: A file judged whole
def children(content, start, end, known=None):
    """What follows each other in a master: its elements, those of these IDs where some are given, and where they end."""
    found = []
    while start < end and (head := head_at(content, start)):
        last = start + head.length + (head.size or 0)
        if head.size is None or last > end or known is not None and head.name not in known:
            break
        found.append(Element(head.name, start, start + head.length, last))
        start = last
    return found, start


# FORMAT: A file judged whole
def item_at(content, place):
    """An element of the top, and whether its size is unknown; the end of bytes that are none."""
    head = head_at(content, place)
    if head and head.name in TOP and (head.size is not None or head.name in (SEGMENT, CLUSTER)):
        start, end = place + head.length, len(content)
        if head.name == SEGMENT:
            end = start
        elif head.size is None:
            end = children(content, start, end, KNOWN[CLUSTER])[1]
        return head, Element(head.name, place, start, min(end, start + head.size) if head.size is not None and head.name != SEGMENT else end)
    later = AT_AN_ITEM.search(content, place + 1)
    return None, Element(None, place, place, later.start() if later else len(content))


# FORMAT: A file judged whole
def items(content):
    place = 0
    while place < len(content):
        head, item = item_at(content, place)
        yield head, item
        place = item.end


# FORMAT: A file judged whole
class Track:
    """A track that a TrackEntry describes."""

    def __init__(self, content, entry):
        last = {child.name: child for child in children(content, entry.start, entry.end)[0]}
        video = last.get(0xE0)
        size = {child.name: child for child in children(content, video.start, video.end)[0]} if video else {}

        def bytes_of(name, of=last):
            return content[of[name].start : of[name].end] if name in of else b""

        def number(name, of=last):
            return int.from_bytes(bytes_of(name, of), "big") if len(bytes_of(name, of)) <= 8 else 0

        self.number, self.kind, self.codec = number(0xD7), number(0x83), bytes_of(0x86).partition(b"\0")[0]
        private, encoded = bytes_of(0x63A2), 0x6D80 in last
        place = last[0x63A2].start if 0x63A2 in last else 0
        self.record, self.place = None, place
        if self.codec == b"V_FFV1":
            self.record = private
        elif self.codec == b"V_MS/VFW/FOURCC" and private[16:20] == b"FFV1":
            self.record, self.place = private[40:], place + 40
        self.is_record_wrong = bool(self.record) and parity(self.record) != 0
        self.is_judged = bool(self.record) and not self.is_record_wrong and not encoded and has_parities(self.record, (number(0xB0, size), number(0xBA, size)))
        self.is_flac = self.codec == b"A_FLAC" and not encoded
        self.blocks = self.checked = self.vouched = 0
        self.time = None

    def shown(self):
        printable = 0 < len(self.codec) <= 64 and all(0x21 <= byte <= 0x7E for byte in self.codec)
        return self.codec.decode() if printable else "-"


# FORMAT: A file judged whole
def has_parities(record, size):
    """Whether a record can be read, with its picture's size, and says that slices have parities."""
    try:
        return recording_of(record, size).ec == 1
    except Fault:
        return False


# FORMAT: A file judged whole
def tracks_of(content):
    """The tracks that the first Tracks describes, and where it begins."""
    for head, item in items(content):
        if head and head.name == TRACKS:
            entries = children(content, item.start, item.end)[0] if item.end - item.start <= TRACKS_LIMIT else []
            named = {}
            for entry in entries:
                if entry.name == 0xAE:
                    track = Track(content, entry)
                    if track.number:
                        named.setdefault(track.number, track)
            return named, item.place
    return {}, None


# FORMAT: A file judged whole
def laces(payload, lacing):
    """The frames in a payload, by its lacing: 0 none, 1 Xiph's, 2 of equal size, 3 EBML's; or None where its sizes don't fit."""
    if lacing == 0:
        return [payload]
    if not payload:
        return None
    count, place, sizes = payload[0] + 1, 1, []
    if lacing == 2:
        size, rest = divmod(len(payload) - 1, count)
        return None if rest else [payload[1 + size * number : 1 + size * (number + 1)] for number in range(count)]
    for number in range(count - 1):
        if lacing == 1:
            size = 0
            while place < len(payload) and payload[place] == 255:
                size, place = size + 255, place + 1
            if place >= len(payload):
                return None
            size, place = size + payload[place], place + 1
        else:
            read = number_at(payload, place, 8)
            if not read:
                return None
            length, bits = read
            data, place = bits - (1 << 7 * length), place + length
            size = data if number == 0 else sizes[-1] + data - ((1 << 7 * length - 1) - 1)
            if size < 0:
                return None
        sizes.append(size)
    sizes.append(len(payload) - place - sum(sizes))
    if sizes[-1] < 0:
        return None
    frames = []
    for size in sizes:
        frames.append(payload[place : place + size])
        place += size
    return frames


class Check:
    """What a check of some content prints, and whether the content is whole."""

    def __init__(self, content):
        self.content, self.lines, self.spans = content, [], []
        self.tracks, self.first_tracks = tracks_of(content)
        self.begun = self.has_ebml = False
        self.segment, self.stamp, self.with_crc32 = None, None, set()
        for head, item in items(content):
            self.item(head, item)
        self.end()

    def say(self, place, words):
        self.lines.append(f"at {place} {words}")

    # FORMAT: A file judged whole
    def item(self, head, item):
        place, name = item.place, TOP.get(item.name)
        if head is None:
            self.say(place, f"unknown {item.end - place}")
            return
        if self.is_misplaced(head.name):
            self.say(place, f"misplaced {name}")
        if head.size is None:
            self.say(place, f"endless {name}")
        self.begun, self.stamp = True, None
        self.has_ebml |= head.name == EBML
        if head.name == SEGMENT:
            if self.segment is None:
                self.segment = head, item
            return
        self.content_of(head, item)

    # FORMAT: A file judged whole
    def is_misplaced(self, name):
        if name == EBML:
            return self.begun
        if name == SEGMENT:
            return self.segment is not None or not self.has_ebml
        return name != VOID and self.segment is None

    # FORMAT: A file judged whole
    def content_of(self, head, item):
        content, name = self.content, TOP[head.name]
        is_cut = head.size is not None and item.start + head.size > len(content)
        inside = content[item.start : item.end] if head.name in KNOWN else b""
        has_one = not is_cut and len(inside) >= 6 and inside[:2] == b"\xbf\x84"
        passes_crc = has_one and crc_left(inside) == 0
        if passes_crc:
            self.spans.append((item.start, item.end))
        if head.name in KNOWN:
            self.master(item, head.name, passes_crc)
        if head.name == EBML and not self.is_matroska(item):
            self.say(item.place, "no Matroska")
        if item.place == self.first_tracks and not is_cut:
            self.records()
        size = item.end - item.place
        if is_cut:
            self.say(item.place, f"cut {name} {size}")
        elif has_one:
            if not passes_crc:
                self.say(item.place, f"crc32 {name} {size}")
            self.with_crc32.add(head.name)
        elif head.name in self.with_crc32:
            self.say(item.place, f"bare {name} {size}")

    # FORMAT: A file judged whole
    def master(self, item, name, is_vouched):
        found, end = children(self.content, item.start, item.end, KNOWN[name])
        for child in found:
            if name == CLUSTER and child.name == 0xE7:
                self.stamp = int.from_bytes(self.content[child.start : child.end], "big") if child.end - child.start <= 8 else 0
            elif name == CLUSTER and child.name == 0xA3 or name == 0xA0 and child.name == 0xA1:
                self.block(child, is_vouched)
            elif name == CLUSTER and child.name == 0xA0:
                self.master(child, 0xA0, is_vouched)
        if end < item.end:
            self.say(end, f"unknown {item.end - end}")

    # FORMAT: A file judged whole
    def is_matroska(self, item):
        types = [child for child in children(self.content, item.start, item.end)[0] if child.name == 0x4282]
        return len(types) == 1 and self.content[types[0].start : types[0].end].partition(b"\0")[0] in (b"matroska", b"webm")

    # FORMAT: A file judged whole
    def records(self):
        for track in self.tracks.values():
            if track.is_record_wrong:
                self.say(track.place, f"record of track {track.number}")
            elif track.record:
                self.spans.append((track.place, track.place + len(track.record)))

    # FORMAT: A file judged whole
    def block(self, element, is_vouched):
        inside = self.content[element.start : element.end]
        number = number_at(inside, 0, 8)
        if not number or number[0] + 3 > len(inside):
            self.say(element.place, f"block {element.end - element.place}")
            return
        length, bits = number
        track = self.tracks.get(bits - (1 << 7 * length))
        if track is None:
            self.say(element.place, f"track {bits - (1 << 7 * length)}")
            return
        track.blocks += 1
        if track.record is not None:
            self.time(element, track, int.from_bytes(inside[length : length + 2], "big", signed=True))
        start, lacing = element.start + length + 3, inside[length + 2] >> 1 & 3
        track.checked += self.is_right(element, track, start, lacing, is_vouched)

    # FORMAT: A file judged whole
    def time(self, element, track, time):
        time = None if self.stamp is None else self.stamp + time
        if time is None or track.time is not None and time <= track.time:
            self.say(element.place, f"time of track {track.number}")
        track.time = track.time if time is None else time

    # FORMAT: A file judged whole
    def is_right(self, element, track, start, lacing, is_vouched):
        """Whether a block is checked. Says what is wrong with its payload."""
        payload, said = self.content[start : element.end], f"of track {track.number}"
        if track.is_judged:
            if lacing:
                return self.wrong(element, f"laced track {track.number}")
            if len(payload) > FRAME_LIMIT:
                return self.wrong(element, f"long frame {said}")
            return self.frame(element, track, start, payload)
        if track.is_flac:
            if len(payload) > FLAC_LIMIT:
                return self.wrong(element, f"long frame {said}")
            frames = laces(payload, lacing)
            if not frames or not all(is_flac(frame) for frame in frames):
                return self.wrong(element, f"flac {said}")
            self.spans.append((start, element.end))
            return True
        return is_vouched

    def wrong(self, element, words):
        self.say(element.place, words)
        return False

    # FORMAT: A file judged whole
    def frame(self, element, track, start, payload):
        found, broken = links(payload)
        passing = [(start + at, start + at + len(piece)) for at, piece in found if len(piece) > 8 and passes(piece)]
        self.spans += passing
        if broken is None and 0 < len(found) == len(passing):
            return True
        ends = "whole" if broken is None else f"broken at {broken}"
        return self.wrong(element, f"frame {track.blocks} of track {track.number} links {len(found)} pass {len(passing)} {ends}")

    # FORMAT: A file judged whole
    def end(self):
        size = len(self.content)
        if self.segment is None:
            self.say(size, "no Segment")
        else:
            head, item = self.segment
            if head.size is not None and item.start + head.size != size:
                self.say(size, f"end {item.start + head.size}")
        if not self.tracks:
            self.say(size, "no tracks")
        self.is_whole = not self.lines and all(track.blocks == track.checked for track in self.tracks.values() if track.kind == VIDEO)
        for track in self.tracks.values():
            self.lines.append(f"track {track.number} {track.shown()} blocks {track.blocks} checked {track.checked}")
        self.lines += [f"bytes {size} checked {covered(self.spans)}", "whole" if self.is_whole else "not whole"]


# FORMAT: A file judged whole
def covered(spans):
    """How many places some spans cover."""
    count = last = 0
    for start, end in sorted(spans):
        count += max(end - max(start, last), 0)
        last = max(last, end)
    return count


# FORMAT: A file judged whole
def checked(content):
    """What `check` prints of a file of this content, and its exit status."""
    check = Check(content)
    return "".join(f"{line}\n" for line in check.lines).encode(), 0 if check.is_whole else 3
