"""Files of stretches with their lists, and damage to both."""
import makings
import readings
from copy_damage import KEEPING, damaged_regions, some_slice, spill, zero_sector
from damage import damaged

KINDS = ["frame", "crc32", "crc32", "crc32", "record", "flac", "plain"]

# Words that stand in for one of a list.
ODD_WORDS = ["", "-", "0", "1", "5", "6", "007", "+1", "x", "part", "plain", "crc32", "frame", "record", "flac", "1" * 30]

ODD_WORDS += [str(1 << 30), str((1 << 30) + 1), str((1 << 64) - 1), str(1 << 64)]


def stretches_in(numbers, frames):
    """A few stretches of frames, elements and other bytes, by their kinds, bytes and parts."""
    found = []
    for _ in range(numbers.randint(1, 5)):
        kind, frame, length = numbers.choice(KINDS), numbers.choice(frames), numbers.choice([0, 1, 9, 70, 300])
        content, parts = numbers.randbytes(1 + length), []
        if kind == "frame":
            content = frame
        elif kind == "record":
            content = readings.with_parity(numbers.randbytes(2 + length))
        elif kind == "flac":
            content = some_flac(numbers, length)
        elif kind == "crc32":
            middle, second = numbers.randbytes(numbers.choice([0, 3, 80])), numbers.choice([b"", b"", numbers.choice(frames)])
            sound = numbers.choice([b"", some_flac(numbers, numbers.choice([0, 9, 300]))])
            content, parts = element_with(numbers.randbytes(length), [(frame, ()), (sound, ("flac",)), (second, ())], middle)
        found.append((kind, content, parts))
    return found


def some_flac(numbers, length):
    """A frame of FLAC with any header that there can be, and so many bytes after it."""
    size, rate, depth = numbers.randrange(1, 16), numbers.randrange(15), numbers.choice([0, 1, 2, 4, 5, 6, 7])
    count = numbers.randint(1, 7)
    first = numbers.randrange(0x80) if count == 1 else 0x100 - (1 << 8 - count) + numbers.randrange(1 << 7 - count)
    number = bytes([first, *(0x80 + numbers.randrange(0x40) for _ in range(count - 1))])
    more = numbers.randbytes({6: 1, 7: 2}.get(size, 0) + {12: 1, 13: 2, 14: 2}.get(rate, 0))
    head = bytes([0xFF, numbers.choice([0xF8, 0xF9]), size << 4 | rate, numbers.randrange(11) << 4 | depth << 1])
    return readings.flac_of(head + number + more, numbers.randbytes(length))


def element_with(front, pieces, between):
    """The content of an element that has these pieces after others, and bytes between them; and where they lie, each as a part with
    its words. Of an empty piece nothing."""
    rest, parts = front, []
    for piece, words in pieces:
        if piece:
            parts.append((6 + len(rest), len(piece), *words))
            rest += piece + between
    return readings.element_of(rest), parts


def damaged_part(numbers, version, parts):
    """A version of an element, of which a frame is damaged."""
    offset, size = numbers.choice(parts)[:2]
    frame = version[offset : offset + size]
    damaged = numbers.choice(KEEPING)(numbers, frame, frame) if readings.links(frame)[0] else zero_sector(numbers, frame, frame)
    return makings.written(version, offset, damaged)


def damaged_version(numbers, version, parts):
    """A version of a stretch with up to three places of rot."""
    for _ in range(numbers.choice([0, 1, 1, 2, 3])):
        if parts and numbers.random() < 0.6:
            version = damaged_part(numbers, version, parts)
        else:
            version = numbers.choice([spill, zero_sector, damaged_any_bit])(numbers, version, version)
    return version


def damaged_any_bit(numbers, copy, _):
    place = numbers.randrange(len(copy))
    return makings.written(copy, place, bytes([copy[place] ^ 1 << numbers.randrange(8)]))


def other_element(numbers, content):
    """Another element of this length, which passes its CRC-32."""
    damaged = makings.inverted(content, numbers.randrange(6, len(content)))
    return makings.forged(damaged, numbers.randrange(6, len(content) - 3), readings.crc_left)


def other_flac(content):
    """Another frame of FLAC with the same header and of the same length."""
    length = readings.header_of_flac(content)
    body = content[length + 1 : -2]
    return readings.flac_of(content[:length], makings.inverted(body, len(body) // 2) if body else body)


def damaged_versions(numbers, kind, content, parts, count):
    """So many versions of a stretch."""
    fate = numbers.random()
    if fate < 0.5:
        return [content] * count
    if fate < 0.7 and count > 1:
        start, end = (0, len(content)) if kind != "frame" else some_slice(numbers, content)
        versions = damaged_regions(numbers, content, start, end, count)
    else:
        versions = [damaged_version(numbers, content, [(0, len(content))] if kind == "frame" else parts) for _ in range(count)]
    if kind == "crc32" and len(content) > 100 and numbers.random() < 0.1:
        first = numbers.randrange(6, len(content) - 90)
        halves = makings.two_halves(content, first, numbers.randrange(first + 65, len(content) - 3), readings.crc_left)
        versions[: len(halves)] = halves[:count]
    elif kind == "crc32" and len(content) > 10 and numbers.random() < 0.1:
        versions[numbers.randrange(count)] = other_element(numbers, content)
    elif kind == "record" and numbers.random() < 0.1:
        versions[numbers.randrange(count)] = numbers.choice([bytes(len(content)), readings.with_parity(numbers.randbytes(len(content) - 4))])
    elif kind == "flac" and numbers.random() < 0.1:
        versions[numbers.randrange(count)] = other_flac(content)
    return versions


def damaged_list(numbers, text):
    """A list of which a line is changed, or comes twice, earlier, or not at all."""
    rows = text.split("\n")[:-1]
    number = numbers.randrange(len(rows))
    words = rows[number].split(" ")
    place = numbers.randrange(len(words))
    near = str(int(words[place]) + numbers.choice([-1, 1])) if words[place].isdigit() else "7"
    changed = " ".join([*words[:place], numbers.choice([near, numbers.choice(ODD_WORDS)]), *words[place + 1 :]])
    others = [[changed]] * 6 + [[], [rows[number]] * 2, ["", rows[number]], [rows[number] + " 1"], [rows[number], rows[number - 1]]]
    return "".join(f"{row}\n" for row in [*rows[:number], *numbers.choice(others), *rows[number + 1 :]])


def listed_copies(numbers, stretches, order, count):
    """The list of some stretches, for so many copies in this order, and the copies, with other bytes between stretches."""
    copies, text, gaps = [b""] * count, "", numbers.choice([[0], [0, 0, 1, 30], [0, 0, 70000]])
    for kind, content, parts in stretches:
        versions, places = damaged_versions(numbers, kind, content, parts, count), [None] * count
        for copy in numbers.sample(range(count), 1 if numbers.random() < 0.05 else count):
            copies[copy] += numbers.randbytes(numbers.choice(gaps))
            places[copy] = len(copies[copy])
            copies[copy] += versions[copy]
        places = [places[copy] for copy in order]
        source = numbers.choice([number for number, place in enumerate(places, 1) if place is not None])
        text += " ".join([kind, str(len(content)), str(source), *("-" if place is None else str(place) for place in places)]) + "\n"
        text += "".join(" ".join(["part", *map(str, part)]) + "\n" for part in parts)
    return text, copies


def make_mended(numbers, one, stretches):
    """Makes an input one of `mend` of these stretches."""
    count = numbers.randint(1, 4)
    one.order = numbers.choices(range(count), k=numbers.choice([0, 0, 1])) + list(range(count))
    numbers.shuffle(one.order)
    text, one.payloads = listed_copies(numbers, stretches, one.order, count)
    text = damaged_list(numbers, text) if numbers.random() < 0.15 else text
    one.list = text.encode() if numbers.random() < 0.9 else text.encode()[:-1]
    if numbers.random() < 0.07:
        place = numbers.randrange(count)
        one.payloads[place] = numbers.choice([None, one.payloads[place][: numbers.randrange(len(one.payloads[place]) + 1)]])


def odd_size(numbers, size):
    sides = [0, 1, 2, 16384, 65535, 65536, 4294967295, numbers.randrange(1, 20000)]
    return tuple(numbers.choice([side, numbers.choice(sides)]) for side in size)
