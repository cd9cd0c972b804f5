"""Damage to the bytes of frames, records and holding files: changed, cut off, left out, put in, repeated, exchanged."""
import any_holdings
import readings


# The eight bytes that begin a holding file: of both versions in the profile, and of any other recording.
HEADS = [readings.MAGIC + b"\x01", readings.MAGIC + b"\x02", any_holdings.MAGIC + bytes([any_holdings.VERSION])]


def place_in(numbers, content, room=1):
    return numbers.randrange(max(1, len(content) - room + 1))


def turn_bit(numbers, content, _):
    place = place_in(numbers, content)
    content[place : place + 1] = bytes(byte ^ 1 << numbers.randrange(8) for byte in content[place : place + 1])


def set_byte(numbers, content, _):
    place = place_in(numbers, content)
    content[place : place + 1] = bytes(numbers.choice([0, 1, 127, 128, 255, numbers.randrange(256)]) for _ in content[place : place + 1])


def set_sector(numbers, content, _):
    size = numbers.choice([2, 3, 4, 8, 16, 64, 512])
    place = place_in(numbers, content, size)
    room = len(content[place : place + size])
    content[place : place + room] = numbers.choice([bytes(room), b"\xff" * room, numbers.randbytes(room)])


def cut_off(numbers, content, _):
    del content[place_in(numbers, content) :]


def leave_out(numbers, content, _):
    place = place_in(numbers, content)
    del content[place : place + numbers.choice([1, 2, 8, 512])]


def put_in(numbers, content, other):
    place, start = place_in(numbers, content), place_in(numbers, other)
    piece = other[start : start + numbers.choice([1, 8, 11, 64, 512])]
    content[place:place] = numbers.choice([piece, numbers.randbytes(len(piece)), bytes(len(piece))])


def repeat(numbers, content, _):
    place = place_in(numbers, content)
    content[place:place] = content[place : place + numbers.choice([1, 8, 18, 64, 512])]


def put_after(numbers, content, other):
    content += numbers.choice([b"\x00", bytes(8), bytes(64), numbers.randbytes(9), other])


def put_in_front(numbers, content, other):
    content[:0] = numbers.choice([b"\x00", b"\xaa" * 5, numbers.randbytes(8), other])


def exchange(numbers, content, _):
    size = numbers.choice([1, 4, 8, 64])
    first, second = place_in(numbers, content, size), place_in(numbers, content, size)
    if abs(first - second) >= size:
        content[first : first + size], content[second : second + size] = content[second : second + size], content[first : first + size]


DAMAGES = [
    turn_bit, turn_bit, set_byte, set_byte, set_sector, set_sector, cut_off, leave_out, put_in, repeat, put_after, put_in_front,
    exchange,
]


def damaged(numbers, content, other, kinds=DAMAGES):
    """The content with one to four changes."""
    changed = bytearray(content)
    for _ in range(numbers.choice([1, 1, 2, 4])):
        numbers.choice(kinds)(numbers, changed, other)
    return bytes(changed)


def damaged_slice(numbers, piece, other):
    """A slice whose content or status is another, with a parity that fits."""
    status = numbers.choice([piece[-5], 0, 1, 2, numbers.randrange(256)])
    content = damaged(numbers, piece[:-8], other[: 1 << 10]) if numbers.random() < 0.8 else piece[:-8]
    return readings.sliced(content, status)


def damaged_frame(numbers, recording, payload):
    """A payload with other slices, or with other bytes."""
    pieces = [piece for _, piece in reversed(readings.links(payload)[0])]
    other = numbers.choice(list(recording.frames.values()))
    kind = numbers.random()
    if kind < 0.45 or not pieces:
        return damaged(numbers, payload, other)
    place = numbers.randrange(len(pieces))
    if kind < 0.85:
        pieces[place] = damaged_slice(numbers, pieces[place], other)
    elif kind < 0.9:
        pieces.insert(numbers.randrange(len(pieces) + 1), pieces[place])
    elif kind < 0.95:
        del pieces[place]
    else:
        numbers.shuffle(pieces)
    return b"".join(pieces)


def damaged_record(numbers, recording, record):
    """A record with other bytes, mostly with a parity that fits."""
    if numbers.random() < 0.3:
        return damaged(numbers, record, recording.record)
    return readings.with_parity(damaged(numbers, record[:-4], recording.record))


def damaged_origins(numbers, tile, piece, origins):
    """Changes the digests of an entry: more, twice the same, or out of order."""
    kind = numbers.random()
    if kind < 0.3 or not origins:
        origins.append(numbers.randbytes(32))
        origins.sort()
    elif kind < 0.6:
        origins.append(numbers.choice(origins))
    else:
        numbers.shuffle(origins)


def damaged_holding(numbers, recording, text):
    """A holding file with other bytes, record, slices or origins, or with the head of another kind."""
    kind = numbers.random()
    if kind < 0.4:
        return damaged(numbers, text, recording.record)
    head, version = text[:8], 1 if text.startswith(HEADS[0]) else 2
    held = [(*each, sorted(origins)) for each, origins in any_holdings.read_holding(text, True)[2].items()]
    record = recording.record
    if kind < 0.5:
        record = damaged_record(numbers, recording, record)
    elif held and kind < 0.7:
        place = numbers.randrange(len(held))
        tile, piece, origins = held[place]
        changed = (tile if numbers.random() < 0.9 else numbers.randrange(65536), damaged_slice(numbers, piece, record), origins)
        held[place : place + numbers.randrange(2)] = [changed]
        held.sort()
    elif held and kind < 0.85:
        damaged_origins(numbers, *numbers.choice(held))
    elif kind < 0.9:
        head = numbers.choice(HEADS)
    elif held:
        held.insert(0, numbers.choice(held))
    text = head + readings.file_text(record, recording.size, (readings.entry_text(*each, version) for each in held), version)[8:]
    return text if numbers.random() < 0.8 else damaged(numbers, text, record)
