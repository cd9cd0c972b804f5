"""Damage to copies of a frame that keeps their length, and copies that are damaged alike."""
import random

import makings
import readings
from damage import cut_off, damaged, leave_out, put_after, put_in


def some_slice(numbers, frame):
    """Where one of the slices of a whole frame starts and ends."""
    start, piece = numbers.choice(readings.links(frame)[0])
    return start, start + len(piece)


def damaged_regions(numbers, content, start, end, count):
    """So many copies of which each has some bytes of a range wrong, at distances about the greatest within a region; mostly none has
    all."""
    place = numbers.randrange(start, end if numbers.random() < 0.3 else start + 1 + (end - start) // 4)
    copies, left = [[] for _ in range(count)], numbers.choice([2, 3, 4, 8, 12, 13])
    while place < end and left:
        damaged = numbers.randint(1, len(copies) - 1) if numbers.random() < 0.97 else len(copies)
        for places in numbers.sample(copies, damaged):
            places.append(place)
        place, left = place + numbers.choice([1, 63, 64, 65, 65, 65, 66, 66, 80, 130]), left - 1
    return [makings.inverted(content, *places) for places in copies]


def damaged_first_byte(numbers, copy, frame):
    return makings.inverted(copy, some_slice(numbers, frame)[0])


def damaged_last_byte(numbers, copy, frame):
    return makings.inverted(copy, some_slice(numbers, frame)[1] - 1)


def damaged_footer(numbers, copy, frame):
    """Some bytes about a footer: of the content before it, its size, status and parity, and of what comes after it."""
    end = some_slice(numbers, frame)[1]
    first = numbers.randrange(max(0, end - 12), end)
    return makings.inverted(copy, *range(first, min(len(copy), first + numbers.randint(1, 10))))


def damaged_size(numbers, copy, frame):
    """Another size: 0, greater or less by a little, of a neighbour's bytes too, of all that comes before, or any."""
    start, end = some_slice(numbers, frame)
    size, before = end - start - 8, some_slice(numbers, frame)[0]
    others = [0, max(0, size - 1), size + 1, end - 8, end - 7, max(0, end - 8 - before), numbers.randrange(1 << 24), 0xFFFFFF]
    return makings.written(copy, end - 8, numbers.choice(others).to_bytes(3, "big"))


def zero_sector(numbers, copy, frame):
    size = numbers.choice([8, 64, 512])
    place = numbers.randrange(len(copy)) // size * size
    return makings.written(copy, place, bytes(len(copy[place : place + size])))


def spill(numbers, copy, frame):
    place = numbers.randrange(len(copy))
    return makings.written(copy, place, numbers.randbytes(len(copy[place : place + numbers.choice([1, 2, 4, 16, 100])])))


def lay_elsewhere(numbers, copy, frame):
    """Some bytes that stand elsewhere in the frame, mostly from where a slice starts."""
    first = some_slice(numbers, frame)[0] if numbers.random() < 0.7 else numbers.randrange(len(frame))
    place = numbers.randrange(len(copy))
    return makings.written(copy, place, frame[first : first + numbers.choice([8, 64, 512])][: len(copy) - place])


def forge_slice(numbers, copy, frame):
    """Another slice of the same length, which passes."""
    start, end = some_slice(numbers, frame)
    piece = makings.inverted(frame[start:end], numbers.randrange(end - start))
    return makings.written(copy, start, makings.forged(piece, numbers.randrange(end - start - 3)))


def other_status(numbers, copy, frame):
    start, end = some_slice(numbers, frame)
    return makings.written(copy, start, readings.sliced(frame[start : end - 8], numbers.randrange(256)))


def long_slice(numbers, copy, frame):
    """A slice of the bytes of two that follow each other."""
    found = readings.links(frame)[0]
    place = numbers.randrange(max(1, len(found) - 1))
    (after, piece), (start, _) = found[place], found[min(place + 1, len(found) - 1)]
    return makings.written(copy, start, readings.sliced(frame[start : after + len(piece) - 8], 0))


def short_slice(numbers, copy, frame):
    """A slice of the first bytes of one."""
    start, end = some_slice(numbers, frame)
    return makings.written(copy, start, readings.sliced(frame[start : start + numbers.randrange(max(1, end - start - 16))], 0))


KEEPING = [
    damaged_first_byte, damaged_last_byte, damaged_footer, damaged_size, damaged_size, zero_sector, zero_sector, spill, lay_elsewhere,
    forge_slice, other_status,
]

KEEPING += [long_slice, short_slice]


def damaged_copy(numbers, frame):
    """A copy of a frame with up to four places of rot."""
    copy = frame
    for _ in range(numbers.choice([0, 1, 1, 2, 2, 4])):
        copy = numbers.choice(KEEPING)(numbers, copy, frame)
    return copy


def damaged_alike(numbers, copies, frame):
    """Copies with the same rot in all of them."""
    harm, seed = numbers.choice(KEEPING), numbers.random()
    return [harm(random.Random(seed), copy, frame) for copy in copies]


def half_copies(numbers, frame):
    """Two copies of which two combinations are slices, where some slice has room for that."""
    start, end = some_slice(numbers, frame)
    if end - start < 80:
        return []
    first = numbers.randrange(end - start - 72)
    halves = makings.two_halves(frame[start:end], first, numbers.randrange(first + 65, end - start - 3))
    return [makings.written(frame, start, half) for half in halves]


def damaged_copies(numbers, frame):
    """Up to four copies of a frame, mostly of one length."""
    kind = numbers.random()
    copies = damaged_regions(numbers, frame, *some_slice(numbers, frame), numbers.randint(2, 4)) if kind < 0.5 else []
    if 0.5 <= kind < 0.6:
        copies = half_copies(numbers, frame)
    if not copies:
        copies = [damaged_copy(numbers, frame) for _ in range(numbers.randint(1, 4))]
    elif numbers.random() < 0.5:
        place = numbers.randrange(len(copies))
        copies[place] = numbers.choice(KEEPING)(numbers, copies[place], frame)
    while numbers.random() < 0.3:
        copies = damaged_alike(numbers, copies, frame)
    if numbers.random() < 0.05:
        copies[numbers.randrange(len(copies))] = damaged(numbers, frame, frame, [cut_off, leave_out, put_in, put_after])
    return copies
