"""Pictures of what can be shown of a frame, as PNG: tiles that are lost are hatched."""
from __future__ import annotations

import zlib
from collections.abc import Collection, Iterable, Iterator, Sequence
from typing import NamedTuple

from ..judging.results import FrameResult

# The longest side of a small picture, in pixels.
LONGEST = 160
STRIPE, GROUND = (0x8C, 0x1C, 0x13), (0xD9, 0xD2, 0xCC)
# After so many pixels the stripes repeat.
PERIOD = 6

# Red, green and blue of YCbCr (ITU-R BT.601, limited range): what each sample adds, and the sums cut to 8 bits, from MARGIN below 0 on.
MARGIN = 512
LUMA = [round(255 / 219 * (sample - 16)) + MARGIN for sample in range(256)]
CB_BLUE, CB_GREEN, CR_GREEN, CR_RED = ([round(factor * 255 / 224 * (sample - 128)) for sample in range(256)]
                                       for factor in (1.772, -0.344136, -0.714136, 1.402))
CUT = bytes(MARGIN) + bytes(range(256)) + b"\xff" * MARGIN


class Shape(NamedTuple):
    """How frames are recorded: their size in samples, the bits of a sample, whether the planes are G, B and R, the shifts of the chroma planes,
    or None where there are none, and the tiles across and down. What comes after these planes, alpha, is not shown."""

    width: int
    height: int
    depth: int
    is_rgb: bool
    shifts: tuple[int, int] | None
    grid: tuple[int, int]

    def tiles(self) -> int:
        return self.grid[0] * self.grid[1]


class Tiles(NamedTuple):
    """What is said of the tiles of a frame, by their numbers: those that are missing or disputed, those whose slices can't be decoded, those whose
    slices do not end as an encoder ends them; and whether nothing can be shown, as the frame is no keyframe."""

    lost: frozenset[int] = frozenset()
    faulty: frozenset[int] = frozenset()
    unclean: frozenset[int] = frozenset()
    is_key: bool = True

    def hatched(self) -> frozenset[int]:
        return self.lost | self.faulty


class Drawn(NamedTuple):
    """What is said of the tiles of a frame that is shown, how many it has, and a small picture of it if the report is to have one."""

    result: FrameResult
    tiles: Tiles
    count: int
    image: bytes | None = None


# ---- what the program prints


def shape_of(setup: str, size: tuple[int, int]) -> tuple[Shape, bool]:
    """The shape of a recording by the lines that `ffv1restore setup` prints, and whether its slices have parities."""
    words = [line.split() for line in setup.splitlines()]
    found = {name: value for line in words for name, value in zip(line[::2], line[1::2])}
    shifts = tuple(map(int, words[2][3:5]))
    across, down = map(int, found["grid"].split("x"))
    has_chroma = int(found["planes"]) > 2
    return Shape(*size, int(found["depth"]), found["colorspace"] == "1", (shifts[0], shifts[1]) if has_chroma else None, (across, down)), found["ec"] == "1"


def tiles_of(lines: str) -> Tiles:
    """What is said of tiles by the lines that `ffv1restore picture --any` prints."""
    said = [(int(words[1]), words[2]) for words in map(str.split, lines.splitlines()) if words[:1] == ["tile"]]
    lost, faulty, unclean, key = (frozenset(tile for tile, word in said if word in words)
                                  for words in (("missing", "disputed"), ("fault",), ("unclean",), ("no",)))
    return Tiles(lost, faulty, unclean, not key)


# ---- the picture


def picture(shape: Shape, samples: bytes, hatched: Collection[int] = (), longest: int | None = None) -> bytes:
    """A picture of a frame's samples, plane after plane; tiles of these numbers are hatched. With a longest side it has each n-th sample."""
    step = 1 if longest is None else max(1, -(-max(shape.width, shape.height) // longest))
    return png(len(range(0, shape.width, step)), len(range(0, shape.height, step)), rows(shape, samples, frozenset(hatched), step))


def blank(shape: Shape, size: int) -> bytes:
    """So many bytes of samples where none is known: each is 2^(depth - 1)."""
    return b"\x80" * size if shape.depth == 8 else (1 << shape.depth - 1).to_bytes(2, "little") * (size // 2)


def rows(shape: Shape, samples: bytes, hatched: frozenset[int], step: int) -> Iterator[bytes]:
    """Red, green and blue of each n-th place of each n-th line."""
    count, lines, columns = len(range(0, shape.width, step)), edges(shape.height, shape.grid[1], step), edges(shape.width, shape.grid[0], step)
    colors, line = Colors(shape, samples, step), 0
    for number, y in enumerate(range(0, shape.height, step)):
        while number >= lines[line + 1]:
            line += 1
        row, stripes = bytearray(3 * count), hatch(count, number)
        row[::3], row[1::3], row[2::3] = colors.of_line(y)
        for column in range(shape.grid[0]):
            if line * shape.grid[0] + column in hatched:
                part = slice(3 * columns[column], 3 * columns[column + 1])
                row[part] = stripes[part]
        yield bytes(row)


def edges(side: int, count: int, step: int) -> list[int]:
    """Where tiles begin along a side, and where the last one ends, in places of which each n-th is shown (RFC 9043, section 4.6)."""
    return [-(-(side * number // count) // step) for number in range(count + 1)]


def hatch(count: int, number: int) -> bytes:
    """A line of stripes."""
    period = b"".join(bytes(STRIPE if (x + number) % PERIOD < 2 else GROUND) for x in range(PERIOD))
    return (period * (count // PERIOD + 1))[: 3 * count]


class Colors:
    """The colours of a frame's places, by its planes. Samples of more than 8 bits are two bytes, the less significant first."""

    def __init__(self, shape: Shape, samples: bytes, step: int) -> None:
        self.shape, self.samples, self.step, self.bytes = shape, samples, step, 1 if shape.depth == 8 else 2
        h, v = shape.shifts or (0, 0)
        self.chroma_width, chroma_height = -(-shape.width >> h), -(-shape.height >> v)
        self.first = shape.width * shape.height
        self.second = self.first + self.chroma_width * chroma_height
        self.columns = [x >> h for x in range(0, shape.width, step)]

    def of_line(self, y: int) -> tuple[bytes, bytes, bytes]:
        """Red, green and blue of each n-th place of a line."""
        first = self.line(y * self.shape.width, self.shape.width)[:: self.step]
        if self.shape.shifts is None:
            return first, first, first
        start = (y >> self.shape.shifts[1]) * self.chroma_width
        second, third = (self.line(plane + start, self.chroma_width) for plane in (self.first, self.second))
        second, third = (bytes(map(line.__getitem__, self.columns)) for line in (second, third))
        return (third, first, second) if self.shape.is_rgb else colors_of(first, second, third)

    def line(self, place: int, count: int) -> bytes:
        """The upper 8 bits of samples that follow each other."""
        found = self.samples[place * self.bytes : (place + count) * self.bytes]
        if self.bytes == 1:
            return found
        return (int.from_bytes(found, "little") >> self.shape.depth - 8).to_bytes(len(found), "little")[::2]


def colors_of(luma: bytes, cb: bytes, cr: bytes) -> tuple[bytes, bytes, bytes]:
    """Red, green and blue of samples of YCbCr."""
    places = list(zip(map(LUMA.__getitem__, luma), cb, cr))
    return (bytes(CUT[y + CR_RED[r]] for y, _, r in places), bytes(CUT[y + CB_GREEN[b] + CR_GREEN[r]] for y, b, r in places),
            bytes(CUT[y + CB_BLUE[b]] for y, b, _ in places))


# ---- the image


def png(width: int, height: int, lines: Iterable[bytes]) -> bytes:
    """An image of lines of red, green and blue."""
    head = width.to_bytes(4, "big") + height.to_bytes(4, "big") + bytes([8, 2, 0, 0, 0])
    packer = zlib.compressobj()
    data: Sequence[bytes] = [*(packer.compress(b"\0" + line) for line in lines), packer.flush()]
    return b"\x89PNG\r\n\x1a\n" + b"".join(chunk(name, content) for name, content in ((b"IHDR", head), (b"IDAT", b"".join(data)), (b"IEND", b"")))


def chunk(name: bytes, content: bytes) -> bytes:
    return len(content).to_bytes(4, "big") + name + content + zlib.crc32(name + content).to_bytes(4, "big")
