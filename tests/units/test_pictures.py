"""Pictures of frames: what a PNG of them has, which places are hatched, and what the program's lines say of a recording and of tiles."""
from __future__ import annotations

import pathlib
import struct
import typing
import unittest
import zlib

import readings
from mend_reel.reports import pictures
from mend_reel.reports.pictures import GROUND, STRIPE, Shape, Tiles

REAL = pathlib.Path(__file__).resolve().parent.parent / "real"
Pixels = typing.List[typing.List[typing.Tuple[int, ...]]]
GRAY = Shape(48, 32, 8, False, None, (2, 2))


def decoded(image: bytes) -> Pixels:
    """The pixels of a PNG without filters, whose chunks are whole."""
    assert image[:8] == b"\x89PNG\r\n\x1a\n"
    chunks, place = {}, 8
    while place < len(image):
        size, name = struct.unpack(">I4s", image[place : place + 8])
        content = image[place + 8 : place + 8 + size]
        assert image[place + 8 + size : place + 12 + size] == struct.pack(">I", zlib.crc32(name + content))
        chunks[name], place = content, place + 12 + size
    width, height, *kind = struct.unpack(">IIBBBBB", chunks[b"IHDR"])
    assert kind == [8, 2, 0, 0, 0] and list(chunks) == [b"IHDR", b"IDAT", b"IEND"]
    data = zlib.decompress(chunks[b"IDAT"])
    rows = [data[start : start + 3 * width + 1] for start in range(0, len(data), 3 * width + 1)]
    assert len(rows) == height and all(row[0] == 0 for row in rows)
    return [[tuple(row[x : x + 3]) for x in range(1, len(row), 3)] for row in rows]


def rgb(luma: int, cb: int, cr: int) -> typing.Tuple[int, ...]:
    """Red, green and blue by the integers of ITU-R BT.601 with 8 bits after the point."""
    y, b, r = 298 * (luma - 16) + 128, cb - 128, cr - 128
    return tuple(min(max(part >> 8, 0), 255) for part in (y + 409 * r, y - 100 * b - 208 * r, y + 516 * b))


class Pictures(unittest.TestCase):
    def assert_near(self, found: Pixels, wanted: Pixels) -> None:
        """That all colours are alike but for rounding."""
        self.assertEqual([len(row) for row in found], [len(row) for row in wanted])
        for row, other in zip(found, wanted):
            for pixel, each in zip(row, other):
                self.assertLessEqual(max(abs(one - two) for one, two in zip(pixel, each)), 3, (pixel, each))

    def test_gray(self) -> None:
        samples = (REAL / "gray-48x32-4-slices/planes-0").read_bytes()
        found = decoded(pictures.picture(GRAY, samples))
        self.assertEqual(found, [[(samples[48 * y + x],) * 3 for x in range(48)] for y in range(32)])

    def test_lost_tiles_are_hatched_and_no_others(self) -> None:
        samples = (REAL / "gray-48x32-4-slices/planes-0").read_bytes()
        whole, found = (decoded(pictures.picture(GRAY, samples, lost)) for lost in ([], [1, 2]))
        for y in range(32):
            for x in range(48):
                with self.subTest((x, y)):
                    is_lost = (x < 24) != (y < 16)
                    self.assertEqual(found[y][x] in (STRIPE, GROUND) and found[y][x] != whole[y][x], is_lost)
        self.assertEqual({pixel for row in found[:16] for pixel in row[24:]}, {STRIPE, GROUND})

    def test_tiles_are_those_of_the_grid(self) -> None:
        """A tile has the places from where it begins to where the next one does, also of those of which only some are shown."""
        for width, height, grid, longest in ((7, 5, (3, 2), 9), (101, 77, (2, 2), 200), (101, 77, (7, 5), 40), (720, 576, (4, 6), 160), (5, 5, (5, 5), 2)):
            shape = Shape(width, height, 8, False, None, grid)
            step = -(-max(width, height) // min(longest, max(width, height)))
            for tile in range(shape.tiles()):
                column, line = tile % grid[0], tile // grid[0]
                image = decoded(pictures.picture(shape, bytes(width * height), [tile], longest))
                wanted = [[column * width // grid[0] <= x < (column + 1) * width // grid[0] and line * height // grid[1] <= y < (line + 1) * height // grid[1]
                           for x in range(0, width, step)] for y in range(0, height, step)]
                self.assertEqual([[pixel != (0, 0, 0) for pixel in row] for row in image], wanted, (shape, tile))

    def test_colors_of_chroma(self) -> None:
        shape = Shape(4, 2, 8, False, (1, 1), (1, 1))
        planes = bytes([16, 16, 235, 235, 16, 16, 235, 235]) + bytes([128, 128]) + bytes([128, 128])
        self.assertEqual(decoded(pictures.picture(shape, planes)), [[(0, 0, 0), (0, 0, 0), (255, 255, 255), (255, 255, 255)]] * 2)
        values = [(luma, cb, cr) for luma in range(0, 256, 15) for cb in (0, 16, 90, 128, 200, 240, 255) for cr in (0, 54, 128, 129, 240, 255)]
        shape, planes = Shape(len(values), 1, 8, False, (0, 0), (1, 1)), b"".join(map(bytes, zip(*values)))
        self.assert_near(decoded(pictures.picture(shape, planes)), [[rgb(*each) for each in values]])

    def test_each_format_has_its_upper_8_bits_at_their_places(self) -> None:
        """Against a reading of each sample by its plane, row and column."""
        for name in ("yuv422p10-32x24-4-slices", "yuv420p-36x28-4-slices", "gbrp10-32x24-4-slices", "gbrp16-32x24-4-slices", "gray16-32x24-4-slices",
                     "ya8-32x24-4-slices", "bgra-32x24-6-slices", "bgr0-32x24-4-slices", "yuv444p12-32x24-4-slices"):
            with self.subTest(name):
                size = tuple(map(int, name.split("-")[1].split("x")))
                recording = readings.recording_of((REAL / name / "record").read_bytes(), size)
                samples, (h, v) = (REAL / name / "samples-0").read_bytes(), recording.shifts
                across, wide = -(-size[0] >> h), 1 if recording.depth == 8 else 2
                starts = [0, size[0] * size[1], size[0] * size[1] + across * -(-size[1] >> v)]

                def sample(place: int) -> int:
                    return int.from_bytes(samples[wide * place : wide * place + wide], "little") >> recording.depth - 8

                def pixel(x: int, y: int) -> typing.Tuple[int, ...]:
                    first = sample(y * size[0] + x)
                    if not recording.chroma:
                        return first, first, first
                    second, third = (sample(start + (y >> v) * across + (x >> h)) for start in starts[1:])
                    return (third, first, second) if recording.is_rgb else rgb(first, second, third)

                shape, has_parities = pictures.shape_of(readings.setup_text(recording).decode(), size)
                self.assertEqual(has_parities, name != "yuv444p12-32x24-4-slices")
                self.assert_near(decoded(pictures.picture(shape, samples)), [[pixel(x, y) for x in range(size[0])] for y in range(size[1])])
                self.assert_near(decoded(pictures.picture(shape, samples, (), 9)), [[pixel(x, y) for x in range(0, size[0], 4)] for y in range(0, size[1], 4)])

    def test_large_frames_are_small_pictures(self) -> None:
        samples = (REAL / "yuv420p-720x576-24-slices/planes-0").read_bytes()
        found = decoded(pictures.picture(Shape(720, 576, 8, False, (1, 1), (4, 6)), samples, [23], pictures.LONGEST))
        self.assertEqual((len(found), len(found[0])), (116, 144))
        self.assertEqual({pixel for row in found[96:] for pixel in row[108:]}, {STRIPE, GROUND})

    def test_samples_that_are_not_known_are_gray(self) -> None:
        for shape in (Shape(4, 2, 8, False, None, (1, 1)), Shape(4, 2, 12, True, (0, 0), (1, 1)), Shape(4, 2, 16, False, (1, 0), (1, 1))):
            found = decoded(pictures.picture(shape, pictures.blank(shape, 4 * 2 * 3 * 2)))
            self.assert_near(found, [[(129, 129, 129)] * 4] * 2)


class Lines(unittest.TestCase):
    def test_the_shape_of_a_recording(self) -> None:
        for words, wanted in ((("coder 1 colorspace 0 depth 10", "planes 4 shift 1 1"), (10, False, (1, 1))),
                              (("coder 2 colorspace 1 depth 16", "planes 3 shift 0 0"), (16, True, (0, 0))),
                              (("coder 0 colorspace 0 depth 8", "planes 2 shift 0 0"), (8, False, None)),
                              (("coder 0 colorspace 0 depth 8", "planes 1 shift 0 0"), (8, False, None))):
            for ec in (0, 1):
                lines = ["version 3.4", *words, "grid 3x2 tiles 6", "tables 2 contexts 666 7563", f"ec {ec} intra 0", "states 0 1", "format -"]
                shape = Shape(90, 62, *wanted, (3, 2))
                self.assertEqual((pictures.shape_of("\n".join(lines), (90, 62)), shape.tiles()), ((shape, ec == 1), 6))

    def test_tiles_of_a_picture(self) -> None:
        lines = ["tile 1 missing", "tile 2 disputed 2", "tile 3 fault plane 1 y 2 x 3", "tile 5 fault end", "tile 6 unclean spare 8", "tile 7 fault header"]
        found = pictures.tiles_of("\n".join(lines))
        self.assertEqual(found, Tiles(frozenset({1, 2}), frozenset({3, 5, 7}), frozenset({6}), True))
        self.assertEqual(found.hatched(), {1, 2, 3, 5, 7})
        self.assertEqual(pictures.tiles_of("tile 0 no keyframe\ntile 1 missing\n"), Tiles(frozenset({1}), is_key=False))
        self.assertEqual(pictures.tiles_of("keyframe unknown\ntile 0 missing\n"), Tiles(frozenset({0})))
        self.assertEqual(pictures.tiles_of(""), Tiles())


if __name__ == "__main__":
    unittest.main()
