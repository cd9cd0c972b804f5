"""The second reading of any recording: worked rows, what FFmpeg decodes of stored recordings, and the profile."""
from __future__ import annotations

import pathlib
import typing
import unittest

import readings
import sample_reading

TESTS = pathlib.Path(__file__).resolve().parent.parent

GRAY = "5600302849CD9B366CD9B366C6ACF7F3EB"
COLORS = "55F646AE7F76EDDBB76EDDBB72C2D90494C0"
DEEP_COLORS = "55F6505956AF5EBD7AF5EBD7AB900E2777BA"
TWO_TILES = "56002FE240E9D3A74E9D3A74E511B3B9EA0B"
LEFT, RIGHT = "FC158000000300631D7FBA", "3DDEEA00000300C2389FE3"

# A record, the size, frames, and the planes of each.
READ: typing.List[typing.Tuple[str, str, typing.Tuple[int, int], typing.List[str], typing.List[typing.List[typing.List[int]]]]] = [
    ("gray", GRAY, (3, 1), ["FC16482CE59EC400000700FFDBB431"], [[[7, 200, 0]]]),
    (
        "transitions of the record",
        "560873FFEF27DB9FADEC32EBD7AF5EBD7AF5D82F17900C95",
        (3, 1),
        ["FB8D7EDEC3CB4200000700955E5B84"],
        [[[7, 200, 0]]],
    ),
    (
        "16 bits, range-coded",
        "5600679A6DB366CD9B366CD9B1416D0B65EF",
        (2, 2),
        ["FC166AFB8AE324DDDEA0A556DA940B5FBB0000110084CCF840"],
        [[[40000, 20000, 65535, 1]]],
    ),
    (
        "16 bits, Golomb-Rice codes",
        "562BF0B0734E9D3A74E9D3A749FEA0202E13",
        (2, 2),
        ["FC158000063BA0B87A11E049C44000000E00D95971E3"],
        [[[40000, 20000, 65535, 1]]],
    ),
    ("RGB", COLORS, (1, 1), ["FC165CE2C081291A0000080039610CB4"], [[[10], [20], [30]]]),
    (
        "RGB, Golomb-Rice codes",
        "5619E87A09060C183060C182FEA7B7E390",
        (2, 1),
        ["FC158000401E000781001AA18600000D007DC33A26"],
        [[[10, 11], [20, 20], [30, 255]]],
    ),
    ("RGB of 10 bits", DEEP_COLORS, (1, 1), ["FC165E4358843EA5A300000900C9D1F00A"], [[[10], [20], [30]]]),
    (
        "RGB of 10 bits with alpha",
        "55F650809EAF5EBD7AF5EBD7AB6C6DA1E4BB",
        (1, 1),
        ["FD21384FFBED85CD66C7090500000C006BB78A14"],
        [[[10], [20], [30], [1023]]],
    ),
    ("gray with alpha", "5600308520DDBB76EDDBB76ED5BEABFA39", (1, 1), ["FD21323C800000050077931BC4"], [[[10], [20]]]),
    ("no parities", "5600302849CD9B366CD9B366CC837D253D", (1, 1), ["FC1638000003"], [[[5]]]),
    (
        "a frame that is no keyframe",
        GRAY,
        (2, 1),
        ["FC164FF200000400DE0893CF", "7C964A07000004001F40FE4E"],
        [[[9, 9]], [[9, 8]]],
    ),
    (
        "slices of two tiles, the right one first",
        "56002FD228A74E9D3A74E9D3A3FA878FBF38",
        (2, 2),
        ["994556AE000004003D5044B7E093452F00000400D98D25F4"],
        [[[1, 2, 3, 4]]],
    ),
    (
        "states coded as 200",
        "5600302849CD9B366CD9B366D303A3AB47568EAD1D5A3AB47568EAD1D5A3AB47568EAD1D5A3AB47568EAD1D5A3AB47568EAD1D5A3AB47568EAD1D5A3AB47568EAD1D5A3AB47568EACFEEAD9B19",
        (1, 1),
        ["FC15A8CC000004002095ED10"],
        [[[5]]],
    ),
    ("two tiles", TWO_TILES, (2, 1), [LEFT + RIGHT], [[[1, 2]]]),
    ("a difference of -128", GRAY, (1, 1), ["FC16692AEB000005005245CA3E"], [[[128]]]),
]
# A record, the size, a frame, and its fault.
REFUSED: typing.List[typing.Tuple[str, typing.Tuple[int, int], str, typing.Tuple[object, ...]]] = [
    (GRAY, (3, 1), "FC16482CE5000005007CC1348F", ("Content", 0, "Short", 0, 0, 2)),
    (GRAY, (2, 1), "7C964A07000004001F40FE4E", ("Previous", 0)),
    (GRAY, (2, 1), "FC1605000003002A088A80", ("Content", 0, "End")),
    (GRAY, (1, 1), "FC16692A0000000500C08061E2", ("Content", 0, "DifferenceTooLarge", 0, 0, 0)),
    (GRAY, (1, 1), "FC166A15000000050057E2D397", ("Content", 0, "DifferenceTooLarge", 0, 0, 0)),
    (DEEP_COLORS, (1, 1), "FEBD6F3474390A00000700D6C33573", ("Content", 0, "ColorTooLarge", 1, 0, 0)),
    (COLORS, (1, 1), "FC1651AE43FF4100000700D0DBEE22", ("Content", 0, "ColorTooLarge", 0, 0, 0)),
    (COLORS, (1, 1), "FC1651C0D41EB08E000008009DCAAEB0", ("Content", 0, "ColorTooLarge", 0, 0, 0)),
    (TWO_TILES, (2, 1), LEFT, ("Uncovered", 1)),
    (TWO_TILES, (2, 1), LEFT + "F92AEB00000300CC1C0D7E", ("Overlap", 1)),
    (TWO_TILES, (2, 1), LEFT + RIGHT + RIGHT, ("Chain",)),
    (TWO_TILES, (2, 1), LEFT + "288B7A00000300CD8B5460", ("Slice", 1, "OutsideGrid")),
]
# A gray frame of 3 x 1 samples whose slice is not ended as an encoder ends it: its samples, and how many bits are spare.
UNCLEAN = [
    ("FC16482CE59E000006008AA1EB91", [7, 200, 145], 0),
    ("FC16482CE59EC4550000080009E19C2F", [7, 200, 0], 8),
    ("FC16482CE59EC500000700B6D6D3BC", [7, 200, 0], 0),
]
# Records that are refused at 4 x 4, with the number of the fault.
RECORDS = [
    ("560C11BF35AD5AB56AD5AB56AB11BD83231D", 6),
    ("561E66878F8B162C58B162C588912B767BAE", 7),
    ("5619E52849CD9B366CD9B366C6DB6402F6", 7),
    ("562B77D60E62C58B162C58B111C3CA6BB4", 8),
    ("562BF62380122448912244890CF74AB6A46F", 8),
    ("5619E63A1C7AF5EBD7AF5EBD76DBE8D0DEBC", 10),
    ("562B878DF7F8B972E5CB972E5C0F5A8E0EA3", 10),
    ("562B8ABA602850A142850A1416632C493C9D", 16),
    ("55CE7FC7DFA3468D1A3468D1520951EF44", 5),
]


def flat(planes: typing.List[typing.List[typing.List[int]]]) -> typing.List[typing.List[int]]:
    return [[sample for row in rows for sample in row] for rows in planes]


class Rows(unittest.TestCase):
    def test_samples(self) -> None:
        for name, record, size, frames, wanted in READ:
            with self.subTest(name):
                recording = readings.recording_of(bytes.fromhex(record), size)
                found = list(sample_reading.frames_of(recording, map(bytes.fromhex, frames)))
                self.assertEqual([flat(sample_reading.planes_of(recording, slices)) for slices in found], wanted)
                self.assertTrue(all(each.is_clean for slices in found for each in slices))

    def test_faults(self) -> None:
        for record, size, frame, fault in REFUSED:
            with self.subTest(frame):
                recording = readings.recording_of(bytes.fromhex(record), size)
                with self.assertRaises(sample_reading.FrameFault) as raised:
                    sample_reading.frame_of(recording, bytes.fromhex(frame))
                self.assertEqual(raised.exception.args, fault)

    def test_unclean(self) -> None:
        recording = readings.recording_of(bytes.fromhex(GRAY), (3, 1))
        for frame, samples, spare in UNCLEAN:
            with self.subTest(frame):
                (found,) = sample_reading.frame_of(recording, bytes.fromhex(frame))
                self.assertEqual((found.planes, found.spare, found.is_clean), ([[samples]], spare, False))

    def test_records(self) -> None:
        for record, fault in RECORDS:
            with self.subTest(record):
                with self.assertRaises(readings.Fault) as raised:
                    readings.recording_of(bytes.fromhex(record), (4, 4))
                self.assertEqual(raised.exception.args, (fault,))


class Stored(unittest.TestCase):
    def test_samples_of_ffmpeg(self) -> None:
        seen = 0
        for folder in sorted((TESTS / "real").iterdir()):
            wanted = sorted(folder.glob("samples-*"))
            if not wanted:
                continue
            with self.subTest(folder.name):
                size = tuple(int(side) for side in folder.name.split("-")[1].split("x"))
                recording = readings.recording_of((folder / "record").read_bytes(), size)
                payloads = [path.with_name(path.name.replace("samples", "frame")).read_bytes() for path in wanted]
                for slices, path in zip(sample_reading.frames_of(recording, payloads), wanted):
                    self.assertEqual(sample_reading.samples_text(recording, slices, 0), path.read_bytes(), path.name)
                    self.assertTrue(all(each.is_clean for each in slices))
                seen += 1
        self.assertEqual(seen, 11)

    def test_profile_refuses_the_others(self) -> None:
        """But for the record of one that is out of it by its frames between keyframes alone."""
        accepted = []
        for folder in sorted((TESTS / "real").iterdir()):
            if any(folder.glob("samples-*")):
                size = tuple(int(side) for side in folder.name.split("-")[1].split("x"))
                try:
                    readings.recording_of((folder / "record").read_bytes(), size, readings.PROFILE)
                    accepted.append(folder.name)
                except readings.Fault:
                    pass
        self.assertEqual(accepted, ["yuv420p-32x24-4-slices"])


if __name__ == "__main__":
    unittest.main()
