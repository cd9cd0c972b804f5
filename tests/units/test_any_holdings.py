"""The second reading of holdings of any recording: the profile, stored samples, faults of files, and what a comparison with it finds."""
from __future__ import annotations

import pathlib
import random
import typing
import unittest

import any_holdings
import held_frames
import makings
import readings
import sample_reading
import stored
from any_holdings import MAGIC
from readings import Fault

REAL = pathlib.Path(__file__).resolve().parent.parent / "real"
# A recording by FFmpeg's own settings, with a keyframe in twelve frames; its record is in the profile.
DEFAULT = "yuv420p-32x24-4-slices"
OUT_OF_PROFILE = ["yuv420p10-48x40-6-slices", "bgra-32x24-6-slices", "ya8-32x24-4-slices", "yuv420p-36x28-4-slices", "gray16-32x24-4-slices"]
Found = typing.Tuple[typing.Optional[bytes], bytes, int, str]
Run = typing.Callable[[typing.List[str], typing.Dict[str, bytes]], Found]


def named(name: str, frame: str = "frame-0") -> tuple[bytes, tuple[int, int], bytes]:
    """The record, the size and a frame of a recording of tests/real."""
    width, height = map(int, name.split("-")[1].split("x"))
    return (REAL / name / "record").read_bytes(), (width, height), (REAL / name / frame).read_bytes()


def called(words: list[str], files: dict[str, bytes]) -> Found:
    """What a command makes, prints and reports of files with these contents, and its status, by the second reading."""
    is_any = words[1] == "--any"
    name, given = words[0], words[1 + is_any :]
    contents = [files[word] for word in given if word in files]
    try:
        if name == "take":
            made, printed = any_holdings.took(contents[0], (int(given[1]), int(given[2])), contents[1:], is_any)
            return made, printed, any_holdings.take_status(printed), ""
        if name in ("join", "merge"):
            made, printed = any_holdings.joined(contents, is_any)
            return made, printed if name == "join" else b"", 0, ""
        if name == "report":
            return None, any_holdings.reported(contents[0], is_any), 0, ""
        if name == "picture":
            return *any_holdings.pictured(contents[0], is_any), ""
        payload, lacks = any_holdings.restored(contents[0], is_any)
        return (payload, f"restored {len(payload)} bytes\n".encode(), 0, "") if lacks is None else (None, b"", 1, lacks)
    except Fault as fault:
        return None, b"", 1, f"{'setup' if name == 'take' else 'holding file'} fault {fault.args[0]}"


class ReadingTest(unittest.TestCase):
    def assert_fault(self, number: int, text: bytes, is_any: bool = True) -> None:
        with self.assertRaises(Fault) as raised:
            any_holdings.read_holding(text, is_any)
        self.assertEqual(raised.exception.args, (number,))

    def test_holdings_of_the_profile_are_those_that_they_were(self) -> None:
        for recording in stored.recordings()[:6]:
            for payload in recording.frames.values():
                held = readings.taken(recording.setup, payload)
                for is_any in (False, True):
                    text, _ = any_holdings.took(recording.record, recording.size, [payload], is_any)
                    self.assertEqual(text, readings.holding_text(recording.record, recording.size, held))
                    self.assertEqual(any_holdings.reported(text, is_any), readings.report_text(recording.size, held, readings.tiles_of(recording.setup)))
                    self.assertEqual(any_holdings.read_holding(text, is_any)[2], held)
            for text in recording.holdings:
                self.assertEqual(any_holdings.read_holding(text, True)[2], readings.read_holding(text)[3])

    def test_frames_come_back_and_keyframes_are_shown(self) -> None:
        for name in OUT_OF_PROFILE:
            record, size, frame = named(name)
            text, printed = any_holdings.took(record, size, held_frames.halves(frame))
            self.assertEqual((text[:8], any_holdings.restored(text)), (MAGIC + b"\1", (frame, None)))
            samples, lines, status = any_holdings.pictured(text)
            recording = readings.recording_of(record, size)
            self.assertEqual((samples, lines, status), (sample_reading.samples_text(recording, sample_reading.frame_of(recording, frame)), b"", 0))
            tiles = readings.tiles_of(recording)
            self.assertEqual(printed.decode().splitlines(), [f"copy {number} links {tiles} slices {tiles // 2} new {tiles // 2}" for number in (1, 2)])

    def test_a_frame_that_is_no_keyframe(self) -> None:
        record, size, frame = named("yuv422p-32x24-4-slices", "frame-1")
        whole = any_holdings.took(record, size, [frame])[0]
        self.assertEqual(any_holdings.pictured(whole), (b"\x80" * (32 * 24 * 2), b"".join(b"tile %d no keyframe\n" % tile for tile in range(4)), 3))
        self.assertEqual(any_holdings.restored(whole), (frame, None))
        lacks = [any_holdings.took(record, size, [half])[0] for half in held_frames.halves(frame)]
        lines = [any_holdings.pictured(text)[1].decode() for text in lacks]
        # Only the slice of tile 0 says it.
        self.assertEqual([("tile 0 missing" in each, "no keyframe" in each) for each in lines], [(False, True), (True, False)])

    def test_faults_of_files(self) -> None:
        record, size, frame = named("yuv420p10-48x40-6-slices")
        text, _ = any_holdings.took(record, size, [frame])
        self.assert_fault(1, text, False)
        self.assert_fault(1, MAGIC + b"\2" + text[8:])
        self.assert_fault(1, b"FFV1HLE\1" + text[8:])
        self.assert_fault(2, readings.MAGIC + b"\2" + text[8:])
        for end, number in ((0, 3), (7, 3), (19, 3), (len(text) - 1, 3)):
            self.assert_fault(number, text[:end])
        self.assert_fault(7, text + b"\0")
        self.assert_fault(4, text[:-1] + b"\2")
        place = text.index(frame[:30])
        self.assert_fault(6, text[:place] + b"\xff" + text[place + 1 :])
        record, size, frame = named("yuv444p12-32x24-4-slices")
        with self.assertRaisesRegex(Fault, "16"):
            any_holdings.took(record, size, [frame])

    def test_the_first_entry_of_a_file_whose_record_is_in_the_profile(self) -> None:
        """After the other magic it is a slice of tile 0 of a frame between keyframes. That is judged when its slice was read, or else the end tag."""
        record, size, frame = named("gray-48x32-4-slices")
        text, end = MAGIC + b"\1" + any_holdings.took(record, size, [frame])[0][8:], 20 + len(record)
        first = end + 7 + len(readings.links(frame)[0][-1][1])
        self.assert_fault(2, text[:20] + b"\xff" + text[21:])
        for cut, number in ((end - 1, 3), (end, 3), (first - 1, 3), (first, 1), (len(text), 1)):
            self.assert_fault(number, text[:cut])
        for tail, number in ((b"\0", 1), (b"\0\0", 1), (b"\2", 4)):
            self.assert_fault(number, text[:end] + tail)
        record, size, frame = named(DEFAULT, "frame-13")
        text, end = any_holdings.took(record, size, [frame])[0], 20 + len(record)
        entry = text[end : end + 7 + len(readings.links(frame)[0][-1][1])]
        self.assertEqual(text[:8], MAGIC + b"\1")
        for changed, number in ((readings.MAGIC + b"\2" + text[8:], 6), (text[:end] + entry + bytes([0, 0, 0, 1]), 3),
                                (text[:end] + text[end + len(entry) + 36 :], 1), (text[: end + 10] + b"\0" + text[end + 11 :], 6)):
            self.assert_fault(number, changed)
        # One that is only begun need not have an entry.
        self.assertEqual(any_holdings.read_holding(text[:end] + b"\0", True, is_begun=True)[2], {})

    def test_frames_between_keyframes_of_a_record_in_the_profile(self) -> None:
        """Their slices are held with --any alone, and that of tile 0 says so in the magic of the file; files of both magics are joined."""
        record, size, frame = named(DEFAULT, "frame-13")
        recording = any_holdings.recording_of(record, size, True)
        self.assertTrue(any_holdings.is_in_profile(recording))
        lacks_last, lacks_first = (any_holdings.took(record, size, [half])[0] for half in held_frames.halves(frame))
        self.assertEqual([text[:8] for text in (lacks_first, lacks_last)], [readings.MAGIC + b"\2", MAGIC + b"\1"])
        whole = any_holdings.took(record, size, held_frames.halves(frame))[0]
        self.assertEqual([any_holdings.joined(texts)[0] for texts in ([lacks_first, lacks_last], [lacks_last, lacks_first, lacks_first])], [whole] * 2)
        self.assertEqual((whole[:8], any_holdings.restored(whole)), (MAGIC + b"\1", (frame, None)))
        text, printed = any_holdings.took(record, size, [frame], False)
        self.assertEqual((text[:8], printed, any_holdings.restored(text, False)),
                         (readings.MAGIC + b"\2", b"copy 1 links 4 slices 3 new 3\n", (None, "missing tile 0")))
        self.assert_fault(1, whole, False)
        for name in ("frame-00", "frame-12", "frame-24"):
            key = named(DEFAULT, name)[2]
            plain, other = any_holdings.took(record, size, [key], False)[0], any_holdings.took(record, size, [key, frame])[0]
            self.assertEqual([any_holdings.took(record, size, [key])[0], plain[:8], other[:8]], [plain, readings.MAGIC + b"\2", MAGIC + b"\1"])

    def test_a_keyframe_bit_of_0_is_no_slice_of_the_profile(self) -> None:
        """With --any it is one."""
        record = makings.record_of((1, 1))
        recording = any_holdings.recording_of(record, (8, 8), True)
        self.assertTrue(any_holdings.is_in_profile(recording))
        for key in (0, 1):
            encoder, row = makings.Encoder(), [128] * 32
            encoder.bit([128], 0, key)
            for number in [0] * 9:
                encoder.number(row, number)
            piece = readings.sliced(encoder.header() + b"codes")
            self.assertEqual(any_holdings.tile_of(recording, piece, True, False), readings.tile_of(recording, piece, True))
            self.assertEqual(any_holdings.tile_of(recording, piece, True, False), 0 if key else None)
            self.assertEqual(any_holdings.tile_of(recording, piece, True), 0)
            self.assertEqual(any_holdings.is_between(recording, 0, piece), not key)
            self.assertEqual(any_holdings.tile_of(recording._replace(depth=10), piece, True), 0)
            self.assertIsNone(any_holdings.tile_of(recording._replace(depth=10), piece, False))


class ComparisonTest(unittest.TestCase):
    """What is found where a program makes something else."""

    def difference(self, name: str, frame: str = "frame-0", wrong: typing.Callable[[Run, list[str], dict[str, bytes]], Found] | None = None) -> str | None:
        record, size, payload = named(name, frame)
        recording = readings.recording_of(record, size)
        before = [named(name, path.name)[2] for path in sorted((REAL / name).glob("frame-*")) if path.name < frame]
        slices = list(sample_reading.frames_of(recording, [*before, payload]))[-1]
        run = called if wrong is None else lambda words, files: wrong(called, words, files)
        return held_frames.difference(held_frames.Held(run, record, size), random.Random(3), payload, slices)

    def test_the_second_reading_is_as_it_has_to_be(self) -> None:
        for name in ("yuv420p10-48x40-6-slices", "gray-48x32-4-slices", "bgra-32x24-6-slices"):
            self.assertIsNone(self.difference(name))
        self.assertIsNone(self.difference("yuv422p-32x24-4-slices", "frame-1"))
        for frame in ("frame-00", "frame-01", "frame-13"):
            self.assertIsNone(self.difference(DEFAULT, frame))

    def test_wrong_programs_are_found(self) -> None:
        def lost(run: Run, words: list[str], files: dict[str, bytes]) -> Found:
            """`merge` gives back its first file."""
            return (files["hold-0"], b"", 0, "") if words[0] == "merge" and "--any" in words else run(words, files)

        def old(run: Run, words: list[str], files: dict[str, bytes]) -> Found:
            """Each holding has the profile's magic."""
            made, *others = run(words, files)
            return (readings.MAGIC + b"\2" + made[8:], *others) if words[0] == "take" and made else (made, *others)

        def accepting(run: Run, words: list[str], files: dict[str, bytes]) -> Found:
            """A recording out of the profile is taken without --any."""
            return run(["take", "--any", *words[1:]] if words[0] == "take" and words[1] != "--any" else words, files)

        def blank(run: Run, words: list[str], files: dict[str, bytes]) -> Found:
            """`picture` draws nothing."""
            made, *others = run(words, files)
            return (b"\0" * len(made), *others) if words[0] == "picture" and made else (made, *others)

        def silent(run: Run, words: list[str], files: dict[str, bytes]) -> Found:
            """`report` names no origins."""
            made, printed, *others = run(words, files)
            return made, b"".join(line for line in printed.splitlines(True) if b"origin" not in line) if words[0] == "report" else printed, *others

        for wrong, said in ((lost, "merge: another holding"), (old, "take: another holding"), (accepting, "is not refused without --any"),
                            (blank, "picture: other samples"), (silent, "report: other lines")):
            self.assertIn(said, self.difference("yuv420p10-48x40-6-slices", wrong=wrong) or "", wrong.__doc__)
        def keys_alone(run: Run, words: list[str], files: dict[str, bytes]) -> Found:
            """In the profile a slice with the keyframe bit 0 is not held with --any either."""
            return run([words[0], *words[2:]] if words[:2] == ["take", "--any"] else words, files)

        self.assertIn("take: another holding", self.difference(DEFAULT, "frame-13", keys_alone) or "")
        self.assertIn("take: another holding", self.difference(DEFAULT, "frame-13", old) or "")
        self.assertIn("take: another holding without", self.difference(DEFAULT, "frame-13", accepting) or "")
        self.assertIsNone(self.difference(DEFAULT, "frame-12", keys_alone))
        # In the profile the same holding is accepted without the word.
        self.assertIsNone(self.difference("gray-48x32-4-slices", wrong=accepting))

    def test_a_recording_without_parities(self) -> None:
        record, size, frame = named("yuv444p12-32x24-4-slices")
        self.assertIsNone(held_frames.refusal_difference(held_frames.Held(called, record, size), frame))
        accepting = held_frames.Held(lambda words, files: (b"", b"", 0, ""), record, size)
        self.assertIn("is not refused", held_frames.refusal_difference(accepting, frame) or "")


if __name__ == "__main__":
    unittest.main()
