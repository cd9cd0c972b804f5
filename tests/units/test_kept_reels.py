"""Whole runs that keep and show frames of any recording, with a stand-in for ffv1restore and without FFmpeg."""
from __future__ import annotations

import base64
import dataclasses
import re
import types
import unittest
from unittest import mock

import any_holdings
import readings
from mend_reel.judging.results import FrameResult, FrameState, Results
from mend_reel.model import Frame, Layout, SliceReport
from mend_reel.program import session
from mend_reel.reports.pictures import LONGEST, picture, shape_of, tiles_of
from . import made
from .test_command import InFolder, TESTS
from .test_pictures import decoded

REAL = TESTS / "real"
STEP = 40


def reel(folder: str, frames: list[bytes], keys: bool = True) -> bytes:
    """A Matroska file of a recording of tests/real with these frames."""
    width, height = map(int, folder.split("-")[1].split("x"))
    video = made.element(0xE0, made.number(0xB0, width), made.number(0xBA, height))
    entry = made.element(0xAE, made.number(0xD7, 1), made.number(0x73C5, 1), made.number(0x83, 1), made.element(0x86, b"V_FFV1"),
                         made.element(0x63A2, (REAL / folder / "record").read_bytes()), made.number(0x23E383, STEP * 1_000_000), video)
    clusters = [made.cluster(STEP * number, made.block(1, 0, frame, flags=0x80 if keys else 0)) for number, frame in enumerate(frames)]
    return made.ebml_header() + made.element(made.SEGMENT, made.information(STEP * len(frames), True), made.tracks(entry), *clusters)


class KeptReelsTest(InFolder):
    def environment(self) -> dict[str, str]:
        return dict(super().environment(), PATH=str(self.work))

    def frame(self, folder: str, name: str = "frame-0") -> bytes:
        return (REAL / folder / name).read_bytes()

    def run_on(self, folder: str, place: int, name: str = "frame-0") -> list[str]:
        """Runs over two copies of a recording of three frames: in both the second one is damaged at this place, and the third one at other
        places. The lines that are printed."""
        frame = self.frame(folder, name)
        whole = reel(folder, [frame] * 3, name == "frame-0")
        starts = [found.start() for found in re.finditer(re.escape(frame), whole)]
        for each, other in (("a", 0), ("b", 1)):
            self.write(f"{each}.mkv", made.damaged(whole, starts[1] + place, starts[2] + len(frame) // 2 + other))
        done = self.call("--force", "--keep", "kept", "--pictures", "pictures", "--report", "page.html", "-o", "out.mkv", "a.mkv", "b.mkv")
        self.assertEqual((done.returncode, done.stderr), (3, b""))
        return done.stdout.decode().splitlines()

    def shown(self) -> list[bytes]:
        """The pictures in the page."""
        return [base64.b64decode(each) for each in re.findall(r'src="data:image/png;base64,([^"]*)"', self.read("page.html").decode())]

    def test_what_is_kept_of_any_recording(self) -> None:
        for folder, magic in (("yuv420p10-48x40-6-slices", any_holdings.MAGIC), ("bgra-32x28-4-slices", any_holdings.MAGIC),
                              ("ya8-32x24-4-slices", any_holdings.MAGIC), ("gray-48x32-4-slices", readings.MAGIC)):
            with self.subTest(folder):
                whole, size = self.frame(folder), tuple(map(int, folder.split("-")[1].split("x")))
                record, (start, _) = (REAL / folder / "record").read_bytes(), readings.links(whole)[0][1]
                lines, lost = self.run_on(folder, start + 3), made.damaged(whole, start + 3)
                self.assertEqual([line for line in lines if "kept" in line or "shown" in line], [])
                holds, printed = any_holdings.took(record, size, [lost])
                self.assertEqual((self.read("kept/frame-1.hold"), holds[:7]), (holds, magic))
                self.assertNotIn("kept/frame-0.hold", self.names())
                self.assertIn("kept/frame-2.report", self.names())
                samples, said, _ = any_holdings.pictured(holds)
                shape, _ = shape_of(readings.setup_text(readings.recording_of(record, size)).decode(), size)
                self.assertEqual(self.read("pictures/frame-1.png"), picture(shape, samples))
                lost_tiles = tiles_of(said.decode()).lost
                self.assertEqual((self.shown()[-1], len(lost_tiles)), (picture(shape, samples, lost_tiles, LONGEST), 1))

    def test_frames_that_are_no_keyframes(self) -> None:
        """Where tile 0 is undamaged its slice says it, else the container does: then nothing is decoded either. With a record in the profile the
        holding's magic says it too."""
        for folder, name, magics in (("gray16-40x32-4-slices", "frame-2", (any_holdings.MAGIC, any_holdings.MAGIC)),
                                     ("yuv420p-32x24-4-slices", "frame-13", (readings.MAGIC, any_holdings.MAGIC))):
            whole, (right, lower) = self.frame(folder, name), (int(side) - 1 for side in folder.split("-")[1].split("x"))
            for place, tile, magic in ((-1, 0, magics[0]), (0, 3, magics[1])):
                with self.subTest(folder=folder, tile=tile):
                    start, _ = readings.links(whole)[0][place]
                    self.run_on(folder, start + 3, name)
                    image, blank = decoded(self.shown()[-1]), decoded(self.read("pictures/frame-1.png"))
                    grays = {pixel for row in blank for pixel in row}
                    self.assertEqual(len(grays), 1)
                    self.assertEqual([image[y][x] in grays for x, y in ((0, 0), (right, 0), (0, lower), (right, lower))],
                                     [number != tile for number in range(4)])
                    self.assertIn("no keyframe: undamaged tiles are plain gray", self.read("page.html").decode())
                    self.assertEqual(self.read("kept/frame-1.hold")[:7], magic)

    def test_a_recording_without_parities_keeps_nothing(self) -> None:
        content = (REAL / "matroska-no-parity/reel.mkv").read_bytes()
        self.write("a.mkv", content)
        done = self.call("--keep", "kept", "--pictures", "pictures", "-o", "out.mkv", "a.mkv")
        self.assertIn("no frame of track 1 is kept or shown: its slices have no parities\n", done.stdout.decode())
        self.assertEqual([name for name in self.names() if "/" in name], ["kept/copies", "kept/list"])


class WorstTest(unittest.TestCase):
    def test_the_frames_with_the_most_lost_tiles_are_shown(self) -> None:
        """And of these the first ones, of tracks that can be held alone."""
        frames = [Frame(1 + (number == 6), 0.04 * number, 100 * number, 90) for number in range(8)]
        settled = [4, 1, 3, 1, 4, 1, 0, 0]
        states = [FrameState.LOST] * 7 + [FrameState.WOVEN]
        found = {number: FrameResult(number, number, frame, number, state, (0,), tuple(SliceReport(at, at + 1, "settled") for at in range(count)))
                 for number, (frame, count, state) in enumerate(zip(frames, settled, states))}
        results = Results(Layout(0, [], [], []), [], [], [0])
        results.frames = found
        each = session.Session.__new__(session.Session)
        each.keeper = mock.Mock(is_asked_for=lambda track: track == "one", lost_tiles=lambda track, result: 6 - result.settled())
        with mock.patch.object(session, "MOST_SHOWN", 4):
            shown = each.worst({1: "one", 2: "other"}, types.SimpleNamespace(results=results))
        self.assertEqual([result.number for result in shown], [1, 3, 5, 2])


if __name__ == "__main__":
    unittest.main()
