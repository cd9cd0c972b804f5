"""Whole runs over files whose container a stand-in for ffprobe reads: which frames OUT shows, and what is said of files without checksums."""
from __future__ import annotations

import os
import random
import typing
import unittest

from mend_reel.containers.ffprobe import Packet as ProbedPacket
from mend_reel.containers.ffprobe import Probed
from mend_reel.containers.own_checks import passes, slices
from mend_reel.copies.arrangement import Arrangement
from mend_reel.copies.comparison import Comparison
from mend_reel.copies.inputs import Inputs
from mend_reel.model import MATROSKA, Content, Copy, Kind, Layout, Outcome, State, Stretch, What
from mend_reel.program.session import Attempt, Made
from . import made, toy_ffprobe
from .framed import frame, matroska
from .test_command import GOOD, InFolder
from .test_structure import atom, fragment, trak
from .toy_ffprobe import ENTRY, Packet

FRAMES = [frame(number, 200, 150 + number) for number in range(8)]
ALONE = "alone has it"


def packets_from(place: int, frames: typing.Sequence[bytes], gap: int = 16) -> tuple[list[Packet], bytes]:
    """The packets of a file's frames from a place on, some bytes apart, and the bytes from there."""
    found, content = [], b""
    for number, payload in enumerate(frames):
        content += made.noise(number, gap)
        found.append(Packet(0, 40 * number, place + len(content), len(payload)))
        content += payload
    return found, content


def with_table(frames: typing.Sequence[bytes]) -> bytes:
    """A file that begins with the table of its packets."""
    packets, content = packets_from(64 + len(toy_ffprobe.table([])) + ENTRY.size * len(frames), frames)
    return made.noise(999, 64) + toy_ffprobe.table(packets) + content


def mov(frames: typing.Sequence[bytes], tables: bytes) -> bytes:
    """A MOV file with the table of packets among its media, and tables of its own after them."""
    start = len(atom(b"ftyp", b"qt  ")) + 8
    packets, content = packets_from(start + len(toy_ffprobe.table([])) + ENTRY.size * len(frames), frames)
    return atom(b"ftyp", b"qt  ") + atom(b"mdat", toy_ffprobe.table(packets) + content) + tables


class InToyFolder(InFolder):
    def setUp(self) -> None:
        super().setUp()
        toy_ffprobe.make(self.work.parent)

    def environment(self) -> dict[str, str]:
        return dict(super().environment(), PATH=f"{self.work.parent}{os.pathsep}{os.environ['PATH']}")

    def run_on(self, *contents: bytes) -> tuple[int, str, bytes]:
        """The status, the lines and OUT of a run over copies with these bytes."""
        for number, content in enumerate(contents):
            self.write(f"{number}.bin", content)
        done = self.call("--force", "-o", "out.bin", *(f"{number}.bin" for number in range(len(contents))))
        self.assertEqual(done.stderr.decode(), "")
        return done.returncode, done.stdout.decode(), self.read("out.bin")


class DamagedTest(unittest.TestCase):
    """In which copies a check fails that their own containers lead to."""

    def damaged(self, form: str, places: typing.Sequence[int], marks: str = "10", before: str = "") -> set[int]:
        """Of two copies, the second of which shows packets of 60 bytes at some places: those with a damaged frame from 100 to 160."""
        copies = [Copy("", 0, 200, form, probed=Probed(form, packets=[ProbedPacket(0, 0.0, place, 60, True, place=place) for place in shown]))
                  for shown in ([100], places)]
        stretches = [Stretch(kind, start, size, What(Content.FRAME), (start, start)) for kind, start, size in (
            (Kind.PLAIN, 0, 100), (Kind.FRAME, 100, 60))]
        outcomes = [Outcome(number, State.WHOLE, 0, each) for number, each in ((0, before), (1, marks)) if each]
        layout = Layout(160, [], [], stretches)
        made_ = Made(stretches, outcomes, layout, [], "", {})
        return Attempt(Arrangement([0, 1], layout), layout, Comparison(layout, Inputs(copies, [0, 1], 2), [], [], {}), made_).damaged()

    def test_a_frame_that_a_container_shows(self) -> None:
        self.assertEqual((self.damaged("mov", [100]), self.damaged("mov", [100], before="10")), ({1}, {1}))

    def test_what_another_container_shows_there_is_no_check_of_this_copy(self) -> None:
        self.assertEqual((self.damaged("mov", [104]), self.damaged("mov", [])), (set(), set()))

    def test_in_matroska_the_bytes_before_lead_there(self) -> None:
        self.assertEqual((self.damaged(MATROSKA, []), self.damaged(MATROSKA, [], before="10")), ({1}, set()))


class ShownTest(InToyFolder):
    """OUT shows no fewer right frames than the copy that shows most."""

    @staticmethod
    def right(content: bytes) -> int:
        """How many frames that pass a file shows."""
        shown = [content[packet.place : packet.place + packet.size] for packet in toy_ffprobe.read(content) if packet.stream == 0]
        return sum(bool(links := list(slices(each))) and links[-1][0] == 0 and all(passes(each[start:end]) for start, end in links)
                   for each in shown)

    @staticmethod
    def spoilt(entries: typing.Iterable[int], frames: typing.Iterable[int]) -> bytes:
        """A copy of which some entries of the table, and some frames, are damaged."""
        content = with_table(FRAMES)
        first = content.index(toy_ffprobe.SIGN) + len(toy_ffprobe.SIGN) + 2
        places = [(first + ENTRY.size * number + 8, b"\xff\xfe") for number in entries]
        return made.damaged(content, *places, *(content.index(FRAMES[number]) + 30 for number in frames))

    def test_a_better_copy_whose_table_hides_frames_is_not_followed_in_it(self) -> None:
        worse, better = self.spoilt([2, 3, 4, 5], []), self.spoilt([], [1, 2, 6])
        for contents in ([worse, better], [better, worse]):
            status, lines, out = self.run_on(*contents)
            self.assertEqual((status, self.right(out), out), (3, 8, with_table(FRAMES)))
            self.assertIn("whose container shows most frames", lines)

    def test_tables_that_are_damaged_at_random(self) -> None:
        numbers = random.Random(11)
        for seed in range(3):
            contents = [self.spoilt(*(numbers.sample(range(8), numbers.randrange(7)) for _ in range(2))) for _ in range(2)]
            with self.subTest(seed=seed):
                self.assertGreaterEqual(self.right(self.run_on(*contents)[2]), max(map(self.right, contents)))


class PlainTest(InToyFolder):
    """Files without checksums beside those of their frames."""

    def test_a_copy_that_is_cut_by_one_byte_is_compared_as_far_as_it_goes(self) -> None:
        whole = matroska([(0.04 * number, payload) for number, payload in enumerate(FRAMES)], crc=False)
        whole = made.ebml_header() + made.element(made.SEGMENT, whole[len(made.ebml_header()) + 6 :], made.element(made.VOID, made.noise(5, 1133)))
        status, lines, out = self.run_on(whole, whole[:-1])
        self.assertEqual((status, out), (0, whole))
        spoilt = made.damaged(whole, whole.index(FRAMES[3]) + 30)
        status, lines, out = self.run_on(spoilt, whole[:-1])
        self.assertEqual((status, out), (3, whole))
        self.assertIn(f"(bytes {len(whole) - 1} to {len(whole)}): copy 1 {ALONE}, 1 byte", lines)
        self.assertEqual(lines.count(ALONE), 1)
        lost = whole[:-1133] + bytes(1133)
        status, lines, _ = self.run_on(lost, whole[:-1])
        self.assertEqual((status, lines.count(ALONE)), (3, 0))
        self.assertIn("the copies differ", lines)

    def test_frames_that_tables_of_fragments_count_and_out_does_not_show(self) -> None:
        """Bytes written twice hide frames, from the container and so from the list."""
        tables = atom(b"moov", trak(7, 0) + trak(9, 0)) + fragment(7, 8) + fragment(9, 1)
        whole = mov(FRAMES, tables)
        middle = whole.index(FRAMES[4])
        self.assertEqual(self.run_on(whole[:middle] + whole[middle - 400 :], whole)[2], whole)
        place = whole.index(toy_ffprobe.SIGN) + len(toy_ffprobe.SIGN)
        hiding = made.damaged(whole, (place, (5).to_bytes(2, "big")))
        status, lines, _ = self.run_on(hiding, hiding)
        self.assertEqual(status, 3)
        self.assertIn("OUT has 5 frames, but the file says that it has 8", lines)

    def test_undamaged_files_of_two_containers(self) -> None:
        """The sound of a MOV file has samples, whose number is none of frames; its tracks have other numbers in a Matroska file."""
        one, other = mov(FRAMES, atom(b"moov", trak(1, len(FRAMES)) + trak(2, 96000))), matroska(
            [(0.04 * number, payload) for number, payload in enumerate(FRAMES)])
        for contents in ([one, other], [other, one]):
            status, lines, _ = self.run_on(*contents)
            reasons = [line for line in lines.splitlines()[1:] if "a further copy" in line]
            self.assertEqual((status, reasons), (0, []))
            self.assertNotIn("96000", lines)
            self.assertIn(GOOD, lines)

    def test_it_is_said_where_the_parts_of_a_file_are_not_walked(self) -> None:
        walked = mov(FRAMES, atom(b"moov", trak(1, len(FRAMES)) + trak(2, 5)))
        for content, is_said in ((with_table(FRAMES), True), (walked, False)):
            self.write("0.bin", content)
            done = self.call("--check", "0.bin")
            self.assertEqual((done.returncode, b"whether its parts hang together is not checked" in done.stdout), (0, is_said), done.stdout)

    def test_a_subtitle_that_outlasts_the_video(self) -> None:
        """The file ends with it, as its duration says, and not with its start."""
        subtitle = made.element(0xA0, made.block(3, 300, b"The end", 0xA1, 0), made.number(0x9B, 4700))
        tracks = made.tracks(made.FFV1, made.track(3, b"S_TEXT/UTF8", 0x11))
        clusters = [made.cluster(40 * number, made.block(1, 0, payload)) for number, payload in enumerate(FRAMES)]
        for duration, status in ((5000, 0), (9000, 3)):
            content = made.ebml_header() + made.element(made.SEGMENT, made.information(duration), tracks, *clusters, made.cluster(0, subtitle))
            found = self.run_on(content, content)
            self.assertEqual((found[0], found[2]), (status, content))
            self.assertEqual("OUT ends before" in found[1], status == 3)
