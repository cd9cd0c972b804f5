"""The digests of frames that are made without FFmpeg, beside those that FFmpeg's framemd5 writes."""
from __future__ import annotations

import hashlib
import pathlib
import tempfile
import typing
import unittest
import unittest.mock

import makings
from mend_reel.judging import frame_digests, kept_digests
from mend_reel.judging.frame_digests import OwnDigests, is_covered, read_format
from mend_reel.model import Content, Fault, Frame, Layout, Track
from . import made, stand_in
from .test_decoding import BETWEEN, RICE, stored, video

# The bytes of a decoded frame, and the MD5 of each, as FFmpeg 5.1 gives them of the frames of tests/real in a Matroska file.
FFMPEG: typing.Dict[str, typing.Tuple[int, typing.List[str]]] = {
    "bgr0-32x24-4-slices": (3072, ["45dffd5c2c1f629dc55438850104537c"]),
    "bgra-32x24-6-slices": (3072, ["d864b420cd866b9c9a2a685c7a715244"]),
    "ya8-32x24-4-slices": (1536, ["71efa9b8bfb207c49f8629f15ab4a040"]),
    "gbrp10-32x24-4-slices": (4608, ["e4ab284f05e020d823250ea58161016a"]),
    "gbrp16-32x24-4-slices": (4608, ["9745516cd6b216d2fd9fe76e8b6aaa5d"]),
    "gray16-32x24-4-slices": (1536, ["55b55baeb1919ac17f9a80bc9bddfc27"]),
    "gray-48x32-4-slices": (1536, ["5eb79cd6e001af435875e3bf8ee958a6", "eb1ea87171ff5196a5055b3d618ff217"]),
    "yuv420p-36x28-4-slices": (1512, ["0082d023360efb95120ce586f7f5d404"]),
    "yuv422p-32x24-4-slices": (1536, [
        "a5707bb83c252392a193a9a47748cc61", "4df937e30089f007ecdddd389ebfd7a4", "333ee4cedf84e4e85d7c06073c4f1275",
        "980d4d099b48ad3b3d93d2c3519e038b", "740aa5a51351b93f986c589f457047dc", "11b960f52c8cbf3468aecd63889ffb1a",
    ]),
    "yuv422p10-32x24-4-slices": (3072, ["3cac3c104d469eaa93b218e0bf11583d"]),
    "yuv444p12-32x24-4-slices": (4608, ["74bbd37fb4f2875f60f92f20aad71b97"]),
}
HEAD = "#format: frame checksums\n#version: 2\n#hash: {}\n"
STREAM = "#tb {0}: 1/25\n#media_type {0}: {1}\n#codec_id {0}: {2}\n"


def digest_file(size: int, digests: typing.Sequence[str], codec: str = "rawvideo", hash: str = "MD5") -> str:
    """A file of digests of one stream of video."""
    lines = "".join(f"0, {number}, {number}, 1, {size}, {digest}\n" for number, digest in enumerate(digests))
    return HEAD.format(hash) + STREAM.format(0, "video", codec) + lines


class InFile(unittest.TestCase):
    def setUp(self) -> None:
        temporary = tempfile.TemporaryDirectory()
        self.addCleanup(temporary.cleanup)
        self.top = pathlib.Path(temporary.name)
        self.work = self.top / "work"
        self.work.mkdir()
        self.program = stand_in.make(self.top)

    def digests(self, text: str, frames: typing.Sequence[bytes], *tracks: Track, step: float = 0.04) -> typing.Any:
        """What is made of the frames of the first track for a digest file of this text."""
        content, found = b"head", []
        for number, payload in enumerate(frames):
            found.append(Frame(tracks[0].number, step * number, len(content), len(payload)))
            content += payload + b"between"
        self.reported: typing.List[typing.Tuple[int, int]] = []
        with made.opened(content) as (copy,):
            own = OwnDigests(copy, Layout(len(content), list(tracks), found, []), self.program, self.work)
            return own(kept_digests.read_frames(text.splitlines()), lambda *each: self.reported.append(each))

    def of(self, folder: str, frames: typing.Sequence[bytes], **more: typing.Any) -> typing.List[typing.Tuple[str, ...]]:
        size, digests = FFMPEG[folder]
        return self.digests(digest_file(size, digests, **more), frames, video(1, folder)).frames[0]


class DecodedTest(InFile):
    def test_the_digests_of_framemd5(self) -> None:
        for folder, (size, digests) in FFMPEG.items():
            with self.subTest(folder):
                self.assertEqual(self.of(folder, stored(folder, *range(len(digests)))), [("", str(size), digest) for digest in digests])
                self.assertEqual(self.reported, [(number, len(digests)) for number in range(1, len(digests) + 1)])
        self.assertEqual([path.name for path in self.work.iterdir()], ["digested-record"])

    def test_other_hashes(self) -> None:
        samples = b"".join((pathlib.Path(stand_in.__file__).parent.parent / "real" / RICE / "planes-0").read_bytes() for _ in range(1))
        for name, algorithm in ("SHA160", "sha1"), ("SHA256", "sha256"), ("SHA512", "sha512"):
            self.assertEqual(self.of(RICE, stored(RICE, 0), hash=name), [("", "1536", hashlib.new(algorithm, samples).hexdigest())])

    def test_frames_that_cannot_be_decoded_have_none_up_to_the_next_keyframe(self) -> None:
        size, digests = FFMPEG[BETWEEN]
        right = [("", str(size), digest) for digest in digests]
        frames = stored(BETWEEN, *range(6))
        frames[2] = makings.inverted(frames[2], 40)
        self.assertEqual(self.of(BETWEEN, frames), [*right[:2], *[("", "", "")] * 3, right[5]])
        self.assertEqual(self.of(BETWEEN, stored(BETWEEN, *range(6))[1:]), [*[("", "", "")] * 4, right[5]])

    def test_calls_of_few_frames_or_bytes(self) -> None:
        size, digests = FFMPEG[BETWEEN]
        frames, right = stored(BETWEEN, *range(6)), [("", str(size), digest) for digest in digests]
        for name, most in ("MOST_FRAMES", 5), ("MOST_FRAMES", 1), ("MOST_BYTES", 1), ("MOST_BYTES", sum(map(len, frames))):
            with unittest.mock.patch.object(frame_digests, name, most):
                self.assertEqual(self.of(BETWEEN, frames), right)

    def test_a_program_that_fails_is_no_other_original(self) -> None:
        for fault, said in (("memory", "memory"), ("words refused", "words refused"), ("cannot read frame", "cannot read frame")):
            self.program = stand_in.make(self.top, f"if words[0] == 'samples':\n    sys.exit('ffv1restore: {fault}')")
            with self.assertRaisesRegex(Fault, f"^cannot decode the frames of .*: {said}$"):
                self.of(RICE, stored(RICE, 0))


class PacketTest(InFile):
    def test_packets_need_no_program(self) -> None:
        self.program = "/nowhere"
        frames = stored(BETWEEN, 1, 3)
        text = digest_file(1, ["a" * 32] * 2, "ffv1")
        wanted = [("", str(len(frame)), hashlib.md5(frame).hexdigest()) for frame in frames]
        self.assertEqual(self.digests(text, frames, video(1, BETWEEN)).frames[0], wanted)


class LeftTest(InFile):
    """What is left to FFmpeg."""

    def is_left(self, text: str, *tracks: Track, **more: typing.Any) -> bool:
        return self.digests(text, stored(RICE, 0, 1), *(tracks or (video(1, RICE),)), **more) is None

    def test_what_is_no_ffv1_video(self) -> None:
        one = digest_file(*FFMPEG[RICE])
        sound = STREAM.format(1, "audio", "pcm_s16le") + "1, 0, 0, 1, 9216, " + "c" * 32 + "\n"
        self.assertFalse(self.is_left(one))
        self.assertTrue(self.is_left(one + sound))
        self.assertTrue(self.is_left(one + sound, video(1, RICE), Track(2, Content.SOUND, "pcm_s16le")))
        self.assertTrue(self.is_left(one, Track(1, Content.VIDEO, "mpeg4"), video(2, RICE)))
        self.assertTrue(self.is_left(one, Track(2, Content.SOUND, "flac")))

    def test_codecs_and_hashes_that_are_not_known_here(self) -> None:
        for text in (digest_file(*FFMPEG[RICE], codec="wrapped_avframe"), digest_file(*FFMPEG[RICE], codec="png"),
                     digest_file(*FFMPEG[RICE], hash="murmur3"), digest_file(*FFMPEG[RICE], hash="CRC32"),
                     digest_file(*FFMPEG[RICE]).replace("#codec_id", "#other"), digest_file(*FFMPEG[RICE]).replace("#media_type", "#other")):
            self.assertTrue(self.is_left(text))

    def test_frames_that_do_not_lie_in_the_order_of_their_times(self) -> None:
        self.assertTrue(self.is_left(digest_file(*FFMPEG[RICE]), step=0.0))
        self.assertTrue(self.is_left(digest_file(*FFMPEG[RICE]), step=-0.04))

    def test_a_record_that_is_refused(self) -> None:
        other = Track(1, Content.VIDEO, "ffv1", True, 48, 32, makings.inverted(video(1, RICE).record, 3))
        self.assertTrue(self.is_left(digest_file(*FFMPEG[RICE]), other))


class FormatTest(unittest.TestCase):
    def test_a_format_that_ffmpeg_lacks(self) -> None:
        lines = ["coder 1 colorspace 0 depth 10", "planes 2 shift 0 0", "grid 2x2 tiles 4", "format -"]
        self.assertIsNone(read_format(lines, 32, 24))

    def test_sizes(self) -> None:
        for planes, shifts, depth, name, size in (
            (1, "0 0", 8, "gray", 63), (3, "1 1", 8, "yuv420p", 63 + 2 * 5 * 4), (4, "1 0", 10, "yuva422p10le", 2 * (2 * 63 + 2 * 5 * 7)),
            (3, "2 2", 8, "yuv410p", 63 + 2 * 3 * 2),
        ):
            found = read_format([f"coder 0 colorspace 0 depth {depth}", f"planes {planes} shift {shifts}", "grid 1x1 tiles 1", f"format {name}"], 9, 7)
            self.assertEqual(found, (size, ()))

    def test_places_that_no_slice_has(self) -> None:
        self.assertFalse(is_covered(3, 2, 1))
        for side in range(1, 40):
            for parts in range(1, min(side, 9) + 1):
                for shift in range(3):
                    edges = [side * number // parts for number in range(parts + 1)]
                    covered = {place for start, end in zip(edges, edges[1:]) for place in range(start >> shift, (start >> shift) + -(-(end - start) >> shift))}
                    self.assertEqual(is_covered(side, parts, shift), set(range(-(-side >> shift))) <= covered, (side, parts, shift))


class ComparedTest(InFile):
    """A digest file beside the frames of a file, without FFmpeg."""

    def compare(self, text: str, frames: typing.Sequence[bytes]) -> kept_digests.Compared:
        (self.top / "kept").write_text(text)
        found = self.digests(text, frames, video(1, BETWEEN))
        with unittest.mock.patch.object(kept_digests, "make_frames", side_effect=AssertionError("FFmpeg is asked")):
            return kept_digests.compare(str(self.top / "kept"), "/nowhere", "out.mkv", [], own=lambda wanted, report: found)

    def test_the_original_and_another_file(self) -> None:
        text, frames = digest_file(*FFMPEG[BETWEEN]), stored(BETWEEN, *range(6))
        same = self.compare(text, frames)
        self.assertEqual(same.text, f"out.mkv has the original's frames: the digests of all 6 decoded frames are those of {self.top / 'kept'}")
        self.assertTrue(same.is_original)
        for others, said in ((frames[:5], "frame 5"), ([*frames, frames[5]], "frame 6"), ([*frames[:5], frames[0]], "frame 5"),
                             ([*frames[:3], makings.inverted(frames[3], 40), *frames[4:]], "frames 3 to 4")):
            found = self.compare(text, others)
            self.assertEqual((found.is_original, found.text.rpartition("differ: ")[2]), (False, f"stream 0: {said}"))

    def test_what_is_not_made_here_is_left_to_ffmpeg(self) -> None:
        text = digest_file(*FFMPEG[RICE])
        (self.top / "kept").write_text(text)
        with unittest.mock.patch.object(kept_digests, "make_frames", return_value=kept_digests.read_frames(text.splitlines())) as asked:
            found = kept_digests.compare(str(self.top / "kept"), "/a.mkv", "out.mkv", [], own=lambda wanted, report: None)
        self.assertTrue(found.is_original)
        self.assertEqual(asked.call_args[0][0], "/a.mkv")


if __name__ == "__main__":
    unittest.main()
