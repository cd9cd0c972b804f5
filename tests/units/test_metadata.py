"""What a Matroska file says of itself, and the footers of slices."""
from __future__ import annotations

import struct
import unittest

from mend_reel.containers import ebml, metadata, own_checks
from mend_reel.model import Content, Track
from . import made


def read(*elements: bytes) -> metadata.Metadata:
    return metadata.read(dict(ebml.children(b"".join(elements))))


class Metadata(unittest.TestCase):
    def test_tracks(self) -> None:
        header = bytes(16) + b"FFV1" + bytes(20)
        windows = made.track(5, b"V_MS/VFW/FOURCC", 1, header + b"extra")
        other = made.track(6, b"V_MS/VFW/FOURCC", 1, header.replace(b"FFV1", b"HFYU"))
        packed = made.track(7, b"V_FFV1", 1, more=made.element(0x6D80, b""))
        found = read(made.tracks(made.FFV1, made.PCM, windows, other, packed)).tracks
        self.assertEqual(found[0], Track(1, Content.VIDEO, "V_FFV1", True, 48, 40, made.RECORD, 0.04))
        self.assertEqual(found[1], Track(2, Content.SOUND, "A_PCM/INT/LIT"))
        self.assertEqual([track.is_encoded for track in found], [False, False, False, False, True])
        self.assertEqual([(track.is_ffv1, track.record) for track in found[2:]], [(True, b"extra"), (False, header.replace(b"FFV1", b"HFYU")), (False, b"")])

    def test_the_record_of_a_mov_file_that_was_taken_over(self) -> None:
        head, atom = bytes(4) + b"FFV1" + bytes(30), (8 + 5).to_bytes(4, "big") + b"glblextra"
        for private, record in ((head + atom + b"fiel", b"extra"), (head, b""), (head[:4] + b"HFYU" + atom, None)):
            self.assertEqual(metadata.record_of("V_QUICKTIME", private), record)

    def test_what_a_file_claims(self) -> None:
        content = made.information(320), made.tracks(), made.cues((0, 1, 9), (80, 1, 10), (80, 2, 10))
        claims = read(*content).claims
        self.assertEqual((claims.duration, claims.counts, claims.index), (0.32, {}, {1: [0.0, 0.08], 2: [0.08]}))
        self.assertIsNone(read(made.tracks()).claims.duration)

    def test_counts_of_frames_are_those_of_the_last_writer(self) -> None:
        def simple(name: bytes, text: bytes) -> bytes:
            return made.element(0x67C8, made.element(0x45A3, name), made.element(0x4487, text))

        information = made.element(made.INFO, made.element(0x5741, b"writer 2"))
        for writer, counts in ((b"writer 2", {1: 8}), (b"writer 1", {}), (None, {})):
            named = simple(b"_STATISTICS_WRITING_APP", writer) if writer else b""
            tags = made.element(made.TAGS, made.element(0x7373, made.element(0x63C0, made.number(0x63C5, 1001)), simple(b"NUMBER_OF_FRAMES", b"8"), named))
            self.assertEqual(read(information, made.tracks(), tags).claims.counts, counts)

    def test_how_many_bytes_of_pcm_play_in_a_second(self) -> None:
        sound = made.element(0xE1, made.element(0xB5, struct.pack(">f", 8000.0)), made.number(0x9F, 2), made.number(0x6264, 16))
        tracks = read(made.tracks(made.FFV1, made.track(2, b"A_PCM/INT/LIT", 2, more=sound), made.track(3, b"A_FLAC", 2, more=sound))).tracks
        self.assertEqual([track.byte_rate for track in tracks], [0.0, 32000.0, 0.0])

    def test_numbers_that_lie(self) -> None:
        for duration in (float("inf"), float("nan"), -1.0):
            self.assertIsNone(metadata.read({metadata.INFORMATION: made.element(0x4489, struct.pack(">d", duration))}).claims.duration)


class Footers(unittest.TestCase):
    def test_starts(self) -> None:
        with made.opened(b"head" + made.frame(1, 30, 20, 10)) as (copy,):
            end = 4 + 60 + 24
            self.assertEqual(list(own_checks.walk(copy.read, 0, end)), [(end - 18, end), (end - 46, end - 18), (4, end - 46)])
            self.assertTrue(own_checks.is_frame(copy, 4, end))
            self.assertFalse(own_checks.is_frame(copy, 3, end))
            self.assertEqual(own_checks.first_within([copy], 2, 9, end), 4)
            self.assertIsNone(own_checks.first_within([copy], 5, 9, end))

    def test_zero_bytes_are_no_slices(self) -> None:
        with made.opened(bytes(64)) as (copy,):
            self.assertFalse(own_checks.is_frame(copy, 0, 64))


if __name__ == "__main__":
    unittest.main()
