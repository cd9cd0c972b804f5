"""What lies where in a file that FFmpeg reads, over all its copies."""
import dataclasses
import unittest
from unittest import mock

from mend_reel.containers import ffmpeg_files, own_checks, stretch_builder
from mend_reel.containers.ffprobe import Packet, Probed
from mend_reel.model import Claims, Content, Frame, Kind, Track
from . import made
from .framed import SOUND, VIDEO, frame, judge

TRACK = dataclasses.replace(VIDEO, number=0)


def packet(time, place, size, stream=0):
    return Packet(stream, time, place, size, True, 0, place)


class RecordTest(unittest.TestCase):
    def test_records_before_the_first_frame_and_after_the_last_one(self):
        track = Track(0, Content.VIDEO, "ffv1", True, record=made.RECORD)
        for content, place in ((made.noise(1, 70) + made.RECORD + made.noise(2, 400), 70), (made.noise(3, 300) + made.RECORD + b"end", 300)):
            with made.opened(content) as (copy,):
                found = ffmpeg_files.find_records(copy, [track], [Frame(0, 0.0, 100, 150)])
                self.assertEqual([each[:2] for each in found], [(place, place + len(made.RECORD))])
                made_ = ffmpeg_files.cover([copy], [], found, [track], copy.size)
            self.assertEqual([(stretch.kind, stretch.start) for stretch in made_ if stretch.kind is Kind.RECORD], [(Kind.RECORD, place)])


class FlacTest(unittest.TestCase):
    HEAD = bytes.fromhex("fff87a08140effeb")

    def kinds(self, form, *heads):
        """What the packets of a track of FLAC are, whose first bytes each copy has so."""
        copies = [made.damaged(made.noise(1, 200), (50, head)) for head in heads]
        tracks = [TRACK, dataclasses.replace(SOUND, is_flac=True)]
        container = Probed(form, tracks, Claims(), [packet(0, 10, 30), packet(0, 50, 40, 2), packet(0, 90, 40, 2)])
        with made.opened(*copies) as opened, mock.patch.object(ffmpeg_files, "probe", lambda copy: container):
            return [(each.kind, each.start, each.size) for each in ffmpeg_files.layout(opened).stretches if each.what.content is Content.SOUND]

    def test_packets_that_begin_with_a_head_in_some_copy(self):
        broken = made.damaged(self.HEAD, 4)
        for form in ("avi", "nut", "mov"):
            for heads in ([self.HEAD], [self.HEAD, broken], [broken, self.HEAD]):
                self.assertEqual(self.kinds(form, *heads), [(Kind.FLAC, 50, 40), (Kind.PLAIN, 90, 40)])
        self.assertEqual(self.kinds("avi", broken), [(Kind.PLAIN, 50, 80)])

    def test_packets_of_a_container_that_gives_no_sizes(self):
        self.assertEqual(self.kinds("ogg", self.HEAD), [(Kind.PLAIN, 50, 80)])

    def test_heads(self):
        self.assertTrue(own_checks.is_flac(self.HEAD + b"more"))
        self.assertTrue(own_checks.is_flac(b"\xff\xf9\x1c\x08\xc2\x80\x2c" + bytes([own_checks.crc8(b"\xff\xf9\x1c\x08\xc2\x80\x2c")])))
        for at in range(8):
            for bit in range(8):
                self.assertFalse(own_checks.is_flac(made.damaged(self.HEAD, (at, bytes([self.HEAD[at] ^ 1 << bit])))), (at, bit))
        for size in range(8):
            self.assertFalse(own_checks.is_flac(self.HEAD[:size]))
        self.assertFalse(own_checks.is_flac(bytes(16)))


class ProbeTest(unittest.TestCase):
    def layout(self, contents, containers, judged=None):
        with made.opened(*contents) as copies:
            known = {copy.path: container for copy, container in zip(copies, containers)}
            with mock.patch.object(ffmpeg_files, "probe", lambda copy: known[copy.path]):
                layout = ffmpeg_files.layout(copies, judged)
        self.assertEqual(sum(stretch.size for stretch in layout.stretches), layout.size)
        end = 0
        for stretch in layout.stretches:
            self.assertEqual(stretch.start, end)
            self.assertTrue(0 < stretch.size and any(place is not None for place in stretch.places))
            for place, content in zip(stretch.places, contents):
                self.assertEqual(place, stretch.start if stretch.end <= len(content) else None)
            end = stretch.end
        return layout

    def container(self, *packets, form="nut", claims=Claims()):
        return Probed(form, [TRACK, SOUND], claims, list(packets))

    def test_frames_sound_and_what_lies_between(self):
        container = self.container(packet(0, 50, 30), packet(0, 80, 20, 2), packet(0.02, 100, 20, 2), packet(0.04, 130, 30))
        layout = self.layout([made.noise(1, 200)], [container])
        self.assertEqual([(each.kind, each.what.content, each.start, each.end) for each in layout.stretches], [
            (Kind.PLAIN, Content.HEADER, 0, 50), (Kind.FRAME, Content.FRAME, 50, 80), (Kind.PLAIN, Content.SOUND, 80, 120),
            (Kind.PLAIN, Content.UNKNOWN, 120, 130), (Kind.FRAME, Content.FRAME, 130, 160), (Kind.PLAIN, Content.INDEX, 160, 200)])
        self.assertEqual([(each.time, each.place) for each in layout.frames], [(0, 50), (0.04, 130)])
        sound = layout.stretches[2].what
        self.assertEqual((sound.track, sound.start, sound.end), (2, 0, 0.02))

    def test_a_packet_that_one_copy_hides(self):
        one = self.container(packet(0, 50, 30), packet(0.08, 130, 30), packet(0.12, 160, 30))
        other = self.container(packet(0.04, 90, 30), packet(9.99, 130, 30))
        layout = self.layout([made.noise(1, 200)] * 2, [other, one])
        self.assertEqual([(each.time, each.place) for each in layout.frames], [(0, 50), (0.04, 90), (0.08, 130), (0.12, 160)])

    def test_of_packets_that_overlap_the_intact_one_stands(self):
        content = made.noise(1, 50) + frame(1) + made.noise(2, 50)
        wrong = self.container(packet(0, 30, 100), packet(0.04, 320, 10))
        right = self.container(packet(0, 50, len(frame(1))))
        for containers in ([wrong, right], [right, wrong]):
            layout = self.layout([content] * 2, containers, judge)
            self.assertIn((50, len(frame(1))), [(each.place, each.size) for each in layout.frames])
            self.assertNotIn(30, [each.place for each in layout.frames])

    def test_a_copy_that_is_cut_short(self):
        container = self.container(packet(0, 50, 30), packet(0.04, 130, 30))
        layout = self.layout([made.noise(1, 200), made.noise(1, 100), made.noise(1, 140)], [container, self.container(), container])
        self.assertEqual(layout.frames[1].place, 130)
        self.assertIn((80, 100), [(each.start, each.end) for each in layout.stretches])

    def test_a_cut_copy_that_shows_most_frames(self):
        container = self.container(packet(0, 50, 30), packet(0.04, 130, 30))
        layout = self.layout([made.noise(1, 140), made.noise(1, 200)], [container, self.container(packet(0.04, 130, 30))])
        self.assertEqual([each.place for each in layout.frames], [50, 130])

    def test_long_bytes_between_frames_are_divided(self):
        layout = self.layout([bytes(5 << 19)], [self.container(packet(0, 10, 30))])
        self.assertEqual(max(each.size for each in layout.stretches), stretch_builder.MOST_PLAIN)

    def test_frames_of_all_streams(self):
        both = Probed("nut", [TRACK, dataclasses.replace(TRACK, number=1)], Claims(), [packet(0, 50, 30), packet(0, 90, 30, 1)])
        self.assertEqual([each.track for each in self.layout([made.noise(1, 200)], [both]).frames], [0, 1])

    def test_frames_of_an_avi_file_are_counted_anew_where_one_was_hidden(self):
        one = self.container(packet(0, 50, 30), packet(0.04, 130, 30), form="avi")
        other = self.container(packet(0, 50, 30), packet(0.04, 90, 30), form="avi")
        layout = self.layout([made.noise(1, 200)] * 2, [one, other])
        self.assertEqual([each.time for each in layout.frames], [0, 0.04, 0.08])

    def test_sound_that_overlaps_a_frame_is_left_to_the_frame(self):
        layout = self.layout([made.noise(1, 200)], [self.container(packet(0, 50, 30), packet(0, 70, 20, 2), packet(0, 85, 10, 2), packet(0, 90, 9, 2))])
        self.assertEqual([(each.start, each.end) for each in layout.stretches if each.what.content is Content.SOUND], [(85, 95)])

    def test_what_most_copies_claim(self):
        containers = [self.container(packet(0, 50, 30), packet(1, 90, 9), claims=Claims(9.0)), self.container(claims=Claims(2.0)), self.container(claims=Claims(2.0))]
        self.assertEqual(self.layout([made.noise(1, 200)] * 3, containers).claims.duration, 2.0)

    def test_a_file_without_frames(self):
        layout = self.layout([made.noise(1, 200)], [Probed()])
        self.assertEqual((layout.frames, layout.tracks, len(layout.stretches)), ([], [], 1))
