"""What ffprobe reports of a file, and where its packets lie."""
import unittest
import zlib

from mend_reel.containers.ffprobe import Packet, locate, read_lines, watched
from mend_reel.model import Content, Copy
from . import made

LINES = """packet|stream_index=0|pts_time=0.000000|dts_time=0.000000|size=6044|pos=36|flags=K_|data_hash=CRC32:dc0ce8f3
packet|stream_index=1|pts_time=N/A|dts_time=0.021333|size=2048|pos=8128|flags=__|data_hash=CRC32:f2e87fc2
packet|stream_index=0|pts_time=N/A|dts_time=N/A|size=10|pos=8128|flags=K_|data_hash=CRC32:f2e87fc2
packet|stream_index=0|pts_time=1.0|dts_time=1.0|size=10|pos=N/A|flags=K_|data_hash=CRC32:f2e87fc2
packet|stream_index=0|pts_time=nan|dts_time=inf|size=10|pos=5|flags=K_|data_hash=CRC32:f2e87fc2
stream|index=0|codec_name=ffv1|codec_type=video|width=160|height=120|avg_frame_rate=30000/1001|nb_frames=50|duration=2.0|start_time=0.5
stream|index=1|codec_name=pcm_s16le|codec_type=audio|avg_frame_rate=0/0|nb_frames=96000
format|format_name={}|duration=2.5
"""


class ReadTest(unittest.TestCase):
    def read(self, form):
        return read_lines(LINES.format(form).splitlines(True))

    def test_packets_with_a_time_and_a_place(self):
        container = self.read("mov,mp4")
        self.assertEqual(container.packets, [Packet(0, 0.0, 36, 6044, True, 0xDC0CE8F3), Packet(1, 0.021333, 8128, 2048, False, 0xF2E87FC2)])
        self.assertEqual(container.form, "mov")
        self.assertEqual(container.video(), {0})

    def test_tracks(self):
        video, sound = self.read("mov,mp4").tracks
        self.assertTrue(video.is_ffv1 and (video.width, video.height) == (160, 120) and abs(video.step - 1001 / 30000) < 1e-9)
        self.assertEqual((sound.content, sound.step, sound.is_ffv1), (Content.SOUND, None, False))

    def test_tracks_of_flac(self):
        lines = [f"stream|index={number}|codec_name={name}|codec_type=audio" for number, name in enumerate(("flac", "pcm_s16le"))]
        self.assertEqual([track.is_flac for track in read_lines(lines).tracks], [True, False])

    def test_what_headers_claim_by_container(self):
        self.assertEqual((self.read("mov,mp4").claims.duration, self.read("mov,mp4").claims.counts[0]), (2.5, 50))
        self.assertEqual(self.read("mov,mp4").claims.ends, {0: 2.5})
        avi = self.read("avi").claims
        self.assertEqual((avi.duration, avi.counts, avi.ends), (2.5, {}, {0: 2.5}))
        self.assertIsNone(self.read("nut").claims.duration)

    def test_who_watches_the_copy_learns_how_far_it_is(self):
        seen = []
        lines = [f"packet|stream_index=0|pos={10 * number}|size=5\n" for number in range(130)]
        self.assertEqual(list(watched(Copy("a", 0, 1300, watch=seen.append), iter(lines))), lines)
        self.assertEqual(seen, [0, 640, 1280])

    def test_lines_that_say_nothing(self):
        container = read_lines(["", "packet", "stream|index=x", "packet|pos=1|size=9999999999999|stream_index=0|pts_time=0|data_hash=CRC32:zz"])
        self.assertEqual((container.packets, container.tracks, container.form), ([], [], ""))


    def test_numbers_that_are_none(self):
        odd = ["packet|pos=1|size=9|stream_index=\u00b2|pts_time=0", "packet|pos=1|size=9|stream_index=0|pts_time=0|data_hash=CRC32:zzzzzzzz",
               f"packet|pos=1|size={'9' * 5000}|stream_index=0|pts_time=0", "stream|index=\u0662", "stream|index=0|nb_frames=\u00b2"]
        container = read_lines(odd)
        self.assertEqual((container.packets, [track.number for track in container.tracks]), ([], [0]))


class LocateTest(unittest.TestCase):
    def packets(self, content, *places, reported=0, size=100):
        return [Packet(0, float(at), place - reported, size, True, zlib.crc32(content[place : place + size])) for at, place in enumerate(places)]

    def test_packets_lie_some_bytes_after_the_reported_place(self):
        content = made.noise(1, 2000)
        with made.opened(content) as (copy,):
            for reported in (0, 4, 8, 37, 63):
                found = locate(copy, self.packets(content, 100, 300, 600, reported=reported), {0, 1})
                self.assertEqual([packet.place for packet in found], [100, 300, 600], reported)

    def test_a_packet_after_the_one_before_it(self):
        content = made.noise(1, 2000)
        first, second = self.packets(content, 100, 200)
        with made.opened(content) as (copy,):
            found = locate(copy, [first, second._replace(reported=110)], {0, 1})
            self.assertEqual([packet.place for packet in found], [100, 200])

    def test_what_is_not_there_has_no_place(self):
        content = made.noise(1, 2000)
        packet = self.packets(content, 100)[0]
        with made.opened(content) as (copy,):
            found = locate(copy, [packet._replace(digest=1), packet._replace(reported=30), packet._replace(size=1 << 40), packet._replace(reported=1990)], {0, 1})
            self.assertEqual([each.place for each in found], [None] * 4)

    def test_streams_have_steps_of_their_own(self):
        content = made.noise(1, 9000)
        first, other = self.packets(content, *range(100, 4000, 200), reported=8), self.packets(content, *range(200, 4100, 200), reported=5)
        mixed = [packet for pair in zip(first, (each._replace(stream=1) for each in other)) for packet in pair]
        with made.opened(content) as (copy,):
            self.assertEqual([packet.place for packet in locate(copy, mixed, {0, 1})], list(range(100, 4100, 100)))

    def test_a_stream_whose_packets_are_lost_does_not_stop_the_search_in_another(self):
        content = made.noise(1, 9000)
        lost = [packet._replace(digest=1, stream=1) for packet in self.packets(content, *range(100, 8000, 200))]
        with made.opened(content) as (copy,):
            found = locate(copy, lost + self.packets(content, 500, 700, reported=37), {0, 1})
            self.assertEqual([packet.place for packet in found[len(lost):]], [500, 700])

    def test_frames_of_a_file_that_lost_bytes_are_looked_for_around(self):
        frames = [made.frame(10 * number, 40, 30 + number) for number in range(8)]
        rest = bytes(5000) + b"".join(frame + made.noise(number, 60) for number, frame in enumerate(frames))
        whole = (8).to_bytes(4, "big") + b"moov" + (8 + len(rest)).to_bytes(4, "big") + b"mdat" + rest
        packets = [Packet(0, 0.04 * number, whole.index(frame), len(frame), True) for number, frame in enumerate(frames)]
        content = whole[:1000] + whole[1512:]
        with made.opened(content) as (copy,):
            self.assertEqual([packet.place for packet in locate(copy, packets, {0})], [content.index(frame) for frame in frames])

    def test_without_a_digest_footers_show_where_a_frame_lies(self):
        frame = made.frame(3, 40, 30)
        content = bytes(50) + frame + b"x" + frame[:-8] + b"\xff\xff\xff" + frame[-5:] + bytes(80)
        first = Packet(0, 0.0, 45, len(frame), True)
        broken, sound = first._replace(reported=50 + len(frame)), first._replace(reported=47, stream=1)
        with made.opened(content) as (copy,):
            found = locate(copy, [first, broken, sound], {0})
            self.assertEqual([packet.place for packet in found], [50, None, 47])
