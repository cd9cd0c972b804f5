"""Where the frames of one file lie in another."""
import contextlib
import dataclasses
import unittest

from mend_reel.copies.frame_pairing import Recording, carried, complete, pair, search_bytes, share
from . import made
from .framed import VIDEO, frame, plain_file

FRAMES = [frame(number, 40 + number, 60) for number in range(12)]


class PairingTest(unittest.TestCase):
    def setUp(self):
        self.stack = contextlib.ExitStack()
        self.addCleanup(self.stack.close)

    def recording(self, frames, times=None, gap=8, damage=None, track=1):
        """A file of some frames, at other times than theirs if some are given."""
        content, layout = plain_file(frames, gap)
        layout.frames = [dataclasses.replace(each, track=track, time=round(time, 3)) for each, time in
                         zip(layout.frames, times or [each.time for each in layout.frames])]
        content = damage(bytearray(content), layout) if damage else content
        return Recording(self.stack.enter_context(made.opened(bytes(content))), layout)

    def numbers(self, pairing, theirs):
        """The frames that are paired, by their numbers in both files."""
        return {number: next(at for at, each in enumerate(theirs.layout.frames) if each.place == place) for number, place in pairing.places.items()}

    def test_a_file_written_anew(self):
        ours, theirs = self.recording(FRAMES), self.recording(FRAMES, gap=30)
        self.assertEqual(self.numbers(pair(ours, theirs), theirs), {number: number for number in range(12)})

    def test_a_file_cut_at_its_begin_starts_at_zero(self):
        ours, theirs = self.recording(FRAMES), self.recording(FRAMES[4:])
        pairing = pair(ours, theirs)
        self.assertEqual(self.numbers(pairing, theirs), {number: number - 4 for number in range(4, 12)})
        self.assertEqual((pairing.unplaced, pairing.contrary), ([], []))

    def test_a_frame_with_a_damaged_end_is_paired_by_its_time(self):
        def damage(content, layout):
            for number in (0, 5, 11):
                content[layout.frames[number].end - 4] ^= 1
            return content

        ours, theirs = self.recording(FRAMES, damage=damage), self.recording(FRAMES[1:], gap=30)
        self.assertEqual(self.numbers(pair(ours, theirs), theirs), {number: number - 1 for number in range(1, 12)})

    def test_an_avi_file_that_lost_a_packet_has_all_after_it_early(self):
        def damage(content, layout):
            content[layout.frames[8].end - 4] ^= 1
            return content

        alike = [frame(number, 50) for number in range(12)]
        ours, theirs = self.recording(alike, damage=damage), self.recording(alike[:5] + alike[6:])
        self.assertEqual(self.numbers(pair(ours, theirs), theirs), {number: number - (number > 5) for number in range(12) if number != 5})

    def test_what_lies_between_frames_with_other_offsets_is_not_paired_by_time(self):
        def damage(content, layout):
            for number in (4, 6):
                content[layout.frames[number].end - 4] ^= 1
            return content

        alike = [frame(number, 50) for number in range(12)]
        ours, theirs = self.recording(alike, damage=damage), self.recording(alike[:5] + alike[6:])
        self.assertEqual(sorted(pair(ours, theirs).places), [0, 1, 2, 3, 7, 8, 9, 10, 11])

    def test_a_frame_that_comes_twice(self):
        ours = self.recording(FRAMES)
        theirs = self.recording([*FRAMES[:4], frame(70, 43, 60)], [0, 0.04, 0.08, 0.12, 0.12])
        pairing = pair(ours, theirs)
        self.assertEqual((pairing.places[3], len(pairing.contrary)), (theirs.layout.frames[3].place, 1))

    def test_frames_that_the_first_file_lacks(self):
        ours, theirs = self.recording(FRAMES[:6]), self.recording(FRAMES)
        pairing = pair(ours, theirs)
        self.assertEqual([round(each.time, 3) for each in pairing.unplaced], [0.24, 0.28, 0.32, 0.36, 0.4, 0.44])

    def test_a_frame_of_another_size(self):
        other = list(FRAMES)
        other[3] = frame(77, 200)
        ours, theirs = self.recording(FRAMES), self.recording(other)
        pairing = pair(ours, theirs)
        self.assertNotIn(3, pairing.places)
        self.assertEqual([each.time for each in pairing.contrary], [0.12])

    def test_two_tracks_are_not_mixed_up(self):
        ours, theirs = self.recording(FRAMES), self.recording(FRAMES)
        for number in range(0, 12, 2):
            ours.layout.frames[number] = dataclasses.replace(ours.layout.frames[number], track=5)
            theirs.layout.frames[number] = dataclasses.replace(theirs.layout.frames[number], track=0, time=theirs.layout.frames[number].time + 1)
        pairing = pair(ours, theirs)
        self.assertEqual(self.numbers(pairing, theirs), {number: number for number in range(12)})
        self.assertEqual(pairing.unplaced, [])

    def test_a_track_that_the_first_file_lacks(self):
        ours, theirs = self.recording(FRAMES[:6]), self.recording(FRAMES)
        theirs.layout.frames[6:] = [dataclasses.replace(each, track=2) for each in theirs.layout.frames[6:]]
        self.assertEqual(len(pair(ours, theirs).unplaced), 6)

    def test_carried(self):
        self.assertEqual(carried([None, 1, None, 2, None]), [None, 1, 1, 2, 2])

    # ---- what two files share

    def test_files_of_one_recording_share_a_slice(self):
        def damage(content, layout):
            for each in layout.frames:
                content[each.place + 3] ^= 1
            return content

        ours, theirs = self.recording(FRAMES), self.recording(FRAMES, gap=30, damage=damage)
        self.assertTrue(share(ours, theirs, pair(ours, theirs)))

    def test_files_of_other_recordings_do_not(self):
        ours, theirs = self.recording(FRAMES), self.recording([frame(50 + number, 40 + number, 60) for number in range(12)])
        pairing = pair(ours, theirs)
        self.assertEqual(len(pairing.places), 12)
        self.assertFalse(share(ours, theirs, pairing))

    def test_one_frame_alone_is_shared(self):
        for shared in (0, 7, 11):
            other = [frame(50 * (number != shared) + number, 40 + number, 60) for number in range(12)]
            ours, theirs = self.recording(FRAMES), self.recording(other)
            self.assertTrue(share(ours, theirs, pair(ours, theirs)))

    # ---- by the bytes that a file lost

    def shifted(self, cut, size, damage=None, zeros=0, places=None):
        """Where frames are found in a file that lost bytes, and no container says so."""
        ours = self.recording(FRAMES)
        content = bytearray(ours.copies[0].read(0, ours.layout.size))
        if damage:
            damage(content, ours.layout)
        content[cut : cut + size] = bytes(zeros)
        theirs = self.stack.enter_context(made.opened(bytes(content)))
        return ours.layout.frames, complete(ours, theirs, places or {})

    def test_a_file_that_lost_bytes_in_its_middle(self):
        frames, _ = self.shifted(0, 0)
        cut = frames[5].place + 10
        frames, places = self.shifted(cut, 21)
        self.assertEqual(places, {number: each.place - 21 * (number > 5) for number, each in enumerate(frames) if number != 5}
                         | {5: frames[5].place - 21})

    def test_a_file_that_lost_its_begin(self):
        frames, places = self.shifted(0, 500)
        found = {number: each.place - 500 for number, each in enumerate(frames) if each.end - 500 >= each.size}
        self.assertEqual(places, found)

    def test_a_frame_with_a_damaged_end_lies_between_its_neighbours(self):
        def damage(content, layout):
            content[layout.frames[8].end - 5] ^= 1

        frames, places = self.shifted(0, 100, damage)
        self.assertEqual(places[8], frames[8].place - 100)

    def test_places_that_are_known_stay(self):
        frames, places = self.shifted(0, 0, places={3: 7})
        self.assertEqual(places[3], 7)

    def test_nothing_is_found_in_another_file(self):
        ours = self.recording(FRAMES)
        theirs = self.stack.enter_context(made.opened(made.noise(5, 9000)))
        self.assertEqual(complete(ours, theirs, {}), {})

    def test_lost_sectors_are_no_frames(self):
        ours = self.recording([frame(1, 50)[:-40] + bytes(40), frame(2, 50)])
        theirs = self.stack.enter_context(made.opened(bytes(5000)))
        self.assertEqual(complete(ours, theirs, {}), {})

    def test_bytes_are_found_over_the_pieces_that_are_read(self):
        content = bytes((1 << 20) - 10) + b"wanted bytes that cross" + bytes(100)
        with made.opened(content) as (copy,):
            self.assertEqual(search_bytes(copy, b"wanted bytes that cross", 5, len(content)), (1 << 20) - 10)
            self.assertIsNone(search_bytes(copy, b"wanted bytes that cross", 5, (1 << 20) + 5))
            self.assertIsNone(search_bytes(copy, b"wanted bytes", (1 << 20) - 9, len(content)))


class FarTest(unittest.TestCase):
    def test_a_loss_longer_than_what_is_looked_at_near_by(self):
        frames = [frame(number, 60) for number in range(60)]
        content, layout = plain_file(frames)
        middle = layout.frames[20].place
        long = content[:middle] + bytes(3 << 20) + content[middle:]
        moved = [each if number < 20 else dataclasses.replace(each, place=each.place + (3 << 20)) for number, each in enumerate(layout.frames)]
        with made.opened(long) as ours, made.opened(content) as theirs:
            recording = Recording(ours, dataclasses.replace(layout, frames=moved, size=len(long), tracks=[VIDEO]))
            places = complete(recording, theirs, {0: layout.frames[0].place})
            self.assertEqual(places, {number: each.place for number, each in enumerate(layout.frames)})
