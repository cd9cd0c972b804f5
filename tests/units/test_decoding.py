"""Frames with guessed slices, whether they decode, and where they were guessed."""
import errno
import os
import pathlib
import tempfile
import unittest
import unittest.mock

import makings
import readings
from mend_reel.judging import decoding
from mend_reel.judging.decoding import GuessFinder, SamplesDecoder, decoded, guessed, is_key
from mend_reel.judging.kept_digests import Compared
from mend_reel.judging.reasons import Why
from mend_reel.judging.results import FrameState, NearEnd
from mend_reel.model import Content, Frame, Kind, Outcome, State, Stretch, Track, What
from . import made, stand_in
from .test_verdict import element, missing, plain, recording, repaired, settled, verdict, voted, whys

REAL = pathlib.Path(__file__).resolve().parent.parent / "real"
SLICES = (settled("11", 100), repaired("00", 0, 100))


class DecodedTest(unittest.TestCase):
    def decoded(self, layout, outcomes, answer=True):
        """What is decoded, and what was asked about: the track and the place; and where it decodes the stretch, the place and the slices."""
        asked = []

        def decodes(track, frame):
            asked.append((track.number, frame.place))
            return answer

        def look(stretch, frame, slices):
            asked.append((stretch.start, frame.place, len(slices)))
            return NearEnd.SOME

        return decoded(layout, layout.stretches, outcomes, decodes, look), asked

    def test_a_frame_with_a_repaired_slice_is_asked_about(self):
        layout = recording()
        outcomes = [Outcome(element(number), State.MISSING, 0, "00", {0: SLICES}) for number in (1, 3)]
        found = {724: NearEnd.SOME, 1748: NearEnd.SOME}
        self.assertEqual(self.decoded(layout, outcomes), (found, [(1, 724), (624, 724, 2), (1, 1748), (1648, 1748, 2)]))
        self.assertEqual(self.decoded(layout, outcomes, False), ({}, [(1, 724), (1, 1748)]))

    def test_a_frame_with_a_voted_slice_is_asked_about(self):
        outcome = Outcome(element(1), State.MISSING, 0, "00", {0: (settled("11", 100), voted("00", 0, 100))})
        self.assertEqual(self.decoded(recording(), [outcome]), ({724: NearEnd.SOME}, [(1, 724), (624, 724, 2)]))

    def test_others_are_not(self):
        slices = (missing("00", 100), repaired("00", 0, 100)), (settled("11", 100), settled("01", 0, 100))
        outcomes = [Outcome(element(number), State.MISSING, 0, "00", {0: each}) for number, each in enumerate(slices)]
        outcomes += [Outcome(element(number), state, 1, "00", {0: SLICES}) for number, state in ((2, State.WOVEN), (4, State.DISPUTED))]
        outcomes += [Outcome(element(3), State.MISSING, 0, "00")]
        self.assertEqual(self.decoded(recording(), outcomes), ({}, []))


def video(number, folder):
    """A track of a stored recording."""
    width, height = map(int, folder.split("-")[1].split("x"))
    return Track(number, Content.VIDEO, "ffv1", True, width, height, (REAL / folder / "record").read_bytes())


def stored(folder, *numbers):
    return [(REAL / folder / f"frame-{number}").read_bytes() for number in numbers]


def with_wrong_slice(frame, slice_number, place, inverted=0x10):
    """A frame with an inverted bit in the content of a slice, whose parity fits it."""
    pieces = [piece for _, piece in reversed(readings.links(frame)[0])]
    content = bytearray(pieces[slice_number][:-8])
    content[place] ^= inverted
    pieces[slice_number] = readings.sliced(bytes(content))
    return b"".join(pieces)


class InFile(unittest.TestCase):
    """Frames that lie in a file, each after its track's number and a few bytes."""

    def ask(self, frames, number, tracks, before="", work=None):
        """Whether the frame with this number is decoded; `frames` have the track and the payload of each."""
        content, found = b"head", []
        for track, payload in frames:
            content += b"before"
            found.append(Frame(track, 0.04 * len(found), len(content), len(payload)))
            content += payload
        with tempfile.TemporaryDirectory() as name, made.opened(content + b"tail") as (copy,):
            self.work = work = pathlib.Path(name, "work")
            work.mkdir()
            decoder = SamplesDecoder(copy, found, stand_in.make(pathlib.Path(name), before), work)
            is_decoded = decoder({track.number: track for track in tracks}[found[number].track], found[number])
            self.assertEqual(list(work.iterdir()), [])
            self.logged = pathlib.Path(name, "log").read_bytes() if pathlib.Path(name, "log").exists() else None
        return is_decoded


BETWEEN, RICE = "yuv422p-32x24-4-slices", "gray-48x32-4-slices"
# Keeps the words of the call, and the contents of the files that these name, in place of the program's work; the status is given.
LOGS = """import pathlib
log = [words[0], *words[2:5], str(len(words) - 5)]
pathlib.Path(sys.argv[0]).with_name("log").write_bytes("|".join(log).encode() + b"".join(b"|" + pathlib.Path(w).read_bytes() for w in [words[1], *words[5:]]))
sys.exit({})"""
KEY, GOES_ON = b"\xfcframe", b"\x3cframe"


class CallTest(InFile):
    TRACK = Track(1, Content.VIDEO, "ffv1", True, 96, 80, b"record")
    OTHER = Track(2, Content.VIDEO, "ffv1", True, 96, 80, b"other")

    def logged_of(self, frames, number, status=0):
        is_decoded = self.ask(frames, number, [self.TRACK, self.OTHER], LOGS.format(status))
        self.assertEqual(is_decoded, self.logged is not None and status == 0)
        return self.logged

    def test_a_keyframe_is_decoded_alone(self):
        frames = [(1, KEY + b"0"), (1, KEY + b"1"), (1, GOES_ON + b"2")]
        self.assertEqual(self.logged_of(frames, 1), b"samples|96|80|/dev/null|1|record|" + KEY + b"1")

    def test_another_frame_is_decoded_with_those_of_its_track_from_its_keyframe_on(self):
        frames = [(1, KEY + b"0"), (1, KEY + b"1"), (2, KEY + b"x"), (1, GOES_ON + b"2"), (2, GOES_ON + b"y"), (1, GOES_ON + b"3"), (1, GOES_ON + b"4")]
        wanted = b"samples|96|80|/dev/null|3|record|" + KEY + b"1|" + GOES_ON + b"2|" + GOES_ON + b"3"
        self.assertEqual(self.logged_of(frames, 5), wanted)
        self.assertEqual(self.logged_of(frames, 4), b"samples|96|80|/dev/null|2|other|" + KEY + b"x|" + GOES_ON + b"y")

    def test_each_status_but_0_is_none_that_decodes(self):
        for status in 1, 2, 3, 127:
            self.assertIsNotNone(self.logged_of([(1, KEY)], 0, status))

    def test_without_a_keyframe_nothing_is_asked(self):
        self.assertIsNone(self.logged_of([(2, KEY), (1, GOES_ON), (1, GOES_ON)], 2))

    def test_of_a_frame_that_the_file_does_not_show_nothing_is_asked(self):
        with made.opened(b"head" + KEY + KEY) as (copy,), tempfile.TemporaryDirectory() as name:
            decoder = SamplesDecoder(copy, [Frame(1, 0.0, 4, len(KEY))], "/bin/true", pathlib.Path(name))
            asked = [Frame(1, 0.0, 4, len(KEY)), Frame(1, 0.04, 4 + len(KEY), len(KEY)), Frame(1, 0.0, 4, 5), Frame(2, 0.0, 4, len(KEY)), Frame(1, 0.0, 3, 9)]
            self.assertEqual([decoder(self.TRACK, frame) for frame in asked], [True, False, False, False, False])

    def test_of_too_many_frames_nothing_is_asked(self):
        frames = [(1, KEY), (1, GOES_ON), (1, GOES_ON)]
        with unittest.mock.patch.object(decoding, "MOST_FRAMES", 3):
            self.assertIsNotNone(self.logged_of(frames, 2))
        with unittest.mock.patch.object(decoding, "MOST_FRAMES", 2):
            self.assertIsNone(self.logged_of(frames, 2))

    def test_without_room_for_its_files_nothing_is_known(self):
        full = OSError(errno.ENOSPC, os.strerror(errno.ENOSPC))
        with made.opened(b"head" + KEY) as (copy,), tempfile.TemporaryDirectory() as name:
            frame = Frame(1, 0.0, 4, len(KEY))
            decoder = SamplesDecoder(copy, [frame], "/bin/true", pathlib.Path(name))
            self.assertTrue(decoder(self.TRACK, frame))
            with unittest.mock.patch.object(decoding.pathlib.Path, "write_bytes", side_effect=full):
                self.assertFalse(decoder(self.TRACK, frame))

    def test_keyframes(self):
        for folder in (BETWEEN, RICE, "bgra-32x24-6-slices", "gbrp16-32x24-4-slices"):
            self.assertTrue(is_key(stored(folder, 0)[0]))
        self.assertEqual([is_key(frame) for frame in stored(BETWEEN, *range(6))], [True, False, False, False, False, True])
        self.assertFalse(is_key(b"\xfc"))


class DecoderTest(InFile):
    """Recorded frames, and what a second reading makes of them."""

    def is_decoded(self, folder, frames, number):
        return self.ask([(1, frame) for frame in frames], number, [video(1, folder)])

    def test_recorded_frames(self):
        for number in range(6):
            self.assertTrue(self.is_decoded(BETWEEN, stored(BETWEEN, *range(6)), number))
        for folder in (RICE, "bgra-32x24-6-slices", "gbrp10-32x24-4-slices", "ya8-32x24-4-slices"):
            self.assertTrue(self.is_decoded(folder, stored(folder, 0), 0))

    def test_a_wrong_slice_that_passes(self):
        for folder, place in (BETWEEN, 60), (RICE, 30), ("bgra-32x24-6-slices", 60), ("gbrp10-32x24-4-slices", 60):
            frame = with_wrong_slice(stored(folder, 0)[0], 1, place)
            self.assertTrue(all(readings.passes(piece) for _, piece in readings.links(frame)[0]))
            self.assertFalse(self.is_decoded(folder, [frame], 0))

    def test_an_unclean_slice(self):
        pieces = [piece for _, piece in reversed(readings.links(stored(RICE, 0)[0])[0])]
        frame = b"".join([*pieces[:3], readings.sliced(pieces[3][:-8] + b"\0")])
        self.assertFalse(self.is_decoded(RICE, [frame], 0))

    def test_frames_after_a_wrong_one_are_not_decoded_up_to_the_next_keyframe(self):
        frames = stored(BETWEEN, *range(6))
        frames[2] = with_wrong_slice(frames[2], 0, 80)
        self.assertEqual([self.is_decoded(BETWEEN, frames, number) for number in range(6)], [True, True, False, False, False, True])

    def test_frames_after_a_lost_one_are_not_decoded(self):
        frames = stored(BETWEEN, *range(4))
        frames[1] = makings.inverted(frames[1], 40)
        self.assertEqual([self.is_decoded(BETWEEN, frames, number) for number in range(4)], [True, False, False, False])

    def test_a_record_that_is_none_of_version_3(self):
        track = video(1, RICE)
        for record in (makings.inverted(track.record, 3), b"", track.record[:-1]):
            other = Track(1, Content.VIDEO, "ffv1", True, 48, 32, record)
            self.assertFalse(self.ask([(1, stored(RICE, 0)[0])], 0, [other]))
        self.assertFalse(self.ask([(1, stored(RICE, 0)[0])], 0, [Track(1, Content.VIDEO, "ffv1", True, 0, 32, track.record)]))


MADE = bytes(range(200))


def with_bytes(content, *changes):
    """A string with other bytes at some places."""
    made = bytearray(content)
    for place, byte in changes:
        made[place] = byte
    return bytes(made)


class GuessedTest(unittest.TestCase):
    """The bytes of a slice that were voted or repaired."""

    def places(self, *versions, is_repaired=False):
        marks = guessed(MADE, versions, is_repaired).to_bytes(len(MADE), "big")
        self.assertEqual(set(marks) - {0, 1}, set())
        return [place for place, mark in enumerate(marks) if mark]

    def test_what_was_voted_is_what_some_version_has_otherwise(self):
        self.assertEqual(self.places(with_bytes(MADE, (0, 9)), with_bytes(MADE, (199, 0), (77, 1)), with_bytes(MADE, (77, 76))), [0, 77, 199])

    def test_what_was_repaired_is_what_no_version_has(self):
        versions = with_bytes(MADE, (5, 4), (9, 1)), with_bytes(MADE, (5, 4), (190, 0)), with_bytes(MADE, (5, 7))
        self.assertEqual((self.places(*versions, is_repaired=True), self.places(*versions)), ([5], [5, 9, 190]))
        self.assertEqual(self.places(with_bytes(MADE, (0, 1)), is_repaired=True), [0])

    def test_an_inverted_bit_that_another_version_has(self):
        """It may lie wherever versions differ."""
        self.assertEqual(self.places(with_bytes(MADE, (5, 4), (60, 1)), with_bytes(MADE, (190, 0)), is_repaired=True), [5, 60, 190])


class FoundTest(unittest.TestCase):
    """How near the end of its slice the guesses of a frame lie. It has three slices of 100, 20 and 80 bytes, from place 50 of OUT on."""

    STRETCH = Stretch(Kind.ELEMENT, 30, 300, What(Content.CLUSTER), (7, None, 40))
    FRAME = Frame(1, 0.0, 50, 200)

    def found(self, *slices, **changes):
        """What is found where the first copy and the last have other bytes, at places in the frame."""
        out = bytes(50) + MADE + bytes(99)
        copies = [bytes(7 + 20) + with_bytes(MADE, *((place, 255) for place in changes.get("first", ()))) + bytes(99), b"",
                  bytes(40 + 20) + with_bytes(MADE, *((place, 254) for place in changes.get("last", ()))) + bytes(99)]
        with made.opened(out, *copies) as (opened, *others):
            return GuessFinder(opened, others)(self.STRETCH, self.FRAME, slices)

    def test_the_last_64_bytes_of_the_content_and_the_footer_are_near_the_end(self):
        for first, found in (([27], NearEnd.NONE), ([28], NearEnd.ALL), ([91], NearEnd.ALL), ([92], NearEnd.ALL), ([99], NearEnd.ALL),
                             ([27, 28], NearEnd.SOME), ([0, 99], NearEnd.SOME), ([100], NearEnd.NONE)):
            self.assertEqual(self.found(voted("0-0", 0, 100), first=first), found, first)

    def test_all_copies_that_have_the_frame_are_looked_at(self):
        self.assertEqual(self.found(voted("0-0", 0, 100), first=[99], last=[3]), NearEnd.SOME)
        self.assertEqual(self.found(voted("0-0", 0, 100), last=[98]), NearEnd.ALL)

    def test_an_inverted_bit(self):
        both = dict(first=[3, 28], last=[28])
        self.assertEqual((self.found(repaired("0-0", 0, 100), **both), self.found(voted("0-0", 0, 100), **both)), (NearEnd.ALL, NearEnd.SOME))
        self.assertEqual(self.found(repaired("0-0", 0, 100), first=[3, 99], last=[3]), NearEnd.NONE)

    def test_the_slice_with_most_of_them_near_its_end_counts(self):
        early, late, both = repaired("0-0", 0, 100), repaired("0-0", 100, 120), voted("0-0", 120, 200)
        places = [2, 110, 121, 199]
        for slices, found in (((early,), NearEnd.NONE), ((early, both), NearEnd.SOME), ((both, early), NearEnd.SOME), ((both, late, early), NearEnd.ALL),
                              ((settled("1-1", 100, 120), early), NearEnd.NONE), ((missing("0-0", 100, 120), both), NearEnd.SOME)):
            self.assertEqual(self.found(*slices, first=places, last=places), found)


class VouchedTest(unittest.TestCase):
    def test_a_frame_that_decodes_is_restored(self):
        outcome = Outcome(2, State.MISSING, 0, "00", {0: SLICES})
        found, doubtful = (verdict(plain(), outcome, decoded={place: NearEnd.NONE}) for place in (140, 580))
        self.assertEqual((found.status, found.results.frames[0].state, found.counts.restored, found.sums.open), (0, FrameState.WOVEN, 1, 0))
        self.assertEqual((doubtful.status, whys(doubtful), doubtful.counts.lost, doubtful.sums.open), (3, [Why.REPAIRED], 1, 300))
        self.assertEqual((found.notes, doubtful.notes), ([], []))

    def test_a_frame_of_which_all_was_guessed_near_the_end_of_a_slice_is_in_doubt(self):
        outcomes = [Outcome(number, State.MISSING, 0, "00", {0: SLICES}) for number in (2, 5)]
        found = verdict(plain(), *outcomes, decoded={140: NearEnd.ALL, 580: NearEnd.ALL})
        self.assertEqual((found.status, whys(found), found.counts.lost, found.sums.open, found.notes), (3, [Why.NEAR_END], 2, 600, []))
        self.assertEqual(found.reasons[0].text(), "frames 0 to 1 (0:00:00.000 to 0:00:00.040, bytes 140 to 880): damaged in every copy; OUT has them with a "
                         "slice that is voted or repaired in its last 64 bytes alone. All slices pass, decode and end as they should, but an end says "
                         "little of the bytes right before it; a further copy may restore them")

    def test_where_some_was_guessed_there_a_note_says_so(self):
        outcomes = [Outcome(number, State.MISSING, 0, "00", {0: SLICES}) for number in (2, 5, 8)]
        near = {140: NearEnd.SOME, 580: NearEnd.NONE, 1020: NearEnd.SOME}
        found = verdict(plain(), *outcomes, decoded=near)
        self.assertEqual((found.status, found.counts.restored, found.counts.woven, found.sums.open), (0, 3, 3, 0))
        self.assertEqual(found.notes, [f"frame {number} (0:00:00.{time}, bytes {start} to {start + 300}): restored with a slice that is voted or repaired in "
                                       "its last 64 bytes too; that it ends as it should says little of these"
                                       for number, time, start in ((0, "000", 140), (2, "080", 1020))])
        self.assertEqual([result.near_end for result in found.results.frames.values()], list(near.values()))
        original = verdict(plain(), *outcomes, decoded=near, compared=Compared(True, "it is the original", False))
        self.assertEqual(original.notes, ["it is the original"])

    def test_an_element_that_passes_vouches_wherever_it_was_guessed(self):
        for state in (State.WHOLE, State.WOVEN):
            found = verdict(recording(), Outcome(element(1), state, 0, "00", {0: SLICES}))
            self.assertEqual((found.status, found.counts.lost, found.notes, found.results.frames[1].near_end), (0, 0, [], None))

    def test_what_lies_beside_it_in_an_element_is_in_doubt(self):
        found = verdict(recording(), Outcome(element(1), State.MISSING, 0, "00", {0: SLICES}), decoded={724: NearEnd.NONE})
        self.assertEqual((found.status, whys(found), found.counts.lost), (3, [Why.BESIDE], 0))
        self.assertEqual((found.sums.verified, found.sums.open), (5 * 500 + 300, 200))
