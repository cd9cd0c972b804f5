"""The judgment of one file, and recordings without parities."""
import dataclasses
import unittest

import readings
from mend_reel.containers import matroska as walk
from mend_reel.judging import parities
from mend_reel.judging.judgment import judge_file
from mend_reel.judging.reasons import Why
from mend_reel.model import MATROSKA, Kind
from . import made
from .framed import Judge, frame, judge, matroska, plain_file

FRAMES = [(0.04 * number, frame(number, 90, 80 + number)) for number in range(5)]
REEL = matroska(FRAMES)
BARE = matroska(FRAMES, crc=False)
NOISE = [made.noise(number + 1, 200) for number in range(5)]


class JudgmentTest(unittest.TestCase):
    def judged(self, content, unread=(), scan=judge):
        with made.opened(content) as (copy,):
            copy.form, copy.unread = MATROSKA, unread
            return judge_file(copy, scan)

    def whys(self, content, **more):
        return [(reason.why, reason.frames) for reason in self.judged(content, **more).reasons]

    def test_an_undamaged_file(self):
        for content in (REEL, BARE):
            found = self.judged(content)
            self.assertEqual((found.reasons, found.is_undamaged, found.results.failing, found.results.outcomes), ([], True, frozenset(), {}))
        self.assertEqual(self.judged(REEL).results.sums().open, 0)

    def test_one_wrong_bit_in_a_frame(self):
        for content in (REEL, BARE):
            for number, (_, payload) in enumerate(FRAMES):
                place = content.index(payload)
                for at in (0, 40, len(payload) - 8, len(payload) - 5, len(payload) - 1):
                    found = self.judged(made.damaged(content, (place + at, bytes([content[place + at] ^ 1]))))
                    self.assertEqual([(reason.why, reason.frames) for reason in found.reasons], [(Why.FAILS, (number, number))])
                    self.assertEqual((found.results.counts().damaged, found.results.counts().lost), (1, 1))

    def test_damage_beside_a_frame(self):
        content = made.damaged(REEL, REEL.index(FRAMES[2][1]) + len(FRAMES[2][1]) + 30)
        self.assertEqual(self.whys(content), [(Why.FAILS_BESIDE, None)])

    def test_a_frame_that_was_damaged_before_the_file_was_written(self):
        content = matroska([*FRAMES[:2], (0.08, made.damaged(FRAMES[2][1], 20)), *FRAMES[3:]])
        found = self.judged(content)
        self.assertEqual([(reason.why, reason.frames) for reason in found.reasons], [(Why.FAILS, (2, 2))])
        self.assertEqual(found.results.sums().open, len(FRAMES[2][1]))

    def test_frames_that_depend_on_a_damaged_one(self):
        blocks = [made.block(1, 40 * at, payload, flags=0x80 if at in (0, 3) else 0) for at, (_, payload) in enumerate(FRAMES)]
        content = made.ebml_header() + made.element(made.SEGMENT, made.information(200), made.tracks(), made.cluster(0, *blocks))
        for number, spread in ((0, (1, 2)), (1, (2, 2)), (2, None), (3, (4, 4)), (4, None)):
            reason, = self.judged(made.damaged(content, content.index(FRAMES[number][1]) + 30)).reasons
            self.assertEqual(reason.spread, spread)
        self.assertIn("damaged, and frames 1 to 2 depend on it; a further copy may have it whole",
                      self.judged(made.damaged(content, content.index(FRAMES[0][1]) + 30)).reasons[0].text())

    def test_a_file_that_is_cut_short(self):
        self.assertIn(Why.ABSENT, [why for why, _ in self.whys(REEL[:-10])])

    def test_bytes_after_the_end(self):
        self.assertEqual(self.whys(REEL + bytes(700)), [(Why.AFTER_END, None)])
        self.assertEqual(self.whys(REEL + REEL), [(Why.AFTER_END, None)])

    def test_what_could_not_be_read_is_in_doubt(self):
        place = BARE.index(FRAMES[2][1]) + len(FRAMES[2][1]) + 20
        self.assertEqual(self.whys(BARE, unread=[(place, place + 10)]), [(Why.NEVER_READ, None)])

    def test_frames_of_flac_are_judged_by_their_own_checks(self):
        sound = readings.flac_of(bytes.fromhex("fff8c91800"), made.noise(1, 90))
        tracks = made.tracks(made.FFV1, made.track(2, b"A_FLAC", 2), crc=False)
        content = made.ebml_header() + made.element(made.SEGMENT, made.information(40, False), tracks, made.cluster(
            0, made.block(1, 0, FRAMES[0][1]), made.block(2, 0, sound), crc=False))
        self.assertEqual(self.whys(content), [])
        damaged = made.damaged(content, content.index(sound) + 40)
        self.assertEqual(self.whys(damaged, scan=Judge(content.index(sound))), [(Why.FAILS, None)])


    def test_what_a_check_of_the_whole_file_tells(self):
        blocks = [made.block(1, 40 * at, payload) for at, (_, payload) in enumerate(FRAMES)]

        def film(*parts, name=b"matroska", **more):
            return made.ebml_header(name) + made.element(made.SEGMENT, made.information(200, False), made.tracks(crc=False), *parts, **more)

        self.assertEqual(self.whys(film(made.cluster(0, *blocks, crc=False))), [])
        for content, why in (
                (film(made.cluster(0, *blocks, crc=False), unknown=True), Why.ENDLESS),
                (film(made.cluster(0, *blocks, crc=False), name=b"matroskb"), Why.NO_NAME),
                (film(made.cluster(0, *blocks[:2], made.block(1, 40, FRAMES[2][1]), *blocks[3:], crc=False)), Why.TIME),
                (film(made.cluster(0, *blocks, made.block(3, 0, b"text"), crc=False)), Why.OF_NO_TRACK)):
            self.assertIn(why, [found for found, _ in self.whys(content)])

    def test_a_track_that_nothing_checks(self):
        tracks = made.tracks(made.FFV1, made.track(3, b"V_MPEG4/ISO/ASP", 1), crc=False)
        clusters = [made.cluster(40 * at, made.block(1, 0, payload), made.block(3, 0, b"picture"), crc=False) for at, (_, payload) in enumerate(FRAMES)]
        content = made.ebml_header() + made.element(made.SEGMENT, made.information(200, False), tracks, *clusters)
        found = self.judged(content).reasons
        self.assertEqual([(reason.why, reason.track) for reason in found], [(Why.NO_CHECK, 3)])


class ParityTest(unittest.TestCase):
    def lacks(self, frames, copies=1, record=b"record"):
        content, layout = plain_file(frames)
        layout.tracks = [dataclasses.replace(layout.tracks[0], record=record)]
        with made.opened(*[content] * copies) as opened:
            return parities.lack_parities(layout, opened)

    def test_frames_with_parities(self):
        self.assertFalse(self.lacks([payload for _, payload in FRAMES]))
        self.assertFalse(self.lacks([*NOISE[:4], FRAMES[4][1]], 2))

    def test_damage_in_one_copy_is_no_lack(self):
        self.assertFalse(self.lacks(NOISE))

    def test_copies_that_agree(self):
        self.assertTrue(self.lacks(NOISE, 2))

    def test_frames_that_are_lost_in_all_copies_are_no_lack(self):
        self.assertFalse(self.lacks([bytes(201)] * 5, 2))
        self.assertFalse(self.lacks([*NOISE[:2], *[bytes(201)] * 3], 2))

    def test_slices_that_have_sizes_alone(self):
        self.assertTrue(self.lacks([made.noise(number, 197) + (197).to_bytes(3, "big") for number in range(5)]))

    def test_versions_without_a_record(self):
        self.assertTrue(self.lacks(NOISE, record=b""))

    def test_elements_that_pass(self):
        for damaged, lacks in ((False, True), (True, False)):
            content = matroska([(0.04 * number, payload) for number, payload in enumerate(NOISE)])
            content = made.damaged(content, *(content.index(payload) + 9 for payload in NOISE)) if damaged else content
            with made.opened(content) as copies:
                self.assertEqual(parities.lack_parities(walk.layout(copies), copies), lacks)

    def test_the_layout_without_parts(self):
        _, layout = plain_file(NOISE)
        made_ = parities.without_parts(layout)
        self.assertEqual({(stretch.kind, stretch.parts) for stretch in made_.stretches}, {(Kind.PLAIN, ())})
        self.assertEqual([(each.start, each.size, each.what) for each in made_.stretches], [(each.start, each.size, each.what) for each in layout.stretches])
