"""What lies where in a Matroska file."""
from __future__ import annotations

import itertools
import typing
import unittest
from unittest import mock

from mend_reel.containers import elements, matroska
from mend_reel.containers.files import form_of
from mend_reel.model import Content, Kind, Layout, Stretch
from . import framed, made
from .test_structure import NUT, avi

REEL, PLAIN_REEL = made.reel(), made.reel(crc=False)


def layout(*contents: bytes) -> Layout:
    with made.opened(*contents) as copies:
        return matroska.layout(copies)


def frames(found: Layout) -> typing.List[typing.Tuple[int, float, int, int]]:
    return [(frame.track, frame.time, frame.place, frame.size) for frame in found.frames]


def of(found: Layout, content: Content) -> typing.List[Stretch]:
    return [stretch for stretch in found.stretches if stretch.what.content is content]


class Case(unittest.TestCase):
    def covered(self, found: Layout, size: int) -> None:
        """The stretches follow each other and cover the file, and each frame lies in one of them."""
        self.assertEqual(found.size, size)
        self.assertEqual([stretch.start for stretch in found.stretches] + [size], [0] + [stretch.end for stretch in found.stretches])
        parts = [frame for stretch in found.stretches for frame in stretch.parts]
        self.assertEqual(parts, found.frames)
        for stretch in found.stretches:
            self.assertTrue(all(stretch.start <= frame.place and frame.end <= stretch.end for frame in stretch.parts))


class Undamaged(Case):
    def test_elements_with_crcs(self) -> None:
        found = layout(REEL, REEL)
        self.covered(found, len(REEL))
        self.assertEqual(found.gaps, [])
        self.assertEqual([stretch.what.content for stretch in found.stretches if stretch.kind is Kind.ELEMENT],
                         [Content.INFORMATION, Content.TRACKS, *[Content.CLUSTER] * 4, Content.INDEX])
        for stretch in found.stretches:
            self.assertEqual(stretch.places, (stretch.start, stretch.start))
            if stretch.kind is Kind.ELEMENT:
                self.assertEqual(REEL[stretch.start : stretch.start + 2], b"\xbf\x84")
            else:
                self.assertIn(stretch.what.content, (Content.FRAMING, Content.HEADER))
        self.assertEqual([len(stretch.parts) for stretch in of(found, Content.CLUSTER)], [2] * 4)
        self.assertEqual([(stretch.what.start, stretch.what.end) for stretch in of(found, Content.CLUSTER)],
                         [(0.0, 0.08), (0.08, 0.16), (0.16, 0.24), (0.24, 0.32)])

    def test_frames_are_the_payloads(self) -> None:
        for reel in (REEL, PLAIN_REEL, made.reel(unknown=True, crc=False), made.reel(groups=True)):
            found = layout(reel)
            self.covered(found, len(reel))
            payloads = [made.picture(10 * at + more, 700 + extra) for at in range(4) for more, extra in ((1, 0), (3, 5))]
            self.assertEqual([reel[frame.place : frame.end] for frame in found.frames], payloads)
            self.assertEqual([frame.time for frame in found.frames], [0.04 * at for at in range(3)] + [0.12, 0.16, 0.2, 0.24, 0.28])
            self.assertTrue(all(frame.key and frame.track == 1 for frame in found.frames))

    def test_clusters_without_crcs(self) -> None:
        found = layout(PLAIN_REEL, PLAIN_REEL)
        self.assertEqual([stretch.kind for stretch in of(found, Content.FRAME)], [Kind.FRAME] * 8)
        self.assertEqual({stretch.kind for stretch in found.stretches if stretch.what.content is not Content.FRAME}, {Kind.PLAIN, Kind.RECORD})
        sound = of(found, Content.SOUND)
        self.assertEqual(len(sound), 8)
        self.assertEqual({stretch.what.track for stretch in sound}, {2})
        self.assertIn(made.noise(2, 160), PLAIN_REEL[sound[0].start : sound[0].end])
        self.assertEqual((sound[2].what.start, of(found, Content.FRAME)[3].what.start, of(found, Content.FRAME)[3].what.end), (0.08, 0.12, 0.16))

    def test_two_tracks_and_lacing(self) -> None:
        entries = made.FFV1, made.track(3, b"V_FFV1", 1), made.PCM, made.track(4, b"S_TEXT/UTF8", 0x11)
        parts = [made.block(3, 0, b"third"), made.block(1, 0, b"first"), made.block(4, 0, b"words"), made.block(1, 40, b"laced", flags=0x84),
                 made.group(3, 40, b"grouped"), made.block(9, 40, b"nobody's")]
        file = made.ebml_header() + made.element(made.SEGMENT, made.tracks(*entries), made.cluster(0, *parts, crc=False))
        found = layout(file)
        self.assertEqual([(frame.track, file[frame.place : frame.end]) for frame in found.frames], [(3, b"third"), (1, b"first"), (3, b"grouped")])
        self.assertEqual(len(of(found, Content.SUBTITLES)), 1)
        self.assertEqual([stretch.what.track for stretch in of(found, Content.VIDEO)], [1])

    def test_times_before_the_cluster(self) -> None:
        file = made.ebml_header() + made.element(made.SEGMENT, made.tracks(), made.cluster(100, made.block(1, -60, b"early"), made.block(1, -20, b"late")))
        self.assertEqual([frame.time for frame in layout(file).frames], [0.04, 0.08])

    def test_cluster_without_a_time(self) -> None:
        clusters = made.cluster(0, made.block(1, 0, b"first")), made.element(made.CLUSTER, made.block(1, 0, b"second"))
        found = layout(made.ebml_header() + made.element(made.SEGMENT, made.tracks(), *clusters))
        self.assertEqual([frame.time for frame in found.frames], [0.0, 0.04])

    def test_size(self) -> None:
        after = REEL + b"after the end"
        self.covered(layout(after), len(REEL))
        self.assertEqual((layout(after).gaps, layout(after).end), ([], len(REEL)))
        self.covered(layout(REEL + REEL), len(REEL))
        self.covered(layout(REEL, after), len(REEL))
        short = layout(REEL[:-100], REEL[:-200])
        self.covered(short, len(REEL) - 100)
        self.assertIn((len(REEL) - 100, 100), short.gaps)
        self.assertEqual([place is None for place in short.stretches[-1].places], [False, True])

    def test_padding_and_long_plain_stretches(self) -> None:
        padding, file_in_it = made.element(made.VOID, bytes(50)), made.element(0x1941A469, made.element(0x61A7, made.noise(1, 5 << 18)))
        file = made.ebml_header() + made.element(made.SEGMENT, padding, made.tracks(), file_in_it)
        found = layout(file, file)
        self.covered(found, len(file))
        self.assertEqual([stretch.size for stretch in of(found, Content.PADDING)], [50])
        self.assertEqual([stretch.size for stretch in of(found, Content.ATTACHMENTS)], [1 << 20, len(file_in_it) - 7 - (1 << 20)])
        sound = [made.block(2, at, made.noise(at, 300_000)) for at in range(5)]
        found = layout(made.ebml_header() + made.element(made.SEGMENT, made.tracks(), made.cluster(0, *sound, crc=False)))
        self.assertEqual([stretch.size for stretch in of(found, Content.SOUND)], [3 * 300_008, 2 * 300_008])
        self.assertEqual([(stretch.what.start, stretch.what.end) for stretch in of(found, Content.SOUND)], [(0.0, 0.002), (0.003, 0.004)])


class OneCopyDamaged(Case):
    def test_head_of_a_block(self) -> None:
        for reel in (REEL, PLAIN_REEL):
            whole = layout(reel)
            for frame in whole.frames:
                for back in range(4, 8):
                    damaged = made.damaged(reel, frame.place - back)
                    for order in ((damaged, reel), (reel, damaged)):
                        self.assertEqual(frames(layout(*order)), frames(whole))

    def test_times_and_tracks(self) -> None:
        """A copy with another time or track in a block is outvoted, by its CRC-32 or by what is expected."""
        for reel in (REEL, PLAIN_REEL):
            whole = layout(reel)
            for frame in whole.frames:
                for wrong in ((frame.place - 4, b"\x82"), (frame.place - 3, b"\x70\x00"), (frame.place - 1, b"\x06")):
                    damaged = made.damaged(reel, wrong)
                    for order in ((damaged, reel), (reel, damaged), (damaged, reel, reel)):
                        self.assertEqual(frames(layout(*order)), frames(whole))

    def test_most_copies_are_right_about_a_time_that_is_not_expected(self) -> None:
        """After a pause one copy has the times that would be expected without it."""
        def file(time: int, more: int) -> bytes:
            late = made.cluster(time, made.block(1, 0, b"third"), made.block(1, more, b"fourth"), crc=False)
            early = made.cluster(0, made.block(1, 0, b"first"), made.block(1, 40, b"second"), crc=False)
            return made.ebml_header() + made.element(made.SEGMENT, made.tracks(), early, late)

        for wrong in (file(80, 200), file(200, 40)):
            for order in ((wrong, file(200, 200), file(200, 200)), (file(200, 200), file(200, 200), wrong)):
                self.assertEqual([frame.time for frame in layout(*order).frames], [0.0, 0.04, 0.2, 0.4])

    def test_time_of_a_cluster(self) -> None:
        whole = layout(PLAIN_REEL)
        for frame in whole.frames[2::2]:
            damaged = made.damaged(PLAIN_REEL, (frame.place - 8, b"\x00"))
            for order in ((damaged, PLAIN_REEL), (PLAIN_REEL, damaged)):
                self.assertEqual(frames(layout(*order)), frames(whole))

    def test_size_that_covers_the_next_block(self) -> None:
        """Both sizes lead on; the cluster's CRC-32 says which is right."""
        whole = layout(REEL)
        for frame in whole.frames[::2]:
            after = frame.size + 4 + len(made.block(2, 0, bytes(160)))
            damaged = made.damaged(REEL, (frame.place - 6, made.size_of(after, 2)))
            for order in ((damaged, REEL), (REEL, damaged)):
                self.assertEqual(frames(layout(*order)), frames(whole))

    def test_framing_is_vouched_for_by_the_right_copy(self) -> None:
        place = of(layout(REEL), Content.CLUSTER)[1].start - 3
        found = layout(made.damaged(REEL, place), REEL)
        stretch = next(stretch for stretch in found.stretches if stretch.start <= place < stretch.end)
        self.assertEqual((stretch.what.content, stretch.vouched), (Content.FRAMING, {1}))

    def check_vouched(self, place: int, reel: bytes, damaged: bytes, vouched: typing.Sequence[bytes]) -> None:
        """These versions alone are vouched for at a place, in any order."""
        for order in itertools.permutations((reel, damaged)):
            found = layout(*order)
            numbers = next(stretch.vouched for stretch in found.stretches if stretch.start <= place < stretch.end)
            self.assertEqual([order[number] for number in sorted(numbers)], list(vouched))

    def test_known_id_where_another_stood(self) -> None:
        """What follows is the same after both IDs, so neither is vouched for, but where the content shows what it is."""
        odd = made.cluster(0, made.element(0xA7, b"\x81\x23\x45\x67"), made.block(1, 0, made.picture(1, 100)), made.block(2, 0, bytes(5)), crc=False)
        reel = made.ebml_header() + made.element(made.SEGMENT, made.tracks(), odd)
        place = reel.index(b"\xa7\x84")
        self.check_vouched(place, reel, made.damaged(reel, (place, b"\xa3")), [])
        place = reel.index(b"\xa3\x89")
        self.check_vouched(place, reel, made.damaged(reel, (place, b"\xec")), [])
        self.check_vouched(place, reel, made.damaged(reel, (place, b"\xa7")), [reel])
        place = layout(reel).frames[0].place - 6
        self.check_vouched(place, reel, made.damaged(reel, (place, b"\xec")), [reel])

    def test_size_that_covers_the_next_sound(self) -> None:
        """Both sizes lead on, and nothing says which is right."""
        sounds = made.cluster(0, *(made.block(2, time, bytes(5)) for time in range(3)), crc=False)
        reel = made.ebml_header() + made.element(made.SEGMENT, made.tracks(made.PCM), sounds)
        place = reel.index(b"\xa3\x89") + 1
        self.check_vouched(place, reel, made.damaged(reel, (place, b"\x94")), [])

    def test_size_of_the_segment_damaged_in_all_copies(self) -> None:
        """Neither leads to an end, so none is vouched for."""
        place = len(made.ebml_header()) + 4
        for first, second in ((b"\x40\x40", b"\x40\x50"), (b"\x7f\xf0", b"\x40\x40")):
            self.check_vouched(place + 1, made.damaged(REEL, (place, first)), made.damaged(REEL, (place, second)), [])

    def test_size_of_the_segment(self) -> None:
        place = len(made.ebml_header()) + 4
        for wrong in (b"\x50\x00", b"\x40\x40", b"\x7f\xff"):
            for order in ((made.damaged(REEL, (place, wrong)), REEL), (REEL, made.damaged(REEL, (place, wrong)))):
                found = layout(*order)
                self.covered(found, len(REEL))
                self.assertEqual(found.gaps, [])
                self.assertEqual([stretch.vouched for stretch in found.stretches if stretch.start <= place < stretch.end], [{order.index(REEL)}])

    def test_size_of_the_segment_where_a_copy_ends(self) -> None:
        """Elements go on after the end that the Segment claims, so it is not where OUT ends."""
        place, end = len(made.ebml_header()) + 4, layout(REEL).frames[3].end + 167
        lying = made.damaged(REEL, (place, made.size_of(end - place - 2, 2)))
        self.covered(layout(lying, lying[:end]), len(REEL))

    def test_document_type(self) -> None:
        found = layout(made.damaged(REEL, REEL.index(b"matroska")), REEL)
        self.assertEqual([stretch.vouched for stretch in of(found, Content.HEADER)], [{1}])

    def test_tracks(self) -> None:
        for reel, place in ((REEL, REEL.index(b"V_FFV1")), (PLAIN_REEL, PLAIN_REEL.index(b"V_FFV1")), (REEL, REEL.index(made.RECORD))):
            damaged = made.damaged(reel, place)
            for order in ((damaged, reel), (reel, damaged)):
                self.assertEqual(layout(*order).tracks, layout(reel).tracks)


class AllCopiesDamaged(Case):
    def lost(self, reel: bytes, *places: typing.Tuple[int, bytes]) -> Layout:
        damaged = made.damaged(reel, *places)
        found = layout(damaged, damaged)
        self.covered(found, len(reel))
        return found

    def test_id_and_size_of_different_copies(self) -> None:
        for reel, place, sized, end in ((REEL, of(layout(REEL), Content.CLUSTER)[1].start - 6, 4, 6), (PLAIN_REEL, layout(PLAIN_REEL).frames[3].place - 7, 1, 3)):
            found = layout(made.damaged(reel, place), made.damaged(reel, place + sized))
            self.covered(found, len(reel))
            self.assertEqual(frames(found), frames(layout(reel)))
            heads = [(stretch.start, stretch.end, stretch.vouched) for stretch in found.stretches if place <= stretch.start < place + end]
            self.assertEqual(heads, [(place, place + sized, {1}), (place + sized, place + end, {0})])

    def test_head_of_a_cluster(self) -> None:
        for reel, start in ((REEL, b"\xbf\x84"), (PLAIN_REEL, b"\xe7\x81")):
            place = reel.index(made.CLUSTER.to_bytes(4, "big"), 2000)
            found = self.lost(reel, (place, bytes(6)))
            self.assertEqual(reel[place + 6 : place + 8], start)
            self.assertEqual(found.gaps, [(place, 6)])
            self.assertEqual(frames(found), frames(layout(reel)))

    def test_wrong_ids_of_top_level_elements(self) -> None:
        """An unknown ID with a right size leads on, but what lies in the element shows that it is another one."""
        for reel in (REEL, PLAIN_REEL):
            whole = layout(reel)
            for identity in (made.CLUSTER, made.TRACKS, made.CUES, made.INFO):
                place = reel.index(identity.to_bytes(4, "big"))
                found = self.lost(reel, (place + 1, bytes([reel[place + 1] ^ 1])))
                self.assertEqual((found.tracks, frames(found), [start for start, _ in found.gaps]), (whole.tracks, frames(whole), [place]))
            place = len(made.ebml_header())
            found = self.lost(reel, (place + 1, bytes([reel[place + 1] ^ 1])))
            self.assertEqual((frames(found), found.gaps), (frames(whole), [(place, 6)]))

    def test_wrong_ids_of_blocks(self) -> None:
        blocks = [made.block(1, 40 * at, made.picture(at, 200)) for at in range(3)]
        file = made.ebml_header() + made.element(made.SEGMENT, made.tracks(), made.cluster(0, *blocks, made.block(2, 0, bytes(20)), crc=False))
        whole = layout(file)
        for frame in whole.frames:
            found = self.lost(file, (frame.place - 7, b"\x83"))
            self.assertEqual((frames(found), found.gaps), (frames(whole), [(frame.place - 7, 7)]))
        found = self.lost(file, (len(file) - 26, b"\x83"))
        self.assertEqual((frames(found), found.gaps), (frames(whole), [(len(file) - 26, 26)]))

    def test_one_id_damaged_in_two_ways(self) -> None:
        """The ID that leads on is as wrong as that which does not."""
        for reel in (REEL, PLAIN_REEL):
            for place in (reel.index(made.CUES.to_bytes(4, "big")), layout(reel).frames[2].place - 7 - 9 - 6 * (reel is REEL)):
                wrong, lost = made.damaged(reel, (place, bytes([reel[place] ^ 8]))), made.damaged(reel, (place, bytes(2)))
                for order in itertools.permutations((wrong, lost)):
                    vouched = [stretch.vouched for stretch in layout(*order).stretches if stretch.start <= place < stretch.end]
                    self.assertEqual(vouched, [frozenset()])

    def test_track_without_a_codec(self) -> None:
        """It is known by its frames."""
        damaged = made.damaged(PLAIN_REEL, (PLAIN_REEL.index(b"\x86\x86V_FFV1"), b"\x8f"))
        found = layout(damaged)
        self.assertEqual([(track.number, track.is_ffv1) for track in found.tracks], [(1, True), (2, False)])
        self.assertEqual(frames(found), frames(layout(PLAIN_REEL)))

    def test_head_of_the_tracks(self) -> None:
        place = REEL.index(made.TRACKS.to_bytes(4, "big"))
        found = self.lost(REEL, (place, bytes(5)))
        self.assertEqual((found.tracks, frames(found)), (layout(REEL).tracks, frames(layout(REEL))))

    def test_first_sector(self) -> None:
        """With the description of the tracks lost, tracks are known by the footers of slices."""
        blocks = [made.cluster(40 * at, made.block(1, 0, made.frame(at, 100, 90)), made.block(2, 0, made.noise(at, 300))) for at in range(6)]
        file = made.ebml_header() + made.element(made.SEGMENT, made.information(240), made.tracks(), *blocks)
        size = file.index(made.CLUSTER.to_bytes(4, "big"))
        found = self.lost(file, (0, bytes(size)))
        self.assertEqual(found.gaps, [(0, size)])
        self.assertEqual(frames(found), frames(layout(file)))
        self.assertEqual([(track.number, track.is_ffv1) for track in found.tracks], [(1, True)])

    def test_first_sector_before_frames_of_many_slices(self) -> None:
        blocks = [made.cluster(40 * at, made.block(1, 0, made.frame(400 * at, *range(20, 320))), made.block(2, 0, made.noise(at, 300))) for at in range(3)]
        file = made.ebml_header() + made.element(made.SEGMENT, made.information(120), made.tracks(), *blocks)
        found = self.lost(file, (0, bytes(file.index(made.CLUSTER.to_bytes(4, "big")))))
        self.assertEqual((frames(found), len(found.frames)), (frames(layout(file)), 3))

    def test_lost_description_of_frames_without_parities(self) -> None:
        """The first sector is lost in all copies: tracks are known by the sizes of slices, which have nothing else. Silence is no frame."""
        frames = [made.noise(number, 300) + (300).to_bytes(3, "big") + made.noise(number, 200) + (200).to_bytes(3, "big") for number in range(8)]
        blocks = [made.cluster(40 * number, made.block(1, 0, frame), made.block(2, 0, bytes(300))) for number, frame in enumerate(frames)]
        lost = made.damaged(made.ebml_header() + made.element(made.SEGMENT, made.information(320), made.tracks(), *blocks), (0, bytes(120)))
        found = layout(lost, lost)
        self.assertEqual([lost[frame.place : frame.end] for frame in found.frames], frames)
        self.assertEqual([track.number for track in found.tracks if track.is_ffv1], [1])

    def test_head_of_a_block(self) -> None:
        """A frame whose block has no head in any copy is found by its footers."""
        parts = [made.block(1, 40 * at, made.frame(at, 300, 200 + at)) for at in range(6)]
        for crc in (True, False):
            file = made.ebml_header() + made.element(made.SEGMENT, made.tracks(), made.cluster(0, *parts, crc=crc))
            whole = layout(file)
            for frame in whole.frames:
                found = self.lost(file, (frame.place - 7, bytes(7)))
                self.assertEqual(frames(found), frames(whole))
                self.assertEqual(found.gaps, [] if crc else [(frame.place - 7, 7)])

    def test_track_and_lacing_of_a_block(self) -> None:
        """The footers show that a block is a frame, of whatever track it says that it is."""
        for reel in (REEL, PLAIN_REEL):
            whole = layout(reel)
            for frame in whole.frames:
                for wrong in ((frame.place - 4, b"\x85"), (frame.place - 1, b"\x84")):
                    self.assertEqual(frames(self.lost(reel, wrong)), frames(whole))

    def test_block_that_no_copy_divides(self) -> None:
        frame = layout(PLAIN_REEL).frames[2]
        found = self.lost(PLAIN_REEL, (frame.place - 7, bytes(7)), (frame.end - 8, b"\x70"))
        self.assertEqual(found.gaps, [(frame.place - 7, frame.size + 7)])
        self.assertEqual(frames(found), [each for each in frames(layout(PLAIN_REEL)) if each[2] != frame.place])

    def test_file_cut_in_a_cluster(self) -> None:
        cut = layout(REEL).frames[6].end + 50
        found = layout(REEL[:cut])
        self.covered(found, cut)
        self.assertEqual(frames(found), frames(layout(REEL))[:7])
        self.assertEqual(of(found, Content.FRAME)[-1].kind, Kind.FRAME)
        self.assertIn((cut, len(REEL) - cut), found.gaps)


class Kinds(unittest.TestCase):
    def is_matroska(self, *contents: bytes) -> bool:
        with made.opened(*contents) as copies:
            return {form_of(copy) for copy in copies} == {"matroska"}

    def test_kinds(self) -> None:
        self.assertTrue(self.is_matroska(REEL))
        self.assertTrue(self.is_matroska(made.ebml_header(b"webm") + REEL[len(made.ebml_header()):]))
        self.assertTrue(self.is_matroska(made.damaged(REEL, REEL.index(b"matroska"))))
        self.assertTrue(self.is_matroska(made.damaged(REEL, (0, bytes(512)))))
        self.assertTrue(self.is_matroska(made.damaged(REEL, (0, bytes(512))), REEL))
        for other in (b"", b"RIFF" + made.noise(1, 4000), bytes(4000), made.noise(2, 4000)):
            self.assertFalse(self.is_matroska(other))

    def test_a_piece_of_matroska_within_another_container_is_content(self) -> None:
        self.assertFalse(self.is_matroska(avi(more=REEL)))
        self.assertFalse(self.is_matroska(NUT + REEL))




class Keys(unittest.TestCase):
    def test_a_block_in_a_group_is_a_keyframe_unless_it_refers_to_another(self):
        refers = made.element(0xA0, made.block(1, 40, framed.frame(2), 0xA1, 0), made.number(0xFB, 40))
        clusters = made.cluster(0, made.group(1, 0, framed.frame(1)), refers, made.group(1, 80, framed.frame(3)), crc=False)
        content = made.ebml_header() + made.element(made.SEGMENT, made.information(120), made.tracks(), clusters)
        self.assertEqual([frame.key for frame in layout(content).frames], [True, False, True])


class Checks(unittest.TestCase):
    """What has a check of its own where no element has one."""

    SOUND = made.track(2, b"A_FLAC", 2)

    def reel(self, crc):
        blocks = made.block(1, 0, framed.frame(1)), made.block(2, 0, made.noise(1, 90)), made.block(2, 20, made.noise(2, 80))
        return made.ebml_header() + made.element(made.SEGMENT, made.tracks(made.FFV1, self.SOUND, crc=crc), made.cluster(0, *blocks, crc=crc))

    def test_records_and_sound_without_elements_that_have_a_crc(self):
        content = self.reel(False)
        found = [(stretch.kind, content[stretch.start : stretch.end]) for stretch in layout(content).stretches if stretch.kind in (Kind.RECORD, Kind.FLAC)]
        self.assertEqual(found, [(Kind.RECORD, made.RECORD), (Kind.FLAC, made.noise(1, 90)), (Kind.FLAC, made.noise(2, 80))])

    def test_sound_in_an_element_that_has_a_crc(self):
        content = self.reel(True)
        cluster = next(stretch for stretch in layout(content).stretches if stretch.parts)
        self.assertEqual([content[place : place + size] for place, size in cluster.sound], [made.noise(1, 90), made.noise(2, 80)])


class BadInput(unittest.TestCase):
    """Files of heads alone: each would be divided at each of its bytes."""

    def steps(self, content):
        """How many places of a file are looked at with care, and how many stretches it has."""
        looked = []

        def counted(walk, place, live):
            looked.append(place)
            return edges(walk, place, live)

        edges = elements.Walk._edges
        with mock.patch.object(elements.Walk, "_edges", counted):
            found = layout(content)
        return len(looked), len(found.stretches)

    def test_heads_alone_cost_no_more_than_a_file_of_their_size_may(self):
        head, size = framed.matroska([(0.0, framed.frame(1))], crc=False), 1 << 19
        # In each of two passes.
        most = 2 * (elements.FEWEST_STEPS + (size + len(head)) // elements.BYTES_PER_STEP) // elements.CAREFUL_STEPS
        for heads in ("1f43b675", "1f43b67501ffffffffffffff", "1f43b67501ffffffffffffffe78100" + 9 * "a38481000080", "a3", "a34fff81000080", "ec80"):
            piece = bytes.fromhex(heads)
            with self.subTest(heads=heads):
                looked, stretches = self.steps(head + piece * (size // len(piece)))
                self.assertLessEqual(looked, most)
                self.assertLessEqual(stretches, 8 * most)

    def test_what_is_left_is_not_divided(self):
        content = framed.matroska([(0.0, framed.frame(1))], crc=False) + bytes.fromhex("1f43b67501ffffffffffffff") * 40000
        found = layout(content)
        self.assertEqual(sum(stretch.size for stretch in found.stretches), len(content))
        self.assertEqual(sum(found.gaps[-1]), len(content))

    def test_a_good_file_has_steps_left(self):
        content = framed.matroska([(0.04 * number, framed.frame(number)) for number in range(40)])
        with made.opened(content) as copies:
            reader = matroska.MatroskaReader(copies)
            reader.layout()
        self.assertLess(max(reader.aligned.steps.used, reader.clusters.aligned.steps.used), 0.1 * elements.FEWEST_STEPS)


if __name__ == "__main__":
    unittest.main()
