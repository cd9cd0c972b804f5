"""What became of frames and bytes, and whether OUT is what was recorded."""
import dataclasses
import unittest

from mend_reel.containers.frame_times import constant_step, end_of, lasts
from mend_reel.containers.structure import Flaw, Found
from mend_reel.copies.arrangement import Leaving, Left, Matched
from mend_reel.judging.completeness import Excuses, misplaced
from mend_reel.judging.kept_digests import Compared
from mend_reel.judging.reasons import Why, join
from mend_reel.judging.results import FrameState, Results
from mend_reel.judging.judgment import Judgment, reasons_of
from mend_reel.mending.verdict import Evidence, judge, verdict_of_file
from mend_reel.model import Claims, Content, Frame, Kind, Layout, Outcome, SliceReport, State, Stretch, What
from .framed import SOUND, VIDEO

COPIES = 2


def stretches_of(layout_end, *kinds):
    """Stretches that follow each other: of each its kind, its size, its content and its parts, as places in it and sizes."""
    made, start = [], 0
    frames = []
    for kind, size, what, parts in kinds:
        own = []
        for place, length in parts:
            frames.append(Frame(1, round(0.04 * len(frames), 3), start + place, length))
            own.append(frames[-1])
        made.append(Stretch(kind, start, size, what, (start,) * COPIES, tuple(own)))
        start += size
    assert start == layout_end
    return made, frames


def recording(count=6):
    """A recording of clusters with a frame each: a head of 12 bytes, and an element of 500 with a frame of 300 in it."""
    kinds = [(Kind.PLAIN, 100, What(Content.HEADER), [])]
    for number in range(count):
        kinds += [(Kind.PLAIN, 12, What(Content.FRAMING), []),
                  (Kind.ELEMENT, 500, What(Content.CLUSTER, None, 0.04 * number, 0.04 * number), [(100, 300)])]
    size = 100 + 512 * count
    stretches, frames = stretches_of(size, *kinds)
    return Layout(size, [VIDEO], frames, stretches, Claims(0.04 * count))


def plain(count=6):
    """A recording without checksums but those of its frames: a head of 40 bytes before each frame of 300, and sound of 100 after it."""
    kinds = [(Kind.PLAIN, 100, What(Content.HEADER), [])]
    for number in range(count):
        kinds += [(Kind.PLAIN, 40, What(Content.FRAMING), []), (Kind.FRAME, 300, What(Content.FRAME, 1, 0.04 * number), [(0, 300)]),
                  (Kind.PLAIN, 100, What(Content.SOUND, 2, 0.04 * number), [])]
    size = 100 + 440 * count
    stretches, frames = stretches_of(size, *kinds)
    return Layout(size, [VIDEO, SOUND], frames, stretches, Claims(0.04 * count))


def element(number):
    return 2 + 2 * number


def settled(marks="11", start=0, end=300):
    return SliceReport(start, end, "settled", 0, marks)


def missing(marks="10", start=0, end=300):
    return SliceReport(start, end, "missing", 0, marks)


def repaired(marks="00", start=0, end=300):
    return SliceReport(start, end, "repaired", 2400, marks)


def voted(marks="00", start=0, end=300):
    return SliceReport(start, end, "voted", 4, marks)


def undivided(marks="10", start=0, end=300):
    return SliceReport(start, end, "undivided", 0, marks)


def without(layout, *numbers):
    """A layout as it is read again with some frames hidden."""
    return dataclasses.replace(layout, frames=[frame for number, frame in enumerate(layout.frames) if number not in numbers])


def verdict(layout, *outcomes, out=None, **more):
    return judge(Evidence(layout, layout.stretches, outcomes, out or layout, **more))


def whys(found):
    return [reason.why for reason in found.reasons]


class FateTest(unittest.TestCase):
    def results(self, layout, *outcomes, copy_of_mark=(0, 1)):
        return Results(layout, layout.stretches, outcomes, copy_of_mark)

    def test_a_frame_of_a_whole_element(self):
        results = self.results(recording(), Outcome(element(2), State.WHOLE, 0, "10", {0: (settled("10"),)}))
        result = results.frames[2]
        self.assertEqual((result.state, result.damaged, result.order), (FrameState.RESTORED, (1,), 2))
        self.assertEqual(results.counts().named(), {"frames": 6, "damaged": 1, "restored": 1, "woven": 0, "not restored": 0})

    def test_sound_alone_is_no_frame(self):
        results = self.results(recording(), Outcome(element(2), State.WHOLE, 0, "10"))
        self.assertEqual((results.frames, results.counts().damaged), ({}, 0))

    def test_a_frame_that_is_given_back_in_an_element_that_is_not(self):
        results = self.results(recording(), Outcome(element(1), State.MISSING, 0, "10", {0: (settled("10", 100), settled("01", 0, 100))}))
        self.assertEqual((results.frames[1].state, results.frames[1].damaged), (FrameState.RESTORED, (0, 1)))
        self.assertEqual((results.sums().verified, results.sums().open), (5 * 500 + 300, 200))

    def test_a_copy_with_damage_beside_a_frame_alone_has_the_frame(self):
        results = self.results(recording(), Outcome(element(1), State.MISSING, 0, "10", {0: (settled("01"),)}))
        self.assertEqual(results.frames[1].damaged, (0,))

    def test_a_copy_with_other_bytes_where_nothing_is_divided_is_damaged(self):
        slices = (settled("11", 100), undivided("11", 0, 100))
        results = self.results(recording(), Outcome(element(1), State.WHOLE, 0, "01", {0: slices}))
        self.assertEqual(results.frames[1].damaged, (0,))

    def test_a_lost_frame(self):
        results = self.results(recording(), Outcome(element(1), State.MISSING, 0, "10", {0: (missing("10"),)}))
        self.assertEqual((results.frames[1].state, results.frames[1].damaged), (FrameState.LOST, (0, 1)))
        self.assertEqual((results.sums().verified, results.sums().open), (5 * 500, 500))

    def test_a_frame_of_which_a_place_is_not_divided_is_lost(self):
        slices = (settled("10", 200), undivided("11", 100, 200), settled("01", 0, 100))
        results = self.results(recording(), Outcome(element(1), State.MISSING, 0, "10", {0: slices}))
        self.assertEqual((results.frames[1].state, results.frames[1].damaged), (FrameState.LOST, (0, 1)))
        self.assertEqual(results.counts().named(), {"frames": 6, "damaged": 1, "restored": 0, "woven": 0, "not restored": 1})
        self.assertEqual((results.sums().verified, results.sums().open), (5 * 500, 500))

    def test_a_checksum_vouches_for_a_place_that_is_not_divided(self):
        slices = (settled("10", 200), undivided("00", 100, 200), settled("01", 0, 100))
        results = self.results(recording(), Outcome(element(1), State.WOVEN, 4, "00", {0: slices}))
        self.assertEqual((results.frames[1].state, results.frames[1].damaged, results.sums().open), (FrameState.WOVEN, (0, 1), 0))

    def test_a_repaired_slice_is_lost_where_no_checksum_vouches_for_it(self):
        slices = (settled("10", 200), repaired("00", 100, 200), settled("01", 0, 100))
        lost, whole, woven = (self.results(recording(), Outcome(element(1), state, 0, "00", {0: slices})) for state in
                              (State.MISSING, State.WHOLE, State.WOVEN))
        self.assertEqual([results.frames[1].state for results in (lost, whole, woven)], [FrameState.LOST, FrameState.RESTORED, FrameState.WOVEN])
        self.assertEqual((lost.sums().verified, lost.sums().open), (5 * 500, 500))

    def test_woven(self):
        results = self.results(recording(), Outcome(element(0), State.WHOLE, 0, "00", {0: (SliceReport(0, 300, "woven", 4, "00"),)}),
                           Outcome(element(1), State.WOVEN, 4, "00", {0: (missing("00"),)}),
                           Outcome(element(2), State.WOVEN, 4, "00", {0: (settled("10"),)}))
        self.assertEqual([results.frames[number].state for number in range(3)], [FrameState.WOVEN, FrameState.WOVEN, FrameState.RESTORED])
        self.assertEqual(results.counts().woven, 2)

    def test_frames_without_an_element(self):
        results = self.results(plain(), Outcome(2, State.WHOLE, 0, "10", {0: (settled("10"),)}), Outcome(5, State.MISSING, 0, "11", {0: (missing("11"),)}),
                           Outcome(8, State.WHOLE, 0, "1-", {}))
        self.assertEqual([(at, result.state, result.damaged) for at, result in results.frames.items()],
                         [(0, FrameState.RESTORED, (1,)), (1, FrameState.LOST, (0, 1))])

    def test_frames_without_parities(self):
        layout = plain()
        layout.stretches = [dataclasses.replace(each, kind=Kind.PLAIN, parts=()) for each in layout.stretches]
        results = self.results(layout, Outcome(2, State.OPEN, 0, "10"))
        self.assertEqual((results.frames[0].state, results.frames[0].damaged), (FrameState.LOST, (0, 1)))

    def test_a_frame_without_parities_in_several_stretches(self):
        layout = plain()
        frame = layout.stretches[5]
        layout.stretches[5:6] = [dataclasses.replace(frame, kind=Kind.PLAIN, parts=(), start=frame.start + at, size=100,
                                                     places=(frame.start + at,) * 2) for at in (0, 100, 200)]
        results = self.results(layout, Outcome(6, State.AGREED, 0, "10"), Outcome(7, State.OPEN, 0, "01"))
        self.assertEqual((list(results.frames), results.frames[1].state, results.frames[1].damaged), ([1], FrameState.LOST, (0, 1)))
        self.assertEqual([len(results.within(number)) for number in (4, 5, 6, 7, 8)], [0, 1, 1, 1, 0])

    def test_a_frame_that_could_not_be_listed_as_a_part(self):
        layout = recording()
        layout.frames.insert(1, Frame(1, 0.02, layout.stretches[2].start + 430, 40))
        missing_one = self.results(layout, Outcome(element(0), State.MISSING, 0, "10", {0: (settled("10"),)}))
        self.assertEqual([result.state for result in missing_one.frames.values()], [FrameState.RESTORED, FrameState.LOST])
        self.assertEqual(missing_one.sums().open, 200)
        self.assertEqual(self.results(layout, Outcome(element(0), State.WHOLE, 0, "10", {})).frames[1].state, FrameState.RESTORED)

    def test_several_marks_of_one_copy(self):
        layout = recording()
        layout.stretches = [dataclasses.replace(stretch, places=(*stretch.places, None)) for stretch in layout.stretches]
        results = self.results(layout, Outcome(element(2), State.WHOLE, 0, "1-0", {0: (settled("1-0"),)}), copy_of_mark=(0, 3, 3))
        self.assertEqual(results.frames[2].damaged, (3,))

    def test_sums(self):
        layout = recording()
        layout.stretches[0] = dataclasses.replace(layout.stretches[0], places=(0, None))
        results = self.results(layout, Outcome(1, State.OPEN, 0, "10"), Outcome(3, State.AGREED, 0, "11-"))
        self.assertEqual(results.sums().named(), {"verified": 6 * 500, "agreed": 5 * 12, "alone": 100, "open": 12, "read": 0})


class VerdictTest(unittest.TestCase):
    def test_nothing_is_damaged(self):
        for layout in (recording(), plain()):
            found = verdict(layout)
            self.assertEqual((found.status, found.reasons, found.notes), (0, [], []))
            self.assertIn("no damage was found", found.sentence())

    def test_all_is_mended(self):
        found = verdict(recording(), Outcome(element(2), State.WHOLE, 0, "10", {0: (settled("10"),)}), Outcome(element(3), State.WOVEN, 2, "00"))
        self.assertEqual(found.status, 0)
        self.assertIn("all damage is mended", found.sentence())

    def test_lost_frames_and_the_sound_beside_them(self):
        found = verdict(recording(), *(Outcome(element(number), State.MISSING, 0, "10", {0: (missing(),)}) for number in (1, 2, 4)))
        self.assertEqual([reason.text() for reason in found.reasons], [
            "frames 1 to 2 (0:00:00.040 to 0:00:00.080, bytes 724 to 1536): damaged in every copy; a further copy may restore them",
            "frame 4 (0:00:00.160, bytes 2260 to 2560): damaged in every copy; a further copy may restore it"])
        self.assertEqual((found.status, found.notes), (3, ["beside frames that are not restored 600 bytes of sound and headers can't be verified, "
                                                          "as one checksum is over all"]))

    def test_damage_beside_the_frames(self):
        found = verdict(recording(), Outcome(element(1), State.MISSING, 0, "10", {}))
        self.assertEqual((whys(found), found.counts.damaged), ([Why.BESIDE], 0))

    def test_repaired_slices(self):
        slices = [(settled("11", 100), repaired("00", 0, 100)), (missing("00", 100), repaired("00", 0, 100))]
        found = verdict(recording(), *(Outcome(element(number), State.MISSING, 0, "00", {0: each}) for number, each in enumerate(slices, 1)))
        self.assertEqual((whys(found), found.status), ([Why.REPAIRED, Why.DAMAGED], 3))
        self.assertEqual(found.reasons[0].text(), "frame 1 (0:00:00.040, bytes 724 to 1024): damaged in every copy; OUT has it with inverted bits, "
                         "one in a slice, by which all slices pass. That can be by chance; a further copy may restore it")

    def test_voted_slices(self):
        slices = [(settled("11", 100), voted("00", 0, 100)), (missing("00", 100), voted("00", 0, 100)), (repaired("00", 100), voted("00", 0, 100))]
        found = verdict(recording(), *(Outcome(element(number), State.MISSING, 0, "00", {0: each}) for number, each in enumerate(slices, 1)))
        self.assertEqual((whys(found), found.status), ([Why.VOTED, Why.DAMAGED, Why.GUESSED], 3))
        self.assertEqual(found.reasons[0].text(), "frame 1 (0:00:00.040, bytes 724 to 1024): damaged in every copy; OUT has it as most copies have "
                         "each part of a slice, by which all slices pass. That can be by chance; a further copy may restore it")

    def of_one_copy(self, layout, *outcomes, **more):
        layout.stretches[:] = [dataclasses.replace(stretch, places=stretch.places[:1]) for stretch in layout.stretches]
        return verdict(layout, *outcomes, **more)

    def checked(self, layout, *outcomes, flaws=(), failing=frozenset(), mended=frozenset()):
        """The verdict on a file that is checked."""
        layout.stretches[:] = [dataclasses.replace(stretch, places=stretch.places[:1]) for stretch in layout.stretches]
        judged = Judgment(layout, Results(layout, layout.stretches, outcomes, [0], failing=failing), flaws)
        judged.reasons = join(reasons_of(judged))
        return verdict_of_file(judged, None, mended, "a")

    def test_one_copy(self):
        found = self.of_one_copy(recording(), Outcome(element(1), State.MISSING, 0, "1", {0: (missing("1"),)}),
                                 Outcome(element(4), State.MISSING, 0, "1", {}))
        self.assertEqual([(reason.why, reason.bytes) for reason in found.reasons], [
            (Why.ALONE, (0, 100)), (Why.ALONE, (612, 624)), (Why.ALONE_DAMAGED, (724, 1024)), (Why.ALONE, (2148, 2160)),
            (Why.ALONE_DAMAGED, (2160, 2660))])
        self.assertEqual(found.status, 3)

    def test_the_header_of_an_element_that_passes_is_verified(self):
        found = self.of_one_copy(recording())
        self.assertEqual((found.sums.verified, found.sums.alone, whys(found)), (6 * 512, 100, [Why.ALONE]))

    def test_what_one_copy_alone_has_is_one_reason_up_to_what_is_vouched_for(self):
        layout = plain()
        layout.stretches = [dataclasses.replace(stretch, places=(stretch.start, stretch.start if 800 < stretch.start < 1300 else None))
                            for stretch in layout.stretches]
        found = verdict(layout)
        sound = [(reason.bytes, reason.count, reason.times, reason.copy) for reason in found.reasons if reason.content is Content.SOUND]
        self.assertEqual(sound, [((440, 540), 100, (0.0, 0.0), 0), ((1320, 2740), 400, (0.08, 0.2), 0)])
        self.assertEqual(found.status, 3)

    def test_what_maps_say_could_not_be_read_in_the_others_is_read(self):
        layout = plain()
        layout.stretches[3:6] = [dataclasses.replace(each, places=(each.start, None), is_read=True) for each in layout.stretches[3:6]]
        found = verdict(layout)
        self.assertEqual((found.status, found.sums.read, found.sums.alone), (0, 140, 0))

    def test_a_file_that_is_checked(self):
        found = self.checked(plain())
        self.assertEqual((found.status, found.sentence("reel.avi")), (0, "reel.avi: no damage was found; 34.3 % of the bytes can't be checked, "
                                                                         "among them all of the sound."))
        found = self.checked(recording())
        self.assertEqual(found.sentence("reel.mkv"), "reel.mkv: no damage was found; 3.2 % of the bytes can't be checked.")

    def test_what_is_said_of_a_damaged_file(self):
        lost = [Outcome(element(at), State.MISSING, 0, "1", {0: (missing("1"),)}) for at in (1, 2, 4)]
        for numbers, mended, said in (
                ({1}, {1}, "a: damaged in one frame; mend-reel -o OUT a can mend it."), ({1}, set(), "a: damaged in one frame."),
                ({1, 2, 4}, {1, 2, 4}, "a: damaged in 3 frames; mend-reel -o OUT a can mend them."),
                ({1, 2, 4}, {2}, "a: damaged in 3 frames; mend-reel -o OUT a can mend 1 of the frames.")):
            found = self.checked(recording(), *(lost[(1, 2, 4).index(at)] for at in sorted(numbers)), failing=numbers, mended=mended)
            self.assertEqual((found.status, found.sentence("a")), (3, said))
        found = self.checked(recording(), lost[0], failing={1}, flaws=[Found(Flaw.BROKEN, 40, 60), Found(Flaw.AFTER_END, 90, 95)])
        self.assertEqual(found.sentence("a"), "a: damaged in one frame and 2 other places.")
        self.assertEqual(self.checked(recording(), flaws=[Found(Flaw.BROKEN, 40, 60)]).sentence("a"), "a: damaged in one place.")
        text = " ".join(reason.text("a") for reason in self.checked(recording(), *lost, failing={1, 2, 4}, mended={1, 2}).reasons)
        self.assertIn("frames 1 to 2 (0:00:00.040 to 0:00:00.080, bytes 724 to 1536): damaged; mend-reel -o OUT a can mend them", text)
        self.assertIn("frame 4 (0:00:00.160, bytes 2260 to 2560): damaged; a further copy may have it whole", text)

    def test_a_file_whose_parts_are_not_walked(self):
        layout = recording()
        for flaws, is_said in (([], False), ([Found(Flaw.NOT_WALKED, 0, layout.size)], True)):
            found = self.checked(layout, flaws=flaws)
            self.assertEqual((found.status, "whether its parts hang together is not checked" in found.sentence("a")), (0, is_said))

    def test_a_file_that_is_checked_without_a_checksum(self):
        layout = plain()
        stretches = [dataclasses.replace(stretch, kind=Kind.PLAIN, parts=()) for stretch in layout.stretches]
        found = self.checked(dataclasses.replace(layout, stretches=stretches))
        self.assertEqual((found.status, whys(found)), (3, [Why.UNCHECKED]))

    def test_a_record_that_fails_its_parity(self):
        layout = recording()
        layout.tracks = [dataclasses.replace(VIDEO, record=b"record")]
        found = verdict(layout)
        self.assertEqual((found.status, [reason.text() for reason in found.reasons]), (3, [
            "description of the tracks of track 1: what describes its video to a decoder (the Configuration Record) fails its parity; "
            "a further copy may have it right"]))

    def test_parts_that_do_not_hang_together(self):
        flaws = [Found(Flaw.BROKEN, 40, 60), Found(Flaw.AFTER_END, 90, 95), Found(Flaw.BARE, 10, 20), Found(Flaw.BROKEN, 630, 700)]
        lost = Outcome(element(1), State.MISSING, 0, "1-", {})
        self.assertEqual([reason.bytes for reason in verdict(recording(), lost, flaws=flaws).reasons], [(40, 60), (624, 1124)])
        found = self.checked(recording(), flaws=flaws)
        self.assertEqual([reason.why for reason in found.reasons], [Why.BARE, Why.BROKEN, Why.AFTER_END, Why.BROKEN])

    def test_frames_that_were_damaged_before_the_file_was_written(self):
        found = verdict(recording(), failing={2, 3})
        self.assertEqual([(reason.why, reason.frames) for reason in found.reasons], [(Why.ROTTEN, (2, 3))])
        self.assertEqual((found.counts.lost, found.results.frames[2].damaged), (2, (0, 1)))

    def test_what_other_files_have_and_out_lacks(self):
        other = dataclasses.replace(recording(), tracks=[VIDEO, SOUND])
        other.stretches = [*other.stretches, *(Stretch(Kind.PLAIN, 0, 9, What(each)) for each in (Content.ATTACHMENTS, Content.TAGS))]
        found = verdict(recording(), others={4: other})
        self.assertEqual([(reason.why, reason.content, reason.copy) for reason in found.reasons],
                         [(Why.LACKS, Content.SOUND, 4), (Why.LACKS, Content.ATTACHMENTS, 4)])
        self.assertEqual((found.status, found.notes), (3, ["copy 5 has tags, and OUT has none"]))

    def test_sound_that_passes_beside_what_is_lost_is_verified(self):
        layout = recording()
        layout.stretches[element(1)] = dataclasses.replace(layout.stretches[element(1)], sound=((634, 40), (680, 30), (1040, 50)))
        slices = {0: (SliceReport(0, 40, "missing", 0, "00"),), 2: (missing(),), 3: (SliceReport(0, 50, "whole", 0, "10"),)}
        found = verdict(layout, Outcome(element(1), State.MISSING, 0, "10", slices))
        self.assertEqual((found.sums.verified, found.sums.open), (5 * 500 + 80, 420))
        self.assertEqual([(reason.why, reason.frames) for reason in found.reasons], [(Why.DAMAGED, (1, 1))])

    def test_a_digest_decides(self):
        of_all, of_frames = (Compared(True, "it is the original", is_of_all) for is_of_all in (True, False))
        lost = Outcome(element(1), State.MISSING, 0, "10", {0: (missing(),)})
        self.assertEqual((verdict(recording(), lost, compared=of_all).status, verdict(recording(), lost, compared=of_frames).status), (0, 3))
        self.assertEqual(verdict(recording(), compared=Compared(False, "it is not", False)).status, 3)
        self.assertEqual(verdict(recording(), compared=of_frames).notes, ["it is the original"])

    def test_copies_that_differ(self):
        layout = plain()
        layout.stretches[3] = dataclasses.replace(layout.stretches[3], source=1)
        found = verdict(layout, Outcome(3, State.OPEN, 0, "01"), copy_of_mark=(4, 6))
        self.assertEqual([reason.text() for reason in found.reasons], ["sound of track 2 at 0:00:00.000 (bytes 440 to 540): the copies differ, and "
                                                                       "no checksum says which is right; OUT has that of copy 7"])

    def test_two_versions_that_pass(self):
        found = verdict(recording(), Outcome(element(1), State.DISPUTED, 0, "10", {}),
                        Outcome(element(3), State.MISSING, 0, "10", {0: (SliceReport(0, 300, "disputed", 0, "10"),)}))
        self.assertEqual(whys(found), [Why.DISPUTED, Why.DISPUTED])

    def test_gaps_and_what_no_copy_has(self):
        layout = recording()
        layout.gaps = [(620, 40), (layout.size, 1000)]
        self.assertEqual([reason.text()[:44] for reason in verdict(layout).reasons],
                         ["bytes 620 to 660: no copy's element headers ", "bytes 3172 to 4172: no copy has these bytes,"])

    def test_copies_that_are_left_out_are_reported(self):
        found = verdict(recording(), left=[Left(2, Leaving.REPEATED, 0)])
        self.assertEqual((found.status, found.notes), (0, ["copy 3 is left out: it is the same file as copy 1"]))


class CompletenessTest(unittest.TestCase):
    """Where nothing is damaged that was listed, and frames lack all the same."""

    def test_out_that_cannot_be_read(self):
        layout = recording()
        self.assertEqual(whys(verdict(layout, out=dataclasses.replace(layout, frames=[]))), [Why.UNREAD])
        self.assertEqual(whys(judge(Evidence(layout, layout.stretches, [], None))), [Why.UNREAD])

    def test_a_frame_that_out_hides(self):
        layout = plain()
        found = verdict(layout, out=without(layout, 2, 3))
        self.assertIn("frames 2 to 3", found.reasons[0].text())
        self.assertEqual(found.reasons[0].why, Why.HIDDEN)

    def hidden_everywhere(self, layout, *numbers, **claims):
        """The verdict on a recording of which no container shows some frames: they are neither listed nor in OUT."""
        frames = without(layout, *numbers).frames
        stretches = []
        for stretch in layout.stretches:
            lost = stretch.kind is Kind.FRAME and stretch.parts[0] not in frames
            stretches.append(dataclasses.replace(stretch, kind=Kind.PLAIN, parts=(), what=What(Content.UNKNOWN)) if lost else stretch)
        return verdict(dataclasses.replace(layout, frames=frames, stretches=stretches, claims=Claims(**claims)))

    def test_a_hole_in_the_times(self):
        found = self.hidden_everywhere(plain(), 2, 3)
        self.assertEqual(whys(found), [Why.HOLE])
        self.assertIn("2 frames from 0:00:00.080 to 0:00:00.120 (bytes 880 to 1900)", found.reasons[0].text())

    def test_a_hole_before_the_first_frame(self):
        self.assertEqual(whys(self.hidden_everywhere(plain(), 0)), [Why.HOLE])

    def test_a_hole_between_verified_bytes_was_recorded(self):
        layout = recording()
        layout.frames = [dataclasses.replace(frame, time=frame.time + 0.04 * (number > 2)) for number, frame in enumerate(layout.frames)]
        layout.claims = Claims(0.28)
        self.assertEqual(verdict(layout).reasons, [])
        self.assertEqual(whys(verdict(layout, Outcome(element(3), State.MISSING, 0, "10", {0: (settled("10"),)}))), [Why.BESIDE, Why.HOLE])

    def test_a_hole_that_the_count_excuses(self):
        layout = plain()
        layout.frames = [dataclasses.replace(frame, time=frame.time + 0.04 * (number > 2)) for number, frame in enumerate(layout.frames)]
        self.assertEqual(whys(verdict(layout)), [Why.HOLE])
        layout.claims = Claims(None, {1: 6})
        self.assertEqual(verdict(layout).reasons, [])

    def test_no_hole_where_steps_vary(self):
        layout = plain()
        times = (0, 0.1, 0.13, 0.3, 0.36, 0.7)
        layout.frames = [dataclasses.replace(frame, time=time) for frame, time in zip(layout.frames, times)]
        layout.claims = Claims()
        layout.tracks = [dataclasses.replace(VIDEO, step=None), SOUND]
        self.assertEqual(verdict(layout).reasons, [])

    def test_the_last_frame_against_the_duration(self):
        found = self.hidden_everywhere(dataclasses.replace(plain(), tracks=[VIDEO]), 5, duration=0.24)
        self.assertEqual(whys(found), [Why.SHORT])
        self.assertIn("the recording from 0:00:00.200 to 0:00:00.240: OUT ends before", found.reasons[0].text())

    def test_the_last_frame_against_the_end_of_its_track(self):
        self.assertEqual(whys(self.hidden_everywhere(plain(), 5, duration=0.24, ends={1: 0.24})), [Why.SHORT])

    def test_sound_may_be_longer(self):
        layout = plain()
        layout.stretches[-1] = dataclasses.replace(layout.stretches[-1], what=What(Content.SOUND, 2, 5.0, 5.1))
        layout.claims = Claims(5.2)
        self.assertEqual(verdict(layout).reasons, [])
        layout.claims = Claims(5.5)
        self.assertEqual(whys(verdict(layout)), [Why.SHORT])

    def test_the_count(self):
        found = self.hidden_everywhere(plain(), 5, counts={1: 6})
        self.assertEqual([reason.text() for reason in found.reasons],
                         ["track 1: OUT has 5 frames, but the file says that it has 6; a further copy may have the others"])

    def test_an_index_that_points_at_nothing(self):
        self.assertEqual(whys(self.hidden_everywhere(plain(), 5, index={1: [0.0, 0.08, 0.2]})), [Why.INDEX])
        self.assertEqual(whys(self.hidden_everywhere(plain(), 3, index={1: [0.12]})), [Why.HOLE])
        self.assertEqual(verdict(dataclasses.replace(plain(), claims=Claims(None, {}, {1: [0.0, 0.2], 9: [77.0]}))).reasons, [])

    def test_a_copy_speaks_where_out_says_nothing(self):
        layout = dataclasses.replace(recording(), claims=Claims(0.24, {1: 6}))
        self.assertEqual(verdict(layout, claims=[Claims(99.0, {1: 50})]).reasons, [])
        self.assertEqual(whys(verdict(dataclasses.replace(layout, claims=Claims()), claims=[Claims(99.0, {1: 50})])), [Why.COUNT, Why.SHORT])

    def test_what_other_files_have(self):
        frame = Frame(0, 0.5, 7, 8)
        found = verdict(recording(), matched=[Matched(2, {}, [frame, dataclasses.replace(frame, time=0.6)], [frame], 2.0)])
        self.assertEqual(whys(found), [Why.SHORTER, Why.UNPLACED, Why.CONTRARY])
        self.assertIn("2 frames from 0:00:00.500 to 0:00:00.600: copy 3 has them", found.reasons[1].text())


class TimesTest(unittest.TestCase):
    def test_a_constant_step(self):
        times = [0.04 * number for number in range(20)]
        self.assertEqual(constant_step(times, 0.04), 0.04)
        self.assertAlmostEqual(constant_step(times, None), 0.04)
        self.assertAlmostEqual(constant_step(times, 0.02), 0.04)
        self.assertIsNone(constant_step([0, 1, 1.1, 3, 3.5, 9], None))
        self.assertEqual(constant_step([0.0], 0.04), 0.04)

    def test_a_file_that_is_cut_short(self):
        self.assertIsNone(lasts(recording()))
        self.assertEqual(lasts(dataclasses.replace(recording(), claims=Claims(1.0))), 1.0)
        self.assertEqual(end_of(Layout(0, [], [], [])), (0.0, 0.002))

    def test_unverified_bytes(self):
        layout = plain()
        excuses = Excuses([], Results(layout, layout.stretches, [], (0, 1)), [])
        self.assertEqual(excuses.unverified(layout.frames[0].end, layout.frames[1].place), 140)

    def test_frames_of_another_place(self):
        """The fewest frames are named whose times do not rise with the others', of each track by itself."""
        for times, wrong in (((0, 1, 2, 3), []), ((0, 1, 1, 3), [2]), ((0, 1, 2, 1, 2, 5), [3, 4]), ((0, 9, 2, 3), [1]), ((0, 2, 1, 3), [1])):
            frames = [Frame(1, 0.04 * time, 100 * at, 90) for at, time in enumerate(times)] + [Frame(2, 0.0, 1000, 90), Frame(2, 0.04, 1100, 90)]
            layout = Layout(1200, [VIDEO], frames, [], rises=True)
            self.assertEqual([reason.bytes[0] // 100 for reason in misplaced(layout)], wrong, times)
            self.assertEqual(list(misplaced(dataclasses.replace(layout, rises=False))), [])
