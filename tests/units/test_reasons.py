"""The lines that say why OUT may not be what was recorded."""
import unittest

from mend_reel.judging.reasons import Reason, Why, join, lines, time_code
from mend_reel.model import Content
from . import made  # noqa: F401


def of_frames(first, last=None, why=Why.DAMAGED, **more):
    last = first if last is None else last
    return Reason(why, Content.FRAME, None, (first, last), (1000 * first, 1000 * last + 900), (0.04 * first, 0.04 * last), **more)


def of_bytes(start, end, content=Content.SOUND, why=Why.DIFFER, source=1, time=None, track=2):
    return Reason(why, content, track, None, (start, end), None if time is None else (time, time), source)


class TextTest(unittest.TestCase):
    def test_frames(self):
        self.assertEqual(of_frames(40, 49).text(), "frames 40 to 49 (0:00:01.600 to 0:00:01.960, bytes 40000 to 49900): damaged in every copy; "
                                                   "a further copy may restore them")
        self.assertEqual(of_frames(40, why=Why.ALONE_DAMAGED).text(), "frame 40 (0:00:01.600, bytes 40000 to 40900): damaged in the only copy that "
                                                                      "has it; a further copy may restore it")

    def test_sound(self):
        self.assertEqual(of_bytes(99, 611, time=3.2).text(), "sound of track 2 at 0:00:03.200 (bytes 99 to 611): the copies differ, and no "
                                                             "checksum says which is right; OUT has that of copy 2")

    def test_the_index(self):
        self.assertEqual(of_bytes(5, 9, Content.INDEX, Why.ALONE_DAMAGED, None, track=None).text(),
                         "index (bytes 5 to 9): damaged in the only copy that has it; a further copy may restore it")

    def test_every_reason_is_a_sentence(self):
        for why in Why:
            line = Reason(why, Content.FRAME, 1, None, (1, 2), (0.5, 0.7), 0, 3, 4, 5).text("The file")
            self.assertNotIn("{", line)
            self.assertRegex(line, r"^[^ ].*: \S.*[a-z0-9]$", why)

    def test_out_has_another_name(self):
        self.assertTrue(of_bytes(99, 611).text("the mended file").endswith("; the mended file has that of copy 2"))

    def test_clock(self):
        self.assertEqual([time_code(each) for each in (0, 1.96, 59.9996, 3725.5, -0.04, -0.0001)],
                         ["0:00:00.000", "0:00:01.960", "0:01:00.000", "1:02:05.500", "-0:00:00.040", "0:00:00.000"])


class JoinTest(unittest.TestCase):
    def test_a_run_of_frames(self):
        joined = join([of_frames(3), of_frames(4), of_frames(5), of_frames(7)])
        self.assertEqual([reason.frames for reason in joined], [(3, 5), (7, 7)])
        self.assertEqual((joined[0].bytes, joined[0].times), ((3000, 5900), (0.12, 0.2)))

    def test_a_sector(self):
        joined = join([of_bytes(0, 10), of_bytes(10, 20), of_bytes(500, 512), of_bytes(1025, 1030)])
        self.assertEqual([reason.bytes for reason in joined], [(0, 512), (1025, 1030)])

    def test_reasons_that_are_not_alike(self):
        alike = of_bytes(0, 10)
        for other in (of_bytes(10, 20, source=0), of_bytes(10, 20, Content.INDEX), of_bytes(10, 20, why=Why.BESIDE), of_bytes(10, 20, track=3)):
            self.assertEqual(len(join([alike, other])), 2)

    def test_neighbours_with_another_between_them(self):
        joined = join([of_bytes(0, 10), of_bytes(10, 12, Content.FRAMING, track=None), of_bytes(12, 20)])
        self.assertEqual([reason.bytes for reason in joined], [(0, 20), (10, 12)])

    def test_frames_at_times(self):
        made_ = [Reason(Why.UNPLACED, Content.FRAME, times=(at, at), copy=copy) for at, copy in ((1, 2), (2, 2), (3, 1))]
        self.assertEqual([(reason.times, reason.count) for reason in join(made_)], [((1, 2), 2), ((3, 3), 1)])

    def test_holes_stay_apart(self):
        made_ = [Reason(Why.HOLE, Content.FRAME, None, None, (at, at + 9), (at, at)) for at in (0, 1000)]
        self.assertEqual(len(join(made_)), 2)

    def test_so_many_lines_at_most(self):
        shown = lines([of_frames(2 * number) for number in range(60)])
        self.assertEqual((len(shown), shown[-1]), (51, "and 10 more"))
        self.assertEqual(len(lines([of_frames(2 * number) for number in range(50)])), 50)
