"""What is known to be wrong of a copy: what could not be read of it, and element headers that it has broken."""
import contextlib
import unittest

from mend_reel.copies.known_wrong import drop_broken
from mend_reel.judging.unread import spans_in, without_unread
from mend_reel.model import Content, Copy, Kind, Stretch, What
from . import made


def copy(*unread):
    return Copy("", 0, 1000, unread=unread)


def cut(kind, places, *copies, start=100, size=60, own=None):
    stretch = Stretch(kind, start, size, What(Content.SOUND), places)
    return [(part.start, part.end, part.places, part.is_read, part.is_unread) for part in without_unread(stretch, copies, own or len(copies))]


class UnreadTest(unittest.TestCase):
    def test_spans_between_two_places(self):
        one = copy((10, 20), (30, 40), (50, 60)).unread
        self.assertEqual(spans_in(one, 20, 30), [])
        self.assertEqual(spans_in(one, 19, 31), [(19, 20), (30, 31)])
        self.assertEqual(spans_in(one, 0, 99), [(10, 20), (30, 40), (50, 60)])
        self.assertEqual(spans_in(one, 32, 35), [(32, 35)])

    def test_without_maps_nothing_is_cut(self):
        self.assertEqual(cut(Kind.PLAIN, (100, 100), copy(), copy()), [(100, 160, (100, 100), False, False)])

    def test_what_one_could_not_read_the_other_has(self):
        self.assertEqual(cut(Kind.PLAIN, (100, 120), copy((110, 130)), copy()), [
            (100, 110, (100, 120), False, False), (110, 130, (None, 130), True, False), (130, 160, (130, 150), False, False)])

    def test_places_of_a_copy_are_its_own(self):
        self.assertEqual(cut(Kind.PLAIN, (100, 120), copy(), copy((110, 130))), [
            (100, 110, (100, None), True, False), (110, 160, (110, 130), False, False)])

    def test_two_that_could_be_read_decide_together(self):
        self.assertEqual(cut(Kind.PLAIN, (100, 100, 100), copy((0, 500)), copy(), copy()), [(100, 160, (None, 100, 100), False, False)])

    def test_of_three_one_could_be_read(self):
        self.assertEqual(cut(Kind.PLAIN, (100, 100, 100), copy((0, 500)), copy(), copy((90, 160))), [(100, 160, (None, 100, None), True, False)])

    def test_a_copy_that_is_cut_short_explains_nothing(self):
        self.assertEqual(cut(Kind.PLAIN, (100, 100, None), copy((0, 500)), copy(), copy()), [(100, 160, (None, 100, None), False, False)])

    def test_other_files_lack_it_without_a_map(self):
        self.assertEqual(cut(Kind.PLAIN, (100, 100, None), copy((0, 500)), copy(), copy(), own=2), [(100, 160, (None, 100, None), True, False)])
        self.assertEqual(cut(Kind.PLAIN, (100, 100, 7), copy((0, 500)), copy(), copy(), own=2), [(100, 160, (None, 100, 7), False, False)])

    def test_what_none_could_read_is_open(self):
        self.assertEqual(cut(Kind.PLAIN, (100, 100), copy((90, 120)), copy((110, 200))), [
            (100, 110, (None, 100), True, False), (110, 120, (110, None), False, True), (120, 160, (120, None), True, False)])
        self.assertEqual(cut(Kind.PLAIN, (100,), copy((90, 300))), [(100, 160, (100,), False, True)])

    def filled(self, *contents, vouched=()):
        """What the copies of a stretch have of it, of which those with zeros have long filling, and whether one was read alone."""
        with made.opened(*contents) as copies:
            for each in copies:
                each.filling = [(0, 60)] if not any(each.read(0, 60)) else []
            stretch = Stretch(Kind.PLAIN, 0, 60, What(Content.FRAMING), (0,) * len(copies), vouched=frozenset(vouched))
            return [(part.having(), part.is_read) for part in without_unread(stretch, copies, len(copies))]

    def test_long_filling_counts_as_unread_and_what_one_other_has_stays_in_doubt(self):
        self.assertEqual(self.filled(bytes(60), made.noise(1, 60)), [([1], False)])
        self.assertEqual(self.filled(bytes(60), made.noise(1, 60), made.noise(2, 60)), [([1, 2], False)])
        self.assertEqual(self.filled(bytes(60), bytes(60)), [([0, 1], False)])

    def test_what_the_container_confirms_is_read_where_the_others_have_long_filling(self):
        self.assertEqual(self.filled(bytes(60), made.noise(1, 60), vouched={1}), [([1], True)])
        self.assertEqual(self.filled(bytes(60), made.noise(1, 60), vouched={0}), [([1], False)])

    def test_what_has_the_value_of_the_filling_is_alike(self):
        with made.opened(bytes(60), bytes(60)) as copies:
            copies[0].filling = [(0, 60)]
            self.assertEqual(cut(Kind.PLAIN, (0, 0), *copies, start=0), [(0, 60, (0, 0), False, False)])

    def test_long_filling_where_the_other_copy_could_not_be_read(self):
        self.assertEqual(cut(Kind.PLAIN, (100, 100), Copy("", 0, 1000, filling=((90, 160),)), copy((0, 999))), [(100, 160, (100, None), True, False)])

    def test_a_frame_is_not_cut(self):
        self.assertEqual(cut(Kind.FRAME, (100, 100), copy((110, 120)), copy()), [(100, 160, (100, 100), False, False)])
        self.assertEqual(cut(Kind.FRAME, (100, 100), copy((90, 160)), copy()), [(100, 160, (100, 100), False, False)])
        self.assertEqual(cut(Kind.ELEMENT, (100, 100), copy((90, 160)), copy((0, 999))), [(100, 160, (100, 100), False, False)])


class DropTest(unittest.TestCase):
    def dropped(self, *contents, vouched, content=Content.FRAMING):
        """The places of the copies in a header after it was looked at, and how many places were taken away by copy."""
        with contextlib.ExitStack() as stack:
            copies = stack.enter_context(made.opened(*contents))
            stretch = Stretch(Kind.PLAIN, 0, 4, What(content), (0,) * len(contents), vouched=frozenset(vouched))
            (found,), counts = drop_broken([stretch], copies)
            return found.places, dict(counts)

    def test_what_leads_nowhere_is_taken_away_where_another_leads_on(self):
        self.assertEqual(self.dropped(b"abcd", b"abXd", b"abcd", vouched=[0]), ((0, None, 0), {1: 1}))

    def test_two_that_both_lead_on_differ(self):
        self.assertEqual(self.dropped(b"abcd", b"abXd", vouched=[0, 1]), ((0, 0), {}))
        self.assertEqual(self.dropped(b"abcd", b"abXd", b"abYd", vouched=[0, 1]), ((0, 0, 0), {}))

    def test_where_none_leads_on_nothing_is_taken_away(self):
        self.assertEqual(self.dropped(b"abcd", b"abXd", vouched=[]), ((0, 0), {}))

    def test_other_bytes_are_no_headers(self):
        self.assertEqual(self.dropped(b"abcd", b"abXd", vouched=[0], content=Content.SOUND), ((0, 0), {}))


if __name__ == "__main__":
    unittest.main()
