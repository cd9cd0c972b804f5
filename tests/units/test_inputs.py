"""Frames of another file in the form of a copy."""
import os
import tempfile
import unittest

from mend_reel.copies.alignment import Alignment, Span
from mend_reel.copies.arrangement import Matched
from mend_reel.copies.inputs import aligned, carry, longest_chain, rising
from mend_reel.model import Content, Fault, Frame, Kind, Layout, Stretch, What
from . import made
from .framed import frame, plain_file


class LiftTest(unittest.TestCase):
    def setUp(self):
        folder = tempfile.TemporaryDirectory()
        self.addCleanup(folder.cleanup)
        self.path = os.path.join(folder.name, "lifted")
        parts = Frame(1, 0.0, 110, 20), Frame(1, 0.04, 140, 30), Frame(1, 0.08, 310, 40)
        clusters = [Stretch(Kind.ELEMENT, start, size, What(Content.CLUSTER), (None, start + 5, start), own)
                    for start, size, own in ((100, 90, parts[:2]), (200, 50, ()), (300, 60, parts[2:]))]
        head = Stretch(Kind.PLAIN, 0, 100, What(Content.HEADER), (0, 0, 0))
        self.layout = Layout(360, [], list(parts), [head, *clusters])
        self.contents = [made.noise(seed, 400) for seed in (1, 2, 3)]

    def lift(self, places, needed):
        other = made.noise(9, 400)
        with made.opened(*self.contents, other) as copies:
            found = carry(self.layout, copies[:3], copies[3], Matched(3, places), needed, self.path)
        with open(self.path, "rb") as file:
            return found, file.read(), other

    def test_frames_of_the_other_file_over_the_source(self):
        found, content, other = self.lift({0: 7, 1: 50}, [1])
        source = self.contents[1][105:195]
        self.assertEqual(found, {1: 0})
        self.assertEqual(content, source[:10] + other[7:27] + source[30:40] + other[50:80] + source[70:])

    def test_a_frame_that_the_other_file_lacks_is_the_source_s(self):
        _, content, other = self.lift({1: 50}, [1])
        source = self.contents[1][105:195]
        self.assertEqual(content, source[:40] + other[50:80] + source[70:])

    def test_stretches_follow_each_other_and_those_without_frames_are_left_out(self):
        found, content, other = self.lift({0: 7, 1: 50, 2: 200}, [3, 2, 1])
        self.assertEqual((found, len(content)), ({1: 0, 3: 90}, 150))
        self.assertEqual(content[100:140], other[200:240])
        self.assertEqual(self.lift({0: 7}, [3])[0], {})

    def test_the_first_copy_that_has_the_element_is_its_source(self):
        _, content, _ = self.lift({2: 200}, [3])
        self.assertEqual((content[:10], content[50:]), (self.contents[1][305:315], self.contents[1][355:365]))

    def test_a_copy_that_became_shorter(self):
        self.contents[1] = self.contents[1][:150]
        with self.assertRaisesRegex(Fault, "copy.1: it became shorter"):
            self.lift({0: 7}, [1])

    def test_no_room_to_write(self):
        self.path = "/no folder/lifted"
        with self.assertRaisesRegex(Fault, "cannot write /no folder/lifted"):
            self.lift({0: 7}, [1])


class AlignedTest(unittest.TestCase):
    def test_a_copy_that_lost_bytes_and_its_end_has_no_place_for_what_lies_there(self):
        _, layout = plain_file([frame(number, 30) for number in range(5)])
        matched = Matched(1, {}, alignment=Alignment([Span(60, layout.size, -20)], 1, 1, 1))
        places, last = aligned(layout, matched, layout.size - 20), len(layout.stretches) - 1
        self.assertEqual((places[last], len(places)), (layout.stretches[last].start - 20, last - 1))
        self.assertEqual(aligned(layout, matched, layout.size - 21), {number: place for number, place in places.items() if number != last})


class RisingTest(unittest.TestCase):
    def test_places_of_frames_that_rise(self):
        _, layout = plain_file([frame(number, 30) for number in range(5)])
        places = {0: 10, 1: 900, 2: 200, 3: 219, 4: 300}
        numbers = [number for number, stretch in enumerate(layout.stretches) if stretch.kind is Kind.FRAME]
        self.assertEqual(rising(layout, Matched(1, places)), {numbers[0]: 10, numbers[2]: 200, numbers[4]: 300})

    def test_the_longest_chain(self):
        self.assertEqual(longest_chain([]), [])
        self.assertEqual(longest_chain([(5, 9), (0, 3), (3, 6), (20, 22), (6, 8), (8, 8)]), [1, 2, 4, 5])
        self.assertEqual(longest_chain([(0, 100), (1, 2), (2, 3)]), [1, 2])

    def test_the_longest_chain_by_trying_all(self):
        for seed in range(40):
            numbers = made.noise(seed, 16)
            ranges = [(numbers[at] % 40, numbers[at] % 40 + numbers[at + 1] % 9 + 1) for at in range(0, 16, 2)]
            best = max(bin(chosen).count("1") for chosen in range(256) if self.is_chain([ranges[at] for at in range(8) if chosen >> at & 1]))
            chain = longest_chain(ranges)
            self.assertTrue(self.is_chain([ranges[at] for at in chain]) and chain == sorted(chain))
            self.assertEqual(len(chain), best)

    @staticmethod
    def is_chain(ranges):
        return all(before[1] <= after[0] for before, after in zip(ranges, ranges[1:]))
