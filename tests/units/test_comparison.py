"""What is found where copies are compared."""
import unittest

from mend_reel.containers.ffprobe import Packet, Probed
from mend_reel.containers.structure import Structure
from mend_reel.copies.comparison import Comparison, can_be_read
from mend_reel.copies.inputs import Inputs
from mend_reel.model import Because, Content, Copy, Kind, Layout, Outcome, State, Stretch, Track, What
from . import made


class SourcesTest(unittest.TestCase):
    def source(self, reads):
        """Whose bytes OUT has where two copies have others than the third."""
        with made.opened(b"abcdXfgh", b"abcdXfgh", b"abcdefgh") as copies:
            stretches = [Stretch(Kind.PLAIN, 0, 4, What(Content.SOUND), (0, 0, 0)), Stretch(Kind.PLAIN, 4, 1, What(Content.SOUND), (4, 4, 4)),
                         Stretch(Kind.PLAIN, 5, 3, What(Content.SOUND), (5, 5, 5))]
            comparison = Comparison(Layout(8, [], [], stretches), Inputs(copies, [0, 1, 2], 3), [], reads, {})
            found = comparison.sources(stretches, [Outcome(1, State.OPEN, 0, "110")], lambda *_: [])
            return [(number, stretch.source, stretch.because) for number, stretch in found.items()]

    def test_most_of_the_copies_that_can_be_read_decide(self):
        self.assertEqual(self.source([True, True, True]), [(1, 0, Because.MOST)])

    def test_copies_that_cannot_be_read_have_no_vote(self):
        self.assertEqual([each[:2] for each in self.source([False, False, True])], [(1, 2)])

    def test_nothing_is_chosen_where_nothing_is_open(self):
        with made.opened(b"a", b"a") as copies:
            comparison = Comparison(Layout(1, [], [], []), Inputs(copies, [0, 1], 2), [], [True, True], {})
            self.assertEqual(comparison.sources([], [], lambda *_: []), {})


class CanBeReadTest(unittest.TestCase):
    def test_a_matroska_file_that_is_led_through(self):
        copy, layout = Copy("a", 0, 100, "matroska"), Layout(100, [], [], [])
        self.assertTrue(can_be_read(copy, layout, 0))
        self.assertFalse(can_be_read(copy, layout, 1))
        self.assertFalse(can_be_read(copy, Layout(100, [], [], [], gaps=[(3, 4)]), 0))
        self.assertFalse(can_be_read(copy, Layout(101, [], [], []), 0))

    def test_a_file_to_whose_tables_no_part_leads(self):
        """FFmpeg reads it by them in another file alone: it does not play."""
        track = Track(0, Content.VIDEO, "ffv1", True)
        container = Probed("mov", [track], packets=[Packet(0, 0.0, 10, 20, True, None, 10)])
        for table, reads in ((None, True), ((50, 60, 40), False)):
            copy = Copy("a", 0, 100, "mov", probed=container, structure=Structure(table=table))
            self.assertEqual(can_be_read(copy, Layout(100, [], [], []), 0), reads)

    def test_a_container_that_nobody_knows(self):
        self.assertFalse(can_be_read(Copy("a", 0, 100, ""), Layout(100, [], [], []), 0))


if __name__ == "__main__":
    unittest.main()
