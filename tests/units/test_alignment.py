"""Where the bytes of a copy lie that lost or gained some."""
import unittest

from mend_reel.copies.alignment import Span, align
from . import made

FILE = made.noise(7, 20000)


class AlignmentTest(unittest.TestCase):
    def align(self, other, one=FILE):
        with made.opened(one, other) as copies:
            return align(*copies)

    def spans(self, other, one=FILE):
        return self.align(other, one).spans

    def test_copies_that_lie_alike(self):
        whole = [Span(0, 20000, 0)]
        self.assertEqual(self.spans(FILE), whole)
        self.assertEqual(self.spans(made.damaged(FILE, *range(50, 20000, 700), (4096, bytes(512)), (9000, made.noise(8, 3000)))), whole)
        self.assertEqual((self.spans(FILE[:12000]), self.spans(FILE + bytes(900))), ([Span(0, 12000, 0)], whole))

    def test_bytes_that_were_lost(self):
        for place in (100, 600, 9999, 19000):
            self.assertEqual(self.spans(FILE[:place] + FILE[place + 512 :]), [Span(0, place, 0), Span(place + 512, 20000, -512)], place)
        self.assertEqual(self.spans(FILE[512:]), [Span(512, 20000, -512)])
        self.assertEqual(self.spans(FILE[:5000] + FILE[5512:12000] + FILE[13000:]),
                         [Span(0, 5000, 0), Span(5512, 12000, -512), Span(13000, 20000, -1512)])

    def test_bytes_that_were_added(self):
        self.assertEqual(self.spans(FILE[:5000] + bytes(700) + FILE[5000:]), [Span(0, 5000, 0), Span(5000, 20000, 700)])
        self.assertEqual(self.spans(FILE[:5512] + FILE[5000:]), [Span(0, 5512, 0), Span(5512, 20000, 512)])

    def test_bytes_that_were_lost_and_added_keep_the_length(self):
        found = self.align(FILE[:5000] + FILE[5512:] + bytes(512))
        self.assertEqual((found.spans, found.is_shifted(), found.is_same_file()), ([Span(0, 5000, 0), Span(5512, 20000, -512)], True, True))

    def test_pictures_that_do_not_move(self):
        """Bytes that come again elsewhere are no shift, where the old one is as good after them."""
        still = b"".join(made.noise(5, 900) + made.noise(number, 100) for number in range(20))
        self.assertEqual(self.spans(made.damaged(still, (4200, made.noise(99, 900))), still), [Span(0, 20000, 0)])
        self.assertEqual(self.spans(still[:4200] + still[4712:], still)[-1], Span(4712, 20000, -512))

    def test_places(self):
        found = self.align(FILE[:5000] + FILE[5512:])
        self.assertEqual([found.place(*each) for each in ((0, 5000), (4990, 5001), (5512, 5513), (5511, 5600), (20000, 20001))],
                         [0, None, 5000, None, None])
        self.assertEqual(found.bounds(), {0, 5000, 5512, 20000})

    def test_other_files(self):
        self.assertFalse(self.align(made.noise(70, 20000)).is_same_file())
        self.assertFalse(self.align(bytes(20000)).is_same_file())
        self.assertFalse(self.align(b"".join(FILE[at : at + 900] + b"header" for at in range(0, 20000, 900))).is_same_file())


if __name__ == "__main__":
    unittest.main()
