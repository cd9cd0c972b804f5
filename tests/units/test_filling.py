"""Long runs of one value, where other copies have content."""
import contextlib
import unittest

from mend_reel.copies.filling import complement, filling, find_filling, hidden, pieces, placed, runs
from mend_reel.judging.unread import spans_in
from mend_reel.model import Content, Kind, Layout, Stretch, What
from . import made

SIZE = 16384
CONTENT = made.noise(7, SIZE)


def zeroed(content: bytes, *spans: "tuple[int, int]") -> bytes:
    for start, end in spans:
        content = content[:start] + bytes(end - start) + content[end:]
    return content


class FillingTest(unittest.TestCase):
    def setUp(self):
        self.stack = contextlib.ExitStack()
        self.addCleanup(self.stack.close)

    def opened(self, *contents):
        return self.stack.enter_context(made.opened(*contents))

    def test_runs_of_several_sectors(self):
        one, = self.opened(zeroed(CONTENT, (1000, 3100), (5000, 5600), (SIZE - 600, SIZE)))
        self.assertEqual(runs(one), [(1000, 3100), (SIZE - 600, SIZE)])

    def test_a_run_of_another_value(self):
        one, = self.opened(CONTENT[:2048] + b"\xaa" * 2048 + CONTENT[4096:])
        self.assertEqual([(start, end) for start, end in runs(one) if end - start >= 2048], [(2048, 4096)])

    def test_what_one_copy_has_all_over_a_run(self):
        one, other = self.opened(zeroed(CONTENT, (4096, 8192)), CONTENT)
        self.assertEqual((filling(one, [one, other]), filling(other, [one, other])), ([(4096, 8192)], []))

    def test_silence_with_something_in_it_is_no_filling(self):
        silent = zeroed(CONTENT, (2048, 12288))
        garbage = silent[:6144] + made.noise(9, 512) + silent[6656:]
        for other in (garbage, silent[:2048] + made.noise(9, 1024) + silent[3072:], silent[:11264] + made.noise(9, 1024) + silent[12288:]):
            with self.subTest(other=other.index(made.noise(9, 512))):
                one, two = self.opened(silent, other)
                self.assertEqual(filling(one, [one, two]), [])

    def test_what_several_copies_have_one_after_the_other(self):
        copies = self.opened(*(zeroed(CONTENT, *((start, start + 2048) for start in range(0, SIZE, 2048) if start // 2048 % 3 != at))
                               for at in range(3)))
        for at, copy in enumerate(copies):
            self.assertEqual(sum(end - start for start, end in filling(copy, copies)),
                             sum(2048 for start in range(0, SIZE, 2048) if start // 2048 % 3 != at))
            self.assertTrue(all(complement(copy, other) for other in copies if other is not copy))
        spans = [hidden(copy, copies) for copy in copies]
        self.assertEqual(b"".join(pieces(copies, spans, SIZE)), CONTENT)

    def test_what_lies_between_runs_that_all_have_is_put_together(self):
        """Padding that all copies have lies at both ends of what they lack in turn."""
        padded = zeroed(CONTENT, (4096, 5120), (7168, 9216))
        copies = self.opened(zeroed(padded, (4096, 8192)), zeroed(padded, (8192, 12288)))
        self.assertEqual([filling(copy, copies) for copy in copies], [[], []])
        self.assertEqual(b"".join(pieces(copies, [hidden(copy, copies) for copy in copies], SIZE)), padded)

    def test_what_lies_after_the_end_is_not_put_together(self):
        copies = self.opened(CONTENT + bytes(4096), zeroed(CONTENT, (4096, 8192)) + CONTENT)
        spans = [spans_in(hidden(copy, copies), 0, SIZE) for copy in copies]
        self.assertEqual((spans, b"".join(pieces(copies, spans, SIZE))), ([[], [(4096, 8192)]], CONTENT))

    def test_a_short_last_sector(self):
        content, end = CONTENT[:16160], 15872
        copies = self.opened(zeroed(content, (end, 16160)), zeroed(content, (8192, end)))
        self.assertEqual([filling(copy, copies) for copy in copies], [[(end, 16160)], [(8192, end)]])

    def test_copies_of_other_lengths_do_not_complement_each_other(self):
        one, other = self.opened(zeroed(CONTENT, (0, 8192)), zeroed(CONTENT, (8192, SIZE))[:-1])
        self.assertFalse(complement(one, other))

    def test_it_is_noted(self):
        one, other = self.opened(zeroed(CONTENT, (4096, 8192)), CONTENT)
        for start, end in ((0, SIZE), (5000, 5017), (4096, 4097), (8191, 8192)):
            one.filling = ()
            self.assertTrue(find_filling([one, other], [Stretch(Kind.PLAIN, start, end - start, What(Content.SOUND))]))
            self.assertEqual((one.filling, one.runs, other.filling), ([(4096, 8192)], None, []))

    def test_no_filling_is_noted_where_checks_are(self):
        one, other = self.opened(zeroed(CONTENT, (4096, 8192)), CONTENT)
        framing = Stretch(Kind.PLAIN, 5000, 17, What(Content.FRAMING), vouched=frozenset({0, 1}))
        for stretch in (Stretch(Kind.FRAME, 0, SIZE, What(Content.FRAME)), Stretch(Kind.PLAIN, 0, 3500, What(Content.SOUND)), framing):
            self.assertFalse(find_filling([one, other], [stretch]))
            self.assertEqual((one.filling, other.filling), ((), ()))


class PlacedTest(unittest.TestCase):
    """What lies where in one copy alone, with the places of the others."""

    def placed(self, contents, own, vouched=()):
        with made.opened(*contents) as copies:
            stretches = [Stretch(Kind.PLAIN, 0, 100, What(Content.FRAMING), (0,), vouched=frozenset(vouched)),
                         Stretch(Kind.PLAIN, 100, 200, What(Content.PADDING), (100,))]
            source = None if own is None else copies[own]
            return [(each.start, each.end, each.places, set(each.vouched)) for each in placed(Layout(300, [], [], stretches), copies, source).stretches]

    def test_a_copy_that_ends_early_has_what_comes_before(self):
        self.assertEqual(self.placed([CONTENT[:300], CONTENT[:250]], 0),
                         [(0, 100, (0, 0), set()), (100, 250, (100, 100), set()), (250, 300, (250, None), set())])

    def test_what_a_copy_confirms_those_do_that_have_the_same(self):
        for contents, own, vouched in (([CONTENT, made.noise(8, 300)], 0, {0}), ([CONTENT, made.noise(8, 300)], 1, {1}),
                                       ([CONTENT, CONTENT], 0, {0, 1}), ([CONTENT, CONTENT], None, set())):
            self.assertEqual(self.placed([each[:300] for each in contents], own, {0})[0], (0, 100, (0, 0), vouched))
