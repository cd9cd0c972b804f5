"""The division of a file over all copies of it."""
from __future__ import annotations

import typing
import unittest

from mend_reel.containers import clusters, elements, matroska
from mend_reel.containers.elements import AlignedCopies, Budget
from . import made

REEL, PLAIN_REEL = made.reel(), made.reel(crc=False)


def divide(*contents: bytes) -> typing.List[elements.Child]:
    with made.opened(*contents) as copies:
        aligned = AlignedCopies(copies)
        return elements.divide(aligned, 0, aligned.end, matroska.TOP, Budget(1 << 20), is_cut=True)


def shape(children: typing.Sequence[elements.Child]) -> typing.List[typing.Tuple[int, int, int]]:
    return [(child.identity, child.place, child.end) for child in children]


def covers(test: unittest.TestCase, children: typing.Sequence[elements.Child], end: int) -> None:
    """Children follow each other and cover the file."""
    test.assertEqual([child.place for child in children] + [end], [0] + [child.end for child in children])


WHOLE = divide(REEL)
CLUSTERS = [child for child in WHOLE if child.identity == made.CLUSTER]


class Undamaged(unittest.TestCase):
    def test_elements(self) -> None:
        names = [made.EBML, made.SEGMENT, made.INFO, made.TRACKS, *[made.CLUSTER] * 4, made.CUES]
        for contents in ((REEL,), (REEL, REEL), (REEL, REEL[:2000], REEL)):
            children = divide(*contents)
            self.assertEqual([child.identity for child in children], names)
            covers(self, children, len(REEL))
        self.assertEqual([child.vouched for child in WHOLE], [frozenset({0})] * 9)

    def test_unknown_sizes(self) -> None:
        live = made.reel(crc=False, unknown=True)
        children = divide(live, live)
        covers(self, children, len(live))
        inner = [made.CLUSTER, 0xE7, 0xA3, 0xA3, 0xA3, 0xA3]
        self.assertEqual([child.identity for child in children], [made.EBML, made.SEGMENT, made.INFO, made.TRACKS, *inner * 4, made.CUES])

    def test_unknown_elements(self) -> None:
        odd = made.element(0x4DAD, b"strange")
        file = made.ebml_header() + made.element(made.SEGMENT, made.tracks(), odd, made.cluster(0, made.block(1, 0, b"frame")))
        children = divide(file, file)
        self.assertEqual([child.identity for child in children], [made.EBML, made.SEGMENT, made.TRACKS, 0x4DAD, made.CLUSTER])


class OfTwoSizes(unittest.TestCase):
    def test_a_size_by_which_the_crc_passes_is_right_where_another_leads_on_too(self) -> None:
        first, second = CLUSTERS[:2]
        size = second.end - first.content
        width = first.content - first.place - 4
        wrong = made.damaged(REEL, (first.place + 4, made.size_of(size, width)))
        self.assertEqual(len(wrong), len(REEL))
        for order, right in (((wrong, REEL), 1), ((REEL, wrong), 0)):
            children = divide(*order)
            self.assertEqual(shape(children), shape(WHOLE))
            child, = (each for each in children if each.place == first.place)
            self.assertEqual(child.sized, frozenset({right}))


class OneCopyDamaged(unittest.TestCase):
    def check(self, damaged: bytes, place: int, reel: bytes = REEL) -> None:
        """The division is that of the undamaged file, and the undamaged copy alone vouches for the place."""
        for order in ((damaged, reel), (reel, damaged)):
            children = divide(*order)
            self.assertEqual(shape(children), shape(divide(reel)))
            right = frozenset({order.index(reel)})
            self.assertEqual([child.vouched for child in children if child.place == place], [right])

    def test_each_byte_of_each_head(self) -> None:
        for reel in (REEL, PLAIN_REEL):
            for child in divide(reel):
                for place in range(child.place, child.content):
                    if child.identity != made.SEGMENT or place < child.place + 4:
                        self.check(made.damaged(reel, place), child.place, reel)

    def test_lost_sector_in_one(self) -> None:
        for child in CLUSTERS:
            start = child.place // 512 * 512
            self.check(made.damaged(REEL, (start, bytes(512))), child.place)

    def test_sizes_that_lead_astray(self) -> None:
        for reel in (REEL, PLAIN_REEL):
            child = next(child for child in divide(reel) if child.identity == made.CLUSTER)
            size = child.end - child.content
            for wrong in (size - 1, size + 1, size - 700, size + 700, 0, 5):
                head = made.size_of(wrong, child.content - child.place - 4)
                self.check(made.damaged(reel, (child.place + 4, head)), child.place, reel)

    def test_size_that_skips_a_cluster(self) -> None:
        first, second = CLUSTERS[:2]
        wrong = made.size_of(second.end - first.content, first.content - first.place - 4)
        self.check(made.damaged(REEL, (first.place + 4, wrong)), first.place)

    def test_most_copies_are_right_where_two_sizes_lead_on(self) -> None:
        whole = divide(PLAIN_REEL)
        first, second = [child for child in whole if child.identity == made.CLUSTER][:2]
        wrong = made.size_of(second.end - first.content, first.content - first.place - 4)
        damaged = made.damaged(PLAIN_REEL, (first.place + 4, wrong))
        for copies in ((damaged, PLAIN_REEL, PLAIN_REEL), (PLAIN_REEL, PLAIN_REEL, damaged)):
            self.assertEqual(shape(divide(*copies)), shape(whole))

    def test_copy_that_ends_early(self) -> None:
        cluster = CLUSTERS[2]
        for end in (cluster.place, cluster.place + 1, cluster.place + 5, cluster.content, cluster.content + 3, cluster.end):
            children = divide(made.damaged(REEL, CLUSTERS[1].place), REEL[:end])
            self.assertEqual(shape(children), shape(WHOLE))


class AllCopiesDamaged(unittest.TestCase):
    def test_different_bytes_of_one_head(self) -> None:
        cluster = CLUSTERS[1]
        children = divide(made.damaged(REEL, cluster.place + 2), made.damaged(REEL, cluster.place + 4))
        self.assertEqual(shape(children), shape(WHOLE))
        child = next(child for child in children if child.place == cluster.place)
        self.assertEqual((child.identified, child.sized, child.vouched), ({1}, {0}, frozenset()))

    def test_head_lost_in_all(self) -> None:
        for reel in (REEL, PLAIN_REEL):
            whole = divide(reel)
            for at, child in enumerate(whole):
                lost = (child.place, bytes(child.content - child.place))
                children = divide(made.damaged(reel, lost), made.damaged(reel, lost))
                covers(self, children, len(reel))
                expected = shape(whole)
                expected[at] = (elements.UNDIVIDED, child.place, child.end)
                self.assertEqual(shape(children), expected)
                vouched = [child.vouched for child in children if child.identity != elements.UNDIVIDED]
                self.assertEqual(vouched, [frozenset({0, 1})] * (len(whole) - 1))

    def test_wrong_sizes_in_all(self) -> None:
        """A size that no checksum and no child confirms is no reason to pass over what can be divided."""
        for reel in (REEL, PLAIN_REEL):
            whole = divide(reel)
            child = [child for child in whole if child.identity == made.CLUSTER][1]
            size, expected = child.end - child.content, shape(whole)
            expected[expected.index((made.CLUSTER, child.place, child.end))] = (elements.UNDIVIDED, child.place, child.end)
            for wrong in (size - 700, size - 1, size + 1, size + 700, 2 * size + 700):
                lying = made.damaged(reel, (child.place + 4, made.size_of(wrong, child.content - child.place - 4)))
                lost = made.damaged(reel, (child.place, bytes(6)))
                for copies in ((lying, lying), (lost, lying), (lying, lost)):
                    self.assertEqual(shape(divide(*copies)), expected)

    def test_search_across_pieces(self) -> None:
        for back in range(20):
            start = made.ebml_header() + made.element(made.SEGMENT, b"", unknown=True)
            filling = len(made.cluster(0, made.block(1, 0, bytes(elements.PIECE - 300)))) - (elements.PIECE - 300)
            first = made.cluster(0, made.block(1, 0, bytes(elements.PIECE - filling - back)))
            second = len(start) + len(first)
            file = made.damaged(start + first + made.cluster(40, made.block(1, 0, b"frame")), (len(start), bytes(8)))
            self.assertIn((made.CLUSTER, second), [each[:2] for each in shape(divide(file, file))])
            self.assertEqual(second, len(start) + elements.PIECE - back)

    def test_two_heads_lost_in_all(self) -> None:
        first, second = CLUSTERS[1:3]
        lost = [(child.place, bytes(child.content - child.place)) for child in (first, second)]
        children = divide(made.damaged(REEL, *lost), made.damaged(REEL, *lost))
        expected = [each for each in shape(WHOLE) if each[1] != second.place]
        expected[expected.index((made.CLUSTER, first.place, first.end))] = (elements.UNDIVIDED, first.place, second.end)
        self.assertEqual(shape(children), expected)

    def test_garbage_that_looks_like_an_identifier(self) -> None:
        cluster, place = CLUSTERS[1], CLUSTERS[1].content + 300
        for fake in (b"\x1f\x43\xb6\x75\x84", b"\x1f\x43\xb6\x75\x42\x00", b"\x16\x54\xae\x6b\x40\x20\xbf\x84", b"\x1f\x43\xb6\x75\x01" + b"\xff" * 7):
            lost = made.damaged(REEL, (cluster.place, bytes(6)), (place, fake))
            self.assertIn((elements.UNDIVIDED, cluster.place, cluster.end), shape(divide(lost, lost)), fake)

    def test_file_cut_short(self) -> None:
        last = CLUSTERS[-1]
        children = divide(REEL[: last.end - 400], REEL[: last.end - 500])
        covers(self, children, last.end - 400)
        self.assertEqual(shape(children)[:-1], shape(WHOLE)[: len(children) - 1])
        self.assertEqual((children[-1].identity, children[-1].is_cut), (made.CLUSTER, True))

    def test_lying_sizes_cost_a_bounded_number_of_bytes(self) -> None:
        fake = b"\x1f\x43\xb6\x75\x10\x02\x00\x00\xbf\x84....AAAAAAAA" * 9000
        with made.opened(made.ebml_header() + fake) as copies:
            aligned, budget = AlignedCopies(copies), Budget(1 << 20)
            elements.divide(aligned, 0, aligned.end, matroska.TOP, budget, is_cut=True)
            self.assertGreaterEqual(budget.left, 0)
            self.assertLess(budget.left, 1 << 18)


    def test_a_search_reads_each_byte_once(self) -> None:
        read: typing.List[int] = []

        def signs(piece: bytes) -> typing.Iterable[int]:
            read.append(len(piece))
            return ()

        first, second = (made.number(identity, 5) * 500 + bytes(3000) for identity in (0xE7, 0xAB))
        with made.opened(first, second) as copies:
            children = elements.divide(AlignedCopies(copies), 0, len(first), elements.Schema(clusters.IN_CLUSTER, signs=signs), Budget(0))
        self.assertEqual(children[-1], elements.Child(elements.UNDIVIDED, 1500, 1500, 4500))
        self.assertLessEqual(sum(read), 2 * (len(first) + elements.Schema.reach * len(read)))


class Blocks(unittest.TestCase):
    """The division of a cluster, whose IDs have one byte."""

    def divide(self, *contents: bytes) -> typing.List[elements.Child]:
        with made.opened(*contents) as copies:
            aligned = AlignedCopies(copies)
            schema = elements.Schema(clusters.IN_CLUSTER, signs=clusters.block_signs([1, 2]), reach=32)
            return elements.divide(aligned, 0, aligned.end, schema, Budget(0))

    def setUp(self) -> None:
        self.content = made.number(0xE7, 0) + b"".join(made.block(1 + at % 2, at, made.noise(at, 300 + at)) for at in range(6))
        self.whole = self.divide(self.content)

    def test_each_byte_of_each_head_in_one_copy(self) -> None:
        for child in self.whole:
            for place in range(child.place, child.content):
                damaged = made.damaged(self.content, place)
                self.assertEqual(shape(self.divide(damaged, self.content)), shape(self.whole))
                self.assertEqual(shape(self.divide(self.content, damaged)), shape(self.whole))

    def test_head_lost_in_all(self) -> None:
        for child in self.whole[1:]:
            lost = made.damaged(self.content, (child.place, bytes(child.content - child.place)))
            expected = shape(self.whole)
            expected[expected.index((child.identity, child.place, child.end))] = (elements.UNDIVIDED, child.place, child.end)
            self.assertEqual(shape(self.divide(lost, lost)), expected)


if __name__ == "__main__":
    unittest.main()
