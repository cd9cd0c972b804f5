"""The damage that tests/rules does to small recordings, and what it reads of containers."""
import struct
import unittest
import zlib

import small_recordings as small
from . import made

CONTENT = bytes(range(1, 256)) * 40


class DamageTest(unittest.TestCase):
    def test_of_pieces_in_turn_each_byte_is_intact_in_one_copy(self):
        for size, count, first in ((512, 2, 0), (1000, 3, 700), (20000, 2, 0)):
            copies = small.in_turn(CONTENT, size, count, first)
            self.assertEqual({len(copy) for copy in copies}, {len(CONTENT)})
            for place, byte in enumerate(CONTENT):
                self.assertEqual([copy[place] for copy in copies].count(byte), count if place < first else 1)

    def test_garbage_has_no_byte_as_it_was(self):
        damaged = small.garbled(CONTENT, 100, 600, 7)
        self.assertEqual([place for place, pair in enumerate(zip(CONTENT, damaged)) if pair[0] != pair[1]], list(range(100, 700)))

    def test_bytes_are_lost_put_in_filled_and_inverted(self):
        self.assertEqual(small.lost(b"abcdef", 2, 3), b"abf")
        self.assertEqual(small.put_in(b"abcdef", 2, b"xy"), b"abxycdef")
        self.assertEqual(small.filled(b"abcdef", 4, 9, 0x7A), b"abcdzz")
        self.assertEqual(small.inverted(b"abc", 0, 2, bit=0), b"`bb")


class ContainerTest(unittest.TestCase):
    def test_a_file_is_sealed_after_its_damage(self):
        content = made.reel()
        clusters = small.top(content, small.CLUSTER)
        self.assertEqual(len(clusters), 4)
        damaged = small.sealed(small.garbled(content, clusters[1][1] + 50, 9))
        place, begin, end = clusters[1]
        self.assertEqual(damaged[begin + 2 : begin + 6], zlib.crc32(damaged[begin + 6 : end]).to_bytes(4, "little"))
        self.assertEqual((small.sealed(content), damaged[: begin + 2], damaged[end:]), (content, content[: begin + 2], content[end:]))

    def test_chunks_of_an_avi_file(self):
        def chunk(name, data):
            return name + struct.pack("<I", len(data)) + data + bytes(len(data) % 2)

        inner = chunk(b"avih", b"abcde") + chunk(b"LIST", b"strl" + chunk(b"strh", b"xyz!"))
        content = chunk(b"RIFF", b"AVI " + chunk(b"LIST", b"hdrl" + inner) + chunk(b"idx1", b"i" * 16))
        self.assertEqual([content[at : at + size] for at, size in (small.chunk(content, name) for name in (b"avih", b"strh", b"idx1"))],
                         [b"abcde", b"xyz!", b"i" * 16])

    def test_atoms_of_a_mov_file(self):
        def atom(name, data):
            return struct.pack(">I4s", len(data) + 8, name) + data

        content = atom(b"ftyp", b"qt  ") + atom(b"moov", atom(b"trak", atom(b"stco", b"one")) + atom(b"trak", atom(b"stco", b"other")))
        self.assertEqual([content[at : at + size] for at, size in (small.atom(content, b"stco", number) for number in (0, 1))], [b"one", b"other"])


if __name__ == "__main__":
    unittest.main()
