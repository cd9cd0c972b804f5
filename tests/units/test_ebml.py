"""Element heads, values and CRC-32s (RFC 8794)."""
from __future__ import annotations

import struct
import unittest
import zlib

from mend_reel.containers import ebml
from . import made

NINE = bytes.fromhex("bf842639f4cb") + b"123456789"


class Heads(unittest.TestCase):
    def test_lengths(self) -> None:
        for identity in (0x81, 0x4286, 0x2AD7B1, 0x1A45DFA3):
            for length in range(1, 9):
                data = b"xy" + made.element(identity, b"content", length=length)
                start = 100 + (identity.bit_length() + 7) // 8
                self.assertEqual(ebml.read_head(data, 2, 100), (identity, start, start + length, start + length + 7))

    def test_unknown_size(self) -> None:
        for size in (b"\xff", b"\x7f\xff", b"\x01" + b"\xff" * 7):
            self.assertEqual(ebml.read_head(b"\x1f\x43\xb6\x75" + size, 0, 0), (made.CLUSTER, 4, 4 + len(size), None))

    def test_no_head(self) -> None:
        for data in (b"", b"\x00\x81", b"\x08\x81", b"\xff\x81", b"\x80\x81", b"\x7f\xff\x81", b"\x40\x00\x81", b"\xa3", b"\xa3\x00",
                     b"\xa3\x40", b"\x1a\x45\xdf", b"\x1a\x45\xdf\xa3", b"\xa3\x01\x00\x00"):
            self.assertIsNone(ebml.read_head(data, 0, 0), data)

    def test_parts_of_a_head_read_alone(self) -> None:
        self.assertEqual(ebml.read_identity(b"\x42\x86\x81", 0), (0x4286, 2))
        self.assertEqual(ebml.read_size(b"\x42\x86\x81", 2), (1, 1))
        self.assertEqual(ebml.read_size(b"\xff", 0), (None, 1))
        for data in (b"", b"\x00", b"\x40"):
            self.assertIsNone(ebml.read_size(data, 0))
            self.assertIsNone(ebml.read_identity(data, 0))


class Checks(unittest.TestCase):
    def test_known_crc(self) -> None:
        with made.opened(b"ab" + NINE + b"c", made.damaged(b"ab" + NINE, 9), b"ab" + NINE[:-1]) as (right, wrong, short):
            self.assertTrue(ebml.passes(right, 2, 17))
            self.assertFalse(ebml.passes(right, 2, 18))
            self.assertFalse(ebml.passes(right, 1, 17))
            self.assertFalse(ebml.passes(wrong, 2, 17))
            self.assertFalse(ebml.passes(short, 2, 17))

    def test_longer_than_a_piece(self) -> None:
        rest = made.noise(1, ebml.PIECE + 3)
        content = b"\xbf\x84" + struct.pack("<I", zlib.crc32(rest)) + rest
        with made.opened(content, made.damaged(content, len(content) - 1)) as (right, wrong):
            self.assertTrue(ebml.passes(right, 0, len(content)))
            self.assertFalse(ebml.passes(wrong, 0, len(content)))

    def test_content_without_room_for_a_crc(self) -> None:
        with made.opened(b"\xbf\x84\0\0") as (copy,):
            self.assertFalse(ebml.passes(copy, 0, 4))


class Values(unittest.TestCase):
    def test_children(self) -> None:
        data = made.number(0xE7, 5) + made.element(0xA3, b"payload")
        self.assertEqual(list(ebml.children(data)), [(0xE7, b"\x05"), (0xA3, b"payload")])
        self.assertTrue(ebml.divides(data))
        self.assertEqual(list(ebml.children(data[:-1])), [(0xE7, b"\x05")])
        self.assertFalse(ebml.divides(data[:-1]))
        self.assertFalse(ebml.divides(data + b"\0"))
        self.assertFalse(ebml.divides(made.element(0xA3, b"", unknown=True)))

    def test_values(self) -> None:
        self.assertEqual([ebml.number(each) for each in (b"", b"\x01\x02", b"\xff" * 8, b"\x01" * 9)], [0, 258, 2**64 - 1, 0])
        self.assertEqual([ebml.Fields(made.element(0x4489, each)).real(0x4489) for each in (struct.pack(">f", 1.5), struct.pack(">d", -2.25), b"", b"123")], [1.5, -2.25, 0.0, 0.0])
        self.assertEqual([ebml.Fields(made.element(0x4282, each)).text(0x4282) for each in (b"matroska", b"webm\0\0x", b"\xff")], ["matroska", "webm", "\ufffd"])


if __name__ == "__main__":
    unittest.main()
