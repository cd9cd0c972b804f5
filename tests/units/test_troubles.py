"""Whether the page of troubles has the messages that are printed."""
from __future__ import annotations

import unittest

import troubles

SOURCE = """class Why(enum.Enum):
    LOST = "lost in every copy; a further copy may restore {it}"
    COUNTED = ("the file counts {count} frames there, and "
               "{has} are in it")


def said(path: str) -> str:
    return f"{path} is not there: see {path!r}"
"""


class Texts(unittest.TestCase):
    def test_texts(self) -> None:
        found = list(troubles.texts(SOURCE))
        self.assertIn("lost in every copy; a further copy may restore \n", found)
        self.assertIn("\n is not there: see \n", found)

    def test_reasons(self) -> None:
        self.assertEqual(list(troubles.reasons(SOURCE)), ["lost in every copy", "the file counts"])

    def test_messages(self) -> None:
        page = "| Message | Cause |\n|---|---|\n| `PATH is there`, `N are lost` | `not this` |\n"
        self.assertEqual(list(troubles.messages(page)), ["PATH is there", "N are lost"])

    def test_pieces(self) -> None:
        self.assertEqual(troubles.pieces("cannot write PATH: it needs N bytes, and there are M bytes free"),
                         ["cannot write", "needs", "bytes, and there are", "bytes free"])
        self.assertEqual(troubles.pieces("copy N has sound, and OUT lacks it"), ["copy", "lacks"])
