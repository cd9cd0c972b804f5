"""How long documents and their sentences are, and words that are not to be used."""
from __future__ import annotations

import unittest

import prose

PAGE = """# A heading of any length

A first sentence. A second
one goes on: `some code. Here`. [A link](to.md) too.

    indented text is no sentence

- an item
- another one
  that goes on

| A cell | and another |
|---|---|
| one. Two | three |
"""


class Sentences(unittest.TestCase):
    def test_blocks(self) -> None:
        first = "A first sentence. A second one goes on: `some code. Here`. [A link](to.md) too."
        self.assertEqual(list(prose.blocks(PAGE)), [first, "an item", "another one that goes on", "A cell", "and another", "one. Two", "three"])

    def test_fenced(self) -> None:
        self.assertEqual(list(prose.blocks("before\n\n```mermaid\na --> b\n```\n\nafter\n")), ["before", "after"])

    def test_sentences(self) -> None:
        block = next(prose.blocks(PAGE))
        self.assertEqual(prose.sentences(block), ["A first sentence.", "A second one goes on: Code.", "A link too."])


class Ceiling(unittest.TestCase):
    def faults(self, most: int, *pages: str) -> list[str]:
        return list(prose.faults_of_all({f"page {number}": page for number, page in enumerate(pages)}, most))

    def test_all_documents_together(self) -> None:
        self.assertEqual(self.faults(5, "one two three", "four five"), [])
        self.assertEqual(self.faults(4, "one two three", "four five"),
                         ["the documents have 5 words: at most 4, by tests/ceilings (page 0 3, page 1 2)"])
        self.assertEqual(self.faults(1, "one\n<!-- made -->\ntwo three four\n<!-- /made -->\n"), [])

    def test_sentences_of_each(self) -> None:
        self.assertEqual(len(self.faults(1000, "A hurt slice.", "word " * 36)), 2)

    def test_words(self) -> None:
        self.assertEqual(prose.word_count("# A heading - | 2 | a_b `c::d` |\n|---|---| `||` _ 1.5"), 6)

    def test_programs_and_pictures_are_no_words(self) -> None:
        self.assertEqual(prose.word_count("one\n\n    $ a command\n    printed\n\ntwo\n```mermaid\na --> b\n```\nthree\n"), 3)
        self.assertEqual(prose.word_count("- one\n  two\n"), 2)

    def test_number(self) -> None:
        self.assertEqual(prose.ceiling("# how many\n# of all\n\n1200\n"), 1200)
        self.assertRaises(ValueError, prose.ceiling, "# how many\n1200\n900\n")


class Faults(unittest.TestCase):
    def faults(self, page: str) -> list[str]:
        return list(prose.faults_of("page", page))

    def test_sentence(self) -> None:
        self.assertEqual(self.faults("word " * 34 + "word. And " + "word " * 34), [])
        self.assertIn("has a sentence of 36 words", self.faults("word " * 35 + "word. And more")[0])

    def test_banned(self) -> None:
        self.assertEqual(self.faults("A damaged slice."), [])
        self.assertIn("not 'hurt' but damaged", self.faults("A hurt slice.")[0])
        self.assertIn("not 'answer' but", self.faults("The answers.")[0])

    def test_banned_in_code(self) -> None:
        self.assertEqual(list(prose.banned_in_code("let is_seam = IsHurtWithin32(take-append_boundary);")), ["hurt", "seam"])
        self.assertEqual(list(prose.banned_in_code("take-append_seam, legend, x.answer, Answers.antt, undertorn")), [])
