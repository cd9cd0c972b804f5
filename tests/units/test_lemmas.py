"""Which lemmas nothing cites."""
from __future__ import annotations

import unittest

import lemmas

TEXT = """-- Lemmas.
use Rattle.std.specs.Prelude.{List}

-- the first
pub first : N -> N
first zero = second zero
first (suc n) = first n

module _ (a b : N)
    (c : N) where
  second : N -> N
  second x = let inner : N = x in inner

  pub third : N
  third = first a

pub record Held (a : N) : Type 0 where
  pub field : N

last : Held zero -> N
last h = third
"""


class Lemmas(unittest.TestCase):
    def test_blocks(self) -> None:
        found = dict(lemmas.blocks(TEXT))
        self.assertEqual(list(found), ["", "first", "second", "third", "Held", "last"])
        self.assertIn("first (suc n) = first n", found["first"])
        self.assertIn("pub field : N", found["Held"])
        self.assertNotIn("third", found["second"])

    def test_uncited(self) -> None:
        self.assertEqual(list(lemmas.uncited({"a": TEXT}, {"a"})), ["a: nothing cites last"])
        self.assertEqual(list(lemmas.uncited({"a": TEXT, "b": "goal = last held"}, {"a"})), [])

    def test_imports_are_no_citation(self) -> None:
        self.assertEqual(list(lemmas.uncited({"a": TEXT, "b": "use Rattle.a.{last}"}, {"a"})), ["a: nothing cites last"])

    def test_own_lines_are_no_citation(self) -> None:
        self.assertEqual(list(lemmas.uncited({"a": "one : N\none = one\n"}, {"a"})), ["a: nothing cites one"])
