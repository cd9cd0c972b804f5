"""What the definitions of specs/ cite, and what contracts of public calls cite of them."""
from __future__ import annotations

import typing
import unittest

import specs_text

SPECS = """-- Versions of one slice (RFC 9043, section 4.9): what copies
-- have there. They are split (section 4.9.3).
use Rattle.ffv1_bits.specs.Bits.{bits_of, has_bit as has}
use Rattle.ffv1_holding.specs.Sets as set

-- all are as long
abbrev pub HaveLength : List (List N) -> N -> Type 0
HaveLength versions size = bits_of versions

pub record Reading : Type 0 where
  pub place : N

abbrev hidden : N
hidden = 0

module _ where
  abbrev pub within : N
  within = set.size
"""

CODE = """ghost use Rattle.ffv1_bits.specs.Bits.{bits_of, has_bit};

pub struct Shown {
    count: u8,
}

impl Shown {
    pub fn of(count: u8) -> u8
        ensures first { bits_of }

        ensures second { after_a_blank_line }
    {
        body
    }

    fn private(count: u8) -> u8
        ensures { hidden }
    {
        body
    }
}

impl<'a, R: Read> Model for Shown<'a, R> {
    ghost Value = { meaning };

    ghost aligned = { seen };
}

impl Other {
    pub fn of() -> u8
        ensures { other }
    {
        body
    }
}

impl Given for Hidden {
    ghost value = { given };
}

pub fn law()
    ensures { statement }
{}

pub fn unnamed()
    ensures { elsewhere }
{}

fn helper() -> u8
    ensures { hidden }
{
    body
}
"""


class Specs(unittest.TestCase):
    def test_names(self) -> None:
        self.assertEqual(specs_text.names_defined(SPECS), ["HaveLength", "Reading", "within"])


class Citations(unittest.TestCase):
    def cited(self, words: str) -> typing.List[typing.Tuple[str, str]]:
        return list(specs_text.citations(SPECS, words))

    def test_citations(self) -> None:
        self.assertEqual(self.cited("bits_of x.place"), [("ffv1_bits/specs/Bits.antt", "bits_of")])
        self.assertEqual(self.cited("(has x) + set.size"), [("ffv1_bits/specs/Bits.antt", "has_bit"), ("ffv1_holding/specs/Sets.antt", "size")])
        self.assertEqual(self.cited("has_bit bits_of' size"), [])

    def test_passed_on(self) -> None:
        line = "ghost use Rattle.ebml.specs.Parity.{divisor};\nuse Rattle.std.specs.Prelude.{List}\n"
        self.assertEqual(list(specs_text.citations(line, "divisor List")), [("ffv1_bits/specs/Parity.antt", "divisor")])
        case = "use Rattle.ffv1_weave.specs.Weave.Weave.{woven}\n"
        self.assertEqual(list(specs_text.citations(case, "woven bytes")), [("ffv1_weave/specs/Weave.antt", "Weave")])

    def test_contracts(self) -> None:
        found = "".join(specs_text.contracts(CODE, {"Shown", "Given", "law"}))
        for word in ("bits_of", "after_a_blank_line", "meaning", "seen", "given", "statement"):
            self.assertIn(word, found)
        self.assertNotIn("given", "".join(specs_text.contracts(CODE, {"Shown", "law"})))
        self.assertNotIn("given", "".join(specs_text.contracts(CODE, {"Shown", "Given", "law"}, {"Given"})))
        self.assertEqual(specs_text.own_traits(["pub(crate) trait Own {\n}\npub trait Given {\n}\n"]), {"Own"})
        for word in ("body", "hidden", "other", "elsewhere"):
            self.assertNotIn(word, found)


    def test_exported(self) -> None:
        names = specs_text.exported("ffv1_files")
        self.assertLessEqual({"InputFile", "Input", "OutputFile", "Output"}, names)
        self.assertNotIn("Once", names)


class Files(unittest.TestCase):
    def test_faults(self) -> None:
        self.assertEqual(list(specs_text.faults()), [])
