"""Where definitions stand: those that a contract of a public call reaches, and those that are for proofs alone."""
from __future__ import annotations

import unittest

import inner_text

LOW = "ffv1_bits/specs/Bits.antt"
HIGH = "ffv1_bits/specs/Parity.antt"
FILES = {
    LOW: """-- Bits.
use Rattle.std.specs.Prelude.{List}

-- all bits
abbrev pub bits_of : List N -> List Bool
bits_of bytes = flat bytes

flat : List N -> List Bool
flat [] = []
-- a byte and those after it
flat (x : xs) = x

infixl 10 ◌+++◌
abbrev pub ◌+++◌ : N -> N -> N
a +++ b = a

pub record Reading : Type 0 where
  pub place : N

abbrev pub Size : Type 0
Size = N

module _ (size : Size) where
  abbrev pub within : N
  within = size

  -- twice that
  abbrev pub twice : N
  twice =
      within + within

  module _ (depth : N) where
    unfoldable pub deeper : N
    deeper = twice

  pub law-of-twice : twice ≡ twice
  law-of-twice = refl

unfoldable pub alone : N
alone = 1
""",
    HIGH: """-- Parity.
use Rattle.ffv1_bits.specs.Bits.{bits_of, ◌+++◌}

abbrev pub Passes : List N -> Type 0
Passes bytes = bits_of bytes

abbrev pub sum : N
sum = 1 +++ 1
""",
}


class Inner(unittest.TestCase):
    def test_definitions(self) -> None:
        found = inner_text.definitions(FILES[LOW])
        self.assertEqual(list(found), ["bits_of", "flat", "◌+++◌", "Reading", "Size", "within", "twice", "deeper", "law-of-twice", "alone"])
        self.assertEqual(found["flat"].strip(), "flat : List N -> List Bool\nflat [] = []\nflat (x : xs) = x")
        self.assertIn("pub place : N", found["Reading"])
        self.assertEqual(found["alone"].strip(), "unfoldable pub alone : N\nalone = 1")
        self.assertEqual(found["◌+++◌"].strip(), "abbrev pub ◌+++◌ : N -> N -> N\na +++ b = a")

    def test_definitions_within_modules(self) -> None:
        found = inner_text.definitions(FILES[LOW])
        head = "module _ (size : Size) where\n"
        self.assertEqual(found["within"].strip(), f"{head}  abbrev pub within : N\n  within = size")
        self.assertEqual(found["twice"].strip(), f"{head}  abbrev pub twice : N\n  twice =\n      within + within")
        self.assertEqual(found["deeper"].strip(),
                         f"{head}  module _ (depth : N) where\n    unfoldable pub deeper : N\n    deeper = twice")
        self.assertEqual([inner_text.line_count(found[name].strip()) for name in ("within", "twice", "deeper", "alone")], [2, 3, 2, 2])

    def test_reached(self) -> None:
        self.assertEqual(inner_text.reached(FILES.__getitem__, [(HIGH, "Passes")]), {(HIGH, "Passes"), (LOW, "bits_of"), (LOW, "flat")})
        self.assertIn((LOW, "◌+++◌"), inner_text.reached(FILES.__getitem__, [(HIGH, "sum")]))
        self.assertEqual(inner_text.reached(FILES.__getitem__, [(LOW, "alone")]), {(LOW, "alone")})

    def test_reached_within_modules(self) -> None:
        self.assertEqual(inner_text.reached(FILES.__getitem__, [(LOW, "deeper")]),
                         {(LOW, "deeper"), (LOW, "twice"), (LOW, "within"), (LOW, "Size")})

    def test_laws_are_no_definitions(self) -> None:
        names = inner_text.public_in("ffv1_holding/specs/Sets.antt")
        self.assertIn("SetOf", names)
        self.assertNotIn("contains-empty", names)
        self.assertNotIn("contains-union", names)


class ReadingList(unittest.TestCase):
    def test_statement(self) -> None:
        text, head = inner_text.statement("ffv1_bits.burst_seen")
        self.assertIn("BurstIsSeen", head)
        self.assertIn(head, text)
        self.assertRaises(KeyError, inner_text.statement, "ffv1_bits.no_such_call")
        self.assertRaises(KeyError, inner_text.statement, "ffv1_bits.near_found")

    def test_statement_of_one_crate(self) -> None:
        # two crates have a law of this name
        self.assertIn("StuckIsOne", inner_text.statement("ffv1_plane.one_fault")[1])
        self.assertIn("OneShownFault", inner_text.statement("ffv1_hold.one_fault")[1])

    def test_statement_of_a_type(self) -> None:
        head = inner_text.head_of("impl A {\n    pub fn f()\n        ensures { Of }\n    {\n    }\n}\n\npub fn f()\n    ensures { Own }\n{\n}\n", "", "f")
        self.assertEqual(head, "pub fn f()\n    ensures { Own }\n{")
        text, head = inner_text.statement("ffv1_player.Player::decode")
        self.assertIn("IsPlayedFrame", head)
        self.assertNotIn("IsRecordingOf", head)
        self.assertIn("impl Player {", text)
        self.assertRaises(KeyError, inner_text.statement, "ffv1_player.Samples::decode")

    def test_statement_of_clauses(self) -> None:
        head = "    pub fn f()\n        requires a { A }\n        ensures b { B }\n\n        ensures c { C\n            × C }\n        ensures d { D }\n    {"
        self.assertEqual(inner_text.of_clauses(head, ["c"]), "    pub fn f()\n        requires a { A }\n        ensures c { C\n            × C }\n")
        self.assertRaises(KeyError, inner_text.of_clauses, head, ["a"])
        head = inner_text.statement("ffv1_player.Player::decode: shown, sought")[1]
        self.assertIn("IsFrame", head)
        self.assertNotIn("IsPlayedFrame", head)

    def test_rests_on(self) -> None:
        found = inner_text.rests_on(["ffv1_bits.burst_seen"])
        self.assertIn(("ffv1_bits/specs/Parity.antt", "BurstIsSeen"), found)
        self.assertIn(("ffv1_bits/specs/Bits.antt", "bits_of"), found)
        self.assertNotIn(("ffv1_slice/specs/Near.antt", "NearFound"), found)

    def test_rests_on_names_within_a_module(self) -> None:
        found = inner_text.rests_on(["ffv1_commands.same_copies_make_one_file"])
        self.assertIn(("ffv1_holding/specs/Sets.antt", "union"), found)
        self.assertIn(("ffv1_holding/specs/Sets.antt", "from_list"), found)
        self.assertNotIn(("ffv1_holding/specs/Sets.antt", "union_comm"), found)

    def test_one_reading_is_no_law_of_files(self) -> None:
        files = {path for path, _ in inner_text.rests_on(inner_text.THEOREMS["R"])}
        self.assertIn("ffv1_plane/specs/StuckLaws.antt", files)
        self.assertNotIn("ffv1_hold/specs/FileFaults.antt", files)

    def test_rows_on_any_recording(self) -> None:
        files = {path for path, _ in inner_text.rests_on(inner_text.THEOREMS["F"])}
        self.assertTrue({"ffv1_samples/specs/Slices.antt", "ffv1_player/specs/Frames.antt"} <= files, files)
        # a frame and its record can be told without faults
        names = inner_text.rests_on(inner_text.THEOREMS["P"])
        self.assertTrue({("ffv1_player/specs/SmallFrames.antt", "IsFrame"), ("ffv1_player/specs/SmallRecords.antt", "IsRecord")} <= names, names)
        self.assertFalse([name for path, name in names if "Fault" in path + name or "Stuck" in path + name])

    def test_reading_list(self) -> None:
        page = inner_text.reading_list()
        self.assertRegex(page, r"(?m)^- D, small damage: \d+ definitions, \d+ lines$")
        self.assertRegex(page, r"(?m)^\| `ffv1_slice/specs/Near\.antt` \| .*`NearFound` \d+.* \| \w*D \|$")
        self.assertEqual(inner_text.MADE.findall(f"a\n<!-- made -->\n{page}<!-- /made -->\n"), [page])
