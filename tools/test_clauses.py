#!/usr/bin/env python3
"""Tests of tools/clauses.py and tools/believed.py over a small repository made for them: tools/test_clauses.py."""
import contextlib
import io
import os
import sys
import tempfile
import unittest

HERE = os.path.dirname(os.path.realpath(__file__))
sys.path.insert(0, HERE)
sys.dont_write_bytecode = True
import believed  # noqa: E402
import clauses  # noqa: E402
import command_line  # noqa: E402

FILES = {
    "../crates.txt": "high: low hex\nlow: hex\nprogram: low high\n",
    "program/src/main.rt": "//! Runs. And ends.\n",
    "low/src/lib.rt": "//! Counts: what is seen, and\n//! how often. Nothing else.\n\nmod count;\n\npub use count::{Counter, Counts, length};\npub use lower::Other;\n",
    "low/src/count.rt": """//! Counts.

ghost use Rattle.std.specs.Prelude.{◌≡◌, List};
ghost use Rattle.low.specs.Length.{length_of};

/// Counts.
pub trait Counts {
    /// How many it has seen.
    ghost seen: { Self → ℕ };

    /// Sees one more.
    fn see(&mut self, what: &[u8]) -> bool
        requires { length what.now < 4 }
        ensures seen { (P : List ℕ) → (record { a = seen self.old }).a
            ≡ seen self.new };
}

/// A counter.
pub struct Counter<A> {
    count: A,
}

impl<A: Copy> Counter<A> {
    // Hidden.
    fn hidden(&self) -> u8 {
        1
    }

    /// The number.
    #[inline]
    pub fn number(&self, more: &[u8]) -> A
    where
        A: Copy,
        // The number itself.
        ensures { result ≡ self.count.now }
    {
        if true { self.count } else { self.count }
    }
}

impl<A> Counts for Counter<A> {
    fn see(&mut self, what: &[u8]) -> bool {
        true
    }
}

/// The length,
/// in octets.
pub fn length(octets: &[u8]) -> usize
    ensures same { result ≡ length_of octets.now }
    ensures low { result ≤ 4 }
{
    octets.len()
}

pub fn not_passed_on() -> u8 {
    1
}
""",
    "low/specs/Base.antt": """-- What a base is. To be believed.
use Rattle.std.specs.Prelude.{ℕ}
abbrev pub base : ℕ
base = 0

abbrev pub other : ℕ
other = 1
""",
    "low/specs/Walk.antt": """-- A walk. A step function for the proofs.
use Rattle.low.specs.Base.{base}
abbrev pub ◌▹◌ : ℕ → ℕ → ℕ
x ▹ y = base
""",
    "low/specs/Length.antt": """-- Lengths. To be believed.
use Rattle.std.specs.Prelude.{ℕ}
use Rattle.low.specs.Base as base
use Rattle.low.specs.Walk.{◌▹◌}

-- the length of octets
abbrev pub length_of : List ℕ → ℕ
length_of octets = base.base ▹ 1

-- what nobody asks for
pub record Unasked : Type 0 where
  pub left : ℕ
""",
    "high/src/lib.rt": "//! Shows.\nmod parts;\nmod shown;\n\npub use shown::Shown;\n",
    "high/src/parts.rt": """//! Parts.

pub(crate) struct Inner {
    count: u8,
}

impl Model for Inner {
    ghost use Rattle.high.specs.Shows.{shows};

    ghost Value = { ℕ };

    ghost view = { λ i. shows i.count };
}
""",
    "high/src/shown.rt": """//! What is shown.

use crate::parts::Inner;

/// What is shown.
pub struct Shown {
    inner: Inner,
    other: u8,
}

impl Model for Shown {
    ghost Value = { ℕ };

    ghost view = { λ s. s.inner };
}

impl Shown {
    /// The number.
    pub fn get(&self) -> u8
        ensures { result ≡ self.now }
    {
        self.other
    }
}
""",
    "high/specs/Shows.antt": """-- What is held. For the proofs, but for `shows`, which is to be believed.
use Rattle.std.specs.Prelude.{ℕ}
abbrev pub shows : ℕ → ℕ
shows n = n

abbrev pub hides : ℕ → ℕ
hides n = n
""",
    "high/specs/Claim.antt": """-- What is claimed. To be believed.
use Rattle.low.specs.Base.{other}
use Rattle.high.specs.declared.shown.Shown.{Shown}
use Rattle.high.specs.declared.limits.TheConstants.{MOST, LEAST}

-- what holds of what is shown
pub record Claim (s : Shown) : Type 0 where
  pub few : other ≤ MOST
""",
    "high/src/limits.rt": """//! Limits.

/// The most.
pub const MOST: usize = 4;
pub const LEAST: usize = 1;
""",
}


class Small(unittest.TestCase):
    def setUp(self):
        folder = tempfile.TemporaryDirectory()
        self.addCleanup(folder.cleanup)
        for name, text in FILES.items():
            path = os.path.join(folder.name, "crates", name)
            os.makedirs(os.path.dirname(path), exist_ok=True)
            with open(path, "w", encoding="utf-8") as file:
                file.write(text)
        root, clauses.ROOT = clauses.ROOT, folder.name
        self.addCleanup(setattr, clauses, "ROOT", root)
        for cached in (believed.read, believed.spec, believed.models, believed.declared):
            cached.cache_clear()

    def printed(self, tool, *words):
        text = io.StringIO()
        with contextlib.redirect_stdout(text):
            tool.main(list(words))
        return text.getvalue()


class Clauses(Small):
    def test_calls_and_the_names_of_their_clauses(self):
        self.assertEqual(self.printed(clauses, "--list", "low"), (
            "low Counts::seen: (ghost member)\nlow Counts::see: seen\nlow Counter::number: (one)\n"
            "low length: same low\nlow passes on of lower: Other\n"))

    def test_a_call_in_full(self):
        self.assertEqual(self.printed(clauses, "low", "length"), (
            "length    crates/low/src/count.rt:49\n    The length,\n    in octets.\n"
            "    fn length(octets: &[u8]) -> usize\n      ensures same: result ≡ length_of octets.now\n"
            "      ensures low: result ≤ 4\n\n"))

    def test_clauses_behind_where_and_braces_in_them(self):
        number = self.printed(clauses, "low", "Counter::number")
        self.assertIn("      // The number itself.\n      ensures (one): result ≡ self.count.now\n", number)
        see = self.printed(clauses, "low", "see")
        self.assertIn("requires (one): length what.now < 4\n", see)
        self.assertIn("(record { a = seen self.old }).a ≡ seen self.new\n", see)

    def test_all_calls_of_a_trait(self):
        self.assertEqual(self.printed(clauses, "--list", "low", "Counts"), (
            "low Counts::seen: (ghost member)\nlow Counts::see: seen\n"))

    def test_layers(self):
        self.assertEqual(self.printed(clauses, "--layers"), " 1 low: Counts: what is seen, and how often\n 2 high: Shows\n 3 program: Runs\n")

    def test_what_is_not_there(self):
        for words in (["low", "nothing"], ["nowhere"]):
            with self.assertRaises(command_line.Mistake):
                self.printed(clauses, *words)


class Believed(Small):
    def test_lowest_first_with_lines_and_marks(self):
        self.assertEqual(self.printed(believed, "low:length").split("\n")[:3], [
            "    2     7         crates/low/specs/Base.antt",
            "    2     4 steps   crates/low/specs/Walk.antt",
            "    3    12         crates/low/specs/Length.antt"])

    def test_sums(self):
        self.assertEqual(self.printed(believed, "--short", "low"), (
            "low: 3 files, 23 lines, of which 7 are reached; 1 are steps, 4 lines, of which 2 are reached\n"))

    def test_the_views_of_the_values_that_clauses_speak_of(self):
        self.assertEqual(self.printed(believed, "high:get").split("\n")[:1], [
            "    2     7 partly  crates/high/specs/Shows.antt"])

    def test_a_claim_leads_through_the_types_that_it_names(self):
        self.assertEqual(self.printed(believed, "--claim", "high:Claim"), (
            "    2         crates/low/specs/Base.antt\n"
            "    3         crates/high/specs/Claim.antt\n"
            "    2 partly  crates/high/specs/Shows.antt\n"
            "    2 type    crates/high/src/limits.rt\n"
            "   10 type    crates/high/src/parts.rt\n"
            "   10 type    crates/high/src/shown.rt\n"
            "high:Claim (high:Claim): 3 files, 7 lines, and of types 3 files, 22 lines\n"))

    def test_a_claim_of_a_call(self):
        self.assertEqual(self.printed(believed, "--claim", "low:length").split("\n")[-2],
                         "low:length (low:length): 3 files, 7 lines, and of types 0 files, 0 lines")

    def test_a_definition_by_its_name(self):
        claim = "crates/high/specs/Claim.antt:7\n-- what holds of what is shown\npub record Claim (s : Shown) : Type 0 where\n  pub few : other ≤ MOST\n\n"
        for name in ("Claim", "high:Claim"):
            self.assertEqual(self.printed(believed, "--print", name), claim)
        with self.assertRaises(command_line.Mistake):
            self.printed(believed, "--print", "low:Claim")

    def test_a_call_that_is_not_there(self):
        for words in (["low:not_passed_on"], ["--claim", "low:not_passed_on"]):
            with self.assertRaises(command_line.Mistake):
                self.printed(believed, *words)


if __name__ == "__main__":
    unittest.main()
