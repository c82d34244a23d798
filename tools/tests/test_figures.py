"""Tests of `dev/figures`: what it counts, on small crates; and that no document states another figure."""

import os
import unittest

from support import DEV, Case

from counting import figures
from counting.believed import Book, Lines, book
from counting.definitions import Name

REPOSITORY = os.path.dirname(DEV)
LOW = """-- Words of a text.
use Rattle.std.specs.Prelude.{Bool, ◌==◌}
use Rattle.low.specs.Bytes.{is_blank, is_end as ends}
use Rattle.low.specs.Bytes as bytes

-- what a word is
abbrev pub is_word : Bool → Bool
is_word first = bytes.is_letter first

infixr 30 ◌▸◌
abbrev pub ◌▸◌ : Bool → Bool → Bool
(a ▸ b) rest =
    -- neither
    is_blank a

abbrev pub ended : Bool → Bool
ended is_word = ends is_word

pub data Kind : Type 0 where
  -- one of two
  Plain : Kind
  Quoted : (is_word : Bool) → Kind

pub record Shown (Kind : Type 0) : Type 0 where
  pub ended : Kind
  pub rest : Shown ended

abbrev pub unused : Bool
unused = record { is_word = "is_word"; other = true } ▸ false
"""
BYTES = """abbrev pub is_blank : Bool → Bool
is_blank b = b
abbrev pub is_end : Bool → Bool
is_end b = (λ is_blank. is_blank) b
unfoldable pub is_letter : Bool → Bool
is_letter is_word = is_word
"""
ROOT = """mod words;
pub use words::{first, Word};
"""
WORDS = """ghost use Rattle.low.specs.Words.{is_word, ended, Quoted, ◌▸◌};

/// Cites by its clauses alone.
pub fn first(text: &[u8; 4]) -> bool
    requires { is_word text }
    ensures both { (a : Bool) → a ▸ text }
{
    ended(text)
}

// Not exported.
pub fn second() ensures { ended true } {}

pub struct Word { kind: u8 }

impl Model for Word {
    ghost Value = { Shown };
    ghost invariant = { ended };
}

impl<'a, T: From<Vec<T>>> Word<'a, T> {
    ghost use Rattle.low.specs.Words.{Shown};

    pub fn shown(&self) -> T
        ensures { Shown Quoted }
    {}

    fn hidden(&self) ensures { ended true } {}
}
"""


class Counted(Case):
    """What contracts cite."""

    def book(self) -> Book:
        """Returns the definitions and contracts of a small crate."""
        self.write("low/specs/Words.antt", LOW)
        self.write("low/specs/Bytes.antt", BYTES)
        self.write("low/specs/Body/Inner.antt", "abbrev pub inner : Bool\ninner = true\n")
        self.write("low/src/lib.rt", ROOT)
        self.write("low/src/words.rt", WORDS)
        return book(self.folder)

    def test_definitions(self) -> None:
        read = self.book()
        sizes = {name.name: len(one.lines) for name, one in read.definitions.items()}
        self.assertEqual(
            sizes,
            {"is_word": 2, "▸": 4, "ended": 2, "Kind": 3, "Shown": 3, "unused": 2}
            | {"is_blank": 2, "is_end": 2, "is_letter": 2, "inner": 2},
        )

    def test_what_definitions_cite(self) -> None:
        cited = {name.name: {other.name for other in others} for name, others in self.book().cited.items()}
        self.assertEqual(
            cited,
            {"is_word": {"is_letter"}, "▸": {"is_blank"}, "ended": {"is_end"}, "Kind": set(), "Shown": set()}
            | {"unused": {"▸"}, "is_blank": set(), "is_end": set(), "is_letter": set(), "inner": set()},
        )

    def test_what_functions_cite(self) -> None:
        read = self.book()
        self.assertEqual([one.name for one in read.contracts if one.kind == "function"], ["first", "Word::shown"])
        self.assertEqual(read.of("low", "first"), Lines(10, 4))
        self.assertEqual(read.of("low", "Word::shown"), Lines(6, 2))
        with self.assertRaises(KeyError):
            read.of("low", "second")

    def test_what_nothing_cites(self) -> None:
        words, inner = "Rattle.low.specs.Words", "Rattle.low.specs.Bytes"
        uncited = [Name(inner, "is_end"), Name(words, "ended"), Name(words, "unused")]
        self.assertEqual(self.book().uncited(), uncited)


class Stated(unittest.TestCase):
    """The documents of the repository."""

    def test_each_document_states_the_figure_and_one_alone_does(self) -> None:
        stated = set()
        for figure in figures.figures(REPOSITORY, book(os.path.join(REPOSITORY, "crates"))):
            with self.subTest(figure.what):
                found = list(figures.statements(REPOSITORY, figure))
                self.assertLessEqual({statement.value for statement in found}, {figure.value}, found)
                self.assertLessEqual(len(found), 1, "it stands in one place")
                stated |= {figure.what} if found else set()
        self.assertLessEqual({"wrong bodies that make test tries", "minutes of a first build"}, stated)


class Words(Case):
    """The command line."""

    def test_figures(self) -> None:
        lines = self.run_dev("figures")[0].splitlines()
        self.assertTrue(all(line.rpartition(": ")[2].replace(",", "").isdigit() for line in lines), lines)

    def test_what_a_reader_must_believe(self) -> None:
        out = self.run_dev("figures", "--believe", "sudo_text::lines")[0]
        self.assertRegex(out, "^to believe: [0-9,]+ lines in [0-9,]+ definitions\n")
        self.assertRegex(out, "\nby function:\n  sudo_text::lines: [0-9]+ lines in [0-9]+ definitions\noutside specs/Body/")

    def test_wrong_words(self) -> None:
        self.assertIn("gone: no crate exports", self.run_dev("figures", "--believe", "sudo_text::gone", status=2)[1])
        self.run_dev("figures", "sudo_text::lines", status=2)


if __name__ == "__main__":
    unittest.main()
