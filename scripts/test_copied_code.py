"""Tests of copied_code.py: python3 -m unittest scripts/test_copied_code.py"""
import contextlib
import io
import os
import pathlib
import shutil
import subprocess
import sys
import tempfile
import unittest

sys.path.insert(0, os.path.dirname(os.path.abspath(__file__)))

import copied_code  # noqa: E402  (the path stands above)
from copied.accepted import Group, ListError, groups_in  # noqa: E402
from copied.code_lines import code_lines  # noqa: E402
from copied.items import item_finder  # noqa: E402
from copied.pairs import Copy, Item, copies  # noqa: E402
from copied.runs import Least, runs  # noqa: E402

PROGRAMS_OF_LINT = ("mypy", "flake8", "black", "shellcheck", "node")
COUNT = """/// Counts the bytes of each line.
pub fn count_bytes(lines: &[Line], most: usize) -> Option<usize>
    requires few { length lines.now ≤ 64 }
    ensures within { IfSome result (λ count. count ≤ most) }
{
    let mut count = 0;
    for line in lines.iter() {
        count += line.bytes().len();
        if count > most {
            return None;
        }
    }
    Some(count)
}
"""
# The same function with other comments, in another layout, and with another name.
COPY = """//! A sum.

pub fn measure(lines: &[Line], most: usize) -> Option<usize>
    requires few { length lines.now ≤ 64 }
    ensures within { IfSome result (λ count. count ≤ most) }
{
    let mut count = 0; // none yet

    // Line by line.
    for line in lines.iter() {
      count += line.bytes().len();
      if count > most {
          return None;
      }
    }
    Some(count)
}
"""
OTHER = """/// Finds the first line that has a name.
pub fn find_named(lines: &[Line], name: &str) -> Option<usize>
    requires { 0 < length name.now }
    ensures found { IfSome result (λ at. has_name lines.now at name.now ≡ true) }
{
    let mut place = 0;
    while place < lines.len() {
        if lines[place].name() == name {
            return Some(place);
        }
        place += 1;
    }
    None
}
"""
TABLE = """pub fn name(fault: Fault) -> &'static str {
    match fault {
        Fault::BadWord => "BadWord",
        Fault::BadNumber => "BadNumber",
        Fault::TooLong => "TooLong",
        Fault::TooShort => "TooShort",
        Fault::Empty => "Empty",
        Fault::Unknown => "Unknown",
    }
}
"""
OTHER_TABLE = TABLE.replace("fault", "color").replace("Fault", "Color")
for old, new in (("BadWord", "Red"), ("BadNumber", "Blue"), ("TooLong", "Green")):
    OTHER_TABLE = OTHER_TABLE.replace(old, new)
for old, new in (("TooShort", "White"), ("Empty", "Black"), ("Unknown", "Grey")):
    OTHER_TABLE = OTHER_TABLE.replace(old, new)
IMPORTS = (
    "use crate::{\n" + "".join(f"    first_{n}::{{A{n}, B{n}}},\n" for n in range(20)) + "};\n"
)
LEMMA = """-- each element is found where it stands
pub found : (xs : List ℕ) (i : ℕ) → i < length xs → slice_get xs i ≡ Some (get_or xs i 0)
found [] i h = absurd (omega arith)
found (x ∷ xs) zero h = refl
found (x ∷ xs) (suc i) h =
    let less : i < length xs = omega (arith, h) in
    let rest : slice_get xs i ≡ Some (get_or xs i 0) = found xs i less in
    let same : slice_get (x ∷ xs) (suc i) ≡ slice_get xs i = refl in
    let here : get_or (x ∷ xs) (suc i) 0 ≡ get_or xs i 0 = refl in
    same ∙ rest ∙ ap Some (sym here)
"""
MODULES = """//! A crate.
#[cfg(test)]
mod tests;

mod lines;
"""
ITEMS = """//! Two kinds of lines.
pub const MOST: usize = 8;

pub(crate) enum Kind {
    Short,
}

impl<T: Drop> From<Refused<T>> for Kind {
    fn from(_refused: Refused<T>) -> Kind {
        Kind::Short
    }
}

impl Kind {
    pub fn is_short(&self) -> bool {
        true
    }
}
"""
LEMMAS = """-- Lemmas.
use Rattle.std.specs.Prelude.{ℕ}

abbrev pub twice : ℕ → ℕ
twice n = n + n

pub twice-le : (n : ℕ) → n ≤ twice n
twice-le n = step n where
  step : (k : ℕ) → k ≤ k + k
  step k = omega arith

module _ (most : ℕ) where
  pub below : (n : ℕ) → n ≤ most
  below n = absurd (cc)
"""


def found(*texts: str, suffix: str = ".rt") -> list[Copy]:
    """The pairs of sources with these texts, which have the names `0`, `1` and so on."""
    sources = {f"{number}{suffix}": text for number, text in enumerate(texts)}
    return copies(sources, copied_code.LEAST[suffix])


def names(pairs: list[Copy]) -> list[tuple[str, str]]:
    """The items of pairs, without their files."""
    return [(copy.items[0].name, copy.items[1].name) for copy in pairs]


class Copies(unittest.TestCase):
    def test_finds_a_copied_function_with_other_comments(self) -> None:
        (copy,) = found(COUNT, COPY)
        self.assertEqual(
            str(copy), "0.rt:2-13 1.rt:3-16 85 tokens: 0.rt 0::count_bytes ~ 1.rt 1::measure"
        )

    def test_finds_a_copy_whose_names_are_replaced_one_to_one(self) -> None:
        renamed = COUNT.replace("count", "sum").replace("most", "limit")
        self.assertEqual(names(found(COUNT, renamed)), [("0::count_bytes", "1::sum_bytes")])

    def test_finds_no_copy_whose_names_are_not_replaced_one_to_one(self) -> None:
        merged = COUNT.replace("> most", "> lines").replace("≤ most", "≤ few")
        merged = merged.replace("for line in", "for most in").replace("{ length", "{ most")
        self.assertEqual(found(COUNT, merged), [])

    def test_finds_a_copy_in_one_file(self) -> None:
        self.assertEqual(names(found(COUNT + COPY)), [("0::count_bytes", "0::measure")])

    def test_finds_a_copied_lemma(self) -> None:
        copy = LEMMA.replace("each element", "an element").replace("found", "stands")
        self.assertEqual(names(found(LEMMA, copy, suffix=".antt")), [("found", "stands")])

    def test_does_not_find_two_different_functions(self) -> None:
        self.assertEqual(found(COUNT, OTHER), [])

    def test_does_not_find_two_tables(self) -> None:
        self.assertEqual(found(TABLE, OTHER_TABLE), [])

    def test_does_not_find_imports(self) -> None:
        self.assertEqual(found(IMPORTS + COUNT, IMPORTS + OTHER), [])

    def test_does_not_find_a_short_copy(self) -> None:
        begin = "".join(COUNT.splitlines(keepends=True)[:5])
        self.assertEqual(found(COUNT, begin + "    None\n}\n"), [])

    def test_names_each_long_item_of_a_run(self) -> None:
        pairs = found(COUNT + OTHER, COUNT + OTHER)
        self.assertEqual(
            names(pairs), [("0::count_bytes", "1::count_bytes"), ("0::find_named", "1::find_named")]
        )


def runs_of(*texts: str) -> list[list[tuple[int, int]]]:
    """The runs of two or more lines of sources with these texts, as pairs of numbers of lines."""
    files = {str(number): list(code_lines("lines.rt", text)) for number, text in enumerate(texts)}
    return [
        [(one.code.number, other.code.number) for one, other in run.lines]
        for run in runs(files, Least(lines=2, tokens=2, thin_lines=2))
    ]


class Runs(unittest.TestCase):
    def test_a_run_ends_where_a_name_stands_for_two(self) -> None:
        lines = "a = b;\nc = d;\na = e;\n"
        self.assertEqual(
            runs_of(lines, lines.replace("a", "x", 1)), [[(1, 1), (2, 2)], [(2, 2), (3, 3)]]
        )

    def test_a_run_ends_where_two_names_stand_for_one(self) -> None:
        self.assertEqual(
            runs_of("a = b;\nc = d;\ne = f;\n", "a = b;\nc = d;\ne = b;\n"),
            [[(1, 1), (2, 2)], [(2, 2), (3, 3)]],
        )

    def test_runs_do_not_overlap(self) -> None:
        self.assertEqual(runs_of("a = b;\n" * 4), [[(1, 3), (2, 4)]])

    def test_a_run_ends_with_its_file(self) -> None:
        self.assertEqual(
            runs_of("a;\nb;\n", "c;\nd;\n", "a;\nb;\nc;\nd;\n"),
            [[(1, 1), (2, 2)], [(1, 3), (2, 4)]],
        )


class Items(unittest.TestCase):
    def test_names_the_items_of_a_source(self) -> None:
        item_at = item_finder("src/kind.rt", ITEMS)
        self.assertEqual(
            [item_at(line) for line in (1, 2, 5, 8, 10, 14, 16)],
            [
                "top",
                "MOST",
                "Kind",
                "impl<T: Drop> From<Refused<T>> for Kind",
                "KindFrom::from",
                "impl Kind",
                "Kind::is_short",
            ],
        )

    def test_names_the_definitions_of_a_proof(self) -> None:
        item_at = item_finder("proofs/Lemmas.antt", LEMMAS)
        self.assertEqual(
            [item_at(line) for line in (5, 8, 9, 13, 14)],
            ["twice", "twice-le", "twice-le", "below", "below"],
        )


class Lists(unittest.TestCase):
    PAIR = "a.rt one\n    a.rt other\n"

    def test_reads_groups(self) -> None:
        one, other, third = (Item("a.rt", name) for name in ("one", "other", "third x"))
        text = "# Why.\n\n= A reason.\na.rt one\n    a.rt other\n\na.rt other\n    a.rt third x\n"
        self.assertEqual(groups_in(text), [Group(4, [one, other]), Group(7, [other, third])])

    def test_refuses_a_list_without_reasons_or_pairs(self) -> None:
        for text, reason in (
            ("a.rt one\n    a.rt other\n", "line 1: no line `= REASON`"),
            ("=  \na.rt one\n    a.rt other\n", "line 2: no line `= REASON`"),
            ("= A reason.\na.rt one\n", "line 2: a group has at least two items"),
            ("= A reason.\n    a.rt one\n", "line 2: the first item of a group is not indented"),
            (f"= A reason.\n{self.PAIR}= Another.\n    a.rt third\n", "line 5: the first item"),
            ("= A reason.\na.rt one\n    other\n", "line 3: a path and a name are wanted"),
            (
                f"= A reason.\n{self.PAIR}= Another.\n{self.PAIR}",
                "line 5: a group above has a pair",
            ),
        ):
            with self.assertRaisesRegex(ListError, reason):
                groups_in(text)

    def test_parts_what_no_chain_of_pairs_joins(self) -> None:
        one, other, third = items = [Item("a.rt", name) for name in ("a", "b", "c")]
        group = Group(1, items)
        self.assertEqual(group.parted([(one, other), (other, third)]), [])
        self.assertEqual(group.parted([(one, other)]), [third])
        self.assertEqual(group.parted([]), [other, third])

    def test_an_item_that_is_like_itself_is_listed_twice(self) -> None:
        item = Item("a.rt", "one")
        self.assertEqual(Group(1, [item, item]).pairs(), {(item, item)})
        self.assertEqual(Group(1, [item, item]).parted([(item, item)]), [])
        self.assertEqual(Group(1, [item, item]).parted([]), [item])


class Repository(unittest.TestCase):
    """A repository with two crates, each with one file."""

    PLACES = ("crates/a/src/lines.rt", "crates/b/src/sums.rt")
    ACCEPTED = "= A reason.\ncrates/a/src/lines.rt lines::count_bytes\n    crates/b/src/sums.rt sums::measure\n"

    def setUp(self) -> None:
        room = tempfile.TemporaryDirectory()
        self.addCleanup(room.cleanup)
        self.top = pathlib.Path(room.name)
        subprocess.run(["git", "init", "-q", "."], cwd=self.top, check=True)

    def write(self, path: str, text: str) -> None:
        (self.top / path).parent.mkdir(parents=True, exist_ok=True)
        (self.top / path).write_text(text, encoding="utf-8")
        subprocess.run(["git", "add", path], cwd=self.top, check=True)

    def run_check(self, accepted: str, *words: str) -> tuple[int, list[str]]:
        """The exit status with this list, and the lines that are printed."""
        self.write(copied_code.LIST, accepted)
        said = io.StringIO()
        with contextlib.redirect_stdout(said), contextlib.redirect_stderr(said):
            status = copied_code.main(list(words), self.top)
        return status, said.getvalue().splitlines()

    def test_a_pair_that_is_not_listed_fails_with_its_name(self) -> None:
        for path, text in zip(self.PLACES, (COUNT, COPY)):
            self.write(path, text)
        status, (line,) = self.run_check("")
        self.assertEqual(status, 1)
        self.assertIn(
            "crates/a/src/lines.rt lines::count_bytes ~ crates/b/src/sums.rt sums::measure", line
        )
        self.assertIn("crates/a/src/lines.rt:2-13 crates/b/src/sums.rt:3-16 85 tokens", line)

    def test_a_listed_pair_passes_where_lines_are_added_above(self) -> None:
        for path, text in zip(self.PLACES, (OTHER + COUNT, COPY)):
            self.write(path, text)
        self.assertEqual(self.run_check(self.ACCEPTED), (0, []))
        self.assertEqual(len(self.run_check(self.ACCEPTED, "--all")[1]), 1)

    def test_a_listed_pair_that_is_gone_fails(self) -> None:
        for path, text in zip(self.PLACES, (COUNT, OTHER)):
            self.write(path, text)
        status, (line,) = self.run_check(self.ACCEPTED)
        self.assertEqual(status, 1)
        self.assertRegex(line, r"^scripts/copied_code.txt:2: crates/b/src/sums.rt sums::measure: ")

    def test_a_list_that_cannot_be_read_fails(self) -> None:
        status, (line,) = self.run_check("crates/a/src/lines.rt lines::count_bytes\n")
        self.assertEqual(status, 2)
        self.assertIn("scripts/copied_code.txt: line 1: no line `= REASON`", line)

    def test_tests_are_not_read(self) -> None:
        self.write("crates/a/src/lib.rt", MODULES)
        for path in ("a/src/tests.rt", "a/src/tests/lines.rt", "bg_tests_port/src/lines.rt"):
            self.write(f"crates/{path}", COUNT)
        self.write("crates/a/src/lines.rt", COUNT)
        self.write("crates/b/src/sums.rt", "#[cfg(test)]\nmod checks;\n")
        self.write("crates/b/src/sums/checks.rt", COPY)
        self.assertEqual(self.run_check(""), (0, []))
        self.write("crates/b/src/checks.rt", COPY)
        self.assertEqual(self.run_check("")[0], 1)


class Lint(unittest.TestCase):
    """scripts/lint.sh with a check that ends with some exit status, and with programs that find
    nothing."""

    def lint(self, status: int) -> int:
        with tempfile.TemporaryDirectory() as room:
            scripts, programs = pathlib.Path(room, "scripts"), pathlib.Path(room, "programs")
            scripts.mkdir()
            programs.mkdir()
            shutil.copy(copied_code.TOP / "scripts" / "lint.sh", scripts)
            for path, end in (
                (scripts / "copied_code.py", status),
                *((programs / name, 0) for name in PROGRAMS_OF_LINT),
            ):
                path.write_text(f"#!/bin/sh\nexit {end}\n", encoding="ascii")
                path.chmod(0o755)
            subprocess.run(["git", "init", "-q", "."], cwd=room, check=True)
            subprocess.run(["git", "add", "scripts"], cwd=room, check=True)
            paths = f"{programs}:{os.environ['PATH']}"
            environment = {**os.environ, "PATH": paths}
            return subprocess.run(
                [scripts / "lint.sh"], check=False, env=environment, timeout=60
            ).returncode

    def test_it_fails_with_the_check(self) -> None:
        self.assertEqual([self.lint(status) for status in (0, 1, 2)], [0, 1, 1])

    def test_the_check_can_be_run(self) -> None:
        self.assertTrue(os.access(copied_code.__file__, os.X_OK))


if __name__ == "__main__":
    unittest.main()
