"""Tests of try_edits.py, with the prover: python3 -m unittest scripts/test_try_edits.py"""
import contextlib
import io
import os
import pathlib
import sys
import tempfile
import unittest

sys.path.insert(0, os.path.dirname(os.path.abspath(__file__)))

import try_edits  # noqa: E402  (the path stands above)
from edits.edit import EditError, Edit  # noqa: E402
from edits.functions import Function, function_at, functions_in  # noqa: E402
from edits.rounds import rounds_of  # noqa: E402
from edits.kept import sum_of  # noqa: E402
from edits.verdicts import own_reason, of_whole_crate  # noqa: E402

SOURCE = """//! Numbers, and the numbers after them.
#![tactic(auto)]

ghost use Rattle.std.specs.Prelude.{◌≡◌, ◌+◌, ◌≤◌};

/// The next number.
pub fn next(n: u8) -> u8
    requires { n ≤ 250 }
    ensures { result ≡ n + 1 }
{
    n + 1
}

/// The second number after this one.
pub fn second(n: u8) -> u8
    requires { n ≤ 240 }
    ensures { result ≡ n + 2 }
{
    next(next(n))
}

/// The third number after this one.
pub fn third(n: u8) -> u8
    requires { n ≤ 240 }
    ensures { result ≡ n + 3 }
{
    next(second(n))
}
"""

METHODS = """pub struct Table<T> {
    items: Vec<T>,
}

impl<T> Table<T> {
    pub(crate) fn first(&self) -> u8 {
        1
    }
}

impl<T> Drop for Table<T> {
    fn drop(self)
        ensures { Names { a = 1 }
    {
        let Table { items: _ } = self;
    }
}

fn alone() {}

impl<T: Clock> Question<bool> for IsBelow<'_, T> {
    fn ask(&self) -> bool {
        true
    }
}

impl Question<Vec<u8>> for Bytes {
    fn ask(&self) -> Vec<u8> {
        Vec::new()
    }
}
"""


class Repository:
    """A repository with one crate, `numbers`, and these edits: the old text and the new one, by the
    edit's name."""

    def __init__(self, top: str, **edits: tuple[str, str]) -> None:
        self.top = pathlib.Path(top)
        self.folder = self.top / "crates/numbers"
        (self.folder / "src").mkdir(parents=True)
        (self.folder / "src/lib.rt").write_text(SOURCE, encoding="utf-8")
        (self.top / "crates.txt").write_text("numbers:\n", encoding="utf-8")
        (self.folder / try_edits.FOLDER).mkdir()
        for name, (old, new) in edits.items():
            text = f"file: src/lib.rt\nold: {old}\nnew: {new}\n"
            (self.folder / try_edits.FOLDER / f"{name}.edit").write_text(text, encoding="utf-8")

    def edits(self) -> list[Edit]:
        return [Edit.read(it) for it in sorted((self.folder / try_edits.FOLDER).glob("*.edit"))]

    def run(self) -> tuple[int, list[str]]:
        """Tries the edits: the exit status, and the lines that are printed."""
        with contextlib.redirect_stdout(io.StringIO()) as said:
            status = try_edits.main([], self.top)
        return status, said.getvalue().splitlines()


class TryEdits(unittest.TestCase):
    def setUp(self) -> None:
        room = tempfile.TemporaryDirectory()
        self.addCleanup(room.cleanup)
        self.room = room.name

    def test_edits_of_one_round_are_told_apart(self) -> None:
        repository = Repository(
            self.room,
            adds_two=("    n + 1", "    n + 2"),
            forgets_one=("next(second(n))", "second(n)"),
            means_the_same=("next(next(n))", "next(n + 1)"),
        )
        rounds, apart = rounds_of(repository.folder, repository.edits())
        self.assertEqual([it.functions() for it in rounds], [["next", "second", "third"]])
        self.assertEqual(apart, [])
        status, lines = repository.run()
        self.assertEqual(status, 1)
        self.assertRegex(
            lines[0], r"^numbers/adds_two.edit: refused: .*src/lib.rt:7:1: it is not proved that"
        )
        self.assertRegex(
            lines[1],
            r"^numbers/forgets_one.edit: refused: .*src/lib.rt:23:1: it is not proved that",
        )
        # (its function is not proved in the round, since that of its callee isn't)
        self.assertEqual(lines[2], "numbers/means_the_same.edit: NOT REFUSED: it is still proved")
        self.assertEqual(lines[3:], ["try_edits: 2 passed, 1 failed"])
        # (what was refused is kept, and what wasn't is tried again)
        (repository.folder / try_edits.FOLDER / "means_the_same.edit").unlink()
        status, lines = repository.run()
        self.assertEqual(status, 0)
        self.assertRegex(lines[0], "^numbers/adds_two.edit: refused by an earlier run: ")
        self.assertEqual(lines[2:], ["try_edits: 2 passed, 0 failed"])

    def test_an_edit_that_does_not_compile_fails_and_hides_no_other(self) -> None:
        repository = Repository(
            self.room,
            adds_two=("    n + 1", "    n + 2"),
            misspells=("next(second(n))", "next(secund(n))"),
        )
        status, lines = repository.run()
        self.assertEqual(status, 1)
        self.assertRegex(
            lines[0], r"^numbers/adds_two.edit: refused: .*src/lib.rt:7:1: it is not proved that"
        )
        self.assertRegex(
            lines[1],
            r"^numbers/misspells.edit: NOT REFUSED: nothing is known of it: .*unknown-name",
        )
        self.assertEqual(lines[2:], ["try_edits: 1 passed, 1 failed"])

    def test_an_edit_that_cannot_be_applied_fails(self) -> None:
        repository = Repository(
            self.room, changes_nothing=("n + 1", "n + 1"), stands_twice=("n ≤ 240", "n ≤ 241")
        )
        self.assertEqual(
            repository.run(),
            (
                1,
                [
                    "numbers/changes_nothing.edit: NOT REFUSED: bad edit: an old text and its new one are the same",
                    "numbers/stands_twice.edit: NOT REFUSED: bad edit: an old text stands in src/lib.rt 2 times, and not once",
                    "try_edits: 0 passed, 2 failed",
                ],
            ),
        )

    def test_an_edit_outside_of_src_is_bad(self) -> None:
        path = pathlib.Path(self.room, "weaker.edit")
        path.write_text("file: specs/Lib.antt\nold: a\nnew: b\n", encoding="utf-8")
        with self.assertRaises(EditError):
            Edit.read(path)

    def test_a_second_edit_of_a_function_takes_a_second_round(self) -> None:
        repository = Repository(
            self.room,
            adds_nothing=("    n + 1", "    n"),
            adds_two=("    n + 1", "    n + 2"),
            outside=("#![tactic(auto)]", "#![tactic(search)]"),
        )
        rounds, apart = rounds_of(repository.folder, repository.edits())
        self.assertEqual(
            [[it.name for it in each.names] for each in rounds], [["adds_nothing"], ["adds_two"]]
        )
        self.assertEqual([it.name for it in apart], ["outside"])

    def test_refuses_a_name_that_is_no_crate(self) -> None:
        repository = Repository(self.room)
        with contextlib.redirect_stderr(io.StringIO()) as said:
            self.assertEqual(try_edits.main(["number"], repository.top), 2)
        self.assertIn("crates.txt has no number", said.getvalue())


class KeptRefusals(unittest.TestCase):
    def test_rest_on_the_lines_of_the_crates_below_and_on_no_other(self) -> None:
        with tempfile.TemporaryDirectory() as room:
            made = Repository(room)

            def sum_with(text: str) -> bytes:
                (made.top / "crates.txt").write_text(text, encoding="utf-8")
                return sum_of(try_edits.repository_at(made.top), "numbers")

            alone = sum_with("numbers:\n")
            self.assertEqual(sum_with("# Numbers.\nnumbers:\nabove: numbers\n"), alone)
            self.assertNotEqual(sum_with("numbers: regex\n"), alone)
            below = sum_with("low:\nnumbers: low\n")
            self.assertNotEqual(below, alone)
            self.assertNotEqual(sum_with("low: regex\nnumbers: low\n"), below)

    def test_serve_another_checkout_of_the_same_files(self) -> None:
        with tempfile.TemporaryDirectory() as one, tempfile.TemporaryDirectory() as other:
            here, there = Repository(one), Repository(other)

            def sum_at(made: Repository) -> bytes:
                return sum_of(try_edits.repository_at(made.top), "numbers")

            self.assertEqual(sum_at(here), sum_at(there))
            source = there.folder / "src/lib.rt"
            source.write_text(source.read_text(encoding="utf-8") + "\n", encoding="utf-8")
            self.assertNotEqual(sum_at(here), sum_at(there))


class Functions(unittest.TestCase):
    def test_names_functions_as_the_prover_does(self) -> None:
        found = [
            (it.name, it.first_line, it.last_line)
            for it in functions_in("src/tables/first.rt", METHODS)
        ]
        self.assertEqual(
            found,
            [
                ("Table::first", 6, 8),
                ("TableDrop::drop", 12, 16),
                ("first::alone", 19, 19),
                ("IsBelowQuestionBool::ask", 22, 24),
                ("BytesQuestion::ask", 28, 30),
            ],
        )

    def test_finds_the_function_of_a_place(self) -> None:
        text = "pub trait Count {\n    fn count(&self) -> u8;\n\n    fn twice(&self) -> u8 {\n        2 * self.count()\n    }\n}\n"
        found = function_at("src/lib.rt", text, text.index("2 *"))
        self.assertEqual(found and found.name, "Count::twice")
        self.assertIsNone(function_at("src/lib.rt", text, text.index("Count")))

    def test_names_the_functions_of_each_crate(self) -> None:
        for path in try_edits.TOP.glob("crates/*/src/**/*.rt"):
            for found in functions_in("src/" + path.name, path.read_text(encoding="utf-8")):
                self.assertRegex(found.name, r"^(\w+::)?\w+$", path)

    def test_a_body_begins_after_the_clauses(self) -> None:
        drop = list(functions_in("src/lib.rt", METHODS))[1]
        self.assertEqual(
            METHODS[drop.body.start :].split("\n")[1].strip(), "let Table { items: _ } = self;"
        )


class Reasons(unittest.TestCase):
    """Of the function `second`, lines 15 to 20."""

    def reason(self, *lines: str) -> str:
        return own_reason(lines, list(functions_in("src/lib.rt", SOURCE))[1])

    def test_a_line_of_the_function(self) -> None:
        line = "note: src/lib.rt:15:1: it is not proved that what the function ensures holds when it returns"
        self.assertEqual(self.reason(line, "fn numbers::second: no proof: expected answers"), line)

    def test_a_proof_file_of_the_function(self) -> None:
        line = "./proofs/second/Answers.antt:3:1: error: the goal is false"
        self.assertEqual(self.reason(line, "fn numbers::second: not proved"), line)

    def test_no_reason(self) -> None:
        not_proved = "fn numbers::second: no proof: it calls `numbers::next`, which is not proved"
        for line in (
            "note: src/lib.rt:7:1: it is not proved that what the function ensures holds when it returns",
            "src/lib.rt:15:1: a warning",
            "proofs/second/Answers.antt:3:1: error: `steps` is not in scope",
            "proofs/third/Answers.antt:3:1: error: the goal is false",
        ):
            self.assertEqual(self.reason(line, not_proved), "", line)

    def test_a_note_of_the_whole_crate_is_no_refusal(self) -> None:
        second = list(functions_in("src/lib.rt", SOURCE))[1]
        refusal = "note: src/lib.rt:15:1: it is not proved that what the function ensures holds"
        cases: list[tuple[list[str], list[Function], bool]] = [
            (["proofs/third/Answers.antt:3:1: note: large solution: 1,200 nodes"], [], False),
            (["proofs/second/Answers.antt:3:1: note: large solution"], [second], False),
            (["src/lib.rt:15:1: a warning"], [second], False),
            ([refusal.replace(":15:", ":25:")], [second], False),
            (["proofs/third/Answers.antt:3:1: error: the goal is false"], [second], False),
            (["proofs/third/Answers.antt:3:1: error: the goal is false"], [], True),
            ([refusal], [second], True),
            ([refusal], [], True),
        ]
        for lines, functions, is_refused in cases:
            verdict = of_whole_crate(1, [*lines, "logic=not-proved"], functions)
            self.assertEqual(verdict.is_refused, is_refused, lines)

    def test_a_function_that_is_proved_has_none(self) -> None:
        line = "note: src/lib.rt:15:1: it is not proved that what the function ensures holds when it returns"
        self.assertEqual(self.reason(line, "fn numbers::second: proved"), "")


if __name__ == "__main__":
    unittest.main()
