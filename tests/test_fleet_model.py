"""model/check.py: what it reads from a search, and that it fails if a rule does not hold, and if a
planted fault is not found."""
import contextlib
import dataclasses
import io
import pathlib
import re
import shutil
import tempfile
import unittest
from collections.abc import Sequence
from unittest import mock

from model import check
from model.check import (
    HOLDS,
    MODEL,
    PLANTED,
    SETS,
    Check,
    Outcome,
    is_expected,
    line_of,
    main,
    outcome_of,
    search,
)
from support.processes import Run

COMPILER = next((name for name in check.COMPILERS if shutil.which(name)), "")
NEEDS_SPIN = unittest.skipUnless(
    shutil.which("spin") and COMPILER, "spin or a C compiler is not installed"
)
ENDED = """
State-vector 116 byte, depth reached 84, errors: 0
   832363 states, stored
"""
ASSERTED = """pan:1: assertion violated ((((holder==me)&&(epoch==mine))&&(mine>=last_writer))||((0!=0)&&(0!=3))) (at depth 30)
Warning: Search not completed
State-vector 116 byte, depth reached 84, errors: 1
      444 states, stored
"""
CYCLE = """pan:1: acceptance cycle (at depth 99)
Warning: Search not completed
State-vector 132 byte, depth reached 100, errors: 1
       48 states, stored (51 visited)
"""
ONE = Check("one", "NM=2", "rule 3", "last_writer")


def run(words: Sequence[str]) -> Run:
    told, faults = io.StringIO(), io.StringIO()
    with contextlib.redirect_stdout(told), contextlib.redirect_stderr(faults):
        status = main(words)
    return Run(told.getvalue(), faults.getvalue(), status)


class Outcomes(unittest.TestCase):
    def test_a_search_without_an_error(self) -> None:
        self.assertEqual(outcome_of(ENDED, ""), Outcome(HOLDS, "", 832363))

    def test_the_rule_of_an_assertion(self) -> None:
        outcome = outcome_of(ASSERTED, "")
        self.assertEqual((outcome.found, outcome.states), ("rule 3", 444))
        self.assertTrue(is_expected(ONE, outcome))
        self.assertFalse(is_expected(dataclasses.replace(ONE, rule="rule 1"), outcome))
        self.assertFalse(is_expected(dataclasses.replace(ONE, where="promoted"), outcome))
        self.assertFalse(is_expected(Check("one", "NM=2"), outcome))

    def test_an_assertion_of_no_rule(self) -> None:
        self.assertEqual(
            outcome_of(ASSERTED.replace("||((0!=0)&&(0!=3))", ""), "").found, "another error"
        )

    def test_a_cycle_is_of_the_formula(self) -> None:
        self.assertEqual(
            [outcome_of(CYCLE, formula).found for formula in ("LTL_4", "LTL_6", "LTL_MISSING", "")],
            ["rule 4", "rule 6", "missing", "another error"],
        )

    def test_what_is_no_answer(self) -> None:
        for printed in (
            ENDED + "Warning: Search not completed\n",
            ENDED + "error: max search depth too small\n",
            ASSERTED + "error: max search depth too small\n",
            "pan: out of memory\n",
            "",
        ):
            with self.subTest(printed):
                outcome = outcome_of(printed, "")
                self.assertTrue(outcome.found.startswith("no answer"), outcome)
                self.assertFalse(
                    is_expected(ONE, outcome) or is_expected(Check("one", ""), outcome)
                )
        self.assertTrue(outcome_of(ENDED, "", 1).found.startswith("no answer"))

    def test_the_line_of_a_check(self) -> None:
        self.assertRegex(
            line_of(ONE, outcome_of(ASSERTED, "")), r"^one +rule 3 is broken +444 states +0\.0 s$"
        )
        self.assertRegex(
            line_of(ONE, outcome_of(ENDED, "")),
            r"\n    FAILED: expected: rule 3 is broken at last_writer; spin: no error$",
        )


class Sets(unittest.TestCase):
    def test_names_are_unique(self) -> None:
        names = [each.name for each in SETS["all"]]
        self.assertEqual(len(names), len(set(names)))
        self.assertLess(set(SETS["small"]), set(SETS["all"]))

    def test_each_macro_of_a_check_is_one_of_the_model(self) -> None:
        text = MODEL.read_text(encoding="utf-8")
        for each in SETS["all"]:
            for macro in each.macros:
                name = macro.removeprefix("-D").partition("=")[0]
                self.assertRegex(text, rf"(?m)^#(ifn?def|if) .*\b{name}\b", each.name)

    def test_each_fault_that_the_model_can_have_is_planted(self) -> None:
        text = MODEL.read_text(encoding="utf-8")
        read = {
            name
            for pair in re.findall(r"(?m)^#ifn?def (\w+)|defined\((\w+)\)", text)
            for name in pair
            if name
        }
        faults = {name for name in read if not re.search(rf"(?m)^#define {name} \d", text)}
        planted = {
            macro.removeprefix("-D") for each in (*PLANTED, *SETS["small"]) for macro in each.macros
        }
        self.assertEqual(faults - planted, set())

    def test_each_rule_but_that_of_requests_is_broken_by_one(self) -> None:
        self.assertEqual(
            {each.rule for each in PLANTED} - {"missing"},
            {f"rule {number}" for number in (1, 2, 3, 4, 6, 7, 8)},
        )


class Words(unittest.TestCase):
    def test_without_a_name(self) -> None:
        self.assertEqual((run([]).status, run(["no-such"]).status), (2, 2))
        self.assertIn("no check has the name no-such; names: small, all, ", run(["no-such"]).told)

    def test_without_spin(self) -> None:
        with mock.patch.object(shutil, "which", lambda name: None if name == "spin" else name):
            self.assertEqual(
                run(["small"]),
                Run("the model is not checked, since spin is not installed\n", "", 0),
            )
        with mock.patch.object(shutil, "which", lambda name: name if name == "spin" else None):
            self.assertEqual(
                run(["small"]),
                Run("the model is not checked, since a C compiler is not installed\n", "", 0),
            )

    def test_one_that_is_not_as_expected_fails(self) -> None:
        with mock.patch.object(shutil, "which", lambda name: name):
            for outcome, status, last in (
                (Outcome("rule 3", "last_writer"), 0, "1 of 1"),
                (Outcome(HOLDS), 1, "0 of 1"),
            ):
                with mock.patch.object(check, "search", lambda *_, told=outcome: told):
                    done = run(["leader-not-compared"])
                self.assertEqual(
                    (done.status, done.printed.splitlines()[-1]),
                    (status, f"model: {last} checks as expected"),
                )


@NEEDS_SPIN
class Searches(unittest.TestCase):
    """Real ones, of the smallest configurations."""

    def test_a_planted_fault(self) -> None:
        planted = next(each for each in PLANTED if each.name == "leader-not-compared")
        self.assertTrue(is_expected(planted, search(planted, COMPILER)))

    def test_the_same_without_the_fault(self) -> None:
        sound = Check("sound", "NM=2 PLANS=1 CRASHES=0 CUTS=0 FAILURES=0 ABORTS=0")
        outcome = search(sound, COMPILER)
        self.assertEqual(outcome.found, HOLDS)
        self.assertGreater(outcome.states, 100)
        self.assertFalse(is_expected(dataclasses.replace(sound, rule="rule 3"), outcome))

    def test_a_model_that_is_none(self) -> None:
        with tempfile.TemporaryDirectory() as folder:
            path = pathlib.Path(folder, "wrong.pml")
            path.write_text("proctype {", encoding="ascii")
            self.assertTrue(search(ONE, COMPILER, path).found.startswith("no answer, spin"))

    def test_a_search_that_does_not_end(self) -> None:
        self.assertEqual(
            search(ONE, COMPILER, longest=0.001).found,
            "no answer, spin has not ended after 0.001 seconds",
        )


if __name__ == "__main__":
    unittest.main()
