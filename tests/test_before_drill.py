"""The drill of the line `before`: its verdicts on lines, and a run of it at a switch that stands in,
with each planted fault and without one."""
import shlex
import sys
import tempfile
import unittest
from pathlib import Path

from support.late_lines import Sent
from support.line_proxy import PLANTED
from support.processes import Run, run_to_end
from tests.tool_runs import TOP

LINES = "240"
LATE = "before 500 promote => ok 3"
STAND_IN = f"""#!/bin/sh
cd {shlex.quote(str(TOP))}
PYTHONPATH=lib:scripts:. exec {shlex.quote(sys.executable)} -B -m tests.stand_in_switch "$@"
"""


class Verdicts(unittest.TestCase):
    def check(self, earliest: int, reply: str, received: int, fault: str) -> None:
        sent = Sent("promote", 500, earliest, reply, received)
        self.assertEqual(sent.fault().split(":")[0], fault)

    def test_a_line_that_was_late_for_certain(self) -> None:
        for earliest in (500, 501, 9999):
            self.check(earliest, "ok 3", 10_000, "carried out late")
            self.check(earliest, "refused NotPaused", 10_000, "carried out late")
            self.check(earliest, "refused TooLate", 10_000, "")

    def test_a_line_that_was_in_time_for_certain(self) -> None:
        for received in (450, 499):
            self.check(400, "refused TooLate", received, "refused in time")
            self.check(400, "ok 3", received, "")
            self.check(400, "refused NotPaused", received, "")

    def test_a_line_of_which_nobody_knows(self) -> None:
        for reply in ("ok 3", "refused TooLate", "refused NotPaused"):
            for received in (500, 501):
                self.check(499, reply, received, "")

    def test_a_fault_tells_the_line(self) -> None:
        self.assertIn(LATE, Sent("promote", 500, 600, "ok 3", 700).fault())


class Runs(unittest.TestCase):
    def drill(self, *words: str) -> Run:
        with tempfile.TemporaryDirectory() as folder:
            program = Path(folder, "switch")
            program.write_text(STAND_IN, encoding="ascii")
            program.chmod(0o755)
            drill = str(TOP / "scripts" / "before_drill.py")
            variables = ["env", f"BG_SWITCH_PROGRAM={program}", "PYTHONDONTWRITEBYTECODE=1"]
            return run_to_end([*variables, sys.executable, drill, "--lines", LINES, *words])

    def test_a_switch_without_a_fault(self) -> None:
        run = self.drill("--rounds", "0")
        self.assertEqual((run.status, run.told), (0, ""), run.printed)
        self.assertIn("before_drill: 0 faults\n", run.printed)
        for kind in ("late", "in time", "one or the other"):
            self.assertRegex(run.printed, rf"\b{kind} [1-9]")

    def test_each_planted_fault_is_found_by_its_name(self) -> None:
        run = self.drill("--fault", "all")
        self.assertEqual((run.status, run.told), (0, ""), run.printed)
        for name, planted in PLANTED.items():
            self.assertIn(f"{name}: FOUND as {planted.verdict!r}", run.printed)

    def test_the_cost_is_printed(self) -> None:
        run = self.drill("--rounds", "1")
        self.assertRegex(
            run.printed, r"ratio of orders with a time limit: \d+\.\d+, at least 0\.98\n"
        )

    def test_wrong_words(self) -> None:
        self.assertEqual(self.drill("--fault", "none").status, 2)


if __name__ == "__main__":
    unittest.main()
