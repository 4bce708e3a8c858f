"""The run of a script's parts."""
import subprocess
import sys
import unittest

from tests.tool_runs import TOP, WAIT

CODE = """
import sys
from support.checks import check, run

def good() -> None:
    check("a good one", 1, 1)

def bad() -> None:
    check("a bad one", 1, 2)

sys.argv = ["live", *sys.argv[1:]]
run("live", (good,), by_hand=(bad,))
"""


class Parts(unittest.TestCase):
    def run_parts(self, *words: str) -> tuple[int, str, str]:
        run = subprocess.run(
            [sys.executable, "-B", "-c", CODE, *words],
            capture_output=True,
            text=True,
            timeout=WAIT,
            check=False,
            cwd=TOP,
            env={"PYTHONPATH": "lib:scripts"},
        )
        return run.returncode, run.stdout, run.stderr

    def test_which_are_run(self) -> None:
        self.assertEqual(self.run_parts(), (0, "live: 1 passed, 0 failed\n", ""))
        self.assertEqual(self.run_parts("good"), (0, "live: 1 passed, 0 failed\n", ""))
        for words in (("--by-hand",), ("bad",)):
            self.assertEqual(self.run_parts(*words)[::2], (1, ""))

    def test_a_part_that_there_is_not(self) -> None:
        """A run that checks nothing has not passed."""
        self.assertEqual(
            self.run_parts("good", "goood"), (2, "", "live: there is no part goood, but good bad\n")
        )


if __name__ == "__main__":
    unittest.main()
