"""The run of all tests: each class in a process of its own, and what is told of those that fail or
do not end."""
import os
import pathlib
import subprocess
import sys
import tempfile
import unittest

from support.processes import Run
from tests.tool_runs import TOP, WAIT, comes

CLASSES = """
import os, subprocess, sys, time, unittest
class Changes(unittest.TestCase):
    def test_it_changes_its_process(self):
        os.environ["CHANGED"] = "yes"
        os.chdir("/")
        self.assertTrue(True)
    def test_another(self):
        pass
class Others(unittest.TestCase):
    def test_nothing_is_changed_here(self):
        self.assertEqual((os.environ.get("CHANGED"), os.getcwd() != "/"), (None, True))
"""
FAILS = """
class Fails(unittest.TestCase):
    def test_it_fails(self):
        print("what it prints")
        self.fail("what is wrong")
"""
ENDS = """
class Ends(unittest.TestCase):
    def test_it_ends_its_process(self):
        os._exit(0)
"""
HANGS = """
class Hangs(unittest.TestCase):
    def test_it_hangs(self):
        child = subprocess.Popen(["sleep", "1000"], start_new_session=True)
        with open("pid", "w") as file:
            file.write(str(child.pid))
        self.hang()
    def hang(self):
        time.sleep(1000)
"""
LEAVES = """
class Leaves(unittest.TestCase):
    def test_it_leaves_a_process(self):
        with open("pid", "w") as file:
            file.write(str(subprocess.Popen(["sleep", "1000"]).pid))
"""
# The limit is short if a class hangs, however slow the machine is.
CODE = """
import sys
from tests import __main__ as tests
tests.LONGEST, tests.widened = {longest}, lambda limit: limit
sys.exit(tests.main("others", "."))
"""


class Classes(unittest.TestCase):
    def setUp(self) -> None:
        self.folder = pathlib.Path(self.enterContext(tempfile.TemporaryDirectory()))
        (self.folder / "others").mkdir()
        (self.folder / "others" / "__init__.py").touch()

    def run_tests(self, further: str = "", classes: str = CLASSES, longest: float = WAIT) -> Run:
        (self.folder / "others" / "test_it.py").write_text(classes + further, encoding="ascii")
        done = subprocess.run(
            [sys.executable, "-B", "-c", CODE.format(longest=longest)],
            cwd=self.folder,
            capture_output=True,
            text=True,
            timeout=WAIT,
            check=False,
            env={**os.environ, "PYTHONPATH": f"{TOP}:{TOP}/lib:{TOP}/scripts"},
        )
        return Run(done.stdout, done.stderr, done.returncode)

    def has_ended(self) -> bool:
        """Whether the process that a class has started has ended."""
        return not os.path.exists(f"/proc/{(self.folder / 'pid').read_text(encoding='ascii')}")

    def test_no_class_meets_what_another_changes(self) -> None:
        self.assertEqual(
            self.run_tests(), Run("tests of the tools: 3 in 2 classes, of which 0 failed\n", "", 0)
        )

    def test_one_that_fails(self) -> None:
        done = self.run_tests(FAILS)
        self.assertEqual(
            (done.status, done.printed.splitlines()[-1]),
            (1, "tests of the tools: 4 in 3 classes, of which 1 failed"),
        )
        self.assertTrue(done.printed.startswith("others.test_it.Fails:\n"), done.printed)
        for told in ("what it prints", "AssertionError: what is wrong"):
            self.assertIn(told, done.printed)

    def test_one_whose_process_ends_in_between(self) -> None:
        """A run that says nothing has not passed."""
        done = self.run_tests(ENDS)
        self.assertEqual(
            (done.status, done.printed),
            (1, "others.test_it.Ends:\n\ntests of the tools: 3 in 3 classes, of which 1 failed\n"),
        )

    def test_one_that_hangs(self) -> None:
        """It is told where it hangs, and it ends with what it has started."""
        done = self.run_tests(HANGS, longest=2.0)
        self.assertEqual(
            (done.status, done.printed.splitlines()[-1]),
            (1, "tests of the tools: 3 in 3 classes, of which 1 failed"),
        )
        for told in ("in hang\n", "others.test_it.Hangs has not ended after 2 seconds"):
            self.assertIn(told, done.printed)
        self.assertTrue(comes(self.has_ended))

    def test_what_a_class_leaves_behind_ends(self) -> None:
        self.assertEqual(self.run_tests(LEAVES).status, 0)
        self.assertTrue(comes(self.has_ended))

    def test_a_module_that_cannot_be_imported(self) -> None:
        done = self.run_tests("import no_such_module\n")
        self.assertEqual(
            (done.status, "No module named 'no_such_module'" in done.printed), (1, True)
        )

    def test_no_tests(self) -> None:
        """A run without a test has not passed."""
        self.assertEqual(
            self.run_tests(classes=""),
            Run("tests of the tools: 0 in 0 classes, of which 0 failed\n", "", 1),
        )


if __name__ == "__main__":
    unittest.main()
