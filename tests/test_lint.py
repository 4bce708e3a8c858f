"""scripts/lint.sh finds what is wrong, and needs each of its programs."""
import os
import pathlib
import shutil
import subprocess
import tempfile
import unittest

from support.processes import Run
from tests.tool_runs import TOP, WAIT

LINT = TOP / "scripts" / "lint.sh"
NEEDED = ("sh", "dirname", "git", "sed", "xargs")
CHECKERS = ("mypy", "flake8", "black", "shellcheck", "node")


class Lint(unittest.TestCase):
    """A repository of its own, and a folder with the programs that the script finds: those that it
    needs, and checkers that find nothing."""

    def setUp(self) -> None:
        self.top = pathlib.Path(self.enterContext(tempfile.TemporaryDirectory()))
        self.programs = pathlib.Path(self.enterContext(tempfile.TemporaryDirectory()))
        for name in NEEDED:
            self.install(name)
        for name in CHECKERS:
            self.write_program(name, "exit 0")
        (self.top / "scripts").mkdir()
        shutil.copy(LINT, self.top / "scripts" / "lint.sh")
        (self.top / "page.js").write_text(
            'import {name} from "./other.js";\nexport const other = name;\n', encoding="ascii"
        )
        (self.top / "tool.py").write_text("", encoding="ascii")
        self.run_words("git", "init", "--quiet")

    def install(self, name: str) -> None:
        found = shutil.which(name)
        assert found, name
        # pyenv, asdf and the like choose by the name of the program
        (self.programs / name).write_text(f'#!/bin/sh\nexec "{found}" "$@"\n', encoding="ascii")
        (self.programs / name).chmod(0o755)

    def write_program(self, name: str, text: str) -> None:
        (self.programs / name).write_text(f"#!/bin/sh\n{text}\n", encoding="ascii")
        (self.programs / name).chmod(0o755)

    def run_words(self, *words: str) -> Run:
        environment = {**os.environ, "PATH": str(self.programs)}
        done = subprocess.run(
            words,
            cwd=self.top,
            capture_output=True,
            text=True,
            timeout=WAIT,
            check=False,
            env=environment,
        )
        return Run(done.stdout, done.stderr, done.returncode)

    def lint(self) -> Run:
        self.run_words("git", "add", "--all")
        return self.run_words("/bin/sh", "scripts/lint.sh")

    def test_nothing_is_wrong(self) -> None:
        self.assertEqual(self.lint(), Run("", "", 0))

    def test_each_program_that_is_missing_is_named(self) -> None:
        for name in CHECKERS:
            with self.subTest(name):
                (self.programs / name).unlink()
                done = self.lint()
                self.assertEqual((done.printed, done.status), ("", 1))
                self.assertEqual(done.told.count("lint needs"), 1)
                self.assertIn(f"lint needs {name}: ", done.told)
                self.write_program(name, "exit 0")

    def test_each_program_can_fail_and_the_others_run(self) -> None:
        for name in CHECKERS:
            self.write_program(name, f"echo {name} was run")
        self.assertEqual(self.lint(), Run("".join(f"{name} was run\n" for name in CHECKERS), "", 0))
        for name in CHECKERS:
            with self.subTest(name):
                self.write_program(name, f"echo {name} was run; exit 1")
                done = self.lint()
                self.assertEqual(done.status, 1)
                self.assertEqual(done.printed.count("was run"), len(CHECKERS))
                self.write_program(name, f"echo {name} was run")

    @unittest.skipUnless(shutil.which("flake8"), "flake8 is not installed")
    def test_a_fault_of_a_python_file_is_found(self) -> None:
        self.install("flake8")
        shutil.copy(TOP / ".flake8", self.top / ".flake8")
        self.assertEqual(self.lint().status, 0)
        (self.top / "tool.py").write_text("import json\n", encoding="ascii")
        done = self.lint()
        self.assertEqual(done.status, 1)
        self.assertIn("F401", done.printed)

    @unittest.skipUnless(shutil.which("black"), "black is not installed")
    def test_a_layout_that_is_not_blacks_is_found(self) -> None:
        self.install("black")
        shutil.copy(TOP / "pyproject.toml", self.top / "pyproject.toml")
        # a line of 100 columns, which black's own limit of 88 would break
        line = "".join(("names = [", "'x', ".replace("'", '"') * 17, '"xyz"', "]\n"))
        (self.top / "tool.py").write_text(line, encoding="ascii")
        self.assertEqual((len(line), self.lint().status), (101, 0))
        (self.top / "tool.py").write_text("names = ['x']\n", encoding="ascii")
        done = self.lint()
        self.assertEqual(done.status, 1)
        self.assertIn('+names = ["x"]\n', done.printed)

    @unittest.skipUnless(shutil.which("shellcheck"), "shellcheck is not installed")
    def test_a_fault_of_a_shell_script_is_found(self) -> None:
        self.install("shellcheck")
        self.assertEqual(self.lint().status, 0)
        (self.top / "tool").write_text("#!/usr/bin/env bash\nrm $1/*\n", encoding="ascii")
        done = self.lint()
        self.assertEqual(done.status, 1)
        self.assertIn("SC2086", done.printed)

    @unittest.skipUnless(shutil.which("node"), "node is not installed")
    def test_a_fault_of_a_module_is_found(self) -> None:
        self.install("node")
        self.assertEqual(self.lint().status, 0)
        (self.top / "page.js").write_text(
            'import {name} from "./other.js";\nexport const other = ;\n', encoding="ascii"
        )
        done = self.lint()
        self.assertEqual(done.status, 1)
        self.assertIn("lint: the fault is in page.js\n", done.printed)


if __name__ == "__main__":
    unittest.main()
