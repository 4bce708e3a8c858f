"""What starts the switch sets the variables by which the C library gives freed memory back to the
system: each unit, the launcher of the repository and the package's command. The pages and examples
start it by one of these."""
import os
import pathlib
import re
import shutil
import subprocess
import tempfile
import unittest
from collections.abc import Mapping

from tests.test_package import BUILD, EXECUTABLE, run, version
from tests.tool_runs import TOP, WAIT

VARIABLES = {"MALLOC_ARENA_MAX": "4", "MALLOC_MMAP_THRESHOLD_": "131072"}
# In the place of the program: it prints its version, or its variables of the C library and its
# words, a line each.
PROGRAM = """#!/bin/sh
if [ "$1" = --version ]; then
    echo 'bg_switch {version}'
else
    env | grep '^MALLOC_' | sort
    printf '%s\\n' "$@"
fi
"""
WORDS = ["serve", "two words", ""]
# How pages, examples and units name the program that they start.
LAUNCHERS = ("bin/bg_switch", "../../bin/bg_switch", "bg_switch", "/usr/bin/bg_switch")


def started(launcher: pathlib.Path, variables: Mapping[str, str]) -> list[str]:
    """What the program prints that a launcher starts, if the user has set these variables of the C
    library alone."""
    others = {name: value for name, value in os.environ.items() if not name.startswith("MALLOC_")}
    done = subprocess.run(
        [str(launcher), *WORDS],
        capture_output=True,
        text=True,
        timeout=WAIT,
        check=True,
        env={**others, **variables},
    )
    return done.stdout.splitlines()


def printed_with(variables: Mapping[str, str]) -> list[str]:
    """What the program prints that was started with these variables."""
    return [*(f"{name}={value}" for name, value in sorted(variables.items())), *WORDS]


class Launchers(unittest.TestCase):
    def setUp(self) -> None:
        self.folder = pathlib.Path(self.enterContext(tempfile.TemporaryDirectory()))
        self.launchers = {"the repository": self.of_repository(), "the package": self.of_package()}

    def program(self, place: pathlib.Path) -> pathlib.Path:
        place.parent.mkdir(parents=True)
        place.write_text(PROGRAM.format(version=version()), encoding="ascii")
        place.chmod(0o755)
        return place

    def of_repository(self) -> pathlib.Path:
        """The launcher of a repository whose program is newer than its sources."""
        top = self.folder / "repository"
        launcher = top / "bin" / "bg_switch"
        launcher.parent.mkdir(parents=True)
        shutil.copy(TOP / "bin" / "bg_switch", launcher)
        (top / "crates.txt").touch()
        self.program(top / "crates" / "bg_switch" / "out" / "bg_switch")
        return launcher

    def of_package(self) -> pathlib.Path:
        """The command of the package, which here starts the program in the package's folder."""
        root = self.folder / "root"
        done = run(
            [str(BUILD), "stage", str(root)], str(self.program(self.folder / "built" / "bg_switch"))
        )
        self.assertEqual((done.told, done.status), ("", 0))
        command = root / "usr" / "bin" / "bg_switch"
        text = command.read_text(encoding="ascii")
        self.assertEqual(text.count(f"exec /{EXECUTABLE} "), 1, text)
        command.write_text(text.replace(f"/{EXECUTABLE}", str(root / EXECUTABLE)), encoding="ascii")
        return command

    def test_each_sets_the_variables(self) -> None:
        for name, launcher in self.launchers.items():
            with self.subTest(name):
                self.assertEqual(started(launcher, {}), printed_with(VARIABLES))

    def test_a_variable_that_the_user_has_set_stays(self) -> None:
        for name, launcher in self.launchers.items():
            for variable in VARIABLES:
                with self.subTest(f"{name}: {variable}"):
                    self.assertEqual(
                        started(launcher, {variable: "7"}),
                        printed_with({**VARIABLES, variable: "7"}),
                    )

    def test_an_empty_variable_counts_as_not_set(self) -> None:
        for name, launcher in self.launchers.items():
            with self.subTest(name):
                self.assertEqual(
                    started(launcher, dict.fromkeys(VARIABLES, "")), printed_with(VARIABLES)
                )


class Units(unittest.TestCase):
    def test_each_that_starts_the_switch_sets_the_variables(self) -> None:
        found = 0
        for unit in sorted(
            (*(TOP / "examples").rglob("*.service"), *(TOP / "packaging").rglob("*.service"))
        ):
            text = unit.read_text(encoding="ascii")
            if re.search(r"^ExecStart=\S*bg_switch ", text, re.M):
                found += 1
                with self.subTest(unit.name):
                    self.assertEqual(
                        dict(re.findall(r"^Environment=(MALLOC_\w+)=(.*)$", text, re.M)), VARIABLES
                    )
        self.assertGreater(found, 0)


class Pages(unittest.TestCase):
    def test_each_starts_the_switch_by_a_launcher(self) -> None:
        files = [
            path
            for top in ("docs", "examples", "packaging")
            for path in (TOP / top).rglob("*")
            if path.is_file()
        ]
        found = 0
        for path in (TOP / "README.md", *files):
            for place in re.findall(rb"([\w./-]*bg_switch) serve --", path.read_bytes()):
                found += 1
                with self.subTest(path.relative_to(TOP)):
                    self.assertIn(place.decode(), LAUNCHERS)
        self.assertGreater(found, 3)


if __name__ == "__main__":
    unittest.main()
