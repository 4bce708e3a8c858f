"""pyproject.toml: the version is that of the tools, each command is there, and the files of the
dashboard's page are named."""
import importlib
import pathlib
import re
import tomllib
import unittest

import bg_switch_tools
from tests.tool_runs import TOP

PROJECT = tomllib.loads((TOP / "pyproject.toml").read_text(encoding="utf-8"))
PACKAGE = TOP / "lib" / "bg_switch_tools"


class Project(unittest.TestCase):
    def test_the_version_is_read_from_the_tools(self) -> None:
        self.assertEqual(PROJECT["project"]["dynamic"], ["version"])
        module, _, name = PROJECT["tool"]["setuptools"]["dynamic"]["version"]["attr"].rpartition(
            "."
        )
        self.assertEqual(getattr(importlib.import_module(module), name), bg_switch_tools.VERSION)

    def test_each_command_is_that_of_the_debian_package(self) -> None:
        build = (TOP / "packaging" / "build.sh").read_text(encoding="utf-8")
        tools = re.findall(r"for tool in ([a-z ]+); do", build)[0].split()
        scripts = PROJECT["project"]["scripts"]
        self.assertEqual(set(scripts), {"bgctl", *(f"bg-{tool}" for tool in tools)})
        for name, place in scripts.items():
            with self.subTest(name):
                module, _, function = place.partition(":")
                self.assertEqual(function, name.removeprefix("bg-"))
                self.assertTrue(callable(getattr(importlib.import_module(module), function)))

    def test_each_file_that_is_no_module_is_in_the_package(self) -> None:
        data = PROJECT["tool"]["setuptools"]["package-data"]
        named = {
            path
            for package, patterns in data.items()
            for pattern in patterns
            for path in PACKAGE.joinpath(*package.split(".")[1:]).glob(pattern)
        }
        others = {
            path
            for path in PACKAGE.rglob("*")
            if path.is_file() and path.suffix not in (".py", ".pyc")
        }
        self.assertEqual(others - named, set())

    def test_the_python_is_that_of_the_debian_package(self) -> None:
        least = PROJECT["project"]["requires-python"].removeprefix(">=")
        control = pathlib.Path(TOP, "packaging", "debian", "control").read_text(encoding="utf-8")
        self.assertIn(f"python3 (>= {least})", control)


if __name__ == "__main__":
    unittest.main()
