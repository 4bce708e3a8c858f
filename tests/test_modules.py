"""The packages of the tools: their imports go one way, no two modules import one another, and
docs/TOOLS.md lists each. The names of exceptions end in Error."""
import ast
import builtins
import graphlib
import pathlib
import tempfile
import unittest

from bg_switch_tools.bgctl.tools import TOOLS
from tests.tool_runs import TOP
from tools.module_map import (
    BELOW,
    BELOW_INSIDE,
    LIBRARY,
    PAGE,
    TABLE,
    Module,
    folders,
    imported,
    modules,
    page_with,
    sentence_of,
    table,
    wrong_imports,
    wrong_imports_inside,
)

MEND = "run tools/module_map.py --write"
LONGEST_SENTENCE = 200


class Imports(unittest.TestCase):
    def test_they_go_one_way(self) -> None:
        self.assertEqual(wrong_imports(), [])

    def test_each_package_is_named(self) -> None:
        packages = {path.parent.name for path in LIBRARY.glob("*/__init__.py")}
        self.assertEqual(set(BELOW), packages)
        self.assertEqual([path.name for path in LIBRARY.glob("*.py")], ["__init__.py"])

    def test_each_module_is_in_a_folder_that_is_named(self) -> None:
        named = {folder for package in BELOW for folder in folders(package)}
        found = {str(path.parent.relative_to(LIBRARY)) for path in LIBRARY.rglob("*.py")}
        self.assertEqual(found - {"."}, named)
        for folder in named:
            self.assertTrue((LIBRARY / folder / "__init__.py").is_file(), folder)

    def test_what_a_package_imports_stands_before_it(self) -> None:
        for rows in (BELOW, *BELOW_INSIDE.values()):
            names = list(rows)
            for place, below in enumerate(rows.values()):
                self.assertLessEqual(set(below), set(names[:place]))

    def test_they_go_one_way_inside_a_package(self) -> None:
        self.assertEqual(wrong_imports_inside(), [])

    def test_no_two_modules_import_one_another(self) -> None:
        """A cycle would end `prepare` with a fault."""
        graph = {
            Module(package, folder.partition("/")[2], path.stem): {
                other for other in imported(path) if other.name
            }
            for package in BELOW
            for folder in folders(package)
            for path in modules(folder)
        }
        self.assertEqual(
            len(graph), len([*LIBRARY.rglob("*.py")]) - len([*LIBRARY.rglob("__init__.py")])
        )
        graphlib.TopologicalSorter(graph).prepare()

    def test_an_import_that_goes_up_is_found(self) -> None:
        with tempfile.TemporaryDirectory() as folder:
            library = pathlib.Path(folder)
            for package in BELOW:
                (library / package).mkdir()
            (library / "switch" / "a.py").write_text(
                "def f() -> None:\n    from bg_switch_tools.bgctl import cli\n", encoding="ascii"
            )
            (library / "fleet" / "b.py").write_text(
                "import bg_switch_tools.switch.a\nfrom bg_switch_tools.bgctl.c import D\n",
                encoding="ascii",
            )
            self.assertEqual(wrong_imports(library), ["switch/a.py: bgctl", "fleet/b.py: bgctl"])

    def test_an_import_that_goes_up_inside_a_package_is_found(self) -> None:
        with tempfile.TemporaryDirectory() as folder:
            library = pathlib.Path(folder)
            for name, text in (
                ("fleet/cli.py", "from bg_switch_tools.fleet.person import wait\n"),
                ("fleet/exit_statuses.py", "from bg_switch_tools.switch import frame\n"),
                ("fleet/store/a.py", "from bg_switch_tools.fleet.plan import b\n"),
                ("fleet/plan/b.py", "import bg_switch_tools.fleet.store.a\n"),
                ("fleet/person/c.py", "from bg_switch_tools.fleet.agent.d import E\n"),
                ("fleet/agent/d.py", "from bg_switch_tools.fleet import cli, exit_statuses\n"),
            ):
                (library / name).parent.mkdir(parents=True, exist_ok=True)
                (library / name).write_text(text, encoding="ascii")
            self.assertEqual(
                wrong_imports_inside(library),
                [
                    "fleet/store/a.py: fleet.plan",
                    "fleet/agent/d.py: fleet.cli",
                    "fleet/person/c.py: fleet.agent",
                ],
            )


def unfit_statements(path: pathlib.Path) -> list[str]:
    """The statements of a module that no tool may have: python -O drops an `assert`, and `os._exit`
    ends without what is left."""
    found = []
    for node in ast.walk(ast.parse(path.read_text(encoding="utf-8"))):
        if isinstance(node, ast.Assert):
            found.append(f"{path.name}:{node.lineno}: assert")
        elif isinstance(node, ast.Attribute) and node.attr == "_exit":
            found.append(f"{path.name}:{node.lineno}: _exit")
    return found


class Statements(unittest.TestCase):
    def test_no_tool_asserts_or_ends_at_once(self) -> None:
        self.assertEqual(
            [each for path in (TOP / "lib").rglob("*.py") for each in unfit_statements(path)], []
        )

    def test_what_is_unfit_is_found(self) -> None:
        with tempfile.TemporaryDirectory() as folder:
            path = pathlib.Path(folder, "a.py")
            path.write_text("import os\nassert os\nos._exit(0)\n", encoding="ascii")
            self.assertEqual(unfit_statements(path), ["a.py:2: assert", "a.py:3: _exit"])


def is_exception(name: str) -> bool:
    """Whether a class of this name is an exception: one of Python's own, or by its ending."""
    found = getattr(builtins, name, None)
    is_own = isinstance(found, type) and issubclass(found, BaseException)
    return is_own or name.endswith(("Error", "Exception"))


def other_exceptions(text: str) -> list[str]:
    """The exceptions of a source whose names do not end in Error."""
    return [
        node.name
        for node in ast.walk(ast.parse(text))
        if isinstance(node, ast.ClassDef)
        and any(is_exception(ast.unparse(base).split(".")[-1]) for base in node.bases)
        and not node.name.endswith("Error")
    ]


class Exceptions(unittest.TestCase):
    def test_their_names_end_in_error(self) -> None:
        found = {
            str(path.relative_to(TOP)): names
            for folder in ("lib", "scripts", "tests", "bench", "model")
            for path in (TOP / folder).rglob("*.py")
            if (names := other_exceptions(path.read_text(encoding="utf-8")))
        }
        self.assertEqual(found, {})

    def test_another_name_is_found(self) -> None:
        text = "class A(OSError): pass\nclass BError(c.DError): pass\nclass E(c.DError): pass\n"
        self.assertEqual(other_exceptions(text + "class F(unittest.TestCase): pass\n"), ["A", "E"])


def calls(path: pathlib.Path) -> set[str]:
    """The names of the methods and functions of modules that a module calls: `a.b()` is `b`."""
    nodes = ast.walk(ast.parse(path.read_text(encoding="utf-8")))
    return {
        node.func.attr
        for node in nodes
        if isinstance(node, ast.Call) and isinstance(node.func, ast.Attribute)
    }


class Words(unittest.TestCase):
    """No tool makes words that another tool then reads."""

    def modules_that_call(self, *names: str) -> set[str]:
        return {
            str(path.relative_to(LIBRARY))
            for path in LIBRARY.rglob("*.py")
            if calls(path) & set(names)
        }

    def test_each_command_line_is_read_by_its_tool_alone(self) -> None:
        self.assertEqual(
            self.modules_that_call("parse_args", "parse_intermixed_args", "parse_known_args"),
            {f"{tool}/cli.py" for tool in TOOLS},
        )

    def test_a_tool_is_run_by_its_name_alone(self) -> None:
        self.assertEqual(self.modules_that_call("main"), {"bgctl/tools.py"})


class Listed(unittest.TestCase):
    def test_the_page_has_the_table(self) -> None:
        page = PAGE.read_text(encoding="utf-8")
        self.assertEqual(len(TABLE.findall(page)), 1)
        self.assertEqual(page, page_with(page, table()), MEND)

    def test_each_sentence_is_short(self) -> None:
        for path in LIBRARY.rglob("*.py"):
            with self.subTest(path.relative_to(LIBRARY)):
                self.assertLessEqual(len(sentence_of(path)), LONGEST_SENTENCE)


if __name__ == "__main__":
    unittest.main()
