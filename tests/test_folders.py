"""Each script stands in the folder of its kind: scripts/ writes no file of the repository, tools/
has what does, and scripts/live.sh runs each check of tests/live."""
import ast
import pathlib
import re
import subprocess
import unittest
from collections.abc import Iterator

from tests.tool_runs import TOP

SCRIPTS, TOOLS, LIVE = TOP / "scripts", TOP / "tools", TOP / "tests" / "live"
LEAST_LIVE_CHECKS = 25
LEAST_PATHS = 100
PATH = re.compile(r"(?<![\w/.])(?:scripts|tools|tests)/[\w./*-]*\.(?:py|sh|c|txt)\b")
# What an earlier version had, and the examples below.
OTHERWISE = ("CHANGELOG.md", "tests/test_folders.py")
WRITING = ("write_text", "write_bytes")
OPTION = "--write"


def of_repository(tree: ast.Module) -> set[str]:
    """The constants of a source that are places in the repository."""
    found = {"TOP", "ROOT"}
    for node in tree.body:
        if isinstance(node, ast.Assign):
            used = {each.id for each in ast.walk(node.value) if isinstance(each, ast.Name)}
            if used & {"__file__", *found}:
                found |= {
                    each.id
                    for target in node.targets
                    for each in ast.walk(target)
                    if isinstance(each, ast.Name)
                }
    return found


def writes(text: str) -> bool:
    """Whether a Python source writes a file of the repository: a text of it has the word `--write`,
    or it writes to a constant that is a place in the repository."""
    tree = ast.parse(text)
    places = of_repository(tree)
    return any(
        isinstance(node, ast.Constant)
        and isinstance(node.value, str)
        and OPTION in node.value
        or isinstance(node, ast.Call)
        and isinstance(node.func, ast.Attribute)
        and node.func.attr in WRITING
        and bool({each.id for each in ast.walk(node.func) if isinstance(each, ast.Name)} & places)
        for node in ast.walk(tree)
    )


def writers(folder: pathlib.Path) -> list[str]:
    """The sources of a folder, and of the folders in it, that write files of the repository."""
    return sorted(
        str(path.relative_to(folder))
        for path in folder.rglob("*.py")
        if writes(path.read_text(encoding="utf-8"))
    )


class Writers(unittest.TestCase):
    def test_scripts_has_none(self) -> None:
        self.assertEqual(writers(SCRIPTS), [], "what writes files of the repository is in tools/")

    def test_tools_has_them(self) -> None:
        self.assertEqual(
            writers(TOOLS),
            [
                "changed_histories.py",
                "crate_map.py",
                "definitions.py",
                "fleet_schema.py",
                "module_map.py",
                "plan_schema.py",
            ],
        )

    def test_what_writes(self) -> None:
        top = "TOP = pathlib.Path(__file__).parents[1]\n"
        for text, does in (
            (f"{top}PAGE = TOP / 'docs' / 'A.md'\nPAGE.write_text('')\n", True),
            (f"{top}PAGE = TOP / 'docs' / 'A.md'\nPAGE.read_text()\n", False),
            (f"{top}(TOP / 'docs' / 'A.md').write_bytes(b'')\n", True),
            ("HERE = pathlib.Path(__file__).parent\n(HERE / 'a').write_text('')\n", True),
            ("PLAN = pathlib.Path('/tmp/plan')\nPLAN.write_text('')\n", False),
            ("def made(room):\n    (room / 'a').write_text('')\n", False),
            ("if sys.argv[1:] == ['--write']:\n    pass\n", True),
            ('"""usage: a.py --write"""\n', True),
            ("if sys.argv[1:] == ['--read']:\n    pass\n", False),
        ):
            with self.subTest(text):
                self.assertEqual(writes(text), does)


class Live(unittest.TestCase):
    def setUp(self) -> None:
        self.names = sorted(path.stem for path in LIVE.glob("*.py") if path.stem != "__init__")

    def test_live_sh_runs_each_one_once(self) -> None:
        text = (SCRIPTS / "live.sh").read_text(encoding="utf-8")
        parts = re.findall(r"^(?:parts|alone)='([^']*)'$", text, re.M)
        self.assertEqual(len(parts), 2)
        self.assertEqual(sorted(" ".join(parts).split()), self.names)
        self.assertGreaterEqual(len(self.names), LEAST_LIVE_CHECKS)

    def test_the_tests_of_the_tools_pass_them_over(self) -> None:
        found = unittest.TestLoader().discover(str(LIVE), top_level_dir=str(TOP))
        self.assertEqual(found.countTestCases(), 0)

    def test_scripts_has_none(self) -> None:
        self.assertEqual(list(SCRIPTS.rglob("live*.py")), [])


def missing_paths(top: pathlib.Path, text: str) -> list[str]:
    """The paths of files in scripts/, tools/ and tests/ that a text names in vain."""
    return sorted({path for path in PATH.findall(text) if not any(top.glob(path))})


def naming() -> Iterator[str]:
    """The files of text that name something in these folders, as paths from the top. The crates are
    left out, since a change of a source is proved again."""
    words = ["git", "grep", "-IlE", "(scripts|tools|tests)/", "--", ":!crates"]
    listed = subprocess.run(words, cwd=TOP, capture_output=True, text=True, check=True).stdout
    yield from (file for file in listed.splitlines() if file not in OTHERWISE)


class Paths(unittest.TestCase):
    def test_each_that_is_named_is_there(self) -> None:
        count = 0
        for file in naming():
            text = (TOP / file).read_text(encoding="utf-8")
            count += len(PATH.findall(text))
            with self.subTest(file):
                self.assertEqual(missing_paths(TOP, text), [])
        self.assertGreater(count, LEAST_PATHS)

    def test_what_is_missing_is_found(self) -> None:
        text = "`scripts/live.sh`, scripts/live_*.py, tests/live/live_*.py and tools/no_map.py --write."
        self.assertEqual(missing_paths(TOP, text), ["scripts/live_*.py", "tools/no_map.py"])


if __name__ == "__main__":
    unittest.main()
