"""A table of invocations of bgctl and of its alias bin/operator: the words of each, what it prints
and tells, what its switch is sent, and its exit status. tests/bgctl_invocations.txt has the table.

python3 -m tests.test_bgctl_invocations --write puts in what comes now: each difference is then to be
judged, as a change of what users see."""
import collections
import dataclasses
import re
import shlex
import sys
import tempfile
import unittest
from collections.abc import Callable, Iterator

from bg_switch_tools.bgctl.commands import NAMES
from bg_switch_tools.bgctl.exit_statuses import FAULT, TABLE
from support.processes import Run
from tests.bgctl_places import MAINS, PLACES, at
from tests.tool_runs import TOP

FILE = TOP / "tests" / "bgctl_invocations.txt"
LEAST = 154  # invocations of bgctl
HELP = " --help"
USAGE = re.compile(r"\{usage (.*?)\}\n")
VARIABLE = re.compile(r"([A-Z_]+)=(.*)")
MARKS = "<>!?="


@dataclasses.dataclass
class Invocation:
    """A row of the table: its line, and by the marks of the lines below it the texts of these."""

    place: str
    line: str
    texts: dict[str, str] = dataclasses.field(default_factory=lambda: dict.fromkeys(MARKS, ""))

    def split(self) -> tuple[dict[str, str], list[str]]:
        """The variables of the environment before the tool, and the words from the tool on."""
        variables, words = {}, shlex.split(self.line)
        while found := VARIABLE.fullmatch(words[0]):
            variables[found[1]] = found[2]
            del words[0]
        return variables, words

    @property
    def command(self) -> str:
        """The command of bgctl that it names; empty if it names none."""
        words = self.split()[1]
        return next((word for word in words[1:] if word in NAMES), "")

    @property
    def status(self) -> int:
        return int(self.texts["="])


def rows(text: str) -> Iterator[Invocation]:
    """The rows of a table. `ValueError` if a line is not part of it."""
    place, row = "", None
    for number, line in enumerate(text.splitlines(), 1):
        mark, rest = line[:1], line[2:]
        if line.startswith("== "):
            place, row = rest.strip(), None
        elif mark == "$":
            row = Invocation(place, rest)
            yield row
        elif row is not None and mark and mark in MARKS:
            row.texts[mark] += f"{rest}\n"
        elif line and mark != "#":
            raise ValueError(f"line {number} is none of a table: {line}")


ROWS = list(rows(FILE.read_text(encoding="utf-8")))


def usages() -> dict[str, str]:
    """By the names of the commands, and by `bgctl`: the usage with which the help begins."""
    return {
        row.line.removesuffix(HELP).removeprefix(
            "bgctl "
        ): f"{row.texts['>'].split(2 * chr(10))[0]}\n"
        for row in ROWS
        if row.line.endswith(HELP)
    }


def expected(row: Invocation) -> tuple[Run, str]:
    """What the table says of a row: the run, and what the switch is sent."""
    known = usages()
    told = USAGE.sub(lambda found: known[found[1]], row.texts["!"])
    return Run(row.texts[">"], told, row.status), row.texts["?"]


def came(row: Invocation) -> tuple[Run, str]:
    """What comes of a row."""
    with tempfile.TemporaryDirectory() as folder, at(row.place, folder) as place:
        variables, words = row.split()
        place.variables |= {name: place.filled(value) for name, value in variables.items()}
        run = place.run(words[0], words[1:], row.texts["<"])
        return run, place.masked("".join(f"{line}\n" for line in place.sent()))


def test_of(place: str) -> "Callable[[Invocations], None]":
    """A test of the rows of a place."""

    def test(self: "Invocations") -> None:
        for row in ROWS:
            if row.place == place:
                with self.subTest(row.line):
                    self.assertEqual(came(row), expected(row))

    return test


class Invocations(unittest.TestCase):
    """Runs each row of the table, in a test for each place."""

    maxDiff = None


for name in PLACES:
    setattr(Invocations, f"test_at_{re.sub('[^a-z]+', '_', name.lower())}", test_of(name))


class Table(unittest.TestCase):
    """What the table has to have."""

    def of(self, tool: str) -> list[Invocation]:
        return [row for row in ROWS if row.split()[1][0] == tool]

    def test_there_are_enough_rows_and_none_twice(self) -> None:
        self.assertGreaterEqual(len(self.of("bgctl")), LEAST)
        self.assertEqual(len(self.of("bgctl")) + len(self.of("operator")), len(ROWS))
        counted = collections.Counter(
            (row.place, tuple(row.split()[1]), *sorted(row.split()[0].items()), row.texts["<"])
            for row in ROWS
        )
        self.assertEqual([row for row, count in counted.items() if count > 1], [])

    def test_each_place_has_rows_and_each_row_has_a_place(self) -> None:
        self.assertEqual({row.place for row in ROWS}, set(PLACES))
        self.assertEqual(set(MAINS), {row.split()[1][0] for row in ROWS})

    def test_each_command_has_rows_that_succeed_and_that_do_not(self) -> None:
        found = {(row.command, row.status == 0) for row in ROWS if not row.line.endswith(HELP)}
        # these run on until a signal comes, need an endless log or a library, or refuse nothing
        longer = {("watch", True), ("controller", True), ("analysis", True), ("dashboard", True)}
        self.assertEqual(
            {(name, succeeds) for name in NAMES for succeeds in (True, False)} - found, longer
        )

    def test_each_command_has_its_help(self) -> None:
        self.assertLessEqual({f"bgctl {name}{HELP}" for name in NAMES}, {row.line for row in ROWS})

    def test_each_exit_status_has_a_row(self) -> None:
        self.assertEqual({row.status for row in ROWS} | {FAULT}, {status for status, _ in TABLE})

    def test_each_row_says_something(self) -> None:
        """Only a switch without a line to send may be told nothing at all."""
        silent = [row.line for row in ROWS if not any(row.texts[mark] for mark in ">!?")]
        self.assertEqual(silent, ["operator 8082", "operator {control}"])

    def test_a_failure_is_told(self) -> None:
        """On standard error, but for problems of a plan or a line of the analysis, and states."""
        for row in ROWS:
            if row.status not in (0, 130) and row.command not in ("status", "check", "analysis"):
                with self.subTest(row.line):
                    self.assertRegex(row.texts["!"], "(?m)^(bgctl|operator|controller)[ a-z]*: ")

    def test_what_is_none_of_a_table_is_found(self) -> None:
        with self.assertRaisesRegex(ValueError, "line 2 is none of a table: % 0"):
            list(rows("$ bgctl\n% 0\n"))


def marked(mark: str, text: str) -> str:
    """A text as the table has it: the mark stands before each of its lines."""
    return "".join(f"{mark} {line}".rstrip() + "\n" for line in text.split("\n")[:-1])


def with_usages(told: str, known: dict[str, str]) -> str:
    """A text in which the names of usages stand for them."""
    for name, usage in known.items():
        told = told.replace(usage, f"{{usage {name}}}\n")
    return told


def rewritten(text: str) -> str:
    """The table with what comes of each of its rows now."""
    lines, left = [], iter(ROWS)
    for line in text.splitlines():
        if line.startswith("$ "):
            row = next(left)
            run, sent = came(row)
            told = with_usages(run.told, usages())
            texts = (("<", row.texts["<"]), (">", run.printed), ("!", told), ("?", sent))
            lines.append(f"{line}\n{''.join(marked(*each) for each in texts)}= {run.status}\n")
        elif not line or line.startswith("== ") or line[0] not in MARKS:
            lines.append(f"{line}\n")
    return "".join(lines)


if __name__ == "__main__":
    if sys.argv[1:] == ["--write"]:
        FILE.write_text(rewritten(FILE.read_text(encoding="utf-8")), encoding="utf-8")
    else:
        unittest.main()
