"""Journals of a switch, as Python's sqlite3 reads them: their rows, and the report of the book that a
start has to resume from them by the rule."""
import contextlib
import os
import pathlib
import shutil
import sqlite3
import subprocess
import tempfile
from collections.abc import Iterator, Sequence
from typing import Literal

from support import TOP
from support.checks import check
from support.rule.book import report
from support.rule.entries import (
    ANALYSES,
    CLEANUPS,
    COMMANDS,
    RESULTS,
    STEPS,
    Available,
    Command,
    Deploy,
    Entry,
    Outcome,
    Template,
    Tick,
    Verdict,
    one_of,
)
from support.rule.history import History, Opening
from support.rule.journals import resumed
from support.rule.strategy import Strategy

# The files of a database, by what follows its path.
FILES = ("", "-wal")
# The first word of a row that says a bound of the numbers of requests.
BOUND = "requests"
OUTCOMES = (*STEPS, *CLEANUPS)
Failure = Literal["write", "flush"]


def texts_in(path: str) -> list[str]:
    """The texts of a journal that no process has open, the oldest first. A copy is read, so that the
    next start finds the files as the last one has left them."""
    with tempfile.TemporaryDirectory() as folder:
        for end in FILES:
            if os.path.exists(path + end):
                shutil.copy(path + end, f"{folder}/journal{end}")
        with contextlib.closing(sqlite3.connect(f"{folder}/journal")) as connection:
            faults = connection.execute("PRAGMA integrity_check").fetchall()
            check("sqlite3 finds no fault", faults, [("ok",)])
            rows = connection.execute("SELECT text FROM entries ORDER BY number").fetchall()
    return [text for (text,) in rows]


def is_bound(text: str) -> bool:
    return text.split(maxsplit=1)[:1] == [BOUND]


def rows_in(path: str) -> list[str]:
    """The first row of a journal that no process has open, and those of its orders."""
    return [text for text in texts_in(path) if not is_bound(text)]


def bounds_in(path: str) -> list[int]:
    """The bounds of the numbers of requests that a journal has, the oldest first."""
    return [int(text.split()[1]) for text in texts_in(path) if is_bound(text)]


def entry_of(line: str) -> Entry:
    """The entry that a line of a journal is."""
    match line.split():
        case ["tick", moment]:
            return Tick("tick", int(moment))
        case ["deploy", revision, name, *ports]:
            return Deploy("deploy", int(revision), name, tuple(ports))
        case ["available", revision, size]:
            return Available("available", int(revision), int(size))
        case ["verdict", analysis, result]:
            return Verdict("verdict", one_of(ANALYSES, analysis), one_of(RESULTS, result))
        case ["promote", "full"]:
            return Command("promote_full")
        case [word] if word in COMMANDS:
            return Command(one_of(COMMANDS, word))
        case [word, revision]:
            return Outcome(one_of(OUTCOMES, word), int(revision))
    raise ValueError(f"this is no line of an entry: {line!r}")


def events_in(rows: Sequence[str]) -> list[str]:
    """The lines of operators by which the orders of these rows came: each row has one event."""
    lines = (
        line for row in rows[1:] for line in row.splitlines() if line.split()[0] not in OUTCOMES
    )
    return [without_number(line) for line in lines]


def without_number(line: str) -> str:
    """The line of an operator; that of a journal has the number of a revision that is deployed."""
    match line.split():
        case ["deploy", _, *template]:
            return " ".join(("deploy", *template))
    return line


def report_by_rule(rows: Sequence[str], strategy: Strategy) -> str:
    """The report of the book that a start has to resume from these rows."""
    _, _, name, *ports = rows[0].splitlines()[-1].split()
    entries = tuple(entry_of(line) for row in rows[1:] for line in row.splitlines())
    history = History(Opening(strategy, Template(name, tuple(ports))), entries)
    return "".join(f"{line}\n" for line in report(resumed(history)))


class FailingDisk:
    """A disk that can be made to fail for the switches that have its `variables`."""

    def __init__(self, folder: str) -> None:
        built = pathlib.Path(folder) / "fail_disk.so"
        build_object(TOP / "scripts" / "fail_disk.c", built)
        self.flag = pathlib.Path(folder) / "failing"
        self.variables = {"LD_PRELOAD": str(built), "FAILING_DISK": str(self.flag)}

    @contextlib.contextmanager
    def fails(self, failure: Failure) -> Iterator[None]:
        """Each write or each flush fails meanwhile."""
        self.flag.write_text(failure, encoding="ascii")
        try:
            yield
        finally:
            self.flag.unlink()


def build_object(source: pathlib.Path, built: pathlib.Path) -> None:
    """Builds an object that is preloaded, by the kit's clang where there is no compiler else."""
    words = ["-O2", "-shared", "-fPIC", "-o", str(built), str(source)]
    if compiler := shutil.which(os.environ.get("CC", "cc")):
        subprocess.run([compiler, *words], check=True)
        return
    said = subprocess.run(["rt", "doc"], capture_output=True, text=True, check=True).stdout
    tools = pathlib.Path(said.strip()).parent / "toolchain"
    linked = ["-nostdlib", "-fuse-ld=lld", str(tools / "lib" / "libc.so.6")]
    subprocess.run([str(tools / "bin" / "clang"), *words, *linked], check=True)
