"""Judges what the built programs do if one of their requests for memory is refused: see
scripts/refused_memory.sh, which builds what this needs.

usage: scripts/refused_memory.py REFUSER [ROW..]

REFUSER is scripts/refuse_memory.c as a shared object. With rows, e.g. rows/many_revisions, only
these are played.
"""
import collections
import concurrent.futures
import dataclasses
import difflib
import functools
import io
import itertools
import multiprocessing
import os
import pathlib
import re
import subprocess
import sys
from collections.abc import Iterator, Sequence

TOP = pathlib.Path(__file__).resolve().parents[1]
SWITCH = TOP / "crates" / "bg_switch" / "out" / "bg_switch"
CALLERS = TOP / "crates" / "bg_tests_refused_memory"
# The descriptor on which the refuser tells that it has refused a request.
REPORT = 9
OUT_OF_MEMORY = re.compile(rb"(?:fault|refused) OutOfMemory\n?")
NOTICE = b"bg_switch: "  # begins a line that a person is told beside the replies
SHOWN = 40  # lines of a difference


@dataclasses.dataclass(frozen=True)
class Run:
    """What a run has written, its status, and whether the request was made, and so refused."""

    status: int
    replies: bytes
    complaint: bytes
    was_refused: bool


@dataclasses.dataclass
class Verdicts:
    """How many checks have passed, and what the others say."""

    passed: int = 0
    failed: list[str] = dataclasses.field(default_factory=list)

    def judge(self, what: str, holds: bool, why: str = "") -> None:
        if holds:
            self.passed += 1
        else:
            self.failed.append(f"FAILED: {what}\n{why}".rstrip())

    def add(self, others: "Verdicts") -> None:
        self.passed += others.passed
        self.failed += others.failed


class Files:
    """Files in memory, one for each stream of a run. A run after the other uses them."""

    def __init__(self) -> None:
        self.given, self.replies, self.complaint, self.report = (
            os.memfd_create(name) for name in ("given", "replies", "complaint", "report")
        )

    def run(self, words: list[str], given: bytes, environment: dict[str, str]) -> Run:
        """Runs a program to its end."""
        for file in (self.given, self.replies, self.complaint, self.report):
            os.truncate(file, 0)
            os.lseek(file, 0, os.SEEK_SET)
        os.pwrite(self.given, given, 0)
        streams = ((self.given, 0), (self.replies, 1), (self.complaint, 2), (self.report, REPORT))
        process = os.posix_spawn(
            words[0],
            words,
            environment,
            file_actions=[(os.POSIX_SPAWN_DUP2, *pair) for pair in streams],
        )
        status = os.waitstatus_to_exitcode(os.waitpid(process, 0)[1])
        return Run(status, whole(self.replies), whole(self.complaint), whole(self.report) != b"")


def whole(file: int) -> bytes:
    return os.pread(file, os.fstat(file).st_size, 0)


@functools.cache
def files() -> Files:
    """The files of this process."""
    return Files()


def lines_of(text: bytes) -> list[bytes]:
    """The lines of a text, each with its end; only a line feed ends one."""
    return io.BytesIO(text).readlines()


def refuse(refuser: str, request: int, words: list[str], given: bytes = b"") -> Run:
    """Runs a program with this request for memory refused, the first of which is 1."""
    return files().run(
        words, given, {**os.environ, "REFUSED_REQUEST": str(request), "LD_PRELOAD": refuser}
    )


# ---- the calls of the libraries ----


def refuse_to_callers(refuser: str, request: int) -> Run:
    return refuse(refuser, request, [str(CALLERS / "out" / CALLERS.name)])


def runs_of_callers(pool: concurrent.futures.Executor, refuser: str, at_once: int) -> Iterator[Run]:
    """The runs with the first request refused, with the second, and so on, up to the first whose
    request is not made."""
    runs: collections.deque[concurrent.futures.Future[Run]] = collections.deque()
    for request in itertools.count(1):
        runs.append(pool.submit(refuse_to_callers, refuser, request))
        if len(runs) == at_once:
            run = runs.popleft().result()
            yield run
            if not run.was_refused:
                return


def calls(word: str, lines: Sequence[bytes]) -> set[bytes]:
    """The calls that lines name behind this word."""
    return {
        line.removeprefix(word.encode()).strip() for line in lines if line.startswith(word.encode())
    }


def judge_callers(pool: concurrent.futures.Executor, refuser: str, at_once: int) -> Verdicts:
    """Whichever request is refused, the program writes the very same; and each call that it makes
    was refused in some run."""
    verdicts = Verdicts()
    stored = (CALLERS / "stdout").read_bytes()
    told: list[bytes] = []
    for request, run in enumerate(runs_of_callers(pool, refuser, at_once), 1):
        what = f"request {request} refused" if run.was_refused else "ample memory"
        is_as_stored = run.status == 0 and run.replies == stored
        verdicts.judge(
            f"{CALLERS.name} with {what}",
            is_as_stored,
            f"status {run.status}\n{difference(stored, run.replies)}",
        )
        if run.was_refused:
            told += lines_of(run.complaint)
    made, refused = calls("made ", lines_of(stored)), calls("refused ", told)
    verdicts.judge(
        "the calls that were made and those that were refused",
        made == refused,
        f"only one has: {sorted(made ^ refused)}",
    )
    return verdicts


def difference(stored: bytes, replies: bytes) -> str:
    before, after = (text.decode(errors="replace").splitlines() for text in (stored, replies))
    return "\n".join(
        itertools.islice(
            difflib.unified_diff(before, after, "stored", "written", n=0, lineterm=""), SHOWN
        )
    )


# ---- the rows of the switch ----


class Row:
    """A worked row, and how it is judged if a request is refused."""

    def __init__(self, path: pathlib.Path) -> None:
        self.name = str(path.relative_to(TOP))
        self.words = [str(SWITCH), *(path / "command").read_text(encoding="ascii").split()]
        self.given = (path / "input").read_bytes()
        self.status = int((path / "status").read_text(encoding="ascii"))
        self.replies = subprocess.run(
            [TOP / "scripts" / "row_replies.sh", self.name],
            cwd=TOP,
            capture_output=True,
            check=True,
        ).stdout
        self.runs_without: dict[int, Run] = {}

    def run_without(self, place: int) -> Run:
        """A run with ample memory, without the line of the script at this place, from 1."""
        if place not in self.runs_without:
            lines = lines_of(self.given)
            script = next(
                (
                    number
                    for number, line in enumerate(lines, 1)
                    if line.rstrip(b"\n").removesuffix(b"\r") == b"---"
                ),
                0,
            )
            del lines[script + place - 1 : script + place]
            self.runs_without[place] = files().run(self.words, b"".join(lines), dict(os.environ))
        return self.runs_without[place]

    def has_said_so(self, run: Run) -> bool:
        return self.has_ended(run) or self.has_refused_a_line(run) or self.is_as_ever(run)

    def has_ended(self, run: Run) -> bool:
        """The run has ended for want of memory, and what it wrote until then is the row's."""
        return (
            run.status == 1
            and run.complaint == b"OutOfMemory\n"
            and self.replies.startswith(run.replies)
        )

    def has_refused_a_line(self, run: Run) -> bool:
        """One line was refused, and all others are answered as in a run without that line and with
        ample memory."""
        place = place_refused(run.replies)
        if place is None or not has_no_complaint(run):
            return False
        without, lines = self.run_without(place), lines_of(run.replies)
        status = (
            1 if b"fault OutOfMemory" in (line.rstrip(b"\n") for line in lines) else without.status
        )
        return (
            run.status == status
            and b"".join(line for line in lines if not OUT_OF_MEMORY.fullmatch(line))
            == without.replies
        )

    def is_as_ever(self, run: Run) -> bool:
        return has_no_complaint(run) and run.status == self.status and run.replies == self.replies


def has_no_complaint(run: Run) -> bool:
    """On standard error stands nothing, or only what a person is told beside the replies."""
    return all(line.startswith(NOTICE) for line in lines_of(run.complaint))


def place_refused(replies: bytes) -> int | None:
    """The place of the one reply that says OutOfMemory, from 1; a report is one reply, though of
    many lines."""
    place, is_report, found = 0, False, []
    for line in lines_of(replies):
        place += not is_report
        is_report = (is_report or line.startswith(b"moment ")) and line.rstrip(b"\n") != b"end"
        if OUT_OF_MEMORY.fullmatch(line):
            found.append(place)
    return found[0] if len(found) == 1 else None


def judge_row(refuser: str, path: pathlib.Path) -> Verdicts:
    """The switch ends with `OutOfMemory` on standard error, or answers one line by `OutOfMemory`
    and all others as without that line, or does as ever."""
    verdicts, row = Verdicts(), Row(path)
    for request in itertools.count(1):
        run = refuse(refuser, request, row.words, row.given)
        if not run.was_refused:
            verdicts.judge(
                f"{row.name} with ample memory, after {request - 1} requests", row.is_as_ever(run)
            )
            verdicts.judge(f"{row.name} makes requests", request > 1)
            return verdicts
        verdicts.judge(f"{row.name} with request {request} refused", row.has_said_so(run))
    raise AssertionError("no end of the requests")


def main(refuser: str, *rows: str) -> int:
    at_once = len(os.sched_getaffinity(0))
    verdicts = Verdicts()
    with concurrent.futures.ProcessPoolExecutor(
        at_once, multiprocessing.get_context("fork")
    ) as pool:
        paths = [TOP / row for row in rows] or sorted((TOP / "rows").iterdir())
        judged = [pool.submit(judge_row, refuser, path) for path in paths]
        if not rows:
            verdicts.add(judge_callers(pool, refuser, at_once))
        for one in judged:
            verdicts.add(one.result())
    print(
        *verdicts.failed,
        f"refused_memory: {verdicts.passed} passed, {len(verdicts.failed)} failed",
        sep="\n",
    )
    return 1 if verdicts.failed else 0


if __name__ == "__main__":
    sys.exit(main(*sys.argv[1:]))
