"""What the analyses of an attempt come to, each with the last lines that its command has printed."""
import contextlib
import dataclasses
import json
import os
import time
from collections.abc import Sequence

from bg_switch_tools.controller.state.state_file import SUFFIX
from bg_switch_tools.switch.json_values import NAME, JsonObject, decoded
from bg_switch_tools.switch.lines import AnalysisKind, VerdictResult

ANALYSES = ".analyses"
KINDS = tuple(AnalysisKind)
RUNNING, SUCCESSFUL, FAILED, ERROR, STOPPED = (
    "running",
    VerdictResult.SUCCESSFUL,
    VerdictResult.FAILED,
    VerdictResult.ERROR,
    "stopped",  # before its end: it has no result of its own
)
RESULTS = (RUNNING, SUCCESSFUL, FAILED, ERROR, STOPPED)
MOST_LINES, LONGEST_LINE = 3, 200  # characters of each of the last lines that are kept
LONGEST_REASON = 200  # characters
MOST_RESULTS = 64
LARGEST = 1 << 18  # bytes of the file
PAUSE = 1.0  # seconds between two writes for new lines alone


@dataclasses.dataclass(frozen=True)
class AnalysisResult:
    """What an analysis comes to. `analysis` is `pre` or `post`; `name` is empty if the plan has one
    command for it. `reason` says why it is an error, or why it was stopped. `last` are the last
    lines that it has printed."""

    analysis: str
    name: str = ""
    result: str = RUNNING
    reason: str = ""
    last: tuple[str, ...] = ()

    def at_the_end(self) -> "AnalysisResult":
        """The same, once its attempt has ended: nothing runs any more."""
        return dataclasses.replace(self, result=STOPPED) if self.result == RUNNING else self

    def as_json(self) -> dict[str, object]:
        return {**dataclasses.asdict(self), "last": list(self.last)}

    def title(self) -> str:
        return f"{self.analysis} {self.name}".rstrip()

    def outcome(self) -> str:
        """Its result with the reason, and the last lines."""
        text = ", ".join(filter(None, (self.result, self.reason)))
        return f"{text}: {' / '.join(self.last)}" if self.last else text


def read_result(value: object) -> AnalysisResult | None:
    """The result of a value of JSON; None if the value is not a result."""
    if not isinstance(value, dict):
        return None
    texts = [value.get(key, "") for key in ("analysis", "name", "result", "reason")]
    analysis, name, result, reason = (
        text if isinstance(text, str) and text.isprintable() else "" for text in texts
    )
    if analysis not in KINDS or result not in RESULTS or name and not NAME.fullmatch(name):
        return None
    lines = value.get("last")
    last = [line for line in lines if isinstance(line, str)] if isinstance(lines, list) else []
    return AnalysisResult(
        analysis,
        name,
        result,
        reason[:LONGEST_REASON],
        tuple(line[:LONGEST_LINE] for line in last[-MOST_LINES:] if line.isprintable()),
    )


def read_results(value: object) -> tuple[AnalysisResult, ...]:
    """The results of a list of JSON, without the values that are not results."""
    found = [read_result(one) for one in value[:MOST_RESULTS]] if isinstance(value, list) else []
    return tuple(result for result in found if result)


@dataclasses.dataclass(frozen=True)
class AttemptResults:
    """The results of the attempt of this revision. `how` says how it has ended; empty while it
    runs."""

    revision: str = ""
    number: int = 0
    how: str = ""
    analyses: tuple[AnalysisResult, ...] = ()

    def is_of(self, revision: str, number: int) -> bool:
        return (self.revision, self.number) == (revision, number)

    def as_json(self) -> dict[str, object]:
        return {
            "revision": self.revision,
            "number": self.number,
            "how": self.how,
            "analyses": [result.as_json() for result in self.analyses],
        }

    def lines(self) -> list[str]:
        """A line for each analysis."""
        return [
            f"analysis {result.title()} of {self.revision}: {result.outcome()}"
            for result in self.analyses
        ]

    def ended(self, how: str) -> "AttemptResults":
        results = tuple(result.at_the_end() for result in self.analyses)
        return dataclasses.replace(self, how=how, analyses=results)

    def with_results(self, kind: str, results: Sequence[AnalysisResult]) -> "AttemptResults":
        """The same with these results of `pre` or `post`, in the place of those before."""
        others = [result for result in self.analyses if result.analysis != kind]
        return dataclasses.replace(self, analyses=(*others, *results))

    def without_lines(self) -> "AttemptResults":
        results = tuple(dataclasses.replace(result, last=()) for result in self.analyses)
        return dataclasses.replace(self, analyses=results)


class ResultsFile:
    """The file `PLAN.state.analyses`: the results of the attempt that was the newest last. Nothing
    rests on it but what is shown, and noted in the history."""

    def __init__(self, plan_path: str) -> None:
        self.path = plan_path + SUFFIX + ANALYSES

    def read(self) -> AttemptResults:
        """The results; empty if the file does not exist, or has no results."""
        try:
            with open(self.path, "rb") as file:
                value = decoded(file.read(LARGEST))
        except (OSError, ValueError):
            return AttemptResults()
        if not isinstance(value, JsonObject):
            return AttemptResults()
        revision, number, how = (value.get(key) for key in ("revision", "number", "how"))
        if not isinstance(revision, str) or not NAME.fullmatch(revision) or type(number) is not int:
            return AttemptResults()
        known = how if isinstance(how, str) and how.isprintable() else ""
        return AttemptResults(revision, number, known, read_results(value.get("analyses")))

    def write(self, results: AttemptResults) -> None:
        """Puts the file in place for all to read, without waiting for the disk: after a crash of
        the system the analyses run again. `OSError` if the folder takes no file."""
        fresh = f"{self.path}.new"
        with open(fresh, "wb") as file:
            file.write((json.dumps(results.as_json()) + "\n").encode("ascii"))
        os.chmod(fresh, 0o644)
        os.replace(fresh, self.path)


class AnalysisResults:
    """The results of the newest attempt, which outlive the controller."""

    def __init__(self, plan_path: str) -> None:
        self.file = ResultsFile(plan_path)
        self.attempt = self.file.read()
        self.written = self.attempt
        self.written_at = 0.0

    def begin(self, revision: str, number: int) -> None:
        """An attempt of this revision begins: it has no result yet."""
        if self.attempt != AttemptResults():
            self._keep(AttemptResults(revision, number))

    def begin_analyses(self, revision: str, number: int) -> None:
        """Analyses of this revision begin. Those of an attempt of another one are of no use any
        more; nor are those of an attempt that has ended."""
        if self.attempt.how or not self.attempt.is_of(revision, number):
            self._keep(AttemptResults(revision, number))

    def take(self, number: int, kind: str, results: Sequence[AnalysisResult]) -> None:
        """Takes in how the analyses `pre` or `post` of the revision of this number stand. Those of
        an attempt that is not the newest any more are not kept."""
        if number == self.attempt.number:
            attempt = self.attempt.with_results(kind, results)
            self._keep(attempt.ended(attempt.how) if attempt.how else attempt)

    def end(self, revision: str, number: int, how: str) -> tuple[AnalysisResult, ...]:
        """The attempt of this revision has ended. Gives the results of its analyses that have
        names, which the history notes."""
        if not self.attempt.is_of(revision, number):
            return ()
        self._keep(self.attempt.ended(how))
        return tuple(result for result in self.attempt.analyses if result.name)

    def _keep(self, attempt: AttemptResults) -> None:
        """Writes a change: at once, but new lines alone at most once a second."""
        self.attempt = attempt
        if attempt == self.written:
            return
        has_changed = attempt.without_lines() != self.written.without_lines()
        if has_changed or time.monotonic() >= self.written_at + PAUSE:
            self.written, self.written_at = attempt, time.monotonic()
            # a folder that takes no file is told by the state, which is beside this one
            with contextlib.suppress(OSError):
                self.file.write(attempt)
