"""An analysis by a query of Prometheus, as Argo Rollouts makes it
(https://argo-rollouts.readthedocs.io/en/stable/features/analysis/)."""
import math
import re
import time
from collections.abc import Sequence
from typing import NamedTuple

from bg_switch_tools.analysis.judged_revision import JudgedRevision
from bg_switch_tools.analysis.prometheus_query import QueryError, Server, query_values
from bg_switch_tools.analysis.verdicts import (
    FAILED,
    HELD,
    SUCCESSFUL,
    NotJudgedError,
    failed_text,
    tell,
)
from bg_switch_tools.switch.json_values import NAME

ARGUMENT = re.compile(r"\{\{\s*args\.([\w-]+)\s*\}\}")
LONGEST_RETRY = 10.0  # seconds until a query without an answer is made again, at most


class QueryLimits(NamedTuple):
    """What each value of a result has to be, if these are limits; and how many measurements there
    are, how many of them may fail and be inconclusive, and how many queries may have no answer in a
    row."""

    at_most: float | None
    at_least: float | None
    measurements: int
    failures: int
    inconclusive: int
    errors: int


class Result(NamedTuple):
    """What the values of a query came to: `problems` says which limits they exceed;
    `is_inconclusive` whether there is no value, or one that is not a number."""

    values: Sequence[float]
    problems: tuple[str, ...]
    is_inconclusive: bool

    def text(self) -> str:
        shown = ", ".join(f"{value:.6g}" for value in self.values[:3]) or "no data"
        return f"{shown}, .." if len(self.values) > 3 else shown

    def outcome(self) -> str:
        return (
            "it is inconclusive"
            if self.is_inconclusive
            else "; ".join(self.problems) or "the limits hold"
        )


def judged(values: Sequence[float], condition: QueryLimits) -> Result:
    """What the values of a query come to."""
    if not values or any(math.isnan(value) for value in values):
        return Result(values, (), True)
    problems = []
    if condition.at_most is not None and max(values) > condition.at_most:
        problems.append(f"it is above {condition.at_most:g}")
    if condition.at_least is not None and min(values) < condition.at_least:
        problems.append(f"it is below {condition.at_least:g}")
    return Result(values, tuple(problems), False)


def filled(query: str, subject: JudgedRevision | None) -> str:
    """A query whose `{{args.revision}}` and `{{args.revision-number}}` are those of a revision.
    `NotJudgedError` if it has another argument, or one that is not known."""
    known = {"revision": subject.name, "revision-number": str(subject.number)} if subject else {}

    def value(found: re.Match[str]) -> str:
        text = known.get(found[1], "")
        if not NAME.fullmatch(text):
            raise NotJudgedError(f"the query's argument {found[1]} is not known")
        return text

    return ARGUMENT.sub(value, query)


class PrometheusAnalysis:
    """An analysis that runs."""

    def __init__(self, server: Server, query: str, title: str, condition: QueryLimits) -> None:
        self.server = server
        self.query = query
        self.title = title
        self.condition = condition
        self.measured = self.failed = self.inconclusive = self.errors = 0

    def tell(self, text: str) -> None:
        tell(f"analysis of {self.title}: {text}")

    def measure(self, seconds: float) -> None:
        """A measurement. `NotJudgedError` if one too many is inconclusive, or too many in a row
        have no answer."""
        try:
            result = judged(query_values(self.server, self.query), self.condition)
        except QueryError as reason:
            self.errors += 1
            self.tell(f"{seconds:.0f} s: no measurement: {reason}")
            if self.errors > self.condition.errors:
                raise NotJudgedError(
                    f"{self.errors} queries in a row had no answer, and the limit is {self.condition.errors}"
                ) from None
            return
        self.errors = 0
        self.measured += 1
        self.failed += bool(result.problems)
        self.inconclusive += result.is_inconclusive
        self.tell(f"{seconds:.0f} s: {result.text()}: {result.outcome()}")
        if self.inconclusive > self.condition.inconclusive:
            raise NotJudgedError(
                f"{self.inconclusive} measurements are inconclusive, and the limit is {self.condition.inconclusive}"
            )

    def judge(self, interval: float, delay: float) -> int:
        """Measures at once, or after a delay, and then again after each interval, up to the last
        measurement or the failure that is one too many. Gives the exit status."""
        begun = time.monotonic()
        time.sleep(delay)
        while True:
            at = time.monotonic()
            self.measure(at - begun)
            if self.failed > self.condition.failures:
                self.tell(failed_text(self.failed, self.condition.failures))
                return FAILED
            if self.measured >= self.condition.measurements:
                break
            pause = min(interval, LONGEST_RETRY) if self.errors else interval
            time.sleep(max(at + pause - time.monotonic(), 0.0))
        if self.inconclusive == self.measured:
            raise NotJudgedError("no measurement was conclusive")
        self.tell(HELD)
        return SUCCESSFUL
