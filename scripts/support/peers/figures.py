"""What was measured of each proxy, round by round; the medians of it, and their table."""
import json
import math
import statistics
from collections.abc import Iterable, Iterator, Mapping, Sequence
from typing import NamedTuple

HEADINGS = (
    "endpoint",
    "clients",
    "connections kept",
    "proxy",
    "requests a second",
    "p99 in ms",
    "processor time of a request in µs",
    "errors",
)


def over(value: float, other: float) -> float:
    return value / other if other else math.inf


class Subject(NamedTuple):
    """A proxy, which connections it keeps, after how many seconds its endpoint answers, and how
    many clients it has."""

    proxy: str
    mode: str
    delay: float
    clients: int

    def __str__(self) -> str:
        return f"{self.mode}, {self.clients} clients, {self.answer}, {self.proxy}"

    @property
    def answer(self) -> str:
        return f"after {1000 * self.delay:g} ms" if self.delay else "at once"


class Figures(NamedTuple):
    """How many requests were answered well, how many of them in a second, the 99th percentile of
    the wait in milliseconds, the processor time of a request in microseconds, and the errors."""

    requests: int
    rate: float
    p99: float
    microseconds: float
    errors: int

    def __str__(self) -> str:
        return (
            f"{self.rate:,.0f} requests a second, p99 {self.p99:.2f} ms, "
            f"{self.microseconds:.1f} µs of processors a request, {self.errors} errors"
        )


class Round(NamedTuple):
    """The figures of one run."""

    number: int
    subject: Subject
    figures: Figures

    def __str__(self) -> str:
        return f"round {self.number}, {self.subject}: {self.figures}"


def median_of(rounds: Sequence[Figures]) -> Figures:
    """The medians of what differs from round to round, and the sums of what is counted."""
    return Figures(
        sum(one.requests for one in rounds),
        statistics.median(one.rate for one in rounds),
        statistics.median(one.p99 for one in rounds),
        statistics.median(one.microseconds for one in rounds),
        sum(one.errors for one in rounds),
    )


def medians(rounds: Iterable[Round]) -> dict[Subject, Figures]:
    """The medians of each subject, in the order of their first rounds."""
    of_subject: dict[Subject, list[Figures]] = {}
    for one in rounds:
        of_subject.setdefault(one.subject, []).append(one.figures)
    return {subject: median_of(figures) for subject, figures in of_subject.items()}


def row(cells: Iterable[object]) -> str:
    return f"| {' | '.join(map(str, cells))} |"


def table(found: Mapping[Subject, Figures]) -> Iterator[str]:
    """The lines of a table in Markdown."""
    yield row(HEADINGS)
    yield row("---" for _ in HEADINGS)
    for subject, figures in found.items():
        yield row(
            (
                subject.answer,
                subject.clients,
                subject.mode,
                subject.proxy,
                f"{figures.rate:.0f}",
                f"{figures.p99:.2f}",
                f"{figures.microseconds:.1f}",
                figures.errors,
            )
        )


def as_json(rounds: Iterable[Round]) -> str:
    """All rounds, as a list of objects. A figure is null if no request was answered well."""
    objects = [
        {"round": one.number, **one.subject._asdict(), **one.figures._asdict()} for one in rounds
    ]
    finite = [
        {key: None if value == math.inf else value for key, value in each.items()}
        for each in objects
    ]
    return json.dumps(finite, indent=1, allow_nan=False) + "\n"
