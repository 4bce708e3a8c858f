"""Requests of the last ten minutes, counted by time, revision and class of status."""
import collections
import functools
import math
from collections.abc import Iterator, Sequence
from typing import TypedDict

from bg_switch_tools.switch.access_log import LogEntry

SLOT = 2  # seconds that are counted together
KEPT = 600  # seconds
RECENT = 30  # seconds of which the present rates are told
# of the bins of durations: the end of the first one in milliseconds, and the step between two
LEAST, FACTOR = (0.05, 1.05)
NO_ANSWER = "none"
CLASSES = ("1xx", "2xx", "3xx", "4xx", "5xx", NO_ANSWER)
ERRORS = ("5xx", NO_ANSWER)
SCALE = 1 / math.log(FACTOR)


@functools.lru_cache(1024)
def class_of(status: int | None) -> str:
    """The class of a status, as `5xx`; `none` if there was no answer. One outside 100 to 599, which
    has no class, counts as `5xx` (RFC 9110, section 15)."""
    if status is None:
        return NO_ANSWER
    return f"{status // 100}xx" if 100 <= status <= 599 else "5xx"


class Durations:
    """Durations in milliseconds, of which a quantile is known to 5 per cent."""

    def __init__(self) -> None:
        self.bins: collections.Counter[int] = collections.Counter()

    def add(self, duration: float) -> None:
        self.bins[math.ceil(math.log(max(duration, LEAST) / LEAST) * SCALE)] += 1

    def take(self, other: "Durations") -> None:
        self.bins += other.bins

    def quantile(self, share: float) -> float:
        """The end of the bin that has the quantile, to two places; 0 if there is no duration."""
        target, count = share * self.bins.total(), 0
        for place in sorted(self.bins):
            count += self.bins[place]
            if count >= target:
                return round(LEAST * FACTOR**place, 2)
        return 0.0


class Cell:
    """The requests of one revision in one slot; `ports` and `failed_ports` count them, and the
    errors of them, by the port of the endpoint that was dialled."""

    def __init__(self) -> None:
        self.counts: collections.Counter[str] = collections.Counter()
        self.durations = Durations()
        self.ports: collections.Counter[int] = collections.Counter()
        self.failed_ports: collections.Counter[int] = collections.Counter()

    def add(self, entry: LogEntry) -> None:
        self.counts[class_of(entry.status)] += 1
        if entry.answer_ms is not None:
            self.durations.add(entry.answer_ms)
        if entry.port is not None:
            self.ports[entry.port] += 1
            if entry.is_error:
                self.failed_ports[entry.port] += 1

    def take(self, other: "Cell") -> None:
        self.counts += other.counts
        self.durations.take(other.durations)
        self.ports += other.ports
        self.failed_ports += other.failed_ports


class CellJson(TypedDict):
    """A cell as the page is told it. The name is empty if a request came to no revision."""

    revision: str
    counts: dict[str, int]
    p50: float
    p99: float


class SlotJson(TypedDict):
    """A slot as the page is told it: the second at which it begins, and its cells."""

    begins: int
    cells: list[CellJson]


class RecentOfPort(TypedDict):
    """What became of the requests of an endpoint in the last seconds: `errors` is a share."""

    port: int
    requests_per_second: float
    errors: float


class Recent(TypedDict):
    """What became of a revision's requests in the last seconds."""

    requests_per_second: float
    errors: float
    p50: float
    p99: float
    ports: list[RecentOfPort]


class Traffic:
    """The slots of the last ten minutes, by the second at which each begins."""

    def __init__(self) -> None:
        self.slots: dict[int, dict[str, Cell]] = {}
        self.changed: set[int] = set()

    def add(self, entry: LogEntry, revision: str) -> None:
        begins = int(entry.time) // SLOT * SLOT
        cells = self.slots.get(begins)
        if cells is None:
            cells = self.slots[begins] = {}
        cell = cells.get(revision)
        if cell is None:
            cell = cells[revision] = Cell()
        cell.add(entry)
        self.changed.add(begins)

    def forget(self, now: float) -> None:
        """Drops the slots that are older than ten minutes, and those that lie ahead, since the
        clock was set back."""
        for begins in [
            begins for begins in self.slots if not now - KEPT - SLOT <= begins <= now + SLOT
        ]:
            del self.slots[begins]
            self.changed.discard(begins)

    def slots_as_json(self, begins: Sequence[int]) -> list[SlotJson]:
        """These slots, by time."""
        return [
            {"begins": each, "cells": list(_cells(self.slots[each]))} for each in sorted(begins)
        ]

    def take_changed(self) -> list[SlotJson]:
        """The slots that have changed since this was asked last."""
        changed, self.changed = self.changed, set()
        return self.slots_as_json(list(changed))

    def recent(self, now: float) -> dict[str, Recent]:
        """By revision, what became of its requests in the last seconds."""
        sums: dict[str, Cell] = {}
        for begins, cells in self.slots.items():
            for revision, cell in cells.items() if now - RECENT < begins <= now else ():
                sums.setdefault(revision, Cell()).take(cell)
        return {revision: _recent(cell) for revision, cell in sums.items()}


def _cells(cells: dict[str, Cell]) -> Iterator[CellJson]:
    for revision, cell in sorted(cells.items()):
        yield {
            "revision": revision,
            "counts": dict(cell.counts),
            "p50": cell.durations.quantile(0.5),
            "p99": cell.durations.quantile(0.99),
        }


def _recent(cell: Cell) -> Recent:
    total = cell.counts.total()
    return {
        "requests_per_second": round(total / RECENT, 1),
        "errors": sum(cell.counts[each] for each in ERRORS) / total,
        "p50": cell.durations.quantile(0.5),
        "p99": cell.durations.quantile(0.99),
        "ports": list(_of_ports(cell)),
    }


def _of_ports(cell: Cell) -> Iterator[RecentOfPort]:
    for port, count in sorted(cell.ports.items()):
        yield {
            "port": port,
            "requests_per_second": round(count / RECENT, 1),
            "errors": cell.failed_ports[port] / count,
        }
