#!/usr/bin/env python3
"""bg_switch with a journal beside bg_switch without one, in alternating rounds of one run.

usage: bench/journal.py [--rounds N] [--seconds S] [--clients N] [--folder FOLDER]
       bench/journal.py --growth ORDERS [--each N] [--folder FOLDER]

The first form prints the orders a second of one operator, and the requests a second and their 99th
percentile while an operator gives an order a second, and while he gives 200. The medians of the
rounds are compared. Both switches run all the time and are measured in turn, so that other work of
the machine meets both; the figures of a machine that has other work say little all the same.

The second form gives so many orders, each a tick, and prints how the files of the journal grow, the
longest waits of an order and of a request, and how long a start with the whole journal takes. After
each N orders (500,000) the switch is started again, since a book takes a million entries, and a
start takes only the last of neighbouring ticks.

Exit status: 0 if each ratio keeps its limit, 1 if one does not, 2 if the words are wrong. Without wrk
or gcc the bench says so, measures nothing, and ends with status 0. BG_SWITCH_PROGRAM names another
program than bin/bg_switch, which builds the switch if it is stale.
"""
import argparse
import contextlib
import itertools
import os
import pathlib
import shutil
import statistics
import sys
import tempfile
import threading
import time
from collections.abc import Iterator, Sequence
from typing import NamedTuple

TOP = pathlib.Path(__file__).resolve().parents[1]
sys.dont_write_bytecode = True
sys.path.insert(0, str(TOP / "scripts"))

from support import clients  # noqa: E402 (its folder is known by now)
from support.messages import BY_HAND  # noqa: E402
from support.operators import Operator  # noqa: E402
from support.peers import MeasurementError, wrk  # noqa: E402
from support.peers.proxies import PORTS, endpoint  # noqa: E402
from support.reserved import reserved  # noqa: E402
from support.switch import LISTENING, Switch  # noqa: E402

# Of requests a second with a journal to those without one, and of their 99th percentiles.
LEAST_REQUESTS, MOST_P99 = 0.98, 1.05
ORDERS_A_SECOND = {"an order a second": 1, "200 orders a second": 200}
ORDERS = 5_000  # of a round in which nothing else is done
CONCURRENCY = ("--concurrency", "64", "--keep-alive")
STEPS = 10  # lines of a table of growth
SHARES = (0.5, 0.99, 0.999, 1.0)  # of the orders that wait so long or less
ASKS_A_SECOND = 50  # requests while a journal grows
FILES = ("", "-wal")


class Measured(NamedTuple):
    """What a round has shown of a switch: requests a second, the 99th percentile of their waits and
    the longest wait of an order in milliseconds."""

    rate: float
    p99: float
    longest_order: float


class Orders:
    """An operator who gives `rate` orders a second, and keeps how long the slowest one took."""

    def __init__(self, switch: Switch, rate: float, first: int) -> None:
        self.operator = switch.operator()
        self.pause = 1 / rate
        self.moments = itertools.count(first)
        self.longest = 0.0
        self.is_over = threading.Event()
        self.thread = threading.Thread(target=self._give_all, daemon=True)
        self.thread.start()

    def _give_all(self) -> None:
        while not self.is_over.wait(self.pause):
            self.longest = max(self.longest, seconds_of(self.operator, next(self.moments)))

    def end(self) -> int:
        """Ends it. Gives the moment that comes next."""
        self.is_over.set()
        self.thread.join()
        self.operator.close()
        return next(self.moments)


def seconds_of(operator: Operator, moment: int) -> float:
    """How many seconds an order takes: a tick to this moment."""
    begun = time.monotonic()
    reply = operator.answer_to(f"tick {moment}")
    if not reply.startswith("ok "):
        raise MeasurementError(f"tick {moment} is answered {reply}")
    return time.monotonic() - begun


class Subject:
    """A switch with or without a journal, whose book is open."""

    def __init__(self, journal: str, port: int) -> None:
        self.name = "with a journal" if journal else "without"
        self.moment = 1
        flags = ("--journal", journal) if journal else ()
        ports = [reserved(PORTS) for _ in range(3)]
        self.switch = Switch(
            BY_HAND, instead_of_workers=CONCURRENCY, descriptors=4096, flags=flags, ports=ports
        )
        if self.switch.first != LISTENING:
            raise MeasurementError(f"the switch {self.name} does not start: {self.switch.told}")
        for line in (f"open one {port}", "available 1 1"):
            if self.switch.answer_to(line) != "ok 0":
                raise MeasurementError(f"{line} is refused")

    def orders(self) -> float:
        """Orders a second of one operator."""
        with contextlib.closing(self.switch.operator()) as operator:
            begun = time.monotonic()
            for moment in range(self.moment, self.moment + ORDERS):
                seconds_of(operator, moment)
        self.moment += ORDERS
        return ORDERS / (time.monotonic() - begun)

    def requests(self, rate: float, count: int, seconds: int) -> Measured:
        """What `count` clients are answered beside so many orders a second."""
        orders = Orders(self.switch, rate, self.moment)
        load = wrk.run(self.switch.active, count, seconds, True)
        self.moment = orders.end()
        if load.errors:
            raise MeasurementError(f"{load.errors} requests have failed {self.name}")
        return Measured(load.rate, load.p99, 1000 * orders.longest)


@contextlib.contextmanager
def subjects(folder: pathlib.Path) -> Iterator[tuple[Subject, Subject]]:
    """A switch with a journal, and one without, before one endpoint."""
    with endpoint(0.0, folder) as port, contextlib.ExitStack() as stack:
        both = Subject(str(folder / "journal"), port), Subject("", port)
        for one in both:
            stack.callback(one.switch.kill)
        yield both


def in_turn(both: tuple[Subject, Subject], number: int) -> Sequence[Subject]:
    """Both in the order of a round: each is the first one as often."""
    return both if number % 2 == 0 else both[::-1]


def holds(name: str, value: float, limit: float, is_least: bool) -> bool:
    """Prints a ratio with its limit. Gives whether it keeps the limit."""
    kept = value >= limit if is_least else value <= limit
    word = "least" if is_least else "most"
    print(
        f"ratio of {name}: {value:.3f}, at {word} {limit}{'' if kept else '  MISSED'}", flush=True
    )
    return kept


def measure_orders(both: tuple[Subject, Subject], rounds: int) -> None:
    found: dict[str, list[float]] = {one.name: [] for one in both}
    for number in range(rounds):
        for one in in_turn(both, number):
            found[one.name].append(one.orders())
            print(f"{one.name:14}: {found[one.name][-1]:8.0f} orders a second", flush=True)
    with_journal, without = (statistics.median(found[one.name]) for one in both)
    print(f"ratio of orders a second with a journal to those without: {with_journal / without:.3f}")


def measure_requests(
    both: tuple[Subject, Subject], asked: argparse.Namespace, name: str, rate: float
) -> bool:
    """Whether the ratios of requests beside so many orders a second keep their limits."""
    found: dict[str, list[Measured]] = {one.name: [] for one in both}
    for number in range(asked.rounds):
        for one in in_turn(both, number):
            got = one.requests(rate, asked.clients, asked.seconds)
            found[one.name].append(got)
            print(
                f"{one.name:14}, {name}: {got.rate:8.0f} requests a second, p99 {got.p99:7.2f} ms, "
                f"slowest order {got.longest_order:6.1f} ms",
                flush=True,
            )
    rates = [statistics.median(each.rate for each in found[one.name]) for one in both]
    waits = [statistics.median(each.p99 for each in found[one.name]) for one in both]
    what = f"with a journal to those without, {name}"
    kept = holds(f"requests a second {what}", rates[0] / rates[1], LEAST_REQUESTS, True)
    return holds(f"p99 of requests {what}", waits[0] / waits[1], MOST_P99, False) and kept


def compare(asked: argparse.Namespace, folder: pathlib.Path) -> bool:
    with subjects(folder) as both:
        measure_orders(both, asked.rounds)
        return all(
            [measure_requests(both, asked, name, rate) for name, rate in ORDERS_A_SECOND.items()]
        )


class Asking:
    """A client that asks a port again and again, and keeps its longest wait."""

    def __init__(self, port: int) -> None:
        self.port = port
        self.longest = 0.0
        self.is_over = threading.Event()
        self.thread = threading.Thread(target=self._ask, daemon=True)
        self.thread.start()

    def _ask(self) -> None:
        while not self.is_over.wait(1 / ASKS_A_SECOND):
            begun = time.monotonic()
            answer = clients.get(self.port)
            if answer is None or answer[0] != 200:
                self.longest = float("inf")
            self.longest = max(self.longest, time.monotonic() - begun)

    def end(self) -> float:
        self.is_over.set()
        self.thread.join()
        return self.longest


def sizes_of(journal: str) -> list[int]:
    """The bytes of the files of a journal."""
    return [os.path.getsize(journal + end) if os.path.exists(journal + end) else 0 for end in FILES]


def give(switch: Switch, first: int, count: int) -> list[float]:
    """Gives so many orders. Gives the seconds that each took."""
    with contextlib.closing(switch.operator()) as operator:
        return [seconds_of(operator, moment) for moment in range(first, first + count)]


def started(journal: str, ports: Sequence[int]) -> Switch:
    """A switch with this journal. Prints how long its start took."""
    begun = time.monotonic()
    switch = Switch(BY_HAND, flags=("--journal", journal), ports=ports)
    print(f"a start takes {time.monotonic() - begun:.2f} s: {' '.join(switch.told)}", flush=True)
    if switch.first != LISTENING:
        raise MeasurementError(f"the switch does not start: {switch.told}")
    return switch


def grow(asked: argparse.Namespace, folder: pathlib.Path) -> None:
    """Gives orders, and prints a line for each part of them."""
    journal, ports = str(folder / "journal"), [reserved(PORTS) for _ in range(3)]
    part = max(min(asked.growth // STEPS, asked.each), 1)
    waits: list[float] = []
    with endpoint(0.0, folder) as port:
        switch = started(journal, ports)
        try:
            for line in (f"open one {port}", "available 1 1"):
                switch.answer_to(line)
            for first in range(0, asked.growth, part):
                if first and first % asked.each < part:
                    switch.kill()
                    switch = started(journal, ports)
                waits += grow_by(switch, first, part, journal)
            switch.kill()
            switch = started(journal, ports)
        finally:
            switch.kill()
    waits.sort()
    shares = {share: waits[int(share * (len(waits) - 1))] for share in SHARES}
    told = ", ".join(f"{100 * share:g} %: {1000 * wait:.2f} ms" for share, wait in shares.items())
    print(f"waits of {len(waits)} orders: {told}")
    print(f"bytes of an order: {sum(sizes_of(journal)) / len(waits):.1f}")


def grow_by(switch: Switch, first: int, count: int, journal: str) -> list[float]:
    """Gives so many orders, beside requests, and prints what they have cost."""
    asking, begun = Asking(switch.active), time.monotonic()
    waits = give(switch, first + 1, count)
    rate, longest = count / (time.monotonic() - begun), asking.end()
    sizes = ", ".join(f"{size / 1e6:7.2f} MB" for size in sizes_of(journal))
    print(
        f"{first + count:9,} orders: files {sizes}; {rate:6.0f} orders a second; "
        f"longest waits: order {1000 * max(waits):.1f} ms, request {1000 * longest:.1f} ms",
        flush=True,
    )
    return waits


def parser() -> argparse.ArgumentParser:
    made = argparse.ArgumentParser(
        description=(__doc__ or "").partition("\n\n")[0],
        epilog=(__doc__ or "").partition("\n\n")[2],
        formatter_class=argparse.RawDescriptionHelpFormatter,
    )
    made.add_argument("--rounds", type=int, default=5)
    made.add_argument("--seconds", type=int, default=5, help="of each measurement of requests")
    made.add_argument("--clients", type=int, default=8)
    made.add_argument("--growth", type=int, metavar="ORDERS", default=0)
    made.add_argument("--each", type=int, metavar="N", default=500_000)
    made.add_argument("--folder", help="where the journal lies; a temporary folder without it")
    return made


def main(words: Sequence[str]) -> int:
    asked = parser().parse_args(words)
    if missing := [tool for tool in ("wrk", "gcc") if not shutil.which(tool)]:
        print(f"journal needs {', '.join(missing)}: nothing was measured")
        return 0
    with tempfile.TemporaryDirectory(dir=asked.folder) as folder:
        try:
            if asked.growth:
                grow(asked, pathlib.Path(folder))
                return 0
            return 0 if compare(asked, pathlib.Path(folder)) else 1
        except MeasurementError as error:
            print(f"journal: {error}", file=sys.stderr)
            return 1


if __name__ == "__main__":
    sys.exit(main(sys.argv[1:]))
