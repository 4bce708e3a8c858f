#!/usr/bin/env python3
"""A soak of `serve --keep-alive`, by hand: requests of clients of all kinds at random, half of them on
kept connections, beside orders at random and endpoints that are killed.

usage: scripts/keep_alive_soak.py [--requests N] [--seed S] [--clients C]

There are 300,000 requests without words, of 96 clients at a time. Clients send one request or up to
twenty on a connection: in turn, ahead, in pieces, with the end of their input or a fault behind them;
some go by a reset, send a part, or ask again just as the switch closes their idle connection.
Endpoints answer whole, late, in chunks, early, to the end of the connection or by version 1.0; they
say that they close, close at once or a little later, or with the next request on the connection, by a
reset or not; they send bytes that nobody asked for, cut an answer, hang, and are killed twice a
second. An operator gives orders for two revisions.

At the end each request that was answered has got the content of its own, or a refusal of the switch,
and its line in the access log, with its place on its connection. Each other one has at most one line.
The calls of the switch are those of the requests that entered by the log. No request that is not
idempotent has reached endpoints twice. No request is open, and no descriptor is left.

Exit status: 0 if all this holds; 1 if not; 2 if the words are wrong. BG_SWITCH_PROGRAM names another
program than bin/bg_switch.
"""
import argparse
import collections
import concurrent.futures
import contextlib
import pathlib
import random
import sys
import tempfile
import threading
import time
from collections.abc import Sequence

from support import checks, processes
from support.checks import check, check_soon, check_within, comes
from support.endpoints import EndpointProcess
from support.messages import BY_HAND
from support.ports import connections_at, free_ports
from support.processes import descriptors
from support.random_orders import RandomOrders
from support.soak.visits import Got, Visited, plan, visited
from support.switch import LISTENING, Switch
from support.traffic import ACCESS_LOG

# isort: split; `support` tells where the tools' package is
from bg_switch_tools.switch.access_log import LogEntry, read_lines

REQUESTS, CLIENTS = 300_000, 96
LONGEST = 36_000  # seconds for which a program runs
CONCURRENCY = 64
IDLE = 2  # seconds for which idle connections of both sides are kept
PATIENCE = 5  # seconds of a message
ROLLOUT = BY_HAND.replace('"replicas": 1', '"replicas": 2')
EACH_ORDER = 10  # requests at least, for each order beside them
KILLED = (0.3, 0.7)  # seconds between two endpoints that are killed
DOWN = (0.05, 0.3)  # seconds for which one is down
MOST_SHOWN = 5
TOLD = 50_000  # requests after which their number is told
# Seconds that a visit may take: one request of it may hang, for as long as a message may take.
LONGEST_VISIT = 6 * PATIENCE
LEAST_WHOLE = 0.4  # of the requests, which get their content
MOST_CUT = 0.001  # of the visits, whose connections end without an answer
NOT_IDEMPOTENT, MALFORMED = b"POST", b"MALFORMED"
LOOPS = 4
FLAGS = (
    *("--keep-alive", "--redispatch", "--threads", str(LOOPS)),
    *("--keep-alive-timeout", str(IDLE)),
    *("--endpoint-keep-alive-timeout", str(IDLE)),
)


class Soak:
    """A running soak: the switch, its log, four endpoints, and what clients have got."""

    def __init__(self, folder: pathlib.Path, requests: int, seed: int) -> None:
        self.chance = random.Random(seed)
        self.log = folder / "log"
        self.notes = folder / "notes"
        self.endpoints = [
            EndpointProcess(
                str(number), port, "support.soak.endpoint", str(self.notes), str(seed + number)
            )
            for number, port in enumerate(free_ports(4))
        ]
        self.switch = Switch(
            ROLLOUT,
            instead_of_workers=("--concurrency", str(CONCURRENCY)),
            descriptors=8192,
            timeout=PATIENCE,
            flags=FLAGS,
            variables={ACCESS_LOG: str(self.log)},
        )
        check("listening", self.switch.first, LISTENING)
        ports = [endpoint.port for endpoint in self.endpoints]
        self.orders = RandomOrders(self.switch, ports[:2], ports[2:], seed + 1)
        check("opened", self.switch.answer_to(f"open one {ports[0]} {ports[1]}"), "ok 0")
        check("available", self.switch.answer_to("available 1 2"), "ok 0")
        check("all event loops have begun", self.switch.has_loops(LOOPS + 1), True)
        self.visits = plan(requests, (self.switch.active, self.switch.preview), seed + 2, IDLE)
        self.left = iter(self.visits)
        self.made: list[Visited] = []
        self.longest = 0.0  # seconds that a visit took
        self.lock = threading.Lock()
        self.begun = self.killed = 0
        self.over = threading.Event()
        self.before = self.count_descriptors()

    def count_descriptors(self) -> int:
        return len(descriptors(self.switch.process.pid))

    def kill_endpoints(self) -> None:
        while not self.over.wait(self.chance.uniform(*KILLED)):
            endpoint = self.chance.choice(self.endpoints)
            endpoint.kill()
            time.sleep(self.chance.uniform(*DOWN))
            endpoint.start()
            self.killed += 1

    def give_orders(self) -> None:
        self.orders.play(self.over, lambda: self.begun // EACH_ORDER)

    def ask(self) -> None:
        """Makes visits, one after the other, until all are made."""
        while True:
            with self.lock:
                visit = next(self.left, None)
                if visit is None:
                    return
                before, self.begun = self.begun, self.begun + visit.requests
                if before // TOLD < self.begun // TOLD:
                    print(f"{self.begun} requests have begun", flush=True)
            start = time.monotonic()
            made = visited(visit)
            with self.lock:
                self.longest = max(self.longest, time.monotonic() - start)
                self.made.append(made)

    def play(self, clients: int) -> list[Visited]:
        """Makes all visits, beside the orders and the kills."""
        start = time.monotonic()
        with concurrent.futures.ThreadPoolExecutor(2) as helpers:
            running = [helpers.submit(self.kill_endpoints), helpers.submit(self.give_orders)]
            try:
                with concurrent.futures.ThreadPoolExecutor(clients) as pool:
                    asking = [pool.submit(self.ask) for _ in range(clients)]
                for one in asking:
                    one.result()
            finally:
                self.over.set()
        for helper in running:
            helper.result()
        seconds = time.monotonic() - start
        print(f"{seconds:.0f} seconds; the longest visit took {self.longest:.1f}", flush=True)
        check_soon("the longest visit", self.longest, LONGEST_VISIT)
        return self.made

    def has_settled(self) -> bool:
        ports = (self.switch.active, self.switch.preview)
        return not any(map(connections_at, ports)) and not any(self.switch.open_requests())

    def check_settled(self) -> None:
        check("no client is left, and no request is open", comes(self.has_settled), True)
        # idle connections to endpoints are kept for a while
        comes(lambda: self.count_descriptors() == self.before)
        check("descriptors are back", self.count_descriptors(), self.before)

    def end(self) -> int:
        """Ends the switch. Gives the number of calls."""
        with contextlib.closing(self.switch.operator()) as operator:
            operator.send_quit()
            ended = self.switch.wait()
        lines = ended.printed.splitlines()
        opens = {line.split(" open ")[1].split()[0] for line in lines if " open " in line}
        check("the status, and open requests", (ended.status, opens), (0, {"0"}))
        check("what the switch has told", self.switch.told, [])
        return int(lines[-1].removeprefix("calls "))

    def close(self) -> None:
        for endpoint in self.endpoints:
            endpoint.kill()
        self.switch.kill()

    def entries(self) -> list[LogEntry]:
        batch = read_lines(self.log.read_bytes().splitlines())
        check("lines that can't be read, or were lost", (batch.unreadable, batch.lost), (0, 0))
        return batch.entries


def check_lines(made: Sequence[Visited], entries: Sequence[LogEntry]) -> None:
    """Checks that the log has the line of each request that was answered, at most one of each other
    one, and none that nobody has sent."""
    by_target = collections.defaultdict[str | None, list[LogEntry]](list)
    for entry in entries:
        by_target[entry.target].append(entry)
    wrong = list[object]()
    for visit in made:
        for got in visit.got:
            lines = by_target.pop(got.target.decode(), [])
            if not is_logged(got, lines):
                wrong.append((got, lines))
    check("lines of requests that are wrong", (len(wrong), wrong[:MOST_SHOWN]), (0, []))
    without = by_target.pop(None, [])
    check("lines of requests that nobody has sent", list(by_target)[:MOST_SHOWN], [])
    # of a request whose client has gone while it waited for a seat, the log has no target
    refused = [one for one in without if one.status is not None and not one.has_client_gone]
    statuses = collections.Counter(one.status for one in refused)
    check("lines of faults", statuses, {400: sum(visit.faults for visit in made)})
    cut = sum(visit.parts for visit in made) + sum(
        one.status is None for visit in made for one in visit.got
    )
    check_within("lines of parts", len(without) - len(refused), cut)


def is_logged(got: Got, lines: Sequence[LogEntry]) -> bool:
    """Whether the lines of a request say what its client has seen."""
    if got.status is None:
        return len(lines) <= 1
    told = [(one.status, one.connection_request, one.response_bytes) for one in lines]
    return told == [(got.status, got.place, got.size)]


def check_entered(entries: Sequence[LogEntry], calls: int) -> None:
    """Checks that the requests that entered have the numbers from 1 on, and two calls each."""
    numbers = sorted(one.request for one in entries if one.request is not None)
    check("numbers of requests that entered", numbers == list(range(1, len(numbers) + 1)), True)
    check("calls of the switch", calls, 2 * len(numbers))


def check_notes(made: Sequence[Visited], notes: bytes) -> None:
    """Checks that endpoints have got no request twice that is not idempotent, and each to which they
    have given its content."""
    counts = collections.Counter(notes.splitlines())
    malformed = [note for note in counts if note.startswith(MALFORMED)]
    check("what endpoints could not read", malformed[:MOST_SHOWN], [])
    twice = [
        note
        for note, count in counts.items()
        if count > (1 if note.startswith(NOT_IDEMPOTENT) else 2)
    ]
    check("requests that came too often", (len(twice), twice[:MOST_SHOWN]), (0, []))
    came = {note.partition(b" ")[2] for note in counts}
    whole = [one.target for visit in made for one in visit.got if one.status == 200]
    missing = [target for target in whole if target not in came]
    check("contents of requests that never came", missing[:MOST_SHOWN], [])
    again = sum(count == 2 for count in counts.values())
    print(f"{again} requests were sent again to an endpoint that had read them")


def check_visits(made: Sequence[Visited], count: int) -> None:
    wrong = [text for visit in made for text in visit.wrong]
    check("answers that are wrong, and waits", (len(wrong), wrong[:MOST_SHOWN]), (0, []))
    statuses = collections.Counter(one.status for visit in made for one in visit.got)
    asked = sum(statuses.values())
    check("each request is accounted for", asked >= count, True)
    check("many get their content", statuses[200] >= LEAST_WHOLE * asked, True)
    cut = sum(visit.was_cut for visit in made)
    check_within("visits that were cut", cut, MOST_CUT * len(made))
    kept = sum(len(visit.got) for visit in made if len(visit.got) > 1)
    print(f"{asked} requests in {len(made)} visits, {kept} of them on kept connections: {statuses}")
    print(f"visits that were cut: {cut}; faults: {sum(visit.faults for visit in made)}")


def soak(folder: pathlib.Path, given: argparse.Namespace) -> None:
    running = Soak(folder, given.requests, given.seed)
    try:
        made = running.play(given.clients)
        running.check_settled()
        calls = running.end()
    finally:
        running.close()
    entries = running.entries()
    check_visits(made, given.requests)
    check_lines(made, entries)
    check_entered(entries, calls)
    check_notes(made, running.notes.read_bytes())
    reused = sum(bool(one.upstream_reused) for one in entries)
    later = sum(one.is_on_kept_connection for one in entries)
    print(
        f"{len(entries)} lines of the log, {later} of them later requests of a connection, {reused}"
        f" on connections to endpoints that were reused; {calls} calls; {running.orders.given}"
        f" orders; {running.killed} endpoints were killed"
    )


def main() -> int:
    usage = (__doc__ or "").split("usage: ")[1].split("\n\n")[0]
    parser = argparse.ArgumentParser(prog="keep_alive_soak.py", usage=usage)
    parser.add_argument("--requests", type=int, default=REQUESTS)
    parser.add_argument("--clients", type=int, default=CLIENTS)
    parser.add_argument("--seed", type=int, default=1)
    given = parser.parse_args()
    processes.LONGEST = LONGEST
    processes.limit_descriptors(8192)
    with tempfile.TemporaryDirectory() as folder:
        soak(pathlib.Path(folder), given)
    print(f"keep_alive_soak: {checks.COUNTS.passed} passed, {checks.COUNTS.failed} failed")
    return int(checks.COUNTS.failed != 0)


if __name__ == "__main__":
    sys.exit(main())
