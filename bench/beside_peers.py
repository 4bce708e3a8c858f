#!/usr/bin/env python3
"""bg_switch beside nginx and HAProxy, in alternating rounds before one endpoint on loopback.

usage: bench/beside_peers.py [--rounds N] [--seconds S] [--out FILE] ..     figures and verdicts
       bench/beside_peers.py [--system-calls] [--instructions] ..           the cost of a request

Each proxy runs in three modes: `both` keeps the connections of clients and to endpoints, `client`
keeps those of clients, `none` has one request a connection. A mode that the switch has not is left
out. The bench prints a line for each round and proxy, the medians as a table, and each ratio with
its limit. Processor time is that of all threads of a proxy. The peers forward all requests at once;
HAProxy is measured with as many at a time as the switch too (`maxconn`), if there are more clients.
A proxy with fewer requests at a time than there are clients is measured only before an endpoint that
answers at once. wrk counts only what is answered, so clients that are never answered show only in
the requests a second before the slow endpoint.

--system-calls and --instructions count those of a request of the switch, with one client and with
64, by strace and callgrind. The help (--help) names the other words.

Exit status: 0 if each ratio keeps its limit, 1 if one does not or a proxy does not run, 2 if the
words are wrong. Without wrk, nginx, haproxy or gcc the bench says so, measures nothing, and ends
with status 0. The same holds without strace or valgrind where one of them is to count.
BG_SWITCH_PROGRAM names another program than bin/bg_switch, which builds the switch if it is stale.
"""
import argparse
import contextlib
import itertools
import pathlib
import shutil
import signal
import subprocess
import sys
import tempfile
from collections.abc import Generator, Iterator, Mapping, Sequence

TOP = pathlib.Path(__file__).resolve().parents[1]
sys.dont_write_bytecode = True
sys.path.insert(0, str(TOP / "scripts"))

from support import processes  # noqa: E402 (its folder is known by now)
from support.peers import MeasurementError, figures, proxies, request_costs, wrk  # noqa: E402
from support.peers.configurations import SWITCH, Mode, Place, flags_in  # noqa: E402
from support.peers.figures import Figures, Round, Subject, over  # noqa: E402
from support.peers.processor_time import microseconds_between, thread_times  # noqa: E402
from support.peers.proxies import PEERS, PORTS, Proxy  # noqa: E402
from support.peers.verdicts import Limits, verdicts  # noqa: E402
from support.peers.words import asked_for  # noqa: E402
from support.reserved import reserved  # noqa: E402

# Of the ratios of the switch to the better or cheaper peer; of the processor time of a switch to
# that of one with fewer requests at a time; and of errors to requests.
LIMITS = Limits(
    most_few_clients=64,
    least_requests_of_few=0.95,
    least_requests_of_many=1.0,
    most_p99=1.25,
    most_processor_time=0.9,
    most_processor_time_of_more=1.05,
    most_errors=0.001,
)
NOT_JUDGED = f"no mode of {SWITCH} was measured: nothing was judged"
DESCRIPTORS = 65_536  # of each program, if the system allows them

Flags = Mapping[Mode, Sequence[str]]


def missing_tools(asked: argparse.Namespace) -> list[str]:
    """The programs that are needed and not installed."""
    costs = {"strace": asked.system_calls, "valgrind": asked.instructions}
    needed = [tool for tool, is_asked in costs.items() if is_asked]
    needed = needed or ["wrk", *(name for name in asked.proxies if name in PEERS)]
    return [tool for tool in (*needed, "gcc") if not shutil.which(tool)]


def flags_of_switch(modes: Sequence[str]) -> Flags:
    """The flags of each of these modes that the switch has. A line tells of each one that it has
    not."""
    told = proxies.help_of_serve()
    found = {mode: flags_in(told, mode) for mode in map(Mode, modes)}
    for mode, flags in found.items():
        if flags is None:
            print(f"{SWITCH} has not the mode {mode.value}: it is left out", flush=True)
    return {mode: flags for mode, flags in found.items() if flags is not None}


@contextlib.contextmanager
def running(
    asked: argparse.Namespace, flags: Flags, endpoint: int, folder: pathlib.Path
) -> Iterator[list[Proxy]]:
    """All proxies, each in each of its modes."""

    def place() -> Place:
        port = reserved(PORTS)
        (folder / str(port)).mkdir()
        return Place(port, endpoint, folder / str(port))

    with contextlib.ExitStack() as stack:
        found = []
        for mode in map(Mode, asked.modes):
            ones = [
                proxies.peer(name, place(), mode, asked.threads)
                for name in asked.proxies
                if name in PEERS
            ]
            if proxies.LIMITED in asked.proxies:
                ones += [
                    proxies.limited_peer(place(), mode, asked.threads, most)
                    for most in asked.concurrency
                ]
            if mode in flags:
                words = (*flags[mode], "--threads", str(asked.threads))
                ones += [
                    proxies.switch(place(), mode, concurrency, words)
                    for concurrency in asked.concurrency
                ]
            found += [stack.enter_context(one) for one in ones]
        yield found


def measured(proxy: Proxy, clients: int, seconds: int) -> Figures:
    """A run of `clients` clients at a proxy. `MeasurementError` if a peer answers none of them
    well."""
    before = thread_times(proxy.process)
    load = wrk.run(proxy.port, clients, seconds, proxy.mode.keeps_clients)
    spent = microseconds_between(before, thread_times(proxy.process))
    if not load.requests and proxy.name in PEERS:
        raise MeasurementError(f"{proxy.name} has answered no request well")
    return Figures(load.requests, load.rate, load.p99, over(spent, load.requests), load.errors)


def rounds_of(
    asked: argparse.Namespace, flags: Flags, top: pathlib.Path
) -> Generator[Round, None, None]:
    """All rounds, one after the other."""
    for delay in asked.delays:
        folder = pathlib.Path(tempfile.mkdtemp(dir=top))
        with proxies.endpoint(delay, folder) as endpoint, running(
            asked, flags, endpoint, folder
        ) as found:
            for clients, number in itertools.product(asked.connections, range(asked.rounds)):
                for proxy in proxies.in_turn(found, number):
                    if proxy.is_measured(delay, clients):
                        subject = Subject(proxy.name, proxy.mode.value, delay, clients)
                        yield Round(number + 1, subject, measured(proxy, clients, asked.seconds))


def have_rounds_passed(asked: argparse.Namespace, top: pathlib.Path) -> bool:
    """Measures all proxies, and prints what came of it. Whether each ratio keeps its limit."""
    flags = flags_of_switch(asked.modes) if SWITCH in asked.proxies else {}
    rounds = []
    try:
        with contextlib.closing(rounds_of(asked, flags, top)) as all_rounds:
            for one in all_rounds:
                print(one, flush=True)
                rounds.append(one)
    finally:
        if asked.out:
            asked.out.write_text(figures.as_json(rounds), encoding="utf-8")
    found = figures.medians(rounds)
    print("", *figures.table(found), "", sep="\n")
    judged = list(verdicts(found, LIMITS))
    print("\n".join(map(str, judged)) or NOT_JUDGED)
    return all(one.holds for one in judged)


def print_costs(asked: argparse.Namespace, top: pathlib.Path) -> None:
    """Prints what a request costs the switch in each of its modes."""
    flags = flags_of_switch(asked.modes)
    with proxies.endpoint(0.0, top) as endpoint:
        for name, tool, is_asked in (
            ("system calls", request_costs.STRACE, asked.system_calls),
            ("instructions", request_costs.CALLGRIND, asked.instructions),
        ):
            asked_modes = flags if is_asked else ()
            for mode, clients in itertools.product(asked_modes, request_costs.CLIENTS):
                place = Place(reserved(PORTS), endpoint, top)
                words = (*flags[mode], "--threads", str(asked.threads))
                run = request_costs.Run(mode, words, clients)
                cost = request_costs.cost_of_request(tool, place, run)
                label = f"{mode.value}, clients {clients}"
                print(f"ratio of {name} to requests, {label}: {cost:.2f}", flush=True)


def main(words: Sequence[str]) -> int:
    asked = asked_for(words, __doc__ or "")
    if missing := missing_tools(asked):
        print(f"beside_peers needs {', '.join(missing)}: nothing was measured")
        return 0
    processes.limit_descriptors(DESCRIPTORS)
    signal.signal(signal.SIGTERM, lambda *_: sys.exit(1))
    with tempfile.TemporaryDirectory() as folder:
        try:
            if asked.system_calls or asked.instructions:
                print_costs(asked, pathlib.Path(folder))
                return 0
            return 0 if have_rounds_passed(asked, pathlib.Path(folder)) else 1
        except (MeasurementError, OSError, subprocess.SubprocessError) as error:
            print(f"beside_peers: {error}", file=sys.stderr)
            return 1


if __name__ == "__main__":
    sys.exit(main(sys.argv[1:]))
