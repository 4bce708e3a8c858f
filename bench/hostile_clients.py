#!/usr/bin/env python3
"""bg_switch beside nginx and HAProxy under clients that harm a proxy, and at a stop, in one run.

usage: bench/hostile_clients.py [--rounds N] [--parts NAME,..] [--proxies NAME,..] [--threads N]

The parts, each at one proxy after the other:

half-closed   1,000 clients have sent a whole request and ended their input, before an endpoint that
              takes 12 seconds: the processor time of the proxy meanwhile (the median of the
              rounds), and the p99 of a quick client (the least of the rounds, since other work of
              the machine only adds to it). Each is at most 1.5 times HAProxy's.
stop          eight stops each (nginx by SIGQUIT, HAProxy by SIGUSR1, the switch by `quit`), at
              which 100 clients have sent whole requests: none is unanswered. And eight under 300
              clients with event loops, which connect and send a moment later: no more of them are
              unanswered than of the better peer's.
uploads       1,000 uploads of 1 MiB at once, the switch with the variables of its unit: the
              greatest resident memory, at most 1.5 times what the port buffers, and what is kept
              10 seconds after, at most 64 MiB. The greatest of the rounds.
drips         1,000 uploads that drip, so that the port of the switch pauses uploads: an honest one
              of 200 KB waits for at most 2 seconds. The longest of the rounds.

A line for each measurement is printed, and at the end a line for each comparison: the values, the
limit, and `ok` or `FAILED`.

Exit status: 0 if the switch keeps each limit, 1 if it does not or a proxy does not run, 2 if the
words are wrong. Without nginx or haproxy the bench says so, measures nothing, and ends with status
0. BG_SWITCH_PROGRAM names another program than bin/bg_switch, which builds the switch if it is
stale.
"""
import argparse
import asyncio
import contextlib
import os
import pathlib
import shutil
import signal
import statistics
import subprocess
import sys
import tempfile
from collections.abc import Awaitable, Callable, Iterator, Sequence
from typing import TypeVar

TOP = pathlib.Path(__file__).resolve().parents[1]
sys.dont_write_bytecode = True
sys.path.insert(0, str(TOP / "scripts"))

from support import processes  # noqa: E402 (its folder is known by now)
from support.peers import MeasurementError, drips, half_closed, proxies, stops  # noqa: E402
from support.peers import reading_endpoint, uploads_at_once  # noqa: E402
from support.peers.comparisons import Comparison, Limit, of_better_peer, times_of  # noqa: E402
from support.peers.configurations import SWITCH, Mode, Place  # noqa: E402
from support.peers.proxies import PEERS, PORTS, Proxy  # noqa: E402
from support.peers.words import PROXIES, names_of, whole  # noqa: E402
from support.reserved import reserved  # noqa: E402

HAPROXY = "haproxy"
MOST_TIMES_OF_HAPROXY = 1.5
# In MiB: the requests at a client port, by docs/LIMITS.md; the most memory, and what is kept.
BUFFERED = 128
MOST_PEAK, MOST_KEPT = Limit(1.5 * BUFFERED), Limit(64)
MOST_WAIT = Limit(2.0)
NONE_UNANSWERED = Limit(0)
CONCURRENCY = 64  # of the switch, but for the clients that have ended their input
DESCRIPTORS = 65_536  # of each program, if the system allows them
NOTHING_JUDGED = f"{SWITCH} was not measured: nothing was judged"

Measured = TypeVar("Measured")


def folder_below(top: pathlib.Path) -> pathlib.Path:
    """A new folder, which the worker processes of nginx can enter, as another user."""
    folder = pathlib.Path(tempfile.mkdtemp(dir=top))
    folder.chmod(0o755)
    return folder


@contextlib.contextmanager
def endpoint(seconds: float, top: pathlib.Path) -> Iterator[int]:
    """The port of an endpoint that reads bodies, and answers `/later` after so many seconds."""
    port, folder = reserved(PORTS), folder_below(top)
    words = [sys.executable, "-B", reading_endpoint.__file__, str(port), str(seconds)]
    with proxies.started(words, folder):
        what = "the endpoint does not answer"
        proxies.need(lambda: proxies.answers(port, Mode.NONE), what, folder)
        yield port


def place_before(port: int, top: pathlib.Path) -> Place:
    return Place(reserved(PORTS), port, folder_below(top))


@contextlib.contextmanager
def running(name: str, place: Place, concurrency: int, threads: int) -> Iterator[Proxy]:
    """A proxy of this name, which keeps no connections."""
    if name in PEERS:
        with proxies.peer(name, place, Mode.NONE, threads) as proxy:
            yield proxy
        return
    variables = uploads_at_once.variables_of_unit()
    with proxies.switch(place, Mode.NONE, concurrency, (), variables) as proxy:
        yield proxy


class Run:
    """A run of the bench: its proxies, rounds and folder."""

    def __init__(self, asked: argparse.Namespace, top: pathlib.Path) -> None:
        self.asked, self.top = asked, top

    def told(self, part: str, number: int, name: str, found: Measured) -> Measured:
        print(f"{part}, round {number}, {name}: {found}", flush=True)
        return found

    def in_turn(self, number: int) -> list[str]:
        """The names of the proxies in the order of a round, which begins with the next one."""
        names: list[str] = self.asked.proxies
        return [*names[number % len(names) :], *names[: number % len(names)]]

    def rounds(
        self,
        part: str,
        seconds: float,
        concurrency: int,
        measured: Callable[[Proxy], Awaitable[Measured]],
    ) -> dict[str, list[Measured]]:
        """What is measured in each round of each proxy, before an endpoint that takes so long."""
        found: dict[str, list[Measured]] = {name: [] for name in self.asked.proxies}
        for number in range(1, self.asked.rounds + 1):
            for name in self.in_turn(number - 1):
                with endpoint(seconds, self.top) as port, running(
                    name, place_before(port, self.top), concurrency, self.asked.threads
                ) as proxy:

                    async def one(proxy: Proxy = proxy) -> Measured:
                        return await measured(proxy)

                    found[name].append(self.told(part, number, name, asyncio.run(one())))
        return found

    def half_closed(self) -> Iterator[Comparison]:
        found = self.rounds(
            "half-closed", half_closed.SECONDS, half_closed.CONCURRENCY, half_closed.measured
        )
        times = {
            proxy: statistics.median(one.milliseconds for one in ones)
            for proxy, ones in found.items()
        }
        # other work of the machine only adds to a wait, and often to that of one proxy alone
        waits = {proxy: min(one.p99 for one in ones) for proxy, ones in found.items()}
        for what, values in (("processor time", times), ("p99 of a quick client", waits)):
            limit = times_of(values, HAPROXY, MOST_TIMES_OF_HAPROXY)
            name = f"{half_closed.CLIENTS:,} half-closed clients, {what} in ms"
            yield Comparison(name, values, limit)

    def stop(self) -> Iterator[Comparison]:
        for kind in stops.KINDS:
            found: dict[str, list[stops.Lost]] = {name: [] for name in self.asked.proxies}
            for number in range(1, stops.ROUNDS + 1):
                for name in self.in_turn(number - 1):
                    with endpoint(stops.LATER_SECONDS, self.top) as port:
                        one = stops.measured(name, kind, place_before(port, self.top))
                        found[name].append(self.told(f"stop, {kind}", number, name, one))
            sums = {name: stops.sum_of(ones) for name, ones in found.items()}
            values = {name: float(one.unanswered) for name, one in sums.items()}
            counts = ", ".join(f"{name} {one.clients:,}" for name, one in sums.items())
            is_whole = kind == next(iter(stops.KINDS))
            limit = NONE_UNANSWERED if is_whole else of_better_peer(values)
            yield Comparison(f"{kind} without an answer at a stop (of {counts})", values, limit)

    def uploads(self) -> Iterator[Comparison]:
        found = self.rounds("uploads", 0, CONCURRENCY, uploads_at_once.measured)
        name = f"{uploads_at_once.UPLOADS:,} uploads of 1 MiB at once"
        peaks = {proxy: max(one.peak for one in ones) for proxy, ones in found.items()}
        yield Comparison(f"{name}, greatest memory in MiB", peaks, MOST_PEAK)
        kept = {proxy: max(one.kept for one in ones) for proxy, ones in found.items()}
        after = f"memory {uploads_at_once.AFTER:g} s after in MiB"
        yield Comparison(f"{name}, {after}", kept, MOST_KEPT)

    def drips(self) -> Iterator[Comparison]:
        found = self.rounds("drips", 0, CONCURRENCY, drips.measured)
        name = f"an honest upload beside {drips.CLIENTS:,} that drip"
        waits = {proxy: max(one.longest for one in ones) for proxy, ones in found.items()}
        yield Comparison(f"{name}, longest wait in s", waits, MOST_WAIT)
        lost = {proxy: float(sum(one.unanswered for one in ones)) for proxy, ones in found.items()}
        yield Comparison(f"{name}, without an answer", lost, NONE_UNANSWERED)


PARTS: dict[str, Callable[[Run], Iterator[Comparison]]] = {
    "half-closed": Run.half_closed,
    "stop": Run.stop,
    "uploads": Run.uploads,
    "drips": Run.drips,
}


def asked_for(words: Sequence[str]) -> argparse.Namespace:
    """What the words of the bench ask for. `SystemExit` with status 2 if they are wrong."""
    usage = (__doc__ or "").split("usage: ")[1].split("\n\n")[0]
    parser = argparse.ArgumentParser(
        prog="hostile_clients.py",
        usage=usage,
        formatter_class=argparse.ArgumentDefaultsHelpFormatter,
    )
    add = parser.add_argument
    add("--rounds", type=whole, default=3, metavar="N", help="of each part but the stops")
    add("--threads", type=whole, default=2, metavar="N", help="threads or workers of a peer")
    for option, known in (("--parts", tuple(PARTS)), ("--proxies", PROXIES)):
        names = ",".join(known)
        add(option, type=names_of(known), default=names, metavar="NAME,..", help="what is measured")
    return parser.parse_args(words)


def is_kept(asked: argparse.Namespace, top: pathlib.Path) -> bool:
    """Measures all that is asked for, and prints what came of it. Whether the switch keeps each
    limit."""
    run, found = Run(asked, top), list[Comparison]()
    try:
        for part in asked.parts:
            found += PARTS[part](run)
    finally:
        print("", *found, "", sep="\n")
    if not any(one.is_judged for one in found):
        print(NOTHING_JUDGED)
    return all(one.holds for one in found)


def main(words: Sequence[str]) -> int:
    asked = asked_for(words)
    if missing := [name for name in asked.proxies if name in PEERS and not shutil.which(name)]:
        print(f"hostile_clients needs {', '.join(missing)}: nothing was measured")
        return 0
    processes.limit_descriptors(DESCRIPTORS)
    signal.signal(signal.SIGTERM, lambda *_: sys.exit(1))
    load = " ".join(f"{one:.2f}" for one in os.getloadavg())
    print(f"load of the machine at the start: {load}", flush=True)
    with tempfile.TemporaryDirectory() as top:
        try:
            return 0 if is_kept(asked, folder_below(pathlib.Path(top))) else 1
        except (MeasurementError, OSError, subprocess.SubprocessError) as error:
            print(f"hostile_clients: {error}", file=sys.stderr)
            return 1


if __name__ == "__main__":
    sys.exit(main(sys.argv[1:]))
