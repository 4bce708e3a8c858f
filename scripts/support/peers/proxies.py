"""Running proxies, and the endpoint behind them."""
import contextlib
import http.client
import math
import os
import pathlib
import signal
import subprocess
from collections.abc import Callable, Iterator, Mapping, Sequence
from typing import NamedTuple

from support import PROGRAM, TOP, processes
from support.checks import comes
from support.operators import Operator
from support.peers import MeasurementError, configurations
from support.peers.configurations import SWITCH, Mode, Place
from support.ports import HOST, is_open
from support.reserved import reserved
from support.switch import LISTENING, words_of_serve

PORTS = range(10_000, 14_000)  # below those that the system gives to connections by itself
LONGEST = 36_000.0  # seconds for which a program runs
ANSWER_SECONDS = 30.0
ENDPOINT = TOP / "bench" / "beside_peers" / "endpoint.c"
ENDPOINT_PROCESSES = 2
ROLLOUT = '{"spec": {"replicas": 1, "strategy": {"blueGreen": {"activeService": "web"}}}}'

Running = subprocess.Popen[str]


class Proxy(NamedTuple):
    """A proxy: its name, with the words that say how many requests it forwards at a time, if they
    are limited; which connections it keeps; its port, its process, and that limit."""

    name: str
    mode: Mode
    port: int
    process: int
    concurrency: float = math.inf

    def is_measured(self, delay: float, clients: int) -> bool:
        """Whether its figures say how good it is. Before an endpoint that takes `delay` seconds, a
        proxy with fewer requests at a time than clients answers as many as this number lets it. A
        peer whose limit clients don't reach does the same as without one."""
        is_at_its_limit = clients > self.concurrency
        if self.concurrency < math.inf and not self.name.startswith(SWITCH):
            return is_at_its_limit and not delay
        return not delay or not is_at_its_limit


def in_turn(proxies: Sequence[Proxy], number: int) -> list[Proxy]:
    """The proxies in the order of a round. The next round begins with the next proxy, since a proxy
    finds the closed connections of the one before it."""
    first = number % max(1, len(proxies))
    return [*proxies[first:], *proxies[:first]]


@contextlib.contextmanager
def started(
    words: Sequence[str], folder: pathlib.Path, variables: Mapping[str, str] | None = None
) -> Iterator[Running]:
    """A program that runs in a folder until the end of the block, which ends what it has started
    too, with these variables of the environment beside those of the bench. What it tells stands in
    the file `told` there."""
    pipe = subprocess.PIPE
    with open(folder / "told", "w", encoding="utf-8") as told, subprocess.Popen(
        words,
        stdin=pipe,
        stdout=pipe,
        stderr=told,
        text=True,
        cwd=folder,
        start_new_session=True,
        env={**os.environ, **(variables or {})},
    ) as process:
        processes.limit(process, LONGEST)
        try:
            yield process
        finally:
            if process.poll() is None:
                os.killpg(process.pid, signal.SIGTERM)
            processes.end(process)


def told_in(folder: pathlib.Path) -> str:
    return (folder / "told").read_text(encoding="utf-8").rstrip()


def need(holds: Callable[[], object], what: str, folder: pathlib.Path) -> None:
    """`MeasurementError` if this does not hold soon."""
    if not comes(holds, ANSWER_SECONDS):
        raise MeasurementError(f"{what}: {told_in(folder)}")


def is_answered(client: http.client.HTTPConnection, mode: Mode) -> bool:
    """Whether a request is answered well. The client connects if it has no connection."""
    client.request("GET", "/")
    return is_well_answered(client, mode)


def is_well_answered(client: http.client.HTTPConnection, mode: Mode) -> bool:
    """Whether the request of a client is answered with 200, and its connection then kept if and only
    if the mode says so."""
    answer = client.getresponse()
    answer.read()
    return answer.status == 200 and (client.sock is not None) == mode.keeps_clients


def client_of(port: int) -> http.client.HTTPConnection:
    return http.client.HTTPConnection(HOST, port, timeout=ANSWER_SECONDS)


def answers(port: int, mode: Mode) -> bool:
    """Whether a port answers in this mode."""
    with contextlib.closing(client_of(port)) as client:
        with contextlib.suppress(OSError, http.client.HTTPException):
            return is_answered(client, mode)
    return False


@contextlib.contextmanager
def endpoint(delay: float, folder: pathlib.Path) -> Iterator[int]:
    """The port of an endpoint that answers after `delay` seconds: a program in C, which is built
    into the folder."""
    place = folder / "endpoint"
    place.mkdir()
    port, program = reserved(PORTS), str(place / "program")
    subprocess.run(["gcc", "-O2", "-o", program, str(ENDPOINT)], check=True)
    words = [program, str(port), str(1000 * delay), str(ENDPOINT_PROCESSES)]
    with started(words, place):
        need(lambda: answers(port, Mode.BOTH), "the endpoint does not answer", place)
        yield port


class Peer(NamedTuple):
    """Another proxy: how its file is named and written, and the words that start it."""

    file: str
    text: Callable[[Place, Mode, int], str]
    words: tuple[str, ...]


PEERS = {
    "nginx": Peer(
        "nginx.conf",
        configurations.nginx,
        ("nginx", "-p", ".", "-c", "nginx.conf", "-g", "daemon off;"),
    ),
    "haproxy": Peer("haproxy.cfg", configurations.haproxy, ("haproxy", "-f", "haproxy.cfg", "-db")),
}
LIMITED = "haproxy"  # the peer that can let requests wait for others


@contextlib.contextmanager
def peer(name: str, place: Place, mode: Mode, threads: int) -> Iterator[Proxy]:
    """A peer with `threads` threads or worker processes."""
    kind = PEERS[name]
    with running_peer(name, kind, place, mode, kind.text(place, mode, threads)) as process:
        yield Proxy(name, mode, place.port, process.pid)


@contextlib.contextmanager
def limited_peer(place: Place, mode: Mode, threads: int, most: int) -> Iterator[Proxy]:
    """HAProxy with `threads` threads that forwards at most `most` requests at a time. nginx has no
    such limit: beyond `max_conns` it refuses requests, where these wait."""
    kind, name = PEERS[LIMITED], f"{LIMITED} maxconn {most}"
    text = configurations.haproxy(place, mode, threads, most)
    with running_peer(name, kind, place, mode, text) as process:
        yield Proxy(name, mode, place.port, process.pid, most)


@contextlib.contextmanager
def running_peer(name: str, kind: Peer, place: Place, mode: Mode, text: str) -> Iterator[Running]:
    """A peer with this text of its file, which answers."""
    (place.folder / kind.file).write_text(text, encoding="ascii")
    with started(kind.words, place.folder) as process:
        need(lambda: is_open(place.port), f"{name} does not listen", place.folder)
        what = f"{name} does not answer, or not in the mode {mode.value}"
        need(lambda: answers(place.port, mode), what, place.folder)
        yield process


def help_of_serve() -> str:
    """What `serve --help` prints. A launcher builds the program first, if it is stale."""
    run = processes.run_to_end([PROGRAM, "serve", "--help"], longest=LONGEST)
    return run.printed + run.told


class RunningSwitch(NamedTuple):
    """A switch whose first revision is available, and its control port. The process may be that of
    a tool that runs it."""

    process: Running
    control: int

    def quit(self) -> None:
        """Ends it, and waits for its end."""
        with contextlib.closing(Operator(self.control)) as operator:
            operator.send_quit()
            self.process.wait(ANSWER_SECONDS)


def open_book(control: int, port: int) -> None:
    """Opens the book with one revision, whose endpoint is available."""
    with contextlib.closing(Operator(control)) as operator:
        for line in (f"open v1 {port}", "available 1 1"):
            if (reply := operator.answer_to(line)) != "ok 0":
                raise MeasurementError(f"the switch answers {line!r} with {reply!r}")


@contextlib.contextmanager
def running_switch(
    program: Sequence[str],
    place: Place,
    flags: Sequence[str],
    variables: Mapping[str, str] | None = None,
) -> Iterator[RunningSwitch]:
    """The program with these flags of `serve` and these variables of the environment; the words of
    a tool that runs it may stand before it."""
    control = reserved(PORTS)
    words = [*program, *words_of_serve(place.port, control, None, 0, None, flags)]
    with started(words, place.folder, variables) as process:
        assert process.stdin is not None and process.stdout is not None
        with contextlib.suppress(BrokenPipeError), process.stdin:
            process.stdin.write(ROLLOUT)
        if process.stdout.readline() != LISTENING:
            raise MeasurementError(f"the switch does not listen: {told_in(place.folder)}")
        open_book(control, place.endpoint)
        yield RunningSwitch(process, control)


@contextlib.contextmanager
def switch(
    place: Place,
    mode: Mode,
    concurrency: int,
    flags: Sequence[str],
    variables: Mapping[str, str] | None = None,
) -> Iterator[Proxy]:
    """The switch with `concurrency` requests at a time, the flags of a mode, and these variables of
    the environment."""
    words = ("--concurrency", str(concurrency), *flags)
    with running_switch([PROGRAM], place, words, variables) as running:
        what = f"the switch does not answer, or not in the mode {mode.value}"
        need(lambda: answers(place.port, mode), what, place.folder)
        name = f"{SWITCH} {' '.join(words[:2])}"
        yield Proxy(name, mode, place.port, running.process.pid, concurrency)
