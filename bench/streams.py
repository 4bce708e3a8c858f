#!/usr/bin/env python3
"""bg_switch --stream beside nginx and HAProxy, in alternating rounds before one endpoint on loopback.

usage: bench/streams.py [--rounds N] [--mebibytes N] [--downloads N] [--uploads N] [--streams N] [--seconds S]
                        [--only NAME,..]

Downloads: N clients at a time take a response of so many MiB each, and the bench prints MiB a second,
the processor seconds of a GiB and the most memory that the proxy took. Uploads: N clients at a time
send a request of so many MiB each to an endpoint that drops bodies as they come; the same is printed,
and the rate without a proxy, which has to be well above the others: else the bench measures its own
clients. Streams: so many clients have an open response each, to which an endpoint adds an event a
second, and the bench prints the 99th percentile of the time from an event's sending to its coming,
beside the processor seconds and the memory. All proxies have as many threads. nginx buffers in memory
alone, and sends events and bodies of requests at once. Other proxies run for the uploads, so that
the memory is theirs. `--only` names those of downloads, streams and uploads that are measured.

Exit status: 0 if each ratio keeps its limit, 1 if one does not or a proxy does not run, 2 if the
words are wrong. Without nginx or haproxy the bench says so, measures nothing, and ends with status
0. BG_SWITCH_PROGRAM names another program than bin/bg_switch, which builds the switch if it
is stale.
"""
import argparse
import concurrent.futures
import contextlib
import functools
import pathlib
import selectors
import shutil
import signal
import socket
import statistics
import subprocess
import sys
import tempfile
import threading
import time
from collections.abc import Callable, Iterator, Sequence
from typing import NamedTuple

TOP = pathlib.Path(__file__).resolve().parents[1]
sys.dont_write_bytecode = True
sys.path.insert(0, str(TOP / "scripts"))

from support import processes  # noqa: E402 (its folder is known by now)
from support.peers import MeasurementError, configurations, proxies  # noqa: E402
from support.peers import upload_clients, upload_sink  # noqa: E402
from support.peers.configurations import SWITCH, Mode, Place  # noqa: E402
from support.peers.processor_time import family, microseconds_between, thread_times  # noqa: E402
from support.peers.proxies import PEERS, PORTS, Proxy  # noqa: E402
from support.peers.words import names_of, whole  # noqa: E402
from support.ports import HOST, is_open  # noqa: E402
from support.processes import greatest_memory  # noqa: E402
from support.reserved import reserved, reserved_block  # noqa: E402

# Of the better peer's rate, of the memory of the peer that a kind names, and of the better peer's
# percentile.
LEAST_RATE, MOST_MEMORY, MOST_DELAY = 0.9, 1.0, 1 / 0.9
THREADS = 4
DESCRIPTORS = 16_384  # of each program, if the system allows them
LONGEST = 120.0  # seconds for which a client waits
SWITCH_WORDS = ("--stream", "--threads", str(THREADS))
LARGE, EVENTS = "large", "/events"
BUFFERS = "proxy_max_temp_file_size 0; location /events { proxy_pass http://endpoint; proxy_buffering off; }"
# By these nginx passes the body of a request on as it comes, whatever its length.
UNBUFFERED = "proxy_request_buffering off; client_max_body_size 0;"


class Figures(NamedTuple):
    """What a run has shown of a proxy: a rate or a delay, its processor time, and its memory in
    MiB."""

    value: float
    processor: float
    memory: float


class Kind(NamedTuple):
    """What is measured: its name, the unit of its value and of its processor time, whether a greater
    value is better, the limit of the ratio to the better peer, and whether the memory is compared
    with that of the smaller peer, or of the greater one."""

    name: str
    unit: str
    work: str
    is_rate: bool
    limit: float
    is_beside_smaller: bool = False


DOWNLOADS = Kind("downloads", "MiB a second", "processor seconds a GiB", True, LEAST_RATE)
STREAMS = Kind("streams", "milliseconds, 99th percentile", "processor seconds", False, MOST_DELAY)
UPLOADS = DOWNLOADS._replace(name="uploads", is_beside_smaller=True)
KINDS = (DOWNLOADS.name, STREAMS.name, UPLOADS.name)


def file_server(port: int, size: int, folder: pathlib.Path) -> str:
    """The text of nginx.conf of the endpoint that has the large file; other targets go to the
    endpoint of events at the port behind it."""
    with open(folder / LARGE, "wb") as file:
        file.truncate(size)
    return f"""worker_processes 2;
pid nginx.pid;
error_log stderr crit;
events {{ worker_connections {DESCRIPTORS}; }}
http {{
    access_log off;
    sendfile on;
    root {folder};
    server {{
        listen {HOST}:{port} backlog=4096;
        location /{LARGE} {{ }}
        location {EVENTS} {{ proxy_pass http://{HOST}:{port + 1}; proxy_buffering off; }}
        location / {{ return 200 "ok"; }}
    }}
}}
"""


class EventServer:
    """Adds an event a second to each open response: the moment at which it is sent."""

    def __init__(self, port: int) -> None:
        self.listener = socket.create_server((HOST, port), backlog=4096)
        self.clients: list[socket.socket] = []
        self.lock = threading.Lock()
        for work in (self.accept, self.send):
            threading.Thread(target=work, daemon=True).start()

    def accept(self) -> None:
        with contextlib.suppress(OSError):
            while True:
                client = self.listener.accept()[0]
                client.recv(65536)
                client.sendall(b"HTTP/1.1 200 OK\r\nTransfer-Encoding: chunked\r\n\r\n")
                with self.lock:
                    self.clients.append(client)

    def send(self) -> None:
        while True:
            time.sleep(1)
            with self.lock:
                clients = list(self.clients)
            for client in clients:
                event = b"%.6f\n" % time.monotonic()
                try:
                    client.sendall(b"%x\r\n%s\r\n" % (len(event), event))
                except OSError:
                    with self.lock:
                        self.clients.remove(client)
                    client.close()


@contextlib.contextmanager
def endpoint(size: int, folder: pathlib.Path) -> Iterator[int]:
    """The port of an endpoint with the large file and with events."""
    port = reserved_block(PORTS, 2)
    EventServer(port + 1)
    (folder / "nginx.conf").write_text(file_server(port, size, folder), encoding="ascii")
    folder.chmod(0o755)
    with proxies.started(PEERS["nginx"].words, folder):
        proxies.need(functools.partial(is_open, port), "the endpoint does not listen", folder)
        yield port


@contextlib.contextmanager
def sink(folder: pathlib.Path) -> Iterator[int]:
    """The port of an endpoint that drops what is sent to it."""
    port = reserved(PORTS)
    words = [sys.executable, "-B", "-m", upload_sink.__name__, str(port)]
    with proxies.started(words, folder, {"PYTHONPATH": str(TOP / "scripts")}):
        proxies.need(functools.partial(is_open, port), "the sink does not listen", folder)
        yield port


def nginx(place: Place, mode: Mode, threads: int) -> str:
    """The text of nginx.conf, by which responses are buffered in memory alone, and requests are not
    buffered."""
    text = configurations.nginx(place, mode, threads)
    own = f"        {UNBUFFERED}\n        {BUFFERS}\n"
    return text.replace("        location / {", f"{own}        location / {{", 1)


@contextlib.contextmanager
def running(place: Callable[[], Place], concurrency: int) -> Iterator[list[Proxy]]:
    """All proxies, with a connection for each request."""
    mode = Mode.NONE
    peers = {**PEERS, "nginx": PEERS["nginx"]._replace(text=nginx)}
    with contextlib.ExitStack() as stack:
        found = []
        for name, kind in peers.items():
            at = place()
            process = stack.enter_context(
                proxies.running_peer(name, kind, at, mode, kind.text(at, mode, THREADS))
            )
            found.append(Proxy(name, mode, at.port, process.pid))
        switch = proxies.switch(place(), mode, concurrency, SWITCH_WORDS)
        yield [*found, stack.enter_context(switch)]


def asking(port: int, target: str) -> socket.socket:
    client = socket.create_connection((HOST, port), timeout=LONGEST)
    client.sendall(f"GET {target} HTTP/1.1\r\nHost: x\r\nConnection: close\r\n\r\n".encode())
    return client


def bytes_of(port: int) -> int:
    """How many bytes a client takes of the large response."""
    count, buffer = 0, bytearray(1 << 20)
    with asking(port, f"/{LARGE}") as client:
        while taken := client.recv_into(buffer):
            count += taken
    return count


def downloaded(proxy: Proxy, asked: argparse.Namespace) -> Figures:
    """So many downloads at a time. `MeasurementError` if one of them is not whole."""
    before, begun = thread_times(proxy.process), time.monotonic()
    with concurrent.futures.ThreadPoolExecutor(asked.downloads) as pool:
        counts = list(pool.map(bytes_of, [proxy.port] * asked.downloads))
    seconds = time.monotonic() - begun
    if min(counts) < asked.mebibytes << 20:
        raise MeasurementError(f"{proxy.name}: a download ended after {min(counts)} bytes")
    spent = microseconds_between(before, thread_times(proxy.process)) / 1e6
    return Figures(
        sum(counts) / seconds / (1 << 20),
        spent / sum(counts) * (1 << 30),
        memory_of(proxy.process),
    )


def uploaded(proxy: Proxy, asked: argparse.Namespace) -> Figures:
    """So many uploads at a time. `MeasurementError` if one of them is not answered by the sink."""
    before = thread_times(proxy.process)
    try:
        rate = upload_clients.rate(proxy.port, asked.uploads, asked.mebibytes)
    except (MeasurementError, OSError) as error:
        raise MeasurementError(f"{proxy.name}: an upload has failed: {error}") from error
    spent = microseconds_between(before, thread_times(proxy.process)) / 1e6
    gibibytes = asked.uploads * asked.mebibytes / 1024
    return Figures(rate, spent / gibibytes, memory_of(proxy.process))


def streamed(proxy: Proxy, asked: argparse.Namespace) -> Figures:
    """So many open streams, for so many seconds."""
    delays: list[float] = []
    with contextlib.ExitStack() as stack, selectors.DefaultSelector() as selector:
        for _ in range(asked.streams):
            client = stack.enter_context(asking(proxy.port, EVENTS))
            client.setblocking(False)
            selector.register(client, selectors.EVENT_READ)
        time.sleep(2)  # the first events come while clients connect
        drain(selector, [], 0.5)
        before, until = thread_times(proxy.process), time.monotonic() + asked.seconds
        while time.monotonic() < until:
            drain(selector, delays, 0.1)
        spent = microseconds_between(before, thread_times(proxy.process)) / 1e6
    if 2 * len(delays) < asked.streams * asked.seconds:
        raise MeasurementError(f"{proxy.name}: only {len(delays)} events came")
    percentile = statistics.quantiles(delays, n=100)[98]
    return Figures(1000 * percentile, spent, memory_of(proxy.process))


def drain(selector: selectors.BaseSelector, delays: list[float], longest: float) -> None:
    """Takes the events that have come, and notes how long each was on its way."""
    for key, _ in selector.select(longest):
        client = key.fileobj
        assert isinstance(client, socket.socket)
        with contextlib.suppress(BlockingIOError):
            for line in client.recv(65536).split(b"\n"):
                with contextlib.suppress(ValueError):
                    if b"." in line:
                        delays.append(time.monotonic() - float(line))


def memory_of(process: int) -> float:
    """The most memory of a program and of those that it has started, in MiB."""
    return sum(map(greatest_memory, family(process))) / 1024


def medians(rounds: Sequence[Figures]) -> Figures:
    return Figures(*(statistics.median(each) for each in zip(*rounds)))


def verdicts(kind: Kind, found: dict[str, Figures]) -> Iterator[tuple[str, bool]]:
    """The ratios of the switch to the peers, and whether each keeps its limit."""
    own = next(figures for name, figures in found.items() if name.startswith(SWITCH))
    others = [figures for name, figures in found.items() if not name.startswith(SWITCH)]
    better = (max if kind.is_rate else min)(each.value for each in others)
    ratio = own.value / better
    holds = ratio >= kind.limit if kind.is_rate else ratio <= kind.limit
    yield f"{kind.name}: {kind.unit}, ratio to the better peer: {ratio:.2f} ({kind.limit:.2f})", holds
    word, pick = ("smaller", min) if kind.is_beside_smaller else ("greater", max)
    memory = own.memory / pick(each.memory for each in others)
    yield f"{kind.name}: memory, ratio to the {word} peer: {memory:.2f} ({MOST_MEMORY:.2f})", memory <= MOST_MEMORY


def measured(
    kind: Kind,
    found: Sequence[Proxy],
    asked: argparse.Namespace,
    run: Callable[[Proxy, argparse.Namespace], Figures],
) -> bool:
    """Measures all proxies in turn, and prints what came of it. Whether each ratio keeps its
    limit."""
    rounds: dict[str, list[Figures]] = {proxy.name: [] for proxy in found}
    for number in range(asked.rounds):
        for proxy in proxies.in_turn(found, number):
            rounds[proxy.name].append(run(proxy, asked))
    middle = {name: medians(each) for name, each in rounds.items()}
    for name, one in middle.items():
        print(
            f"{kind.name}: {name}: {one.value:.1f} {kind.unit}, {one.processor:.2f} {kind.work}, {one.memory:.1f} MiB",
            flush=True,
        )
    judged = list(verdicts(kind, middle))
    for text, holds in judged:
        print(f"{text}: {'holds' if holds else 'FAILS'}", flush=True)
    return all(holds for _, holds in judged)


def asked_for(words: Sequence[str]) -> argparse.Namespace:
    parser = argparse.ArgumentParser(
        prog="streams.py", usage=(__doc__ or "").split("usage: ")[1].split("\n\n")[0]
    )
    for name, default in (
        ("rounds", 5),
        ("mebibytes", 1024),
        ("downloads", 2),
        ("uploads", 2),
        ("streams", 1000),
        ("seconds", 10),
    ):
        parser.add_argument(f"--{name}", type=whole, default=default, metavar="N")
    names = ",".join(KINDS)
    parser.add_argument("--only", type=names_of(KINDS), default=names, metavar="NAME,..")
    return parser.parse_args(words)


def responses(asked: argparse.Namespace, new_folder: Callable[[], pathlib.Path]) -> bool:
    """Downloads and streams. Whether each ratio keeps its limit."""
    with endpoint(asked.mebibytes << 20, new_folder()) as port, running(
        lambda: Place(reserved(PORTS), port, new_folder()), min(asked.streams + 1, 1023)
    ) as found:
        holds = DOWNLOADS.name not in asked.only or measured(DOWNLOADS, found, asked, downloaded)
        if STREAMS.name in asked.only:
            holds = measured(STREAMS, found, asked, streamed) and holds
    return holds


def requests(asked: argparse.Namespace, new_folder: Callable[[], pathlib.Path]) -> bool:
    """Uploads, also without a proxy. Whether each ratio keeps its limit."""
    with sink(new_folder()) as port, running(
        lambda: Place(reserved(PORTS), port, new_folder()), min(asked.uploads + 1, 1023)
    ) as found:
        rates = [
            upload_clients.rate(port, asked.uploads, asked.mebibytes) for _ in range(asked.rounds)
        ]
        direct = f"{statistics.median(rates):.1f} {UPLOADS.unit}"
        print(f"{UPLOADS.name}: without a proxy: {direct}", flush=True)
        return measured(UPLOADS, found, asked, uploaded)


def main(words: Sequence[str]) -> int:
    asked = asked_for(words)
    if missing := [tool for tool in PEERS if not shutil.which(tool)]:
        print(f"streams needs {', '.join(missing)}: nothing was measured")
        return 0
    processes.limit_descriptors(DESCRIPTORS)
    signal.signal(signal.SIGTERM, lambda *_: sys.exit(1))
    with tempfile.TemporaryDirectory() as folder:
        top = pathlib.Path(folder)
        top.chmod(0o755)

        def new_folder() -> pathlib.Path:
            return pathlib.Path(tempfile.mkdtemp(dir=top))

        try:
            holds = asked.only == [UPLOADS.name] or responses(asked, new_folder)
            if UPLOADS.name in asked.only:
                holds = requests(asked, new_folder) and holds
            return 0 if holds else 1
        except (MeasurementError, OSError, subprocess.SubprocessError) as error:
            print(f"streams: {error}", file=sys.stderr)
            return 1


if __name__ == "__main__":
    sys.exit(main(sys.argv[1:]))
