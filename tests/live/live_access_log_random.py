"""The access log of `bg_switch serve` beside an own count: two thousand connections of all kinds,
mixed at random and beside each other. The log has exactly one line for each that sent a byte, and
each member is what the clients and the endpoints saw; the others are counted."""
import collections
import concurrent.futures
import contextlib
import pathlib
import random
import socket
import tempfile
import threading
import time
from collections.abc import Callable, Iterator, Sequence
from typing import NamedTuple

from support import clients
from support.checks import check, comes, run
from support.clients import connect, received, reset
from support.endpoints import BROKEN, Endpoint, Request
from support.messages import LARGEST_BODY, UNAVAILABLE, request, response
from support.messages import answer as answer_of
from support.ports import HOST, free_ports
from support.switch import Switch
from support.traffic import ACCESS_LOG

# isort: split; `support` tells where the tools' package is
from bg_switch_tools.switch.access_log import LogEntry, read_lines

SEED = 7
CONNECTIONS, CLIENTS, WORKERS = 2000, 32, 7
TIMEOUT = 12  # seconds within which a response has to be whole, on a busy machine too
LONGEST_ASK = 150  # seconds within which a request reaches its endpoint, or is answered
KEPT_OF_TARGET = 1024
LAST = "/last"  # the target of requests whose lines tell the last of what is counted
SLACK = 2  # milliseconds by which a rounded time may be off
SLOW = 0.25  # seconds
# Seconds for which a busy machine may run no loop between an answer that its client has read and the
# line of its request.
LATE = 30
STRATEGY = """{{"spec": {{"replicas": 3, "strategy": {{"blueGreen": {{"activeService": "web", {preview}
"autoPromotionEnabled": false}}}}}}}}"""
WITH_PREVIEW = STRATEGY.format(preview='"previewService": "web-preview",')
WITHOUT_PREVIEW = STRATEGY.format(preview="")
STATUSES = (
    b"200 OK",
    b"204 No Content",
    b"301 Moved Permanently",
    b"404 Not Found",
    b"500 Internal Server Error",
    b"503 Service Unavailable",
)
BIG = b"x" * 3000000
IN_CHUNKS = b"POST %s HTTP/1.1\r\nHost: x\r\nTransfer-Encoding: chunked\r\n\r\n"
# Heads that are malformed or too large, and the status that they are refused in; `%s` is the
# target.
MALFORMED_HEADS = (
    (b"GET %s HTTP/1.1\r\nHost : x\r\n\r\n", 400),
    (b"GET %s HTTP/1.1\r\nHost: x\r\n y\r\n\r\n", 400),
    (b"GET %s HTTP/1.1\r\nHost: x\r\nLong: " + b"y" * 17000 + b"\r\n\r\n", 431),
)
# Heads that are well-formed, and break a rule.
HEAD_FAULTS = (
    (b"GET %s HTTP/1.1\r\n\r\n", 400),
    (b"POST %s HTTP/1.1\r\nHost: x\r\nContent-Length: x\r\n\r\n", 400),
    (b"POST %s HTTP/1.1\r\nHost: x\r\nTransfer-Encoding: gzip, chunked\r\n\r\n0\r\n\r\n", 501),
)
# What is wrong behind a head: the size of a chunk, its end, a trailer, and more than a body may
# have.
BODY_FAULTS = (
    (IN_CHUNKS + b"x\r\n", 400),
    (IN_CHUNKS + b"-1\r\na\r\n0\r\n\r\n", 400),
    (IN_CHUNKS + b"3\r\nabcde\r\n0\r\n\r\n", 400),
    (b"\r\n" + IN_CHUNKS + b"1\r\na\r\n0\r\nA b: c\r\n\r\n", 400),
    (IN_CHUNKS + b"0\r\nA: " + b"y" * 17000 + b"\r\n\r\n", 400),
    (IN_CHUNKS + b"%x\r\n" % (LARGEST_BODY + 1), 413),
    (b"POST %%s HTTP/1.1\r\nHost: x\r\nContent-Length: %d\r\n\r\n" % (LARGEST_BODY + 1), 413),
)
MALFORMED = (b"/closes", b"/head", b"/cut", b"/chunk", b"/lengths", b"/status", b"/upgrade")


class Sent(NamedTuple):
    """What a client sends, and what it does then."""

    number: int
    kind: str
    is_second: bool  # of the two switches
    service: str
    method: bytes
    target: bytes
    text: bytes
    status: int = 0  # of a refusal before an endpoint


class Answered(NamedTuple):
    """What a client saw, and when: the moments before its connect and after the connection's
    end."""

    asked: Sent
    answer: bytes
    was_cut: bool
    begun: float
    ended: float


class Served(NamedTuple):
    """Where a request was answered, and how long that took at least, in seconds."""

    port: int
    seconds: float


class Endpoints:
    """Endpoints that keep which request came to which of them."""

    def __init__(self) -> None:
        self.served: dict[bytes, Served] = {}
        self.arrived: collections.defaultdict[bytes, threading.Event] = collections.defaultdict(
            threading.Event
        )
        self.lock = threading.Lock()

    def has_come(self, target: bytes) -> threading.Event:
        with self.lock:
            return self.arrived[target]

    def answer(self, read: Request, connection: socket.socket) -> None:
        port = connection.getsockname()[1]
        start = time.monotonic()
        self.served[read.target] = Served(port, 0)
        self.has_come(read.target).set()
        name = read.target.partition(b"?")[0]
        if name == b"/hangs":
            received(connection)
            return
        if name == b"/slow":
            time.sleep(SLOW)
        self.served[read.target] = Served(port, time.monotonic() - start)
        connection.sendall(answer_to(name, read.method))


def answer_to(name: bytes, method: bytes) -> bytes:
    """What an endpoint sends to a request for this."""
    if name in BROKEN:
        return BROKEN[name]
    if name == b"/big":
        return response(BIG)
    if name.startswith(b"/status/"):
        line = STATUSES[int(name.rpartition(b"/")[2])]
        length = b"" if line.startswith(b"204") else b"Content-Length: 2\r\n"
        body = b"" if method == b"HEAD" or not length else b"ok"
        return b"HTTP/1.1 %s\r\n%s\r\n%s" % (line, length, body)
    return b"HTTP/1.1 200 OK\r\nContent-Length: 2\r\n\r\n" + (b"" if method == b"HEAD" else b"ok")


def asked_at_random(rng: random.Random, number: int) -> Sent:
    """A connection of a kind that is drawn."""
    kind = rng.choices(list(KINDS), [weight for weight, _ in KINDS.values()])[0]
    is_second = rng.random() < 0.5
    service = "active"
    if kind == "elsewhere":
        service, kind = "preview", "no_preview" if is_second else "no_endpoint"
        asked = whole(rng, b"/elsewhere?%d" % number)
    else:
        asked = KINDS[kind][1](rng, number)
    return asked._replace(number=number, kind=kind, is_second=is_second, service=service)


def whole(rng: random.Random, target: bytes) -> Sent:
    """A request for a target, with a body or without one."""
    method = rng.choice((b"GET", b"GET", b"HEAD", b"POST", b"DELETE"))
    body = rng.randbytes(rng.choice((1, 100, 3000))) if method == b"POST" else None
    text = request(target, method, body, chunked=rng.random() < 0.5)
    return Sent(0, "", False, "", method, target, text)


def answered(rng: random.Random, number: int) -> Sent:
    """A request that is answered in one of several statuses; some targets have to be escaped or
    cut."""
    place = rng.randrange(len(STATUSES) + 2)
    name = b"/status/%d" % place if place < len(STATUSES) else rng.choice((b"/slow", b"/plain"))
    more = rng.choice((b"", b"", b'"<script>\\\xc3\xa9', b"a" * 2000))
    return whole(rng, b"%s?%d&%s" % (name, number, more))


def by_get(*names: bytes) -> Callable[[random.Random, int], Sent]:
    """A request for one of these names, whose answer has a body."""

    def asked(rng: random.Random, number: int) -> Sent:
        target = b"%s?%d" % (rng.choice(names), number)
        return Sent(0, "", False, "", b"GET", target, request(target))

    return asked


def faulty(faults: Sequence[tuple[bytes, int]]) -> Callable[[random.Random, int], Sent]:
    """A request that is refused before it enters."""

    def asked(rng: random.Random, number: int) -> Sent:
        template, status = rng.choice(faults)
        target = b"/faulty?%d" % number
        text = template.replace(b"%s", target)
        return Sent(0, "", False, "", text.lstrip().partition(b" ")[0], target, text, status)

    return asked


def part(rng: random.Random, number: int) -> Sent:
    """A request that isn't sent whole: its head is cut, or its body."""
    target = b"/part?%d" % number
    text = request(target, b"POST", rng.randbytes(300), chunked=rng.random() < 0.5)
    return Sent(0, "", False, "", b"POST", target, text[: rng.randrange(1, len(text) - 5)])


def nothing(_: random.Random, __: int) -> Sent:
    return Sent(0, "", False, "", b"", b"", b"")


# How often a kind comes, and what its client sends.
KINDS: dict[str, tuple[int, Callable[[random.Random, int], Sent]]] = {
    "answered": (1000, answered),
    "elsewhere": (160, nothing),
    "malformed": (140, by_get(*MALFORMED)),
    "too_large": (60, by_get(b"/large")),
    "timeout": (24, by_get(b"/hangs")),
    "client_gone": (24, by_get(b"/hangs")),
    "cut_in_answer": (60, by_get(b"/big")),
    "malformed_head": (80, faulty(MALFORMED_HEADS)),
    "head": (80, faulty(HEAD_FAULTS)),
    "body": (160, faulty(BODY_FAULTS)),
    "silent": (60, nothing),
    "part": (80, part),
    "silent_reset": (40, nothing),
    "part_reset": (60, part),
}


def answered_request(asked: Sent, port: int, endpoints: Endpoints) -> Answered:
    """Makes a connection, and gives what its client saw."""
    begun = time.time()
    with connect(port) as client:
        with contextlib.suppress(ConnectionError):
            client.sendall(asked.text)
        was_cut, answer = ENDS.get(asked.kind, to_the_end)(client, asked, endpoints)
    return Answered(asked, answer, was_cut, begun, time.time())


def to_the_end(client: socket.socket, _: Sent, __: Endpoints) -> tuple[bool, bytes]:
    return False, received(client)


def close(_: socket.socket, __: Sent, ___: Endpoints) -> tuple[bool, bytes]:
    return True, b""


def cut(client: socket.socket, _: Sent, __: Endpoints) -> tuple[bool, bytes]:
    reset(client)
    return True, b""


def give_up(client: socket.socket, asked: Sent, endpoints: Endpoints) -> tuple[bool, bytes]:
    """Goes once its endpoint has the request."""
    has_come = endpoints.has_come(asked.target)
    client.settimeout(0.02)
    for _ in range(LONGEST_ASK * 50):
        if has_come.is_set():
            reset(client)
            return True, b""
        with contextlib.suppress(TimeoutError):
            first = client.recv(1)
            client.settimeout(LONGEST_ASK)
            return False, first + received(client)
    raise TimeoutError("a request that reached no endpoint")


def cut_in_answer(client: socket.socket, _: Sent, __: Endpoints) -> tuple[bool, bytes]:
    """Goes once a part of the answer has come."""
    first = client.recv(1000)
    if first.startswith(b"HTTP/1.1 200 "):
        reset(client)
        return True, first
    return False, first + received(client)


ENDS = {
    "silent": close,
    "part": close,
    "silent_reset": cut,
    "part_reset": cut,
    "client_gone": give_up,
    "cut_in_answer": cut_in_answer,
}


def without_times(entry: LogEntry) -> LogEntry:
    """The entry without times, without the number of its request, which a client can't tell, and
    without the connections that sent nothing."""
    return entry._replace(
        time=0, request=None, duration_ms=0, upstream_ms=None, idle_connections=None
    )


def shown(asked: Sent) -> tuple[str | None, str | None]:
    """The method and the target of what was sent, if its head came whole, is well-formed, and
    reading did not fail."""
    if asked.kind in ("malformed_head", "part_reset") or b"\r\n\r\n" not in asked.text:
        return None, None
    return asked.method.decode(), asked.target[:KEPT_OF_TARGET].decode(errors="replace")


REASONS = {
    "malformed": "response_malformed",
    "too_large": "response_too_large",
    "timeout": "response_timeout",
}


def expected_entry(seen: Answered, served: Served | None, dead: int) -> LogEntry:
    """What the log has to say of a connection, without times and numbers."""
    asked, answer = seen.asked, seen.answer
    method, target = shown(asked)
    entry = LogEntry(
        time=0,
        service=asked.service,
        revision=None,
        request=None,
        port=None,
        method=method,
        target=target,
        status=status_of(answer),
        end="refused",
        reason=None,
        request_bytes=len(asked.text),
        response_bytes=len(answer),
        duration_ms=0,
        upstream_ms=None,
    )
    if asked.kind.startswith("part"):
        return entry._replace(end="read_failed" if asked.kind.endswith("reset") else "closed")
    if asked.kind in ("malformed_head", "head", "body"):
        return entry._replace(status=asked.status, reason=asked.kind.removeprefix("malformed_"))
    if asked.kind in ("no_preview", "no_endpoint"):
        return entry._replace(status=503, reason=asked.kind)
    entry = entry._replace(revision=1, port=served.port if served else dead)
    if served is None:
        return entry._replace(reason="connect_failed")
    if asked.kind == "client_gone":
        return entry._replace(status=499, reason="client_gone", response_bytes=len(UNAVAILABLE))
    if asked.kind == "cut_in_answer":
        return entry._replace(status=200, end="answered", response_bytes=len(answer_of(BIG)))
    if asked.kind == "answered":
        return entry._replace(end="answered")
    return entry._replace(reason=REASONS[asked.kind])


def status_of(answer: bytes) -> int | None:
    """The status of an answer, of which nothing need have come."""
    return int(answer[9:12]) if answer else None


def fits(entry: LogEntry, expected: LogEntry, kind: str) -> bool:
    """Whether an entry says what it has to. How far a request with a fault was read isn't fixed,
    nor whether an answer was handed over before its client went, nor whether the system has taken
    the 503 to a client that had gone.
    """
    if expected.reason in ("head", "body"):
        most, count = expected.request_bytes or 0, entry.request_bytes or 0
        return 0 < count <= most and entry._replace(request_bytes=most) == expected
    if kind == "cut_in_answer" and entry.has_client_gone:
        return entry == expected._replace(
            status=499, end="refused", reason="client_gone", response_bytes=entry.response_bytes
        )
    if kind == "client_gone" and not entry.response_bytes:
        return entry == expected._replace(response_bytes=0)
    return entry == expected


def take_fitting(
    entries: list[LogEntry], expected: Sequence[tuple[LogEntry, str]]
) -> list[tuple[LogEntry, str]]:
    """Takes an entry away for each expected one, with the kind of its connection, that it fits. Gives
    those that none fits."""
    missing = []
    # an entry that says less than another one goes to the connection that sent less
    for line, kind in sorted(expected, key=lambda one: one[0].request_bytes or 0):
        fitting = [entry for entry in entries if fits(entry, line, kind)]
        if fitting:
            entries.remove(max(fitting, key=lambda entry: entry.request_bytes or 0))
        else:
            missing.append((line, kind))
    return missing


def fits_times(entry: LogEntry, seen: Answered, served: Served | None) -> bool:
    """Whether the times of a line lie within what the client and the endpoint measured."""
    millis = (seen.ended - seen.begun) * 1000 + SLACK
    if not seen.was_cut and not (
        seen.begun - SLACK / 1000 <= entry.time <= seen.ended + LATE
        and entry.duration_ms <= millis + LATE * 1000 * (entry.time > seen.ended)
    ):
        return False
    if entry.revision is None:
        return entry.upstream_ms is None
    least = served.seconds * 1000 - SLACK if served else 0
    if seen.asked.kind == "timeout" and served:
        least = (TIMEOUT - 1) * 1000
    return least <= (entry.upstream_ms or 0) <= entry.duration_ms + SLACK


class LoggedSwitches(NamedTuple):
    """Two switches with a log each, whose endpoints keep what came; the third port of each
    refuses."""

    switches: list[Switch]
    logs: list[pathlib.Path]
    endpoints: Endpoints
    dead: int

    def port(self, asked: Sent) -> int:
        switch = self.switches[asked.is_second]
        return switch.active if asked.service == "active" else switch.preview

    def check_idle(self, number: int, count: int) -> None:
        """A check that the lines of a log count `count` connections that sent nothing. A count is
        in the next line, so further requests are made."""

        def is_told() -> bool:
            clients.get(self.switches[number].active, LAST)
            entries = read_lines(self.logs[number].read_bytes().splitlines()).entries
            return sum(entry.idle_connections or 0 for entry in entries) == count

        check("connections that sent nothing are counted", comes(is_told), True)

    def entries(self, number: int, count: int) -> list[LogEntry]:
        """What stands in a log, once there is so much and no more comes."""
        log = self.logs[number]
        check(
            "as many lines as connections",
            comes(lambda: log.read_bytes().count(b"\n") >= count),
            True,
        )
        time.sleep(0.3)
        batch = read_lines(log.read_bytes().splitlines())
        check("lines that can't be read, or were lost", (batch.unreadable, batch.lost), (0, 0))
        return batch.entries


@contextlib.contextmanager
def logged_switches() -> Iterator[LoggedSwitches]:
    """A scene, of which nothing is left after the block."""
    with contextlib.ExitStack() as stack:
        folder = pathlib.Path(stack.enter_context(tempfile.TemporaryDirectory()))
        refusing = stack.enter_context(socket.socket())
        refusing.bind((HOST, free_ports(1)[0]))
        dead = refusing.getsockname()[1]
        endpoints = Endpoints()
        ports = [Endpoint(endpoints.answer, port).port for port in free_ports(2)]
        logs = [folder / "first", folder / "second"]
        switches = [
            Switch(rollout, workers=WORKERS, timeout=TIMEOUT, variables={ACCESS_LOG: str(log)})
            for rollout, log in zip((WITH_PREVIEW, WITHOUT_PREVIEW), logs)
        ]
        for switch in switches:
            stack.callback(switch.stop)
            check(
                "open",
                [
                    switch.answer_to(f"open one {ports[0]} {ports[1]} {dead}"),
                    switch.answer_to("available 1 3"),
                ],
                ["ok 0", "ok 0"],
            )
        lines = ["deploy two {} {} {}".format(*free_ports(3)), "available 2 3", "available 2 0"]
        check(
            "a preview with no endpoint",
            [switches[0].answer_to(line) for line in lines],
            ["ok 0", "ok 1", "ok 0"],
        )
        yield LoggedSwitches(switches, logs, endpoints, dead)


def check_log(setup: LoggedSwitches, number: int, seen: Sequence[Answered]) -> None:
    """A check that a log has exactly the lines of what was seen, each with its right members."""
    setup.check_idle(number, sum(one.asked.kind.startswith("silent") for one in seen))
    seen = [one for one in seen if not one.asked.kind.startswith("silent")]
    entries = [
        entry
        for entry in setup.entries(number, len(seen))
        if not (entry.target or "").startswith(LAST)
    ]
    check("a line for each connection that sent a byte", len(entries), len(seen))
    numbers = sorted(entry.request for entry in entries if entry.request is not None)
    check("the numbers of the requests", numbers, list(range(1, len(numbers) + 1)))
    check(
        "requests that entered",
        [entry.request is None for entry in entries],
        [entry.revision is None for entry in entries],
    )
    by_target = {entry.target: entry for entry in entries if entry.target is not None}
    rest = [without_times(entry) for entry in entries if entry.target is None]
    without_target: list[tuple[LogEntry, str]] = []
    faults: dict[str, list[object]] = {"lines": [], "times": []}
    for one in seen:
        served = setup.endpoints.served.get(one.asked.target)
        expected = expected_entry(one, served, setup.dead)
        entry = by_target.pop(expected.target, None) if expected.target is not None else None
        if expected.target is None:
            without_target.append((expected, one.asked.kind))
        elif entry is None or not fits(without_times(entry), expected, one.asked.kind):
            faults["lines"].append((one.asked.kind, entry and without_times(entry), expected))
        elif not fits_times(entry, one, served):
            faults["times"].append((one.asked.kind, entry, one.ended - one.begun, served))
    for name, found in faults.items():
        check(f"{name} that are wrong", (len(found), found[:2]), (0, []))
    check("lines of no connection", list(by_target.values())[:2], [])
    missing = take_fitting(rest, without_target)
    check("connections that sent no request line", (rest[:2], missing[:2]), ([], []))


def two_thousand_connections() -> None:
    rng = random.Random(SEED)
    plan = [asked_at_random(rng, number) for number in range(CONNECTIONS)]
    with logged_switches() as setup:
        with concurrent.futures.ThreadPoolExecutor(CLIENTS) as pool:
            seen = list(
                pool.map(
                    lambda asked: answered_request(asked, setup.port(asked), setup.endpoints), plan
                )
            )
        for number in (0, 1):
            check_log(setup, number, [one for one in seen if one.asked.is_second == bool(number)])
        counts = collections.Counter(one.asked.kind for one in seen)
        check("kinds that came", set(counts), {*KINDS, "no_preview", "no_endpoint"} - {"elsewhere"})


if __name__ == "__main__":
    run("live_access_log_random", [two_thousand_connections])
