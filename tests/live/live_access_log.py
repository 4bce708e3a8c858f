"""The access log of `bg_switch serve`: what each line says, clients that have gone and connections
that send nothing, a file that is renamed, one that takes nothing, one that takes nothing for a
while, one that takes a part of a line or of the count of lost lines, and one that can't be
opened."""
import contextlib
import os
import pathlib
import resource
import signal
import socket
import tempfile
import time
from collections.abc import Callable, Iterator, Sequence
from functools import partial

from support.checks import check, check_soon, comes, run
from support.clients import at_once, connect, get, received, reset, timed
from support.endpoints import Endpoint, by_target
from support.messages import NO_PREVIEW, UNAVAILABLE, answer, head_of, request
from support.ports import connections_at
from support.switch import Switch
from support.traffic import ACCESS_LOG

# isort: split; `support` tells where the tools' package is
from bg_switch_tools.switch.access_log import LogEntry, read_lines

CLIENTS, REQUESTS = 8, 2000
TIMEOUT = 600  # seconds for which an endpoint may be silent: longer than a busy machine makes it
SHORT_TIMEOUT = 4  # the same, if an endpoint or a client is silent for longer
ABORT_ON_CLOSE = "--abort-on-close"
DRAINS = """{"spec": {"strategy": {"blueGreen": {"activeService": "web", "scaleDownDelaySeconds": 5,
"drainLimitSeconds": 10}}}}"""
IDLE = 7  # connections that send nothing
HOSTILE = b'/"<script>\\\xc3\xa9'
LONG = b"/" + b"a" * 3000
KEPT_OF_TARGET = 1024
REOPENED = 2  # seconds after a rename, within which the switch reopens the file
WRITTEN = 0.5  # seconds after which lines are written: the switch writes ten times a second
IN_CHUNKS = b"POST /chunks HTTP/1.1\r\nHost: x\r\nTransfer-Encoding: chunked\r\n\r\n"
MANY = b"A: " + b"b" * 17000 + b"\r\n"
# What is wrong behind a head that has no fault, and the status that it is refused in.
FAULTS_OF_BODIES = (
    ("a wrong size", b"x\r\n", 400),
    ("a wrong end", b"1\r\nab\r\n0\r\n\r\n", 400),
    ("a wrong trailer", b"0\r\nA b: c\r\n\r\n", 400),
    ("large trailers", b"0\r\n" + MANY + b"\r\n", 400),
    ("a large chunk", b"100001\r\n", 413),
)
# How many bytes of lines wait to be written at most. A request whose line in the log is long, and
# more of them than the log keeps lines; the first of them fill the FIFO.
QUEUE = 1 << 24
# It has no Host, and so is refused; its method and its target, of which each byte is two in the
# log, make a long line.
WIDE = b"M" * 1024 + b" /" + b'"' * 1023 + b" HTTP/1.1\r\n\r\n"
FIRST_REQUESTS, WIDE_REQUESTS = 32, 5600
# How many bytes the file of a full disk takes, and how many lines are for it.
ROOM, LINES_FOR_ROOM = 1000, 20
# The room for a part of the first line, so that no line is taken before the queue is full; requests
# whose short lines fill what the long ones leave of the queue; by how much the room grows, which is
# less than the line with the count of lost lines has.
FIRST_ROOM, SHORT_REQUESTS, MORE_ROOM = 100, 20, 40
SHORTEST, LONGEST = 200, 300  # how many bytes a line of a short request has at least and at most
STILL = 3  # seconds for which a reader of the log stands still


class Log:
    """The file of a switch's log."""

    def __init__(self, path: pathlib.Path) -> None:
        self.path = path

    def entries(self) -> list[LogEntry]:
        """What stands in it; each line can be read."""
        if not self.path.exists():
            return []
        batch = read_lines(self.path.read_bytes().splitlines())
        check("lines that can't be read", (batch.unreadable, batch.lost), (0, 0))
        return batch.entries

    def awaited(self, count: int) -> list[LogEntry]:
        """The entries, once there are `count` of them."""
        comes(lambda: self.path.exists() and self.path.read_bytes().count(b"\n") >= count)
        return self.entries()


@contextlib.contextmanager
def logging(
    path: pathlib.Path,
    workers: int = 1,
    prepare: Callable[[], object] = lambda: None,
    flags: Sequence[str] = (),
    timeout: int = TIMEOUT,
) -> Iterator[tuple[Switch, Endpoint]]:
    """A switch that logs to this path, and the endpoint of its first revision. `prepare` is called
    in the switch's process."""
    endpoint = Endpoint(by_target(b"one"))
    switch = Switch(
        NO_PREVIEW,
        workers=workers,
        flags=flags,
        timeout=timeout,
        variables={ACCESS_LOG: str(path)},
        prepare=prepare,
    )
    check(
        "open",
        (switch.answer_to(f"open one {endpoint.port}"), switch.answer_to("available 1 1")),
        ("ok 0", "ok 0"),
    )
    try:
        yield switch, endpoint
    finally:
        switch.stop()
        endpoint.stop()


@contextlib.contextmanager
def folder() -> Iterator[pathlib.Path]:
    with tempfile.TemporaryDirectory() as name:
        yield pathlib.Path(name)


def told(entry: LogEntry) -> tuple[object, ...]:
    return entry.service, entry.status, entry.end, entry.reason, entry.method, entry.target


def kinds_of_ends() -> None:
    """Each kind of end is logged with its reason, by the order in which the connections ended."""
    with folder() as there, logging(there / "log", timeout=SHORT_TIMEOUT) as (switch, endpoint):
        port = switch.active
        refused: list[tuple[str, bytes, tuple[object, ...]]] = [
            ("answered", request(), ("active", 200, "answered", None, "GET", "/")),
            (
                "malformed",
                b"GET / HTTP/1.1\r\nHost : x\r\n\r\n",
                ("active", 400, "refused", "head", None, None),
            ),
            ("no host", b"GET / HTTP/1.1\r\n\r\n", ("active", 400, "refused", "head", "GET", "/")),
            ("too large a body", head_of(2000000), ("active", 413, "refused", "body", "POST", "/")),
            *[
                (
                    f"{name} in a body",
                    IN_CHUNKS + rest,
                    ("active", status, "refused", "body", "POST", "/chunks"),
                )
                for name, rest, status in FAULTS_OF_BODIES
            ],
            (
                "a large head",
                request(b"/", b"GET").replace(b"Host", MANY + b"Host"),
                ("active", 431, "refused", "head", None, None),
            ),
            (
                "not supported",
                b"CONNECT x:1 HTTP/1.1\r\nHost: x\r\n\r\n",
                ("active", 501, "refused", "head", "CONNECT", "x:1"),
            ),
            (
                "an early end",
                request(b"/closes"),
                ("active", 502, "refused", "response_malformed", "GET", "/closes"),
            ),
            (
                "a malformed response",
                request(b"/status"),
                ("active", 502, "refused", "response_malformed", "GET", "/status"),
            ),
            (
                "a large response",
                request(b"/large"),
                ("active", 502, "refused", "response_too_large", "GET", "/large"),
            ),
            (
                "a silent endpoint",
                request(b"/hangs"),
                ("active", 502, "refused", "response_timeout", "GET", "/hangs"),
            ),
        ]
        for _, text, _ in refused:
            switch.raw(port, text)
        for (name, _, expected), entry in zip(
            refused, Log(there / "log").awaited(len(refused)), strict=True
        ):
            check(f"the log of {name}", told(entry), expected)
        later = ends_of_others(switch, endpoint)
        entries = Log(there / "log").awaited(len(refused) + len(later))[len(refused) :]
        for (name, expected), entry in zip(later, entries, strict=True):
            check(f"the log of {name}", told(entry), expected)


def ends_of_others(switch: Switch, endpoint: Endpoint) -> list[tuple[str, tuple[object, ...]]]:
    """Connections that end otherwise, one after the other, and what is logged of each."""
    with connect(switch.active) as client:
        client.sendall(b"GET /half HT")
    time.sleep(0.3)
    with connect(switch.active) as client:
        client.sendall(request(b"/hangs"))
        comes(lambda: switch.open_requests() == [1])
        reset(client)
        check(
            "a client that has gone frees its seat",
            comes(lambda: switch.open_requests() == [0]),
            True,
        )
    with connect(switch.active) as client:
        client.sendall(request(b"/slow"))
        comes(lambda: switch.open_requests() == [1])
        reset(client)
    comes(lambda: switch.open_requests() == [0])
    switch.raw(switch.preview or 0, request(b"/preview"))
    switch.answer_to("available 1 0")
    switch.raw(switch.active, request(b"/nowhere"))
    switch.answer_to("available 1 1")
    endpoint.stop()
    switch.raw(switch.active, request(b"/down"))
    return [
        ("a client that ended early", ("active", None, "closed", None, None, None)),
        ("a client that has gone", ("active", 499, "refused", "client_gone", "GET", "/hangs")),
        (
            "a client that does not take its response",
            ("active", 499, "refused", "client_gone", "GET", "/slow"),
        ),
        ("no preview service", ("preview", 503, "refused", "no_preview", "GET", "/preview")),
        ("no endpoint", ("active", 503, "refused", "no_endpoint", "GET", "/nowhere")),
        ("an endpoint that is down", ("active", 502, "refused", "connect_failed", "GET", "/down")),
    ]


def clients_that_only_end_their_input() -> None:
    """A client that only ends its input is answered; with `--abort-on-close` it has gone."""
    for flags, target, expected in (
        ((), b"/slow", (200, "answered", None)),
        ((ABORT_ON_CLOSE,), b"/hangs", (499, "refused", "client_gone")),
    ):
        with folder() as there, logging(there / "log", flags=flags) as (switch, _):
            switch.raw(switch.active, request(target))
            (entry,) = Log(there / "log").awaited(1)
            check(
                f"a client that only ends its input, {' '.join(flags) or 'without flags'}",
                (entry.status, entry.end, entry.reason),
                expected,
            )


def drain_limit() -> None:
    """A request that the drain limit gives up has a reason of its own, whether or not its client
    has ended its input."""
    endpoints = [Endpoint(by_target(name)) for name in (b"one", b"two")]
    with folder() as there, contextlib.ExitStack() as stack:
        path = there / "log"
        switch = Switch(DRAINS, workers=2, preview=False, variables={ACCESS_LOG: str(path)})
        for ends in (switch.stop, *(endpoint.stop for endpoint in endpoints)):
            stack.callback(ends)
        switch.answer_to(f"open one {endpoints[0].port}")
        switch.answer_to("available 1 1")
        stays, only_ends = (stack.enter_context(connect(switch.active)) for _ in range(2))
        for client in (stays, only_ends):
            client.sendall(request(b"/hangs"))
        only_ends.shutdown(socket.SHUT_WR)
        comes(lambda: switch.open_requests() == [2])
        lines = (f"deploy two {endpoints[1].port}", "available 2 1", "tick 15")
        replies = [switch.answer_to(line) for line in lines]
        check("the drain limit is over", replies, ["ok 0", "ok 4", "ok 0"])
        check("the answers to both", [received(stays), received(only_ends)], [UNAVAILABLE] * 2)
        check(
            "the log of requests that the drain limit gives up",
            [told(entry) for entry in Log(path).awaited(2)],
            [("active", 503, "refused", "given_up", "GET", "/hangs")] * 2,
        )


def idle_connections() -> None:
    """A connection that sends nothing has no line, however it ends. The next line counts them."""
    with folder() as there, logging(there / "log", workers=2, timeout=SHORT_TIMEOUT) as (switch, _):
        log = Log(there / "log")

        def counts(lines: int) -> list[int | None]:
            """How many connections each of `lines` lines counts."""
            return [entry.idle_connections for entry in log.awaited(lines)]

        get(switch.active)
        check("the line before", counts(1), [None])
        for number in range(IDLE):
            with connect(switch.active if number % 3 else switch.preview) as client:
                if number % 2:
                    reset(client)
        check("they have ended", comes(partial(has_no_client, switch)), True)
        time.sleep(WRITTEN)
        check("no line of a connection that sent nothing", counts(1), [None])
        with connect(switch.active) as client:
            client.sendall(b"G")
        check("the next line tells their number", counts(2), [None, IDLE])
        get(switch.active)
        check("the line after it tells none", counts(3), [None, IDLE, None])
        with connect(switch.active) as silent, connect(switch.active) as begun:
            begun.sendall(b"GET /begun HT")
            check("both are given up", (received(silent), received(begun)), (b"", b""))
        get(switch.active)
        check(
            "a request that is given up has a line, and a connection that sent nothing is counted",
            (
                [(entry.status, entry.end) for entry in log.awaited(5)[3:]],
                sum(count or 0 for count in counts(5)),
            ),
            ([(None, "read_failed"), (200, "answered")], IDLE + 1),
        )


def has_no_client(switch: Switch) -> bool:
    """Whether no client is connected any more."""
    return connections_at(switch.active) + connections_at(switch.preview) == 0


def each_field() -> None:
    """The numbers of a line, and targets that have to be escaped or cut."""
    with folder() as there, logging(there / "log") as (switch, endpoint):
        began, start = time.time(), time.monotonic()
        body = b"x" * 5000
        text = request(b"/slow", b"POST", body)
        answer = switch.raw(switch.active, text) or b""
        most = 1000 * (time.monotonic() - start) + 1
        for target in (HOSTILE, LONG):
            switch.raw(switch.active, request(target))
        first, hostile, long = Log(there / "log").awaited(3)
        check("bytes", (first.request_bytes, first.response_bytes), (len(text), len(answer)))
        check("numbers", (first.revision, first.request, first.port), (1, 1, endpoint.port))
        check("a time", began - 1 <= first.time <= time.time() + 1, True)
        check(
            "milliseconds",
            250 <= first.duration_ms <= most
            and 250 <= (first.upstream_ms or 0) <= first.duration_ms + 1,
            True,
        )
        check("a hostile target", hostile.target, HOSTILE.decode())
        check("a long target", long.target, LONG.decode()[:KEPT_OF_TARGET])


def as_many_lines() -> None:
    """Each of many requests has exactly one line, even if the file is renamed in between."""
    with folder() as there, logging(there / "log", workers=CLIENTS - 1) as (switch, _):
        renamed = there / "log.1"

        def ask() -> None:
            for _ in range(REQUESTS // CLIENTS):
                get(switch.active)

        def rename() -> None:
            comes(lambda: (there / "log").read_bytes().count(b"\n") >= REQUESTS // 8)
            (there / "log").rename(renamed)

        at_once([*[ask] * CLIENTS, rename])
        get(switch.active)
        check("a renamed file is left", comes(lambda: (there / "log").exists()), True)
        count = REQUESTS + 1

        def lines() -> int:
            return sum(
                path.read_bytes().count(b"\n") for path in (there / "log", renamed) if path.exists()
            )

        check("a line for each request", (comes(lambda: lines() >= count), lines()), (True, count))
        entries = Log(renamed).entries() + Log(there / "log").entries()
        check(
            "each request once",
            sorted(entry.request or 0 for entry in entries),
            list(range(1, count + 1)),
        )
        check(
            "all answered",
            {(entry.status, entry.end, entry.reason) for entry in entries},
            {(200, "answered", None)},
        )


def renamed_file() -> None:
    """A request after the file was renamed has its line in the new file, each time. The renamed
    file gets no further line."""
    with folder() as there, logging(there / "log") as (switch, _):
        log = Log(there / "log")
        get(switch.active)
        check(
            "the line before the file is renamed", [entry.request for entry in log.awaited(1)], [1]
        )
        for number in (2, 3):
            renamed = there / f"log.{number}"
            log.path.rename(renamed)
            before = renamed.read_bytes()
            time.sleep(REOPENED)
            comes(log.path.exists)
            get(switch.active)
            check(
                "the line of a request after the file was renamed",
                [entry.request for entry in log.awaited(1)],
                [number],
            )
            time.sleep(WRITTEN)
            check("further bytes of a renamed file", renamed.read_bytes().removeprefix(before), b"")


def full_disk() -> None:
    """A file that takes nothing stops no request, and no end."""
    with logging(pathlib.Path("/dev/full")) as (switch, _):
        start = time.monotonic()
        answers = {get(switch.active) for _ in range(50)}
        check("answers beside a full disk", answers, {(200, b"one")})
        check_soon("they wait for no disk", time.monotonic() - start, 10)


class Fifo:
    """The log of a switch that is a FIFO, and its reader, which stands still until it is asked."""

    def __init__(self, path: pathlib.Path) -> None:
        os.mkfifo(path)
        self.reader = os.open(path, os.O_RDONLY | os.O_NONBLOCK)
        self.got = b""
        self.lines: list[bytes] = []  # the whole lines that have come
        self.told = 0  # how many lines these are, with those that were counted

    def close(self) -> None:
        os.close(self.reader)

    def read(self) -> None:
        """Takes what has come up to now."""
        with contextlib.suppress(BlockingIOError):
            while piece := os.read(self.reader, 1 << 16):
                self.got += piece
        *lines, self.got = self.got.split(b"\n")
        batch = read_lines(lines)
        self.lines += lines
        self.told += len(batch.entries) + batch.lost

    def has(self, count: int) -> bool:
        """Whether `count` lines are written or counted, at a time that comes soon."""

        def is_told() -> bool:
            self.read()
            return self.told >= count

        return comes(is_told)


def longest_wait(port: int, count: int) -> float:
    """How many seconds a client of many whose lines are long waits at most."""
    return max(timed(port, [WIDE]).seconds for _ in range(count))


def slow_disk() -> None:
    """A log whose reader stands still holds nobody up. Lines for which there is no room are
    counted, and the count is written once the reader goes on."""
    with folder() as there, contextlib.closing(Fifo(there / "log")) as fifo, logging(
        there / "log", workers=CLIENTS - 1
    ) as (switch, _):
        longest_wait(switch.active, FIRST_REQUESTS)
        time.sleep(WRITTEN)
        start = time.monotonic()
        waits = at_once([lambda: longest_wait(switch.active, WIDE_REQUESTS // CLIENTS)] * CLIENTS)
        check_soon("requests beside a slow disk", max(waits), STILL)
        time.sleep(max(STILL - (time.monotonic() - start), 0))
        count = FIRST_REQUESTS + WIDE_REQUESTS
        check("each line is written or counted", fifo.has(count), True)
        check_lost_lines(fifo.lines, count)
        get(switch.active)
        check(
            "a line once the reader goes on",
            (fifo.has(count + 1), told(read_lines(fifo.lines[-1:]).entries[-1])),
            (True, ("active", 200, "answered", None, "GET", "/")),
        )


def leave_room(room: int = ROOM) -> None:
    """The process that calls this may write `room` bytes to a file. A write beyond that fails, as
    on a full disk."""
    signal.signal(signal.SIGXFSZ, signal.SIG_IGN)
    resource.setrlimit(resource.RLIMIT_FSIZE, (room, resource.RLIM_INFINITY))


def make_room(switch: Switch, room: int = resource.RLIM_INFINITY) -> None:
    resource.prlimit(switch.process.pid, resource.RLIMIT_FSIZE, (room, resource.RLIM_INFINITY))


def last_line(path: pathlib.Path) -> bytes:
    """The last line of a file, if it is whole; else nothing."""
    with path.open("rb") as file:
        file.seek(max(path.stat().st_size - LONGEST, 0))
        end = file.read()
    return end.splitlines()[-1] if end.endswith(b"\n") else b""


def count_in_parts() -> None:
    """A disk that becomes full within the line with the count of lost lines gets its rest, and the
    count once."""
    with folder() as there, logging(
        there / "log", workers=CLIENTS - 1, prepare=partial(leave_room, FIRST_ROOM)
    ) as (switch, _):
        path = there / "log"

        def has_count() -> bool:
            return b'"lost":' in last_line(path)

        def is_full(room: int) -> bool:
            return path.stat().st_size == room

        get(switch.active)
        check("the first line is cut", comes(partial(is_full, FIRST_ROOM)), True)
        at_once([lambda: longest_wait(switch.active, WIDE_REQUESTS // CLIENTS)] * CLIENTS)
        for _ in range(SHORT_REQUESTS):
            get(switch.active)
        rooms = range(QUEUE + SHORTEST - LONGEST, QUEUE + 2 * LONGEST, MORE_ROOM)
        for room in rooms:
            make_room(switch, room)
            comes(lambda: is_full(room) or has_count())
            if has_count():
                break
        make_room(switch)
        time.sleep(WRITTEN)
        lines = path.read_bytes().splitlines()
        check_lost_lines(lines, 1 + WIDE_REQUESTS + SHORT_REQUESTS)
        before = sum(len(line) + 1 for line in lines[:-1])
        check(
            "the line with the count was cut",
            any(before < room <= before + len(lines[-1]) for room in rooms),
            True,
        )


def line_over_rotation() -> None:
    """A line that a file has taken in part is completed in that file, also if the file is renamed
    meanwhile."""
    with folder() as there, logging(there / "log", prepare=leave_room) as (switch, _):
        for _ in range(LINES_FOR_ROOM):
            get(switch.active)
        log, renamed = Log(there / "log"), Log(there / "log.1")
        check("a file takes a part of a line", comes(lambda: log.path.stat().st_size == ROOM), True)
        log.path.rename(renamed.path)
        time.sleep(REOPENED)
        check("the file stays open while it has a part of a line", log.path.exists(), False)
        make_room(switch)
        check("a file is opened once the line is whole", comes(log.path.exists), True)
        get(switch.active)
        entries = renamed.entries() + log.awaited(1)
        check(
            "each request once, beside a rotation",
            [entry.request for entry in entries],
            list(range(1, LINES_FOR_ROOM + 2)),
        )


def full_disk_ends_whole_lines() -> None:
    """A disk that becomes full in the middle of a line gets the rest of the line first once there
    is room."""
    with folder() as there, logging(there / "log", prepare=leave_room) as (switch, _):
        for _ in range(LINES_FOR_ROOM):
            get(switch.active)
        log = Log(there / "log")
        check("the disk is full", comes(lambda: log.path.stat().st_size == ROOM), True)
        check("a line is cut by a full disk", log.path.read_bytes().endswith(b"\n"), False)
        check(
            "a full disk is told",
            switch.tells("the access log takes nothing: File too large"),
            True,
        )
        time.sleep(REOPENED)
        check("a full disk is told once", switch.count_told("the access log takes nothing"), 1)
        make_room(switch)
        entries = log.awaited(LINES_FOR_ROOM)
        check(
            "each request once, beside a full disk",
            [entry.request for entry in entries],
            list(range(1, LINES_FOR_ROOM + 1)),
        )
        check("the end of a full disk is told", switch.tells("the access log: lines lost: 0"), True)


def starts_after_a_part() -> None:
    """A file that ends in a part of a line, as an end of the switch on a full disk leaves it, gets
    a line end first."""
    part = b'{"time":"2026-'
    with folder() as there:
        (there / "log").write_bytes(part)
        with logging(there / "log") as (switch, _):
            get(switch.active)
            check(
                "a line behind a part of a line",
                comes(lambda: (there / "log").read_bytes().count(b"\n") >= 2),
                True,
            )
            lines = (there / "log").read_bytes().splitlines()
            check("the part of a line", lines[0], part)
            check(
                "the line behind it",
                [entry.request for entry in read_lines(lines[1:]).entries],
                [1],
            )


def check_lost_lines(lines: list[bytes], count: int) -> None:
    """Checks the lines of `count` requests, some of which had no room: the count is behind those
    that had it."""
    batch = read_lines(lines)
    check(
        "the lines that were written and those that were counted",
        (len(batch.entries) + batch.lost, batch.unreadable),
        (count, 0),
    )
    check("lines are lost", batch.lost > 0, True)
    check("the last line is the count", read_lines(lines[-1:]).lost, batch.lost)
    check(
        "no line is lost before the queue is full",
        sum(len(line) + 1 for line in lines) > QUEUE - max(map(len, lines)),
        True,
    )


def has_ended(switch: Switch) -> bool:
    return switch.process.poll() is not None


def unread_fifo() -> None:
    """A FIFO as the log, whose reader has gone or stands still, doesn't keep the switch from its
    end."""
    for has_gone in (True, False):
        with tempfile.TemporaryDirectory() as folder:
            path = pathlib.Path(folder) / "log"
            os.mkfifo(path)
            reader = os.open(path, os.O_RDONLY | os.O_NONBLOCK)
            endpoint = Endpoint(by_target(b"one"))
            switch = Switch(NO_PREVIEW, preview=False, variables={ACCESS_LOG: str(path)})
            check(
                "an opening",
                [switch.answer_to(f"open one {endpoint.port}"), switch.answer_to("available 1 1")],
                ["ok 0", "ok 0"],
            )
            if has_gone:
                os.close(reader)
                time.sleep(REOPENED)
            answers = {
                timed(switch.active, [request(b"/" + b"a" * 1000)]).answer for _ in range(120)
            }
            check("answers beside a log that nobody reads", answers, {answer(b"one")})
            with contextlib.closing(switch.operator()) as operator:
                operator.send_quit()
            check(
                f"an end with a reader that {'has gone' if has_gone else 'stands still'}",
                comes(partial(has_ended, switch)),
                True,
            )
            switch.kill()
            if not has_gone:
                os.close(reader)


def no_file() -> None:
    """A log that can't be opened is told, and nothing is served."""
    path = "/nowhere/log"
    switch = Switch(NO_PREVIEW, preview=False, variables={ACCESS_LOG: path})
    check("the end without a log", (switch.first, switch.wait()), ("", ("", 1)))
    why = (
        f"bg_switch: the access log {path} can't be opened: No such file or directory (os error 2)"
    )
    check("a log that can't be opened", switch.tells(why), True)


def no_text() -> None:
    """A variable that isn't UTF-8 is told, and nothing is served."""
    switch = Switch(NO_PREVIEW, preview=False, variables={ACCESS_LOG: os.fsdecode(b"/tmp/\xff")})
    check("the end with a variable that isn't UTF-8", (switch.first, switch.wait()), ("", ("", 1)))
    why = f"bg_switch: {ACCESS_LOG} can't be read: environment variable was not valid unicode"
    check("a variable that isn't UTF-8", switch.tells(why), True)


def no_log_is_named() -> None:
    """Without the variable nothing is logged."""
    endpoint = Endpoint(by_target(b"one"))
    switch = Switch(NO_PREVIEW, preview=False)
    switch.answer_to(f"open one {endpoint.port}")
    switch.answer_to("available 1 1")
    check("an answer without a log", get(switch.active), (200, b"one"))
    switch.stop()
    check("nothing is told", switch.told, [])
    endpoint.stop()


if __name__ == "__main__":
    run(
        "live_access_log",
        (
            kinds_of_ends,
            clients_that_only_end_their_input,
            drain_limit,
            idle_connections,
            each_field,
            as_many_lines,
            renamed_file,
            full_disk,
            slow_disk,
            count_in_parts,
            line_over_rotation,
            full_disk_ends_whole_lines,
            starts_after_a_part,
            unread_fifo,
            no_file,
            no_text,
            no_log_is_named,
        ),
        at_once=3,
    )
