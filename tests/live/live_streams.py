"""`bg_switch serve --stream` on loopback: responses are passed on as they come, whatever their
length. In which framings, when a client sees that one was cut, what happens to connections then, and
what slow readers, silent endpoints, drains and shutdowns come to."""
import contextlib
import pathlib
import re
import socket
import tempfile
import threading
import time
import zlib
from collections.abc import Callable, Iterator, Mapping, Sequence
from typing import NamedTuple

from support import checks
from support.access_logs import entries_of
from support.checks import check, check_soon, check_within, comes
from support.clients import connect, polite, received, reset, timed
from support.endpoints import AROUND_DATA, END_OF_HEAD, LONGEST, Request, chunked, in_one_chunk
from support.endpoints import up_to_the_end
from support.kept import TO_THE_END, KeptEndpoint, echo, last
from support.messages import BAD_GATEWAY, NO_PREVIEW, answer, data_of_chunks, request, response
from support.processes import greatest_memory
from support.stderr_lines import cut_off, told
from support.switch import Switch
from support.traffic import ACCESS_LOG

# isort: split; `support` tells where the tools' package is
from bg_switch_tools.switch.access_log import LogEntry

STREAM, KEEP_ALIVE = "--stream", "--keep-alive"
DRAINS = """{"spec": {"strategy": {"blueGreen": {"activeService": "web", "scaleDownDelaySeconds": 5,
"drainLimitSeconds": 10}}}}"""
# So long that it ends nothing on a busy machine, in seconds; and one that ends what is silent.
TIMEOUT, SHORT_TIMEOUT = 600, 4
SOON = 5.0  # seconds: far less than any timeout
AT_ONCE = 1.0  # seconds in which an event comes
BLOCK = bytes(range(256)) * 256
BLOCKS = 1024
SIZE = BLOCKS * len(BLOCK)
# What a switch may take beside what it has, in KiB, while responses of any length are passed on.
MEMORY = 16 << 10
HALF = 50_000
IN_CHUNKS_FIELD, LENGTH = b"Transfer-Encoding: chunked", re.compile(rb"Content-Length: (\d+)")
IN_CHUNKS = b"HTTP/1.1 200 OK\r\nTransfer-Encoding: chunked\r\n\r\n"
LARGE, EVENTS, ENDLESS, SILENT = b"/large", b"/events", b"/endless", b"/silent"
SHORT, SHORT_CHUNKS, BAD_CHUNK, SHORT_END = (
    b"/short",
    b"/short-chunks",
    b"/bad-chunk",
    b"/short-end",
)
NO_CONTENT, NOT_MODIFIED, BAD_HEAD, CHUNKS = b"/204", b"/304", b"/bad-head", b"/chunks"
SLOW_READERS = 20
MAX_BODY, MOST = "--max-response-body", 100_000
FEW = 1_000  # bytes of a chunk that come in one piece


class StreamEndpoint(KeptEndpoint):
    """An endpoint whose responses are long, come in steps, or break off. `steps` lets it send one
    event each, and `sent` counts the bytes of responses that never end."""

    def __init__(self) -> None:
        self.steps = threading.Semaphore(0)
        self.is_last_event = False
        self.sent = 0
        super().__init__()

    def answer_by_target(self, asked_for: Request, connection: socket.socket) -> None:
        target = asked_for.target
        if target == LARGE:
            connection.sendall(b"HTTP/1.1 200 OK\r\nContent-Length: %d\r\n\r\n" % SIZE)
            for _ in range(BLOCKS):
                connection.sendall(BLOCK)
        elif target == EVENTS:
            self.send_events(connection)
        elif target == ENDLESS:
            connection.sendall(IN_CHUNKS)
            while True:
                connection.sendall(b"%x\r\n%s\r\n" % (len(BLOCK), BLOCK))
                with self.lock:
                    self.sent += len(BLOCK)
        elif target == CHUNKS:
            connection.sendall(chunked(BLOCK, 1000))
        elif target in SIZED:
            self.send_sized(asked_for, connection)
        elif target in BROKEN_OFF:
            connection.sendall(BROKEN_OFF[target])
            connection.close()
        elif target == BAD_CHUNK:
            connection.sendall(IN_CHUNKS + b"4\r\ngood\r\n")
            self.steps.acquire(timeout=LONGEST)
            connection.sendall(b"zz\r\n")
        elif target == SILENT:
            connection.sendall(IN_CHUNKS + b"4\r\nonce\r\n")
            connection.recv(1)
        elif target == BAD_HEAD:
            connection.sendall(b"HTTP/1.1 200 OK\r\nContent-Length: x\r\n\r\n")
        elif target == NO_CONTENT:
            connection.sendall(b"HTTP/1.1 204 No Content\r\n\r\n")
        elif target == NOT_MODIFIED:
            connection.sendall(b"HTTP/1.1 304 Not Modified\r\nContent-Length: 10\r\n\r\n")
        else:
            super().answer_by_target(asked_for, connection)

    def send_sized(self, asked_for: Request, connection: socket.socket) -> None:
        """Sends the first piece at once, and each later one at a step. A body without a framing goes
        up to the end of the connection."""
        first, *later = SIZED[asked_for.target]
        if asked_for.method == b"HEAD":
            first, later = first.partition(END_OF_HEAD)[0] + END_OF_HEAD, []
        connection.sendall(first)
        for piece in later:
            self.steps.acquire(timeout=LONGEST)
            connection.sendall(piece)
        if first.startswith(up_to_the_end(b"")):
            connection.close()

    def send_events(self, connection: socket.socket) -> None:
        connection.sendall(IN_CHUNKS)
        for number in range(1_000):
            self.steps.acquire(timeout=LONGEST)
            if self.is_last_event:
                connection.sendall(b"0\r\n\r\n")
                return
            event = b"event %d\n" % number
            connection.sendall(b"%x\r\n%s\r\n" % (len(event), event))


# What an endpoint sends before it closes the connection in the middle of a response.
BROKEN_OFF = {
    SHORT: b"HTTP/1.1 200 OK\r\nContent-Length: %d\r\n\r\n%s" % (2 * HALF, b"x" * HALF),
    SHORT_CHUNKS: IN_CHUNKS + b"%x\r\n%s\r\n" % (HALF, b"x" * HALF),
    SHORT_END: IN_CHUNKS + b"4\r\ngo",
}


# What an endpoint sends at each target: a body of as many bytes as it may have, or of more.
ABOVE = BLOCK * 4
TRAILER = b"X-Sum: 1\r\n"
LENGTH_BLOCK, LENGTH_MOST, LENGTH_ABOVE = b"/length-block", b"/length-most", b"/length-above"
CHUNK_MOST, CHUNK_ABOVE, TRAILER_MOST = b"/chunk-most", b"/chunk-above", b"/trailer-most"
CHUNK_BY_1, TRAILER_BY_1, LATER_ABOVE = b"/chunk-by-1", b"/trailer-by-1", b"/later-above"
END_MOST, END_BY_1, END_ABOVE = b"/end-most", b"/end-by-1", b"/end-above"
SIZED: Mapping[bytes, Sequence[bytes]] = {
    LENGTH_BLOCK: (response(BLOCK),),
    LENGTH_MOST: (response(ABOVE[:MOST]),),
    LENGTH_ABOVE: (response(ABOVE[: MOST + 1]),),
    CHUNK_MOST: (in_one_chunk(ABOVE[: MOST - AROUND_DATA]),),
    CHUNK_BY_1: (in_one_chunk(ABOVE[: MOST - AROUND_DATA + 1]),),
    TRAILER_MOST: (in_one_chunk(ABOVE[: MOST - AROUND_DATA - len(TRAILER)], TRAILER),),
    TRAILER_BY_1: (in_one_chunk(ABOVE[: MOST - AROUND_DATA - len(TRAILER) + 1], TRAILER),),
    CHUNK_ABOVE: (in_one_chunk(ABOVE),),
    LATER_ABOVE: (
        IN_CHUNKS + b"%x\r\n%s\r\n" % (FEW, ABOVE[:FEW]),
        b"%x\r\n%s\r\n0\r\n\r\n" % (len(ABOVE) - FEW, ABOVE[FEW:]),
    ),
    END_MOST: (up_to_the_end(ABOVE[:MOST]),),
    END_BY_1: (up_to_the_end(ABOVE[: MOST + 1]),),
    END_ABOVE: (up_to_the_end(ABOVE),),
}


class Streaming(NamedTuple):
    """A switch that passes responses on, its endpoint, and the file of its access log."""

    switch: Switch
    endpoint: StreamEndpoint
    log: pathlib.Path

    def entries(self, count: int) -> list[LogEntry]:
        """The entries of the log, once there are `count` of them."""
        return entries_of(self.log, count)

    def is_left(self) -> bool:
        """Whether no request is open at a time that comes soon: a client may have the end of its
        response before its request has left."""
        return comes(lambda: self.switch.open_requests() == [0])

    def is_free(self) -> bool:
        """Whether no request is open, and the endpoint has no connection, at a time that comes
        soon."""
        return self.is_left() and comes(lambda: self.endpoint.open == 0)


@contextlib.contextmanager
def streaming(
    *flags: str,
    rollout: str = NO_PREVIEW,
    timeout: int = TIMEOUT,
    workers: int = 2,
    ends: bool = False,
) -> Iterator[Streaming]:
    """A switch with the flag, whose active revision has an endpoint of its own. `ends` says whether
    it ends by itself in the block."""
    with tempfile.TemporaryDirectory() as folder:
        log, endpoint = pathlib.Path(folder) / "log", StreamEndpoint()
        switch = Switch(
            rollout,
            workers=workers,
            preview=False,
            timeout=timeout,
            flags=(STREAM, *flags),
            variables={ACCESS_LOG: str(log)},
        )
        check(
            "open",
            (switch.answer_to(f"open one {endpoint.port}"), switch.answer_to("available 1 1")),
            ("ok 0", "ok 0"),
        )
        try:
            yield Streaming(switch, endpoint, log)
        finally:
            (switch.kill if ends else switch.stop)()
            endpoint.stop()


def old(text: bytes) -> bytes:
    """The request of a client of HTTP/1.0."""
    return text.replace(b"HTTP/1.1", b"HTTP/1.0", 1)


class Answered(NamedTuple):
    """What came to a client, and whether a reset ended it."""

    text: bytes
    is_reset: bool


def nothing() -> None:
    """Does nothing."""


def answered(port: int, text: bytes, then: Callable[[], object] = nothing) -> Answered:
    """What a client is answered that sends this, and does not end its side. `then` is called once
    something has come."""
    got, is_reset = bytearray(), False
    with connect(port) as client:
        client.sendall(text)
        try:
            while piece := client.recv(65536):
                if not got:
                    then()
                got += piece
        except ConnectionResetError:
            is_reset = True
    return Answered(bytes(got), is_reset)


def received_up_to(client: socket.socket, text: bytes, before: bytes) -> bytes:
    """What comes to a client, beside what came before, until this text is there. `EOFError` if its
    connection ends before."""
    got = b""
    while text not in before + got:
        piece = client.recv(65536)
        if not piece:
            raise EOFError(f"the connection ended before {text!r}")
        got += piece
    return got


def one_in_chunks(text: bytes) -> tuple[bytes, bytes]:
    """The data of a body in chunks, and what follows its end. `ValueError` if the end is missing."""
    data, left = data_of_chunks(text)
    if left is None:
        raise ValueError("the last chunk is missing")
    return data, left


def is_whole(body: bytes) -> bool:
    """Whether a body in chunks has its end, and nothing behind it."""
    try:
        return one_in_chunks(body)[1] == b""
    except ValueError:
        return False


def large() -> None:
    """A response of 64 MiB comes whole to clients of both versions, and the switch holds little of
    it."""
    with streaming() as streamed:
        switch = streamed.switch
        expected = zlib.crc32(BLOCK * BLOCKS)
        before = greatest_memory(switch.process.pid)
        for version, text in ((b"1.1", request(LARGE)), (b"1.0", old(request(LARGE)))):
            head, _, body = timed(switch.active, [text]).answer.partition(b"\r\n\r\n")
            name = f"a large response to HTTP/{version.decode()}"
            check(
                f"{name}: its head",
                head,
                b"HTTP/1.1 200 OK\r\nContent-Length: %d\r\nConnection: close" % SIZE,
            )
            check(f"{name}: its body", (len(body), zlib.crc32(body)), (SIZE, expected))
        check_within(
            "KiB for large responses", greatest_memory(switch.process.pid) - before, MEMORY
        )
        whole = SIZE + len(head) + 4
        found = streamed.entries(2)
        check(
            "their lines",
            [(one.status, one.reason, one.response_bytes) for one in found],
            [(200, None, whole)] * 2,
        )


def events() -> None:
    """Each event comes as it is sent: in chunks to a client of HTTP/1.1, and up to the end of the
    connection to one of HTTP/1.0."""
    for text, field in (
        (request(EVENTS), b"Transfer-Encoding: chunked"),
        (old(request(EVENTS)), b""),
    ):
        with streaming() as (switch, endpoint, _), connect(switch.active) as client:
            client.sendall(text)
            got, longest = b"", 0.0
            for number in range(5):
                begun = time.monotonic()
                endpoint.steps.release()
                got += received_up_to(client, b"event %d\n" % number, got)
                longest = max(longest, time.monotonic() - begun)
            check_soon("the longest wait for an event", longest, AT_ONCE)
            endpoint.is_last_event = True
            endpoint.steps.release()
            head, _, body = (got + received(client)).partition(b"\r\n\r\n")
            sent = b"".join(b"event %d\n" % number for number in range(5))
            check("the framing of events", field in head, True)
            check("the events", one_in_chunks(body) if field else (body, b""), (sent, b""))


def framings() -> None:
    """Responses without a body, in chunks and up to the end of the connection."""
    with streaming() as (switch, _, _):
        whole = b"HTTP/1.1 200 OK\r\nTransfer-Encoding: chunked\r\nConnection: close\r\n\r\n"
        for target, method, expected in (
            (NO_CONTENT, b"GET", b"HTTP/1.1 204 No Content\r\nConnection: close\r\n\r\n"),
            (
                NOT_MODIFIED,
                b"GET",
                b"HTTP/1.1 304 Not Modified\r\nContent-Length: 10\r\nConnection: close\r\n\r\n",
            ),
            (b"/any", b"HEAD", answer(echo(b"/any")).removesuffix(echo(b"/any"))),
            (TO_THE_END, b"GET", whole + b"3\r\nall\r\n0\r\n\r\n"),
            (b"/any", b"GET", answer(echo(b"/any"))),
            (BAD_HEAD, b"GET", BAD_GATEWAY),
        ):
            name = f"{method.decode()} {target.decode()}"
            check(name, answered(switch.active, request(target, method)).text, expected)
        head, _, body = answered(switch.active, request(CHUNKS)).text.partition(b"\r\n\r\n")
        check("chunks", (head + b"\r\n\r\n", one_in_chunks(body)), (whole, (BLOCK, b"")))
        head, _, body = answered(switch.active, old(request(CHUNKS))).text.partition(b"\r\n\r\n")
        check("chunks to HTTP/1.0", (head, body), (b"HTTP/1.1 200 OK\r\nConnection: close", BLOCK))


def kept() -> None:
    """Connections of both sides go on after responses that were passed on, also if a client sends
    its requests at once."""
    with streaming(KEEP_ALIVE) as (switch, endpoint, _):
        targets = (b"/first", CHUNKS, NO_CONTENT, b"/last")
        with connect(switch.active) as client:
            client.sendall(b"".join(request(target) for target in targets[:-1]))
            client.sendall(last(request(targets[-1])))
            parts = bodies_of(received(client))
        check(
            "responses on one connection",
            parts,
            [echo(b"/first"), BLOCK, b"", echo(b"/last")],
        )
        check("requests that came", endpoint.targets(), list(targets))
        check("connections to the endpoint", endpoint.connections, 1)


def bodies_of(text: bytes) -> list[bytes]:
    """The bodies of responses on one connection, by length, in chunks or without any."""
    bodies = []
    while text:
        head, _, text = text.partition(b"\r\n\r\n")
        if IN_CHUNKS_FIELD in head:
            body, text = one_in_chunks(text)
        else:
            found = LENGTH.search(head)
            length = int(found[1]) if found else 0
            body, text = text[:length], text[length:]
        bodies.append(body)
    return bodies


def cut() -> None:
    """A client can tell that a response was cut, and the connection to its endpoint is used by no
    other request."""
    with streaming(KEEP_ALIVE) as streamed:
        switch, endpoint, _ = streamed
        x = b"x" * HALF
        cases: Sequence[tuple[str, bytes, bytes, bool]] = (
            ("a length that is not reached", request(SHORT), x, False),
            ("the same to HTTP/1.0", old(request(SHORT)), x, True),
            ("chunks without their end", request(SHORT_CHUNKS), x, False),
            ("the same to HTTP/1.0", old(request(SHORT_CHUNKS)), x, True),
            ("a chunk that is malformed", request(BAD_CHUNK), b"good", False),
            ("the same to HTTP/1.0", old(request(BAD_CHUNK)), b"good", True),
            ("an end within a chunk, to HTTP/1.0", old(request(SHORT_END)), b"go", True),
        )
        for name, text, body, is_reset in cases:
            # it sends what is malformed once the client has got the rest
            then: Callable[[], object] = nothing
            if BAD_CHUNK in text:
                then = endpoint.steps.release
            found = answered(switch.active, text, then)
            head, _, got = found.text.partition(b"\r\n\r\n")
            if b"Transfer-Encoding: chunked" in head:
                got, left = data_of_chunks(got)
                check(f"{name}: no last chunk", left, None)
            # a reset may overtake bytes
            check(
                f"{name}: the body",
                got if not is_reset else body.startswith(got),
                body if not is_reset else True,
            )
            check(f"{name}: a reset", found.is_reset, is_reset)
            check(
                f"{name}: a whole one later",
                answered(switch.active, last(request(b"/next"))).text,
                answer(echo(b"/next")),
            )
        # one for the first response, and a new one after each cut
        check("connections to the endpoint", endpoint.connections, 1 + len(cases))
        entries = [one for one in streamed.entries(2 * len(cases)) if one.target != "/next"]
        check(
            "the lines of cut responses",
            {(one.status, one.end, one.reason) for one in entries},
            {(502, "cut", "response_malformed")},
        )
        check("bytes of cut responses", all(one.response_bytes for one in entries), True)
        check_told(switch, len(cases))
        check("no request is open", streamed.is_left(), True)


def check_told(switch: Switch, count: int) -> None:
    """A check that standard error soon has so many responses that were cut off."""

    def counted() -> int:
        return sum(int(line[1]) for line in told(switch, cut_off()))

    comes(lambda: counted() >= count)
    check("responses that were cut off, by standard error", counted(), count)


def within_the_limit() -> None:
    """A response whose body has as many bytes as it may have comes whole, and a larger length of one
    without a body is passed on."""
    most = ABOVE[:MOST]
    in_chunk = most[: MOST - AROUND_DATA]
    with streaming(KEEP_ALIVE, MAX_BODY, str(MOST)) as streamed:
        switch = streamed.switch
        found = answered(switch.active, last(request(LENGTH_MOST)))
        check("a length of as many", found, Answered(answer(most), False))
        for target, text, data in (
            (CHUNK_MOST, last(request(CHUNK_MOST)), in_chunk),
            (TRAILER_MOST, last(request(TRAILER_MOST)), in_chunk[: -len(TRAILER)]),
            (END_MOST, last(request(END_MOST)), most),
        ):
            body = answered(switch.active, text).text.partition(b"\r\n\r\n")[2]
            check(f"{target.decode()}: as many", one_in_chunks(body), (data, b""))
            found = answered(switch.active, old(request(target)))
            body = found.text.partition(b"\r\n\r\n")[2]
            check(f"{target.decode()}: as many to HTTP/1.0", (body, found.is_reset), (data, False))
        found = answered(switch.active, last(request(LENGTH_ABOVE, b"HEAD")))
        more = ABOVE[: MOST + 1]
        check("a HEAD of more", found.text, answer(more).removesuffix(more))
        check("no request is open", streamed.is_left(), True)
        check("all are answered", {one.status for one in streamed.entries(8)}, {200})
    with streaming(MAX_BODY, str(len(BLOCK))) as streamed:
        found = answered(streamed.switch.active, request(LENGTH_BLOCK))
        check("a length of the least limit", found, Answered(answer(BLOCK), False))
        found = answered(streamed.switch.active, request(CHUNKS))
        check_part("as many bytes in chunks, whose lines count", found, 0, False)


def above_the_limit() -> None:
    """--max-response-body: a greater length is a 502 before a byte of the response is passed on. What
    turns out to be larger is cut, which a client can tell. The connection to the endpoint is used by
    no other request."""
    with streaming(KEEP_ALIVE, MAX_BODY, str(MOST)) as streamed:
        switch, endpoint, _ = streamed
        cases: Sequence[tuple[bytes, bool, int]] = (
            (CHUNK_BY_1, False, 0),
            (TRAILER_BY_1, False, 0),
            (CHUNK_ABOVE, False, 0),
            (LATER_ABOVE, False, FEW),
            (END_BY_1, False, 0),
            (END_ABOVE, False, 0),
            (CHUNK_ABOVE, True, 0),
            (LATER_ABOVE, True, 0),
            (END_BY_1, True, 0),
            (END_ABOVE, True, 0),
        )
        for text in (request(LENGTH_ABOVE), old(request(LENGTH_ABOVE))):
            found = answered(switch.active, text)
            check("a length above it", found, Answered(BAD_GATEWAY, False))
            check_next(switch)
        for target, is_old, least in cases:
            name = target.decode() + " to HTTP/1.0" * is_old
            text = old(request(target)) if is_old else request(target)
            # it sends what is too much once the client has got the first piece
            then: Callable[[], object] = nothing
            if target == LATER_ABOVE:
                then = endpoint.steps.release
            check_part(name, answered(switch.active, text, then), least, is_old)
            check_next(switch)
        count = 2 + len(cases)
        # one for the first response, and a new one after each that was too large
        check("connections to the endpoint", endpoint.connections, 1 + count)
        lines = [one for one in streamed.entries(2 * count) if one.target != "/next"]
        check(
            "the lines of responses that are too large",
            [(one.status, one.end, one.reason) for one in lines],
            [(502, end, "response_too_large") for end in ["refused"] * 2 + ["cut"] * len(cases)],
        )
        check("no request is open", streamed.is_left(), True)


def check_next(switch: Switch) -> None:
    """A check that a request behind others is answered."""
    found = answered(switch.active, last(request(b"/next"))).text
    check("a whole one later", found, answer(echo(b"/next")))


def check_part(name: str, found: Answered, least: int, is_old: bool) -> None:
    """A check that a part of a body that is above the limit came to a client, which is told by a reset if
    its version is 1.0. A reset may overtake bytes."""
    head, _, got = found.text.partition(b"\r\n\r\n")
    if not is_old:
        check(f"{name}: its status", head[:12], b"HTTP/1.1 200")
        got, left = data_of_chunks(got)
        check(f"{name}: no last chunk", left, None)
    check(f"{name}: a part of its body", ABOVE.startswith(got), True)
    check_within(f"{name}: bytes of it", len(got), MOST)
    check(f"{name}: those before", len(got) >= least, True)
    check(f"{name}: a reset", found.is_reset, is_old)


def slow_readers() -> None:
    """Clients that take nothing of endless responses hold up nobody else, and their endpoints are
    read no further. The switch holds little for each, and lets them go."""
    with streaming("--threads", "1", workers=7) as streamed:
        switch, endpoint, _ = streamed
        before = greatest_memory(switch.process.pid)
        with contextlib.ExitStack() as stack:
            for _ in range(5):
                stack.enter_context(connect(switch.active, 4096)).sendall(request(ENDLESS))
            check("the endpoint sends", comes(lambda: endpoint.sent > 0), True)
            check("it is read no further", comes(lambda: stands_still(endpoint)), True)
            check_soon("a polite client beside them", polite(switch.active, 20).longest, AT_ONCE)
            check_within(
                "KiB for slow readers", greatest_memory(switch.process.pid) - before, MEMORY
            )
            check("they are let go", comes(lambda: endpoint.open == 0, 60), True)
        check("no request is open", streamed.is_free(), True)
        check(
            "their lines",
            {(one.status, one.reason) for one in streamed.entries(25) if one.target == "/endless"},
            {(499, "client_gone")},
        )


def stands_still(endpoint: StreamEndpoint) -> bool:
    before = endpoint.sent
    time.sleep(0.5)
    return endpoint.sent == before


def clients_that_go() -> None:
    """A client that goes, or resets its connection, ends the request at its endpoint."""
    with streaming() as streamed:
        switch, endpoint, _ = streamed
        for is_reset in (False, True):
            client = connect(switch.active)
            client.sendall(request(ENDLESS))
            client.recv(1000)
            if is_reset:
                reset(client)
            else:
                client.close()
            check("the endpoint is left", comes(lambda: endpoint.open == 0, SOON), True)
        check("no request is open", streamed.is_free(), True)
        check(
            "their lines",
            [(one.status, one.end, one.reason) for one in streamed.entries(2)],
            [(499, "refused", "client_gone")] * 2,
        )


def silent_endpoint() -> None:
    """An endpoint that is silent in the middle of a response is left after its timeout, and one that
    sends something in time never is."""
    with streaming(timeout=SHORT_TIMEOUT) as streamed:
        switch, endpoint, _ = streamed
        found = timed(switch.active, [request(SILENT)])
        check(
            "what a silent endpoint sent", found.answer.partition(b"\r\n\r\n")[2], b"4\r\nonce\r\n"
        )
        check("its timeout", found.seconds >= SHORT_TIMEOUT / 2 - 1, True)
        check_soon("until it is left", found.seconds, SHORT_TIMEOUT + 2)
        with connect(switch.active) as client:
            client.sendall(request(EVENTS))
            for _ in range(2 * SHORT_TIMEOUT):
                endpoint.steps.release()
                time.sleep(1)
            endpoint.is_last_event = True
            endpoint.steps.release()
            body = received(client).partition(b"\r\n\r\n")[2]
        check("a response longer than its timeout is whole", is_whole(body), True)
        entries = streamed.entries(2)
        check(
            "their lines",
            [(one.status, one.end, one.reason) for one in entries],
            [(502, "cut", "response_timeout"), (200, "answered", None)],
        )
        waited = entries[1].upstream_ms
        is_short = waited is not None and waited < 1000 * SHORT_TIMEOUT
        check("the time to the first byte", is_short, True)


def silence() -> None:
    """`--silence` sets the timeout of a silent endpoint, in the place of the variable's."""
    with streaming("--silence", str(SHORT_TIMEOUT)) as streamed:
        found = timed(streamed.switch.active, [request(SILENT)])
        check("not left before", found.seconds >= SHORT_TIMEOUT / 2 - 1, True)
        check_soon("until it is left by the flag", found.seconds, SHORT_TIMEOUT + 2)
        check("its line", [one.reason for one in streamed.entries(1)], ["response_timeout"])


def drained() -> None:
    """A draining revision waits for a response that is passed on, up to `drainLimitSeconds`."""
    with streaming(rollout=DRAINS) as streamed:
        switch, endpoint, _ = streamed
        other = StreamEndpoint()
        with connect(switch.active) as client, contextlib.closing(switch.operator()) as operator:
            client.sendall(request(EVENTS))
            endpoint.steps.release()
            client.recv(1000)
            for line, reply in (
                (f"deploy two {other.port}", "ok 0"),
                ("available 2 1", "ok 4"),
                ("tick 14", "ok 0"),
            ):
                check(f"{line.split()[0]} beside a response", operator.answer_to(line), reply)
            time.sleep(1)
            check("it drains", operator.open_requests()[0], 1)
            check("the tick to the limit", operator.answer_to("tick 15"), "ok 0")
            check("the response is cut", is_whole(received(client)), False)
            check("it has left", comes(lambda: switch.open_requests()[0] == 0), True)
        other.stop()
        check(
            "its line",
            [(one.status, one.end, one.reason) for one in streamed.entries(1)],
            [(503, "cut", "given_up")],
        )


def shut_down() -> None:
    """A graceful shutdown waits for responses that are passed on, up to its timeout."""
    with streaming("--shutdown-timeout", "3", ends=True) as streamed:
        switch, endpoint, _ = streamed
        with connect(switch.active) as client:
            client.sendall(request(EVENTS))
            endpoint.steps.release()
            got = client.recv(1000)
            operator, begun = switch.operator(), time.monotonic()
            operator.send_quit()
            endpoint.steps.release()
            got += received_up_to(client, b"event 1\n", got)
            check("an event in a shutdown", b"event 1\n" in got, True)
            check("the response is cut", received(client), b"")
            check("not before the timeout", time.monotonic() - begun >= 2.5, True)
        check("its status", switch.wait().status, 0)
        check_soon("the end of the switch", time.monotonic() - begun, 3 + SOON)
        operator.close()


if __name__ == "__main__":
    checks.run(
        "live_streams",
        (
            slow_readers,
            silent_endpoint,
            silence,
            large,
            events,
            framings,
            kept,
            cut,
            within_the_limit,
            above_the_limit,
            clients_that_go,
            drained,
            shut_down,
        ),
        at_once=5,
    )
