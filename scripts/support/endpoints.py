"""Endpoints of revisions: each is a server that answers every connection's one request by a
function."""
import contextlib
import itertools
import os
import random
import socket
import subprocess
import sys
import threading
import time
from collections.abc import Callable, Iterator, Sequence
from typing import NamedTuple

from support import TOP, processes
from support.checks import comes
from support.clients import received, reset, send_in_pieces
from support.messages import response
from support.ports import HOST, is_open

END_OF_HEAD = b"\r\n\r\n"
BACKLOG = 1024
# How long an endpoint waits for its peer, in seconds: longer than any script runs, since it may hold
# a request on a busy machine.
LONGEST = 3600


class Request(NamedTuple):
    """A request as an endpoint reads it, and its head as it came, with its end."""

    method: bytes
    target: bytes
    fields: list[tuple[bytes, bytes]]
    body: bytes
    head: bytes

    def value(self, name: bytes) -> bytes | None:
        return next((value for field, value in self.fields if field.lower() == name.lower()), None)


Answer = Callable[[Request, socket.socket], None]


def read_head(connection: socket.socket) -> tuple[bytes, bytes] | None:
    """A head, without its end, and what came behind it; None if the connection ends before."""
    head = b""
    while END_OF_HEAD not in head:
        piece = connection.recv(65536)
        if not piece:
            return None
        head += piece
    before, _, behind = head.partition(END_OF_HEAD)
    return before, behind


def read_request(connection: socket.socket) -> Request | None:
    """A request whose body comes by length, as the switch sends each; None if the connection ends
    before."""
    read = read_head(connection)
    if read is None:
        return None
    line, *rest = read[0].split(b"\r\n")
    method, target, _ = line.split(b" ", 2)
    fields = [(name, value.strip()) for name, _, value in (field.partition(b":") for field in rest)]
    head = Request(method, target, fields, b"", read[0] + END_OF_HEAD)
    body = bytearray(read[1])
    while len(body) < int(head.value(b"Content-Length") or b"0"):
        piece = connection.recv(65536)
        if not piece:
            return None
        body += piece
    return head._replace(body=bytes(body))


class Endpoint:
    """A server that reads each request whole and answers it by a function. It counts its requests,
    and it can be stopped. One that is started again needs a port that was given to it, since the
    system gives the ports that it chose to connections meanwhile. It listens at an address of this
    machine."""

    def __init__(self, answer: Answer, port: int = 0, address: str = HOST) -> None:
        self.answer = answer
        self.port, self.address = port, address
        self.served = 0
        self.lock = threading.Lock()
        self.start()

    def start(self) -> None:
        family = socket.AF_INET6 if ":" in self.address else socket.AF_INET
        self.listener = socket.create_server(
            (self.address, self.port), family=family, backlog=BACKLOG
        )
        self.port = self.listener.getsockname()[1]
        threading.Thread(target=self.accept, args=(self.listener,), daemon=True).start()

    def stop(self) -> None:
        # it may have been stopped before
        with contextlib.suppress(OSError):
            self.listener.shutdown(socket.SHUT_RDWR)
        self.listener.close()

    def accept(self, listener: socket.socket) -> None:
        with contextlib.suppress(OSError):
            while True:
                threading.Thread(
                    target=self.serve, args=(listener.accept()[0],), daemon=True
                ).start()

    def serve(self, connection: socket.socket) -> None:
        with connection, contextlib.suppress(OSError):
            connection.settimeout(LONGEST)
            request = read_request(connection)
            if request is not None:
                with self.lock:
                    self.served += 1
                self.answer(request, connection)


def chunked(body: bytes, size: int) -> bytes:
    """A response in chunks of a size."""
    pieces = (body[start : start + size] for start in range(0, len(body), size))
    return (
        b"HTTP/1.1 200 OK\r\nTransfer-Encoding: chunked\r\n\r\n"
        + b"".join(b"%x\r\n%s\r\n" % (len(piece), piece) for piece in pieces)
        + b"0\r\n\r\n"
    )


# The bytes of a body in one chunk beside its data and its trailers.
AROUND_DATA = len(b"00000000\r\n" + b"\r\n0\r\n\r\n")


def in_one_chunk(data: bytes, trailers: bytes = b"") -> bytes:
    """A response in one chunk, with these trailers."""
    head = b"HTTP/1.1 200 OK\r\nTransfer-Encoding: chunked\r\n\r\n"
    return b"%s%08x\r\n%s\r\n0\r\n%s\r\n" % (head, len(data), data, trailers)


def up_to_the_end(body: bytes) -> bytes:
    """A response whose body goes up to the end of the connection."""
    return b"HTTP/1.1 200 OK\r\n\r\n" + body


SEED = 30
CUT_HEAD = b"HTTP/1.1 200 OK\r\nContent-Len"
# What an endpoint sends that is no whole response, by the target that asks for it; after it the
# connection ends.
BROKEN = {
    b"/closes": b"",
    b"/head": CUT_HEAD,
    b"/cut": b"HTTP/1.1 200 OK\r\nContent-Length: 10\r\n\r\nhalf",
    b"/chunk": b"HTTP/1.1 200 OK\r\nTransfer-Encoding: chunked\r\n\r\nx\r\n",
    b"/lengths": b"HTTP/1.1 200 OK\r\nContent-Length: 1, 2\r\n\r\nabc",
    b"/large": b"HTTP/1.1 200 OK\r\nContent-Length: 4194305\r\n\r\n",
    b"/fields": b"HTTP/1.1 200 OK\r\n" + b"A: b\r\n" * 100 + b"\r\n",
    b"/status": b"HTTP/1.1 2000 OK\r\n\r\n",
    b"/upgrade": b"HTTP/1.1 101 Switching Protocols\r\nUpgrade: x\r\n\r\n",
    b"/zeros": bytes(20000),
    b"/rubbish": random.Random(SEED).randbytes(20000),
}
# What it sends before it says nothing more, but keeps the connection.
SILENT = {b"/hangs": b"", b"/halts": CUT_HEAD}
# After how many seconds it answers, with its name.
SLOW = {b"/slow": 0.3, b"/slower": 1.5}
# Whole responses.
WHOLE = {b"/chunks": chunked(b"c" * 300000, 10000), b"/big": response(b"x" * 4000000)}
ALL_FIELDS = b"/all-fields"


def by_target(name: bytes) -> Answer:
    """Answers as the target asks for, and at all others with the name and the body that was
    sent."""

    def answer(request: Request, connection: socket.socket) -> None:
        target = request.target
        time.sleep(SLOW.get(target, 0))
        if target in SILENT:
            connection.sendall(SILENT[target])
            received(connection)
        elif target in BROKEN:
            connection.sendall(BROKEN[target])
        elif target in WHOLE:
            connection.sendall(WHOLE[target])
        elif target == ALL_FIELDS:
            connection.sendall(response(b"\n".join(b"%s: %s" % field for field in request.fields)))
        else:
            body = name + request.body
            whole = response(body)
            connection.sendall(whole.removesuffix(body) if request.method == b"HEAD" else whole)

    return answer


def in_pieces(
    pieces: Sequence[bytes], pause: float = 0.0, silent_after: int | None = None
) -> Answer:
    """Answers each request with these pieces, but says nothing after the first `silent_after`
    requests."""
    numbers = itertools.count()

    def answer(_: Request, connection: socket.socket) -> None:
        if silent_after is not None and next(numbers) >= silent_after:
            received(connection)
        else:
            send_in_pieces(connection, pieces, pause)

    return answer


class Held:
    """Answers requests only once they are let go; it counts those that wait, and those whose
    connection the switch closed."""

    def __init__(self, body: bytes) -> None:
        self.body = body
        self.lock = threading.Lock()
        self.pending = self.closed = 0
        self.is_free = threading.Event()

    def __call__(self, _: Request, connection: socket.socket) -> None:
        with self.lock:
            self.pending += 1
        connection.settimeout(0.05)
        while not self.is_free.is_set():
            with contextlib.suppress(TimeoutError):
                if not has_more(connection):
                    self.count_closed()
                    return
        connection.settimeout(LONGEST)
        connection.sendall(response(self.body))

    def count_closed(self) -> None:
        with self.lock:
            self.closed += 1

    def holds(self, count: int) -> bool:
        """Whether at least `count` requests wait at a time that comes soon."""
        return comes(lambda: self.pending - self.closed >= count)


def reset_at_once(_: Request, connection: socket.socket) -> None:
    """Resets the connection in place of an answer."""
    reset(connection)


class EndpointProcess:
    """An endpoint in a process of its own, which can be killed, and stopped as by SIGSTOP. It
    answers with its name, or as another module does that gets these words beside its name and
    port."""

    def __init__(self, name: str, port: int, module: str = "support.endpoints", *more: str) -> None:
        self.name = name
        self.port = port
        self.words = ("-m", module, name, str(port), *more)
        self.start()

    def start(self) -> None:
        """Starts the process, and waits until it listens."""
        paths = os.pathsep.join((str(TOP / "scripts"), str(TOP / "lib")))
        self.process = subprocess.Popen(
            [sys.executable, "-B", *self.words],
            env={**os.environ, "PYTHONPATH": paths},
            text=True,
        )
        processes.limit(self.process)
        comes(lambda: is_open(self.port))

    def kill(self) -> None:
        processes.stop(self.process)

    def stop(self) -> None:
        """Stops the process: the system still accepts connections for it, and nothing reads
        them."""
        processes.pause(self.process.pid)


def held_at(target: bytes, held: Answer, others: Answer) -> Answer:
    """Answers the requests for a target, which may be held, and the others otherwise."""

    def answer(request: Request, connection: socket.socket) -> None:
        if request.target == target:
            held(request, connection)
        else:
            others(request, connection)

    return answer


def has_more(connection: socket.socket) -> bool:
    """Whether something comes before the peer closes or resets the connection. Fails with
    TimeoutError if it is quiet."""
    try:
        return connection.recv(1) != b""
    except ConnectionError:
        return False


@contextlib.contextmanager
def full_listener() -> Iterator[socket.socket]:
    """A listener that accepts nothing, and whose backlog is full: a connect to it hangs until it
    accepts."""
    with contextlib.ExitStack() as stack:
        listener = stack.enter_context(socket.create_server((HOST, 0), backlog=0))
        for _ in range(4):
            client = stack.enter_context(socket.socket())
            client.setblocking(False)
            client.connect_ex(listener.getsockname())
        time.sleep(0.2)
        yield listener


@contextlib.contextmanager
def full_backlog() -> Iterator[int]:
    """The port of an endpoint that accepts nothing, and whose backlog is full."""
    with full_listener() as listener:
        yield listener.getsockname()[1]


if __name__ == "__main__":
    Endpoint(by_target(sys.argv[1].encode()), int(sys.argv[2]))
    threading.Event().wait()
