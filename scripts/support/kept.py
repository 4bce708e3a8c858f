"""Peers that keep their connections for further requests: a client, and an endpoint that does what a
target asks for."""
import contextlib
import socket
import threading

from support.checks import comes
from support.clients import connect
from support.endpoints import (
    END_OF_HEAD,
    LONGEST,
    Endpoint,
    Held,
    Request,
    read_request,
    reset_at_once,
)
from support.messages import response
from support.ports import has_delivered

CLOSES = b"Connection: close\r\n"
HOST_FIELD = b"Host: x\r\n"
LARGE = 300_000
READ = 65_536  # bytes that a loop reads at once of an endpoint
# What an endpoint does at these targets. It answers all others with the target and the body.
RESETS, TO_THE_END, SENDS_MUCH = b"/resets", b"/to-the-end", b"/sends-much"
CLOSES_AFTERWARDS, DIES, HOLDS = b"/closes-afterwards", b"/dies", b"/holds"
SENDS_MORE, SENDS_MORE_UNREAD, SENDS_LATER = b"/sends-more", b"/sends-more-unread", b"/sends-later"
SAYS_CLOSE, VERSION_0, DIES_BY_RESET = b"/says-close", b"/version-0", b"/dies-by-reset"
UNASKED = response(b"nobody asked for this")
# A response that one read of a loop takes whole, without the bytes behind it. Its length has five
# digits.
HEAD = len(response(bytes(10_000))) - 10_000
ONE_READ = response(b"x" * (READ - HEAD))


class KeptEndpoint(Endpoint):
    """An endpoint that keeps each connection until a request says that it is the last one, or the
    peer closes it. It counts the connections that it has accepted, and those that are open."""

    def __init__(self, port: int = 0) -> None:
        self.connections = self.open = 0
        self.requests: list[Request] = []
        self.held = Held(b"held")
        self.may_send_later = threading.Event()
        self.sent_later = threading.Event()
        super().__init__(self.answer_by_target, port)

    def serve(self, connection: socket.socket) -> None:
        with self.lock:
            self.connections += 1
            self.open += 1
        try:
            with connection, contextlib.suppress(OSError):
                connection.settimeout(LONGEST)
                while (asked_for := read_request(connection)) is not None:
                    self.note(asked_for)
                    self.answer(asked_for, connection)
                    if is_last(asked_for):
                        return
        finally:
            with self.lock:
                self.open -= 1

    def note(self, asked_for: Request) -> None:
        with self.lock:
            self.requests.append(asked_for)

    def answer_by_target(self, asked_for: Request, connection: socket.socket) -> None:
        target = asked_for.target
        if target == RESETS:
            reset_at_once(asked_for, connection)
        elif target == TO_THE_END:
            connection.sendall(b"HTTP/1.1 200 OK\r\n\r\nall")
            connection.close()
        elif target == SENDS_MUCH:
            connection.sendall(response(b"x" * LARGE))
        elif target == CLOSES_AFTERWARDS:
            connection.sendall(response(target))
            connection.close()
        elif target == SAYS_CLOSE:
            connection.sendall(response(target).replace(b"\r\n", b"\r\n" + CLOSES, 1))
        elif target == VERSION_0:
            connection.sendall(response(target).replace(b"HTTP/1.1", b"HTTP/1.0", 1))
        elif target == DIES:
            connection.sendall(response(target))
            self.swallow(connection)
            connection.close()
        elif target == DIES_BY_RESET:
            connection.sendall(response(target))
            self.swallow(connection)
            reset_at_once(asked_for, connection)
        elif target == SENDS_MORE:
            connection.sendall(response(target) + UNASKED)
        elif target == SENDS_MORE_UNREAD:
            connection.sendall(ONE_READ + UNASKED)
        elif target == SENDS_LATER:
            connection.sendall(response(target))
            self.may_send_later.wait(LONGEST)
            connection.sendall(UNASKED)
            self.sent_later.set()
        elif target == HOLDS:
            self.held(asked_for, connection)
        else:
            body = echo(target, asked_for.body)
            whole = response(body)
            connection.sendall(whole.removesuffix(body) if asked_for.method == b"HEAD" else whole)

    def swallow(self, connection: socket.socket) -> None:
        """Reads one more request, which gets no answer."""
        if (swallowed := read_request(connection)) is not None:
            self.note(swallowed)

    def has_sent_later(self) -> bool:
        """Whether unasked bytes have come to the system of the loop, at a time that comes soon."""
        return self.sent_later.wait(LONGEST) and comes(lambda: has_delivered(self.port))

    def targets(self) -> list[bytes]:
        """The targets of all requests, in the order in which they came."""
        with self.lock:
            return [one.target for one in self.requests]


def is_last(asked_for: Request) -> bool:
    return asked_for.value(b"Connection") == b"close"


def echo(target: bytes, body: bytes = b"") -> bytes:
    return target + b" " + body


def last(text: bytes) -> bytes:
    """A request that says that it is the last one of its connection."""
    return text.replace(HOST_FIELD, HOST_FIELD + CLOSES, 1)


class KeptClient:
    """A client that sends several requests on one connection."""

    def __init__(self, port: int) -> None:
        self.connection = connect(port)
        self.input = self.connection.makefile("rb")

    def __enter__(self) -> "KeptClient":
        return self

    def __exit__(self, *_: object) -> None:
        self.input.close()
        self.connection.close()

    def send(self, text: bytes) -> None:
        self.connection.sendall(text)

    def end(self) -> None:
        """Ends its input, and still reads."""
        self.connection.shutdown(socket.SHUT_WR)

    def answer(self, is_to_head: bool = False) -> bytes:
        """The next answer, whose body comes by length; what came of it if the connection ends
        before. That to a HEAD has no body."""
        head = b""
        while not head.endswith(END_OF_HEAD):
            line = self.input.readline()
            if not line:
                return head
            head += line
        lengths = [line for line in head.split(b"\r\n") if line.startswith(b"Content-Length:")]
        if is_to_head or not lengths:
            return head
        return head + self.input.read(int(lengths[0].partition(b":")[2]))

    def answer_to(self, text: bytes) -> bytes:
        self.send(text)
        return self.answer(text.startswith(b"HEAD "))

    def rest(self) -> bytes:
        """All that comes until the connection ends."""
        with contextlib.suppress(ConnectionError):
            return self.input.read()
        return b""
