"""POST requests of JSON by http.client, each of which ends within a time limit, over connections
that can be kept.

http.client alone limits each read and each write but not the whole, and takes a body that was cut
for a whole one.
"""
import contextlib
import http.client
import io
import json
import select
import socket
import ssl
import threading
from collections.abc import Iterator, Mapping
from typing import Any, NamedTuple, cast

from bg_switch_tools.fleet.store.store_endpoints import StoreEndpoint, connected
from bg_switch_tools.fleet.store.time_limit import TimeLimit

LARGEST = 16 << 20  # bytes of an answer, or of a line of one


class NoAnswerError(Exception):
    """An endpoint gave no whole answer. The text says why, as the end of a sentence. The request
    may have arrived."""


class NoConnectionError(NoAnswerError):
    """An endpoint took no connection, so that the request has not arrived."""


class Post(NamedTuple):
    """A request: where it goes, and what it has. `context` is that of a connection with TLS, and
    None for one without."""

    endpoint: StoreEndpoint
    path: str
    message: Mapping[str, object]
    headers: Mapping[str, str]
    context: ssl.SSLContext | None


class _TimedInput(io.RawIOBase):
    """The bytes of a connection, until its time limit is over."""

    def __init__(self, connection: socket.socket, limit: TimeLimit) -> None:
        self.connection, self.limit = connection, limit

    def readable(self) -> bool:
        return True

    def readinto(self, buffer: Any) -> int:
        self.connection.settimeout(self.limit.left())
        return self.connection.recv_into(buffer)


class _TimedConnection:
    """A connection as http.client uses one, whose reads and writes end with a time limit. Its user
    closes the connection."""

    def __init__(self, connection: socket.socket, limit: TimeLimit) -> None:
        self.connection, self.limit = connection, limit

    def sendall(self, data: bytes) -> None:
        rest = memoryview(data)
        while rest:
            self.connection.settimeout(self.limit.left())
            rest = rest[self.connection.send(rest) :]

    def makefile(self, _: str) -> io.BufferedReader:
        return io.BufferedReader(_TimedInput(self.connection, self.limit))

    def close(self) -> None:
        """Leaves the connection to its user."""


def reason_of(error: Exception) -> str:
    """What went wrong with a connection, as the end of a sentence."""
    if isinstance(error, TimeoutError):
        return "it gives no answer in time"
    if isinstance(error, ssl.SSLCertVerificationError):
        return f"its certificate is not accepted: {error.verify_message}"
    if isinstance(error, ssl.SSLError):
        return f"TLS fails: {(error.reason or str(error)).lower().replace('_', ' ')}"
    if isinstance(error, (ConnectionResetError, BrokenPipeError)):
        # (an end of the stream too; a peer that closes with unread bytes resets, so which of these
        # comes is left to chance)
        return "it closes the connection without an answer"
    if isinstance(error, http.client.IncompleteRead):
        return "its answer is cut"
    if isinstance(error, (http.client.HTTPException, ValueError)):
        return "its answer is not HTTP"
    return getattr(error, "strerror", None) or str(error) or type(error).__name__


def with_tls(
    connection: socket.socket, context: ssl.SSLContext, host: str, limit: TimeLimit
) -> ssl.SSLSocket:
    """The connection with TLS. `OSError` if the handshake fails; `NoConnectionError` if the peer
    closes the connection in it, as a server without TLS may."""
    connection.settimeout(limit.left())
    try:
        return context.wrap_socket(connection, server_hostname=host)
    except (ConnectionResetError, BrokenPipeError):
        raise NoConnectionError("TLS fails: it closes the connection in the handshake") from None


class PostConnection:
    """A connection to an endpoint, for one request after the other. It is closed with its last
    user."""

    def __init__(self, post: Post, connecting: TimeLimit) -> None:
        """Connects to the endpoint of a request. `NoConnectionError` if that fails."""
        self.endpoint, self.context = post.endpoint, post.context
        self.is_cut = False
        # A cut must not meet a descriptor that is that of another connection by then.
        self._closing = threading.Lock()
        with contextlib.ExitStack() as opened:
            try:
                self.socket = opened.enter_context(connected(post.endpoint, connecting))
                if post.context:
                    self.socket = opened.enter_context(
                        with_tls(self.socket, post.context, post.endpoint.host, connecting)
                    )
            except OSError as error:
                raise NoConnectionError(reason_of(error)) from None
            self._opened = opened.pop_all()

    def __del__(self) -> None:
        if hasattr(self, "_opened"):
            self.close()

    def close(self) -> None:
        with self._closing:
            self._opened.close()

    def cut(self) -> None:
        """Ends a wait that another thread has in this connection, which finds it ended. Does
        nothing if it was closed."""
        self.is_cut = True
        with self._closing, contextlib.suppress(OSError):
            # TLS says no good-bye, since the other thread is in it
            socket.socket.shutdown(self.socket, socket.SHUT_RDWR)

    @property
    def is_quiet(self) -> bool:
        """Whether nothing has come since the last response: neither an end, nor what nobody has
        asked for."""
        waiting = select.poll()
        waiting.register(self.socket, select.POLLIN)
        return not waiting.poll(0)

    @contextlib.contextmanager
    def responding(
        self, post: Post, limit: TimeLimit, is_last: bool
    ) -> Iterator[http.client.HTTPResponse]:
        """The response to a request, whose head has come. `limit` is that of all, also of the reads
        of the body. `NoAnswerError` if no response comes, or if one of these reads fails. No
        redirection is followed, and nothing is sent again. `is_last` tells the endpoint that no
        other request comes over this connection."""
        ends = {"Connection": "close"} if is_last else {}
        try:
            client = http.client.HTTPConnection(post.endpoint.host, post.endpoint.port)
            client.sock = cast(socket.socket, _TimedConnection(self.socket, limit))
            body = json.dumps(post.message).encode()
            fields = {"Content-Type": "application/json", **ends, **post.headers}
            client.request("POST", post.path, body, fields)
            with client.getresponse() as response:
                yield response
        except (OSError, http.client.HTTPException, ValueError) as error:
            raise NoAnswerError(reason_of(error)) from None

    def answer(self, post: Post, limit: TimeLimit, is_last: bool) -> "Answer":
        """The whole response to a request. `NoAnswerError` if none comes."""
        with self.responding(post, limit, is_last) as response:
            body = response.read(LARGEST + 1)
            if len(body) > LARGEST:
                raise NoAnswerError(f"its answer has more than {LARGEST} bytes")
            if response.length:  # http.client does not notice a body that ends before its length
                raise NoAnswerError("its answer is cut")
            return Answer(response.status, body, not (is_last or response.will_close))


class Answer(NamedTuple):
    """The status and the whole body of a response, and whether its connection takes another
    request."""

    status: int
    body: bytes
    is_kept: bool


class KeptConnections:
    """Connections between two calls. Several threads may use one."""

    def __init__(self) -> None:
        self._lock = threading.Lock()
        self._kept: list[PostConnection] = []

    def take(self, post: Post) -> PostConnection | None:
        """A connection for a request; None if no connection is kept. The one that was used last
        comes first. Connections that have ended, or have TLS by files that were replaced, are
        closed."""
        while found := self._popped(post.endpoint):
            if found.context is post.context and found.is_quiet:
                return found
            found.close()
        return None

    def _popped(self, endpoint: StoreEndpoint) -> PostConnection | None:
        with self._lock:
            for place in reversed(range(len(self._kept))):
                if self._kept[place].endpoint == endpoint:
                    return self._kept.pop(place)
        return None

    def keep(self, connection: PostConnection) -> None:
        with self._lock:
            self._kept.append(connection)

    def drop(self, endpoint: StoreEndpoint) -> None:
        """Closes those to an endpoint, which may hang."""
        while found := self._popped(endpoint):
            found.close()


def line_of(response: http.client.HTTPResponse) -> bytes:
    """The next line of a response's body; the last one may be without an end. `NoAnswerError` if
    there is none, or if it is too long."""
    line = response.readline(LARGEST + 1)
    if len(line) > LARGEST:
        raise NoAnswerError(f"a line of its answer has more than {LARGEST} bytes")
    if not line:
        raise NoAnswerError("its answer ends")
    return line
