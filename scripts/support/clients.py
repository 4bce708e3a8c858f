"""Clients: polite ones, and those that are slow, impatient or silent, or that cut their
connection."""
import collections
import concurrent.futures
import contextlib
import http.client
import socket
import struct
import sys
import threading
import time
from collections.abc import Callable, Iterable, Iterator, Sequence
from typing import NamedTuple, TypeVar

from bg_switch_tools.switch.control import Control

from support.messages import head_of, request
from support.ports import HOST

# No wait of a client is longer, in seconds. It is shorter than a script may run.
LONGEST = 150
SMALL_BUFFER = 4096
# The pause, in seconds, below which a client read steadily: below the quarter of a second after
# which the port may let a silent reader go.
STEADY = 0.2
# Where the system tells how many milliseconds ago the last data came: `tcpi_last_data_recv`.
LAST_DATA = slice(52, 56)
Body = bytes | Iterable[bytes] | None
Given = TypeVar("Given")


def connect(
    at: Control, receive_buffer: int | None = None, segment: int | None = None
) -> socket.socket:
    """A connection to a port, or to the Unix socket of a path, whose system takes as many bytes
    ahead as `receive_buffer` says, and in segments of at most `segment` bytes, or as many as it
    likes."""
    client = socket.socket(socket.AF_INET if isinstance(at, int) else socket.AF_UNIX)
    if receive_buffer is not None:
        client.setsockopt(socket.SOL_SOCKET, socket.SO_RCVBUF, receive_buffer)
    if segment is not None:
        client.setsockopt(socket.IPPROTO_TCP, socket.TCP_MAXSEG, segment)
    client.settimeout(LONGEST)
    try:
        client.connect((HOST, at) if isinstance(at, int) else at)
    except OSError:
        client.close()
        raise
    return client


def silence(connection: socket.socket) -> float:
    """For how many seconds nothing has come to the system for a connection (tcp(7))."""
    info = connection.getsockopt(socket.IPPROTO_TCP, socket.TCP_INFO, LAST_DATA.stop)
    return int.from_bytes(info[LAST_DATA], sys.byteorder) / 1000


def received(connection: socket.socket) -> bytes:
    """All that comes until the connection ends; a reset is an end too."""
    got = bytearray()
    with contextlib.suppress(ConnectionError):
        while piece := connection.recv(65536):
            got += piece
    return bytes(got)


def reset(connection: socket.socket) -> None:
    """Closes a connection by a reset."""
    connection.setsockopt(socket.SOL_SOCKET, socket.SO_LINGER, struct.pack("ii", 1, 0))
    connection.close()


def send_in_pieces(connection: socket.socket, pieces: Iterable[bytes], pause: float) -> bool:
    """Sends the pieces, with a pause before each but the first, until all are sent or the peer has
    ended. Gives whether the sender was told of a reset; what receives is not told of it then."""
    try:
        for number, piece in enumerate(pieces):
            time.sleep(pause if number else 0)
            connection.sendall(piece)
    except ConnectionResetError:
        return True
    except OSError:
        pass  # the peer has ended
    return False


def answer_of(connection: socket.socket, text: bytes, *later: bytes) -> bytes | None:
    """What a client that sends these bytes, and others later, and ends its side, is answered, or
    None if the connection is reset."""
    try:
        connection.sendall(text)
        for piece in later:
            time.sleep(0.05)
            connection.sendall(piece)
        connection.shutdown(socket.SHUT_WR)
        answer = bytearray()
        while piece := connection.recv(65536):
            answer += piece
        return bytes(answer)
    except ConnectionError:
        return None


def asked(port: int, text: bytes, *later: bytes) -> bytes | None:
    """What a client is answered that sends this and ends its side: see `answer_of`."""
    with connect(port) as client:
        return answer_of(client, text, *later)


class Timed(NamedTuple):
    """What a client is answered, and how many seconds that took."""

    answer: bytes
    seconds: float


def timed(port: int, pieces: Sequence[bytes] = (request(),), pause: float = 0.0) -> Timed:
    """The answer to a request that is sent in these pieces; what comes before a reset counts."""
    start = time.monotonic()
    with connect(port) as client:
        send_in_pieces(client, pieces, pause)
        return Timed(received(client), time.monotonic() - start)


def dripped(port: int, pieces: Iterable[bytes], pause: float) -> Timed:
    """The same, but the answer is received while the pieces are being sent."""
    start = time.monotonic()
    with connect(port) as client:
        threading.Thread(target=send_in_pieces, args=(client, pieces, pause), daemon=True).start()
        return Timed(received(client), time.monotonic() - start)


def timed_for(
    at: Control, longest: float, pieces: Sequence[bytes] = (request(),), pause: float = 0.0
) -> Timed:
    """The same, but a client waits for at most `longest` seconds: the answer is empty then."""
    start = time.monotonic()
    with connect(at) as client:
        client.settimeout(longest)
        send_in_pieces(client, pieces, pause)
        with contextlib.suppress(TimeoutError):
            return Timed(received(client), time.monotonic() - start)
    return Timed(b"", time.monotonic() - start)


def get(
    port: int,
    path: str = "/",
    method: str = "GET",
    body: Body = None,
    fields: dict[str, str] | None = None,
) -> tuple[int, bytes] | None:
    """The status and the body that Python's own client is answered, or None if there is no whole
    answer."""
    connection = http.client.HTTPConnection(HOST, port, timeout=LONGEST)
    in_chunks = body is not None and not isinstance(body, bytes)
    try:
        connection.request(method, path, body=body, headers=fields or {}, encode_chunked=in_chunks)
        response = connection.getresponse()
        return response.status, response.read()
    except (OSError, http.client.HTTPException):
        return None
    finally:
        connection.close()


class Waits(NamedTuple):
    """What clients were answered, and how many seconds an answer took at most."""

    answers: list[bytes]
    longest: float


def polite(port: int, count: int, pause: float = 0.0) -> Waits:
    """Asks so often, one request after the other."""
    got = []
    for _ in range(count):
        got.append(timed(port))
        time.sleep(pause)
    return Waits([one.answer for one in got], max(one.seconds for one in got))


def at_once(calls: Sequence[Callable[[], Given]]) -> list[Given]:
    """What each of the calls gives, which are made at once."""
    with concurrent.futures.ThreadPoolExecutor(len(calls)) as pool:
        return [done.result() for done in [pool.submit(call) for call in calls]]


class Crowd:
    """Many connections of one port that one thread serves: each step does something with each of
    them."""

    def __init__(
        self,
        port: int,
        count: int,
        first: bytes,
        receive_buffer: int | None = None,
        segment: int | None = None,
    ) -> None:
        self.connections = [connect(port, receive_buffer, segment) for _ in range(count)]
        for connection in self.connections:
            with contextlib.suppress(OSError):
                connection.sendall(first)
                connection.setblocking(False)
        self.has_ended = threading.Event()

    def __enter__(self) -> "Crowd":
        return self

    def __exit__(self, *_: object) -> None:
        self.has_ended.set()
        for connection in self.connections:
            connection.close()

    def each(self, step: Callable[[socket.socket], bool], pause: float) -> None:
        """Makes the step with each connection, again and again; one for which it gives False isn't
        asked again."""
        left = list(self.connections)
        while left and not self.has_ended.wait(pause):
            left = [connection for connection in left if goes_on(step, connection)]

    def goes_on_with(self, step: Callable[[socket.socket], bool], pause: float) -> None:
        """The same, in a thread of its own."""
        threading.Thread(target=self.each, args=(step, pause), daemon=True).start()


def goes_on(step: Callable[[socket.socket], bool], connection: socket.socket) -> bool:
    try:
        return step(connection)
    except BlockingIOError:
        return True
    except OSError:
        return False


def send_a_byte(connection: socket.socket) -> bool:
    return connection.send(b"a") == 1


def read_a_little(connection: socket.socket) -> bool:
    return connection.recv(1024) != b""


@contextlib.contextmanager
def dripping(port: int, count: int, first: bytes, pause: float = 0.5) -> Iterator[Crowd]:
    """`count` clients that send this and then a byte now and then."""
    with Crowd(port, count, first) as crowd:
        crowd.goes_on_with(send_a_byte, pause)
        yield crowd


@contextlib.contextmanager
def slow_readers(port: int, count: int, target: bytes) -> Iterator[Crowd]:
    """`count` clients that ask for this and read a kilobyte a second of it."""
    with Crowd(port, count, request(target), SMALL_BUFFER) as crowd:
        crowd.goes_on_with(read_a_little, 1.0)
        yield crowd


def upload(port: int, size: int, piece: int = 65536, pause: float = 0.0) -> bytes:
    """What a client is answered that uploads `size` bytes, a piece at a time."""
    return timed(
        port, [head_of(size), *[bytes(piece)] * (size // piece), bytes(size % piece)], pause
    ).answer


def counted(answers: Iterable[bytes]) -> dict[bytes, int]:
    """How often each status came; an answer that isn't there is the empty text."""
    return dict(collections.Counter(answer[9:12] for answer in answers))


class SteadyRead(NamedTuple):
    """How many bytes came to a client, and for how many seconds it took none at most."""

    bytes_read: int
    pause: float

    def is_steady(self) -> bool:
        return self.pause < STEADY


def read_steadily(port: int, target: bytes) -> SteadyRead:
    """What comes to a client that reads 64,000 bytes each 40 milliseconds."""
    count, longest = 0, 0.0
    with connect(port, 65536) as client:
        client.sendall(request(target))
        with contextlib.suppress(ConnectionError):
            client.recv(1, socket.MSG_PEEK)
        latest = time.monotonic() - silence(client)
        has_more = True
        while has_more:
            piece = b""
            with contextlib.suppress(ConnectionError):
                piece = client.recv(64000, socket.MSG_WAITALL)
            longest, latest = max(longest, time.monotonic() - latest), time.monotonic()
            count, has_more = count + len(piece), piece != b""
            time.sleep(0.04 if has_more else 0)
    return SteadyRead(count, longest)
