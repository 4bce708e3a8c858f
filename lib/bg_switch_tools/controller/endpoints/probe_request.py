"""The request of a probe: a GET by http.client, whose response has to come whole and in time.

http.client alone takes a head that is cut for one that has ended, ignores a length that is not a
number, and limits each read but not the whole. The switch answers 502 for such responses, and so a
probe has to notice them.
"""
import asyncio
import concurrent.futures
import contextlib
import http.client
import io
import math
import socket

from bg_switch_tools.controller.plan.plan import Health
from bg_switch_tools.switch.control import HOST

MOST_FIELDS = 64  # of a head, as in the switch
PIECE = 65536  # bytes of a body that are read at a time, and dropped
MOST_AT_ONCE = 4096  # requests that run at a time: 64 revisions with 64 endpoints
THREADS = concurrent.futures.ThreadPoolExecutor(MOST_AT_ONCE, "probe")


class MalformedResponseError(http.client.HTTPException):
    """An endpoint's response is not HTTP/1, or is not whole."""


class Lines(io.BufferedReader):
    """The lines of a response: each has an end, and at most `most` follow one another without an
    empty one."""

    most: float = 1 + MOST_FIELDS  # the line of the status, and the fields
    count = 0

    def readline(self, size: int | None = -1, /) -> bytes:
        line = super().readline(size)
        self.count = self.count + 1 if line.strip() else 0
        if self.count > self.most or not line.endswith(b"\n"):
            raise MalformedResponseError
        return line


class Response(http.client.HTTPResponse):
    """A response whose head and body have to be whole."""

    def __init__(
        self,
        sock: socket.socket,
        debuglevel: int = 0,
        method: str | None = None,
        url: str | None = None,
    ) -> None:
        super().__init__(sock, debuglevel, method, url)
        self.fp = self.lines = Lines(self.fp.detach())

    def begin(self) -> None:
        """Reads the head of the response, and before it those of interim responses."""
        super().begin()
        while self.status < http.HTTPStatus.OK:
            self.headers = self.msg = None  # type: ignore[assignment]  # so that another head is read
            super().begin()
        self.lines.most = math.inf  # what follows are the lines of chunks
        if (
            self.length is None
            and not self.chunked
            and {"content-length", "transfer-encoding"} & set(map(str.lower, self.headers))
        ):
            # a length that is not a number, or a coding that is not `chunked` alone
            raise MalformedResponseError

    def drop_body(self) -> None:
        """Reads the body to its end."""
        while self.read(PIECE):
            pass
        if self.length:
            raise MalformedResponseError


def _get(connected: socket.socket, address: str, port: int, path: str) -> int:
    """The status that an endpoint answers a GET with."""
    connection = http.client.HTTPConnection(address, port)
    connection.response_class = Response
    connection.sock = connected
    with contextlib.closing(connection):
        connection.putrequest("GET", path, skip_accept_encoding=True)
        for name, value in (
            ("User-Agent", "bg-switch-controller"),
            ("Accept", "*/*"),
            ("Connection", "close"),
        ):
            connection.putheader(name, value)
        connection.endheaders()
        with contextlib.closing(connection.getresponse()) as response:
            if isinstance(response, Response):
                response.drop_body()
            return response.status


async def _connected(address: str, port: int) -> socket.socket:
    """A connection to an endpoint, which blocks its reader."""
    connection = socket.socket(socket.AF_INET6 if ":" in address else socket.AF_INET)
    try:
        connection.setblocking(False)
        await asyncio.get_running_loop().sock_connect(connection, (address, port))
        connection.setblocking(True)
        return connection
    except BaseException:
        connection.close()
        raise


async def status_of(port: int, health: Health, address: str = HOST) -> int:
    """The status that an endpoint answers a probe with. `TimeoutError` if the whole takes longer
    than the limit. The connection is cut then, and also if the caller is cancelled, so that no
    thread waits for it any more. `RuntimeError` if no thread can be started."""
    async with asyncio.timeout(health.timeout):
        connected = await _connected(address, port)
        try:
            request = THREADS.submit(_get, connected, address, port, health.path)
        except RuntimeError:
            connected.close()
            raise
        request.add_done_callback(lambda _: connected.close())
        try:
            return await asyncio.wrap_future(request)
        finally:
            with contextlib.suppress(OSError):
                connected.shutdown(socket.SHUT_RDWR)
