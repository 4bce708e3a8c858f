"""An endpoint that answers each request with what it has read, for servers that forward requests to
it."""
import contextlib
import socket
import threading
from collections.abc import Callable
from typing import BinaryIO

from support.endpoints import BACKLOG, LONGEST
from support.reserved import HOST
from support.smuggling.readings import Read, answer_to


MOST_READ = 1 << 24
CONTINUE = b"HTTP/1.1 100 Continue\r\n\r\n"


class MalformedRequestError(Exception):
    """A message that is no request, or one that was cut."""


def line_of(stream: BinaryIO) -> bytes:
    line = stream.readline()
    if not line.endswith(b"\r\n"):
        raise MalformedRequestError
    return line[:-2]


def exactly(stream: BinaryIO, count: int) -> bytes:
    # no test sends as much as the limit
    data = stream.read(min(count, MOST_READ))
    if len(data) < count:
        raise MalformedRequestError
    return data


def fields_of(stream: BinaryIO) -> dict[bytes, bytes]:
    """Field lines up to an empty one, by their names in lower case."""
    fields = dict[bytes, bytes]()
    while line := line_of(stream):
        name, colon, value = line.partition(b":")
        if not colon:
            raise MalformedRequestError
        fields[name.lower()] = value.strip(b" \t")
    return fields


def chunked_body(stream: BinaryIO) -> bytes:
    body = b""
    while True:
        try:
            size = int(line_of(stream).partition(b";")[0], 16)
        except ValueError as error:
            raise MalformedRequestError from error
        if size == 0:
            fields_of(stream)
            return body
        body += exactly(stream, size)
        if line_of(stream):
            raise MalformedRequestError


def request_in(stream: BinaryIO, tell: Callable[[bytes], object]) -> Read:
    """The first request of a stream, as a server in front writes it. `tell` writes to that
    server."""
    words = line_of(stream).split(b" ", 2)
    if len(words) != 3:
        raise MalformedRequestError
    fields = fields_of(stream)
    if fields.get(b"expect", b"").lower() == b"100-continue":
        tell(CONTINUE)
    if b"transfer-encoding" in fields:
        body = chunked_body(stream)
    else:
        body = exactly(stream, int(fields.get(b"content-length", b"0")))
    return Read(words[0], words[1], body)


class Echo:
    """A server that takes one request of each connection."""

    def __init__(self) -> None:
        self.listener = socket.create_server((HOST, 0), backlog=BACKLOG)
        self.port: int = self.listener.getsockname()[1]
        threading.Thread(target=self.accept, daemon=True).start()

    def accept(self) -> None:
        with contextlib.suppress(OSError):
            while True:
                connection = self.listener.accept()[0]
                threading.Thread(target=self.serve, args=(connection,), daemon=True).start()

    def serve(self, connection: socket.socket) -> None:
        with connection, contextlib.suppress(OSError, MalformedRequestError, ValueError):
            connection.settimeout(LONGEST)
            with connection.makefile("rb") as stream:
                connection.sendall(answer_to(request_in(stream, connection.sendall)))
