"""What a server has made of the bytes of a connection: the requests that its application got, and
the answers that it gave by itself.

Each application answers a request with a line that tells the method, the target and the body, in
hexadecimal digits: in the field X-Read, and in the body for answers that have no head (HTTP/0.9).
"""
import contextlib
import re
import socket
from collections.abc import Sequence
from typing import NamedTuple, Protocol

from support.clients import reset
from support.messages import request
from support.reserved import HOST

# How long a client waits for a connection, in seconds.
LONGEST = 20
# Of a longer target or body an application tells the beginning and the length.
LONGEST_TOLD = 512
# What an application answers whose input has ended within a body.
INPUT_HAS_ENDED = 499
SWITCHING_PROTOCOLS = 101
ANSWER = re.compile(
    rb"HTTP/1\.[01] (?P<status>\d{3})[^\r\n]*\r\n(?P<fields>(?:[^\r\n]+\r\n)*)\r\n"
    rb"|READ (?P<read>[0-9a-f.]*)\n"
)
X_READ = re.compile(rb"(?im)^x-read: ([0-9a-f.]*)\r$")


class Read(NamedTuple):
    """A request as a reader has read it."""

    method: bytes
    target: bytes
    body: bytes

    def __str__(self) -> str:
        text = f"{self.method!r} {self.target!r}".replace("b'", "").replace("'", "")
        return f"{text} {len(self.body)}" if self.body else text


# A request that the application got, or the status of an answer that the server gave by itself.
Item = Read | int


class Reading(NamedTuple):
    """What a reader has made of the bytes of a connection, in order. It waits if it has said
    nothing of the last bytes, and would go on if more came."""

    items: tuple[Item, ...]
    waits: bool = False

    def __str__(self) -> str:
        items = [str(item) for item in self.items] + ["waits"] * self.waits
        return ", ".join(items) or "closes"


class Reader(Protocol):
    """What reads a connection: a server, or a stand-in of a test."""

    @property
    def name(self) -> str:
        ...

    def read(self, stream: bytes, last: bytes, patience: float = 1.0) -> Reading:
        """What it makes of a connection with these bytes, of which the last request has this
        target. It is given `patience` times as long as usual."""


def shortened(text: bytes) -> bytes:
    """A text as an application tells it."""
    return text if len(text) <= LONGEST_TOLD else text[:LONGEST_TOLD] + b"..%d" % len(text)


def told(read: Read) -> bytes:
    """How an application tells what it has read, as one word."""
    return b".".join(shortened(part).hex().encode() for part in read)


def answer_to(read: Read) -> bytes:
    """The answer of an application to a request."""
    word = told(read)
    body = b"READ " + word + b"\n"
    return b"HTTP/1.1 200 OK\r\nX-Read: %s\r\nContent-Length: %d\r\nConnection: close\r\n\r\n%s" % (
        word,
        len(body),
        b"" if read.method == b"HEAD" else body,
    )


def read_of(word: bytes) -> Read:
    method, target, body = (bytes.fromhex(part.decode()) for part in word.split(b"."))
    return Read(method, target, body)


def items_in(answers: bytes) -> tuple[Item, ...]:
    """The answers of a connection. Interim ones count only if they change the protocol."""
    items, word = list[Item](), b""
    for answer in ANSWER.finditer(answers):
        if answer["read"] is not None:
            # the body of the answer whose head told the same, or an answer without a head
            if answer["read"] != word:
                items.append(read_of(answer["read"]))
            word = b""
            continue
        status, field = int(answer["status"]), X_READ.search(answer["fields"])
        word = field[1] if field else b""
        if field:
            items.append(read_of(word))
        elif status >= 200 or status == SWITCHING_PROTOCOLS:
            items.append(status)
    return tuple(items)


def listened(connection: socket.socket, quiet: float) -> tuple[bytes, bool]:
    """What comes until the peer ends, or says nothing for `quiet` seconds; and whether it has
    ended."""
    got = bytearray()
    connection.settimeout(quiet)
    try:
        while piece := connection.recv(65536):
            got += piece
    except TimeoutError:
        return bytes(got), False
    except OSError:
        pass
    return bytes(got), True


def requests_of(items: Sequence[Item]) -> tuple[Read, ...]:
    return tuple(item for item in items if isinstance(item, Read))


def reading_at(port: int, stream: bytes, last: bytes, quiet: float) -> Reading:
    """What the server at a port makes of a connection with these bytes. Once it has said nothing
    for `quiet` seconds, the client ends its input: requests that are read only then count, and
    refusals do not, since the end of the input is their cause."""
    with socket.create_connection((HOST, port), timeout=LONGEST) as connection:
        with contextlib.suppress(OSError):
            connection.sendall(stream)
        got, has_ended = listened(connection, quiet)
        items = items_in(got)
        if has_ended:
            return Reading(items)
        with contextlib.suppress(OSError):
            connection.shutdown(socket.SHUT_WR)
        more, _ = listened(connection, quiet)
        reset(connection)
    late = items_in(got + more)[len(items) :]
    items += requests_of(late)
    return Reading(items, not has_read(items, last) and not is_refused(items))


def reading_of_ended(port: int, stream: bytes, quiet: float) -> Reading:
    """The same, of a server that looks at requests behind one another only when more comes: the
    client ends its input at once. The application says whether a body was cut."""
    with socket.create_connection((HOST, port), timeout=LONGEST) as connection:
        with contextlib.suppress(OSError):
            connection.sendall(stream)
            connection.shutdown(socket.SHUT_WR)
        got, has_ended = listened(connection, quiet)
        if not has_ended:
            reset(connection)
    items = items_in(got)
    if INPUT_HAS_ENDED in items:
        return Reading(items[: items.index(INPUT_HAS_ENDED)], True)
    return Reading(items, not has_ended)


def is_refused(items: Sequence[Item]) -> bool:
    """Whether the last answer refuses a request. The server may then read on for a while before it
    closes the connection."""
    return bool(items) and isinstance(items[-1], int) and items[-1] >= 400


def has_read(items: Sequence[Item], target: bytes) -> bool:
    return any(item.target == target for item in requests_of(items))


class Case(NamedTuple):
    """A connection: a message, and one or two plain requests behind it, whose targets no other
    connection has."""

    stream: bytes
    followers: tuple[bytes, ...]

    @property
    def last(self) -> bytes:
        return self.followers[-1]


def case_of(text: bytes, number: int, count: int) -> Case:
    """A message with `count` requests behind it, the last of which asks for the end of the
    connection."""
    targets = tuple(b"/%s-%d" % (name, number) for name in (b"second", b"third")[:count])
    *before, last = (request(target) for target in targets)
    closing = last.removesuffix(b"\r\n") + b"Connection: close\r\n\r\n"
    return Case(text + b"".join(before) + closing, targets)
