"""Clients that upload, and a switch that passes uploads on to an endpoint that notes what came."""
import contextlib
import pathlib
import random
import socket
import tempfile
from collections.abc import Iterable, Iterator, Sequence
from concurrent.futures import ThreadPoolExecutor
from typing import NamedTuple

from bg_switch_tools.switch.access_log import LogEntry

from support.access_logs import entries_of
from support.checks import check, comes
from support.clients import connect, send_in_pieces
from support.messages import NO_PREVIEW, answer
from support.switch import LISTENING, Switch
from support.traffic import ACCESS_LOG
from support.upload_endpoint import UploadEndpoint, told

STREAM = "--stream"
# So long that it ends nothing on a busy machine, in seconds.
TIMEOUT = 600
# For how many seconds a client waits for a byte, so that one that gets none fails its own check.
LONGEST = 60
MEBIBYTE = 1 << 20
LAST_CHUNK = b"0\r\n\r\n"
CHUNKED = b"Transfer-Encoding: chunked"
# Bodies are parts of it.
SEED = 11
BODY = random.Random(SEED).randbytes(5 * MEBIBYTE)


def head(target: bytes, *fields: bytes, version: bytes = b"1.1") -> bytes:
    """The head of an upload with these further fields."""
    lines = (b"POST %s HTTP/%s" % (target, version), b"Host: x", *fields, b"", b"")
    return b"\r\n".join(lines)


def by_length(
    target: bytes, body: bytes, *fields: bytes, version: bytes = b"1.1", length: int | None = None
) -> bytes:
    """An upload with a Content-Length, which is that of the body if no other one is given."""
    count = len(body) if length is None else length
    return head(target, *fields, b"Content-Length: %d" % count, version=version) + body


def chunks(body: bytes, size: int, extension: bytes = b"") -> bytes:
    """A body in chunks of a size, without the last one."""
    pieces = (body[start : start + size] for start in range(0, len(body), size))
    return b"".join(b"%x%s\r\n%s\r\n" % (len(piece), extension, piece) for piece in pieces)


def in_chunks(
    target: bytes, body: bytes, size: int, *fields: bytes, end: bytes = LAST_CHUNK
) -> bytes:
    """An upload in chunks of a size, with this end."""
    return head(target, *fields, CHUNKED) + chunks(body, size) + end


def split(text: bytes, at: int, width: int = 3) -> list[bytes]:
    """A text in pieces, which are single bytes around a place."""
    first, last = max(at - width, 1), at + width
    single = [text[place : place + 1] for place in range(first, min(last, len(text)))]
    return [text[:first], *single, *([text[last:]] if text[last:] else [])]


class Delivered(NamedTuple):
    """What came to a client, and whether a reset ended it."""

    text: bytes
    is_reset: bool


def whole(target: bytes, body: bytes) -> Delivered:
    """What comes to a client whose body came whole to the endpoint."""
    return Delivered(answer(told(target, body)), False)


def rest_of(client: socket.socket) -> Delivered:
    """What comes to a client until its connection ends."""
    got, is_reset = bytearray(), False
    client.settimeout(LONGEST)
    try:
        while piece := client.recv(65536):
            got += piece
    except ConnectionResetError:
        is_reset = True
    return Delivered(bytes(got), is_reset)


def sent_and_received(port: int, *pieces: bytes, pause: float = 0.0) -> Delivered:
    """What comes to a client that sends these pieces, and does not end its side. It receives while
    it sends, as a client does that may be answered early. A reset is told to one call only, which
    may be one that sends."""
    with connect(port) as client, ThreadPoolExecutor(1) as pool:
        client.setsockopt(socket.IPPROTO_TCP, socket.TCP_NODELAY, 1)
        sending = pool.submit(send_in_pieces, client, pieces, pause)
        got = rest_of(client)
        # wakes the sender if it waits until more is taken
        with contextlib.suppress(OSError):
            client.shutdown(socket.SHUT_RDWR)
        return Delivered(got.text, got.is_reset or sending.result())


def taken(client: socket.socket, count: int) -> bytes:
    """So many bytes that come to a client, or fewer if its connection ends before."""
    got = bytearray()
    client.settimeout(LONGEST)
    while len(got) < count and (piece := client.recv(count - len(got))):
        got += piece
    return bytes(got)


class Uploading(NamedTuple):
    """A switch, the endpoint of its active revision, and the file of its access log."""

    switch: Switch
    endpoint: UploadEndpoint
    log: pathlib.Path

    def entries(self, count: int) -> list[LogEntry]:
        """The entries of the log, once there are `count` of them."""
        return entries_of(self.log, count)

    def sends(self, *pieces: bytes, pause: float = 0.0) -> Delivered:
        """What comes to a client of the active port: see `sent_and_received`."""
        return sent_and_received(self.switch.active, *pieces, pause=pause)

    def has_open(self, count: int) -> bool:
        """Whether so many requests of the first revision are open, at a time that comes soon."""
        return comes(lambda: self.switch.open_requests()[0] == count)

    def check_cut(self, name: str, target: bytes) -> None:
        """A check that the only request for a target did not come whole to the endpoint, and that
        its connection has ended."""
        upload = self.endpoint.at(target)
        check(f"{name}: its connection ends", upload.has_ended(), True)
        check(f"{name}: it is not whole", upload.is_whole, False)
        check(f"{name}: it came once", len(self.endpoint.all_at(target)), 1)


@contextlib.contextmanager
def uploading(
    *flags: str,
    rollout: str = NO_PREVIEW,
    timeout: int = TIMEOUT,
    concurrency: int = 64,
    ends: bool = False,
    ports: Iterable[int] = (),
    streams: bool = True,
) -> Iterator[Uploading]:
    """A switch that streams, with these flags, whose active revision has an endpoint of its own,
    behind those at the ports. After the block no request is open, and the endpoint has read nothing but requests as
    the switch writes them. `ends` says that the switch ends by itself in the block."""
    with tempfile.TemporaryDirectory() as folder:
        log, endpoint = pathlib.Path(folder) / "log", UploadEndpoint()
        switch = Switch(
            rollout,
            instead_of_workers=("--concurrency", str(concurrency)),
            preview=False,
            timeout=timeout,
            flags=(STREAM, *flags) if streams else flags,
            variables={ACCESS_LOG: str(log)},
            descriptors=4096,
        )
        try:
            check("listening", switch.first, LISTENING)
            open_book(switch, [*ports, endpoint.port])
            yield Uploading(switch, endpoint, log)
            if not ends:
                check("no request is open", comes(lambda: not any(switch.open_requests())), True)
            faults = [upload.fault for upload in endpoint.uploads if upload.fault]
            check("what the switch would not write", faults, [])
        finally:
            (switch.kill if ends else switch.stop)()
            endpoint.stop()


def open_book(switch: Switch, ports: Sequence[int]) -> None:
    """Opens the book with a revision that has endpoints at these ports, which are available."""
    words = " ".join(map(str, ports))
    for line in (f"open one {words}", f"available 1 {len(ports)}"):
        check(line, switch.answer_to(line), "ok 0")
