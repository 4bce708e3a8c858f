"""A proxy between a drill and the control port of a switch, by which a switch with a fault is played:
it changes lines, or replies."""
import contextlib
import re
import socket
import threading
from collections.abc import Callable, Mapping
from typing import NamedTuple

from support.ports import HOST

PIECE = 65536
MOMENT = re.compile(rb"^ *before +[0-9]+ +")
Change = Callable[[bytes], bytes]  # of a line without its end


class Changes(NamedTuple):
    """What a proxy makes of each line, and of each reply."""

    line: Change
    reply: Change


def as_it_is(line: bytes) -> bytes:
    return line


def without_time_limit(line: bytes) -> bytes:
    return MOMENT.sub(b"", line)


def too_late(reply: bytes) -> bytes:
    """What a line is answered that is too late; the lines of a report stay."""
    return b"refused TooLate" if reply.startswith((b"ok ", b"refused ")) else reply


class LineProxy:
    """Listens at a port, and passes the lines and replies of each connection on."""

    def __init__(self, to: int, changes: Changes) -> None:
        self.to = to
        self.changes = changes
        self.listener = socket.create_server((HOST, 0), backlog=64)
        self.port: int = self.listener.getsockname()[1]
        threading.Thread(target=self._accept, daemon=True).start()

    def _accept(self) -> None:
        with contextlib.suppress(OSError):
            while True:
                near = self.listener.accept()[0]
                far = socket.create_connection((HOST, self.to))
                for source, sink, change in (
                    (near, far, self.changes.line),
                    (far, near, self.changes.reply),
                ):
                    words = (source, sink, change)
                    threading.Thread(target=self._pass_on, args=words, daemon=True).start()

    @staticmethod
    def _pass_on(source: socket.socket, sink: socket.socket, change: Change) -> None:
        rest = b""
        with contextlib.suppress(OSError), sink:
            while piece := source.recv(PIECE):
                *lines, rest = (rest + piece).split(b"\n")
                sink.sendall(b"".join(change(line) + b"\n" for line in lines))

    def end(self) -> None:
        with contextlib.suppress(OSError):
            self.listener.shutdown(socket.SHUT_RDWR)
        self.listener.close()


class PlantedFault(NamedTuple):
    """A fault of a switch, and how the verdict on a line begins that finds it."""

    changes: Changes
    verdict: str


PLANTED: Mapping[str, PlantedFault] = {
    "ignores-the-time-limit": PlantedFault(
        Changes(without_time_limit, as_it_is), "carried out late"
    ),
    "refuses-all": PlantedFault(Changes(as_it_is, too_late), "refused in time"),
    "refuses-and-acts": PlantedFault(
        Changes(without_time_limit, too_late), "changed by late lines"
    ),
}
