"""A control port that a thread answers at, as the switch does: one connection after the other."""
import contextlib
import socket
import threading
from collections.abc import Callable, Iterable, Sequence
from types import TracebackType

from bg_switch_tools.switch.control import Control
from support.reserved import reserved

REPORT = (
    "moment 0",
    "phase steady",
    "active 1",
    "preview 1",
    "stable 1",
    "newest 1",
    "revision 1 web-v1 desired 2 available 2 open 0 deadline none",
    "end",
)
ENDS = None  # given as a reply: the connection is ended without one

Answer = Callable[[str], Sequence[str] | None]


# Below the ports that the system gives to connections by itself: such a connection would keep a
# port from the test that listens at it once more.
PORTS = range(10_000, 20_000)


def free_port() -> int:
    """A port that nothing listens at, and that no other test takes while this process runs."""
    return reserved(PORTS)


class FakePort:
    """Answers each line by what a function gives for it. `lines` are all that were sent, in
    turn."""

    def __init__(
        self, answer: Answer, port: int = 0, lines: list[str] | None = None, path: str = ""
    ) -> None:
        """At a port of this machine, or with `path` at a Unix socket."""
        self.answer = answer
        self.lines: list[str] = [] if lines is None else lines
        self.path = path
        self.listener = (
            socket.create_server(path, family=socket.AF_UNIX)
            if path
            else socket.create_server(("127.0.0.1", port or free_port()))
        )
        self.port: int = 0 if path else self.listener.getsockname()[1]
        self.control: Control = path or self.port
        self.taken: socket.socket | None = None
        self.thread = threading.Thread(target=self._serve, daemon=True)
        self.thread.start()

    def __enter__(self) -> "FakePort":
        return self

    def __exit__(
        self,
        kind: type[BaseException] | None,
        error: BaseException | None,
        trace: TracebackType | None,
    ) -> None:
        self.close()

    def close(self) -> None:
        """Ends the port and the connection that it serves, as the death of a switch does."""
        for one in (self.listener, self.taken):
            if one is not None:
                try:
                    one.shutdown(socket.SHUT_RDWR)
                except OSError:
                    pass
        self.thread.join(5)
        self.listener.close()

    def _serve(self) -> None:
        while True:
            try:
                connection, _ = self.listener.accept()
            except OSError:
                return
            self.taken = connection
            with connection, connection.makefile("r", encoding="latin-1", newline="\n") as lines:
                try:
                    self._answer_lines(connection, lines)
                except OSError:
                    pass
            self.taken = None

    def _answer_lines(self, connection: socket.socket, lines: Iterable[str]) -> None:
        for line in lines:
            self.lines.append(line.rstrip("\n"))
            reply = self.answer(line.rstrip("\n"))
            if reply is ENDS:
                return
            connection.sendall("".join(f"{each}\n" for each in reply).encode("latin-1"))


class SharedPort(FakePort):
    """Many connections at a time, which take turns by lines."""

    def __init__(self, answer: Answer, port: int = 0) -> None:
        self.turn = threading.Lock()
        super().__init__(answer, port)

    def _serve(self) -> None:
        while True:
            try:
                connection, _ = self.listener.accept()
            except OSError:
                return
            threading.Thread(target=self._serve_one, args=(connection,), daemon=True).start()

    def _serve_one(self, connection: socket.socket) -> None:
        with connection, connection.makefile("r", encoding="latin-1", newline="\n") as lines:
            with contextlib.suppress(OSError):
                self._answer_lines(connection, lines)

    def _answer_lines(self, connection: socket.socket, lines: Iterable[str]) -> None:
        for line in lines:
            with self.turn:
                reply = self.answer(line.rstrip("\n"))
            if reply is ENDS:
                return
            connection.sendall("".join(f"{each}\n" for each in reply).encode("latin-1"))
