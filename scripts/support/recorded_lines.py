"""A port before the control port of a switch, at which each line is noted with its reply: which orders
were acknowledged, and which have no answer, whoever has sent them."""
import collections
import contextlib
import socket
import threading
from collections.abc import Callable, Iterable, Sequence
from typing import NamedTuple

from bg_switch_tools.switch.reports import END

from support.ports import HOST
from support.rule.book import CONTROL_WORDS

PIECE = 65536
BEGIN_OF_REPORT = "moment "
TIME_LIMIT = "before"


class SentLine(NamedTuple):
    """A line, and the first line of its reply; empty if none has come. `connection` is the number of
    the connection that it came by."""

    connection: int
    line: str
    reply: str = ""

    @property
    def order(self) -> str:
        """The event that the line gives, without its time limit; empty if it gives none."""
        words = self.line.split()
        words = words[2:] if words[:1] == [TIME_LIMIT] else words
        return " ".join(words) if words[:1] and words[0] in CONTROL_WORDS else ""

    @property
    def is_acknowledged(self) -> bool:
        """Whether it is known that the order was carried out and is kept."""
        return self.reply.startswith("ok ")


class RecordedLines:
    """Listens at a port of its own, and passes lines and replies on, while the switch is there: it is
    told when the switch has begun, and when it is gone. Then connections are refused."""

    def __init__(self, port: int, to: int) -> None:
        self.port = port
        self.to = to
        self.lock = threading.Lock()
        self.sent_lines: list[SentLine] = []
        self.listener: socket.socket | None = None
        self.threads: list[
            threading.Thread
        ] = []  # the one that accepts, and one of each connection
        self.number = 0

    def begin(self) -> None:
        """The switch listens."""
        self.listener = socket.create_server((HOST, self.port), backlog=64)
        self._run(self._accept, self.listener)

    def end(self) -> list[SentLine]:
        """The switch is gone. Gives what was noted since it has begun."""
        if self.listener:
            with contextlib.suppress(OSError):
                self.listener.shutdown(socket.SHUT_RDWR)
            self.listener.close()
        while self.threads:  # the first one may still add others
            self.threads.pop(0).join()
        with self.lock:
            noted, self.sent_lines = self.sent_lines, []
        return noted

    def noted(self) -> list[SentLine]:
        """What was noted so far, but for lines that have no reply yet."""
        with self.lock:
            return list(self.sent_lines)

    def _run(self, work: Callable[..., None], *words: object) -> None:
        thread = threading.Thread(target=work, args=words, daemon=True)
        thread.start()
        self.threads.append(thread)

    def _accept(self, listener: socket.socket) -> None:
        with contextlib.suppress(OSError):
            while True:
                near = listener.accept()[0]
                self.number += 1
                self._run(self._serve, near, self.number)

    def _serve(self, near: socket.socket, number: int) -> None:
        """Passes on what a connection sends, up to the end of the switch or of the connection."""
        with near, contextlib.suppress(OSError):
            with socket.create_connection((HOST, self.to)) as far:
                sent = collections.deque[str]()
                words = (far, near, number, sent)
                replies = threading.Thread(target=self._pass_replies, args=words, daemon=True)
                replies.start()
                self._pass_lines(near, far, sent)
                replies.join()
                self._note(SentLine(number, line) for line in sent)

    @staticmethod
    def _pass_lines(
        near: socket.socket, far: socket.socket, sent: "collections.deque[str]"
    ) -> None:
        """Passes on the lines of a client. At their end the switch may still answer."""
        rest = b""
        with contextlib.suppress(OSError):
            while piece := near.recv(PIECE):
                *lines, rest = (rest + piece).split(b"\n")
                sent.extend(line.decode("ascii", "replace") for line in lines)
                far.sendall(b"".join(line + b"\n" for line in lines))
        with contextlib.suppress(OSError):
            far.shutdown(socket.SHUT_WR)

    def _pass_replies(
        self, far: socket.socket, near: socket.socket, number: int, sent: "collections.deque[str]"
    ) -> None:
        """Notes each line whose reply has come, and passes the reply on. Of a report, the first line
        is the reply."""
        rest, is_report = b"", False
        with contextlib.suppress(OSError):
            while piece := far.recv(PIECE):
                *lines, rest = (rest + piece).split(b"\n")
                for line in lines:
                    reply = line.decode("ascii", "replace")
                    if not is_report and sent:
                        self._note([SentLine(number, sent.popleft(), reply)])
                    is_report = reply != END and (is_report or reply.startswith(BEGIN_OF_REPORT))
                with contextlib.suppress(OSError):  # the client may be gone, and the switch is not
                    near.sendall(b"".join(line + b"\n" for line in lines))
        with contextlib.suppress(OSError):
            near.shutdown(socket.SHUT_RDWR)

    def _note(self, sent_lines: Iterable[SentLine]) -> None:
        with self.lock:
            self.sent_lines.extend(sent_lines)


def acknowledged(sent_lines: Iterable[SentLine]) -> list[str]:
    return [each.order for each in sent_lines if each.order and each.is_acknowledged]


def in_doubt(sent_lines: Iterable[SentLine]) -> list[str]:
    """The orders whose reply has not come."""
    return [each.order for each in sent_lines if each.order and not each.reply]


def faults_of_orders(events: Sequence[str], sent_lines: Sequence[SentLine]) -> list[str]:
    """What is wrong with the orders that a journal has kept of the life of a switch: one that was
    acknowledged and is not there, one that nobody has sent, more than one of those in doubt, and
    orders of one connection that changed places."""
    kept, known = collections.Counter(events), collections.Counter(acknowledged(sent_lines))
    faults = [f"lost: {order}" for order in (known - kept).elements()]
    others, pending = kept - known, collections.Counter(in_doubt(sent_lines))
    faults += [f"nobody has sent: {order}" for order in (others - pending).elements()]
    if others.total() > 1:
        faults.append(f"in doubt, and kept: {', '.join(others.elements())}")
    for number in sorted({each.connection for each in sent_lines}) if not faults else ():
        own = acknowledged(each for each in sent_lines if each.connection == number)
        if not are_in_order(own, events):
            faults.append(f"in another order: {', '.join(own)}")
    return faults


def are_in_order(some: Sequence[str], all_of_them: Sequence[str]) -> bool:
    """Whether these stand in the same order among all of them."""
    rest = iter(all_of_them)
    return all(each in rest for each in some)
