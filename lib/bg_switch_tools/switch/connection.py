"""Connections to the control port or the control socket of a switch.

The connections take turns by lines. A tool opens a connection for one line or a
few, and closes it, so it takes no place while it sends nothing.
"""
import contextlib
import socket
import time
from collections.abc import Sequence
from types import TracebackType

from bg_switch_tools.switch.control import HOST, Control, connected, place_of
from bg_switch_tools.switch.lines import AskReport, Before, Line, Quit, Tick, is_quit, is_report
from bg_switch_tools.switch.replies import (
    JOURNAL_FAILED,
    NOT_ALLOWED,
    Reply,
    ReplyError,
    ReportBegin,
    read_reply,
    reply_in,
)
from bg_switch_tools.switch.reports import END, Report, read_report

PAUSE = 0.1  # seconds between two tries to connect
SHORTEST = 0.001  # seconds; a socket takes a timeout of 0 for "do not block"
LONGEST_LINE = 65536  # bytes without a line end, above which the peer is not a switch
# what a connection of a user is sent whose lines are not taken, before it is closed
USER_REFUSED = str(NOT_ALLOWED)
LONGEST_REPORT = 80  # lines; a report has 7, and one for each of at most 64 revisions
# It is never carried out, since no boot clock is below 0. A switch whose journal lacks an order tries
# to append that first, and refuses each line that gives an event if it can't.
NEVER_IN_TIME = Before(0, Tick(0))


class UnreachableError(Exception):
    """The switch did not answer in time. The text says what happened."""


class DownError(UnreachableError):
    """Nothing takes connections: the switch is down."""


class Connection:
    """A connection to the control port or the control socket. No call waits past the deadline,
    which `allow` sets."""

    def __init__(self, control: Control, wait: float) -> None:
        """Connects within `wait` seconds, since the switch may be starting. `UnreachableError` if
        that fails."""
        self.control = control
        self.place = place_of(control)
        self.wait = wait
        self.unread = b""
        self.allow(wait)
        self.socket = self._connected()

    def __enter__(self) -> "Connection":
        return self

    def __exit__(
        self,
        kind: type[BaseException] | None,
        error: BaseException | None,
        trace: TracebackType | None,
    ) -> None:
        self.close()

    def close(self) -> None:
        self.socket.close()

    def cut(self) -> None:
        """Ends a wait that another thread has in this connection, which finds it ended."""
        with contextlib.suppress(OSError):
            self.socket.shutdown(socket.SHUT_RDWR)

    def allow(self, wait: float) -> None:
        """Sets the deadline of the calls that follow: `wait` seconds from now."""
        self.deadline = time.monotonic() + wait

    def _left(self) -> float:
        return max(self.deadline - time.monotonic(), SHORTEST)

    def _connected(self) -> socket.socket:
        while True:
            try:
                return connected(self.control, self._left())
            except TimeoutError:
                raise UnreachableError(
                    f"{self.place} takes no connection: others wait there already"
                ) from None
            except PermissionError as error:
                raise UnreachableError(
                    f"{self.place} can't be opened by this user: {error.strerror}"
                ) from None
            except OSError as error:
                if time.monotonic() + PAUSE >= self.deadline:
                    raise self._not_reached(error) from None
                time.sleep(PAUSE)

    def _not_reached(self, error: OSError) -> UnreachableError:
        if isinstance(error, BlockingIOError):  # which a socket tells whose backlog is full
            return UnreachableError(f"{self.place} takes no connection: others wait there already")
        place = f"{self.place} of {HOST}" if isinstance(self.control, int) else self.place
        return DownError(f"{place} can't be reached: {error.strerror}")

    def send(self, *lines: bytes) -> None:
        """Sends lines in one piece. `UnreachableError` if the switch takes them no more."""
        self.socket.settimeout(self._left())
        try:
            self.socket.sendall(b"".join(line + b"\n" for line in lines))
        except OSError as error:
            raise UnreachableError(
                f"{self.place} takes no line: {error.strerror or 'it is too slow'}"
            ) from None

    def receive(self) -> bytes:
        """The bytes that come next; empty if the connection has ended. `TimeoutError` past the
        deadline."""
        if time.monotonic() >= self.deadline:
            raise TimeoutError
        self.socket.settimeout(self._left())
        try:
            return self.socket.recv(65536)
        except ConnectionError:
            return b""

    def receive_line(self) -> str:
        """The next line of a reply. `UnreachableError` if none comes in time, or the connection has
        ended."""
        while b"\n" not in self.unread:
            try:
                piece = self.receive()
            except TimeoutError:
                raise UnreachableError(
                    f"{self.place} gave no answer in time: the switch is stopped or busy, or takes no "
                    "lines any more"
                ) from None
            if not piece:
                raise UnreachableError("the switch has ended the connection")
            self.unread += piece
            if len(self.unread) > LONGEST_LINE and b"\n" not in self.unread:
                raise self._no_switch()
        line, self.unread = self.unread.split(b"\n", 1)
        return line.decode("ascii", "replace")

    def _not_allowed(self) -> UnreachableError:
        return UnreachableError(
            f"the switch at {self.place} takes no lines of this user: its BG_SWITCH_OPERATORS lists others"
        )

    def _no_switch(self) -> UnreachableError:
        return UnreachableError(f"what answers at {self.place} is not a switch")

    def reply_to(self, line: bytes) -> list[str]:
        """The lines of the reply to a line that was sent. A report has several; every other reply
        has one. `UnreachableError` if the switch takes no lines of this user."""
        first = self.receive_line()
        if first == USER_REFUSED:
            raise self._not_allowed()
        return self._report_from(first) if is_report(line) else [first]

    def _report_from(self, first: str) -> list[str]:
        """The lines of a report that begins with this one; this one alone if it is a refusal."""
        lines, begin = [first], reply_in(first)
        if begin and not begin.was_carried_out:
            return lines
        while lines[-1] != END:
            if not isinstance(begin, ReportBegin) or len(lines) > LONGEST_REPORT:
                raise self._no_switch()
            lines.append(self.receive_line())
        return lines

    def read(self, text: str) -> Reply:
        """The reply of its first line. `UnreachableError` if it is not a reply."""
        try:
            return read_reply(text)
        except ReplyError:
            raise self._no_switch() from None

    def answer(self, line: bytes) -> list[str]:
        """Sends a line, and gives the lines of its reply."""
        self.send(line)
        return self.reply_to(line)

    def answers(self, lines: Sequence[bytes]) -> list[list[str]]:
        """Sends lines in one piece, so that the switch has each at hand after the one before. Gives
        the reply to each."""
        self.send(*lines)
        return [self.reply_to(line) for line in lines]

    def answer_to(self, line: str) -> str:
        """Sends a line within a new deadline, as long as the constructor's, and gives the first
        line of its reply."""
        self.allow(self.wait)
        return self.answer(line.encode("ascii"))[0]

    def carry_out(self, line: Line) -> Reply:
        """Sends a line, and gives its reply."""
        return self.read(self.answer(line.encoded())[0])

    def carry_out_all(self, lines: Sequence[Line]) -> list[Reply]:
        """Sends lines in one piece, as `answers`, and gives the reply to each."""
        return [self.read(reply[0]) for reply in self.answers([line.encoded() for line in lines])]

    def ask_report(self) -> Report | None:
        """The report; None if no book is open. `ReportError` if what comes is not a report."""
        return read_report(self.answer(AskReport().encoded()))

    def lacks_order(self) -> bool:
        """Whether an order was carried out that the journal of the switch does not keep, and can't
        keep now. This changes nothing. A switch without a journal lacks none."""
        return reply_in(self.answer(NEVER_IN_TIME.encoded())[0]) == JOURNAL_FAILED

    def quit(self) -> None:
        """Sends `quit`, which has no reply, and waits up to the deadline for the switch to end the
        connection. `UnreachableError` if it takes no lines of this user."""
        self.send(Quit().encoded())
        got = b""
        try:
            while piece := self.receive():
                got = (got + piece)[:LONGEST_LINE]
        except TimeoutError:
            pass
        if got.startswith(USER_REFUSED.encode("ascii")):
            raise self._not_allowed()


def ask(control: Control, line: bytes, wait: float) -> list[str]:
    """Sends a line on a connection of its own, and gives the lines of its reply; none for `quit`.

    The line is sent only once the switch has answered a `report` on this connection. So no line is
    carried out later that this call gave up. `UnreachableError` if the switch does not answer
    within `wait` seconds."""
    with Connection(control, wait) as connection:
        state = connection.answer(AskReport().encoded())
        if is_report(line):
            return state
        return sent(connection, line, wait)


def ask_report(control: Control, wait: float) -> Report | None:
    """The report, on a connection of its own; None if no book is open. `ReportError` if what
    answers is not a switch."""
    return read_report(ask(control, AskReport().encoded(), wait))


def ask_state(control: Control, wait: float) -> tuple[Report | None, bool | None]:
    """The report as `ask_report` gives it, and whether the journal of the switch lacks an order: None
    if the switch does not tell it within `wait` seconds, as while its disk does not answer."""
    with Connection(control, wait) as connection:
        report = connection.ask_report()
        with contextlib.suppress(UnreachableError):
            return report, report is not None and connection.lacks_order()
        return report, None


def sent(connection: Connection, line: bytes, wait: float) -> list[str]:
    """Sends a line on a connection that has answered, and gives the lines of its reply; none for
    `quit`."""
    connection.allow(max(wait, 1))
    try:
        if is_quit(line):
            connection.quit()
            return []
        return connection.answer(line)
    except UnreachableError:
        raise UnreachableError(
            "the line was sent and no reply came: a report tells whether it was carried out"
        ) from None
