"""The users whose orders a running `serve` takes, by BG_SWITCH_OPERATORS at its port and by the
file of its control socket, what others are told, and whose orders were carried out. Skipped if the
script isn't run by root, which alone can make connections of several users."""
import contextlib
import errno
import grp
import os
import pwd
import signal
import socket
import stat
import statistics
import sys
import tempfile
import threading
import time
from collections.abc import Iterator
from functools import partial
from typing import NamedTuple

from support import PROGRAM, checks, processes
from support.checks import check, check_beside, check_within, comes
from support.clients import connect, received
from support.endpoints import Endpoint, by_target
from support.messages import BY_HAND
from support.pace import is_busy
from support.ports import INODE, LOCAL, STATE, TABLE, free_ports
from support.processes import Run
from support.socket_list import SocketList, socket_list, with_fields
from support.stderr_lines import line_of_socket, line_of_user, refused_connections, told
from support.switch import LISTENING, Switch, book, words_of_serve
from support.users import NOBODY, connect_as, files_of_group, is_root

VARIABLE = "BG_SWITCH_OPERATORS"
ROOT = 0
# The column of the user in the system's table of sockets, and the state of one that waits for the
# end of the other side.
USER, ENDED = 7, "05"
NOT_ALLOWED = b"refused NotAllowed\n"
# How long an order waits at most beside connections of others; and one of a new connection.
AT_ONCE, PROMPT = 0.3, 1.0
# How many connections others make at least, how many of them side by side, and how many orders wait
# beside them.
STRANGERS, CALLERS, ORDERS = 1500, 40, 10
# How many times over others may go before an order that are there at a time: it takes its turn, and
# the reply comes a little later than it is sent.
TURNS = 5


@contextlib.contextmanager
def switch_of(users: str, *, is_open: bool = True) -> Iterator[Switch]:
    """A switch that serves these users, whose book is open, or isn't. This script's own user is one
    of them."""
    with book(is_open=is_open, variables={VARIABLE: users}) as switch:
        yield switch


def asked_as(user: int, switch: Switch, text: bytes) -> bytes:
    """All that a connection of this user is sent that sends this text, and then no more."""
    with connect_as(user, switch.control) as connection:
        with contextlib.suppress(OSError):  # it may have been turned away already
            connection.sendall(text)
            connection.shutdown(socket.SHUT_WR)
        return received(connection)


def report_of(switch: Switch) -> str:
    with contextlib.closing(switch.operator()) as operator:
        return operator.report()


def turned_away(switch: Switch) -> int:
    """How many connections the switch tells that it has turned away."""
    return sum(int(match[1]) for match in told(switch, refused_connections()))


def others_are_turned_away() -> None:
    """No line of another user is carried out, whatever it sends; each connection is told so, and
    all are counted."""
    with switch_of("root") as switch:
        before = report_of(switch)
        lines = (
            b"tick 1\n",
            b"quit\n",
            b"abort\nquit\n",
            b"report\n",
            b"down 1\n",
            b"GET / HTTP/1.1\r\n\r\n",
            b"x" * 9000,
            b"",
        )
        for text in lines:
            check(
                f"another user that sends {text[:20]!r}",
                asked_as(NOBODY, switch, text),
                NOT_ALLOWED,
            )
        check("the report after the lines of another user", report_of(switch), before)
        check("an order of a listed user", switch.answer_to("tick 1"), "ok 0")
        counted = comes(lambda: turned_away(switch) == len(lines))
        check("the connections that were turned away are told", counted or switch.told, True)
    with switch_of("root", is_open=False) as switch:
        check("an open of another user", asked_as(NOBODY, switch, b"open one 1\n"), NOT_ALLOWED)
        check("an open of a listed user", switch.answer_to("open one 1"), "ok 0")


def without_the_variable() -> None:
    """All users are served, and nothing is told of whose orders are carried out."""
    switch = Switch(BY_HAND, workers=2)
    check("listening for all", switch.first, LISTENING)
    check("an open of another user", asked_as(NOBODY, switch, b"open one 1\n"), b"ok 0\n")
    check("a moment of root", switch.answer_to("tick 1"), "ok 0")
    time.sleep(1.5)
    check("nothing is told", switch.told, [])
    switch.stop()


def names_and_numbers() -> None:
    """A list has names and numbers, with spaces or without. A user that isn't in it is turned
    away."""
    nobody = pwd.getpwuid(NOBODY).pw_name
    for users in (
        f"root,{nobody}",
        f"0,{NOBODY}",
        f" root , {nobody} ",
        f"{nobody},,0,",
        f"0,{nobody},{nobody}",
    ):
        with switch_of(users) as switch:
            check(f"{users}: a listed user", asked_as(NOBODY, switch, b"tick 1\n"), b"ok 0\n")
            check(
                f"{users}: a user that isn't listed",
                asked_as(NOBODY - 1, switch, b"tick 2\n"),
                NOT_ALLOWED,
            )
    with switch_of("0,00065534") as switch:
        check("a number with zeros before it", asked_as(NOBODY, switch, b"tick 1\n"), b"ok 0\n")


def run_with(users: str) -> Run:
    """A run of `serve` that can't begin, since this list can't be used."""
    active, control = free_ports(2)
    words = ["env", f"{VARIABLE}={users}", PROGRAM, *words_of_serve(active, control, None, 1, 1)]
    return processes.run_to_end(words, BY_HAND)


def lists_that_cannot_be_used() -> None:
    """The program ends before it listens, with status 1, and says why. A list that it can't use
    never stands for all users."""
    for users, why in {
        "": "it names no user",
        " , ,": "it names no user",
        "root,nosuchuser": "there is no user nosuchuser",
        "-1": "there is no user -1",
        "+0": "there is no user +0",
        "4294967295": "there is no user 4294967295",
        "4294967296": "there is no user 4294967296",
        "root nobody": "there is no user root nobody",
        "roo": "there is no user roo",
        "x": "there is no user x",
        "/root": "there is no user /root",
    }.items():
        check(f"the list {users!r}", run_with(users), Run("", f"bg_switch: {VARIABLE}: {why}\n", 1))


def is_listed_as_root(port: int) -> bool:
    """Whether the system lists a socket at this port that has ended its output, as one of root."""
    sockets = [
        line.split()
        for line in TABLE.read_text(encoding="ascii").splitlines()
        if f":{port:04X} " in line
    ]
    return any(
        fields[LOCAL].endswith(f":{port:04X}")
        and fields[STATE] == ENDED
        and fields[USER] == str(ROOT)
        for fields in sockets
    )


def gone_before_it_is_looked_at() -> None:
    """A socket that its process has closed belongs to nobody, though the system's table lists it as
    one of root: lines that it has sent before aren't carried out."""
    with switch_of("root") as switch:
        before = report_of(switch)
        processes.pause(switch.process.pid)
        for text in (b"tick 7\n", b"quit\n"):
            connection = connect_as(NOBODY, switch.control)
            port = connection.getsockname()[1]
            connection.sendall(text)
            connection.close()
            check(
                "the system lists its socket as one of root",
                comes(partial(is_listed_as_root, port)),
                True,
            )
        os.kill(switch.process.pid, signal.SIGCONT)
        check("the lines of a user that has gone", report_of(switch), before)
        gone = comes(lambda: turned_away(switch) == 2)
        check("connections whose user isn't known are turned away", gone or switch.told, True)


@contextlib.contextmanager
def switch_with(sockets: SocketList) -> Iterator[Switch]:
    """A switch that serves root, and reads this list of sockets."""
    switch = Switch(BY_HAND, workers=2, variables={VARIABLE: "root"}, prepare=sockets.put_in_place)
    check("listening", switch.first, LISTENING)
    check("open", switch.answer_to("open one 9"), "ok 0")
    yield switch
    switch.stop()


def listed_as_root(switch: Switch, sockets: SocketList, *, closes: bool) -> bytes:
    """What another user is sent who sends a line, and maybe closes then, if the read of the list
    that comes next has it as one of root, with an inode."""
    processes.pause(switch.process.pid)
    with connect_as(NOBODY, switch.control) as connection:
        port = connection.getsockname()[1]
        connection.sendall(b"tick 7\n")
        connection.shutdown(socket.SHUT_WR)
        if closes:
            connection.close()
            check(
                "the system lists its socket as one of root",
                comes(partial(is_listed_as_root, port)),
                True,
            )
        sockets.changes.append(with_fields(port, {USER: str(ROOT), INODE: "4242"}))
        os.kill(switch.process.pid, signal.SIGCONT)
        return b"" if closes else received(connection)


def gone_while_it_is_looked_at() -> None:
    """Linux before about 6.17 lists a socket as one of root, with an inode, if its process closes
    it while the row is read. The next read tells otherwise, so lines that were sent before aren't
    carried out."""
    with socket_list() as sockets:
        if not sockets.is_allowed():
            print(
                "live_operators: gone_while_it_is_looked_at is skipped: no list of sockets can be mounted here"
            )
            return
        with switch_with(sockets) as switch:
            before = report_of(switch)
            check(
                "a user whom one read lists as root",
                listed_as_root(switch, sockets, closes=False),
                NOT_ALLOWED,
            )
            listed_as_root(switch, sockets, closes=True)
            check(
                "both are turned away", comes(lambda: turned_away(switch) == 2) or switch.told, True
            )
            check("the lines of users whom one read lists as root", report_of(switch), before)


def half_closed() -> None:
    """A listed user that shuts its writing side after its lines is answered."""
    with switch_of("root") as switch:
        processes.pause(switch.process.pid)
        with connect(switch.control) as connection:
            connection.sendall(b"tick 7\n")
            connection.shutdown(socket.SHUT_WR)
            os.kill(switch.process.pid, signal.SIGCONT)
            check("a listed user that has shut its writing side", received(connection), b"ok 0\n")


def lines_are_told() -> None:
    """Each order that is carried out is told with its user; a moment, a report and a refused line
    aren't."""
    nobody = pwd.getpwuid(NOBODY).pw_name
    switch = Switch(BY_HAND, workers=2, variables={VARIABLE: f"root,{nobody}"})
    check("listening", switch.first, LISTENING)
    one, two = (Endpoint(by_target(name)).port for name in (b"one", b"two"))
    check("open", switch.answer_to(f"open one {one}"), "ok 0")
    for line, reply in (
        (f"deploy two {two}", b"ok 0\n"),
        ("available 2 1", b"ok 1\n"),
        ("tick 1", b"ok 0\n"),
        ("retry", b"refused NotAborted\n"),
        ("jump", b"fault UnknownWord\n"),
        ("abort", b"ok 0\n"),
    ):
        check(f"the reply to {line}", asked_as(NOBODY, switch, f"{line}\n".encode("ascii")), reply)
    with contextlib.closing(switch.operator()) as operator:
        operator.check("promote", "refused Aborted")
        operator.send_quit()
        check("the status after quit", switch.wait().status, 0)
    lines = [(int(match[1]), match[2]) for match in told(switch, line_of_user())]
    expected = [
        (ROOT, f"open one {one}"),
        (NOBODY, f"deploy two {two}"),
        (NOBODY, "abort"),
        (ROOT, "quit"),
    ]
    check("the orders", lines, expected)


@contextlib.contextmanager
def socket_with(*flags: str, port: bool = False, users: str | None = None) -> Iterator[Switch]:
    """A switch that takes lines at a control socket with these flags, in a folder that everybody can
    reach; with `port` at the control port too. `users` is the list for the port."""
    variables = {} if users is None else {VARIABLE: users}
    with tempfile.TemporaryDirectory() as folder:
        os.chmod(folder, 0o755)
        path = f"{folder}/control"
        beside = ("--control-socket", path) if port else ()
        with book(
            path="" if port else path, flags=(*beside, *flags), variables=variables
        ) as switch:
            switch.path = path
            yield switch


def asked_at_socket(user: int, switch: Switch, text: bytes) -> bytes:
    """What a line of this user at the control socket is answered; the reason if the file can't be
    opened."""
    try:
        with connect_as(user, switch.path) as connection:
            connection.sendall(text)
            connection.shutdown(socket.SHUT_WR)
            return received(connection)
    except PermissionError as refused:
        return os.strerror(refused.errno or 0).encode("ascii")


def files_of_the_socket() -> None:
    """The mode and the group of the file are those that were given, and its owner is the user of
    the switch."""
    for flags, expected in (
        ((), (0o600, ROOT, 0)),
        (("--control-socket-mode", "660"), (0o660, ROOT, 0)),
        (("--control-socket-mode", "0666"), (0o666, ROOT, 0)),
        (("--control-socket-group", f"{NOBODY}"), (0o600, ROOT, NOBODY)),
        (
            ("--control-socket-mode=620", f"--control-socket-group={grp.getgrgid(NOBODY).gr_name}"),
            (0o620, ROOT, NOBODY),
        ),
    ):
        before = os.umask(0o077)
        try:
            with socket_with(*flags) as switch:
                told = os.stat(switch.path)
                check(
                    f"the file of a socket with {flags}",
                    (stat.S_IMODE(told.st_mode), told.st_uid, told.st_gid),
                    expected,
                )
        finally:
            os.umask(before)


def who_may_open_the_socket() -> None:
    """Who may write to the file may order, whatever the list for the port says, and nobody else."""
    refused = os.strerror(errno.EACCES).encode("ascii")
    for mode, is_member, reply in (
        ("600", True, refused),
        ("660", False, refused),
        ("660", True, b"ok 0\n"),
        ("666", False, b"ok 0\n"),
        ("440", True, refused),
        ("444", False, refused),
    ):
        flags = ("--control-socket-mode", mode, "--control-socket-group", f"{NOBODY}")
        with socket_with(
            *flags, port=True, users="root"
        ) as switch, contextlib.ExitStack() as stack:
            if is_member:
                stack.enter_context(files_of_group(NOBODY))
            check(
                f"another user at a socket of mode {mode}, a member of its group: {is_member}",
                asked_at_socket(NOBODY, switch, b"tick 1\n"),
                reply,
            )
            check("the same user at the port", asked_as(NOBODY, switch, b"tick 2\n"), NOT_ALLOWED)
            check("root at the socket", asked_at_socket(ROOT, switch, b"tick 3\n"), b"ok 0\n")
            check("root at the port", asked_as(ROOT, switch, b"tick 4\n"), b"ok 0\n")


def lines_of_the_socket_are_told() -> None:
    """Each order that came by the socket is told as one of the socket; a moment, a report and a
    refused line aren't. A list without a port is told to have no effect."""
    with socket_with(users="root") as switch:
        two = Endpoint(by_target(b"two")).port
        for line, reply in (
            (f"deploy two {two}", b"ok 0\n"),
            ("available 2 1", b"ok 1\n"),
            ("tick 1", b"ok 0\n"),
            ("retry", b"refused NotAborted\n"),
            ("abort", b"ok 0\n"),
        ):
            check(
                f"the reply to {line}", asked_at_socket(ROOT, switch, f"{line}\n".encode()), reply
            )
        check("a list without a port is told", switch.tells(VARIABLE, "no effect"), True)
        comes(lambda: len(told(switch, line_of_socket())) == 3)
        lines = [match[1] for match in told(switch, line_of_socket())]
        check("the orders", lines[1:], [f"deploy two {two}", "abort"])
        check("the first order", lines[0].startswith("open one "), True)
        check("no user is told", told(switch, line_of_user()), [])


def strangers_hold_up_nobody() -> None:
    """Connections of others, more than the port has room for and without end, close no operator's,
    and hold up no order."""
    with switch_of("root") as switch, switch_of("root") as calm, contextlib.ExitStack() as stack:
        both = (switch, calm)
        operators = [stack.enter_context(contextlib.closing(each.operator())) for each in both]
        for operator in operators:
            operator.check("tick 1", "ok 0")
        ends = threading.Event()
        callers = Callers(switch, ends)
        check("others call", comes(lambda: turned_away(switch) > STRANGERS), True)
        orders: tuple[list[Wait], list[Wait]] = ([], [])
        of_new: tuple[list[Wait], list[Wait]] = ([], [])
        for moment in range(2, 2 + ORDERS):
            for each, operator, waits, waits_of_new in zip(both, operators, orders, of_new):
                with callers.wait(waits):
                    operator.check(f"tick {moment}", "ok 0")
                with callers.wait(waits_of_new):
                    check("an order of a new connection", each.answer_to(f"tick {moment}"), "ok 0")
        check_waits("an order while others connect", *orders, AT_ONCE)
        check_waits("a new connection while others connect", *of_new, PROMPT)
        ends.set()
        callers.join()
        check("their descriptors are closed", comes(lambda: switch.count_descriptors() < 100), True)


class Wait(NamedTuple):
    """How many seconds the reply to an order took, and how many connections of others were answered
    meanwhile."""

    seconds: float
    others: int


class Callers:
    """Threads that connect as another user, again and again, until this ends."""

    def __init__(self, switch: Switch, ends: threading.Event) -> None:
        self.switch = switch
        self.ends = ends
        self.answered = 0
        self.lock = threading.Lock()
        self.threads = [threading.Thread(target=self.call, daemon=True) for _ in range(CALLERS)]
        for thread in self.threads:
            thread.start()

    def call(self) -> None:
        while not self.ends.is_set():
            with contextlib.suppress(OSError):
                check("a caller", asked_as(NOBODY, self.switch, b"abort\n"), NOT_ALLOWED)
                with self.lock:
                    self.answered += 1

    @contextlib.contextmanager
    def wait(self, waits: list[Wait]) -> Iterator[None]:
        """Adds to the waits what the block is."""
        start, before = time.monotonic(), self.answered
        yield
        waits.append(Wait(time.monotonic() - start, self.answered - before))

    def join(self) -> None:
        for thread in self.threads:
            thread.join()


def check_waits(name: str, waits: list[Wait], elsewhere: list[Wait], most: float) -> None:
    """Checks that orders wait for no more connections of others than are there at a time, a few
    times over; and if the machine is not busy, for how many seconds each one waits at most."""
    others = statistics.median(wait.others for wait in waits)
    check_within(f"{name}: others that go before it", others, TURNS * CALLERS)
    if not is_busy():
        seconds, seconds_elsewhere = (
            [wait.seconds for wait in each] for each in (waits, elsewhere)
        )
        check_beside(name, seconds, seconds_elsewhere, most)


if __name__ == "__main__":
    if not is_root():
        print("live_operators: skipped: only root can make connections of several users")
        sys.exit(0)
    checks.run(
        "live_operators",
        (
            others_are_turned_away,
            without_the_variable,
            names_and_numbers,
            lists_that_cannot_be_used,
            gone_before_it_is_looked_at,
            gone_while_it_is_looked_at,
            half_closed,
            lines_are_told,
            files_of_the_socket,
            who_may_open_the_socket,
            lines_of_the_socket_are_told,
            strangers_hold_up_nobody,
        ),
        4,
    )
