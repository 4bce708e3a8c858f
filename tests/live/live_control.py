"""The control port and the control socket of a running `serve`: the order of connections, time limits of lines, connections that are
idle, silent, endless or don't read, requests of browsers, and accepts that fail."""
import concurrent.futures
import contextlib
import os
import pathlib
import signal
import socket
import statistics
import tempfile
import threading
import time
from collections.abc import Callable, Iterator

from support import checks, processes
from support.checks import check, check_beside, check_soon, check_within, comes
from support.clients import SMALL_BUFFER, connect, received, send_in_pieces, timed_for
from support.many_sockets import many_sockets
from support.late_lines import milliseconds
from support.messages import BY_HAND
from support.operators import LONGEST, Operator
from support.ports import HOST
from support.stderr_lines import accepts_fail, check_told_once, told
from support.switch import Switch, book

# How long, in seconds, an order waits at most. If another connection kept it out, it would wait for
# as long as that one stays.
SOON = 4.0
# How long an order waits at most beside connections that take turns, and an urgent one.
PROMPT, AT_ONCE = 1.0, 0.3
# How long a connection may take nothing of its replies.
NOT_TAKEN = 10.0
# After how many seconds one begins to take them that takes them late: much less, on a busy machine too.
LATE = 2.0
# A rollout that keeps many revisions, so that its report is long.
MANY_REVISIONS = BY_HAND.replace('"replicas": 1', '"replicas": 1, "revisionHistoryLimit": 60')
# How many bytes the system of a connection takes ahead that reads its replies late.
MIDDLE_BUFFER = 262_144
# For how long it is seen that a line that has not ended has no reply.
SEEN = 4.0
# How long, in seconds, the switch has for a line before another connection sends one: much less
# than a silence.
BETWEEN_LINES = 0.1
# How many connections wait at a port while the switch is stopped: more than the 128 that a listener
# of Rattle's library has room for, and no more than the system allows.
WAITING = min(400, int(pathlib.Path("/proc/sys/net/core/somaxconn").read_text(encoding="ascii")))
# How many sockets there are beside an order and a report; on how many connections both are asked
# for; how many times as long they may take there, and by how many milliseconds more.
SOCKETS, CONNECTIONS, MANY, JITTER = 8_000, 41, 1.5, 2
# What comes before the lines that a web page would have carried out.
BROWSERS = {
    "a form": b"POST / HTTP/1.1\r\nHost: 127.0.0.1\r\nContent-Type: text/plain\r\nContent-Length: 60\r\n\r\n",
    "a request line": b"POST / HTTP/1.1\n",
    "a request line of another version": b"GET /x HTTP/2.0\r\n",
    "a request line with a target of any bytes": b"GET /\xc3\xa9 x HTTP/1.1\r\n",
    "a request line with a long target": b"GET /" + b"a" * 4000 + b" HTTP/1.1\r\n",
    "a field": b"Host: x\r\n",
    "a field without a space": b"X-A:b\n",
    "a field without a value": b"X_a|~:\n",
}
# Faulty lines that aren't HTTP, and their faults.
FAULTS = {
    b"jump": "UnknownWord",
    b"": "Empty",
    b"tick x": "BadNumber",
    b"tick\t5": "NotAscii",
    b"GET / HTTP": "UnknownWord",
    b": x": "UnknownWord",
    b"a b: c": "UnknownWord",
}


# Lines with a time limit, as far as they stand after `before`, and their faults.
FAULTS_OF_LIMITED = {
    "": "WrongCount",
    "9": "WrongCount",
    "x promote": "BadNumber",
    "18446744073709551616 promote": "BadNumber",
    "000000000000000000001 promote": "BadNumber",
    "x jump": "BadNumber",
    "9 jump": "UnknownWord",
    "9 tick": "WrongCount",
    "9 promote half": "BadWord",
    "9 deploy two 65536": "BadNumber",
    "9 open two": "WrongCount",
    "9 before x promote": "BadWord",
    **dict.fromkeys(
        (
            f"9 {line}"
            for line in ("report", "quit", "compact", "open two 2", "down 2", "enter 0 active")
        ),
        "BadWord",
    ),
    "9 leave 0": "BadWord",
    "9 before 9 promote": "BadWord",
}
# Events with a time limit that is never over, in turn, and their replies at a book that is open.
LIMITED = {
    "tick 5": "ok 0",
    "tick 3": "refused MomentBack",
    "available 1 1": "ok 0",
    "deploy two 2": "ok 0",
    "available 2 2": "refused MoreThanDesired",
    "promote": "refused NotPaused",
    "verdict post error": "refused NoAnalysis",
    "abort": "ok 0",
    "promote full": "refused Aborted",
    "retry": "ok 0",
}
NEVER_OVER = 2**64 - 1


def check_line(name: str, switch: Switch, line: str, most: float = SOON) -> None:
    """Checks that a line of another operator is carried out, and how long that takes at most."""
    start = time.monotonic()
    check(f"an order beside {name}", switch.answer_to(line), "ok 0")
    check_soon(f"the wait of an order beside {name}", time.monotonic() - start, most)


def idle_connections(path: str = "") -> None:
    """Connections that say nothing, or no whole line, keep nobody out, before a book is open and
    after."""
    # the switch ends first: at the end of its input, a part of a line is a line, such as `quit`
    with contextlib.ExitStack() as stack, book(is_open=False, path=path) as switch:
        for number in range(40):
            idle = stack.enter_context(connect(switch.place))
            idle.sendall(b"quit"[: number % 5])
        start = time.monotonic()
        check("open beside idle connections", switch.answer_to("open one 9"), "ok 0")
        check_soon("the wait of open beside idle connections", time.monotonic() - start, SOON)
        check_line("idle connections", switch, "tick 1")
        check_line("idle connections", switch, "tick 2")
    with book(path=path) as switch, connect(switch.place) as idle:
        idle.sendall(b"tick 3")
        check_line("a connection with a part of a line", switch, "tick 2")
        idle.sendall(b"\n")
        check("the line of a connection that was idle", idle.recv(100), b"ok 0\n")


def lasting_connections(path: str = "") -> None:
    """A connection that is silent between its lines stays, beside others with whole lines."""
    with book(path=path) as switch, contextlib.closing(switch.operator()) as silent:
        silent.check("tick 1", "ok 0")
        silent.socket.sendall(b"tick 2\ntick 30")
        check("a line before a part of a line", silent.receive_line(), "ok 0")
        for _ in range(3):
            check_line("a silent connection", switch, "tick 2", PROMPT)
            time.sleep(1)
        check("a part of a line isn't carried out", switch_moment(switch), 2)
        silent.check("", "ok 0")
        check("a line that came in two parts", switch_moment(switch), 30)


class Load:
    """Connections of each kind that one thread serves: watchers that ask each half second, silent
    ones, endless lines, pipelines of 100,000 lines, and those that read no replies."""

    def __init__(self, port: int, of_each: int) -> None:
        self.has_ended = threading.Event()
        self.answered = {"watchers": 0, "pipelines": 0}
        pipeline = b"tick 0\n" * 100_000
        self.sent: dict[socket.socket, bytes] = {}
        kinds = {
            "watchers": b"",
            "silent": b"",
            "endless": b"a" * 65536,
            "pipelines": pipeline,
            "not reading": b"report\n" * 100_000,
        }
        self.kinds = {
            kind: [
                connect(port, SMALL_BUFFER if kind == "not reading" else None)
                for _ in range(of_each)
            ]
            for kind in kinds
        }
        for kind, connections in self.kinds.items():
            for connection in connections:
                connection.setblocking(False)
                self.sent[connection] = kinds[kind]
        self.thread = threading.Thread(target=self.go_on, daemon=True)
        self.thread.start()

    def __enter__(self) -> "Load":
        return self

    def __exit__(self, *_: object) -> None:
        self.has_ended.set()
        self.thread.join()
        for connection in self.sent:
            connection.close()

    def go_on(self) -> None:
        """Sends and reads until the end, in rounds of half a second at least."""
        while not self.has_ended.wait(0.5):
            for connection in self.kinds["watchers"]:
                self.take("watchers", connection)
                send_part(connection, b"report\n")
            for connection in self.kinds["endless"]:
                send_part(connection, self.sent[connection])
            for kind in "pipelines", "not reading":
                for connection in self.kinds[kind]:
                    self.sent[connection] = self.sent[connection][
                        send_part(connection, self.sent[connection]) :
                    ]
            for connection in self.kinds["pipelines"]:
                self.take("pipelines", connection)

    def take(self, kind: str, connection: socket.socket) -> None:
        """Reads what has come, and counts it."""
        with contextlib.suppress(OSError):
            self.answered[kind] += len(connection.recv(1 << 20))

    def is_at_work(self) -> bool:
        """Whether connections of both kinds that read have been answered."""
        return all(self.answered.values())


def send_part(connection: socket.socket, text: bytes) -> int:
    """Sends as much of a text as the system takes, and gives how much that is."""
    with contextlib.suppress(OSError):
        return connection.send(text)
    return 0


def wait_of(switch: Switch, line: str, expected: str) -> float:
    """How many seconds the reply to a line takes, which is checked."""
    start = time.monotonic()
    check(f"the reply to {line}", switch.answer_to(line), expected)
    return time.monotonic() - start


def abort_beside_watchers() -> None:
    """An abort, and a failed verdict, are answered at once beside 1,000 connections of any kind."""
    processes.limit_descriptors(4 * 1100)
    switch, calm = (Switch(BY_HAND, workers=2, descriptors=4 * 1100) for _ in range(2))
    for each in (switch, calm):
        with contextlib.closing(each.operator()) as operator:
            operator.check("open one 1", "ok 0")
            operator.check("deploy two 2", "ok 0")
    with Load(switch.control, 200) as load:
        check("watchers and pipelines are answered", comes(load.is_at_work, 10), True)
        urgent, elsewhere, others = list[float](), list[float](), list[float]()
        for number in range(20):
            line, expected = (
                ("verdict pre failed", "refused NoAnalysis")
                if number % 2
                else ("abort", "refused AlreadyAborted" if number else "ok 0")
            )
            urgent.append(wait_of(switch, line, expected))
            elsewhere.append(wait_of(calm, line, expected))
            others.append(wait_of(switch, "tick 0", "ok 0"))
            time.sleep(0.1)
        check_beside(
            "the wait of an abort, or of a failed verdict, beside 1,000 connections",
            urgent,
            elsewhere,
            AT_ONCE,
        )
        check_within(
            "twice such a wait, where a line that takes its turn is answered later",
            2 * statistics.median(urgent),
            statistics.median(others),
        )
        start = time.monotonic()
        check("a report beside 1,000 connections", "phase aborted" in report(switch), True)
        check_soon("the wait of a report beside 1,000 connections", time.monotonic() - start, SOON)
    switch.stop()
    calm.stop()


@contextlib.contextmanager
def stopped(switch: Switch) -> Iterator[None]:
    """The program is stopped for a while, so that lines wait."""
    processes.pause(switch.process.pid)
    try:
        yield
        time.sleep(BETWEEN_LINES)
    finally:
        switch.process.send_signal(signal.SIGCONT)


def lines_take_turns(path: str = "") -> None:
    """Of all lines that wait, the first is answered first, but an urgent one before; a connection
    with many lines has one answered, and then the next connection."""
    with book(path=path) as switch, contextlib.ExitStack() as stack:
        operators = [stack.enter_context(contextlib.closing(switch.operator())) for _ in range(4)]
        for operator in operators:
            operator.check("tick 0", "ok 0")
        with stopped(switch):
            for moment, place in enumerate((2, 0, 3, 1), 1):
                operators[place].socket.sendall(b"tick %d\n" % moment)
        # a tick to a moment before the present one is refused
        check(
            "lines that wait are carried out in the order in which they came",
            [operator.receive_line() for operator in operators],
            ["ok 0"] * 4,
        )
        first, second, third, fourth = operators
        first.check("deploy two 2", "ok 0")
        with stopped(switch):
            for operator, line in (
                (second, b"promote full\n"),
                (third, b"tick 5\n"),
                (first, b"verdict post error\n"),
                (fourth, b"abort\n"),
            ):
                operator.socket.sendall(line)
        check(
            "an abort and a failed verdict are carried out before all that waits",
            [operator.receive_line() for operator in (first, fourth, second, third)],
            ["refused NoAnalysis", "ok 0", "refused Aborted", "ok 0"],
        )
        first.socket.sendall(b"tick 6\n" + b"report\n" * 5000 + b"tick 7\n")
        check_line("a connection with 5,000 lines", switch, "tick 8", PROMPT)
        first.socket.shutdown(socket.SHUT_WR)
        lines = received(first.socket).splitlines()
        check(
            "the last line of a connection with 5,000 lines",
            (lines[0], lines[-1]),
            (b"ok 0", b"refused MomentBack"),
        )
        check("each report of a connection with 5,000 lines", lines.count(b"end"), 5000)


def time_limits(path: str = "") -> None:
    """A line `before` is carried out while the boot clock is below its time limit. Else it is refused,
    and nothing changes, also if it has waited at a switch that was stopped."""
    with book(is_open=False, path=path) as switch, contextlib.closing(
        switch.operator()
    ) as operator:
        for limit in (0, NEVER_OVER):
            operator.check(f"before {limit} promote", "refused NotOpen")
        for is_open in (False, True):
            for words, fault in FAULTS_OF_LIMITED.items():
                operator.check(f"before {words}", f"fault {fault}")
            if not is_open:
                operator.check("open one 1", "ok 0")
        state = operator.report()
        for line in LIMITED:
            for limit in (0, milliseconds()):
                operator.check(f"before {limit} {line}", "refused TooLate")
        with stopped(switch):
            limit = milliseconds() + round(BETWEEN_LINES * 500)
            operator.socket.sendall(b"before %d tick 7\n" % limit)
        check("a line whose time limit was over", operator.receive_line(), "refused TooLate")
        check("the state after lines that were too late", operator.report(), state)
        for line, reply in LIMITED.items():
            operator.check(f"before {NEVER_OVER} {line}", reply)
        limit = milliseconds() + round(1000 * LONGEST)
        operator.check(f"before {limit} tick 6", "ok 0")


def sequence_within_a_connection(path: str = "") -> None:
    """The lines of a connection are answered in their order, an abort too, one between those of
    other connections."""
    with book(path=path) as switch, contextlib.closing(
        switch.operator()
    ) as one, contextlib.closing(switch.operator()) as other:
        one.check("tick 0", "ok 0")
        other.check("tick 0", "ok 0")
        with stopped(switch):
            one.socket.sendall(b"tick 1\ntick 3\ntick 5\n")
            other.socket.sendall(b"tick 2\ntick 4\ntick 6\n")
        check(
            "lines of two connections",
            [operator.receive_line() for _ in range(3) for operator in (one, other)],
            ["ok 0"] * 6,
        )
        with stopped(switch):
            one.socket.sendall(b"deploy two 2\nabort\nretry\nabort\njump\n")
            other.socket.sendall(b"tick 7\n" * 9)
        check(
            "an abort behind a line of its own connection",
            [one.receive_line() for _ in range(5)],
            ["ok 0"] * 4 + ["fault UnknownWord"],
        )
        check("lines beside an abort", [other.receive_line() for _ in range(9)], ["ok 0"] * 9)


def replies_not_taken_hold_nobody() -> None:
    """Connections that don't read their replies hold nobody up. One that takes nothing for ten
    seconds is ended, and one that takes them late has all of them."""
    count = 600
    with book(rollout=MANY_REVISIONS) as switch, contextlib.ExitStack() as stack:
        with contextlib.closing(switch.operator()) as operator:
            for number in range(60):
                operator.answer_to(f"deploy {'a' * 60}{number} {number + 1}")
            length = len(operator.report())
            check("a report is long", length > 6_000, True)
        before = switch.count_descriptors()
        clients = [stack.enter_context(connect(switch.control, SMALL_BUFFER)) for _ in range(5)]
        late = connect(switch.control, MIDDLE_BUFFER)
        start = time.monotonic()
        for client in (*clients, late):
            client.sendall(b"report\n" * count)
        with concurrent.futures.ThreadPoolExecutor(1) as pool:
            taken_late = pool.submit(taken_after, LATE, late, count * length)
            for _ in range(4):
                check_line("connections that read no replies", switch, "tick 0")
                are_there = switch.count_descriptors() >= before + len(clients)
                is_over = time.monotonic() - start > NOT_TAKEN - 1
                check("they are still there", are_there or is_over, True)
                time.sleep(0.5)
            got = taken_late.result()
        check(
            "the replies of a connection that takes them late",
            (got.count(b"moment 0\n"), got.count(b"\nend\n")),
            (count, count),
        )
        check(
            "connections that read no replies are ended",
            comes(lambda: switch.count_descriptors() <= before, 3 * NOT_TAKEN),
            True,
        )
        check_line("connections that were ended", switch, "tick 1", PROMPT)


def taken_after(seconds: float, connection: socket.socket, count: int) -> bytes:
    """The first `count` bytes that come for a connection, which takes the first of them this many
    seconds later."""
    time.sleep(seconds)
    got = b""
    with connection:
        while len(got) < count and (piece := connection.recv(1 << 20)):
            got += piece
    return got


def urgent_lines(path: str = "") -> None:
    """Connections that send aborts without end hold up no other line."""
    with book(path=path) as switch, contextlib.ExitStack() as stack:
        for _ in range(8):
            client = stack.enter_context(connect(switch.place))
            threading.Thread(
                target=send_in_pieces, args=(client, [b"abort\n" * 100_000], 0), daemon=True
            ).start()
        time.sleep(BETWEEN_LINES)
        for moment in range(1, 6):
            check_line("aborts without end", switch, f"tick {moment}", PROMPT)


def full_port(path: str = "") -> None:
    """If the port is full, the connection goes that is silent for the longest, so a new operator
    always gets in."""
    switch = Switch(BY_HAND, descriptors=4 * 16, path=path)
    check("open", switch.answer_to("open one 1"), "ok 0")
    with contextlib.closing(switch.operator()) as busy, contextlib.ExitStack() as stack:
        silent = []
        for moment in range(1, 101):
            silent.append(stack.enter_context(connect(switch.place)))
            busy.check(f"tick {moment}", "ok 0")
        check_line("silent connections at a full port", switch, "tick 101", PROMPT)
        busy.check("tick 102", "ok 0")
        check(
            "the connections that were silent for the longest are ended", received(silent[0]), b""
        )
        silent[-1].sendall(b"tick 103\n")
        check("a connection that was silent for less long", silent[-1].recv(100), b"ok 0\n")
    switch.stop()


@contextlib.contextmanager
def connecting(port: int) -> Iterator[socket.socket]:
    """A connection to a port that may not be made yet."""
    with socket.socket() as connection:
        connection.setblocking(False)
        connection.connect_ex((HOST, port))
        yield connection


def connected(connections: list[socket.socket]) -> int:
    """How many of these connections are made."""
    made = 0
    for connection in connections:
        with contextlib.suppress(OSError):
            made += connection.getpeername() is not None
    return made


def waiting_at(port: int) -> int:
    """How many of many new connections to a port are made."""
    with contextlib.ExitStack() as stack:
        begun = [stack.enter_context(connecting(port)) for _ in range(WAITING)]
        comes(lambda: connected(begun) == WAITING)
        made = connected(begun)
    return made


def backlog() -> None:
    """While the switch takes no connections, as many wait at the control port as at a client
    port."""
    with book() as switch:
        with stopped(switch):
            for name, port in (("active", switch.active), ("control", switch.control)):
                check(f"connections that wait at the {name} port", waiting_at(port), WAITING)
        check_line("connections that have gone", switch, "tick 1")


def lines_that_are_too_long(path: str = "") -> None:
    """A line that is too long has its fault once it ends, and holds nobody up before."""
    with book(path=path) as switch:
        for length, expected in (
            (4096, "NotAscii"),
            (4097, "TooLong"),
            (4098, "TooLong"),
            (4099, "TooLong"),
            (100_000, "TooLong"),
        ):
            for ending in b"\n", b"\r\n":
                with contextlib.closing(switch.operator()) as operator:
                    got = operator.answer(b"\t" * length + ending[:-1]), operator.answer_to(
                        "tick 0"
                    )
                    check(f"a line of {length} bytes", got, ([f"fault {expected}"], "ok 0"))
            got_at_end = timed_for(switch.place, SEEN, [b"tick 0\n" + b"\t" * length])
            check("a line that has not ended has no reply", got_at_end.answer, b"")
            with connect(switch.place) as client:
                client.sendall(b"\t" * length)
                check_line("a line that has not ended", switch, "tick 0", PROMPT)
                client.shutdown(socket.SHUT_WR)
                check(
                    f"a line of {length} bytes at the end",
                    received(client),
                    b"fault %s\n" % expected.encode(),
                )


def lines_of_the_gone(path: str = "") -> None:
    """A line whose sender has closed its connection, or its writing side, is carried out."""
    with book(path=path) as switch:
        for moment, ending in ((1, b"\n"), (2, b"")):
            with connect(switch.place) as client:
                client.sendall(b"tick %d" % moment + ending)
            check(
                "the line of a connection that was closed",
                comes(lambda: switch_moment(switch) == moment),
                True,
            )
        with connect(switch.place) as client:
            client.sendall(b"tick 3\ntick 4")
            client.shutdown(socket.SHUT_WR)
            check(
                "lines of a connection whose writing side is shut",
                received(client),
                b"ok 0\nok 0\n",
            )


def switch_moment(switch: Switch) -> int:
    with contextlib.closing(switch.operator()) as operator:
        return operator.state().moment


def http_before_open() -> None:
    """A request of a browser opens no book, and doesn't end the program."""
    with book(is_open=False) as switch:
        for what, text in BROWSERS.items():
            got = sent_by_browser(switch, text + b"open evil 9\r\nquit\r\n")
            check(f"{what} before a book is open", is_one_fault(got), True)
        check("no browser has opened a book", switch.answer_to("open one 9"), "ok 0")


def sent_by_browser(switch: Switch, *pieces: bytes) -> bytes:
    """What a connection that sends this is answered up to its end, or nothing if it isn't ended
    for long."""
    return timed_for(switch.control, checks.LONGEST_WAIT, pieces, 0.1).answer


def is_one_fault(answer: bytes) -> bool:
    return answer in (b"fault UnknownWord\n", b"fault NotAscii\n")


def http() -> None:
    """The first line that is written as HTTP is answered its fault, and ends the connection.
    Nothing behind it is carried out."""
    with book() as switch:
        for what, text in BROWSERS.items():
            before = switch.answer_to("tick 1"), report(switch)
            got = sent_by_browser(
                switch, text + b"deploy evil 22402\r\navailable 2 1\r\npromote full\r\n"
            )
            check(f"{what} is answered one fault, and ends the connection", is_one_fault(got), True)
            check(
                f"no line behind {what} is carried out",
                (switch.answer_to("tick 1"), report(switch)),
                before,
            )
        for text in BROWSERS.values():
            sent_by_browser(switch, text + b"quit\r\n")
        check("no quit behind a line of HTTP is carried out", switch.answer_to("tick 2"), "ok 0")


def http_in_pieces() -> None:
    """The same, but lines came before and others come later."""
    with book() as switch:
        for moment, text in enumerate(BROWSERS.values(), 1):
            got = sent_by_browser(
                switch,
                b"tick %d\n" % moment,
                text[:9],
                text[9:],
                b"deploy evil 22402\r\n",
                b"tick 99\r\n",
            )
            check(
                "a good line before a line of HTTP",
                (got[:5], is_one_fault(got[5:])),
                (b"ok 0\n", True),
            )
            check(
                "no line that comes after a line of HTTP is carried out",
                (switch_moment(switch), "evil" in report(switch)),
                (moment, False),
            )


def other_faults() -> None:
    """A faulty line that isn't written as HTTP ends nothing."""
    with book() as switch, contextlib.closing(switch.operator()) as operator:
        for line, fault in FAULTS.items():
            check(f"the line {line!r}", operator.answer(line), [f"fault {fault}"])
        operator.check("tick 1", "ok 0")


def report(switch: Switch) -> str:
    with contextlib.closing(switch.operator()) as operator:
        return operator.report()


def accepts_that_fail() -> None:
    """Accepts that fail for want of descriptors are told once and tried again for ever; who is
    connected is served meanwhile."""
    with book() as switch, contextlib.closing(switch.operator()) as operator:
        operator.check("tick 1", "ok 0")
        limit = processes.DescriptorLimit(switch.process.pid)
        limit.leave(0)
        with contextlib.ExitStack() as stack:
            pending = [stack.enter_context(connect(switch.control)) for _ in range(3)]
            for client in pending:
                client.sendall(b"report\n")
            check_told_once(
                "accepts that fail at the control port are told", switch, accepts_fail("control")
            )
            for moment in range(2, 5):
                operator.check(f"tick {moment}", "ok 0")
                time.sleep(1)
            limit.lift()
            for client in pending:
                check(
                    "a connection once there are descriptors again", client.recv(9), b"moment 4\n"
                )
        check_line("accepts that have failed", switch, "tick 5")
        check("accepts that fail are told once", len(told(switch, accepts_fail("control"))), 1)


def notices_without_room() -> None:
    """A notice for which standard error has no room holds no operator up."""
    reader, writer = os.pipe()
    os.set_blocking(writer, False)
    with contextlib.suppress(BlockingIOError):
        while True:
            os.write(writer, bytes(4096))
    os.set_blocking(writer, True)
    switch = Switch(prepare=lambda: os.dup2(writer, 2))
    check("an opening beside a full standard error", switch.answer_to("open one 1"), "ok 0")
    limit = processes.DescriptorLimit(switch.process.pid)
    limit.refuse()
    with connect(switch.control):
        time.sleep(1)
    limit.lift()
    with connect(switch.control) as operator:
        operator.sendall(b"tick 1\n")
        check("an operator after a notice without room", operator.recv(100), b"ok 0\n")
    for end in (reader, writer):
        os.close(end)
    switch.kill()


AT_SOCKET = (
    idle_connections,
    lasting_connections,
    lines_take_turns,
    sequence_within_a_connection,
    urgent_lines,
    time_limits,
    full_port,
    lines_that_are_too_long,
    lines_of_the_gone,
)


def at_socket(part: Callable[[str], None]) -> Callable[[], None]:
    """The part once more, at a control socket."""

    def part_at_socket() -> None:
        with tempfile.TemporaryDirectory() as folder:
            part(f"{folder}/control")

    part_at_socket.__name__ = f"{part.__name__}_at_socket"
    return part_at_socket


def port_and_socket() -> None:
    """The lines of a port and of a socket have the same replies, and take turns with one another.
    Silent connections of the one hold up no line of the other."""
    with tempfile.TemporaryDirectory() as folder, contextlib.ExitStack() as stack:
        path = f"{folder}/control"
        switch = Switch(BY_HAND, workers=2, flags=("--control-socket", path))
        check("open", switch.answer_to("open one 1"), "ok 0")
        at_port = stack.enter_context(contextlib.closing(Operator(switch.control)))
        at_path = stack.enter_context(contextlib.closing(Operator(path)))
        for line in (
            *FAULTS,
            b"tick 1",
            b"report",
            b"verdict pre failed",
            b"open one 1",
            b"down 1",
        ):
            replies = [operator.answer(line) for operator in (at_port, at_path)]
            check(f"the replies to {line!r} at the port and at the socket", *replies)
        for operator in (at_port, at_path):
            for _ in range(40):
                silent = stack.enter_context(connect(operator.control))
                silent.sendall(b"tick")
        for operator in (at_port, at_path):
            start = time.monotonic()
            operator.check("tick 1", "ok 0")
            check_soon("a line beside silent ones", time.monotonic() - start, PROMPT)
        at_path.check("deploy two 2", "ok 0")
        with stopped(switch):
            for operator, line in ((at_port, b"tick 5\n"), (at_path, b"tick 6\n")):
                operator.socket.sendall(line)
                time.sleep(BETWEEN_LINES)
        check(
            "lines of the port and of the socket, in the order in which they came",
            [operator.receive_line() for operator in (at_port, at_path)],
            ["ok 0"] * 2,
        )
        with stopped(switch):
            for operator, line in ((at_port, b"promote full\n"), (at_path, b"abort\n")):
                operator.socket.sendall(line)
        check(
            "an abort of the socket before a line of the port",
            [operator.receive_line() for operator in (at_path, at_port)],
            ["ok 0", "refused Aborted"],
        )
        at_path.send_quit()
        check(
            "both are ended by quit",
            (received(at_port.socket), received(at_path.socket)),
            (b"", b""),
        )
        check("the port is closed", comes(lambda: not is_listened_at(switch.control)), True)
        switch.kill()


def is_listened_at(port: int) -> bool:
    with contextlib.suppress(ConnectionRefusedError), connect(port):
        return True
    return False


def accepts_that_fail_at_the_socket() -> None:
    """The same as at the port: it is told once, and tried again."""
    with tempfile.TemporaryDirectory() as folder, book(path=f"{folder}/control") as switch:
        with contextlib.closing(switch.operator()) as operator, contextlib.ExitStack() as stack:
            operator.check("tick 1", "ok 0")
            limit = processes.DescriptorLimit(switch.process.pid)
            limit.leave(0)
            pending = [stack.enter_context(connect(switch.place)) for _ in range(3)]
            for client in pending:
                client.sendall(b"report\n")
            check_told_once(
                "accepts that fail at the control socket are told",
                switch,
                accepts_fail("control", "socket"),
            )
            operator.check("tick 4", "ok 0")
            limit.lift()
            for client in pending:
                check("a connection once there are descriptors", client.recv(9), b"moment 4\n")


def beside_many_sockets(count: int = SOCKETS) -> None:
    """An order and a report on a new connection of the control socket take no longer beside many
    sockets of the machine. The least of the times are compared: a read of the system's table would
    make each of them longer, while other programs make some longer."""
    with tempfile.TemporaryDirectory() as folder, book(path=f"{folder}/control") as switch:
        before = waits_on_connections(switch)
        with many_sockets(count):
            many = min(waits_on_connections(switch))
        few = min(before + waits_on_connections(switch))
    print(
        f"an order and a report beside {count:,} further sockets: {many / few:.2f} times as long",
        flush=True,
    )
    check_within(
        "an order and a report beside many sockets, in milliseconds",
        1e3 * many,
        1e3 * MANY * few + JITTER,
    )


def beside_120_000_sockets() -> None:
    beside_many_sockets(120_000)


def waits_on_connections(switch: Switch) -> list[float]:
    """How many seconds an order and a report take, from their connection on, again and again."""
    waits = []
    for _ in range(CONNECTIONS):
        start = time.monotonic()
        with contextlib.closing(switch.operator()) as operator:
            operator.check("tick 1", "ok 0")
            operator.report()
        waits.append(time.monotonic() - start)
    return waits


if __name__ == "__main__":
    checks.run(
        "live_control",
        (
            replies_not_taken_hold_nobody,
            abort_beside_watchers,
            lines_take_turns,
            time_limits,
            sequence_within_a_connection,
            urgent_lines,
            full_port,
            backlog,
            idle_connections,
            lasting_connections,
            lines_that_are_too_long,
            lines_of_the_gone,
            http_before_open,
            http,
            http_in_pieces,
            other_faults,
            accepts_that_fail,
            notices_without_room,
            port_and_socket,
            accepts_that_fail_at_the_socket,
            beside_many_sockets,
            *map(at_socket, AT_SOCKET),
        ),
        5,
        by_hand=(beside_120_000_sockets,),
    )
