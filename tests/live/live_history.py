"""`bg_switch serve` as its history gets full: what is told on standard error, what lines and
requests are answered, and that they are carried out again once there is room."""
import contextlib
import math
import socket
import threading
import time

from support import checks, clients
from support.checks import check, comes
from support.clients import received, timed
from support.endpoints import Endpoint, Held, by_target, held_at
from support.messages import UNAVAILABLE, answer, request
from support.stderr_lines import check_told_once, full, nearly_full, told
from support.switch import LISTENING, Switch

MOST = 1_000_000
# From this number of entries on, it is told that the history is nearly full.
NEARLY = MOST // 10 * 9
# How many places an event has to find, and how many each open request keeps.
OF_EVENT, OF_REQUEST = 141, 3
WORKERS = 7
# So long that no request is given up that the endpoint holds, on a busy machine too.
TIMEOUT = 600
REVISIONS = 64
# The old revisions are scaled down, and removed at once.
DELAY = 30
ROLLOUT = f"""{{"spec": {{"revisionHistoryLimit": 0, "strategy": {{"blueGreen": {{
"activeService": "web", "scaleDownDelaySeconds": {DELAY}}}}}}}}}"""
# A line that takes one place.
LINE = f"available {REVISIONS - 1} 1"
# How many lines are sent in one piece.
AT_A_TIME = 10_000
FULL = "refused HistoryFull"
# How many requests are answered, which leave two entries each that can be dropped.
ANSWERED = 50
FLOOD = 40
# For how long nothing more is told once nothing more is refused, in seconds.
QUIET = 2.5


class Filled:
    """A switch, and how many entries its history has but for those of requests. Each line has a
    connection of its own."""

    def __init__(self, stack: contextlib.ExitStack) -> None:
        self.stack = stack
        self.held = Held(b"held")
        self.port = Endpoint(held_at(b"/held", self.held, by_target(b"one"))).port
        self.switch = Switch(ROLLOUT, workers=WORKERS, preview=False, timeout=TIMEOUT)
        check("listening", self.switch.first, LISTENING)
        check("open", self.switch.answer_to(f"open v1 {self.port}"), "ok 0")
        self.entries = 0

    def carry_out(self, line: str) -> int:
        """Orders a line that is carried out. Gives how many outcomes followed it."""
        reply = self.switch.answer_to(line)
        check(f"{line} is carried out", reply[:3], "ok ")
        self.entries += 1 + int(reply[3:])
        return int(reply[3:])

    def fill(self, entries: int) -> None:
        """Orders lines that take a place each, on one connection, until there are `entries`
        entries."""
        count = entries - self.entries
        with clients.connect(self.switch.control) as connection:
            sender = threading.Thread(target=send_lines, args=(connection, count))
            sender.start()
            got = received(connection)
            sender.join()
        check(f"each of {count} lines is carried out", got == b"ok 0\n" * count, True)
        self.entries = entries

    def hold(self, count: int) -> list[socket.socket]:
        """`count` clients whose requests wait at the endpoint."""
        before = self.held.pending
        pending = [
            self.stack.enter_context(clients.connect(self.switch.active)) for _ in range(count)
        ]
        for client in pending:
            client.sendall(request(b"/held"))
        check("requests that wait at the endpoint", self.held.holds(before + count), True)
        return pending

    def let_go(self, pending: list[socket.socket]) -> None:
        """Has the endpoint answer these clients, and hold later ones."""
        self.held.is_free.set()
        check("clients that waited", {received(client) for client in pending}, {answer(b"held")})
        check("no request is open", comes(lambda: sum(self.switch.open_requests()) == 0), True)
        self.held.is_free.clear()

    def check_answered(self, count: int) -> None:
        check(
            "requests are answered",
            {timed(self.switch.active).answer for _ in range(count)},
            {answer(b"one")},
        )

    def check_refused_line(self) -> None:
        check("a line that finds no place", self.switch.answer_to(LINE), FULL)

    def refused(self) -> tuple[int, int]:
        """How many lines and requests were refused, by what was told."""
        lines = told(self.switch, full())
        return sum(int(line[1]) for line in lines), sum(int(line[2]) for line in lines)


def send_lines(connection: socket.socket, count: int) -> None:
    """Sends lines that take a place each, and ends its side."""
    line = f"{LINE}\n".encode("ascii")
    for start in range(0, count, AT_A_TIME):
        connection.sendall(line * min(AT_A_TIME, count - start))
    connection.shutdown(socket.SHUT_WR)


def begin(filled: Filled) -> None:
    """Brings out as many revisions as can be, all but the last of which are old."""
    filled.carry_out("available 1 1")
    for number in range(2, REVISIONS):
        filled.carry_out(f"deploy v{number} {filled.port}")
        check("a revision goes live", filled.carry_out(f"available {number} 1"), 4)


def check_nearly_full(filled: Filled) -> None:
    """That it is nearly full is told once, with the number of entries."""
    filled.fill(NEARLY - 1)
    filled.carry_out(LINE)
    filled.carry_out(LINE)
    check_told_once("a history that is nearly full is told", filled.switch, nearly_full())
    check(
        "at how many entries",
        told(filled.switch, nearly_full())[0].groups(),
        (str(NEARLY), str(MOST)),
    )


def check_lines(filled: Filled) -> None:
    """A line finds no place beside open requests, and one again once they have left."""
    waits = 3
    filled.fill(MOST - OF_EVENT - OF_REQUEST * waits)
    filled.check_answered(ANSWERED)
    check("nothing was refused", filled.refused(), (0, 0))
    pending = filled.hold(waits)
    filled.check_refused_line()
    check(
        "a refused line is told",
        comes(lambda: filled.refused() == (1, 0)) or filled.switch.told,
        True,
    )
    check("a report", filled.switch.open_requests(), [0] * (REVISIONS - 2) + [waits])
    check(
        "a compaction, where nothing can be dropped",
        filled.switch.answer_to("compact"),
        "compacted 0",
    )
    filled.let_go(pending)
    filled.check_answered(ANSWERED)
    filled.carry_out(LINE)


def check_requests(filled: Filled) -> None:
    """A request finds no place beside open ones, and one again once they have left. What is told of
    many is bounded."""
    filled.fill(MOST - OF_EVENT)
    outcomes = filled.carry_out(f"tick {DELAY}")
    check("the old revisions are scaled down and removed", outcomes, 2 * (REVISIONS - 2))
    filled.check_refused_line()
    pending = filled.hold((MOST - filled.entries) // (1 + OF_REQUEST))
    told_before, start = len(told(filled.switch, full())), time.monotonic()
    for _ in range(FLOOD):
        check("a request that finds no place", timed(filled.switch.active).answer, UNAVAILABLE)
    check(
        "refused requests are told",
        comes(lambda: filled.refused() == (2, FLOOD)) or filled.switch.told,
        True,
    )
    most = math.ceil(time.monotonic() - start) + 1
    check(
        "at most once a second",
        len(told(filled.switch, full())) - told_before <= most or filled.switch.told,
        True,
    )
    filled.let_go(pending)
    filled.check_answered(ANSWERED)


def full_history() -> None:
    with contextlib.ExitStack() as stack:
        filled = Filled(stack)
        begin(filled)
        check_nearly_full(filled)
        check_lines(filled)
        check_requests(filled)
        time.sleep(QUIET)
        check("what was refused, by what was told", filled.refused(), (2, FLOOD))
        check_told_once("that it is nearly full was told once", filled.switch, nearly_full())
        filled.check_refused_line()
        with contextlib.closing(filled.switch.operator()) as operator:
            operator.send_quit()
            ended = filled.switch.wait()
        check("the end", (ended.printed.splitlines()[-2], ended.status), ("end", 0))
        check("what is refused last is told at the end", filled.refused(), (3, FLOOD))


if __name__ == "__main__":
    checks.run("live_history", (full_history,))
