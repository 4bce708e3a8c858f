"""Lines `before` to a switch that is stopped and continued at random, each with a verdict: whether it
was certainly late and not refused, or certainly in time and refused.

All moments are milliseconds of the boot clock, rounded down, as the switch has them.
"""
import collections
import contextlib
import os
import random
import signal
import statistics
import time
from collections.abc import Iterator, Sequence
from typing import NamedTuple

from bg_switch_tools.switch.before import boot_clock
from bg_switch_tools.switch.replies import TOO_LATE

from support import processes
from support.operators import LONGEST, Operator

CONNECTIONS = 8
MOST_LINES = 3  # of a connection in one stop
AHEAD = (1, 8)  # milliseconds by which the time limit of a line is ahead when it is sent
FAR = 600_000  # milliseconds by which the time limit of a line is ahead that is in time for certain
SHARE_FAR = 0.15  # of the lines
SHARE_QUIET = 0.25  # of the stops: all lines in them are late, and nothing may change
LONGER = (0.0, 0.01)  # seconds for which a stop goes on after the latest time limit
EVENTS = (
    "available 1 1",
    "available 1 2",
    "tick 1",
    "tick 2",
    "promote",
    "promote full",
    "abort",
    "retry",
    "verdict pre successful",
    "verdict post failed",
    "deploy two 3 4",
    "deploy one 1 2",
)


def milliseconds() -> int:
    return int(boot_clock() * 1000)


class Sent(NamedTuple):
    """A line that was answered. The switch has judged it at `earliest` or later: then the sending
    began, or the switch went on that had been stopped since before. It has judged it at `received` or
    earlier: then the reply was here."""

    line: str
    limit: int
    earliest: int
    reply: str = ""
    received: int = 0

    @property
    def is_late(self) -> bool:
        return self.earliest >= self.limit

    @property
    def is_in_time(self) -> bool:
        return self.received < self.limit

    def fault(self) -> str:
        """What the switch has done wrong for certain; empty if it has done nothing."""
        told = f"before {self.limit} {self.line} => {self.reply}"
        if self.is_late and self.reply != str(TOO_LATE):
            return (
                f"carried out late: {told}, and the switch had not judged it before {self.earliest}"
            )
        if self.is_in_time and self.reply == str(TOO_LATE):
            return f"refused in time: {told}, and the reply was here at {self.received}"
        return ""


class Sender:
    """A connection, and the lines of it that wait for their replies."""

    def __init__(self, port: int) -> None:
        self.operator = Operator(port)
        self.waiting: list[Sent] = []

    def send(self, line: str, ahead: int) -> int:
        """Sends a line that has to be carried out within `ahead` milliseconds from now. Gives its
        time limit."""
        begun = milliseconds()
        self.waiting.append(Sent(line, begun + ahead, begun))
        self.operator.send(f"before {begun + ahead} {line}".encode("ascii"))
        return begun + ahead

    def go_on(self, moment: int) -> None:
        """The switch was stopped since before the lines that wait were sent, up to this moment."""
        self.waiting = [each._replace(earliest=moment) for each in self.waiting]

    def replies(self) -> Iterator[Sent]:
        self.operator.allow(LONGEST)
        waiting, self.waiting = self.waiting, []
        for each in waiting:
            reply = self.operator.receive_line()
            yield each._replace(reply=reply, received=milliseconds())


class Outcome(NamedTuple):
    """What a drill came to."""

    lines: Sequence[Sent]
    stops: int
    faults: Sequence[str]

    def table(self) -> Iterator[str]:
        kinds = collections.Counter(
            "late" if each.is_late else "in time" if each.is_in_time else "one or the other"
            for each in self.lines
        )
        replies = collections.Counter(
            each.reply.split(" ")[-1] for each in self.lines if not each.reply.startswith("ok ")
        )
        yield f"{len(self.lines)} lines, {self.stops} stops"
        yield "for certain: " + ", ".join(f"{kind} {count}" for kind, count in kinds.most_common())
        yield "refused: " + ", ".join(f"{name} {count}" for name, count in replies.most_common())


class LateLines:
    """A drill at a running switch. `port` is its control port, or that of a proxy before it."""

    def __init__(self, process: int, port: int, seed: int) -> None:
        self.process = process
        self.chance = random.Random(seed)
        self.watcher = Operator(port)
        self.senders = [Sender(port) for _ in range(CONNECTIONS)]
        self.lines: list[Sent] = []
        self.faults: list[str] = []
        self.stops = 0

    def play(self, count: int) -> Outcome:
        """Sends at least `count` lines."""
        while len(self.lines) < count:
            if self.chance.random() < SHARE_QUIET:
                self._quiet_stop()
            else:
                self._stop()
        self.faults += [fault for each in self.lines if (fault := each.fault())]
        return Outcome(self.lines, self.stops, self.faults)

    def close(self) -> None:
        for operator in (self.watcher, *(sender.operator for sender in self.senders)):
            operator.close()

    @contextlib.contextmanager
    def _stopped(self, senders: Sequence[Sender]) -> Iterator[None]:
        """The switch is stopped; these senders have no line on its way before."""
        processes.pause(self.process)
        try:
            yield
        finally:
            went_on = milliseconds()
            os.kill(self.process, signal.SIGCONT)
        self.stops += 1
        for sender in senders:
            sender.go_on(went_on)

    def _ahead(self) -> int:
        return FAR if self.chance.random() < SHARE_FAR else self.chance.randint(*AHEAD)

    def _send(self, sender: Sender, ahead: int) -> int:
        return sender.send(self.chance.choice(EVENTS), ahead)

    def _pass(self, moment: int) -> None:
        """Waits until this moment is over, and some time more."""
        seconds = max(moment / 1000 - boot_clock(), 0.0) + 0.001
        time.sleep(seconds + self.chance.uniform(*LONGER))

    def _collect(self) -> None:
        for sender in self.senders:
            self.lines += sender.replies()

    def _stop(self) -> None:
        """Some connections have lines on their way when the switch is stopped, the others send theirs
        meanwhile, and once more after it went on."""
        self.chance.shuffle(self.senders)
        before, meanwhile = self.senders[:2], self.senders[2:]
        for sender in before:
            self._send(sender, self.chance.randint(*AHEAD))
        with self._stopped(meanwhile):
            latest = milliseconds()
            for sender in meanwhile:
                for _ in range(self.chance.randint(1, MOST_LINES)):
                    ahead = self._ahead()
                    limit = self._send(sender, ahead)
                    latest = latest if ahead == FAR else max(latest, limit)
            self._pass(latest)
        for sender in self.senders:
            self._send(sender, self._ahead())
        self._collect()

    def _quiet_stop(self) -> None:
        """All lines are late, so the state is as before."""
        self.watcher.allow(LONGEST)
        state = self.watcher.report()
        with self._stopped(self.senders):
            limits = [self._send(each, self.chance.randint(*AHEAD)) for each in self.senders]
            self._pass(max(limits))
        self._collect()
        after = self.watcher.report()
        if after != state:
            self.faults.append(f"changed by late lines: {state!r} became {after!r}")


def seconds_of(operator: Operator, line: bytes, count: int, at_once: int = 50) -> float:
    """How long a switch takes for a line `count` times, of which `at_once` are sent together."""
    begun = time.monotonic()
    for _ in range(count // at_once):
        operator.allow(LONGEST)
        operator.answers([line] * at_once)
    return time.monotonic() - begun


def ratio_of_orders(operator: Operator, rounds: int, count: int) -> tuple[float, float, float]:
    """Orders a second without a time limit and with one, and how many times as many the latter are: the
    median of the rounds, in which they take turns."""
    plain = b"available 1 2"
    in_time = f"before {milliseconds() + FAR} available 1 2".encode("ascii")
    found: dict[bytes, list[float]] = {plain: [], in_time: []}
    for number in range(rounds):
        for line in (plain, in_time) if number % 2 else (in_time, plain):
            found[line].append(count / seconds_of(operator, line, count))
    ratios = [with_it / without for without, with_it in zip(found[plain], found[in_time])]
    return (
        statistics.median(found[plain]),
        statistics.median(found[in_time]),
        statistics.median(ratios),
    )
