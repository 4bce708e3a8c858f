"""Opens the book of a switch that was started and has resumed none."""
import contextlib
import sys
import time

from bg_switch_tools.controller.history.memory import Memory
from bg_switch_tools.controller.lines.book import AGAIN, Book
from bg_switch_tools.controller.lines.crash_losses import losses
from bg_switch_tools.controller.lines.line_source import LineSource
from bg_switch_tools.controller.log import Log
from bg_switch_tools.controller.plan.plan import Plan, PlannedRevision
from bg_switch_tools.controller.rounds.availability import Availability
from bg_switch_tools.switch.connection import Connection
from bg_switch_tools.switch.lines import Available, Down, Line, Open
from bg_switch_tools.switch.replies import BAD_PORTS, JOURNAL_FAILED, Reply
from bg_switch_tools.switch.reports import Report

FIRST_PROBE = 1  # seconds for which an opening waits for the first probes
COMPARED = "bgctl check PLAN --rollout FILE compares the plan with the Rollout of the switch, and says what to do"


class OpeningError(Exception):
    """The switch can't be opened with the plan's revisions. The text says why."""


class BookOpener:
    """What is done while no book is open, and directly after one was opened."""

    def __init__(
        self, log: Log, memory: Memory, book: Book, availability: Availability, source: LineSource
    ) -> None:
        self.log = log
        self.memory = memory
        self.book = book
        self.availability = availability
        self.source = source
        # with which an opening was sent that no report has shown yet
        self.sent: PlannedRevision | None = None
        self.begun = time.monotonic()
        self.waits_since: float | None = None  # from when on an opening has waited for an endpoint
        self.next = 0.0
        self.has_had_book = False

    def forget_book(self) -> None:
        self.next = 0.0

    def is_early(self) -> bool:
        """Whether the first probes may not have ended."""
        return time.monotonic() < self.begun + FIRST_PROBE

    def settle(self, plan: Plan, report: Report) -> None:
        """Takes in by a report whether the opening that was sent was carried out, also if its reply was
        lost. A book that its switch has resumed is gone on with."""
        self.memory.take_book()
        opened, lost = self.sent, self.book.lost
        self.sent = self.book.lost = None
        if opened and report.stable.name == opened.name:
            again = self.source.take_opened(plan, opened)
            for loss in losses(lost, opened, again) if lost else ():
                self.log.say("switch", f"lost with the book that was open: {loss}")
            self.memory.set_opened(opened)

    def open(self, connection: Connection, plan: Plan) -> bool:
        """Opens the book. False if that has to wait, or is refused."""
        now, (revision, why) = time.monotonic(), self.memory.to_open(plan)
        if now < self.next or self._is_refused(plan) or self._waits_for_endpoints(plan, revision):
            return False
        self.log.say("switch", f"no book is open: it is opened with {revision.name}, {why}")
        line = Open(revision.name, revision.ports)
        reply = self._send(connection, plan, revision, line)
        if reply.was_carried_out:
            return True
        self.sent = None
        hint = f". {COMPARED}" if reply == BAD_PORTS else ""
        self._refuse(
            f"the switch can't be opened with {revision.name}: {line} => {reply.with_meaning()}{hint}",
            reply != JOURNAL_FAILED,
        )
        return False

    def _refuse(self, why: str, is_lasting: bool = True) -> None:
        """Tells each minute why clients wait. `OpeningError` if no book was open yet, and a restart
        does not help."""
        if is_lasting and not self.has_had_book:
            raise OpeningError(why)
        self.next = time.monotonic() + AGAIN
        self._tell("switch", f"no book is open, and clients wait: {why}")

    def _is_refused(self, plan: Plan) -> bool:
        """Whether no switch is opened by this plan."""
        why = self.memory.why_not_opened(plan)
        if why:
            self._refuse(why)
        return bool(why)

    def _tell(self, event: str, text: str) -> None:
        """Tells something in the log and on standard error."""
        self.log.say(event, text)
        with contextlib.suppress(OSError):  # as in the log
            print(f"controller: {text}", file=sys.stderr, flush=True)

    def _waits_for_endpoints(self, plan: Plan, revision: PlannedRevision) -> bool:
        """Whether the first probes, or the endpoints that the plan starts, are waited for: clients
        wait as well, while an open book without an endpoint answers 503."""
        now, up = time.monotonic(), self.availability.probes.count_up(revision.ports)
        if up or not plan.commands.start:
            return up is None and self.is_early()
        self.waits_since = self.waits_since or now
        return now < self.waits_since + plan.commands.timeout

    def _send(
        self, connection: Connection, plan: Plan, revision: PlannedRevision, first: Open
    ) -> Reply:
        """Sends the lines of an opening, and gives the reply to the first one."""
        down, down_line = self.availability.down, Down(self.availability.down_ports([revision]))
        if plan.redispatch:
            down.take_in(down_line, connection.carry_out(down_line))
        up = self.availability.count(plan, revision.ports)
        lines: list[Line] = [
            first,
            *([down_line] if down_line.ports and down.is_known and plan.redispatch else []),
            *([Available(1, up)] if up else []),
        ]
        self.sent = revision
        # In one piece: clients that wait for the opening find its endpoints.
        replies = connection.carry_out_all(lines)
        for line, reply in zip(lines, replies):
            if isinstance(line, Down):
                down.take_in(line, reply)
            else:
                self.book.note(line, reply)
        self.waits_since = None
        return replies[0]

    def check_sizes(self, plan: Plan, report: Report) -> None:
        """Tells, when the controller starts, that the plan's revisions have not one port for each
        replica."""
        ports, replicas = len(plan.first.ports), report.stable.desired
        if not self.has_had_book and ports != replicas:
            self._tell(
                "plan",
                f"the number of ports of each revision of the plan is {ports}, and the switch needs one for each of "
                f"{replicas} replicas. {COMPARED}",
            )
        self.has_had_book = True
