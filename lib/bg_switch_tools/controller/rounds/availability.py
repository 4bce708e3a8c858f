"""Tells the switch which endpoints are up, and ends an attempt if none is up behind live
traffic."""
import time
from collections.abc import Iterable

from bg_switch_tools.controller.endpoints.probes import Probes
from bg_switch_tools.controller.history.memory import Known, Revisions
from bg_switch_tools.controller.lines.book import Book
from bg_switch_tools.controller.log import Log, OncePerRevision
from bg_switch_tools.controller.plan.plan import Plan, PlannedRevision
from bg_switch_tools.switch.connection import Connection
from bg_switch_tools.switch.lines import (
    Abort,
    AnalysisKind,
    Available,
    Down,
    Verdict,
    VerdictResult,
)
from bg_switch_tools.switch.phases import Phase
from bg_switch_tools.switch.replies import Fault, Reply
from bg_switch_tools.switch.reports import Report, Revision

AFRESH = (
    10.0  # seconds after which the line `down` is sent once more, so that no switch goes without it
)
FAILED_LIVE = Verdict(AnalysisKind.POST, VerdictResult.ERROR)
MOST_DOWN = 680  # ports: a line has at most 4,096 bytes


class DownPorts:
    """The line `down`, which names all ports that are down now. A switch that was built before it
    answers a fault."""

    def __init__(self, log: Log) -> None:
        self.log = log
        self.is_known = False  # whether the switch has answered that it knows the line
        self.is_asked = False  # whether the switch was sent the line since it was started
        self.is_fault_told = False
        self.sent: tuple[int, ...] = ()
        self.next = 0.0

    def forget(self) -> None:
        """The switch was started again, or another one takes its place."""
        self.is_known = self.is_asked = False
        self.next = 0.0

    def tell(self, connection: Connection, ports: tuple[int, ...]) -> None:
        """Sends the line if the ports have changed, or some time has passed. Each change goes into
        the log."""
        is_due = time.monotonic() >= self.next
        if not is_due and (not self.is_known or ports == self.sent):
            return
        line = Down(ports)
        self.take_in(line, connection.carry_out(line))

    def take_in(self, line: Down, reply: Reply) -> None:
        """Takes the reply in. Before a book is open, a switch that knows the line refuses it, and
        keeps nothing."""
        is_change = line.ports != (self.sent if self.is_asked else ())
        self.is_asked, self.is_known = True, not isinstance(reply, Fault)
        if reply.was_carried_out:
            self.sent, self.next = line.ports, time.monotonic() + AFRESH
            if is_change:
                self.log.say_reply(line, reply)
        elif not self.is_known:
            self.next = time.monotonic() + AFRESH
            if not self.is_fault_told:
                self.is_fault_told = True
                self.log.say(
                    "switch",
                    "the switch does not know the line down: endpoints take requests up to the first one that is "
                    "down",
                )


class Availability:
    """Reports the endpoints of each revision, and watches those behind live traffic."""

    def __init__(self, log: Log, once: OncePerRevision, probes: Probes) -> None:
        self.log = log
        self.once = once
        self.probes = probes
        self.down = DownPorts(log)
        self.dark: Revision | None = None  # the active revision, while none of its endpoints is up
        self.dark_since = 0.0

    def forget_book(self) -> None:
        self.down.forget()
        self.dark = None

    def count(self, plan: Plan, ports: tuple[int, ...]) -> int | None:
        """How many endpoints take requests: all that are up, or, if the switch does not pass over
        those that are down, the first ones up to one that is down. None if one was not probed
        yet."""
        passes_over = plan.redispatch and self.down.is_known
        return self.probes.count_up(ports) if passes_over else self.probes.first_up(ports)

    def down_ports(self, revisions: Iterable[PlannedRevision]) -> tuple[int, ...]:
        """The ports of these revisions that are down, in their order, each once, as far as one line
        can name them."""
        ports = dict.fromkeys(
            port for revision in revisions for port in revision.ports if self.probes.is_down(port)
        )
        return tuple(ports)[:MOST_DOWN]

    def report(
        self, book: Book, connection: Connection, plan: Plan, report: Report, known: Known
    ) -> None:
        """Tells the switch which ports are down, and of each revision how many endpoints are
        available."""
        revisions = known.revisions
        sized = [revision for revision in report.revisions.values() if revision.desired]
        first = [report.service("active"), report.newest, *sized]
        if plan.redispatch:
            self.down.tell(
                connection,
                self.down_ports(revisions[each.name] for each in first if each.name in revisions),
            )
        for number, revision in report.revisions.items():
            if revision.name == known.asked_name:
                continue
            planned = revisions.get(revision.name)
            if planned is None:
                what = (
                    "has other ports than the plan names"
                    if plan.named(revision.name)
                    else "is not in the plan"
                )
                self.once.say("unknown", revision, f"{what}: its endpoints are not probed")
                continue
            up = self.count(plan, planned.ports)
            if up is not None and min(up, revision.desired) != revision.available:
                book.send(connection, Available(number, min(up, revision.desired)))

    def watch_live(
        self, book: Book, connection: Connection, plan: Plan, report: Report, known: Revisions
    ) -> None:
        """Tells when no endpoint of the active revision is up, and ends an attempt that has brought
        this about."""
        live = report.service("active")
        planned = known.get(live.name)
        seconds = self.probes.outage(planned.ports) if planned else 0.0
        self._tell(live, planned is not None and bool(seconds))
        if (
            report.is_running
            and live == report.newest != report.stable
            and seconds >= plan.progress.outage
        ):
            self.once.say(
                "outage",
                live,
                f"has had no endpoint that is up for {plan.progress.outage:g} seconds, so its attempt ends",
                "outage",
            )
            is_judged = report.phase is Phase.POST_ANALYSIS
            book.send(connection, FAILED_LIVE if is_judged else Abort())
        else:
            self.once.forget("outage", live)

    def _tell(self, live: Revision, is_dark: bool) -> None:
        """Tells when an outage begins, of which revision it is, and when it ends."""
        if self.dark and not is_dark:
            self.log.say(
                "outage",
                f"endpoints are up again behind live traffic, after {time.monotonic() - self.dark_since:.0f} seconds: "
                f"{live.title()}",
            )
            self.dark = None
        elif is_dark and (self.dark is None or self.dark.number != live.number):
            self.dark_since = self.dark_since if self.dark else time.monotonic()
            self.dark = live
            self.log.say(
                "outage",
                f"no endpoint is up of {live.title()}, which is active: clients are answered 503",
            )
