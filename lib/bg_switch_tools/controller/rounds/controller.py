"""The rounds of a controller: it ticks, reports availability, runs analyses, starts and stops
endpoints, and sends the lines of its source."""
import dataclasses
import time

from bg_switch_tools.controller.analyses.analysis_runner import AnalysisRunner
from bg_switch_tools.controller.endpoints.launcher import Launcher
from bg_switch_tools.controller.endpoints.probes import Probes
from bg_switch_tools.controller.history.history_recorder import HistoryRecorder
from bg_switch_tools.controller.history.memory import Memory
from bg_switch_tools.controller.lines.book import AGAIN, Book
from bg_switch_tools.controller.lines.held_back import HeldRevisions
from bg_switch_tools.controller.lines.line_source import LineSource
from bg_switch_tools.controller.log import Log, OncePerRevision
from bg_switch_tools.controller.plan.plan import Plan
from bg_switch_tools.controller.rounds.availability import Availability
from bg_switch_tools.controller.rounds.book_opener import BookOpener
from bg_switch_tools.controller.rounds.notifier import Notifier
from bg_switch_tools.controller.rounds.progress import ProgressClock
from bg_switch_tools.controller.state.pause import Pause
from bg_switch_tools.switch.connection import Connection, DownError
from bg_switch_tools.switch.control import kind_of
from bg_switch_tools.switch.lines import Abort, Tick
from bg_switch_tools.switch.moments import Clock
from bg_switch_tools.switch.reports import Report

ROUND = 0.2  # seconds between two rounds: a line of somebody else is known after that, and kept
SOON = 0.05  # seconds until the next round, while something is awaited that comes soon
MOST_LINES = 6  # of the source, in one round


@dataclasses.dataclass(eq=False)
class Controller:
    """What is done in a round, over a connection of its own, with the parts that `composition` puts
    together."""

    plan: Plan
    log: Log
    probes: Probes
    once: OncePerRevision
    notifier: Notifier
    memory: Memory
    pause: Pause
    history: HistoryRecorder
    book: Book
    clock: Clock
    availability: Availability
    analyses: AnalysisRunner
    launcher: Launcher
    held: HeldRevisions
    source: LineSource
    opening: BookOpener
    progress: ProgressClock
    ask_source_from: float = 0.0  # the time from which on the source is asked for a line

    def __post_init__(self) -> None:
        self.held.look(self.plan)
        self._watch_endpoints()

    def _watch_endpoints(self) -> None:
        revisions = [*self.plan.revisions, *self.memory.revisions(self.plan).values()]
        self.probes.watch(
            [port for revision in revisions for port in revision.ports],
            self.plan.health,
            self.plan.endpoint_address,
        )

    def take_plan(self, plan: Plan) -> None:
        """Goes on by another plan, and tells that it has changed."""
        self.log.say(
            "plan",
            f"the plan has changed: its control {kind_of(plan.control)} is {plan.control}, its last revision {plan.last.name}",
        )
        self.go_by(plan)

    def go_by(self, plan: Plan) -> None:
        """Goes on by another plan."""
        if plan.control != self.plan.control:
            self.book.leave()
            self._forget_book()
            self.opening.sent = None
            self.launcher.former.add(self.plan.control)
        self.plan, self.ask_source_from = plan, 0.0
        self.memory.take_plan(plan)
        self.opening.forget_book()
        self.analyses.take_plan(plan)
        self.notifier.commands = plan.commands
        self.held.look(plan)
        self._watch_endpoints()

    def do_round(self, connection: Connection) -> float:
        """One round. Gives the seconds until the next one. `UnreachableError` if the switch stops
        answering in the middle."""
        self.pause.look()
        self.held.look(self.plan)
        report = self._open_book(connection)
        if report is None:
            return SOON if self.opening.is_early() else ROUND
        self.opening.check_sizes(self.plan, report)
        self._note(report)
        report = self._tick(connection, report)
        self._note(report)
        self.source.take_report(self.plan, report)
        for step in (
            self._report_availability,
            self._judge,
            self._limit_progress,
            self._launch,
            self._send_lines,
        ):
            step(connection, report)
        latest = (
            self.book.open_report(connection) if self.book.has_sent else self.book.latest or report
        )
        self.memory.take_in(self.plan, latest)
        self._note(latest)
        self._watch_endpoints()
        return ROUND

    def _note(self, report: Report) -> None:
        """Notes in the history what this report shows: the next one may not show it any more."""
        self.history.take_in(report, self.memory.noted(self.plan))

    def take_silence(self, reason: Exception) -> None:
        """Takes in why the switch gives no answer: moments pass on, but not while it is down."""
        self.clock.is_stopped = self.clock.is_stopped or isinstance(reason, DownError)

    def end(self) -> None:
        """The last thing that is done: the commands that run are stopped, and the moment is
        kept."""
        self.launcher.begin_end()
        self.analyses.end_at_last()
        self.launcher.end()
        if not self.memory.is_fresh:
            self.memory.write()

    def _open_book(self, connection: Connection) -> Report | None:
        """The report of the book, which is opened if none is open; None if that has to wait."""
        report = self.book.report(connection)
        if self.book.was_lost:
            self._forget_book()
        if report is None:
            may_open = not self.memory.why_not_opened(self.plan)
            coming = self.memory.to_open(self.plan)[0] if may_open else None
            self.launcher.start_and_stop(self.plan, None, self.memory.revisions(self.plan), coming)
            if not self.opening.open(connection, self.plan):
                return None
            self.clock.begin_at(self.memory.state.moment)
            report = self.book.open_report(connection)
        self.opening.settle(self.plan, report)
        return report

    def _forget_book(self) -> None:
        self.clock.is_stopped = False
        self.analyses.end("its book is gone")
        self.history.lose_book()
        self.book.was_lost = False
        self.once.clear()
        self.availability.forget_book()
        self.opening.forget_book()
        self.source.lose_book()
        self.ask_source_from = 0.0

    def _tick(self, connection: Connection, report: Report) -> Report:
        """Ticks each second. If somebody has ticked further, or the book was open before, the
        seconds count on from there."""
        self.clock.follow(report.moment)
        if self.clock.moment() <= report.moment:
            return report
        self.book.send(connection, Tick(self.clock.moment()))
        return self.book.open_report(connection)

    def _report_availability(self, connection: Connection, report: Report) -> None:
        known = self.memory.known_ports(self.plan)
        self.availability.report(self.book, connection, self.plan, report, known)
        self.availability.watch_live(self.book, connection, self.plan, report, known.revisions)

    def _judge(self, connection: Connection, report: Report) -> None:
        why = self.source.why_not_judged(self.plan, report)
        if why:
            self.analyses.end(why)
        else:
            self.analyses.judge(self.book, connection, self.plan, report, self.source)

    def _limit_progress(self, connection: Connection, report: Report) -> None:
        """Tells of an attempt whose endpoints are not there in time, and aborts it if the plan says
        so."""
        newest, limit = report.newest, self.plan.progress
        waited = self.progress.waited(report, time.monotonic())
        if waited < limit.seconds:
            self.once.forget("progress", newest)
            return
        self.once.say(
            "progress",
            newest,
            f"has made no progress for {limit.seconds:g} seconds: {newest.available} of "
            f"{newest.desired} endpoints are up",
        )
        if limit.abort:
            self.book.send(connection, Abort())

    def _launch(self, _: Connection, report: Report) -> None:
        known, coming = self.memory.revisions(self.plan), self.source.coming(self.plan, report)
        self.launcher.start_and_stop(self.plan, report, known, coming)

    def _send_lines(self, connection: Connection, report: Report) -> None:
        """Sends the lines of the source, each by the report after the one before."""
        for _ in range(MOST_LINES):
            line = (
                self.source.next_line(self.plan, report)
                if time.monotonic() >= self.ask_source_from
                else None
            )
            if line is None:
                return
            reply = self.book.send(connection, line)
            if self.source.take_reply(self.plan, report, line, reply):
                self.ask_source_from = time.monotonic() + AGAIN
            if not reply.was_carried_out:
                return
            report = self.book.open_report(connection)
