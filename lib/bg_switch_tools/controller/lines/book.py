"""The book of a switch, as a controller reads and moves it over one connection after the other."""
import time

from bg_switch_tools.controller.lines.crash_losses import last_seen
from bg_switch_tools.controller.log import Log
from bg_switch_tools.switch.connection import Connection, UnreachableError
from bg_switch_tools.switch.lines import Line, Tick, without_time_limit
from bg_switch_tools.switch.phases import Phase
from bg_switch_tools.switch.replies import JOURNAL_FAILED, Done, Reply, Unsaved
from bg_switch_tools.switch.report_changes import changes, is_another_book
from bg_switch_tools.switch.reports import SERVICES, Report

ANY_TICK = Tick(0)  # by which the refusal of each tick is known
AGAIN = 60  # seconds until a line that is refused again and again goes into the log once more


def _stage_of(report: Report) -> tuple[Phase, int, str]:
    return report.phase, report.newest.number, report.newest.name


class Book:
    """Reads reports and sends lines. Each change that a report shows, and each line that is not a
    tick, goes into the log."""

    def __init__(self, log: Log) -> None:
        self.log = log
        self.latest: Report | None = None  # the latest report of the book that is open
        # how often a report has shown another phase or newest revision than the one before
        self.stages = 0
        self.seen_at = 0.0  # the time of the latest report
        # the latest one that no crash undoes: `is_in_doubt` says that the journal of the switch lacks an order
        self.kept: Report | None = None
        self.is_in_doubt = False
        self.lost: Report | None = (
            None  # the latest report of the book that was open before, up to the next opening
        )
        self.was_lost = False  # whether the book of an earlier report was found to be gone
        self.has_sent = False  # whether a line was carried out since the latest report
        self.refused: dict[Line, float] = {}  # by the line: from when on its refusal is told again

    def report(self, connection: Connection) -> Report | None:
        """The report, or None if no book is open."""
        report = connection.ask_report()
        self.has_sent = False
        if self.is_in_doubt and self.latest and report and is_another_book(self.latest, report):
            self.latest = self.kept  # a crash has undone what the journal lacked
        if self.latest and (report is None or is_another_book(self.latest, report)):
            self.log.say("switch", "the switch was started again: the book that was open is gone")
            self.log.say("switch", last_seen(self.latest, time.monotonic() - self.seen_at))
            self.lost = self.latest
            self.leave()
            self.was_lost = True
        if report is not None:
            self._take_in(report)
        return report

    def leave(self) -> None:
        """The book of the reports before is not the one of those that follow."""
        self.latest, self.kept, self.is_in_doubt, self.refused = None, None, False, {}

    def _take_in(self, report: Report) -> None:
        self.log.moment = report.moment
        if self.latest is None:
            selected = ", ".join(
                f"{service} {report.title(report.selected[service])}" for service in SERVICES
            )
            self.log.say("switch", f"a book is open: phase {report.phase}, {selected}")
        for change in changes(self.latest, report) if self.latest else []:
            self.log.say("change", change)
        if self.latest is None or _stage_of(self.latest) != _stage_of(report):
            self.stages += 1
        self.latest, self.seen_at = report, time.monotonic()
        if not self.is_in_doubt:
            self.kept = report

    def open_report(self, connection: Connection) -> Report:
        """The report of a book that was open before on this connection."""
        report = self.report(connection)
        if report is None:
            raise UnreachableError("the book was closed in the middle of a round")
        return report

    def send(self, connection: Connection, line: Line) -> Reply:
        """Sends a line, and gives its reply."""
        return self.note(line, connection.carry_out(line))

    def note(self, line: Line, reply: Reply) -> Reply:
        """Puts the reply to a line into the log: that of a tick only if it is unsaved or refused, a
        refusal once a minute, even if the line has another moment or time limit each time."""
        is_tick, now = isinstance(line, Tick), time.monotonic()
        if isinstance(reply, (Done, Unsaved)) or reply == JOURNAL_FAILED:
            self.is_in_doubt = not isinstance(reply, Done)
        known_by = ANY_TICK if is_tick else without_time_limit(line)
        if reply.was_carried_out:
            self.has_sent = True
            self.refused.pop(known_by, None)
            if not is_tick or reply.meaning:
                self.log.say_reply(line, reply)
        elif now >= self.refused.get(known_by, 0):
            self.refused[known_by] = now + AGAIN
            self.log.say_reply(line, reply)
        return reply
