"""An analysis by the access log: window by window, the requests of a revision are measured."""
import time
from collections.abc import Sequence

from bg_switch_tools.analysis.judged_revision import JudgedRevision
from bg_switch_tools.analysis.measurements import Analyser, Limits, Measurement, gone_text
from bg_switch_tools.analysis.revision_requests import (
    ByNeighbours,
    ByReports,
    Services,
    services_of,
)
from bg_switch_tools.analysis.verdicts import (
    FAILED,
    HELD,
    SUCCESSFUL,
    NotJudgedError,
    failed_text,
    tell,
)
from bg_switch_tools.switch.access_log import Follower, LogEntry
from bg_switch_tools.switch.reports import Report

LOOK = 0.25  # seconds between two looks into the log
REPORT = 1.0  # seconds between two reports
WHOLE = 0.999  # of the seconds between two measurements: a window that is shorter is not judged as silent
CATCH_UP = 3.0  # seconds at the end for what stands in the log: the switch makes a log that was renamed anew within one


class Requests:
    """The requests of a revision, as they come into the log."""

    def __init__(self, follower: Follower, subject: JudgedRevision) -> None:
        self.follower = follower
        self.subject = subject
        self.asked_at = time.monotonic()
        self.selections: ByNeighbours | ByReports = ByNeighbours()
        if subject.control is not None:
            self.selections = ByReports(self._services(subject.current_report()))
        self.lost = 0  # lines that the switch could not write

    def _services(self, report: Report | None) -> Services:
        return services_of(report, self.subject.number)

    def read(self) -> Sequence[LogEntry]:
        """Those that have come since the last time, up to a piece of the log."""
        batch = self.follower.read()
        self.lost += batch.lost
        if batch.lost or batch.unreadable:
            tell(
                f"analysis of {self.subject.title}: {batch.lost} lines were lost by the switch, {batch.unreadable} can't be read"
            )
        found = self.selections.take(batch.entries, self.subject.number)
        return [*found, *self.ask()] if time.monotonic() >= self.asked_at + REPORT else found

    def ask(self) -> Sequence[LogEntry]:
        """Asks the switch which services select the revision. Gives requests without an endpoint
        that are the revision's by its answer; if it gives none, by the answer before.
        `NotJudgedError` if the revision is gone.
        """
        if not isinstance(self.selections, ByReports):
            return ()
        number, self.asked_at = self.subject.number, time.monotonic()
        report = self.subject.current_report()
        if self.subject.number != number:
            tell(
                f"analysis of {self.subject.title}: the switch was started again, and it had the number {number} before"
            )
        return self.selections.take_services(
            self._services(report) if report else self.selections.services
        )

    def take_lost(self) -> int:
        """How many lines the switch could not write since this was asked last."""
        lost, self.lost = self.lost, 0
        return lost


class LogAnalysis:
    """An analysis that runs."""

    def __init__(self, follower: Follower, subject: JudgedRevision, limits: Limits) -> None:
        self.follower = follower
        self.subject = subject
        self.requests = Requests(follower, subject)
        self.analyser = Analyser(limits)

    def look(self, deadline: float) -> None:
        """Takes in what has come into the log, up to a time: a log can grow faster than it is
        read."""
        while True:
            self.analyser.take(self.requests.read())
            if not self.follower.has_more or time.monotonic() >= deadline:
                return

    def look_at_the_rest(self) -> None:
        """Takes in what stands in the log at the end. `NotJudgedError` if it can't be read, or
        grows faster than it is read."""
        deadline = time.monotonic() + CATCH_UP
        while True:
            self.look(deadline)
            fault = self.follower.fault or (
                "it grows faster than it is read" if self.follower.has_more else ""
            )
            if not fault:
                return
            if time.monotonic() >= deadline:
                raise NotJudgedError(f"the log {self.follower.path}: {fault}")
            time.sleep(LOOK)

    def tell(self, text: str) -> None:
        tell(f"analysis of {self.subject.title}: {text}")

    def tell_measurement(self, seconds: float, measurement: Measurement | None) -> None:
        if measurement is None:
            gone = gone_text(self.analyser.gone)
            self.tell(
                f"{seconds:g} s: {len(self.analyser.unjudged)} requests are too few, and wait{gone}"
            )
            return
        self.tell(
            f"{seconds:g} s: {measurement.text()}: {'; '.join(measurement.problems) or 'the limits hold'}"
        )

    def until(self, deadline: float) -> None:
        """Takes in what comes up to a time."""
        while (left := deadline - time.monotonic()) > 0:
            time.sleep(min(left, LOOK))
            self.look(deadline)

    def end_window(self, is_whole: bool) -> Measurement | None:
        """The measurement of a window. One that is short, or whose log can't be read or lacks
        lines, is not judged as silent."""
        self.analyser.take(self.requests.ask())
        lost = self.requests.take_lost()
        return self.analyser.end_window(is_whole and not lost and not self.follower.fault)

    def judge(self, seconds: float, every: float) -> int:
        """Measures to the end, or up to the failure that is one too many. Gives the exit status."""
        begun, before = time.monotonic(), 0.0
        while before < seconds:
            at = min(before + every, seconds)
            self.until(begun + at)
            if at >= seconds:
                self.look_at_the_rest()
            self.tell_measurement(at, self.end_window(at - before >= every * WHOLE))
            before = at
            if self.analyser.has_failed:
                return self.tell_failed()
        return self.judge_rest(seconds)

    def judge_rest(self, seconds: float) -> int:
        """Judges the requests after the last measurement, and the whole. Gives the exit status."""
        rest = self.analyser.end_rest()
        if rest is not None:
            self.tell_measurement(seconds, rest)
        if self.analyser.has_failed:
            return self.tell_failed()
        if not self.analyser.has_judged:
            raise NotJudgedError(
                f"{len(self.analyser.unjudged)} requests came in {seconds:g} seconds, and "
                f"{self.analyser.limits.requests} are needed{gone_text(self.analyser.gone)}{self.unknown()}"
            )
        self.tell(f"{HELD}{self.unknown()}")
        return SUCCESSFUL

    def unknown(self) -> str:
        count = self.requests.selections.unknown
        return (
            f"; {count} requests found no endpoint of a revision that only --control tells"
            if count
            else ""
        )

    def tell_failed(self) -> int:
        self.tell(failed_text(self.analyser.failed, self.analyser.limits.failures))
        return FAILED
