"""Writes the history of a plan's rollout, from the reports that its controller reads."""
from bg_switch_tools.controller.history.attempts import (
    ABORTED,
    DEPLOYED,
    ENDED,
    LIVE,
    LOST,
    OPENED,
    REPLACED,
    RETRIED,
    STABLE,
    UNDEPLOYED,
    UNDONE,
    Attempt,
    Attempts,
    Event,
)
from bg_switch_tools.controller.history.history_file import HistoryFile
from bg_switch_tools.controller.history.memory import Revisions
from bg_switch_tools.controller.log import Log, local_time
from bg_switch_tools.controller.plan.plan import PlannedRevision
from bg_switch_tools.controller.state.analysis_results import AnalysisResults
from bg_switch_tools.controller.state.plan_author import PLAN, Author
from bg_switch_tools.switch.phases import Phase
from bg_switch_tools.switch.reports import Report, Revision

LINE = "line"  # by whom: a line that somebody sent to the switch


class HistoryRecorder:
    """Notes what a report shows that the ones before have not shown."""

    def __init__(
        self,
        plan_path: str,
        log: Log,
        deployed: PlannedRevision | None,
        results: AnalysisResults | None = None,
    ) -> None:
        """`deployed` is what a controller before this one has deployed by the plan: it may have
        ended before it noted that. `results` are those of the analyses; None: those that are kept
        beside the plan."""
        self.file = HistoryFile(plan_path)
        self.results = results or AnalysisResults(plan_path)
        self.author = Author(plan_path)
        self.log = log
        self.is_failing = False
        try:
            self.attempts = self.file.read()[0]
        except OSError as error:
            self.attempts = Attempts()
            self._fail(error)
        newest = self.attempts.newest
        is_noted = deployed is None or newest is not None and newest.name == deployed.name
        # what the controller deploys by its plan
        self.announced = deployed.name if deployed and not is_noted else ""
        self.planned: PlannedRevision | None = None  # the last revision of the plan
        self.planned_by = PLAN  # who has made it the last one
        self.failed: PlannedRevision | None = (
            None  # the revision whose start was noted to have failed
        )

    def announce(self, revision: PlannedRevision) -> None:
        """The controller is about to deploy this revision by its plan."""
        self.announced = revision.name

    def take_plan(self, last: PlannedRevision, deployed: PlannedRevision | None) -> None:
        """The plan names this revision last; `deployed` is what was deployed by the plan. Notes
        what was overtaken before its deploy."""
        before, before_by = self.planned, self.planned_by
        if last == before:
            return
        self.planned, self.planned_by = last, self.author.name() or PLAN
        overtaken = self.author.overtaken()
        for each in overtaken:
            self._note_undeployed(each.name, each.who, f"overtaken by {each.by}", each.when)
        if (
            before
            and before != deployed
            and before.name not in (last.name, *(each.name for each in overtaken))
        ):
            self._note_undeployed(before.name, before_by, f"overtaken by {last.name}", local_time())

    def take_failure(self, revision: PlannedRevision) -> None:
        """The command that starts an endpoint of this revision, which is to be deployed, has
        failed. That is noted once."""
        if revision != self.failed:
            self.failed = revision
            self._note_undeployed(revision.name, self.planned_by, "start fails", local_time())

    def _note_undeployed(self, name: str, who: str, how: str, when: str) -> None:
        if not any(
            (each.began, each.name, each.how, each.begun) == (UNDEPLOYED, name, how, when)
            for each in self.attempts.all
        ):
            self._note(Event(when, UNDEPLOYED, name, by=who, how=how))

    def lose_book(self) -> None:
        """The book is gone: nothing of it is live, and its attempt does not go on."""
        running = self._running()
        if running:
            self._note_end(running.name, running.number, LOST)
        if self.attempts.newest and not self.attempts.is_lost:
            self._note(Event(local_time(), LOST))

    def take_in(self, report: Report, known: Revisions) -> None:
        """Notes what this report shows. `known` are the revisions whose ports are known."""
        newest = report.newest
        beginning = self._beginning(report)
        if beginning:
            self._end_the_one_before(report)
            self.results.begin(newest.name, newest.number)
            ports = known[newest.name].ports if newest.name in known else ()
            self._note(
                Event(
                    local_time(),
                    beginning,
                    newest.name,
                    newest.number,
                    self._by(beginning, newest, known),
                    ports=ports,
                )
            )
        if not report.is_running and self._running():
            how = ABORTED if report.phase is Phase.ABORTED else STABLE
            self._note_end(newest.name, newest.number, how)
        active, live = report.service("active"), self.attempts.live
        if live is None or not live.is_of(active.name, active.number):
            self._note(Event(local_time(), LIVE, active.name, active.number))

    def _running(self) -> Attempt | None:
        """The attempt that runs, by the events so far."""
        newest = self.attempts.newest
        return newest if newest and not newest.how else None

    def _beginning(self, report: Report) -> str:
        """How an attempt has begun since the report before; empty if none has."""
        before, newest = self.attempts.newest, report.newest
        if before is None or self.attempts.is_lost:
            return OPENED if newest == report.stable else DEPLOYED
        if not before.is_of(newest.name, newest.number):
            return DEPLOYED
        return RETRIED if report.is_running and before.how else ""

    def _end_the_one_before(self, report: Report) -> None:
        before = self._running()
        if before:
            how = UNDONE if report.newest == report.stable else REPLACED
            self._note_end(before.name, before.number, how)

    def _note_end(self, name: str, number: int, how: str) -> None:
        """The attempt of this revision has ended, with what its analyses came to."""
        analyses = self.results.end(name, number, how)
        self._note(Event(local_time(), ENDED, name, number, how=how, analyses=analyses))

    def _by(self, beginning: str, newest: Revision, known: Revisions) -> str:
        """By whom it was deployed: the author of the plan's edit, or `plan`, or `line`."""
        if beginning == OPENED:
            return PLAN if newest.name in known else LINE
        if beginning == RETRIED or self.announced != newest.name:
            return LINE
        self.announced = ""
        return self.author.name() or PLAN

    def _note(self, event: Event) -> None:
        """Adds an event. If the file can't be written, the event is lost there, and the log tells
        it once."""
        self.attempts.take(event)
        try:
            self.file.append(event)
        except OSError as error:
            self._fail(error)
            return
        self.is_failing = False

    def _fail(self, error: OSError) -> None:
        if not self.is_failing:
            self.log.say(
                "state", f"the history can't be kept in {self.file.path}: {error.strerror}"
            )
        self.is_failing = True
