"""Runs the analyses that a phase asks for, and hands its verdict in."""
import threading
import time

from bg_switch_tools.controller.analyses.analysis_process import (
    ANALYSIS_OF_PHASE,
    AnalysesOfPhase,
    Analysis,
    AnalysisCommand,
    Judged,
)
from bg_switch_tools.controller.endpoints.probes import Probes
from bg_switch_tools.controller.history.memory import Memory
from bg_switch_tools.controller.lines.book import Book
from bg_switch_tools.controller.lines.line_source import LineSource
from bg_switch_tools.controller.log import Log, OncePerRevision
from bg_switch_tools.controller.plan.plan import Plan
from bg_switch_tools.controller.process_groups import begin_end
from bg_switch_tools.controller.state.analysis_results import KINDS, RUNNING, SUCCESSFUL
from bg_switch_tools.switch.connection import Connection
from bg_switch_tools.switch.lines import AnalysisKind, Verdict, VerdictResult
from bg_switch_tools.switch.reports import Report, Revision

GRACE = 5.0  # seconds between SIGTERM and SIGKILL for an analysis that is stopped
LAST_GRACE = 0.5  # the same when the controller ends


class AnalysisRunner:
    """The analyses that run, which are those of one phase: none runs beside them, even if a
    controller before this one was killed and has left some behind."""

    def __init__(
        self, folder: str, log: Log, once: OncePerRevision, memory: Memory, probes: Probes
    ) -> None:
        self.folder = folder
        self.log = log
        self.once = once
        self.memory = memory
        self.probes = probes
        self.running: AnalysesOfPhase | None = None
        self.ending: list[threading.Thread] = []  # of those that are stopped
        for left in memory.state.analyses:
            self.log.say(
                "analysis",
                f"the analysis that the controller before has left behind, process {left.pid}, is stopped",
            )
            self.ending.append(begin_end(left, GRACE))

    def judge(
        self, book: Book, connection: Connection, plan: Plan, report: Report, source: LineSource
    ) -> None:
        """Runs the analyses that the phase asks for. A verdict is handed in on the connection whose
        report shows that the phase and the revision are those of the analyses, once the source of
        lines allows it. An attempt that was aborted and retried is another one, also if only a report
        between two calls has shown the abort."""
        self._note_end()
        kind, newest = ANALYSIS_OF_PHASE.get(report.phase), report.newest
        if self.running and not (
            self.running.judged.is_of(kind, newest) and self.running.stage == book.stages
        ):
            self.end("its phase has ended")
        if kind is None:
            for each in (*KINDS, "held"):
                self.once.forget(each, newest)
        elif self.running is None:
            self._begin(plan, kind, newest, book.stages)
        elif not source.is_paused() and (result := self._verdict(self.running)) is not None:
            verdict = Verdict(kind, result)
            if source.may_hand_in(report, verdict, self.running.reason()):
                self._hand_in(book, connection, plan, verdict, newest)
        self._keep_results()

    def _verdict(self, running: AnalysesOfPhase) -> VerdictResult | None:
        """The verdict of the phase; None while none is known. What still runs once one is known is
        stopped."""
        for run in running.look():
            if run.name:
                run.is_told = True
                result = run.as_result()
                self.log.say_result(f"{run.title()}: {result.outcome()}", result.as_json())
        if why := running.why_stopped():
            for run in running.runs:
                self._stop(run, why, run.result == RUNNING, GRACE)
        return running.verdict()

    def _hand_in(
        self, book: Book, connection: Connection, plan: Plan, verdict: Verdict, newest: Revision
    ) -> None:
        """Hands a verdict in. `successful` waits until an endpoint of the revision is up: what is
        down was not judged."""
        if self.running is None:
            return
        for run in self.running.runs:
            if run.reason and not run.name and not run.is_told:
                run.is_told = True
                self.log.say("analysis", f"{run.title()}: {run.reason}")
        planned = self.memory.known(plan, newest.name)
        if verdict.result is SUCCESSFUL and not (
            planned and newest.available and self.probes.count_up(planned.ports)
        ):
            self.once.say(
                "held",
                newest,
                f"gets no verdict {verdict.analysis} successful while none of its endpoints is up",
                "analysis",
            )
            return
        if book.send(connection, verdict).was_carried_out:
            self.end("")

    def _note_end(self) -> None:
        """Forgets the sessions of analyses that were stopped once they are over."""
        was_ending, self.ending = self.ending, [each for each in self.ending if each.is_alive()]
        if was_ending and not self.ending and self.running is None:
            self.memory.set_analyses(())

    def _begin(self, plan: Plan, kind: AnalysisKind, newest: Revision, stage: int) -> None:
        """Begins the analyses of a phase, and remembers each one at once: this controller may be
        killed before the next one."""
        if self.ending:
            return
        planned, several = self.memory.known(plan, newest.name), plan.analyses.commands.get(kind)
        if planned is None or not several:
            self.once.say(
                kind, newest, f"waits for verdict {kind} by hand: the plan has no command for it"
            )
            return
        self.memory.results.begin_analyses(newest.name, newest.number)
        judged = Judged(kind, newest.number, planned, plan.control)
        self.running = AnalysesOfPhase(judged, several, stage)
        for each in several:
            run = self.running.begin(AnalysisCommand(each, self.folder, plan.analyses.seconds))
            self.memory.set_analyses(self.running.processes())
            self.log.say("analysis", f"{run.title()} begins")

    def take_plan(self, plan: Plan) -> None:
        """Goes on by another plan: other commands begin anew, and another limit holds from the
        begin of each analysis."""
        if self.running is None:
            return
        if plan.analyses.commands.get(self.running.judged.kind) != self.running.planned:
            self.end("the plan has another command for it")
        else:
            for run in self.running.runs:
                run.seconds = plan.analyses.seconds

    def _stop(self, run: Analysis, why: str, is_told: bool, grace: float) -> None:
        """Stops an analysis, if it still runs. `is_told` says whether the log tells why."""
        if is_told:
            self.log.say("analysis", f"{run.title()} is stopped: {why}")
        if ending := run.stop(grace, why):
            self.ending.append(ending)

    def end(self, why: str, grace: float = GRACE) -> None:
        """Stops the analyses, if some run. `why` is told, if it is not empty; one with a name that
        has ended has told its result."""
        if self.running is None:
            return
        for run in self.running.runs:
            self._stop(run, why, bool(why) and (run.result == RUNNING or not run.name), grace)
        self._keep_results()
        self.running = None
        if not self.ending:
            self.memory.set_analyses(())

    def _keep_results(self) -> None:
        """Keeps how the analyses stand, for who shows it."""
        if self.running:
            judged = self.running.judged
            self.memory.results.take(judged.number, judged.kind, self.running.results())

    def end_at_last(self) -> None:
        """Stops the analyses when the controller ends, and waits for their end for a moment."""
        self.end("the controller ends", LAST_GRACE)
        deadline = time.monotonic() + 2 * LAST_GRACE
        for ending in self.ending:
            ending.join(max(deadline - time.monotonic(), 0.0))
        self._note_end()
