"""Analyses: commands that judge a revision."""
import os
import threading
import time
from collections.abc import Mapping
from typing import NamedTuple

from bg_switch_tools.controller.analyses.printed_lines import PrintedLines
from bg_switch_tools.controller.plan.plan import PlannedAnalysis, PlannedRevision
from bg_switch_tools.controller.process_groups import Group, ProcessId
from bg_switch_tools.controller.state.analysis_results import (
    ERROR,
    FAILED,
    LONGEST_REASON,
    RUNNING,
    STOPPED,
    SUCCESSFUL,
    AnalysisResult,
)
from bg_switch_tools.switch.control import Control
from bg_switch_tools.switch.lines import AnalysisKind, VerdictResult
from bg_switch_tools.switch.phases import Phase
from bg_switch_tools.switch.reports import Revision

# by the phase: the analysis that it waits for
ANALYSIS_OF_PHASE = {
    Phase.PRE_ANALYSIS: AnalysisKind.PRE,
    Phase.POST_ANALYSIS: AnalysisKind.POST,
}
VERDICTS = {0: SUCCESSFUL, 1: FAILED}  # by the exit status; any other is an error
SETTLE = 0.5  # seconds for the last lines of the commands of a phase that have ended
# of a result that decides
HOW: Mapping[str, str] = {FAILED: "has failed", ERROR: "has ended in an error"}


class Judged(NamedTuple):
    """What is judged: the revision of this number in its analysis, behind the switch at this
    control port."""

    kind: AnalysisKind
    number: int
    revision: PlannedRevision
    control: Control

    def is_of(self, kind: AnalysisKind | None, revision: Revision) -> bool:
        """Whether it is this analysis of this revision."""
        return (self.kind, self.number, self.revision.name) == (
            kind,
            revision.number,
            revision.name,
        )


class AnalysisCommand(NamedTuple):
    """A command that judges a revision, the folder in which it runs, and the seconds that it
    has."""

    planned: PlannedAnalysis
    folder: str
    seconds: float


class Analysis:
    """A command that runs. `result` is `running` up to its end, and is final then; `reason` says
    why it is an error, or why it was stopped."""

    def __init__(self, judged: Judged, command: AnalysisCommand) -> None:
        """Begins it. One that can't be run has ended in an error."""
        self.judged = judged
        self.name = command.planned.name
        self.seconds = command.seconds
        self.begun = time.monotonic()
        self.result, self.reason = RUNNING, ""
        self.is_told = False  # whether the log has its result
        self.is_stopping = False
        self.group: Group | None = None
        self.printed: PrintedLines | None = None
        variables = {
            "BG_REVISION": judged.revision.name,
            "BG_REVISION_NUMBER": str(judged.number),
            "BG_PORTS": " ".join(map(str, judged.revision.ports)),
            "BG_CONTROL": str(judged.control),
        }
        try:
            self._run(command, variables)
        except (OSError, ValueError) as error:
            self.result, self.reason = ERROR, f"it can't be run: {error}"

    def _run(self, command: AnalysisCommand, variables: dict[str, str]) -> None:
        reading, writing = os.pipe()
        try:
            self.group = Group(command.planned.command, command.folder, variables, writing)
        except (OSError, ValueError):
            os.close(reading)
            raise
        finally:
            os.close(writing)
        self.printed = PrintedLines(reading, f"{self.name}: " if self.name else "")

    def title(self) -> str:
        own = f" {self.name}" if self.name else ""
        return f"analysis {self.judged.kind}{own} of {self.judged.revision.name}"

    def look(self, patience: float) -> None:
        """Takes in whether it has ended, or has run too long. For the last lines of one that has
        ended it waits for at most `patience` seconds."""
        if self.group is None or self.result != RUNNING:
            return
        status = self.group.status()
        if status is not None:
            self.result = VERDICTS.get(status, ERROR)
            self.reason = "" if status in VERDICTS else f"its exit status is {status}"
            if self.printed:
                self.printed.settle(patience)
        elif time.monotonic() >= self.begun + self.seconds:
            self.result, self.reason = ERROR, f"it has not ended after {self.seconds:g} seconds"

    def as_result(self) -> AnalysisResult:
        """How it stands, with the last lines that it has printed."""
        last = self.printed.last() if self.printed else ()
        reason = self.reason[:LONGEST_REASON]
        return AnalysisResult(self.judged.kind, self.name, self.result, reason, last)

    def stop(self, grace: float, why: str) -> threading.Thread | None:
        """Ends the command and what it has started, if the command still runs: SIGTERM, and `grace`
        seconds later SIGKILL. The thread, if there is one, ends with them. One without a result is
        stopped, for this reason."""
        if self.result == RUNNING:
            self.result, self.reason = STOPPED, why
        if self.group is None or self.is_stopping:
            return None
        self.is_stopping = True
        if self.group.status() is None:
            return self.group.stop(grace)
        self.group.reap()
        return None


class AnalysesOfPhase:
    """The analyses of a phase, which run at the same time. As an AnalysisRun of Argo with several
    metrics, they are successful once each one is; the first one that fails, or ends in an error,
    decides."""

    def __init__(
        self, judged: Judged, planned: tuple[PlannedAnalysis, ...], stage: int = 0
    ) -> None:
        """`stage` is the number of the book's stage in which they begin (`Book.stages`)."""
        self.judged = judged
        self.planned = planned
        self.stage = stage
        self.runs: list[Analysis] = []
        self.patience = SETTLE  # what is left of it

    def begin(self, command: AnalysisCommand) -> Analysis:
        """Begins one of them."""
        self.runs.append(Analysis(self.judged, command))
        return self.runs[-1]

    def processes(self) -> tuple[ProcessId, ...]:
        """The leaders of their sessions, as far as they could be run."""
        return tuple(run.group.id for run in self.runs if run.group)

    def look(self) -> list[Analysis]:
        """Takes in which have ended. Gives those that have, as far as the log has not their
        results."""
        for run in self.runs:
            begun = time.monotonic()
            run.look(self.patience)
            self.patience = max(self.patience - (time.monotonic() - begun), 0.0)
        return [
            run for run in self.runs if run.result not in (RUNNING, STOPPED) and not run.is_told
        ]

    def deciding(self) -> Analysis | None:
        """The one that decides for all of them; None while it takes all of them."""
        return next(
            (run for result in (FAILED, ERROR) for run in self.runs if run.result == result), None
        )

    def verdict(self) -> VerdictResult | None:
        """The verdict of the phase; None while none is known."""
        if deciding := self.deciding():
            return VerdictResult(deciding.result)
        return SUCCESSFUL if all(run.result == SUCCESSFUL for run in self.runs) else None

    def reason(self) -> str:
        """Why the verdict is what it is: what decides, and why; empty if that is nothing but the
        result of the one command."""
        deciding = self.deciding()
        if deciding is None or not deciding.name:
            return deciding.reason if deciding else ""
        why = f": {deciding.reason}" if deciding.reason else ""
        return f"{deciding.name} {HOW[deciding.result]}{why}"

    def why_stopped(self) -> str:
        """Why those that still run are stopped; empty if they go on."""
        deciding = self.deciding()
        return f"{deciding.name} {HOW[deciding.result]}" if deciding else ""

    def results(self) -> list[AnalysisResult]:
        return [run.as_result() for run in self.runs]
