"""The lines that the record of a fleet asks for: a controller's source of lines in place of a
plan's file."""
from collections.abc import Mapping

from bg_switch_tools.controller.lines.line_source import SourceParts
from bg_switch_tools.controller.plan.plan import Plan, PlannedRevision
from bg_switch_tools.fleet.agent.agent import Clock
from bg_switch_tools.fleet.machine.line_table import PROMOTE_LINE
from bg_switch_tools.fleet.machine.machine import Machine
from bg_switch_tools.switch.before import before, boot_clock
from bg_switch_tools.switch.lines import (
    AnalysisKind,
    Deploy,
    Line,
    Verdict,
    VerdictResult,
    without_time_limit,
)
from bg_switch_tools.switch.replies import TOO_LATE, UNKNOWN_WORD, Reply
from bg_switch_tools.switch.reports import Report


# By an answer to a promote: what else is told of it, in a place that people see.
MORE_OF: Mapping[Reply, str] = {
    UNKNOWN_WORD: ", since this switch does not know the line `before`: upgrade it"
}


class FleetLines:
    """The source of lines of an agent. Each line rests on a fresh read of the record; a failed
    verdict of this machine's own analysis does not, since going back needs no permission."""

    def __init__(self, machine: Machine, parts: SourceParts, now: Clock = boot_clock) -> None:
        """`now` is the boot clock, by which reads are dated, and by which the switch judges the time
        limit of a line."""
        self.machine = machine
        self.log = parts.log
        self.history = parts.history
        self.launcher = parts.launcher
        self.now = now

    def take_opened(self, plan: Plan, opened: PlannedRevision) -> PlannedRevision | None:
        self.machine.lose_book()
        record = self.machine.record
        return record.revision if record and record.is_running else None

    def lose_book(self) -> None:
        self.machine.lose_book()

    def take_report(self, plan: Plan, report: Report) -> None:
        self.machine.take_report(report, self.now())

    def coming(self, plan: Plan, report: Report) -> PlannedRevision | None:
        return self.machine.coming(report, self.now())

    def next_line(self, plan: Plan, report: Report) -> Line | None:
        """The line of the table, but a deploy only once the endpoints of its revision were
        started."""
        coming = self.coming(plan, report)
        if coming and not self.launcher.is_ready(plan, coming):
            return None
        line = self.machine.permitted_line(report, self.now())
        if coming and isinstance(line, Deploy):
            self.history.announce(coming)
        return self._promote(report) if line == PROMOTE_LINE else line

    def _promote(self, report: Report) -> Line | None:
        """The line by which the switch promotes, unless the read of the record is too old by then:
        the agent and the switch may be stopped on the way. None if it is too old already."""
        machine = self.machine
        if machine.record is None or machine.read_at is None or machine.promotes_before is None:
            return None
        self.log.say(
            "fleet",
            f"promotes {report.newest.name} by attempt {machine.record.id}, which was read "
            f"{self.now() - machine.read_at:.3f} seconds ago",
        )
        # the log may have waited for its reader
        if machine.permitted_line(report, self.now()) == PROMOTE_LINE:
            return before(machine.promotes_before, PROMOTE_LINE)
        self.log.say("fleet", f"does not promote {report.newest.name}: the read has become too old")
        return None

    def take_reply(self, plan: Plan, report: Report, line: Line, reply: Reply) -> bool:
        """Takes in a reply. A line that was too late is no fault of the machine: it is decided anew
        by the next read."""
        if reply != TOO_LATE:
            sent, reply_text = without_time_limit(line), f"{reply}{MORE_OF.get(reply, '')}"
            self.machine.take_reply(sent, reply.was_carried_out, reply_text, report, self.now())
        return False

    def is_paused(self) -> bool:
        """A fleet is paused by its plan, and not on one machine."""
        return False

    def why_not_judged(self, plan: Plan, report: Report) -> str:
        return self.machine.why_not_judged(report, self.now())

    def may_hand_in(self, report: Report, verdict: Verdict, fault: str) -> bool:
        """Holds `verdict post successful` back: the fleet succeeds as a whole, and until then each
        machine can go back."""
        if verdict.result is not VerdictResult.SUCCESSFUL:
            self.machine.take_failed(
                f"analysis {verdict.analysis}: {verdict.result}" + (f", {fault}" if fault else "")
            )
            return True
        is_last = verdict.analysis is AnalysisKind.POST
        if is_last and report.newest.available:
            self.machine.take_passed()
        return not is_last
