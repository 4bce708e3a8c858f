"""The lines that the file of a plan asks for: each revision that the plan names last is deployed
once."""
from bg_switch_tools.controller.history.kept_ports import why_refused
from bg_switch_tools.controller.lines.line_source import SourceParts
from bg_switch_tools.controller.plan.plan import Plan, PlannedRevision
from bg_switch_tools.switch.lines import Deploy, Line, Verdict
from bg_switch_tools.switch.replies import JOURNAL_FAILED, SAME_TEMPLATE, Reply, Unsaved
from bg_switch_tools.switch.reports import Report


class PlanLines:
    """The source of lines of a controller that has a plan of its own. What is undone by hand stays
    undone until the plan names another revision last."""

    def __init__(self, parts: SourceParts) -> None:
        self.log = parts.log
        self.memory = parts.memory
        self.history = parts.history
        self.pause = parts.pause
        self.launcher = parts.launcher
        self.held = parts.held

    def take_opened(self, plan: Plan, opened: PlannedRevision) -> PlannedRevision | None:
        """The plan's last revision is deployed again after an opening if its attempt ran and nobody
        had undone it."""
        state, last = self.memory.state, plan.last
        if state.deployed == last and state.attempt == last:
            self.log.say("plan", f"the attempt of {last.name}, which ran, is begun again")
            self.memory.set_deployed(None)
            return last
        if state.deployed == last and opened != last:
            self.log.say("plan", f"{last.name} is not deployed again: it was aborted or undone")
            return None
        return None if why_refused(last, self.memory.kept) else last

    def lose_book(self) -> None:
        """The state file knows what was deployed."""

    def take_report(self, plan: Plan, report: Report) -> None:
        """Without a state file, a book that is open is gone on with as it stands. What somebody
        else has deployed again needs no deploy by the plan."""
        last = plan.last
        self.history.take_plan(last, self.memory.state.deployed)
        existing = report.named(last.name)
        if not self.memory.is_fresh:
            if self._is_unnoted(plan, report) and self.memory.kept.get(last.name) == last:
                self.memory.set_deployed(last)
                self.held.accept(plan)
            is_known = last.name in self.memory.kept or last in [
                each.revision for each in self.memory.state.held
            ]
            is_asked = self._is_unnoted(plan, report) and not is_known and not self.pause.is_on
            self.memory.asked_name = last.name if is_asked else ""
            return
        if existing is None:
            self.log.say("plan", f"{last.name} does not exist yet, so it is deployed")
        elif existing != report.newest:
            self.log.say(
                "plan",
                f"{last.name} exists and is not the newest revision, so it counts as undone and not deployed",
            )
        self.memory.set_deployed(last if existing and existing != report.newest else None)

    def coming(self, plan: Plan, report: Report) -> PlannedRevision | None:
        """The plan's last revision, if it is to be deployed: once, so that what is undone by hand
        stays undone until the plan names another, and never with other ports than its name has."""
        last = plan.last
        if (
            last == self.memory.state.deployed
            or report.newest.name == last.name
            or why_refused(last, self.memory.kept)
        ):
            return None
        return last

    def _is_unnoted(self, plan: Plan, report: Report) -> bool:
        """Whether the newest revision has the name of the plan's last one, which was not deployed
        by the plan."""
        return report.newest.name == plan.last.name and plan.last != self.memory.state.deployed

    def next_line(self, plan: Plan, report: Report) -> Line | None:
        """Deploys the plan's last revision, once its endpoints were started. A report has no ports:
        whether the newest revision, which somebody else has deployed, has those of the plan, the
        same line asks, which changes nothing then.
        """
        if self.pause.is_on:
            return None
        if self._is_unnoted(plan, report):
            return Deploy(plan.last.name, plan.last.ports)
        last = self.coming(plan, report)
        if last is None:
            return None
        if not self.launcher.is_ready(plan, last):
            if any(each.revision == last for each in self.memory.state.failing):
                self.history.take_failure(last)
            return None
        self.history.announce(last)
        return Deploy(last.name, last.ports)

    def take_reply(self, plan: Plan, report: Report, line: Line, reply: Reply) -> bool:
        if isinstance(reply, Unsaved) or reply == JOURNAL_FAILED and self._is_unnoted(plan, report):
            return False  # a crash may undo the deploy, so the same line asks until the journal keeps it
        if not reply.was_carried_out and reply != SAME_TEMPLATE:
            self.held.refuse(plan, plan.last, reply)
            return True
        self.memory.set_confirmed(plan.last, reply.was_carried_out)
        self.held.accept(plan)
        return False

    def is_paused(self) -> bool:
        return self.pause.is_on

    def why_not_judged(self, plan: Plan, report: Report) -> str:
        return ""

    def may_hand_in(self, report: Report, verdict: Verdict, fault: str) -> bool:
        return True
