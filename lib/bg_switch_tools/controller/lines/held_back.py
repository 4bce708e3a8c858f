"""What a controller holds back of its plan: revisions that it does not deploy, and whose ports in
the plan it does not use."""
import contextlib
import sys

from bg_switch_tools.controller.history.kept_ports import why_refused
from bg_switch_tools.controller.history.memory import Memory
from bg_switch_tools.controller.log import Log
from bg_switch_tools.controller.plan.plan import Plan, PlannedRevision
from bg_switch_tools.controller.state.state_file import HeldBack
from bg_switch_tools.switch.replies import Reply


class HeldRevisions:
    """Judges the plan again and again, keeps what is held back in the state, and tells what is new,
    also on standard error."""

    def __init__(self, log: Log, memory: Memory) -> None:
        self.log = log
        self.memory = memory
        self.refused: HeldBack | None = (
            None  # the revision whose deploy the switch has refused last
        )

    def refuse(self, plan: Plan, revision: PlannedRevision, reply: Reply) -> None:
        """The switch has refused to deploy this revision."""
        self.refused = HeldBack(
            revision, f"the switch refuses to deploy {revision.words}: {reply.with_meaning()}"
        )
        self.look(plan)

    def accept(self, plan: Plan) -> None:
        """The switch has deployed the last revision of the plan, or has it already."""
        self.refused = None
        self.look(plan)

    def look(self, plan: Plan) -> None:
        """Judges the plan by what is known now."""
        judged = [
            HeldBack(revision, why_refused(revision, self.memory.kept))
            for revision in plan.revisions
        ]
        held = [each for each in judged if each.reason]
        is_refused = (
            self.refused is not None
            and self.refused.revision == plan.last
            and not why_refused(plan.last, self.memory.kept)
        )
        held += [self.refused] if self.refused and is_refused else []
        before = self.memory.state.held
        self.memory.set_held(tuple(held))
        for each in held:
            if each not in before:
                self._tell(each.text())

    def _tell(self, text: str) -> None:
        self.log.say("plan", text)
        with contextlib.suppress(OSError):  # as in the log
            print(f"controller: {text}", file=sys.stderr, flush=True)
