"""Which deploy a plan has announced and its controller has not carried out yet, and what the
controller holds back."""
import contextlib
from collections.abc import Collection

from bg_switch_tools.controller.plan.plan import Plan, PlannedRevision
from bg_switch_tools.controller.plan.plan_file import PlanFile
from bg_switch_tools.controller.plan.plan_reader import PlanError
from bg_switch_tools.controller.state.controller_life import life_of
from bg_switch_tools.controller.state.plan_author import Author
from bg_switch_tools.controller.state.state_file import HeldBack, State, StateError, StateFile
from bg_switch_tools.switch.wait import Announcement


class AnnouncedDeploy:
    """Looks at a plan and at the state file that its controller keeps beside it."""

    def __init__(self, path: str, awaited: Collection[str] = (), text: bytes | None = None) -> None:
        """`awaited` are the names of the revisions whose deploy is awaited, `text` is the plan if
        it was read already. `PlanError` if the file is not a plan."""
        self.file = PlanFile(path, text)
        self.plan: Plan = self.file.first()
        self.was_read = True  # and not looked at yet
        self.state = StateFile(path)
        self.author = Author(path)
        self.path = path
        self.awaited = awaited
        self.pending: PlannedRevision | None = (
            None  # what the plan named last, and was not deployed, at the look before
        )
        self.overtaken: dict[str, str] = {}  # by the names of what was overtaken: why

    def _take_overtaken(self, last: PlannedRevision, deployed: PlannedRevision | None) -> None:
        """Takes in what an edit has overtaken: by bgctl, which has noted it, or by other means,
        between two looks."""
        before, self.pending = self.pending, None if last == deployed else last
        if last == before:
            return
        self.overtaken |= {each.name: each.text() for each in self.author.overtaken(self.file.text)}
        if before and before != deployed:
            self.overtaken[
                before.name
            ] = f"{before.name} was overtaken before its deploy: the plan names {last.name} last"
        self.overtaken.pop(last.name, None)

    def look(self) -> Announcement:
        """The plan's last revision, if it was not deployed for the plan yet. A plan that turns
        wrong announces what it did before, as the controller continues by the one before."""
        if not self.was_read:
            with contextlib.suppress(PlanError):
                self.plan = self.file.read() or self.plan
        self.was_read = False
        try:
            state = self.state.read()[0]
        except StateError:
            state = State()
        last = self.plan.last
        self._take_overtaken(last, state.deployed)
        overtaken = next(
            (self.overtaken[name] for name in self.awaited if name in self.overtaken), ""
        )
        if state.deployed == last:
            return Announcement(overtaken=overtaken)
        controller = life_of(self.path)
        refusal, trouble = (
            next((each.reason for each in held_revisions if each.revision == last), "")
            for held_revisions in (state.held, state.failing)
        )
        return Announcement(
            last.name, refusal, controller.text if controller.is_wrong else "", trouble, overtaken
        )


def held_back(path: str, plan: Plan | None = None) -> list[HeldBack]:
    """What the controller of a plan holds back of the revisions that the plan names, also since the
    start of its last one fails; empty if no state tells it. The plan is read if it is not given."""
    try:
        state = StateFile(path).read()[0]
        plan = plan or PlanFile(path).first()
    except (StateError, PlanError):
        return []
    failing = [each for each in state.failing if each.revision == plan.last != state.deployed]
    return [each for each in (*state.held, *failing) if each.revision in plan.revisions]
