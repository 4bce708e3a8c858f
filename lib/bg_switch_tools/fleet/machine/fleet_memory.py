"""What the controller of a machine of a fleet knows of the rounds before: the record of the fleet
says what a switch is opened with."""
from bg_switch_tools.controller.history.memory import Memory, Revisions
from bg_switch_tools.controller.log import Log
from bg_switch_tools.controller.plan.plan import Plan, PlannedRevision
from bg_switch_tools.controller.state.state_file import State
from bg_switch_tools.fleet.machine.machine import Machine


class FleetMemory(Memory):
    """The state file of an agent is that of its machine, whichever plan the fleet has by now: a
    process that an agent before has left behind is ended also after the plan has changed."""

    def __init__(self, machine: Machine, path: str, plan: Plan, log: Log) -> None:
        self.machine = machine
        super().__init__(path, plan, log)

    def kept_before(self, plan_path: str) -> dict[str, PlannedRevision]:
        """None: the record of the fleet says which ports a name has."""
        return {}

    def keep_ports(self, revision: PlannedRevision) -> None:
        """Keeps none."""

    def noted(self, plan: Plan) -> Revisions:
        return self.revisions(plan)

    def live(self, plan: Plan, name: str) -> PlannedRevision | None:
        return self.known(plan, name)

    def is_of(self, plan: Plan, state: State) -> bool:
        return True

    def why_not_opened(self, plan: Plan) -> str:
        """Nothing prevents it: the record of the fleet says what the switch is opened with."""
        return ""

    def to_open(self, plan: Plan) -> tuple[PlannedRevision, str]:
        return self.machine.opening(plan)

    def summary(self) -> str:
        stable = self.state.stable.name if self.state.stable else "none"
        return f"moment {self.state.moment}, stable {stable}"
