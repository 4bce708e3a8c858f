"""What the controller of this machine tells of its plan, in the files that it keeps beside it."""
import os
from collections.abc import Sequence
from typing import NamedTuple

from bg_switch_tools.controller.edits.announced_deploy import held_back
from bg_switch_tools.controller.state.controller_life import ControllerLife, Life, life_of
from bg_switch_tools.controller.state.state_file import LOCK, SUFFIX, HeldBack


class ControllerView(NamedTuple):
    """What one look has found: how the controller lives, and the revisions of the plan that it
    holds back."""

    life: ControllerLife
    held: Sequence[HeldBack]

    def faults(self) -> list[str]:
        """What is wrong, in sentences."""
        wrong = self.life.text
        return ([f"{wrong[0].upper()}{wrong[1:]}."] if wrong else []) + [
            f"The controller holds {each.revision.name} back: {each.reason}." for each in self.held
        ]


class LocalController:
    """The controller of a plan. If there is no plan, and no controller has run one at this path,
    none is missed: the switch is operated by hand, or by the agent of a fleet."""

    def __init__(self, plan: str) -> None:
        self.plan = plan

    def look(self) -> ControllerView:
        life = life_of(self.plan)
        if life.life is Life.DOWN and not any(
            os.path.exists(path) for path in (self.plan, self.plan + SUFFIX + LOCK)
        ):
            life = ControllerLife(Life.UNKNOWN)
        return ControllerView(life, held_back(self.plan))
