"""What `check` finds wrong with a plan, beside what makes it none: with its commands, the files
beside it, and the Rollout."""
import os

from bg_switch_tools.analysis.cli import fault_of_words
from bg_switch_tools.controller.history.kept_ports import kept_revisions, refusals
from bg_switch_tools.controller.plan.plan import Plan
from bg_switch_tools.controller.plan.plan_limits import missing_commands, words_of_tool
from bg_switch_tools.controller.plan.plan_reader import LARGEST
from bg_switch_tools.controller.plan.rollout_check import rollout_problems
from bg_switch_tools.controller.state.unopened import why_plan_opens_none


def _wrong_analyses(plan: Plan) -> list[str]:
    """A problem for each analysis of these tools that would end at once by its words, which takes a
    good revision back."""
    words_by_place = {
        place: words_of_tool(command) for place, command in plan.analyses.by_place().items()
    }
    return [
        f"{place}: {fault}"
        for place, words in words_by_place.items()
        if words is not None and (fault := fault_of_words(words))
    ]


def _misfits(plan: Plan, rollout: str) -> list[str]:
    """A problem for each value of the Rollout in this file that does not fit the plan."""
    try:
        with open(rollout, "rb") as file:
            text = file.read(LARGEST + 1)
    except OSError as error:
        return [f"{rollout} can't be read: {error.strerror}"]
    return [f"{rollout}: {problem}" for problem in rollout_problems(text, plan)]


def problems_of(path: str, plan: Plan, rollout: str | None) -> list[str]:
    """What is wrong with the plan of this file, a line each. `rollout` is the file of the Rollout
    with which the switch is started; None if it is not named."""
    opens_none = why_plan_opens_none(path, plan)
    return [
        *missing_commands(plan, os.path.dirname(os.path.abspath(path))),
        *_wrong_analyses(plan),
        *refusals(plan, kept_revisions(path)),
        *([f"revisions: {opens_none}"] if opens_none else []),
        *(_misfits(plan, rollout) if rollout else []),
    ]
