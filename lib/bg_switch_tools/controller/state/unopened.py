"""Why a switch without a book is not opened by a plan: clients would reach a revision that nobody
has tested."""
from bg_switch_tools.controller.plan.plan import Plan
from bg_switch_tools.controller.state.state_file import COPY, State, StateError, StateFile


def _reset(path: str, plan: Plan) -> str:
    """How to begin anew with the plan's first revision."""
    return (
        f"or, to begin anew with {plan.first.name}, which no preview and no analysis has judged, stop the controller and remove "
        f"{path} and {path}{COPY}"
    )


def _why_foreign(state: State, path: str, plan: Plan) -> str:
    """What to do if the plan has no name of the state."""
    stable, deployed = (
        state.unknown or state.stable and state.stable.name,
        state.deployed and state.deployed.name,
    )
    went = [
        *([f"{stable} was stable"] if stable else []),
        *([f"{deployed} was deployed last"] if deployed and deployed != stable else []),
    ]
    first = (
        f"{state.stable.name} with its ports {' '.join(map(str, state.stable.ports))}"
        if state.stable
        else state.names[0]
    )
    return (
        f"by the state file {path}, {' and '.join(went)}, and the plan does not name {'it' if len(went) == 1 else 'them'}. "
        f"Name {first} first in the plan; {_reset(path, plan)}"
    )


def why_not_opened(state: State, path: str, plan: Plan) -> str:
    """Why a switch without a book is not opened by this plan, with this state in the file of this
    path, and what to do. Empty if it is opened."""
    if not state.belongs_to(plan):
        return f"no switch is opened by this plan: {_why_foreign(state, path, plan)}"
    if state.unknown and state.stable is None and plan.named(state.unknown) is None:
        return (
            f"no switch is opened by this plan: {state.unknown} was stable, and neither the plan nor the history has its ports. "
            f"Name {state.unknown} with its ports first in the plan; {_reset(path, plan)}"
        )
    return ""


def why_plan_opens_none(plan_path: str, plan: Plan) -> str:
    """The same by the state beside a plan; empty if there is no such state."""
    file = StateFile(plan_path)
    try:
        return why_not_opened(file.read()[0], file.path, plan)
    except StateError:
        return ""
