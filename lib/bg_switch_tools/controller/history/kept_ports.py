"""A name keeps its ports: those with which its revision was opened or deployed."""
from collections.abc import Iterable, Mapping

from bg_switch_tools.controller.history.history_file import HistoryFile
from bg_switch_tools.controller.plan.plan import Plan, PlannedRevision
from bg_switch_tools.controller.state.state_file import StateError, StateFile

Kept = Mapping[str, PlannedRevision]  # by their names, the revisions whose ports are known for sure


def by_name(revisions: Iterable[PlannedRevision]) -> dict[str, PlannedRevision]:
    return {revision.name: revision for revision in revisions}


def kept_in_history(plan_path: str) -> dict[str, PlannedRevision]:
    """The revisions that the history of a plan has with their ports; empty if it can't be read."""
    try:
        attempts = HistoryFile(plan_path).read()[0].all
    except OSError:
        return {}
    return by_name(
        PlannedRevision(attempt.name, attempt.ports) for attempt in attempts if attempt.ports
    )


def kept_revisions(plan_path: str) -> dict[str, PlannedRevision]:
    """The revisions whose ports the history or the state of a plan has."""
    try:
        state = StateFile(plan_path).read()[0]
    except StateError:
        return kept_in_history(plan_path)
    return {**kept_in_history(plan_path), **by_name(state.ports)}


def why_refused(revision: PlannedRevision, kept: Kept) -> str:
    """Why a revision can't have its ports: its name has other ones. Empty if it can."""
    before = kept.get(revision.name)
    if before is None or before.ports == revision.ports:
        return ""
    own, other = (" ".join(map(str, ports)) for ports in (before.ports, revision.ports))
    return (
        f"{revision.name} has the ports {own}, and a name keeps its ports: deploy the ports {other} by a new name "
        f"(bgctl deploy NEW-NAME {other})"
    )


def refusals(plan: Plan, kept: Kept) -> list[str]:
    """A problem for each revision of a plan whose name has other ports."""
    return [
        f"revisions[{number}].ports: {why}"
        for number, revision in enumerate(plan.revisions)
        if (why := why_refused(revision, kept))
    ]
