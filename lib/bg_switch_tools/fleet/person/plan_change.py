"""What a plan of a fleet does in place of the one before: for people, before it is put."""
from bg_switch_tools.controller.plan.plan import PlannedRevision
from bg_switch_tools.fleet.plan.fleet_plan import FleetPlan
from bg_switch_tools.fleet.record.record import ABORTED, SUCCESSFUL, Record


def _known(before: FleetPlan | None, record: Record | None) -> dict[str, PlannedRevision]:
    """The revisions that the switches of the fleet may have, by their names."""
    kept = record.plan if record else None
    revisions = [
        *(kept.revisions if kept else ()),
        *(before.revisions if before else ()),
        *((record.stable, record.revision) if record else ()),
    ]
    return {revision.name: revision for revision in revisions}


def plan_problems(before: FleetPlan | None, after: FleetPlan, record: Record | None) -> list[str]:
    """Why a plan can't follow the one before, a line each with its place; empty if it can."""
    known, found = _known(before, record), []
    for number, revision in enumerate(after.revisions):
        other = known.get(revision.name)
        if other and other.ports != revision.ports:
            ports = ", ".join(map(str, other.ports))
            found.append(
                f"revisions[{number}].ports: {revision.name} had the ports {ports} before: a switch that has the revision "
                "refuses others, so other ports need another name"
            )
    counts = {len(revision.ports) for revision in known.values()}
    if counts and {len(after.first.ports)} != counts:
        found.append(
            f"revisions[0].ports: has {len(after.first.ports)}, and the revisions before have {max(counts)}: each switch keeps its "
            "number of replicas"
        )
    return found


def plan_effect(before: FleetPlan | None, after: FleetPlan, record: Record | None) -> str:
    """What becomes of the fleet when this plan is put, in a sentence."""
    last = after.last.name
    if record is None:
        return f"the fleet begins: its stable revision is the one that is live, and {last} is deployed unless it is that one"
    ends = f"the attempt of {record.revision.name} is aborted; " if record.is_running else ""
    if last == record.fleet_stable.name:
        return f"{ends}nothing else is deployed: {last} is the stable revision of the fleet"
    if last == record.revision.name and record.stage == ABORTED:
        return f"the attempt of {last}, which was aborted, begins again"
    if last == record.revision.name and record.stage != SUCCESSFUL:
        return f"{ends}it begins again"
    again = " again: the plan before names it too" if before and before.named(last) else ""
    return f"{ends}{last} is deployed{again}"
