"""Which revision an undo of a fleet takes again."""
from bg_switch_tools.controller.plan.plan import PlannedRevision
from bg_switch_tools.fleet.person.person import RefusedError
from bg_switch_tools.fleet.plan.fleet_plan import FleetPlan
from bg_switch_tools.fleet.record.record import Record


def _before(plan: FleetPlan, record: Record, is_waiting: bool) -> PlannedRevision:
    """The revision that was stable before the newest one. The newest one is that of the plan if it
    waits, and else that of the attempt. `RefusedError` if it can't be told."""
    newest = plan.last if is_waiting else record.revision
    # the record of an attempt that was successful keeps the one before
    for stable in (record.fleet_stable, record.stable):
        if stable.name != newest.name:
            return stable
    others = [revision for revision in plan.revisions if revision.name != newest.name]
    if len(others) == 1:
        return others[0]
    names = ", ".join(revision.name for revision in others)
    raise RefusedError(
        f"it is not known which revision was stable before {newest.name}: "
        + (f"--to NAME names one of {names}" if names else "the plan names no other one")
    )


def revision_to_undo_to(
    plan: FleetPlan, record: Record, is_waiting: bool, to: str | None
) -> PlannedRevision:
    """The revision that an undo takes again, with its ports: the one of the name `to`, or the one
    that was stable before the newest one. `is_waiting` says that the plan is not yet that of the
    attempt. `RefusedError` if the revision is not known.
    """
    if to is None:
        return _before(plan, record, is_waiting)
    known = [*plan.revisions, record.stable, record.revision]
    found = next((revision for revision in known if revision.name == to), None)
    if found is None:
        raise RefusedError(
            f"no revision {to} is known; the plan names {', '.join(revision.name for revision in plan.revisions)}"
        )
    return found
