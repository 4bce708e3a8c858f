"""What has changed in a fleet between two reads of its keys."""
from collections.abc import Iterator
from typing import NamedTuple

from bg_switch_tools.dashboard.fleet_state import AWAY, FleetState
from bg_switch_tools.fleet.record.record import ABORTED, PROMOTING, SUCCESSFUL
from bg_switch_tools.fleet.record.status import FleetStatus, MemberStatus
from bg_switch_tools.fleet.record.status_text import attempt_title

# of changes to a stage; `change` for others
KINDS = {ABORTED: "abort", PROMOTING: "switch", SUCCESSFUL: "switch"}


class FleetChange(NamedTuple):
    """A change. `kind` is `switch`, `abort`, `change`, `member`, `away`, `leader`, `order` or
    `plan`."""

    kind: str
    text: str


def changes(before: FleetState, now: FleetState) -> list[FleetChange]:
    """What has changed, in the order in which a reader wants it. What can't be read is no
    change."""
    return [
        *_of_plan(before.status, now.status),
        *_of_order(before.status, now.status),
        *_of_record(before.status, now.status),
        *_of_leader(before, now),
        *_of_members(before, now),
        *_of_machines(before, now),
    ]


def attempt_told(status: FleetStatus) -> str:
    """The attempt in one line."""
    record = status.record
    if record is None:
        return "no attempt is known"
    reason = f", {record.reason}" if record.reason else ""
    missing = f"; without a vote: {', '.join(record.missing)}" if record.missing else ""
    return f"{attempt_title(record)}: {record.stage}{reason}{missing}"


def _of_record(before: FleetStatus, now: FleetStatus) -> Iterator[FleetChange]:
    if now.record and now.record != before.record:
        yield FleetChange(KINDS.get(now.record.stage, "change"), attempt_told(now))
    elif before.record and now.record is None and not now.problem:
        yield FleetChange("abort", "the record of the attempt is gone")


def _of_plan(before: FleetStatus, now: FleetStatus) -> Iterator[FleetChange]:
    if now.plan_id and before.plan_id != now.plan_id:
        yield FleetChange(
            "plan",
            f"plan {now.plan_id} was put: {now.plan.last.name if now.plan else 'it cannot be read'}",
        )
    elif before.plan_id and not now.plan_id:
        yield FleetChange("plan", "the plan is gone")


def _of_order(before: FleetStatus, now: FleetStatus) -> Iterator[FleetChange]:
    if now.order and now.order != before.order:
        yield FleetChange(
            "order", f"{now.order.by} orders {now.order.order} for attempt {now.order.attempt}"
        )
    elif before.order and now.order is None:
        yield FleetChange(
            "order", f"the order {before.order.order} of {before.order.by} stands no longer"
        )


def _of_leader(before: FleetState, now: FleetState) -> Iterator[FleetChange]:
    if not now.leader_created and before.leader_created:
        yield FleetChange("leader", f"{before.status.leader} leads no longer, and nobody leads")
    elif now.leader != before.leader:
        yield FleetChange("leader", f"{now.status.leader} leads")


def _of_members(before: FleetState, now: FleetState) -> Iterator[FleetChange]:
    for host in now.members:
        if host not in before.members:
            yield FleetChange("member", f"{host} is a member from now on")
    for host in before.members:
        if host not in now.members:
            yield FleetChange("member", f"{host} is a member no longer")


def _of_machines(before: FleetState, now: FleetState) -> Iterator[FleetChange]:
    was, is_now = before.machines, now.machines
    for host, machine in is_now.items():
        yield from _of_machine(was.get(host), machine, host in before.members)
    for host, machine in was.items():
        if machine.report and host not in is_now:
            yield FleetChange("away", f"{host}, no member, is away")


def _of_machine(
    was: MemberStatus | None, now: MemberStatus, was_member: bool
) -> Iterator[FleetChange]:
    """What has changed of a machine. One that was not known had no report."""
    state, report = now.state, now.report
    before = was.report if was else None
    if report is None and before:
        yield FleetChange("away", f"{now.host} is {AWAY}")
    elif report and (
        before is None or (before.state, before.attempt) != (report.state, report.attempt)
    ):
        reason = f", {report.reason}" if report.reason else ""
        back = " is back" if before is None and was_member else ""
        yield FleetChange("member", f"{now.host}{back}: {state}{reason}")
