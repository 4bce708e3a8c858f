"""How a fleet stands, by one read of its keys: for people, and for programs as JSON."""
from typing import NamedTuple

from bg_switch_tools.fleet.plan.fleet_plan import FleetPlan
from bg_switch_tools.fleet.record.leader import NEEDED, awaited_of, votes_of
from bg_switch_tools.fleet.record.record import (
    FOLLOWS,
    LEADER,
    MACHINES,
    ORDER,
    PLAN,
    MachineReport,
    PersonOrder,
    Record,
    UnreadableError,
    View,
    plan_of_attempt,
    read_order,
)
from bg_switch_tools.fleet.store.store import Snapshot


class MemberStatus(NamedTuple):
    """A machine. `report` is None if it is away. Without `has_vote` the attempt goes on without it.
    `awaited` is the state that it has to report before the fleet goes on; it is empty if nothing is
    awaited from it."""

    host: str
    report: MachineReport | None
    has_vote: bool = True
    awaited: str = ""

    @property
    def state(self) -> str:
        """The state that it reports, or `away`."""
        return self.report.state if self.report else "away"

    def as_json(self) -> dict[str, object]:
        report = self.report
        selected = {
            key: (getattr(report, key) or None) if report else None
            for key in ("reason", "phase", "active", "preview", "stable", "newest")
        }
        return {
            "host": self.host,
            "state": self.state,
            "has_vote": self.has_vote,
            "awaited": self.awaited or None,
            "attempt": (report.attempt or None) if report else None,
            "available": report.available if report else None,
            **selected,
        }


class FleetStatus(NamedTuple):
    """How a fleet stands at a revision of the store. `plan_id` is the plan's `changed` revision (0:
    there is none). `plan` is None if it can't be read, which `problem` tells. The plan waits if it
    is not that of the attempt: a leader takes it up next. `leader` is the host of the leader, and
    `wrote` whether it has written the record. `others` are the machines that report and are no
    members. `problem` says what can't be read; what rests on it is left out.
    """

    fleet: str
    revision: int
    record: Record | None
    plan_id: int
    plan: FleetPlan | None
    plan_waits: bool
    leader: str
    wrote: bool
    order: PersonOrder | None
    members: tuple[MemberStatus, ...]
    others: tuple[MemberStatus, ...]
    awaited: tuple[str, ...]
    problem: str

    def as_json(self) -> dict[str, object]:
        """The object of JSON that docs/FLEET.md describes. What is not known, or not there, is
        null."""
        record, plan, order = self.record, self.plan, self.order
        attempt = (
            {
                "id": record.id,
                "revision": record.revision.name,
                "ports": list(record.revision.ports),
                "stable": record.fleet_stable.name,
                "stage": record.stage,
                "reason": record.reason or None,
                "since": record.time or None,
                "written_by": self.leader if self.wrote else None,
                "missing": list(record.missing),
            }
            if record
            else None
        )
        return {
            "fleet": self.fleet,
            "store_revision": self.revision,
            "leader": self.leader or None,
            "attempt": attempt,
            "plan": {
                "id": self.plan_id,
                "last": plan.last.name if plan else None,
                "waits": self.plan_waits,
            }
            if self.plan_id
            else None,
            "order": {"order": order.order, "attempt": order.attempt, "by": order.by}
            if order
            else None,
            "members": [member.as_json() for member in self.members],
            "others": [other.as_json() for other in self.others],
            "awaited": list(self.awaited),
            "problem": self.problem or None,
        }


def _members(view: View, record: Record | None) -> tuple[MemberStatus, ...]:
    """The members. What is awaited from them is known only with the record."""
    reports = {host: view.machine(host) for host in view.members}
    if record is None:
        return tuple(MemberStatus(host, report) for host, report in reports.items())
    if not record.is_running:
        return tuple(
            MemberStatus(
                host,
                report,
                host not in record.missing,
                "" if report and report.follows(record) else FOLLOWS,
            )
            for host, report in reports.items()
        )
    votes = votes_of(view, record)
    too_many = (
        [host for host in votes.missing if host not in record.missing]
        if len(votes.missing) > plan_of_attempt(view, record).max_missing
        else []
    )
    awaited = {*votes.awaited, *too_many}
    return tuple(
        MemberStatus(
            host,
            report,
            host in awaited or host not in votes.missing,
            NEEDED[record.stage] if host in awaited else "",
        )
        for host, report in reports.items()
    )


def _others(view: View) -> tuple[MemberStatus, ...]:
    hosts = sorted(
        name.removeprefix(MACHINES) for name in view.snapshot.keys if name.startswith(MACHINES)
    )
    return tuple(
        MemberStatus(host, view.machine(host), has_vote=False)
        for host in hosts
        if host not in view.members
    )


def _order(view: View) -> tuple[PersonOrder | None, str]:
    """The order that stands, and what can't be read of it."""
    key = view.key(ORDER)
    try:
        return (read_order(key.value) if key else None), ""
    except UnreadableError as reason:
        return None, f"the order can't be read, so a leader drops it: {reason}"


def status_of(fleet: str, snapshot: Snapshot) -> FleetStatus:
    """How the fleet of this name stands by a read."""
    view, problems = View(snapshot), list[str]()
    plan_id, plan = view.changed(PLAN), view.standing_plan
    record, plan_waits, leader = None, False, view.key(LEADER)
    awaited = [] if leader else ["a leader"]
    try:
        record = view.record
        plan_waits = plan is not None and (record is None or plan_id != record.id)
        awaited += awaited_of(snapshot)
    except UnreadableError as reason:
        problems.append(str(reason))
        awaited = []
    if plan is None and (plan_id or record):
        problems.append(f"no attempt begins: {view.plan_fault}")
    wrote = leader is not None and record is not None and leader.created == record.by
    order, fault = _order(view)
    return FleetStatus(
        fleet,
        snapshot.revision,
        record,
        plan_id,
        plan,
        plan_waits,
        leader.value if leader else "",
        wrote,
        order,
        _members(view, record),
        _others(view),
        tuple(awaited),
        "; ".join([*problems, *([fault] if fault else [])]),
    )
