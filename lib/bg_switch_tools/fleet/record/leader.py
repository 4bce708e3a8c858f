"""What the leader of a fleet writes: one decision by one read of all keys, with compares for all
that it rests on."""
import dataclasses
from typing import NamedTuple

from bg_switch_tools.controller.plan.plan import PlannedRevision
from bg_switch_tools.fleet.plan.fleet_plan import FleetPlan
from bg_switch_tools.fleet.record.record import (
    ABORT,
    ABORTED,
    ATTEMPT,
    DEPLOYING,
    FAILED,
    LEADER,
    MACHINES,
    MEMBERS,
    ORDER,
    PASSED,
    PLAN,
    PROMOTE,
    PROMOTING,
    READY,
    SUCCESSFUL,
    PersonOrder,
    Record,
    View,
    plan_of_attempt,
)
from bg_switch_tools.fleet.store.store import Compare, Snapshot

# by the stage: what each member with a vote has to report
NEEDED = {DEPLOYING: READY, PROMOTING: PASSED}


class Waited(NamedTuple):
    """Seconds by the leader's own monotonic clock: for how long all votes have been there without a
    break, and for how long the stage has made no progress."""

    ready: float = 0.0
    stuck: float = 0.0
    stage: float = 0.0  # since this agent saw the stage first, without the time of an outage


class Decision(NamedTuple):
    """What is decided. `record` is None if an order is dropped and nothing else changes. `hosts`
    are the members whose reports, or whose absence, this rests on. `takes_order` says that the
    order that stands is answered, and removed; `why_dropped` why it is not carried out (empty: it
    is)."""

    record: Record | None
    hosts: tuple[str, ...] = ()
    takes_order: bool = False
    why_dropped: str = ""


class Write(NamedTuple):
    """A write of the store, with the record that it writes. `dropped` tells of the order that it
    removes and does not carry out, with who gave it and why; it is empty if there is no such
    order."""

    compares: tuple[Compare, ...]
    puts: dict[str, str]
    deletes: tuple[str, ...]
    record: Record | None
    dropped: str = ""


@dataclasses.dataclass(frozen=True)
class Votes:
    """How the members stand to an attempt that runs. `missing` have no vote in it: they are away,
    or were when `promoting` was written. `voters` are the others that report what the stage needs,
    `awaited` the others that do not.
    """

    members: tuple[str, ...]
    missing: tuple[str, ...]
    voters: tuple[str, ...]
    awaited: tuple[str, ...]
    failed: str  # a member with a vote that reports `failed`; empty if none does
    reason: str  # why it did

    def are_enough(self, max_missing: int) -> bool:
        return bool(self.voters) and not self.awaited and len(self.missing) <= max_missing


def votes_of(view: View, record: Record) -> Votes:
    """The votes on an attempt that runs, by the reports of this view."""
    members = view.members
    reports = {host: view.machine(host) for host in members}
    missing = tuple(host for host in members if reports[host] is None or host in record.missing)
    # a machine that has failed counts at once: going back needs no certainty
    states = {
        host: report.state
        if report.attempt == record.id and (report.state == FAILED or view.is_current(report))
        else ""
        for host, report in reports.items()
        if report and host not in missing
    }
    voters = tuple(host for host, state in states.items() if state == NEEDED[record.stage])
    failed = next((host for host, state in states.items() if state == FAILED), "")
    report = reports.get(failed)
    return Votes(
        members,
        missing,
        voters,
        tuple(host for host in states if host not in voters),
        failed,
        report.reason if report else "",
    )


class StageClock:
    """Measures what is waited for. `look` is for a leader: it begins anew with each lead, so a
    promotion is late and never early. Since when the stage lasts is noted by each read, also of a
    candidate that does not lead, so that another leader ends an attempt in time."""

    def __init__(self) -> None:
        self.stage: tuple[int, str] | None = None
        self.begun = self.seen_at = 0.0
        self.is_lost = False  # whether reads have failed since `seen_at`
        self.counted: tuple[int, str] | None = None  # the stage in which this lead counts votes
        self.vote_count = 0
        self.progressed = 0.0
        self.ready_since: float | None = None

    def forget(self) -> None:
        """Another lead begins: votes are counted anew."""
        self.counted = None

    def lose(self) -> None:
        """A read has failed. The time until the next one does not count."""
        self.is_lost = True

    def see(self, record: Record | None, now: float) -> None:
        """Notes since when the stage of a record lasts, by a read at `now` (monotonic seconds)."""
        stage = (record.id, record.stage) if record and record.is_running else None
        if stage != self.stage:
            self.stage, self.begun = stage, now
        elif self.is_lost:
            self.begun += now - self.seen_at
        self.seen_at, self.is_lost = now, False

    def look(self, snapshot: Snapshot, now: float) -> Waited:
        """What was waited for at `now` (monotonic seconds). `UnreadableError` as `decide` has
        it."""
        view = View(snapshot)
        record = view.record
        self.see(record, now)
        if record is None or not record.is_running:
            self.counted = None
            return Waited()
        votes = votes_of(view, record)
        if self.counted != self.stage:
            self.counted, self.vote_count, self.ready_since = self.stage, 0, None
            self.progressed = now
        is_enough = votes.are_enough(plan_of_attempt(view, record).max_missing)
        if is_enough or len(votes.voters) > self.vote_count:
            self.progressed = now
        self.vote_count = len(votes.voters)
        self.ready_since = (
            (self.ready_since if self.ready_since is not None else now) if is_enough else None
        )
        ready = 0.0 if self.ready_since is None else now - self.ready_since
        return Waited(ready, now - self.progressed, now - self.begun)


def _live_revision(view: View, plan: FleetPlan) -> PlannedRevision | None:
    """The revision with which a fleet begins: the one that its machines have as stable. None if
    that is not known: a member without a report may have any, and a revision that the plan does not
    name has ports that nobody knows.
    """
    reports = [view.machine(host) for host in view.members]
    here = [report for report in reports if report]
    if not here or len(reports) - len(here) > plan.max_missing:
        return None
    names = {report.stable for report in here if report.stable}
    if not names:
        return plan.first
    known = [revision for revision in plan.revisions if revision.name in names]
    return known[0] if len(known) == len(names) else None


def _begin(view: View, plan: FleetPlan, record: Record) -> Decision | None:
    """What follows an attempt that is over."""
    plan_id, stable, last = view.changed(PLAN), record.fleet_stable, plan.last
    # an etcd that was filled from a backup may count from a lower revision
    if plan_id == record.id:
        return None
    if last.name == stable.name:
        return Decision(
            Record(
                plan_id, stable, stable, SUCCESSFUL, "the plan names the stable revision", plan=plan
            )
        )
    return Decision(Record(plan_id, last, stable, DEPLOYING, plan=plan))


def _ended(
    record: Record, reason: str, hosts: tuple[str, ...] = (), takes_order: bool = False
) -> Decision:
    return Decision(dataclasses.replace(record, stage=ABORTED, reason=reason), hosts, takes_order)


def _late(plan: FleetPlan, record: Record, votes: Votes, waited: Waited) -> Decision | None:
    """Whether an attempt that lacks votes is given up."""
    late = ", ".join((*votes.awaited, *votes.missing)) or "there is no member"
    if record.stage == PROMOTING and waited.stage >= plan.promoting_seconds:
        return _ended(
            record,
            f"it was promoting for {plan.promoting_seconds:g} seconds: {late}",
            votes.members,
        )
    if plan.progress.abort and waited.stuck >= plan.progress.seconds:
        return _ended(
            record, f"no progress in {plan.progress.seconds:g} seconds: {late}", votes.members
        )
    return None


def _go_on(
    view: View, record: Record, order: PersonOrder | None, waited: Waited
) -> Decision | None:
    """What follows for an attempt that runs, by the plan that it began with."""
    if view.other_plan:
        return _ended(record, "another plan was put")
    plan = plan_of_attempt(view, record)
    if order and order.order == ABORT:
        return _ended(record, f"ordered by {order.by}", takes_order=True)
    votes = votes_of(view, record)
    if votes.failed:
        return _ended(record, f"{votes.failed}: {votes.reason}", (votes.failed,))
    if not votes.are_enough(plan.max_missing):
        return _late(plan, record, votes, waited)
    if record.stage == PROMOTING:
        return Decision(
            dataclasses.replace(record, stage=SUCCESSFUL, reason="", missing=votes.missing),
            votes.members,
        )
    if order:
        reason, takes_order = f"ordered by {order.by}", True
    elif not plan.by_hand and waited.ready >= plan.seconds:
        reason, takes_order = "", False
    else:
        return None
    return Decision(
        dataclasses.replace(record, stage=PROMOTING, reason=reason, missing=votes.missing),
        votes.members,
        takes_order,
    )


def _why_dropped(record: Record, order: PersonOrder) -> str:
    """Why an order that stands can't be carried out; empty if it can, or could be later."""
    if order.attempt != record.id:
        return f"the attempt of the fleet is {record.id} now"
    if not record.is_running:
        return f"the attempt is {record.stage}" + (f", {record.reason}" if record.reason else "")
    return (
        "the attempt is promoting already"
        if (order.order, record.stage) == (PROMOTE, PROMOTING)
        else ""
    )


def decision_of(view: View, waited: Waited) -> Decision | None:
    """What a leader decides by these keys; None if everything stays as it is."""
    plan, record, order = view.standing_plan, view.record, view.order
    if record is None:
        live = _live_revision(view, plan) if plan else None
        return (
            Decision(
                Record(0, live, live, SUCCESSFUL, "the fleet begins with it", plan=plan),
                view.members,
            )
            if live
            else None
        )
    if order and (why := _why_dropped(record, order)):
        return Decision(None, takes_order=True, why_dropped=view.order_fault or why)
    if not record.is_running:
        return _begin(view, plan, record) if plan else None
    return _go_on(view, record, order, waited)


def compares_of(view: View, created: int, decision: Decision) -> tuple[Compare, ...]:
    """What has to be unchanged for a decision: the leader's key, the attempt, the plan, the order
    of a person, the members, and what it rests on. An order that came after the read is one that
    the decision does not know of: without its compare, an abort that was acknowledged could be
    followed by a stage that goes on."""
    names = [ATTEMPT, PLAN, ORDER, *(MACHINES + host for host in decision.hosts)]
    return (
        Compare(LEADER, "created", created),
        Compare(MEMBERS, "changed", view.snapshot.revision),
        *(Compare(name, "changed", view.changed(name)) for name in names),
    )


def decide(snapshot: Snapshot, created: int, waited: Waited, time: int = 0) -> Write | None:
    """What a leader writes by this read; None if nothing is to be written. `created` is the
    `created` revision of its key, `time` the Unix time for the record. `UnreadableError` if this
    version can't read the record.
    """
    view = View(snapshot)
    decision = decision_of(view, waited)
    if decision is None:
        return None
    record = decision.record and dataclasses.replace(decision.record, by=created, time=time)
    order, why = view.order, decision.why_dropped
    return Write(
        compares_of(view, created, decision),
        {ATTEMPT: record.text()} if record else {},
        (ORDER,) if decision.takes_order else (),
        record,
        f"drops {order.title}: {why}" if order and why else "",
    )


def awaited_of(snapshot: Snapshot) -> list[str]:
    """What the fleet waits for, a text each: for people. Empty if it waits for nothing.
    `UnreadableError` as `decide` has it."""
    view = View(snapshot)
    record = view.record
    if record is None:
        plan = view.standing_plan
        if plan is None:
            return ["a plan that can be read" if view.key(PLAN) else "a plan"]
        away = [host for host in view.members if view.machine(host) is None]
        if not view.members:
            return ["members"]
        return [f"{host}: a report" for host in away] or (
            []
            if _live_revision(view, plan)
            else ["a plan that names the stable revision of each member"]
        )
    if not record.is_running:
        return [
            f"{host}: {_report_text(view, host)}"
            for host in view.members
            if not _follows(view, record, host)
        ]
    plan, votes = plan_of_attempt(view, record), votes_of(view, record)
    found = [f"{host}: {_report_text(view, host)}" for host in votes.awaited]
    if len(votes.missing) > plan.max_missing:
        found += [
            f"{host}: {_report_text(view, host)}"
            for host in votes.missing
            if host not in record.missing
        ]
    if not votes.members:
        found.append("members")
    if not found and record.stage == DEPLOYING:
        found = [
            "a person's promote"
            if plan.by_hand
            else f"{plan.seconds:g} seconds in which all are ready"
            if plan.seconds
            else "the leader"
        ]
    return found


def _follows(view: View, record: Record, host: str) -> bool:
    report = view.machine(host)
    return report is not None and report.follows(record)


def _report_text(view: View, host: str) -> str:
    report = view.machine(host)
    if report is None:
        return "is away"
    text = f"{report.state}, {report.reason}" if report.reason else report.state
    return text if view.is_current(report) else f"{text}, as an earlier leader was told"
