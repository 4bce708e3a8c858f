"""Planted faults of a fleet's agents: each is a patch that makes the agents' own code wrong in one
way, which one rule forbids.

The simulation plants them in its agents, and the drill in agents of its own.
"""
import contextlib
import dataclasses
from collections.abc import Iterator
from unittest import mock

from bg_switch_tools.controller.plan.plan import Plan
from bg_switch_tools.fleet.agent import fleet_lines
from bg_switch_tools.fleet.agent.agent import Lease
from bg_switch_tools.fleet.agent.candidate import Candidate
from bg_switch_tools.fleet.agent.fleet_lines import FleetLines
from bg_switch_tools.fleet.machine import line_table
from bg_switch_tools.fleet.machine.line_table import Known
from bg_switch_tools.fleet.machine.machine import Machine
from bg_switch_tools.fleet.plan.fleet_plan import FleetPlan
from bg_switch_tools.fleet.record import leader
from bg_switch_tools.fleet.record.leader import Decision, Votes, Waited, Write
from bg_switch_tools.fleet.record.record import PLAN, MachineReport, Record, View
from bg_switch_tools.fleet.store.store import Compare
from bg_switch_tools.switch.lines import Event, Line, Promote, Verdict
from bg_switch_tools.switch.phases import Phase
from bg_switch_tools.switch.reports import Report

Patch = contextlib.AbstractContextManager[object]


def without_compares(*names: str) -> Patch:
    """A leader that does not compare these keys, or keys below these prefixes."""
    compares_of = leader.compares_of

    def fewer(view: View, created: int, decision: Decision) -> tuple[Compare, ...]:
        return tuple(
            compare
            for compare in compares_of(view, created, decision)
            if not compare.name.startswith(names)
        )

    return mock.patch.object(leader, "compares_of", fewer)


def without_one_member() -> Patch:
    def are_enough(votes: Votes, max_missing: int) -> bool:
        return bool(votes.voters) and len(votes.awaited) <= 1

    return mock.patch.object(Votes, "are_enough", are_enough)


def alone() -> Patch:
    """An agent that promotes when it has lost the store."""
    line_of = FleetLines.next_line

    def or_promote(self: FleetLines, plan: Plan, report: Report) -> Line | None:
        is_alone = self.machine.read_at is None and report.phase is Phase.PAUSED
        return Promote() if is_alone else line_of(self, plan, report)

    return mock.patch.object(FleetLines, "next_line", or_promote)


def without_time_limit() -> Patch:
    """An agent whose promotes have no time limit."""

    def as_it_is(limit: float, line: Event) -> Event:
        return line

    return mock.patch.object(fleet_lines, "before", as_it_is)


def on_changes() -> Patch:
    """An agent that acts on each change of the record once, and not on the record."""
    line_of = Machine.permitted_line
    done: dict[Machine, Record] = {}

    def once(self: Machine, report: Report, now: float) -> Event | None:
        if self.record is None or done.get(self) == self.record or not self.is_fresh(now):
            return None
        line = line_of(self, report, now)
        if line is None:
            done[self] = self.record
        return line

    return mock.patch.object(Machine, "permitted_line", once)


@contextlib.contextmanager
def on_reads_of_any_age() -> Iterator[None]:
    """An agent that asks neither itself nor the switch how old its read is."""

    def is_fresh(self: Machine, now: float) -> bool:
        return self.record is not None

    with mock.patch.object(Machine, "is_fresh", is_fresh), without_time_limit():
        yield


def no_catch_up() -> Patch:
    def nothing(report: Report, known: Known) -> None:
        return None

    return mock.patch.object(line_table, "_catch_up", nothing)


def without_the_id() -> Patch:
    """An agent that takes the attempt of a revision for that of the record by its name alone."""

    def has_joined(self: Known, report: Report) -> bool:
        return report.newest.name == self.record.revision.name

    return mock.patch.object(Known, "has_joined", has_joined)


def back_by_permission() -> Patch:
    """An agent that hands a failed verdict in only if it has a fresh read."""
    may_hand_in = FleetLines.may_hand_in

    def by_permission(self: FleetLines, report: Report, verdict: Verdict, fault: str) -> bool:
        return self.machine.is_fresh(self.now()) and may_hand_in(self, report, verdict, fault)

    return mock.patch.object(FleetLines, "may_hand_in", by_permission)


def verdict_at_once() -> Patch:
    """An agent that does not hold the verdict after the switch back."""
    may_hand_in = FleetLines.may_hand_in

    def at_once(self: FleetLines, report: Report, verdict: Verdict, fault: str) -> bool:
        return may_hand_in(self, report, verdict, fault) or True

    return mock.patch.object(FleetLines, "may_hand_in", at_once)


def after_the_end() -> Patch:
    """A leader that goes on with an attempt that was aborted."""
    begin = leader._begin

    def again(view: View, plan: FleetPlan, record: Record) -> Decision | None:
        if record.stage == "aborted" and view.changed(PLAN) == record.id and "h1" in record.reason:
            return Decision(dataclasses.replace(record, stage="deploying", reason=""))
        return begin(view, plan, record)

    return mock.patch.object(leader, "_begin", again)


def refreshing_lapsed_leases() -> Patch:
    """An agent that refreshes its lease however late the store ends it."""

    def never(self: Lease) -> bool:
        return False

    return mock.patch.object(Lease, "_was_ended", never)


def waiting_for_lapsed_leads() -> Patch:
    """A candidate that waits until the store ends the lease of a leader, however late."""

    def nothing(self: Candidate, lease: int) -> None:
        return None

    return mock.patch.object(Candidate, "_end_lapsed", nothing)


def silent_about_orders() -> Patch:
    """A leader that drops orders without a word."""

    def nothing(self: Candidate, write: Write) -> None:
        return None

    return mock.patch.object(Candidate, "_tell_dropped", nothing)


def plan_first() -> Patch:
    """A leader that decides nothing while what stands is no plan."""
    decision_of = leader.decision_of

    def or_nothing(view: View, waited: Waited) -> Decision | None:
        return decision_of(view, waited) if view.standing_plan else None

    return mock.patch.object(leader, "decision_of", or_nothing)


def votes_for_any_leader() -> Patch:
    """A leader that counts reports which were written for the one before."""

    def is_current(self: View, report: MachineReport) -> bool:
        return True

    return mock.patch.object(View, "is_current", is_current)
