"""Planted faults of the rest of an agent: each is a patch that takes one rule of the rest away."""
import math
from unittest import mock

from bg_switch_tools.fleet.agent import agent, rest
from bg_switch_tools.fleet.agent.agent import FleetAgent, Lease
from bg_switch_tools.fleet.agent.candidate import Candidate
from bg_switch_tools.fleet.agent.handover import Handover
from bg_switch_tools.fleet.agent.rest import Rest, Standing
from bg_switch_tools.fleet.agent.store_threads import StoreTurns
from bg_switch_tools.fleet.record.record import MachineReport
from tests.fleet_faults import Patch


def without_rest() -> Patch:
    """An agent that reads again and again."""
    return mock.patch.object(Standing, "covers", lambda self, revision: False)


def deaf_to_events() -> Patch:
    """An agent that is not woken by its watch, and does not see that it has ended."""
    return mock.patch.multiple(Standing, end=lambda self: None, wake=lambda self: None)


def blind_to_the_end_of_a_watch() -> Patch:
    """An agent that takes a watch that has ended for one that stands."""
    return mock.patch.object(Standing, "end", lambda self: None)


def without_a_bound() -> Patch:
    return mock.patch.object(Rest, "end", lambda self: math.inf)


def on_failed_renewals() -> Patch:
    """An agent, and a leader, that rest on while their leases cannot be renewed."""
    keep = FleetAgent.keep

    def or_rest(self: FleetAgent) -> bool:
        return keep(self) or self.lease.has_failed

    return mock.patch.object(FleetAgent, "keep", or_rest)


def leading_on_failed_renewals() -> Patch:
    keep = Candidate.keep

    def or_rest(self: Candidate) -> bool:
        return keep(self) or self.lease.has_failed

    return mock.patch.object(Candidate, "keep", or_rest)


def on_the_watch_of_before() -> Patch:
    """An agent that keeps its watch when the store answers again."""
    do_turn = StoreTurns.do_turn

    def with_gaps_seen(self: StoreTurns) -> bool:
        with mock.patch.object(self.rest.standing, "doubt", lambda: None):
            return do_turn(self)

    return mock.patch.object(StoreTurns, "do_turn", with_gaps_seen)


def on_the_watch_of_a_failed_read() -> Patch:
    """An agent that keeps its watch when a read succeeds after one that has failed."""
    doubt = StoreTurns._doubt

    def by_renewals(self: StoreTurns) -> None:
        self.has_failed = False
        doubt(self)

    return mock.patch.object(StoreTurns, "_doubt", by_renewals)


def on_late_renewals() -> Patch:
    return mock.patch.object(agent, "LATE", math.inf)


def on_leases_that_were_granted_anew() -> Patch:
    """An agent that rests on although its lease had ended."""
    hold = Lease.hold

    def as_before(self: Lease) -> bool:
        gaps = self.gaps
        is_kept = hold(self)
        self.gaps = gaps if not is_kept else self.gaps
        return is_kept

    return mock.patch.object(Lease, "hold", as_before)


def on_a_clock_that_jumps() -> Patch:
    return mock.patch.object(Rest, "was_stopped", lambda self, due: False)


def without_rounds() -> Patch:
    """An agent that keeps its lease at rest whether or not its rounds hang."""
    return mock.patch.object(Handover, "await_round", lambda self, rounds: None)


def blind_to_its_switch() -> Patch:
    """An agent that rests on although its machine reports something else."""
    finish = Handover.finish

    def in_silence(self: Handover, text: str | None) -> bool:
        finish(self, text)
        return False

    return mock.patch.object(Handover, "finish", in_silence)


def before_the_report_is_written() -> Patch:
    return mock.patch.object(FleetAgent, "is_written", lambda self, view, text: True)


def whatever_leads() -> Patch:
    """An agent that rests on a report that was told to another leader."""

    def follows(self: FleetAgent, view: object) -> bool:
        return True

    return mock.patch.object(FleetAgent, "follows", follows)


def whatever_it_does() -> Patch:
    """An agent that rests while its machine catches up."""
    return mock.patch.object(MachineReport, "follows", lambda self, record: True)


def while_there_is(what: str) -> Patch:
    """An agent that rests while there is this to be done."""
    left = {name: holds for name, holds in rest.UNREST.items() if name != what}
    return mock.patch.object(rest, "UNREST", left)
