"""Thousands of histories of a fleet, by seeds: no rule is broken, and each planted fault is found
by the rule that it breaks.

python3 -m tests.test_fleet_simulation SEED.. shows the histories of these seeds.
"""
import collections
import json
import sys
import unittest
from collections.abc import Callable, Iterator
from unittest import mock

from bg_switch_tools.fleet.machine import machine
from bg_switch_tools.fleet.record.record import ATTEMPT, LEADER, MACHINES, MEMBERS, ORDER, PLAN
from bg_switch_tools.switch.replies import TOO_LATE
from tests.fleet_faults import (
    Patch,
    after_the_end,
    alone,
    back_by_permission,
    no_catch_up,
    on_changes,
    on_reads_of_any_age,
    plan_first,
    refreshing_lapsed_leases,
    silent_about_orders,
    verdict_at_once,
    votes_for_any_leader,
    waiting_for_lapsed_leads,
    without_compares,
    without_time_limit,
    without_one_member,
    without_the_id,
)
from tests.fleet_rules import broken
from tests.fleet_simulation import World, history

SEEDS = 500  # of each class of histories
MOST_PLANTED = 3000  # histories until a planted fault has to be found
# How often a history has to meet each of these on the average.
LEAST = {
    "deploying": 1,
    "promoting": 0.5,
    "successful": 1,
    "aborted": 0.5,
    "missing": 0.05,
    "promote": 1,
    "store lost": 1,
    "stopped": 0.1,
    "too late": 0.05,
    "failed": 0.2,
}
RETRY = 2.0  # seconds, in place of the agent's own, so that histories stay short


def told(world: World, faults: list[str]) -> str:
    return "\n".join(
        [world.told(), *faults, f"python3 -m tests.test_fleet_simulation {world.seed}"]
    )


class Histories(unittest.TestCase):
    """The first histories. The others have classes of their own, so that they run side by side."""

    first = 0

    def setUp(self) -> None:
        self.enterContext(mock.patch.object(machine, "RETRY", RETRY))

    def test_no_rule_is_broken(self) -> None:
        seen: collections.Counter[str] = collections.Counter()
        for seed in range(self.first, self.first + SEEDS):
            world = history(seed)
            faults = broken(world.trace)
            if faults:
                self.fail(told(world, faults))
            seen += counts(world)
        for what, least in LEAST.items():
            self.assertGreater(seen[what], least * SEEDS, f"{what}: {seen}")


class MoreHistories(Histories):
    first = 1000000


class OtherHistories(Histories):
    first = 2000000


class LastHistories(Histories):
    first = 3000000


def counts(world: World) -> collections.Counter[str]:
    """What a history has met."""
    records = [
        json.loads(change.value)
        for change in world.keys.changes
        if change.name == ATTEMPT and change.value
    ]
    found = collections.Counter(record["stage"] for record in records)
    found["missing"] = sum(bool(record["missing"]) for record in records)
    found["promote"] = len(world.trace.promotes)
    found["store lost"] = sum("cut off from the store" in line for line in world.lines)
    found["stopped"] = sum("is on its way" in line for line in world.lines)
    found["too late"] = sum(line.endswith(str(TOO_LATE)) for line in world.lines)
    found["failed"] = sum("failed => ok" in line or "error => ok" in line for line in world.lines)
    return found


class PlantedFaults(unittest.TestCase):
    """Each fault is found by the rule that it breaks."""

    def setUp(self) -> None:
        self.enterContext(mock.patch.object(machine, "RETRY", RETRY))

    def check(self, plant: Callable[[], Patch], rule: str) -> None:
        for seed in range(MOST_PLANTED):
            with plant():
                if any(fault.startswith(rule) for fault in broken(history(seed).trace)):
                    return
        self.fail(f"{MOST_PLANTED} histories have not found it")

    def test_promoting_without_one_member(self) -> None:
        self.check(without_one_member, "rule 1: promoting was written")

    def test_promoting_alone_when_the_store_is_lost(self) -> None:
        self.check(alone, "rule 1: h")

    def test_promoting_without_the_id_of_the_attempt(self) -> None:
        self.check(without_the_id, "rule 1: h")

    def test_a_verdict_that_is_not_held_back(self) -> None:
        self.check(verdict_at_once, "rule 1: h")

    def test_lines_on_reads_of_any_age(self) -> None:
        self.check(on_reads_of_any_age, "rule 2: h")

    def test_promotes_that_the_switch_carries_out_however_late(self) -> None:
        self.check(without_time_limit, "rule 2: h")

    def test_an_attempt_that_goes_on_after_its_end(self) -> None:
        self.check(after_the_end, "rule 2: attempt")

    def test_a_leader_without_compares(self) -> None:
        self.check(lambda: without_compares(""), "rule 3")

    def test_a_leader_without_the_compare_of_its_key(self) -> None:
        self.check(lambda: without_compares(LEADER), "rule 3")

    def test_a_leader_without_the_compare_of_the_attempt(self) -> None:
        self.check(lambda: without_compares(ATTEMPT, LEADER), "rule 3")

    def test_a_leader_without_the_compare_of_the_plan(self) -> None:
        self.check(lambda: without_compares(PLAN), "rule 3")

    def test_a_leader_without_the_compare_of_the_reports(self) -> None:
        self.check(lambda: without_compares(MACHINES), "rule 3")

    def test_a_leader_without_the_compare_of_the_members(self) -> None:
        self.check(lambda: without_compares(MEMBERS), "rule 3")

    def test_votes_for_an_earlier_leader(self) -> None:
        self.check(votes_for_any_leader, "rule 1: ")

    def test_a_leader_without_the_compare_of_the_order(self) -> None:
        self.check(lambda: without_compares(ORDER), "rule 7: ")

    def test_a_leader_that_drops_orders_without_a_word(self) -> None:
        self.check(silent_about_orders, "rule 7: the order")

    def test_a_leader_that_decides_nothing_without_a_plan(self) -> None:
        self.check(plan_first, "rule 8")

    def test_an_agent_that_refreshes_its_lapsed_lease(self) -> None:
        self.check(refreshing_lapsed_leases, "rule 4")

    def test_a_candidate_that_waits_for_a_lapsed_lead(self) -> None:
        self.check(waiting_for_lapsed_leads, "rule 8")

    def test_no_catch_up(self) -> None:
        self.check(no_catch_up, "rule 4")

    def test_acting_on_changes_instead_of_states(self) -> None:
        self.check(on_changes, "rule 4")

    def test_going_back_by_permission(self) -> None:
        self.check(back_by_permission, "rule 6")


def shown(seeds: Iterator[int]) -> None:
    with mock.patch.object(machine, "RETRY", RETRY):
        for seed in seeds:
            world = history(seed)
            print(told(world, broken(world.trace)))


if __name__ == "__main__":
    if sys.argv[1:]:
        shown(map(int, sys.argv[1:]))
    else:
        unittest.main()
