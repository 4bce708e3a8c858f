"""An agent at rest: what begins a rest, what ends it, and what is read in it.

Each rule has a check that an agent passes, and does not pass once the rule is taken away.
"""
import dataclasses
import math
import threading
import time
import unittest
from collections.abc import Callable, Mapping, Sequence
from typing import NamedTuple
from unittest import mock

from bg_switch_tools.fleet.agent import agent, rest
from bg_switch_tools.fleet.agent.agent import Lease
from bg_switch_tools.fleet.agent.candidate import Candidate, Clocks
from bg_switch_tools.fleet.agent.rest import UNREST, Standing
from bg_switch_tools.fleet.agent.wake import Wake
from bg_switch_tools.fleet.record.record import (
    ABORTED,
    ATTEMPT,
    LEADER,
    ORDER,
    PLAN,
    View,
    read_machine_report,
)
from bg_switch_tools.fleet.store.store import Store, StoreError
from bg_switch_tools.switch.before import boot_clock
from tests import rest_faults
from tests.fleet_faults import Patch
from tests.fleet_processes import LEASE, LONGEST, FleetProcessCase
from tests.memory_store import Keys, MemoryStore
from tests.synthetic_fleet import V1, V2, SyntheticFleet
from tests.test_fleet_agent import FleetCase
from tests.test_fleet_line_table import report

QUIET = 0.6  # seconds without a read, which an agent that does not rest never has
# For how many seconds something is awaited that a planted fault prevents for a minute: `TIMES` as long as
# it took without the fault in the same run, and `PLANTED` at least.
TIMES, PLANTED = 3, 1.0
PAUSE = 0.02  # seconds between two looks at it
SMALL = 0.3  # seconds
# Seconds by which a busy machine is not late, which would end a rest too; three of them are below the
# bound of a rest.
PATIENT = 10.0


class RestCase(FleetProcessCase):
    """An agent of a fleet that has web-v1 live, and nothing to do."""

    # for how many seconds something is awaited in vain; None if it is to come
    in_vain: float | None = None
    seconds = 0.0  # that what was awaited last took

    def setUp(self) -> None:
        super().setUp()
        self.process = self.begun()

    def comes(self, holds: Callable[[], object], what: str) -> None:
        """Something comes to hold, before the bound of a rest is over."""
        begun = time.monotonic()
        if self.in_vain is None:
            self.await_that(holds, what)
        else:
            while not holds():
                if time.monotonic() > begun + self.in_vain:
                    self.fail(f"in {self.in_vain:.1f} seconds it did not come that {what}")
                time.sleep(PAUSE)
        self.seconds = time.monotonic() - begun

    def is_quiet(self) -> bool:
        """Whether nothing is read for a while."""
        reads = self.network.reads
        time.sleep(QUIET)
        return self.network.reads == reads

    def rests(self) -> None:
        self.await_that(self.is_quiet, "the agent rests")

    def reads_again(self) -> None:
        reads = self.network.reads
        self.comes(lambda: self.network.reads > reads, "the agent reads")

    def hears_log(self, text: str) -> None:
        self.comes(lambda: text in self.out.getvalue(), f"the log has {text!r}")

    def hears(self) -> None:
        """A change is heard of: its watch does not hang."""
        self.put(self.v1, self.v2)
        self.comes(lambda: self.stage() == "web-v2 successful", "the agent hears of a plan")


# ---- what ends a rest, at an agent with threads ----


def nothing(case: RestCase) -> None:
    case.comes(case.is_quiet, "the agent rests")


def a_change(case: RestCase) -> None:
    case.rests()
    case.hears()


def the_end_of_a_watch(case: RestCase) -> None:
    case.rests()
    case.network.breaks = True
    case.reads_again()
    case.network.breaks = False


def the_bound(case: RestCase) -> None:
    """A member of the store gives no events, and nothing else tells it."""
    with mock.patch.object(rest, "BOUND", 3 * QUIET):
        case.rests()
        case.network.hangs = True
        case.reads_again()


def lost_renewals(store: Store) -> Patch:
    """The store renews leases, and its answers are lost. So no lease ends, and nothing but the failed
    renewal tells an agent that something is wrong."""
    refresh = store.refresh

    def lost(lease: int) -> int:
        refresh(lease)
        raise StoreError("it is away")

    return mock.patch.object(store, "refresh", lost)


def a_renewal_that_fails(case: RestCase) -> None:
    case.rests()
    case.network.hangs = True
    with lost_renewals(case.process.agent.store):
        case.hears_log("the store gives no answer, so nothing is switched here")


def a_renewal_of_a_leader_that_fails(case: RestCase) -> None:
    case.rests()
    case.network.hangs = True
    with lost_renewals(case.process.candidate.store):
        case.reads_again()


def a_cut_that_is_mended(case: RestCase) -> None:
    """The watch that was begun while nothing answered hangs, also once the store answers."""
    case.rests()
    case.network.silence = 0.0
    case.await_log("the store gives no answer, so nothing is switched here")
    case.await_log("the store gives no answer to the candidate")
    time.sleep(QUIET)  # in which the watch is begun anew that was doubted
    case.network.silence = None
    case.await_log("the store answers again")
    case.hears()


def a_read_that_has_failed(case: RestCase) -> None:
    """No renewal was due meanwhile, and the watch hangs since."""
    case.rests()
    case.network.hangs = True
    away = StoreError("it is away")
    with mock.patch.object(case.process.agent.store, "read", side_effect=away), mock.patch.object(
        case.process.agent.lease, "hold", lambda: True
    ):
        case.process.turns.wake.wake()
        case.await_log("the store gives no answer, so nothing is switched here")
    case.network.hangs = False
    case.await_log("the store answers again")
    case.hears()


def a_renewal_that_is_late(case: RestCase) -> None:
    """Nothing fails, and the watch hangs by what delays the renewal."""
    late: float = getattr(agent, "LATE")
    with mock.patch.object(agent, "LATE", late if math.isinf(late) else SMALL):
        case.rests()
        case.network.hangs, case.network.delay = True, 3 * SMALL
        time.sleep(LEASE / 2)
        case.network.hangs, case.network.delay = False, 0.0
        case.hears()


def a_lease_that_has_ended(case: RestCase) -> None:
    """The watch hangs, so that nobody tells it."""
    case.rests()
    case.network.hangs = True
    case.network.keys.end(case.process.agent.lease.number)
    case.comes(lambda: case.told_is("follows"), "it reports again")


def a_stop_of_the_process(case: RestCase) -> None:
    """The clock jumps between two renewals, and the watch hangs since."""
    case.rests()
    jump = [0.0]
    with mock.patch.object(case.process.turns.rest, "now", lambda: boot_clock() + jump[0]):
        time.sleep(QUIET)
        case.network.hangs = True
        jump[0] = 3 * rest.LATE
        case.reads_again()


def rounds_that_hang(case: RestCase) -> None:
    """The lease ends: an agent that hangs is away."""
    case.rests()
    going_on, do_round = threading.Event(), case.process.rounds.do_round

    def hang() -> tuple[str | None, float]:
        going_on.wait(LONGEST)
        return do_round()

    with mock.patch.object(case.process.rounds, "do_round", hang):
        case.comes(lambda: case.told() is None, "it is away")
        going_on.set()


def a_line_by_hand(case: RestCase) -> None:
    """Somebody deploys a revision at the switch, and etcd tells nobody."""
    case.rests()
    case.network.hangs = True
    case.switch.book.answer(f"deploy {case.v2.words}")
    case.comes(lambda: "abort" in case.own_lines(), "the agent takes it back")


class Rule(NamedTuple):
    """A check, and the fault that takes the rule away which it is for."""

    check: Callable[[RestCase], None]
    plant: Callable[[], Patch]


RULES: Mapping[str, Rule] = {
    "rests": Rule(nothing, rest_faults.without_rest),
    "watch": Rule(a_change, rest_faults.deaf_to_events),
    "end of the watch": Rule(the_end_of_a_watch, rest_faults.blind_to_the_end_of_a_watch),
    "bound": Rule(the_bound, rest_faults.without_a_bound),
    "failed renewal": Rule(a_renewal_that_fails, rest_faults.on_failed_renewals),
    "failed renewal of a leader": Rule(
        a_renewal_of_a_leader_that_fails, rest_faults.leading_on_failed_renewals
    ),
    "first renewal after it": Rule(a_cut_that_is_mended, rest_faults.on_the_watch_of_before),
    "first read after one that failed": Rule(
        a_read_that_has_failed, rest_faults.on_the_watch_of_a_failed_read
    ),
    "late renewal": Rule(a_renewal_that_is_late, rest_faults.on_late_renewals),
    "lease": Rule(a_lease_that_has_ended, rest_faults.on_leases_that_were_granted_anew),
    "stopped process": Rule(a_stop_of_the_process, rest_faults.on_a_clock_that_jumps),
    "rounds": Rule(rounds_that_hang, rest_faults.without_rounds),
    "report": Rule(a_line_by_hand, rest_faults.blind_to_its_switch),
}


class InTurn(RestCase):
    """Checks of all rules, on a fresh fleet each."""

    def fresh(self, in_vain: float | None = None) -> None:
        self.doCleanups()
        self.in_vain = in_vain
        self.setUp()


class Ends(InTurn):
    """Each rule holds, and is missed once it is taken away."""

    def check_rules(self, names: Sequence[str]) -> None:
        for name in names:
            with self.subTest(name):
                self.fresh()
                RULES[name].check(self)
                self.check_missed(RULES[name])

    def check_missed(self, rule: Rule) -> None:
        in_vain = max(PLANTED, TIMES * self.seconds)
        with mock.patch.object(agent, "LATE", PATIENT), mock.patch.object(
            rest, "LATE", PATIENT
        ), rule.plant():
            self.fresh(in_vain)
            with self.assertRaisesRegex(AssertionError, "it did not come that"):
                rule.check(self)

    def test_each_second_rule(self) -> None:
        self.check_rules(list(RULES)[::2])


class OtherEnds(Ends):
    def test_each_second_rule(self) -> None:
        self.check_rules(list(RULES)[1::2])


# ---- what begins a rest ----

# By the name of what is to be done: what brings it about in a fleet at rest.
BUSY: Mapping[str, Callable[[SyntheticFleet], object]] = {
    "an attempt runs": lambda fleet: fleet.begin(),
    "another plan waits": lambda fleet: fleet.put_plan(V1, V2),
    "an order stands": lambda fleet: fleet.order("abort"),
    "nobody leads": lambda fleet: fleet.delete(LEADER),
}


class Begins(unittest.TestCase):
    def setUp(self) -> None:
        self.fleet = SyntheticFleet()

    def is_at_rest(self) -> bool:
        return rest.is_at_rest(View(self.fleet.store.read()))

    def test_a_fleet_at_rest(self) -> None:
        self.assertTrue(self.is_at_rest())
        self.fleet.leave("web-2")
        self.assertTrue(self.is_at_rest(), "a member that is away changes nothing")

    def test_each_thing_that_is_to_be_done(self) -> None:
        self.assertEqual(set(BUSY), set(UNREST))
        for name, happens in BUSY.items():
            with self.subTest(name):
                self.fleet = SyntheticFleet()
                happens(self.fleet)
                self.assertFalse(self.is_at_rest())

    def test_each_thing_is_missed_without_its_rule(self) -> None:
        for name, happens in BUSY.items():
            with self.subTest(name), rest_faults.while_there_is(name):
                self.fleet = SyntheticFleet()
                happens(self.fleet)
                self.assertTrue(self.is_at_rest())

    def test_what_cannot_be_read(self) -> None:
        """A plan that can't be read does not end a rest: nothing follows from it. What follows from
        a record that can't be read, nobody knows."""
        self.fleet.put(**{PLAN: "{"})
        self.assertTrue(self.is_at_rest())
        self.fleet.put(**{ORDER: "{"})
        self.assertFalse(self.is_at_rest())
        self.fleet.delete(ORDER)
        self.fleet.put(**{ATTEMPT: "{"})
        self.assertFalse(self.is_at_rest())
        self.fleet.delete(ATTEMPT)
        self.assertFalse(self.is_at_rest())


class OneMachine(FleetCase):
    """The machine a of a fleet whose attempt is over."""

    def setUp(self) -> None:
        super().setUp()
        self.put(ABORTED)
        self.person.write([], {"leader": "b", "members/a": ""})
        self.report = report("aborted", "web-v1", "web-v2")
        self.agent.read()
        self.agent.tell(self.report)
        self.agent.read()

    def may_rest(self) -> bool:
        """Whether it may, by a read of now and what it would report."""
        read = self.agent.fetch()
        assert read.snapshot
        text = self.agent.text(self.report)
        self.agent.take(read)
        return self.agent.may_rest(read.snapshot, text)

    def unwritten(self) -> None:
        self.report = report("aborted", "web-v1", "web-v2", available=0)

    def of_another_lease(self) -> None:
        """As an agent has it that was started again."""
        self.keys.last_lease += 5
        self.agent.lease.number = self.agent.store.grant(10)

    def told_to_another(self) -> None:
        """Another one leads since, and the machine has not told it yet."""
        self.person.write([], {}, ["leader"])
        self.person.write([], {"leader": "c"})

    def of_another_machine(self) -> None:
        key = self.keys.keys["machines/a"]
        told = dataclasses.replace(read_machine_report(key.value), machine="m2")
        self.person.write([], {"machines/a": told.text()}, lease=self.agent.lease.number)

    def behind(self) -> None:
        """Its switch has another stable revision than the fleet."""
        self.report = report("steady", "web-v0", "web-v0")
        self.agent.tell(self.report)

    CASES: Mapping[str, Callable[[], Patch]] = {
        "unwritten": rest_faults.before_the_report_is_written,
        "of_another_lease": rest_faults.before_the_report_is_written,
        "of_another_machine": rest_faults.before_the_report_is_written,
        "told_to_another": rest_faults.whatever_leads,
        "behind": rest_faults.whatever_it_does,
    }

    def test_a_machine_that_follows_may_rest(self) -> None:
        self.assertTrue(self.may_rest())

    def test_what_keeps_it_from_rest(self) -> None:
        for name in self.CASES:
            with self.subTest(name):
                self.setUp()
                getattr(self, name)()
                self.assertFalse(self.may_rest())

    def test_each_is_missed_without_its_rule(self) -> None:
        for name, plant in self.CASES.items():
            with self.subTest(name), plant():
                self.setUp()
                getattr(self, name)()
                self.assertTrue(self.may_rest())

    def test_a_candidate_rests_by_its_latest_read(self) -> None:
        said: list[str] = []
        candidate = Candidate(
            "a",
            MemoryStore(self.keys, "a"),
            lambda _, text: said.append(text),
            Clocks(lambda: self.time),
        )
        self.assertFalse(candidate.may_rest())
        candidate.do_round()
        self.assertTrue(candidate.may_rest())
        self.assertEqual((candidate.due(), candidate.lease.number), (math.inf, 0), "it leads not")
        candidate.store.is_cut = True  # type: ignore[attr-defined]
        candidate.do_round()
        self.assertFalse(candidate.may_rest())


class Gaps(unittest.TestCase):
    """When a lease tells that the store was not reached for a while."""

    def setUp(self) -> None:
        self.time = 0.0
        self.keys = Keys(lambda: self.time)
        self.store = MemoryStore(self.keys, "a")
        self.lease = Lease(self.store, lambda: self.time, 10)
        self.lease.hold()

    def test_renewals_in_time(self) -> None:
        with mock.patch.object(self.store, "seconds_left", side_effect=AssertionError):
            for _ in range(20):
                self.time += 2.5
                self.assertEqual(self.lease.due(), 0)
                self.assertTrue(self.lease.hold())
                self.assertEqual(self.lease.due(), 2.5)
        self.assertEqual(self.lease.gaps, 0)

    def test_the_first_one_after_one_that_has_failed(self) -> None:
        self.time += 2.5
        self.store.is_cut = True
        with self.assertRaises(StoreError):
            self.lease.hold()
        self.assertTrue(self.lease.has_failed)
        self.store.is_cut = False
        self.assertTrue(self.lease.hold())
        self.assertEqual((self.lease.gaps, self.lease.has_failed), (1, False))
        self.time += 2.5
        self.lease.hold()
        self.assertEqual(self.lease.gaps, 1)

    def test_one_that_is_late(self) -> None:
        self.time += 2.5 + rest.LATE
        self.lease.hold()
        self.assertEqual(self.lease.gaps, 0)
        self.time += 2.6 + rest.LATE
        self.lease.hold()
        self.assertEqual(self.lease.gaps, 1)

    def test_an_answer_that_is_late(self) -> None:
        refresh = self.store.refresh

        def slow(lease: int) -> int:
            self.time += rest.LATE + 0.1
            return refresh(lease)

        self.time += 2.5
        with mock.patch.object(self.store, "refresh", slow):
            self.lease.hold()
        self.assertEqual(self.lease.gaps, 1)

    def test_one_that_was_granted_anew(self) -> None:
        self.keys.end(self.lease.number)
        self.time += 2.5
        self.assertFalse(self.lease.hold())
        self.assertEqual(self.lease.gaps, 1)


class Watches(unittest.TestCase):
    def setUp(self) -> None:
        self.standing, self.cuts = Standing(), list[str]()
        self.wake = Wake()
        self.standing.wakes = (self.wake,)

    def is_woken(self) -> bool:
        return self.wake.wait(0)

    def test_what_it_covers(self) -> None:
        self.assertFalse(self.standing.covers(5))
        self.standing.begin(5, lambda: None)
        self.assertEqual([self.standing.covers(at) for at in (4, 5, 6)], [False, True, True])
        self.assertFalse(self.is_woken())

    def test_its_end(self) -> None:
        self.standing.end()
        self.assertFalse(self.is_woken(), "none stood")
        self.standing.begin(5, lambda: self.cuts.append("cut"))
        self.standing.end()
        self.assertEqual((self.standing.covers(5), self.is_woken(), self.cuts), (False, True, []))

    def test_a_doubt(self) -> None:
        self.standing.begin(5, lambda: self.cuts.append("cut"))
        self.standing.doubt()
        self.assertEqual(
            (self.standing.covers(5), self.is_woken(), self.cuts), (False, True, ["cut"])
        )
        self.standing.doubt()
        self.assertEqual((self.is_woken(), self.cuts), (True, ["cut"]))


if __name__ == "__main__":
    unittest.main()
