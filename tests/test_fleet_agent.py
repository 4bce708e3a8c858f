"""The agent and the candidate of a machine at a store in memory, one round after the other."""
import dataclasses
import json
import unittest
from collections.abc import Callable
from unittest import mock

from bg_switch_tools.controller.plan.plan import PlannedRevision
from bg_switch_tools.fleet.agent.agent import FleetAgent
from bg_switch_tools.fleet.agent.candidate import Candidate, Clocks, Pending
from bg_switch_tools.fleet.machine.line_table import Joined
from bg_switch_tools.fleet.machine.machine import FRESH, RETRY, Machine
from bg_switch_tools.fleet.machine.machine_state import MachineState
from bg_switch_tools.fleet.plan.fleet_plan import MachineSettings, read_stored_plan
from bg_switch_tools.fleet.record.record import (
    ABORTED,
    DEPLOYING,
    FAILED,
    PROMOTING,
    READY,
    SUCCESSFUL,
    WORKING,
    MachineReport,
    Record,
    View,
    read_machine_report,
)
from bg_switch_tools.fleet.store.store import Compare, Snapshot, StoreError
from bg_switch_tools.switch.lines import Abort, Deploy, Line, Promote, Retry
from bg_switch_tools.switch.reports import Report
from tests.memory_store import Keys, MemoryStore
from tests.test_fleet_line_table import report

V1, V2 = PlannedRevision("web-v1", (9101,)), PlannedRevision("web-v2", (9201,))
SETTINGS = MachineSettings(8082, {"errors": ("./errors.sh",)})
DEPLOY = Deploy(V2.name, V2.ports)
PAUSED = report("paused", "web-v1", "web-v2")


def plan_text(**members: object) -> str:
    return json.dumps(
        {
            "revisions": [{"name": one.name, "ports": list(one.ports)} for one in (V1, V2)],
            "analyses": {"post": "errors"},
            **members,
        }
    )


class SlowStore(MemoryStore):
    """A store whose reads take some time."""

    def __init__(self, keys: Keys, client: str, late: Callable[[], None]) -> None:
        super().__init__(keys, client)
        self.late = late

    def read(self) -> Snapshot:
        self.late()
        return super().read()


class FleetCase(unittest.TestCase):
    """A store with a plan and a record that runs, and the machine a, on a clock that a test
    sets."""

    def setUp(self) -> None:
        self.time = 100.0
        self.keys = Keys(lambda: self.time)
        self.person = MemoryStore(self.keys, "person")
        self.said: list[str] = []
        self.kept = MachineState()
        self.person.write([], {"plan": plan_text()})
        self.plan_id = self.keys.revision
        self.put(PROMOTING)
        self.agent = self.new_agent()

    def pass_time(self) -> None:
        self.time += 0.9

    def put(self, stage: str, record_id: int = 0) -> None:
        self.person.write([], {"attempt": Record(record_id or self.plan_id, V2, V1, stage).text()})

    def keep(self, state: MachineState) -> None:
        self.kept = state

    def new_agent(self, machine: str = "m1", settings: MachineSettings = SETTINGS) -> FleetAgent:
        made = Machine("a", machine, settings, self.keep, self.kept)
        return FleetAgent(
            made,
            MemoryStore(self.keys, f"a on {machine}"),
            lambda _, text: self.said.append(text),
            lambda: self.time,
        )

    def join(self, agent: FleetAgent) -> None:
        """The switch has carried out the deploy of the record's revision."""
        agent.read()
        steady = report("steady", "web-v1", "web-v1")
        agent.machine.take_reply(DEPLOY, True, "ok 0", steady, self.time)

    def told(self) -> MachineReport:
        return read_machine_report(self.keys.keys["machines/a"].value)

    def cut(self, agent: FleetAgent, is_cut: bool = True) -> None:
        assert isinstance(agent.store, MemoryStore)
        agent.store.is_cut = is_cut


class Freshness(FleetCase):
    def line(self, told: Report = PAUSED) -> Line | None:
        return self.agent.machine.permitted_line(told, self.time)

    def test_a_promote_rests_on_a_fresh_read(self) -> None:
        self.join(self.agent)
        self.assertEqual(self.line(), Promote())
        self.time += FRESH - 0.01
        self.assertEqual(self.line(), Promote())
        self.time += 0.01
        self.assertIsNone(self.line())
        self.agent.read()
        self.assertEqual(self.line(), Promote())

    def test_a_read_counts_from_its_begin(self) -> None:
        self.join(self.agent)
        self.agent.store = SlowStore(self.keys, "a", self.pass_time)
        self.agent.read()
        self.time += 0.2
        self.assertIsNone(self.line())

    def test_without_the_store_everything_stays_as_it_is(self) -> None:
        self.join(self.agent)
        self.cut(self.agent)
        self.agent.read()
        for phase in ("scaling", "paused", "postAnalysis", "aborted"):
            self.assertIsNone(self.line(report(phase, "web-v1", "web-v2")))
        self.assertIsNone(self.line(report("steady", "web-v1", "web-v1")))

    def test_going_back_needs_no_fresh_read(self) -> None:
        self.join(self.agent)
        self.put(ABORTED)
        self.agent.read()
        self.cut(self.agent)
        self.time += 60
        self.agent.read()
        self.assertEqual(self.line(report("postAnalysis", "web-v1", "web-v2")), Abort())
        # a person's, who may have no other way
        self.assertIsNone(self.line(report("paused", "web-v1", "web-v3")))

    def test_the_store_is_told_once(self) -> None:
        self.agent.read()
        self.cut(self.agent)
        for _ in range(3):
            self.time += 5
            self.agent.read()
        self.cut(self.agent, False)
        self.agent.read()
        self.assertEqual(
            self.said,
            [
                "the store gives no answer, so nothing is switched here: it is away",
                "the lease of the machine had ended: the fleet has taken it as away",
                "the store answers again, after 10 seconds",
            ],
        )


class Kept(FleetCase):
    def test_an_agent_that_is_started_again_goes_on(self) -> None:
        self.join(self.agent)
        again = self.new_agent()
        self.assertEqual(again.machine.joined, Joined("c1", self.plan_id, "web-v2"))
        self.assertEqual(again.machine.to_open(), V1)
        self.assertIsNone(again.machine.permitted_line(PAUSED, self.time))
        again.read()
        self.assertEqual(again.machine.permitted_line(PAUSED, self.time), Promote())

    def test_another_etcd_counts_anew(self) -> None:
        self.join(self.agent)
        self.keys.cluster = "c2"
        self.agent.read()
        self.assertEqual(self.agent.machine.permitted_line(PAUSED, self.time), Abort())

    def test_a_book_that_is_gone_has_joined_nothing(self) -> None:
        self.join(self.agent)
        self.agent.machine.lose_book()
        self.assertEqual(self.kept.joined, Joined())
        self.assertEqual(
            self.agent.machine.permitted_line(report("steady", "web-v1", "web-v1"), self.time),
            DEPLOY,
        )

    def test_a_refused_line_joins_nothing(self) -> None:
        self.agent.read()
        self.agent.machine.take_reply(
            DEPLOY,
            False,
            "refused PortsDiffer",
            report("steady", "web-v1", "web-v1"),
            self.time,
        )
        self.assertEqual(self.kept.joined, Joined())
        self.agent.tell(report("steady", "web-v1", "web-v1"))
        self.assertEqual(
            (self.told().state, self.told().reason),
            (WORKING, "deploy web-v2 9201: refused PortsDiffer"),
        )

    def test_what_has_passed_is_kept_for_its_phase(self) -> None:
        self.join(self.agent)
        self.agent.machine.take_passed()
        post = report("postAnalysis", "web-v1", "web-v2")
        self.assertTrue(self.kept.joined.has_passed)
        self.assertEqual(self.agent.machine.why_not_judged(post, self.time), "it has passed")
        self.agent.machine.take_report(post, self.time)
        self.assertTrue(self.kept.joined.has_passed)
        self.agent.machine.take_report(report("aborted", "web-v1", "web-v2"), self.time)
        self.assertFalse(self.kept.joined.has_passed)

    def test_without_an_analysis_it_has_passed(self) -> None:
        self.person.write([], {"plan": plan_text(analyses={})})
        self.join(self.agent)
        self.agent.machine.take_report(report("postAnalysis", "web-v1", "web-v2"), self.time)
        self.assertTrue(self.kept.joined.has_passed)

    def test_what_has_failed_here_alone_begins_again(self) -> None:
        self.put(SUCCESSFUL)
        self.join(self.agent)
        aborted = report("aborted", "web-v1", "web-v2")
        self.agent.machine.take_report(aborted, self.time)
        self.assertIsNone(self.agent.machine.permitted_line(aborted, self.time))
        self.time += RETRY
        self.agent.read()
        self.agent.machine.take_report(aborted, self.time)
        self.assertEqual(self.agent.machine.permitted_line(aborted, self.time), Retry())

    def test_a_wrong_plan_leaves_the_one_before(self) -> None:
        self.agent.read()
        before = self.agent.machine.plan()
        self.person.write([], {"plan": "{"})
        self.put(ABORTED)
        self.agent.read()
        self.assertEqual(
            (self.agent.machine.plan(), self.kept.record),
            (before, Record(self.plan_id, V2, V1, ABORTED)),
        )
        self.assertIn("the plan before is used: the plan is wrong: it is not JSON", self.said[-1])

    def test_a_record_of_another_version_is_not_acted_on(self) -> None:
        self.join(self.agent)
        self.person.write([], {"attempt": json.dumps({"version": 2})})
        self.agent.read()
        self.assertIsNone(self.agent.machine.permitted_line(PAUSED, self.time))
        self.assertIn("its version is 2", self.said[-1])


class KnowsNothing(FleetCase):
    """Before the first read that can be used, an agent changes nothing."""

    def machine(self) -> Machine:
        return Machine("a", "m1", SETTINGS, self.keep)

    def check(self, machine: Machine) -> None:
        machine.take_report(PAUSED, self.time)
        self.assertEqual(
            (machine.plan(), machine.fleet_plan, machine.record, machine.to_open()),
            (None, None, None, None),
        )
        self.assertEqual(
            (machine.permitted_line(PAUSED, self.time), machine.coming(PAUSED, self.time)),
            (None, None),
        )
        self.assertEqual(
            machine.why_not_judged(PAUSED, self.time), "the record of the fleet is not known yet"
        )
        machine.take_reply(Retry(), True, "ok 0", PAUSED, self.time)
        self.assertEqual((machine.joined, self.kept), (Joined(), MachineState()))
        told = machine.report(PAUSED, self.time)
        self.assertEqual(
            (told.attempt, told.state, told.phase, told.stable), (0, WORKING, "paused", "web-v1")
        )

    def test_without_a_read(self) -> None:
        self.check(self.machine())

    def test_with_a_plan_alone(self) -> None:
        self.person.write([], {}, ["attempt"])
        machine = self.machine()
        machine.take_read(self.person.read(), self.time)
        self.check(machine)

    def test_with_a_record_alone(self) -> None:
        """A record of the version before keeps no plan: the machine waits for one."""
        self.person.write([], {}, ["plan"])
        machine = self.machine()
        machine.take_read(self.person.read(), self.time)
        self.assertEqual((machine.plan(), machine.to_open()), (None, V1))
        self.assertEqual(machine.fault, "the plan before is used: there is no plan")

    def test_with_a_record_that_keeps_its_plan(self) -> None:
        """A machine without files goes on by the plan of the attempt, whatever the plan's key
        holds."""
        record = View(self.person.read()).record
        assert record is not None
        kept = read_stored_plan(plan_text(fleet={"promoting_seconds": 7}))
        for value in ("{", ""):
            for stage in (PROMOTING, ABORTED):
                text = dataclasses.replace(record, stage=stage, plan=kept).text()
                self.person.write([], {"attempt": text, "plan": value})
                if not value:
                    self.person.write([], {}, ["plan"])
                machine = self.machine()
                machine.take_read(self.person.read(), self.time)
                self.assertEqual(machine.fleet_plan, kept)
                self.assertTrue(machine.is_fresh(self.time))
                self.assertIn("the plan before is used: ", machine.fault)

    def test_the_plan_of_an_attempt_that_runs_goes_before_another_one(self) -> None:
        """A plan that was put meanwhile may name other analyses, and those are not of this
        attempt."""
        record = View(self.person.read()).record
        assert record is not None
        kept = read_stored_plan(plan_text(analyses={"post": "smoke"}))
        for stage, plan in ((PROMOTING, kept), (ABORTED, read_stored_plan(plan_text()))):
            text = dataclasses.replace(record, stage=stage, plan=kept).text()
            self.person.write([], {"attempt": text})
            machine = self.machine()
            machine.take_read(self.person.read(), self.time)
            self.assertEqual(machine.fleet_plan, plan)

    def test_what_is_read_is_known(self) -> None:
        machine = self.machine()
        machine.take_read(self.person.read(), self.time)
        plan = machine.plan()
        self.assertEqual(
            (plan and plan.last, plan and plan.control, machine.to_open(), machine.fault),
            (V2, 8082, V1, ""),
        )
        self.assertEqual(machine.coming(report("steady", "web-v1", "web-v1"), self.time), V2)
        self.assertIsNone(machine.coming(PAUSED, self.time))
        self.put(SUCCESSFUL)
        machine.take_read(self.person.read(), self.time)
        self.assertEqual(machine.coming(report("steady", "web-v1", "web-v1"), self.time), V2)

    def test_what_comes_is_the_stable_revision_while_the_machine_is_behind(self) -> None:
        self.person.write(
            [],
            {
                "attempt": Record(
                    self.plan_id, PlannedRevision("web-v3", (9301,)), V2, DEPLOYING
                ).text()
            },
        )
        machine = self.machine()
        machine.take_read(self.person.read(), self.time)
        self.assertEqual(machine.coming(report("steady", "web-v1", "web-v1"), self.time), V2)


class Judging(FleetCase):
    def test_an_attempt_that_is_not_of_the_fleet_is_not_judged(self) -> None:
        self.agent.read()
        self.assertEqual(
            self.agent.machine.why_not_judged(PAUSED, self.time), "its attempt is not of the fleet"
        )
        self.join(self.agent)
        self.assertEqual(self.agent.machine.why_not_judged(PAUSED, self.time), "")

    def test_why_it_has_failed_is_kept(self) -> None:
        self.join(self.agent)
        self.agent.machine.take_failed("analysis pre: failed")
        self.assertEqual(self.kept.joined.reason, "analysis pre: failed")
        self.agent.tell(report("aborted", "web-v1", "web-v2"))
        self.assertEqual((self.told().state, self.told().reason), (FAILED, "analysis pre: failed"))

    def test_what_was_refused_is_told_until_the_record_changes(self) -> None:
        self.agent.read()
        machine, steady = self.agent.machine, report("steady", "web-v1", "web-v1")
        machine.take_reply(DEPLOY, False, "refused PortsDiffer", steady, self.time)
        self.agent.read()
        self.assertEqual(
            machine.report(steady, self.time).reason, "deploy web-v2 9201: refused PortsDiffer"
        )
        self.put(ABORTED)
        self.agent.read()
        self.assertEqual(machine.report(steady, self.time).reason, "")

    def test_only_what_has_failed_while_it_catches_up_begins_again(self) -> None:
        self.join(self.agent)
        machine = self.agent.machine
        for stage, phase, is_failed in (
            (PROMOTING, "aborted", False),
            (SUCCESSFUL, "scaling", False),
            (SUCCESSFUL, "aborted", True),
        ):
            self.put(stage)
            self.agent.read()
            machine.take_report(report(phase, "web-v1", "web-v2"), self.time)
            self.assertEqual(machine.failed_at, self.time if is_failed else None, (stage, phase))
        begun = self.time
        self.time += 5
        machine.take_report(report("aborted", "web-v1", "web-v2"), self.time)
        self.assertEqual(machine.failed_at, begun)
        machine.take_report(report("aborted", "web-v1", "web-v3"), self.time)
        self.assertIsNone(machine.failed_at)

    def test_an_analysis_that_the_plan_names_has_to_pass(self) -> None:
        self.join(self.agent)
        self.agent.machine.take_report(report("postAnalysis", "web-v1", "web-v2"), self.time)
        self.assertFalse(self.kept.joined.has_passed)

    def test_going_on_needs_a_fresh_read_also_after_the_end(self) -> None:
        self.put(SUCCESSFUL)
        self.join(self.agent)
        self.agent.machine.lose_store()
        self.assertIsNone(self.agent.machine.permitted_line(PAUSED, self.time))


class Telling(FleetCase):
    def test_what_has_changed_is_told(self) -> None:
        self.join(self.agent)
        self.agent.tell(PAUSED)
        self.assertEqual(
            self.told(),
            MachineReport(
                "m1", self.plan_id, READY, "", "paused", "web-v1", "web-v2", "web-v1", "web-v2", 1
            ),
        )
        revision = self.keys.revision
        self.agent.read()
        self.agent.tell(PAUSED)
        self.assertEqual(self.keys.revision, revision)

    def test_a_switch_that_gives_no_report(self) -> None:
        self.agent.read()
        self.agent.tell(None)
        self.assertEqual(
            (self.told().attempt, self.told().state, self.told().reason),
            (0, WORKING, "the switch gives no report"),
        )

    def test_the_report_is_gone_with_the_lease(self) -> None:
        self.agent.read()
        self.agent.tell(None)
        self.time += 11
        self.person.read()
        self.assertNotIn("machines/a", self.keys.keys)
        self.agent.read()
        self.agent.tell(None)
        self.assertIn("machines/a", self.keys.keys)
        self.assertEqual(
            self.said, ["the lease of the machine had ended: the fleet has taken it as away"]
        )

    def test_each_round_keeps_the_lease(self) -> None:
        for _ in range(30):
            self.agent.read()
            self.agent.tell(None)
            self.time += 3
            self.person.read()
            self.assertIn("machines/a", self.keys.keys)

    def test_a_lease_that_the_store_ends_late_is_ended(self) -> None:
        """A store that ends leases late answers no refresh of one until then."""
        self.agent.read()
        self.agent.tell(None)
        lease = self.agent.lease.number
        self.keys.late = 1000.0
        self.time += 11
        self.agent.read()
        self.agent.tell(None)
        self.assertNotEqual(self.agent.lease.number, lease)
        self.assertNotIn(lease, self.keys.leases)
        self.assertEqual(self.keys.keys["machines/a"].lease, self.agent.lease.number)
        self.assertEqual(
            self.said, ["the lease of the machine had ended: the fleet has taken it as away"]
        )

    def test_a_lease_is_not_ended_within_a_second_of_its_time(self) -> None:
        self.agent.read()
        self.agent.tell(None)
        lease = self.agent.lease.number
        self.keys.late = 1000.0
        self.time += 10.9
        self.agent.read()
        self.agent.tell(None)
        self.assertIn(lease, self.keys.leases)
        self.time += 0.1
        self.agent.read()
        self.agent.tell(None)
        self.assertNotIn(lease, self.keys.leases)

    def test_a_lease_that_lasts_longer_is_kept(self) -> None:
        """A store may let a lease last longer, as etcd does once it has another leader."""
        self.agent.read()
        self.agent.tell(None)
        lease = self.agent.lease.number
        self.keys.leases[lease] = (1000.0, 10)
        self.time += 11
        self.agent.read()
        self.agent.tell(None)
        self.assertEqual((self.agent.lease.number, self.said), (lease, []))

    def test_a_machine_without_a_command_for_an_analysis_fails(self) -> None:
        self.agent = self.new_agent(settings=MachineSettings(8082))
        self.join(self.agent)
        self.agent.tell(PAUSED)
        self.assertEqual(
            (self.told().state, self.told().reason),
            (FAILED, "this machine has no command for the analysis errors"),
        )

    def test_a_machine_that_catches_up_reports_for_no_attempt(self) -> None:
        self.person.write(
            [],
            {
                "attempt": Record(
                    self.plan_id, PlannedRevision("web-v3", (9301,)), V2, DEPLOYING
                ).text()
            },
        )
        self.join(self.agent)
        self.agent.tell(PAUSED)
        self.assertEqual(
            (self.told().attempt, self.told().state, self.told().reason),
            (0, WORKING, "catches up with web-v2"),
        )

    def test_nothing_is_told_without_a_read(self) -> None:
        self.agent.tell(None)
        self.agent.lease.number = self.keys.last_lease + 1
        self.agent.tell(None)
        self.assertNotIn("machines/a", self.keys.keys)

    def test_a_store_that_is_lost_while_it_is_told(self) -> None:
        self.agent.read()
        self.cut(self.agent)
        self.agent.tell(None)
        self.assertEqual(
            self.said, ["the store does not take the report of this machine: it is away"]
        )
        self.cut(self.agent, False)
        for _ in range(2):
            self.agent.read()
            self.agent.tell(None)
        self.assertEqual(
            self.said[1:], ["the store takes the report of this machine again, after 0 seconds"]
        )

    def test_a_store_that_takes_no_write_is_told_each_minute(self) -> None:
        """As an etcd that is full: it is read, and each write is refused."""
        with mock.patch.object(self.agent.store, "write", side_effect=StoreError("etcd is full")):
            for _ in range(400):
                self.agent.read()
                self.agent.tell(None)
                self.time += 0.3
        self.assertEqual(
            self.said,
            [
                "the store does not take the report of this machine: etcd is full",
                "the store does not take the report of this machine, for 60 seconds now: etcd is full",
            ],
        )

    def test_the_lease_is_refreshed_in_each_quarter_of_its_time(self) -> None:
        refreshed: list[float] = []
        refresh = self.agent.store.refresh

        def note(lease: int) -> int:
            refreshed.append(self.time)
            return refresh(lease)

        with mock.patch.object(self.agent.store, "refresh", note):
            for _ in range(11):
                self.agent.read()
                self.time += 0.5
        self.assertEqual(refreshed, [102.5, 105])

    def test_a_report_that_was_written_meanwhile_is_not_overwritten(self) -> None:
        self.agent.read()
        self.person.write([], {"machines/a": "x"})
        self.agent.tell(None)
        self.assertEqual(self.keys.keys["machines/a"].value, "x")


class TwoOfOneHost(FleetCase):
    def test_the_second_agent_is_refused(self) -> None:
        self.join(self.agent)
        self.agent.tell(PAUSED)
        second = self.new_agent("m2")
        second.read()
        second.tell(PAUSED)
        self.assertEqual(self.told().machine, "m1")
        self.assertIsNone(second.machine.permitted_line(PAUSED, self.time))
        self.assertEqual(
            self.said, ["another machine reports as a: machines/a is of the machine m1"]
        )

    def test_it_may_once_the_first_one_is_gone(self) -> None:
        self.join(self.agent)
        self.agent.tell(PAUSED)
        second = self.new_agent("m2")
        self.time += 11
        second.read()
        second.tell(PAUSED)
        self.assertEqual(self.told().machine, "m2")

    def test_an_agent_that_is_started_again_takes_its_key_over(self) -> None:
        self.join(self.agent)
        self.agent.tell(PAUSED)
        again = self.new_agent()
        again.read()
        again.tell(PAUSED)
        self.assertEqual(
            (self.told().machine, self.keys.keys["machines/a"].lease), ("m1", again.lease.number)
        )


class Leading(FleetCase):
    """The machine of `a` has passed, and reports to each lead at once."""

    def setUp(self) -> None:
        super().setUp()
        self.state = "passed"
        self.person.write([], {"members/a": ""})
        self.tell_leader("passed")

    def candidate(self, host: str) -> Candidate:
        made = Candidate(
            host,
            MemoryStore(self.keys, host),
            lambda _, text: self.said.append(text),
            Clocks(lambda: self.time, lambda: 5.0),
        )
        send = made.send

        def send_and_hear(pending: Pending) -> bool:
            is_written = send(pending)
            if is_written and "leader" in pending.write.puts and self.state:
                self.tell_leader(self.state)
            return is_written

        setattr(made, "send", send_and_hear)
        return made

    def tell_leader(self, state: str = "passed") -> None:
        """The machine reports to the one that leads now."""
        report = MachineReport("m1", self.plan_id, state, leader=View(self.person.read()).leader)
        self.person.write([], {"machines/a": report.text()})

    def record(self) -> Record:
        record = View(self.person.read()).record
        assert record is not None
        return record

    def test_reports_of_before_an_outage_are_no_votes(self) -> None:
        """etcd lets leases last longer once it is back, so the machine may be gone by then: an
        attempt does not go on before it has reported to a lead that began after the outage."""
        first = self.candidate("a")
        self.state = ""
        first.do_round()
        before = View(self.person.read()).leader
        self.tell_leader("testing")
        first.do_round()
        first.store.is_cut = True  # type: ignore[attr-defined]
        first.do_round()
        self.tell_leader("passed")  # the last word of a machine that is gone when etcd is back
        first.store.is_cut = False  # type: ignore[attr-defined]
        for _ in range(6):
            first.do_round()
        self.assertTrue(first.leads)
        self.assertGreater(View(self.person.read()).leader, before)
        self.assertIn("a leads no longer: reads have failed, so another lead begins", self.said)
        self.assertEqual(self.record().stage, PROMOTING)
        self.tell_leader("passed")
        first.do_round()
        self.assertEqual(self.record().stage, SUCCESSFUL)

    def test_the_seconds_of_readiness_begin_anew_after_an_outage(self) -> None:
        self.plan_id = self.person.write([], {"plan": plan_text(fleet={"seconds": 25})}) or 0
        self.put(DEPLOYING)
        self.state = "ready"
        first = self.candidate("a")
        first.do_round()
        first.do_round()
        self.time += 24
        first.store.is_cut = True  # type: ignore[attr-defined]
        first.do_round()
        self.time += 20
        first.store.is_cut = False  # type: ignore[attr-defined]
        for _ in range(6):
            first.do_round()
        for seconds in (0.0, 8.0, 8.0, 8.0):
            self.time += seconds
            first.do_round()
            self.assertEqual(self.record().stage, DEPLOYING)
        self.time += 2
        first.do_round()
        self.assertEqual(self.record().stage, PROMOTING)

    def test_a_machine_reports_to_each_lead(self) -> None:
        agent = self.agent
        agent.read()
        agent.tell(PAUSED)
        first = self.candidate("a")
        first.do_round()
        agent.read()
        agent.tell(PAUSED)
        view = View(self.person.read())
        report = view.machine(agent.machine.host)
        self.assertEqual(report and report.leader, view.leader)

    def test_the_first_one_leads_and_decides(self) -> None:
        first, second = self.candidate("a"), self.candidate("b")
        self.assertEqual(
            (first.do_round(), second.do_round(), first.do_round(), first.do_round()),
            (True, False, True, False),
        )
        self.assertEqual(
            (self.keys.keys["leader"].value, first.leads, second.leads), ("a", True, False)
        )
        created = self.keys.keys["leader"].created
        self.assertEqual(
            self.record(), Record(self.plan_id, V2, V1, SUCCESSFUL, by=created, time=5)
        )
        self.assertEqual(self.said, ["a leads", f"attempt {self.plan_id} of web-v2: successful"])

    def test_a_candidate_that_does_not_lead_has_no_lease(self) -> None:
        first, second = self.candidate("a"), self.candidate("b")
        first.do_round()
        for _ in range(5):
            second.do_round()
            self.time += 1
        self.assertEqual((len(self.keys.leases), second.lease.number), (1, 0))
        self.time += 11
        self.assertTrue(second.do_round())
        self.assertEqual(self.keys.keys["leader"].lease, second.lease.number)

    def test_a_leader_without_a_lease_is_another_one(self) -> None:
        """Somebody has put the key by hand: no candidate takes it for its own."""
        self.person.write([], {"leader": "a"})
        first = self.candidate("a")
        self.assertFalse(first.do_round())
        self.assertFalse(first.leads)

    def test_another_one_leads_once_the_lease_has_ended(self) -> None:
        first, second = self.candidate("a"), self.candidate("b")
        first.do_round()
        first.look()
        self.time += 11
        self.assertTrue(second.do_round())
        self.assertEqual(self.keys.keys["leader"].value, "b")
        self.assertFalse(first.do_round())
        self.assertFalse(first.leads)
        self.assertEqual(self.said[:2], ["a leads", "a leads no longer: its lease has ended"])

    def test_another_one_leads_where_the_store_ends_leases_late(self) -> None:
        first, second = self.candidate("a"), self.candidate("b")
        first.do_round()
        self.keys.late = 1000.0
        second.do_round()
        self.time += 11.9  # it looks again 12 seconds after its first look
        self.assertFalse(second.do_round())
        self.assertEqual(self.keys.keys["leader"].value, "a")
        self.time += 0.1
        self.assertFalse(second.do_round())
        self.assertTrue(second.do_round())
        self.assertEqual(self.keys.keys["leader"].value, "b")

    def test_a_lead_is_not_ended_within_a_second_of_its_time(self) -> None:
        first, second = self.candidate("a"), self.candidate("b")
        first.do_round()
        self.keys.late = 1000.0
        self.time += 10.9
        self.assertFalse(second.do_round())
        self.time += 1
        self.assertFalse(second.do_round())
        self.assertIn("leader", self.keys.keys)
        self.time += 1
        self.assertFalse(second.do_round())
        self.assertNotIn("leader", self.keys.keys)

    def test_a_candidate_looks_at_the_lease_of_the_leader_once_in_its_time(self) -> None:
        first, second = self.candidate("a"), self.candidate("b")
        first.do_round()
        looks: list[float] = []

        seconds_left = second.store.seconds_left

        def noted(lease: int) -> int:
            looks.append(self.time)
            return seconds_left(lease)

        with mock.patch.object(second.store, "seconds_left", noted):
            for _ in range(40):
                first.do_round()
                second.do_round()
                self.time += 0.75
        self.assertEqual(looks, [100.0, 112.0, 124.0])

    def test_a_store_that_is_lost_at_that_look(self) -> None:
        first, second = self.candidate("a"), self.candidate("b")
        first.do_round()
        first.look()
        with mock.patch.object(second.store, "seconds_left", side_effect=StoreError("refused")):
            self.assertFalse(second.do_round())
        self.time += 5
        first.keep()
        self.time += 7
        second.do_round()
        self.assertEqual(
            self.said[-2:],
            [
                "the store does not tell the candidate of the leader's lease: refused",
                "the store tells the candidate of the leader's lease again, after 12 seconds",
            ],
        )

    def test_a_leader_of_before_writes_nothing(self) -> None:
        first, second = self.candidate("a"), self.candidate("b")
        first.do_round()
        pending = first.look()
        assert pending is not None
        self.time += 11
        second.do_round()
        self.assertFalse(first.send(pending))
        self.assertEqual(self.record().stage, PROMOTING)

    def test_a_candidate_that_is_started_again_waits_for_its_old_lease(self) -> None:
        self.candidate("a").do_round()
        again = self.candidate("a")
        self.assertFalse(again.do_round())
        self.assertFalse(again.leads)
        self.time += 11
        self.assertTrue(again.do_round())

    def test_what_has_changed_since_the_read_stops_the_write(self) -> None:
        for name, value in (
            ("plan", plan_text()),
            ("attempt", Record(self.plan_id, V2, V1, PROMOTING, "x").text()),
            ("members/b", ""),
            ("machines/a", MachineReport("m1", self.plan_id, FAILED).text()),
        ):
            with self.subTest(name):
                self.setUp()
                first = self.candidate("a")
                first.do_round()
                pending = first.look()
                assert pending is not None
                self.person.write([], {name: value})
                self.assertFalse(first.send(pending))
                self.assertEqual(self.record().stage, PROMOTING)

    def test_a_store_that_is_away(self) -> None:
        first = self.candidate("a")
        first.do_round()
        assert isinstance(first.store, MemoryStore)
        first.store.is_cut = True
        self.assertEqual((first.do_round(), first.do_round()), (False, False))
        self.assertEqual(sum("gives no answer" in text for text in self.said), 1)
        first.store.is_cut = False
        self.assertTrue(first.do_round())

    def test_a_write_that_is_lost_is_told(self) -> None:
        first = self.candidate("a")
        first.do_round()
        pending = first.look()
        assert pending is not None and isinstance(first.store, MemoryStore)
        first.store.is_cut = True
        self.assertFalse(first.send(pending))
        self.assertEqual(
            self.said[-1], "the store does not take what the candidate writes: it is away"
        )
        self.assertFalse(first.do_round())
        first.store.is_cut = False
        first.do_round()
        first.store.is_cut = True
        first.do_round()
        self.assertEqual(sum("gives no answer" in text for text in self.said), 2)

    def test_a_store_that_takes_no_write_is_told_once(self) -> None:
        first = self.candidate("a")
        first.do_round()
        with mock.patch.object(first.store, "write", side_effect=StoreError("etcd is full")):
            for _ in range(20):
                self.assertFalse(first.do_round())
        self.assertEqual(sum("etcd is full" in text for text in self.said), 1)
        self.assertTrue(first.do_round())
        self.assertEqual(
            sum("takes what the candidate writes, after" in text for text in self.said), 1
        )

    def test_what_was_not_written_is_told(self) -> None:
        first = self.candidate("a")
        first.do_round()
        pending = first.look()
        assert pending is not None
        self.put(ABORTED)
        first.send(pending)
        self.assertEqual(
            self.said[-1],
            f"not written, since something has changed: attempt {self.plan_id} of web-v2: successful",
        )
        self.put(PROMOTING)
        self.person.write(
            [], {"machines/a": MachineReport("m1", self.plan_id, FAILED, "why").text()}
        )
        first.do_round()
        self.assertEqual(self.said[-1], f"attempt {self.plan_id} of web-v2: aborted, a: why")

    def test_a_leader_whose_key_is_gone_leads_no_longer(self) -> None:
        first = self.candidate("a")
        first.do_round()
        first.look()
        self.person.write([], {}, ["leader"])
        pending = first.look()
        self.assertEqual((first.leads, pending and pending.write.puts), (False, {"leader": "a"}))
        self.assertEqual(self.said[-1], "a leads no longer: its key is gone")

    def test_a_leader_in_whose_place_another_one_leads(self) -> None:
        first = self.candidate("a")
        first.do_round()
        first.look()
        self.person.write([], {}, ["leader"])
        self.candidate("b").do_round()
        self.assertIsNone(first.look())
        self.assertEqual((first.leads, self.said[-1]), (False, "a leads no longer: b leads"))

    def test_a_new_leader_waits_anew(self) -> None:
        self.plan_id = self.person.write([], {"plan": plan_text(fleet={"seconds": 5})}) or 0
        self.put(DEPLOYING)
        self.state = READY
        first = self.candidate("a")
        first.do_round()
        self.assertIsNone(first.look())
        self.time += 4
        self.assertIsNone(first.look())
        self.person.write([], {}, ["leader"])
        first.do_round()
        self.time += 4
        self.assertIsNone(first.look())
        self.time += 5
        self.assertIsNotNone(first.look())

    def test_what_can_not_be_read_is_told_once(self) -> None:
        first = self.candidate("a")
        first.do_round()
        for count in (1, 2):
            self.person.write([], {"plan": "{"})
            for _ in range(3):
                first.do_round()
            self.person.write([], {"plan": plan_text()})
            first.do_round()
            told = [text for text in self.said if "no attempt begins: the plan is wrong" in text]
            self.assertEqual(len(told), count)
        self.person.write([], {"attempt": json.dumps({"version": 2})})
        self.assertEqual((first.do_round(), first.do_round()), (False, False))
        told = [text for text in self.said if "nothing is decided: the record of" in text]
        self.assertEqual(len(told), 1)


class InMemory(unittest.TestCase):
    """The store of these tests has etcd's rules."""

    def setUp(self) -> None:
        self.time = 0.0
        self.keys = Keys(lambda: self.time)
        self.store = MemoryStore(self.keys, "x")

    def test_revisions(self) -> None:
        self.assertEqual(self.store.write([], {"a": "1", "m/b": "2"}), 2)
        self.assertEqual(self.store.write([], {"a": "3"}), 3)
        snapshot = self.store.read()
        self.assertEqual(
            (snapshot.revision, snapshot.keys["a"][:3], snapshot.keys["m/b"][:3]),
            (3, ("3", 2, 3), ("2", 2, 2)),
        )
        self.assertEqual(self.store.write([], {}, ["a"]), 4)
        self.assertEqual(self.store.write([], {"a": "4"}), 5)
        self.assertEqual(self.store.read().keys["a"].created, 5)

    def test_compares(self) -> None:
        self.store.write([], {"a": "1", "m/b": "2"})
        for compare, holds in (
            (Compare("a", "changed", 2), True),
            (Compare("a", "changed", 0), False),
            (Compare("c", "created", 0), True),
            (Compare("m/", "changed", 2), True),
            (Compare("m/", "changed", 1), False),
            (Compare("n/", "changed", 0), True),
        ):
            self.assertEqual(self.keys.holds(compare), holds, compare)
        revision = self.keys.revision
        self.assertIsNone(self.store.write([Compare("a", "changed", 1)], {"a": "9"}))
        self.assertEqual((self.keys.revision, self.keys.keys["a"].value), (revision, "1"))

    def test_leases(self) -> None:
        lease = self.store.grant(3)
        self.store.write([], {"a": "1"}, lease=lease)
        self.time = 2
        self.assertEqual(self.store.refresh(lease), 3)
        self.time = 4.9
        self.assertIn("a", self.store.read().keys)
        self.time = 5
        self.assertEqual((self.store.read().keys, self.store.refresh(lease)), ({}, 0))
        self.assertRaises(StoreError, self.store.write, [], {"a": "1"}, (), lease)
        other = self.store.grant(3)
        self.store.write([], {"b": "1"}, lease=other)
        self.store.revoke(other)
        self.assertEqual(self.store.read().keys, {})

    def test_leases_that_end_late(self) -> None:
        lease = self.store.grant(3)
        self.store.write([], {"a": "1"}, lease=lease)
        self.keys.late = 5.0
        for self.time, left in ((0.5, 2), (2.5, 0), (3.9, 0), (4.0, -1), (7.9, -4)):
            self.assertEqual(self.store.seconds_left(lease), left, self.time)
            self.assertIn("a", self.store.read().keys)
        self.assertRaises(StoreError, self.store.refresh, lease)
        self.time = 8.0
        self.assertEqual((self.store.read().keys, self.store.refresh(lease)), ({}, 0))
        self.assertEqual(self.store.seconds_left(lease), -1)


class Unchanged(FleetCase):
    def test_a_state_is_kept_when_it_changes_and_only_then(self) -> None:
        kept: list[MachineState] = []
        self.agent.machine.keep = kept.append
        self.agent.read()
        self.agent.read()
        self.assertEqual(len(kept), 1)
        self.assertEqual(
            dataclasses.replace(kept[0], plan=""),
            MachineState("c1", "", Record(self.plan_id, V2, V1, PROMOTING)),
        )


if __name__ == "__main__":
    unittest.main()
