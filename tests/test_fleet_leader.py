"""What a leader decides, row by row, with what each write compares."""
import dataclasses
import json
import unittest
from collections.abc import Iterator, Mapping

from bg_switch_tools.controller.plan.plan import PlannedRevision
from bg_switch_tools.fleet.plan.fleet_plan import FleetPlan, read_stored_plan
from bg_switch_tools.fleet.record.leader import (
    Decision,
    StageClock,
    Waited,
    Write,
    awaited_of,
    decide,
    decision_of,
    votes_of,
)
from bg_switch_tools.fleet.record.record import (
    ABORT,
    ABORTED,
    DEPLOYING,
    FAILED,
    FOLLOWS,
    PASSED,
    PROMOTE,
    PROMOTING,
    READY,
    STATES,
    SUCCESSFUL,
    TESTING,
    WORKING,
    MachineReport,
    PersonOrder,
    Record,
    UnreadableError,
    View,
)
from bg_switch_tools.fleet.store.store import Compare, Key, Snapshot

V1, V2 = PlannedRevision("web-v1", (9101,)), PlannedRevision("web-v2", (9201,))
PLAN_ID, CREATED = 20, 7
LONG = Waited(1e9, 1e9, 0.0)


def plan_text(*names: str, progress: Mapping[str, object] | None = None, **fleet: object) -> str:
    ports = {"web-v1": 9101, "web-v2": 9201}
    revisions = [{"name": name, "ports": [ports[name]]} for name in names or ("web-v1", "web-v2")]
    return json.dumps({"revisions": revisions, "progress": progress or {}, "fleet": fleet})


def told(
    state: str, attempt: int = PLAN_ID, reason: str = "", stable: str = "web-v1"
) -> MachineReport:
    return MachineReport("m", attempt, state, reason, stable=stable, leader=CREATED)


class Decisions(unittest.TestCase):
    """A fleet of the hosts a and b, whose plan goes from v1 to v2."""

    def setUp(self) -> None:
        self.plan: str | None = plan_text()
        self.plan_id = PLAN_ID
        self.record: Record | None = Record(PLAN_ID, V2, V1, DEPLOYING, by=3)
        self.members = ["a", "b"]
        self.reports: dict[str, MachineReport] = {}
        self.order: PersonOrder | None = None

    def snapshot(self) -> Snapshot:
        keys = {"leader": Key("a", CREATED, CREATED, 1)}
        if self.plan is not None:
            keys["plan"] = Key(self.plan, 2, self.plan_id, 0)
        if self.record:
            keys["attempt"] = Key(self.record.text(), 3, 30, 0)
        for number, host in enumerate(self.members):
            keys[f"members/{host}"] = Key("", 4, 4 + number, 0)
        for number, (host, report) in enumerate(self.reports.items()):
            keys[f"machines/{host}"] = Key(report.text(), 5, 40 + number, 2)
        if self.order:
            keys["order"] = Key(self.order.text(), 50, 50, 0)
        return Snapshot(60, "c1", keys)

    @property
    def kept(self) -> FleetPlan:
        """The plan as the record of an attempt keeps it that begins now."""
        assert self.plan is not None
        return read_stored_plan(self.plan)

    def decision(self, waited: Waited = Waited()) -> Decision | None:
        return decision_of(View(self.snapshot()), waited)

    def report(self, **states: str) -> None:
        self.reports = {
            host: told(state, reason="why" if state == FAILED else "")
            for host, state in states.items()
        }

    def put(self, stage: str, reason: str = "", missing: tuple[str, ...] = ()) -> Record:
        """The record of the attempt, with another stage."""
        return Record(PLAN_ID, V2, V1, stage, reason, missing, by=3)

    def written(self, waited: Waited = Waited()) -> Write:
        write = decide(self.snapshot(), CREATED, waited, 1000)
        assert write is not None
        return write


class Begins(Decisions):
    def test_without_a_plan_nothing_is_written(self) -> None:
        self.plan = None
        self.assertIsNone(self.decision())

    def test_the_first_record_has_what_is_live(self) -> None:
        self.record = None
        self.report(a=WORKING, b=WORKING)
        for stable, live in (("", V1), ("web-v1", V1), ("web-v2", V2)):
            self.reports = {host: told(WORKING, 0, stable=stable) for host in self.members}
            self.assertEqual(
                self.decision(),
                Decision(
                    Record(0, live, live, SUCCESSFUL, "the fleet begins with it", plan=self.kept),
                    ("a", "b"),
                ),
            )

    def test_the_first_record_of_machines_that_differ(self) -> None:
        self.record = None
        self.reports = {
            "a": told(WORKING, 0, stable="web-v2"),
            "b": told(WORKING, 0, stable="web-v1"),
        }
        decision = self.decision()
        self.assertEqual(decision and decision.record and decision.record.revision, V1)

    def test_the_first_record_waits_for_all_members(self) -> None:
        self.record = None
        self.assertIsNone(self.decision())
        self.reports = {"a": told(WORKING, 0)}
        self.assertIsNone(self.decision())
        self.plan = plan_text(max_missing=1)
        self.assertIsNotNone(self.decision())

    def test_the_first_record_needs_a_member(self) -> None:
        self.record, self.members, self.plan = None, [], plan_text(max_missing=1)
        self.assertIsNone(self.decision())

    def test_a_live_revision_that_the_plan_does_not_name(self) -> None:
        self.record = None
        self.reports = {host: told(WORKING, 0, stable="web-v9") for host in self.members}
        self.assertIsNone(self.decision())
        self.assertEqual(
            awaited_of(self.snapshot()), ["a plan that names the stable revision of each member"]
        )

    def test_another_plan_begins_an_attempt(self) -> None:
        for stage in (ABORTED, SUCCESSFUL):
            # an etcd that was filled from a backup counts from a lower revision
            for plan_id in (PLAN_ID + 1, PLAN_ID - 1):
                self.record, self.plan_id = Record(PLAN_ID, V1, V1, stage), plan_id
                self.assertEqual(
                    self.decision(), Decision(Record(plan_id, V2, V1, DEPLOYING, plan=self.kept))
                )

    def test_a_plan_of_the_stable_revision_moves_nothing(self) -> None:
        self.plan_id, same = PLAN_ID + 1, "the plan names the stable revision"
        self.record = self.put(SUCCESSFUL)
        for stable in (V2, V1):
            self.assertEqual(
                self.decision(),
                Decision(Record(PLAN_ID + 1, stable, stable, SUCCESSFUL, same, plan=self.kept)),
            )
            self.record, self.plan = self.put(ABORTED), plan_text("web-v2", "web-v1")

    def test_after_an_undo_the_attempt_goes_back(self) -> None:
        self.record, self.plan, self.plan_id = (
            self.put(SUCCESSFUL),
            plan_text("web-v2", "web-v1"),
            PLAN_ID + 1,
        )
        self.assertEqual(
            self.decision(), Decision(Record(PLAN_ID + 1, V1, V2, DEPLOYING, plan=self.kept))
        )

    def test_an_attempt_of_the_same_plan_is_over(self) -> None:
        for stage in (ABORTED, SUCCESSFUL):
            self.record = self.put(stage)
            self.report(a=READY, b=READY)
            self.assertIsNone(self.decision(LONG))


class Promotes(Decisions):
    def test_all_have_to_be_ready(self) -> None:
        self.report(a=READY, b=READY)
        self.assertEqual(self.decision(), Decision(self.put(PROMOTING), ("a", "b")))
        for state in (each for each in STATES if each not in (READY, FAILED)):
            self.report(a=READY, b=state)
            self.assertIsNone(self.decision(LONG), state)

    def test_a_report_of_another_attempt_is_none(self) -> None:
        for attempt in (0, PLAN_ID - 1, PLAN_ID + 1):
            self.reports = {"a": told(READY), "b": told(READY, attempt)}
            self.assertIsNone(self.decision(LONG))
            self.reports = {"a": told(READY), "b": told(FAILED, attempt)}
            self.assertIsNone(self.decision(LONG))

    def test_a_machine_that_is_no_member_has_no_vote(self) -> None:
        self.report(a=READY, b=READY, c=FAILED)
        self.assertEqual(self.decision(), Decision(self.put(PROMOTING), ("a", "b")))

    def test_a_fleet_without_members_waits(self) -> None:
        self.members = []
        self.report(a=READY)
        self.assertIsNone(self.decision())
        self.assertEqual(awaited_of(self.snapshot()), ["members"])

    def test_they_have_to_be_ready_for_some_seconds(self) -> None:
        self.plan = plan_text(seconds=5)
        self.report(a=READY, b=READY)
        self.assertIsNone(self.decision(Waited(4.9)))
        self.assertEqual(self.decision(Waited(5)), Decision(self.put(PROMOTING), ("a", "b")))

    def test_a_person_promotes(self) -> None:
        self.plan, self.order = plan_text(by_hand=True, seconds=5), PersonOrder(
            PROMOTE, PLAN_ID, "ann"
        )
        self.report(a=READY, b=READY)
        self.assertEqual(
            self.decision(), Decision(self.put(PROMOTING, "ordered by ann"), ("a", "b"), True)
        )
        self.order = None
        self.assertIsNone(self.decision(LONG))

    def test_an_order_to_promote_waits_until_all_are_ready(self) -> None:
        self.order = PersonOrder(PROMOTE, PLAN_ID, "ann")
        self.report(a=READY, b=TESTING)
        self.assertIsNone(self.decision(LONG))


class WithoutAPlan(Decisions):
    """What stands in the plan's key is no plan, or there is no such key: an attempt is decided by
    the plan that it began with."""

    def each(self) -> Iterator[None]:
        """The attempt runs, and the plan's key has one value after the other that is no plan."""
        for plan in ("{", '{"revisions": [], "newer": 1}', "revisions: web-v3", None):
            self.record = Record(
                PLAN_ID,
                V2,
                V1,
                DEPLOYING,
                by=3,
                plan=read_stored_plan(plan_text(progress=None, **self.fleet)),
            )
            self.plan, self.plan_id, self.order = plan, PLAN_ID + 5, None
            yield

    fleet: Mapping[str, object] = {"promoting_seconds": 40}

    def stage_of(self, waited: Waited = Waited()) -> tuple[str, str] | None:
        decision = self.decision(waited)
        record = decision.record if decision else None
        return (record.stage, record.reason) if record else None

    def go_to(self, stage: str) -> None:
        assert self.record is not None
        self.record = dataclasses.replace(self.record, stage=stage)

    def test_it_goes_on(self) -> None:
        for _ in self.each():
            self.report(a=READY, b=READY)
            self.assertEqual(self.stage_of(), (PROMOTING, ""))
            self.go_to(PROMOTING)
            self.report(a=PASSED, b=PASSED)
            self.assertEqual(self.stage_of(), (SUCCESSFUL, ""))

    def test_a_failed_vote_ends_it(self) -> None:
        for _ in self.each():
            for stage in (DEPLOYING, PROMOTING):
                self.go_to(stage)
                self.report(a=PASSED, b=FAILED)
                self.assertEqual(self.stage_of(), (ABORTED, "b: why"))

    def test_an_abort_ends_it(self) -> None:
        for _ in self.each():
            for stage in (DEPLOYING, PROMOTING):
                self.go_to(stage)
                self.order = PersonOrder(ABORT, PLAN_ID, "ann")
                self.assertEqual(self.stage_of(), (ABORTED, "ordered by ann"))

    def test_its_promoting_seconds_end_it(self) -> None:
        for _ in self.each():
            self.go_to(PROMOTING)
            self.report(a=PASSED, b=TESTING)
            self.assertIsNone(self.stage_of(Waited(0, 0, 39.9)))
            late = (ABORTED, "it was promoting for 40 seconds: b")
            self.assertEqual(self.stage_of(Waited(0, 0, 40)), late)

    def test_its_time_is_measured(self) -> None:
        for _ in self.each():
            self.go_to(PROMOTING)
            clock = StageClock()
            clock.look(self.snapshot(), 100.0)
            self.assertEqual(clock.look(self.snapshot(), 130.0).stage, 30.0)

    def test_it_blocks_nothing_but_the_next_attempt(self) -> None:
        for _ in self.each():
            for stage in (ABORTED, SUCCESSFUL):
                self.go_to(stage)
                self.report(a=READY, b=READY)
                self.assertIsNone(self.decision(LONG))
        self.plan = plan_text()
        self.assertEqual(self.stage_of(), (SUCCESSFUL, "the plan names the stable revision"))

    def test_a_plan_of_the_next_attempt_decides_nothing_of_this_one(self) -> None:
        """The plan that the attempt began with has `by_hand`, and what stands has not."""
        self.fleet = {"by_hand": True}
        for _ in self.each():
            self.report(a=READY, b=READY)
            self.assertIsNone(self.stage_of(LONG))

    def test_a_record_of_the_version_before(self) -> None:
        """It keeps no plan: nothing goes on without a person, and it ends."""
        for _ in self.each():
            self.record = self.put(DEPLOYING)
            self.report(a=READY, b=READY)
            self.assertIsNone(self.stage_of(LONG))
            self.order = PersonOrder(PROMOTE, PLAN_ID, "ann")
            self.assertEqual(self.stage_of(), (PROMOTING, "ordered by ann"))
            self.record, self.order = self.put(PROMOTING), None
            self.report(a=PASSED, b=TESTING)
            late = (ABORTED, "it was promoting for 1200 seconds: b")
            self.assertEqual(self.stage_of(Waited(0, 0, 1200)), late)
        self.record, self.plan, self.plan_id = self.put(DEPLOYING), plan_text(), PLAN_ID
        self.report(a=READY, b=READY)
        self.assertEqual(self.stage_of(), (PROMOTING, ""))

    def test_the_first_record_waits_for_a_plan(self) -> None:
        for _ in self.each():
            self.record = None
            self.reports = {host: told(WORKING, 0) for host in self.members}
            self.assertIsNone(self.decision())
            what = "a plan" if self.plan is None else "a plan that can be read"
            self.assertEqual(awaited_of(self.snapshot()), [what])


class OfAnEarlierLeader(Decisions):
    """A report that was written for another leader is no vote, since its machine may be gone."""

    def report(self, **states: str) -> None:
        super().report(**states)
        self.reports["b"] = dataclasses.replace(self.reports["b"], leader=CREATED - 1)

    def test_nothing_goes_on_by_it(self) -> None:
        for stage, state in ((DEPLOYING, READY), (PROMOTING, PASSED)):
            self.record = self.put(stage)
            self.report(a=state, b=state)
            self.assertIsNone(self.decision(Waited(1e9, 0, 0)))
            self.assertEqual(
                awaited_of(self.snapshot()), [f"b: {state}, as an earlier leader was told"]
            )

    def test_a_machine_that_has_failed_counts(self) -> None:
        self.report(a=READY, b=FAILED)
        self.assertEqual(self.decision(), Decision(self.put(ABORTED, "b: why"), ("b",)))

    def test_without_a_leader_a_person_sees_it_as_a_vote(self) -> None:
        self.report(a=READY, b=READY)
        snapshot = self.snapshot()
        keys = {name: key for name, key in snapshot.keys.items() if name != "leader"}
        view = View(snapshot._replace(keys=keys))
        assert self.record is not None
        self.assertEqual(votes_of(view, self.record).voters, ("a", "b"))


class Succeeds(Decisions):
    def setUp(self) -> None:
        super().setUp()
        self.record = self.put(PROMOTING, "ordered by ann")

    def test_all_have_to_have_passed(self) -> None:
        self.report(a=PASSED, b=PASSED)
        self.assertEqual(self.decision(), Decision(self.put(SUCCESSFUL), ("a", "b")))
        for state in (each for each in STATES if each not in (PASSED, FAILED)):
            self.report(a=PASSED, b=state)
            self.assertIsNone(self.decision(), state)

    def test_a_member_that_was_added_meanwhile_has_a_vote(self) -> None:
        self.members.append("c")
        self.report(a=PASSED, b=PASSED)
        self.assertIsNone(self.decision())
        self.report(a=PASSED, b=PASSED, c=PASSED)
        self.assertEqual(self.decision(), Decision(self.put(SUCCESSFUL), ("a", "b", "c")))

    def test_a_member_that_was_removed_has_none(self) -> None:
        self.members = ["a"]
        self.report(a=PASSED, b=FAILED)
        self.assertEqual(self.decision(), Decision(self.put(SUCCESSFUL), ("a",)))


class Missing(Decisions):
    """At most one member may be away."""

    def setUp(self) -> None:
        super().setUp()
        self.plan, self.members = plan_text(max_missing=1), ["a", "b", "c"]

    def test_the_attempt_goes_on_without_it(self) -> None:
        self.report(a=READY, b=READY)
        self.assertEqual(
            self.decision(), Decision(self.put(PROMOTING, missing=("c",)), ("a", "b", "c"))
        )

    def test_a_second_one_is_waited_for(self) -> None:
        self.report(a=READY)
        self.assertIsNone(self.decision(LONG))
        self.assertEqual(awaited_of(self.snapshot()), ["b: is away", "c: is away"])

    def test_a_member_that_is_there_is_waited_for(self) -> None:
        self.report(a=READY, b=READY, c=WORKING)
        self.assertIsNone(self.decision(LONG))

    def test_a_member_that_is_back_reports_without_a_vote(self) -> None:
        self.record = self.put(PROMOTING, missing=("c",))
        for state in STATES:
            self.report(a=PASSED, b=PASSED, c=state)
            self.assertEqual(
                self.decision(),
                Decision(self.put(SUCCESSFUL, missing=("c",)), ("a", "b", "c")),
                state,
            )

    def test_it_counts_as_missing_to_the_end(self) -> None:
        self.record = self.put(PROMOTING, missing=("c",))
        self.report(a=PASSED, c=PASSED)
        self.assertIsNone(self.decision())
        self.assertEqual(awaited_of(self.snapshot()), ["b: is away"])

    def test_one_that_goes_away_while_promoting(self) -> None:
        self.record = self.put(PROMOTING)
        self.report(a=PASSED, c=PASSED)
        self.assertEqual(
            self.decision(), Decision(self.put(SUCCESSFUL, missing=("b",)), ("a", "b", "c"))
        )

    def test_not_all_may_be_away(self) -> None:
        self.members = ["a"]
        self.assertIsNone(self.decision(LONG))


class Ends(Decisions):
    def each_stage(self) -> tuple[Record, ...]:
        return self.put(DEPLOYING), self.put(PROMOTING)

    def test_a_member_fails(self) -> None:
        for self.record in self.each_stage():
            self.report(a=READY, b=FAILED)
            self.assertEqual(self.decision(), Decision(self.put(ABORTED, "b: why"), ("b",)))

    def test_a_person_aborts(self) -> None:
        self.order = PersonOrder(ABORT, PLAN_ID, "ann")
        for self.record in self.each_stage():
            for state in STATES:
                self.report(a=state, b=state)
                self.assertEqual(
                    self.decision(), Decision(self.put(ABORTED, "ordered by ann"), (), True)
                )

    def test_another_plan_was_put(self) -> None:
        for self.record in self.each_stage():
            for self.plan_id in (PLAN_ID + 1, PLAN_ID - 1):
                self.report(a=PASSED, b=PASSED)
                self.assertEqual(
                    self.decision(), Decision(self.put(ABORTED, "another plan was put"))
                )

    def test_no_progress(self) -> None:
        self.report(a=WORKING)
        self.plan = plan_text(progress={"seconds": 9, "abort": True})
        self.assertIsNone(self.decision(Waited(0, 8.9, 0)))
        self.assertEqual(
            self.decision(Waited(0, 9, 0)),
            Decision(self.put(ABORTED, "no progress in 9 seconds: a, b"), ("a", "b")),
        )
        self.plan = plan_text(progress={"seconds": 9, "abort": False})
        self.assertIsNone(self.decision(Waited(0, 1e9, 1e9)))

    def test_no_progress_without_a_member(self) -> None:
        self.members, self.plan = [], plan_text(progress={"seconds": 9, "abort": True})
        self.assertEqual(
            self.decision(Waited(0, 9, 0)),
            Decision(self.put(ABORTED, "no progress in 9 seconds: there is no member")),
        )

    def test_two_revisions_are_live_for_a_bounded_time(self) -> None:
        self.record, self.plan = self.put(PROMOTING), plan_text(promoting_seconds=40)
        self.report(a=PASSED, b=TESTING)
        self.assertIsNone(self.decision(Waited(0, 0, 39.9)))
        aborted = Decision(self.put(ABORTED, "it was promoting for 40 seconds: b"), ("a", "b"))
        self.assertEqual(self.decision(Waited(0, 0, 40)), aborted)

    def test_an_order_for_another_attempt_is_dropped(self) -> None:
        self.report(a=READY, b=READY)
        for order in (PROMOTE, ABORT):
            self.order = PersonOrder(order, PLAN_ID - 1, "ann")
            self.check_dropped(f"the attempt of the fleet is {PLAN_ID} now")
        for stage, reason, told_reason in ((ABORTED, "b: why", ", b: why"), (SUCCESSFUL, "", "")):
            self.record, self.order = self.put(stage, reason), PersonOrder(ABORT, PLAN_ID, "ann")
            self.check_dropped(f"the attempt is {stage}{told_reason}")

    def check_dropped(self, why: str) -> None:
        """The order is removed, and what is told of it names it, who gave it, and why."""
        self.assertEqual(self.decision(), Decision(None, takes_order=True, why_dropped=why))
        self.assertEqual(self.written().dropped, f"drops {self.order and self.order.title}: {why}")

    def test_an_order_to_promote_what_is_promoting_is_dropped(self) -> None:
        self.record, self.order = self.put(PROMOTING), PersonOrder(PROMOTE, PLAN_ID, "ann")
        self.check_dropped("the attempt is promoting already")


class Writes(Decisions):
    ALWAYS = {
        Compare("leader", "created", CREATED),
        Compare("members/", "changed", 60),
        Compare("attempt", "changed", 30),
        Compare("plan", "changed", PLAN_ID),
    }

    def test_each_write_compares_what_it_rests_on(self) -> None:
        self.plan = plan_text(max_missing=1)
        self.report(a=READY)
        self.assertEqual(
            set(self.written().compares),
            self.ALWAYS
            | {
                Compare("machines/a", "changed", 40),
                Compare("machines/b", "changed", 0),
                Compare("order", "changed", 0),
            },
        )
        self.report(a=READY, b=FAILED)
        self.assertEqual(
            set(self.written().compares),
            self.ALWAYS | {Compare("machines/b", "changed", 41), Compare("order", "changed", 0)},
        )
        self.order = PersonOrder(ABORT, PLAN_ID, "ann")
        self.assertEqual(
            set(self.written().compares), self.ALWAYS | {Compare("order", "changed", 50)}
        )

    def test_an_abort_that_comes_after_the_read_is_not_passed_over(self) -> None:
        """Each write compares the key of the order, even if no order stood."""
        self.report(a=READY, b=READY)
        for stage, state in ((DEPLOYING, READY), (PROMOTING, PASSED)):
            self.record = self.put(stage)
            self.report(a=state, b=state)
            self.assertIn(Compare("order", "changed", 0), self.written().compares)
        self.record, self.plan_id = self.put(ABORTED), PLAN_ID + 1
        self.assertIn(Compare("order", "changed", 0), self.written().compares)

    def test_what_is_written(self) -> None:
        self.report(a=READY, b=READY)
        write, record = self.written(), dataclasses.replace(
            self.put(PROMOTING), by=CREATED, time=1000
        )
        self.assertEqual(
            (write.puts, write.deletes, write.record), ({"attempt": record.text()}, (), record)
        )

    def test_an_order_that_is_answered_is_deleted(self) -> None:
        self.order = PersonOrder(ABORT, PLAN_ID, "ann")
        self.assertEqual(
            (list(self.written().puts), self.written().deletes), (["attempt"], ("order",))
        )
        self.order = PersonOrder(ABORT, 1, "ann")
        self.assertEqual(
            (self.written().puts, self.written().deletes, self.written().record),
            ({}, ("order",), None),
        )

    def test_what_can_not_be_read_decides_nothing(self) -> None:
        snapshot = self.snapshot()
        newer = json.dumps({**json.loads(snapshot.keys["attempt"].value), "version": 2})
        with self.assertRaisesRegex(UnreadableError, "version is 2"):
            decide(
                snapshot._replace(keys={**snapshot.keys, "attempt": Key(newer, 3, 30, 0)}),
                CREATED,
                LONG,
            )

    def test_a_report_that_can_not_be_read_has_no_word(self) -> None:
        self.report(a=READY, b=READY)
        snapshot = self.snapshot()
        keys = {**snapshot.keys, "machines/b": Key("{}", 5, 41, 2)}
        self.assertIsNone(decide(snapshot._replace(keys=keys), CREATED, LONG))

    def test_an_order_that_can_not_be_read_is_dropped(self) -> None:
        snapshot = self.snapshot()
        write = decide(
            snapshot._replace(keys={**snapshot.keys, "order": Key("x", 50, 50, 0)}), CREATED, LONG
        )
        self.assertEqual(write and (write.puts, write.deletes), ({}, ("order",)))


class Clocks(Decisions):
    def look(self, clock: StageClock, now: float, **states: str) -> Waited:
        self.report(**states)
        return clock.look(self.snapshot(), now)

    def test_all_have_to_be_ready_without_a_break(self) -> None:
        clock = StageClock()
        self.assertEqual(self.look(clock, 100, a=READY, b=READY), Waited(0, 0, 0))
        self.assertEqual(self.look(clock, 103, a=READY, b=READY), Waited(3, 0, 3))
        self.assertEqual(self.look(clock, 104, a=READY, b=WORKING), Waited(0, 1, 4))
        self.assertEqual(self.look(clock, 106, a=READY, b=READY), Waited(0, 0, 6))

    def test_one_more_vote_is_progress(self) -> None:
        clock = StageClock()
        self.look(clock, 100, a=WORKING, b=WORKING)
        self.assertEqual(self.look(clock, 105, a=WORKING, b=WORKING).stuck, 5)
        self.assertEqual(self.look(clock, 106, a=READY, b=WORKING).stuck, 0)
        self.assertEqual(self.look(clock, 108, a=READY, b=WORKING).stuck, 2)
        self.record = self.put(PROMOTING)
        self.look(clock, 110, a=TESTING, b=TESTING)
        self.assertEqual(self.look(clock, 112, a=PASSED, b=TESTING).stuck, 0)

    def test_another_stage_and_another_leader_begin_anew(self) -> None:
        clock = StageClock()
        self.look(clock, 100, a=READY, b=READY)
        self.record = self.put(PROMOTING)
        self.assertEqual(self.look(clock, 110, a=READY, b=READY), Waited(0, 0, 0))
        self.assertEqual(self.look(clock, 112, a=READY, b=READY), Waited(0, 2, 2))
        clock.forget()
        self.assertEqual(self.look(clock, 113, a=READY, b=READY), Waited(0, 0, 3))

    def test_a_stage_lasts_also_while_another_one_leads(self) -> None:
        clock = StageClock()
        self.record = self.put(PROMOTING)
        clock.see(self.record, 100)
        clock.see(self.record, 108)
        self.assertEqual(self.look(clock, 109, a=PASSED, b=TESTING), Waited(0, 0, 9))

    def test_the_time_of_an_outage_does_not_count(self) -> None:
        clock = StageClock()
        self.record = self.put(PROMOTING)
        self.look(clock, 100, a=PASSED, b=TESTING)
        self.look(clock, 103, a=PASSED, b=TESTING)
        clock.lose()
        self.assertEqual(self.look(clock, 203, a=PASSED, b=TESTING).stage, 3)
        self.assertEqual(self.look(clock, 205, a=PASSED, b=TESTING).stage, 5)

    def test_nothing_is_waited_for_between_attempts(self) -> None:
        clock = StageClock()
        self.record = self.put(ABORTED)
        self.assertEqual(self.look(clock, 100, a=READY, b=READY), Waited())
        self.record = None
        self.assertEqual(self.look(clock, 101, a=READY, b=READY), Waited())


class Awaited(Decisions):
    def check(self, *texts: str) -> None:
        self.assertEqual(awaited_of(self.snapshot()), list(texts))

    def test_what_is_awaited_from_whom(self) -> None:
        self.report(a=WORKING)
        self.check("a: working", "b: is away")
        self.report(a=READY, b=READY)
        self.check("the leader")
        self.plan = plan_text(seconds=30)
        self.check("30 seconds in which all are ready")
        self.plan = plan_text(by_hand=True)
        self.check("a person's promote")
        self.record = self.put(PROMOTING)
        self.report(a=PASSED, b=TESTING)
        self.check("b: testing")
        self.report(a=PASSED, b=PASSED)
        self.check()
        self.plan = plan_text(max_missing=1)
        self.report(a=TESTING)
        self.check("a: testing")
        self.record = self.put(ABORTED)
        self.reports = {"a": told(FOLLOWS), "b": told(WORKING, reason="catches up with web-v1")}
        self.check("b: working, catches up with web-v1")
        self.reports["b"] = told(FOLLOWS)
        self.check()
        del self.reports["b"]
        self.check("b: is away")

    def test_before_the_first_record(self) -> None:
        self.record, self.plan = None, None
        self.check("a plan")
        self.plan = plan_text()
        self.check("a: a report", "b: a report")
        self.report(a=WORKING, b=WORKING)
        self.check()
        self.reports = {}
        self.members = []
        self.check("members")


if __name__ == "__main__":
    unittest.main()
