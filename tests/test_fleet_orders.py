"""bin/fleet promote and abort: what is refused, what is written, what a leader makes of it, and
races with others."""
import unittest

from bg_switch_tools.fleet.agent.candidate import Candidate, Clocks
from bg_switch_tools.fleet.person.person_orders import MOVED_ON, TRIES
from bg_switch_tools.fleet.record.record import ABORT, LEADER, MEMBERS, ORDER, PROMOTE, PersonOrder
from tests.fleet_people import HOSTS, V1, V2, V3, WithFleet
from tests.memory_store import MemoryStore


WAITS = "; waits for web-1: ready, web-2: ready, web-3: ready"  # what is awaited after the end


class Orders(WithFleet):
    """Orders for the attempt of a plan that waits for a person."""

    def setUp(self) -> None:
        super().setUp()
        self.plan_id = self.put_plan(V1, V2, fleet={"by_hand": True})

    def check_put(self, order: str, by: str = "alice") -> None:
        self.assertEqual(self.view.order, PersonOrder(order, self.plan_id, by))


class Put(Orders):
    def test_promote_where_all_are_ready(self) -> None:
        self.begin(state="ready")
        self.assertEqual(
            self.fleet("promote"), ("promote is ordered for attempt 7 of web-v2\n", "", 0)
        )
        self.check_put(PROMOTE)

    def test_promote_ends_the_wait_of_a_plan_that_waits_for_seconds(self) -> None:
        self.plan_id = self.put_plan(V1, V2, fleet={"seconds": 600})
        self.begin(state="ready")
        self.assertEqual(
            self.fleet("promote")[::2], ("promote is ordered for attempt 8 of web-v2\n", 0)
        )
        self.check_put(PROMOTE)

    def test_promote_without_those_that_may_be_missing(self) -> None:
        self.plan_id = self.put_plan(V1, V2, fleet={"by_hand": True, "max_missing": 1})
        self.put_record("deploying")
        self.report("ready", "web-1", "web-3")
        self.assertEqual(self.fleet("promote").status, 0)
        self.check_put(PROMOTE)

    def test_abort_in_each_stage_that_runs(self) -> None:
        for stage in ("deploying", "promoting"):
            self.begin(stage)
            self.assertEqual(
                self.fleet("abort"), ("abort is ordered for attempt 7 of web-v2\n", "", 0)
            )
            self.check_put(ABORT)
            self.delete(ORDER)

    def test_abort_takes_the_place_of_a_promote(self) -> None:
        self.begin()
        self.put_order(PROMOTE)
        self.assertEqual(self.fleet("abort").status, 0)
        self.check_put(ABORT)

    def test_an_order_for_another_attempt_does_not_stand_in_the_way(self) -> None:
        self.begin(state="ready")
        for text in (PersonOrder(ABORT, 3, "bob").text(), "abort!"):
            self.put(ORDER, text)
            self.assertEqual(self.fleet("promote").status, 0)
            self.check_put(PROMOTE)

    def test_the_attempt_that_was_seen(self) -> None:
        self.begin()
        self.assertEqual(self.fleet("abort", "--attempt", "7").status, 0)
        self.check_put(ABORT)

    def test_an_attempt_of_an_etcd_that_is_used_a_lot(self) -> None:
        self.keys.revision = 1 << 62
        self.plan_id = self.put_plan(V1, V2)
        self.begin()
        self.assertEqual(self.fleet("abort", "--attempt", str(self.plan_id)).status, 0)
        self.check_put(ABORT)

    def test_without_a_leader_it_stands(self) -> None:
        self.begin()
        self.delete(LEADER)
        self.assertEqual(
            self.fleet("abort"),
            (
                "abort is ordered for attempt 7 of web-v2\n",
                "fleet: no agent leads now: the order stands until one does\n",
                0,
            ),
        )

    def test_what_a_leader_makes_of_it(self) -> None:
        self.delete(LEADER)
        leader = Candidate(
            "web-1",
            MemoryStore(self.keys, "web-1"),
            lambda *_: None,
            Clocks(lambda: 0.0, lambda: 0.0),
        )
        leader.do_round()
        for order, stage, reason in (
            (PROMOTE, "promoting", "ordered by alice"),
            (ABORT, "aborted", "ordered by alice"),
        ):
            self.begin(state="ready")
            self.assertFalse(leader.do_round())  # it waits for a person
            self.assertEqual(self.fleet(order).status, 0)
            self.assertTrue(leader.do_round())
            record = self.view.record
            self.assertEqual(
                record and (record.id, record.stage, record.reason), (7, stage, reason)
            )
            self.assertIsNone(self.view.order)


class Refused(Orders):
    def test_before_the_first_attempt(self) -> None:
        self.check_refused("no attempt has begun", "promote")
        self.check_refused("no attempt has begun", "abort")

    def test_after_an_attempt(self) -> None:
        for order in (PROMOTE, ABORT):
            self.begin("aborted")
            self.check_refused(
                "attempt 7 of web-v2 was aborted already; `retry` begins it again", order
            )
            self.begin("successful")
            self.check_refused(
                "attempt 7 of web-v2 is successful already; `undo` takes the revision before it again",
                order,
            )

    def test_after_an_attempt_while_a_plan_waits(self) -> None:
        for stage, how in (("successful", "is successful"), ("aborted", "was aborted")):
            self.put_plan(V1, V2)
            self.put_record(stage)
            record, plan_id = self.view.record, self.put_plan(V2, V3)
            self.check_refused(
                f"attempt {record.id if record else 0} of web-v2 {how} already, and plan {plan_id} waits for a leader; `undo` takes "
                "the plan back",
                "abort",
            )

    def test_an_attempt_that_has_moved_on(self) -> None:
        self.put_plan(V2, V3)
        self.put_record("deploying", V3, V2)
        self.report("ready")
        for order in (PROMOTE, ABORT):
            self.check_refused(
                "attempt 7 is not that of the fleet now: attempt 8 of web-v3 is deploying",
                order,
                "--attempt",
                "7",
            )

    def test_promote_where_not_all_are_ready(self) -> None:
        self.begin()
        self.report("ready", "web-2")
        self.delete("machines/web-3")
        self.check_refused(
            "attempt 7 of web-v2 can't be promoted yet, since not all members are ready: web-1, web-3",
            "promote",
        )
        for host in HOSTS:
            self.delete(MEMBERS + host)
        self.check_refused(
            "attempt 7 of web-v2 can't be promoted yet, since not all members are ready: there is no member",
            "promote",
        )

    def test_promote_of_reports_on_another_attempt(self) -> None:
        self.begin()
        self.report("ready", attempt=6)
        self.check_refused(
            "attempt 7 of web-v2 can't be promoted yet, since not all members are ready: web-1, web-2, web-3",
            "promote",
        )

    def test_promote_twice(self) -> None:
        self.begin("promoting", "testing")
        self.check_refused("attempt 7 of web-v2 is promoting already", "promote")

    def test_promote_of_an_attempt_that_another_plan_ends(self) -> None:
        self.begin(state="ready")
        self.put_plan(V2, V3)
        self.check_refused(
            "another plan was put, by which attempt 7 of web-v2 is aborted", "promote"
        )

    def test_while_another_order_stands(self) -> None:
        self.begin(state="ready")
        for standing, order in ((PROMOTE, PROMOTE), (ABORT, PROMOTE), (ABORT, ABORT)):
            self.put_order(standing)
            self.check_refused(
                f"the order {standing} for attempt 7 of web-v2, by bob, stands already; no leader has answered it",
                order,
            )

    def test_a_record_of_another_version(self) -> None:
        self.put("attempt", '{"version": 2}')
        self.check_refused(
            "the record of the attempt can't be read: its version is 2, and this program knows version 1",
            "abort",
        )


class Races(Orders):
    """What others do between the read and the write."""

    def check_race(self, order: str) -> None:
        self.assertEqual(self.fleet(order), ("", f"fleet: {MOVED_ON}\n", 1))
        self.assertEqual(self.store.writes, 1)

    def check_aborted(self, told: str = "") -> None:
        """An abort is put at the second try."""
        self.assertEqual(
            self.fleet("abort"), ("abort is ordered for attempt 7 of web-v2\n", told, 0)
        )
        self.assertEqual(self.store.writes, 2)
        self.check_put(ABORT)

    def test_the_attempt_moves_on(self) -> None:
        self.begin(state="ready")
        self.store.before_writes = [lambda: self.put_record("promoting")]
        self.check_race(PROMOTE)
        self.assertIsNone(self.view.order)

    def test_an_abort_is_tried_again_while_the_attempt_moves_on(self) -> None:
        self.begin(state="ready")
        self.store.before_writes = [lambda: self.put_record("promoting")]
        self.check_aborted()

    def test_an_abort_is_for_the_attempt_of_its_first_read(self) -> None:
        self.begin(state="ready")
        self.store.before_writes = [lambda: self.put_record("deploying", id=9)]
        self.assertEqual(
            self.fleet("abort"),
            (
                "",
                "fleet: attempt 7 is not that of the fleet now: attempt 9 of web-v2 is deploying\n",
                1,
            ),
        )
        self.assertIsNone(self.view.order)

    def test_an_abort_that_finds_no_moment(self) -> None:
        self.begin(state="ready")
        self.store.before_writes = [lambda: self.put_record("promoting")] * TRIES
        self.assertEqual(self.fleet("abort"), ("", f"fleet: {MOVED_ON}\n", 1))
        self.assertEqual(self.store.writes, TRIES)

    def test_another_attempt_of_the_same_revision(self) -> None:
        self.begin(state="ready")
        self.store.before_writes = [lambda: self.put_record("deploying", id=9)]
        self.check_race(PROMOTE)

    def test_another_plan_is_put(self) -> None:
        self.begin(state="ready")
        self.store.before_writes = [lambda: self.put_plan(V2, V3)]
        self.check_race(PROMOTE)

    def test_two_orders(self) -> None:
        self.begin(state="ready")
        self.store.before_writes = [lambda: self.put_order(ABORT)]
        self.check_race(PROMOTE)
        self.check_put(ABORT, "bob")

    def test_a_promote_before_an_abort(self) -> None:
        self.begin(state="ready")
        self.store.before_writes = [lambda: self.put_order(PROMOTE)]
        self.check_aborted("fleet: it takes the place of the order promote for attempt 7, by bob\n")

    def test_an_order_that_a_leader_answers_meanwhile(self) -> None:
        self.begin(state="ready")
        self.put_order(PROMOTE)
        self.store.before_writes = [lambda: self.delete(ORDER)]
        self.check_aborted()


class Waits(Orders):
    """`--wait` tells how the attempt has ended."""

    def check_end(
        self, order: str, stage: str, reason: str, ended: str, status: int, **others: object
    ) -> None:
        self.begin(state="ready")
        self.store.during_waits = [lambda: self.put_record(stage, reason=reason, **others)]  # type: ignore[arg-type]
        run = self.fleet(order, "--wait", "--timeout", "50")
        self.assertEqual(run.status, status, run)
        self.assertEqual(
            (run.printed + run.told.splitlines()[-1]).splitlines()[-1 if status else 1], ended
        )
        self.delete(ORDER)

    def test_an_abort(self) -> None:
        ended = "attempt 7 of web-v2: aborted, ordered by alice"
        self.check_end(ABORT, "aborted", "ordered by alice", f"{ended}{WAITS}", 0)

    def test_an_abort_of_an_attempt_that_another_plan_has_ended(self) -> None:
        ended = "attempt 7 of web-v2: aborted, another plan was put"
        self.check_end(ABORT, "aborted", "another plan was put", f"{ended}{WAITS}", 0)

    def test_a_promote(self) -> None:
        self.check_end(PROMOTE, "successful", "", f"attempt 7 of web-v2: successful{WAITS}", 0)

    def test_a_promote_that_is_not_carried_out(self) -> None:
        ended = "fleet: attempt 7=successful cannot come any more: attempt 7 of web-v2 has ended otherwise: aborted, web-2: why"
        self.check_end(PROMOTE, "aborted", "web-2: why", ended, 1)

    def test_an_attempt_that_was_followed_by_another_one(self) -> None:
        ended = "fleet: attempt 7=aborted cannot come any more: how it has ended is not known: attempt 9 of web-v2 is deploying"
        self.check_end(ABORT, "deploying", "", ended, 1, id=9)

    def test_a_time_that_is_over(self) -> None:
        self.begin(state="ready")
        run = self.fleet(ABORT, "--wait", "--timeout", "0.1")
        self.assertEqual(run.status, 4)
        self.assertIn("attempt 7=aborted does not hold after 0.1 seconds", run.told)


class Asked(Orders):
    def test_at_a_terminal(self) -> None:
        question = "abort attempt 7 of web-v2, which is deploying? [y/N] "
        self.begin()
        for answer in ("n", "", "yess"):
            self.assertEqual(
                self.fleet("abort", lines=f"{answer}\n", at_terminal=True),
                ("", f"{question}fleet: nothing was changed\n", 1),
            )
        self.assertEqual(self.fleet("abort", lines="", at_terminal=True).status, 1)
        self.assertEqual(self.store.writes, 0)
        self.assertEqual(
            self.fleet("abort", lines="y\n", at_terminal=True),
            ("abort is ordered for attempt 7 of web-v2\n", question, 0),
        )
        self.check_put(ABORT)

    def test_who_is_sure_is_not_asked(self) -> None:
        self.begin()
        self.assertEqual(
            self.fleet("abort", "--yes", at_terminal=True),
            ("abort is ordered for attempt 7 of web-v2\n", "", 0),
        )

    def test_what_moves_on_during_the_question(self) -> None:
        self.begin()
        self.store.before_writes = [lambda: self.put_record("aborted", reason="web-2: post failed")]
        self.assertEqual(self.fleet("abort", lines="y\n", at_terminal=True).status, 1)
        self.assertIsNone(self.view.order)


if __name__ == "__main__":
    unittest.main()
