"""bin/fleet wait: when each condition holds, may come, and can't come any more; and how a wait
ends."""
import json
import unittest
from unittest import mock

from bg_switch_tools.fleet.person.conditions import FleetConditions
from bg_switch_tools.fleet.person.wait import wait_for_change
from bg_switch_tools.fleet.record.record import ATTEMPT, MACHINES, MEMBERS, PLAN
from bg_switch_tools.fleet.store.store import StoreError, StoreRefusedError
from bg_switch_tools.switch.conditions import HOLDS, MAY_COME, Outlook
from support.processes import Run
from tests.fleet_people import HOSTS, V1, V2, V3, WithFleet

NEVER = "cannot hold unless another plan is put"


class Outlooks(WithFleet):
    def outlook(self, *texts: str) -> Outlook:
        return FleetConditions(texts).outlook(self.others.read())

    def check_never(self, text: str, why: str) -> None:
        self.assertEqual(self.outlook(text), Outlook(False, f"{text} {NEVER}: {why}"))

    def test_by_stage(self) -> None:
        rows: tuple[tuple[str, tuple[str, ...]], ...] = (
            ("deploying", ("ready", "promoting", "successful", "aborted")),
            ("promoting", ("successful", "aborted")),
            ("successful", ()),
            ("aborted", ()),
        )
        for stage, coming in rows:
            self.begin(stage, "working")
            for awaited in ("deploying", "ready", "promoting", "successful", "aborted"):
                with self.subTest(stage=stage, awaited=awaited):
                    outlook = self.outlook(f"web-v2={awaited}")
                    self.assertEqual(
                        (outlook.holds, not outlook.holds and not outlook.never),
                        (awaited == stage, awaited in coming),
                    )

    def test_why_it_can_not_come(self) -> None:
        self.put_record("aborted", reason="web-2: analysis post: failed")
        self.check_never(
            "web-v2=successful",
            "attempt 6 of web-v2 is over: aborted, web-2: analysis post: failed",
        )
        self.begin("successful")
        self.check_never("web-v2=aborted", "attempt 6 of web-v2 is over: successful")
        self.check_never("web-v3=successful", "plan 6 deploys web-v2")
        self.begin("promoting")
        self.check_never("web-v2=ready", "attempt 6 of web-v2 is past it: promoting")

    def test_ready(self) -> None:
        self.begin(state="ready")
        self.assertEqual(self.outlook("web-v2=ready"), HOLDS)
        self.report("working", "web-3")
        self.assertEqual(self.outlook("web-v2=ready"), MAY_COME)
        self.delete(f"{MACHINES}web-3")
        self.assertEqual(self.outlook("web-v2=ready"), MAY_COME)

    def test_a_plan_that_waits(self) -> None:
        """The attempt before it counts no more, also one of the same revision."""
        self.put_record("aborted")
        plan_id = self.put_plan(V1, V2)
        for stage in ("successful", "aborted", "deploying"):
            self.assertEqual(self.outlook(f"web-v2={stage}"), MAY_COME)
        self.put_record("successful", id=6)
        self.assertEqual(self.outlook("web-v2=successful"), MAY_COME)
        self.check_never("web-v1=successful", f"plan {plan_id} deploys web-v2")

    def test_one_that_was_successful_before_another_plan_was_put(self) -> None:
        self.begin("successful")
        self.put_plan(V2, V3)
        self.assertEqual(self.outlook("web-v2=successful"), HOLDS)
        for stage in ("deploying", "promoting", "aborted"):
            self.put_record(stage, V3, V2)
            self.assertEqual(self.outlook("web-v2=successful"), HOLDS)
            self.assertNotEqual(self.outlook("web-v2=aborted").never, "")
        self.put_record("successful", V3, V2)
        self.check_never("web-v2=successful", "plan 11 deploys web-v3")

    def test_an_attempt_that_another_plan_ends(self) -> None:
        self.begin()
        plan_id = self.put_plan(V2, V3)
        self.check_never("web-v2=successful", f"plan {plan_id} deploys web-v3")
        self.assertEqual(self.outlook("web-v3=successful"), MAY_COME)

    def test_before_the_first_attempt(self) -> None:
        self.assertEqual(
            (self.outlook("web-v2=successful"), self.outlook("settled")), (MAY_COME, MAY_COME)
        )
        self.check_never("web-v1=successful", "plan 6 deploys web-v2")
        for host in HOSTS:
            self.delete(MEMBERS + host)
        self.check_never("web-v2=successful", "the fleet has no member")
        self.check_never("settled", "the fleet has no member")
        self.delete(PLAN)
        self.check_never("web-v2=successful", "no plan was put")
        self.check_never("settled", "no plan was put")

    def test_settled(self) -> None:
        for stage in ("successful", "aborted"):
            self.begin(stage, "follows")
            self.assertEqual(self.outlook("settled"), HOLDS)
            self.report("working", "web-2")
            self.assertEqual(self.outlook("settled"), MAY_COME)
        for stage in ("deploying", "promoting"):
            self.begin(stage, "follows")
            self.assertEqual(self.outlook("settled"), MAY_COME)

    def test_settled_with_the_report_of_a_machine_that_has_gone(self) -> None:
        """The report of an agent that was killed stands until its lease ends."""
        self.begin("successful", "follows")
        self.report("follows", "web-2", stable="web-v1")
        self.assertEqual(self.outlook("settled"), MAY_COME)

    def test_settled_with_a_plan_that_waits(self) -> None:
        self.begin("successful", "follows")
        self.put_plan(V2, V3)
        self.assertEqual(self.outlook("settled"), MAY_COME)

    def test_settled_with_members_that_are_away(self) -> None:
        for most, outlook in ((0, MAY_COME), (1, HOLDS)):
            self.put_plan(V1, V2, fleet={"max_missing": most})
            self.begin("successful", "follows")
            self.delete(f"{MACHINES}web-3")
            self.assertEqual(self.outlook("settled"), outlook)

    def test_several(self) -> None:
        self.begin("successful", "follows")
        self.assertEqual(self.outlook("web-v2=successful", "settled"), HOLDS)
        self.report("working", "web-1")
        self.assertEqual(self.outlook("web-v2=successful", "settled"), MAY_COME)
        self.assertEqual(self.outlook("settled", "web-v2=aborted").never[:16], "web-v2=aborted c")

    def test_what_can_not_be_read(self) -> None:
        self.put(PLAN, "[]")
        self.assertEqual(
            self.outlook("settled").never, "the plan is wrong: the plan: [] is not an object"
        )
        self.put_plan(V1, V2)
        self.put(ATTEMPT, '{"version": 2}')
        self.assertIn("its version is 2", self.outlook("web-v2=aborted").never)


class Waits(WithFleet):
    def setUp(self) -> None:
        super().setUp()
        pause = mock.patch("bg_switch_tools.fleet.person.wait.PAUSE", 0.01)
        pause.start()
        self.addCleanup(pause.stop)

    def wait(self, *words: str) -> Run:
        """A run that waits for some seconds at most, so that one that should end early is seen not
        to."""
        return self.fleet("wait", *words, *(() if "--timeout" in words else ("--timeout", "5")))

    def test_until_it_is_successful(self) -> None:
        self.begin()
        self.store.during_waits = [
            lambda: None,
            lambda: self.begin("promoting", "testing"),
            lambda: self.begin("successful", "follows"),
        ]
        self.assertEqual(
            self.wait("web-v2=successful"),
            (
                "attempt 6 of web-v2: successful\n",
                "fleet: attempt 6 of web-v2: deploying; waits for web-1: working, web-2: working, web-3: working\n"
                "fleet: attempt 6 of web-v2: promoting; waits for web-1: testing, web-2: testing, web-3: testing\n",
                0,
            ),
        )

    def test_until_it_was_aborted(self) -> None:
        self.begin()
        self.store.during_waits = [lambda: self.put_record("aborted", reason="ordered by bob")]
        run = self.wait("web-v2=successful")
        self.assertEqual((run.printed, run.status), ("", 1))
        self.assertEqual(
            run.told.splitlines()[-1],
            f"fleet: web-v2=successful {NEVER}: attempt 6 of web-v2 is over: aborted, ordered by bob",
        )

    def test_until_the_time_is_over(self) -> None:
        self.begin()
        run = self.wait("web-v2=successful", "--timeout", "0.1")
        self.assertEqual((run.printed, run.status), ("", 4))
        self.assertEqual(
            run.told.splitlines()[-1], "fleet: web-v2=successful does not hold after 0.1 seconds"
        )

    def test_without_time_it_looks_once(self) -> None:
        self.begin("successful")
        self.assertEqual(self.wait("web-v2=successful", "--timeout", "0").status, 0)
        self.assertEqual(self.wait("web-v2=aborted", "--timeout", "0").status, 1)
        self.begin()
        self.assertEqual(self.wait("web-v2=aborted", "--timeout", "0").status, 4)

    def test_the_plan_was_put_just_before(self) -> None:
        """The attempt that was aborted before is not the one that is awaited."""
        self.begin("aborted", "follows")
        self.assertEqual(self.fleet("retry").status, 0)
        self.store.during_waits = [lambda: self.put_record("successful")]
        self.assertEqual(self.wait("web-v2=successful").status, 0)

    def test_a_store_that_comes_back(self) -> None:
        self.begin("successful", "follows")
        self.store.is_cut = True
        with mock.patch(
            "bg_switch_tools.fleet.person.wait.time.sleep",
            side_effect=lambda _: setattr(self.store, "is_cut", False),
        ):
            run = self.wait("settled")
        self.assertEqual(run, ("attempt 6 of web-v2: successful\n", "fleet: it is away\n", 0))

    def test_a_store_that_refuses_the_reads(self) -> None:
        with mock.patch.object(
            self.store, "read", side_effect=StoreRefusedError("etcd denies this to the user guest")
        ):
            self.assertEqual(
                self.wait("settled"), ("", "fleet: etcd denies this to the user guest\n", 4)
            )

    def test_a_store_that_stays_away(self) -> None:
        self.store.is_cut = True
        self.assertEqual(
            self.wait("settled", "--timeout", "0.1"),
            (
                "",
                "fleet: it is away\nfleet: settled does not hold after 0.1 seconds: it is away\n",
                4,
            ),
        )

    def test_a_watch_that_is_lost_ends_nothing(self) -> None:
        self.begin()

        def cut() -> None:
            self.begin("successful", "follows")
            self.store.is_cut = True

        self.store.during_waits = [cut]
        with mock.patch(
            "bg_switch_tools.fleet.person.wait.time.sleep",
            side_effect=lambda _: setattr(self.store, "is_cut", False),
        ):
            self.assertEqual(self.wait("settled").status, 0)

    def test_a_store_without_events_is_not_asked_again_and_again(self) -> None:
        slept, away = list[float](), StoreError("it gives no events")
        with mock.patch.object(self.store, "wait", side_effect=away), mock.patch(
            "bg_switch_tools.fleet.person.wait.time.sleep", slept.append
        ):
            wait_for_change(self.store, 5, 2.0)
        self.assertGreater(sum(slept), 1.9)

    def test_json(self) -> None:
        self.begin("aborted", "follows")
        for text, status in (("web-v2=aborted", 0), ("web-v2=successful", 1)):
            run = self.wait(text, "--json")
            told = json.loads(run.printed)
            self.assertEqual(
                (run.status, told["status"], told["fleet"]["attempt"]["stage"]),
                (status, status, "aborted"),
            )
            self.assertEqual(
                told["reason"],
                None if status == 0 else f"{text} {NEVER}: attempt 6 of web-v2 is over: aborted",
            )
        self.store.is_cut = True
        self.assertEqual(
            json.loads(self.wait("settled", "--json", "--timeout", "0").printed),
            {
                "status": 4,
                "reason": "settled does not hold after 0 seconds: it is away",
                "fleet": None,
            },
        )

    def test_words_that_are_wrong(self) -> None:
        for text, why in (
            (
                "web-v2",
                "web-v2: a condition is needed, one of NAME=STAGE (a stage is one of deploying, ready, promoting, "
                "successful, aborted), settled",
            ),
            (
                "Web=aborted",
                "Web=aborted: the name of a revision is needed before the =, such as web-v2",
            ),
            (
                "web-v2=succesful",
                "web-v2=succesful: a stage is needed after the =, one of deploying, ready, promoting, "
                "successful, aborted; the nearest is successful",
            ),
        ):
            run = self.wait(text)
            self.assertEqual((run.told.splitlines()[-1], run.status), (f"fleet: error: {why}", 2))
        self.assertEqual(self.fleet("wait").status, 2)
        self.assertEqual(self.wait("settled", "--timeout", "-1").status, 2)


if __name__ == "__main__":
    unittest.main()
