"""bin/fleet status and watch: the text and the JSON, byte for byte."""
import json
import unittest
from unittest import mock

from bg_switch_tools.fleet.person import watch as watching
from bg_switch_tools.fleet.record.record import (
    ATTEMPT,
    LEADER,
    MACHINES,
    MEMBERS,
    ORDER,
    PLAN,
    View,
)
from bg_switch_tools.fleet.record.status import status_of
from bg_switch_tools.fleet.record.status_text import draw, in_one_line
from tests.fleet_people import HOSTS, MOMENT, V1, V2, V3, WithFleet

NOT_BEGUN = """\
fleet web: led by web-1
no attempt has begun
plan 6 waits for a leader: its last revision is web-v2
waits for web-1: a report; web-2: a report; web-3: a report
   MEMBER  STATE  PHASE  ACTIVE  PREVIEW  STABLE  AWAITED  REASON
├─ web-1   away
├─ web-2   away
└─ web-3   away
"""
RUNNING = """\
fleet web: led by web-1, stable web-v1
attempt 6 of web-v2: deploying since 2026-09-21T14:13:20+00:00, by the leader web-1
order: abort attempt 6, by bob; no leader has answered it
waits for web-2: working, deploy web-v2 9201 9202: refused PortsDiffer; web-3: is away
   MEMBER  STATE               PHASE    ACTIVE  PREVIEW  STABLE  AWAITED  REASON
├─ web-1   ready               paused   web-v1  web-v2   web-v1
├─ web-2   working             scaling  web-v1  web-v2   web-v1  ready    deploy web-v2 9201 9202: refused PortsDiffer
├─ web-3   away                                                  ready
└─ web-9   follows, no member  paused   web-v1  web-v2   web-v1
"""
ABORTED = """\
fleet web: led by web-1, stable web-v1
attempt 6 of web-v2: aborted since 2026-09-21T14:13:20+00:00, by the leader web-1
reason: web-2: analysis post: failed
waits for web-2: working
   MEMBER  STATE    PHASE    ACTIVE  PREVIEW  STABLE  AWAITED  REASON
├─ web-1   follows  aborted  web-v1  web-v1   web-v1
├─ web-2   working  aborted  web-v1  web-v1   web-v1  follows
└─ web-3   follows  aborted  web-v1  web-v1   web-v1
"""


class Status(WithFleet):
    def put_running(self) -> None:
        """An attempt that runs, with all that a status can have beside it."""
        self.put_record("deploying")
        self.report("ready", "web-1")
        self.report(
            "working",
            "web-2",
            phase="scaling",
            reason="deploy web-v2 9201 9202: refused PortsDiffer",
        )
        self.report("follows", "web-9", attempt=0)
        self.put_order("abort")

    def put_aborted(self) -> None:
        self.put_record("aborted", reason="web-2: analysis post: failed")
        self.report("follows", phase="aborted", preview="web-v1", attempt=0)
        self.report("working", "web-2", phase="aborted", preview="web-v1", attempt=0)


class Texts(Status):
    def test_before_the_first_attempt(self) -> None:
        self.assertEqual(self.fleet("status"), (NOT_BEGUN, "", 1))

    def test_an_attempt_that_runs(self) -> None:
        self.put_running()
        self.assertEqual(self.fleet("status"), (RUNNING, "", 0))

    def test_an_attempt_that_was_aborted(self) -> None:
        self.put_aborted()
        self.assertEqual(self.fleet("status"), (ABORTED, "", 1))

    def test_an_attempt_that_was_successful(self) -> None:
        self.put_record("successful")
        self.report("follows", phase="steady", active="web-v2", stable="web-v2")
        run = self.fleet("status")
        self.assertEqual(
            run.printed.splitlines()[:3],
            [
                "fleet web: led by web-1, stable web-v2",
                "attempt 6 of web-v2: successful since 2026-09-21T14:13:20+00:00, by the leader web-1",
                "   MEMBER  STATE    PHASE   ACTIVE  PREVIEW  STABLE  AWAITED  REASON",
            ],
        )
        self.assertEqual((run.told, run.status), ("", 0))

    def lines(self) -> list[str]:
        return draw(status_of("web", self.others.read()))

    def test_a_plan_that_waits_and_a_leader_that_is_missing(self) -> None:
        self.put_record("successful")
        self.report("follows")
        self.put_plan(V2, V3)
        self.delete(LEADER)
        self.assertEqual(
            self.lines()[:4],
            [
                "fleet web: no leader, stable web-v2",
                "attempt 6 of web-v2: successful since 2026-09-21T14:13:20+00:00",
                "plan 11 waits for a leader: its last revision is web-v3",
                "waits for a leader",
            ],
        )

    def test_another_leader_than_the_one_that_wrote(self) -> None:
        self.put_record("successful", time=0)
        self.delete(LEADER)
        self.put(LEADER, "web-2")
        self.assertEqual(
            self.lines()[:2],
            ["fleet web: led by web-2, stable web-v2", "attempt 6 of web-v2: successful"],
        )

    def test_a_member_that_the_attempt_goes_on_without(self) -> None:
        self.put_plan(V2, V3, fleet={"max_missing": 1})
        self.put_record("deploying")
        self.report("ready", "web-1", "web-2", phase="paused")
        self.assertEqual(self.lines()[-1], "└─ web-3   away, no vote")
        self.put_record("promoting", missing=["web-3"])
        self.report("passed", "web-1", phase="postAnalysis")
        self.report("working", "web-3", phase="scaling")
        self.assertEqual(
            [line.split()[1:3] for line in self.lines()[-3:]],
            [["web-1", "passed"], ["web-2", "ready"], ["web-3", "working,"]],
        )
        self.assertEqual(
            [line.rstrip().endswith(" passed") for line in self.lines()[-3:]], [False, True, False]
        )

    def test_too_many_that_are_away_are_awaited(self) -> None:
        self.put_plan(V2, V3, fleet={"max_missing": 1})
        self.put_record("deploying")
        self.report("ready", "web-1")
        self.assertEqual(
            [member.awaited for member in status_of("web", self.others.read()).members],
            ["", "ready", "ready"],
        )

    def test_a_fleet_without_a_member_and_without_a_plan(self) -> None:
        for name in (*(MEMBERS + host for host in HOSTS), PLAN):
            self.delete(name)
        self.assertEqual(
            self.lines(),
            [
                "fleet web: led by web-1",
                "no attempt has begun",
                "no plan was put",
                "waits for a plan",
                "the fleet has no member",
            ],
        )

    def test_what_can_not_be_read_is_said(self) -> None:
        self.begin()
        self.put(ORDER, "promote!")
        self.assertIn(
            "problem: the order can't be read, so a leader drops it: it is not JSON: Expecting value: line 1 column 1 (char 0)",
            self.lines(),
        )
        self.put(ATTEMPT, '{"version": 2}')
        run = self.fleet("status")
        self.assertIn("the attempt is not known\n", run.printed)
        self.assertIn(
            "problem: the record of the attempt can't be read: its version is 2, and this program knows version 1",
            run.printed,
        )
        self.assertEqual((run.told, run.status), ("", 1))
        self.put(PLAN, "[]")
        self.assertIn("the plan is wrong: ", self.fleet("status").printed)

    def test_a_plan_that_is_none_blocks_no_attempt_and_is_said(self) -> None:
        """What is awaited is still told, since the attempt goes on by the plan that it began
        with."""
        for text, problem in (
            ("{", "problem: no attempt begins: the plan is wrong: it is not JSON"),
            ("", "problem: no attempt begins: there is no plan"),
        ):
            self.put_plan(V1, V2)
            kept = View(self.others.read()).plan
            self.put_record("promoting", plan=kept)
            self.report("testing")
            self.put(PLAN, text) if text else self.delete(PLAN)
            printed = self.fleet("status").printed
            self.assertIn(problem, printed)
            self.assertIn("waits for web-1: testing; web-2: testing; web-3: testing", printed)
            self.assertNotIn("waits for a leader", printed)
            self.assertNotIn("no plan was put", printed)

    def test_no_text_from_the_store_moves_the_cursor(self) -> None:
        self.put_record("aborted", reason="\x1b[2J\nweb-1 follows")
        self.report("failed", reason="\x1b]0;title\x07", phase="\x9b1m")
        self.put_order("abort", by="\x1b[31mbob")
        run = self.fleet("status")
        self.assertEqual(
            [each for each in run.printed if not each.isprintable() and each != "\n"], []
        )
        self.assertEqual(len(run.printed.splitlines()), 9)
        self.assertIn("reason: ?[2J?web-1 follows\n", run.printed)

    def test_a_time_that_no_clock_has(self) -> None:
        self.put_record("aborted", time=(1 << 63) - 1)
        self.assertEqual(self.lines()[1], "attempt 6 of web-v2: aborted, by the leader web-1")


class Json(Status):
    def told(self) -> dict[str, object]:
        run = self.fleet("status", "--json")
        self.assertEqual(run.told, "")
        value: dict[str, object] = json.loads(run.printed)
        return value

    def test_an_attempt_that_runs(self) -> None:
        self.put_running()
        none = dict.fromkeys(
            ("phase", "active", "preview", "stable", "newest", "reason", "attempt", "available")
        )
        there = {
            "phase": "paused",
            "active": "web-v1",
            "preview": "web-v2",
            "stable": "web-v1",
            "newest": "web-v2",
            "available": 2,
            "reason": None,
            "attempt": 6,
            "has_vote": True,
            "awaited": None,
        }
        self.assertEqual(
            self.told(),
            {
                "fleet": "web",
                "store_revision": 11,
                "leader": "web-1",
                "attempt": {
                    "id": 6,
                    "revision": "web-v2",
                    "ports": [9201, 9202],
                    "stable": "web-v1",
                    "stage": "deploying",
                    "reason": None,
                    "since": MOMENT,
                    "written_by": "web-1",
                    "missing": [],
                },
                "plan": {"id": 6, "last": "web-v2", "waits": False},
                "order": {"order": "abort", "attempt": 6, "by": "bob"},
                "members": [
                    {**there, "host": "web-1", "state": "ready"},
                    {
                        **there,
                        "host": "web-2",
                        "state": "working",
                        "phase": "scaling",
                        "awaited": "ready",
                        "reason": "deploy web-v2 9201 9202: refused PortsDiffer",
                    },
                    {
                        **none,
                        "host": "web-3",
                        "state": "away",
                        "has_vote": True,
                        "awaited": "ready",
                    },
                ],
                "others": [
                    {
                        **there,
                        "host": "web-9",
                        "state": "follows",
                        "has_vote": False,
                        "attempt": None,
                    }
                ],
                "awaited": [
                    "web-2: working, deploy web-v2 9201 9202: refused PortsDiffer",
                    "web-3: is away",
                ],
                "problem": None,
            },
        )

    def test_its_bytes(self) -> None:
        """The order of the keys, and one line."""
        for host in HOSTS:
            self.delete(MEMBERS + host)
        self.put_record("aborted", reason="ordered by bob")
        self.assertEqual(
            self.fleet("status", "--json"),
            (
                '{"fleet": "web", "store_revision": 10, "leader": "web-1", "attempt": {"id": 6, "revision": "web-v2", "ports": [9201, 9202], '
                '"stable": "web-v1", "stage": "aborted", "reason": "ordered by bob", "since": 1790000000, "written_by": "web-1", '
                '"missing": []}, "plan": {"id": 6, "last": "web-v2", "waits": false}, "order": null, "members": [], "others": [], '
                '"awaited": [], "problem": null}\n',
                "",
                1,
            ),
        )

    def test_a_fleet_that_has_nothing(self) -> None:
        for name in (*(MEMBERS + host for host in HOSTS), PLAN, LEADER):
            self.delete(name)
        self.assertEqual(
            self.told(),
            {
                "fleet": "web",
                "store_revision": 11,
                "leader": None,
                "attempt": None,
                "plan": None,
                "order": None,
                "members": [],
                "others": [],
                "awaited": ["a leader", "a plan"],
                "problem": None,
            },
        )

    def test_a_plan_that_waits(self) -> None:
        self.put_record("successful")
        self.put_plan(V2, V3)
        self.assertEqual(self.told()["plan"], {"id": 8, "last": "web-v3", "waits": True})


class OneLine(Status):
    def line(self) -> str:
        return in_one_line(status_of("web", self.others.read()))

    def test_each_kind(self) -> None:
        self.assertEqual(
            self.line(),
            "no attempt has begun; plan 6 waits; waits for web-1: a report, web-2: a report, web-3: a report",
        )
        self.put_running()
        self.report("ready")
        self.assertEqual(self.line(), "attempt 6 of web-v2: deploying; waits for the leader")
        self.put_aborted()
        self.assertEqual(
            self.line(),
            "attempt 6 of web-v2: aborted, web-2: analysis post: failed; waits for web-2: working",
        )
        self.put(ATTEMPT, "{}")
        self.assertEqual(
            self.line(),
            "the record of the attempt can't be read: its version is None, and this program knows version 1",
        )


class Watched(Status):
    """`watch` away from a terminal. The waits are over when nothing else is to come."""

    def watched(self) -> str:
        self.store.during_waits.append(self.interrupt)
        with mock.patch("bg_switch_tools.fleet.person.wait.PAUSE", 0.0), mock.patch.object(
            watching, "PAUSE", 0.0
        ):
            run = self.fleet("watch")
        self.assertEqual(run.status, 0)
        return run.printed

    def interrupt(self) -> None:
        raise KeyboardInterrupt

    def test_each_change_is_drawn_once(self) -> None:
        self.put_running()

        def go_back() -> None:
            for name in (ORDER, f"{MACHINES}web-9"):
                self.delete(name)
            self.put_aborted()

        self.store.during_waits = [lambda: None, go_back, lambda: None]
        # ctrl-C ends the line
        self.assertEqual(self.watched(), f"{RUNNING}\n{ABORTED}\n\n")

    def test_a_store_that_is_away_ends_no_watch(self) -> None:
        self.begin()
        reads = self.store.read

        def cut() -> None:
            self.store.is_cut = True
            with_fault = iter((True, True, False))

            def read() -> object:
                self.store.is_cut = next(with_fault, False)
                return reads()

            mock.patch.object(self.store, "read", read).start()

        self.store.during_waits = [cut]
        self.addCleanup(mock.patch.stopall)
        blocks = self.watched().split("\n\n")
        self.assertEqual(len(blocks), 4)
        self.assertRegex(
            blocks[1].splitlines()[-1],
            r"^etcd gives no answer since 20..-..-..T..:..:..\+00:00, and this was read before: it "
            r"is away$",
        )
        self.assertEqual(blocks[2], blocks[0])

    def test_a_store_that_is_away_at_first(self) -> None:
        self.store.is_cut = True
        self.assertEqual(self.fleet("watch"), ("", "fleet: it is away\n", 4))


if __name__ == "__main__":
    unittest.main()
