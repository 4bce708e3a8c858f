"""What the dashboard knows of a fleet, without a server: over a store in memory."""
import json
import unittest
from collections.abc import Callable

from bg_switch_tools.dashboard import fleet_json
from bg_switch_tools.dashboard.fleet_board import LONGEST_TEXT, MOST_HAPPENED, FleetBoard
from bg_switch_tools.dashboard.fleet_json import MOST_SHOWN
from bg_switch_tools.dashboard.fleet_state import steps_of
from bg_switch_tools.fleet.record.record import (
    ABORT,
    ABORTED,
    ATTEMPT,
    DEPLOYING,
    FAILED,
    FOLLOWS,
    LEADER,
    MACHINES,
    MEMBERS,
    ORDER,
    PASSED,
    PLAN,
    PROMOTING,
    READY,
    SUCCESSFUL,
    TESTING,
    WORKING,
    Record,
)
from bg_switch_tools.fleet.record.status import status_of
from bg_switch_tools.fleet.store.store import StoreError
from tests.memory_store import MemoryStore
from tests.synthetic_fleet import HOSTS, V1, V2, SyntheticFleet

HOSTILE = '<img src=x onerror="window.taken=1">'
BEGIN = 1_800_000_000.0


class Looked(unittest.TestCase):
    """A fleet of five and a board, whose clocks a test moves."""

    def setUp(self) -> None:
        self.fleet = SyntheticFleet()
        self.store = MemoryStore(self.fleet.keys, "dashboard")
        self.at = 0.0
        self.board = FleetBoard("web", lambda: self.at, lambda: BEGIN + self.at)
        self.look()

    def look(self, seconds: float = 1.0) -> None:
        """A read, after `seconds` seconds."""
        self.at += seconds
        try:
            self.board.take_read(self.store.read())
        except StoreError as fault:
            self.board.take_silence(str(fault))

    def said(self, act: Callable[[], object]) -> list[tuple[str, str]]:
        """What has happened by the next read, by its kind and its text."""
        before = len(self.board.happened)
        act()
        self.look()
        return [(each["kind"], each["text"]) for each in self.board.happened[before:]]

    def read(self) -> dict[str, object]:
        """What the page is told of the latest read."""
        told = json.loads(json.dumps(fleet_json.whole(self.board)))["read"]
        assert isinstance(told, dict)
        return told

    def part(self, *keys: str) -> object:
        """A part of what the page is told of the latest read, by its keys."""
        value: object = self.read()
        for key in keys:
            assert isinstance(value, dict)
            value = value[key]
        return value

    def each(self, key: str) -> list[dict[str, object]]:
        """A list of what the page is told of the latest read."""
        value = self.read()[key]
        assert isinstance(value, list)
        return value

    def machine(self, host: str) -> dict[str, object]:
        return next(
            each for each in [*self.each("members"), *self.each("others")] if each["host"] == host
        )


class Read(Looked):
    def test_a_fleet_in_which_nothing_moves(self) -> None:
        told = self.read()
        attempt = told["attempt"]
        assert isinstance(attempt, dict)
        self.assertEqual(
            (attempt["revision"], attempt["stable"], attempt["stage"], attempt["written_by"]),
            ("web-v1", "web-v1", SUCCESSFUL, "web-1"),
        )
        self.assertEqual(
            (
                told["member_count"],
                told["away_count"],
                told["awaited"],
                told["order"],
                told["problem"],
                told["unshown"],
            ),
            (5, 0, [], None, None, 0),
        )
        self.assertEqual(
            ([each["host"] for each in self.each("members")], told["others"]), (list(HOSTS), [])
        )

    def test_it_has_all_that_the_command_status_has(self) -> None:
        self.fleet.begin()
        self.fleet.leave("web-4")
        self.look()
        status = json.loads(json.dumps(status_of("web", self.store.read()).as_json()))
        for key in set(status) - {"members", "attempt", "plan"}:
            self.assertEqual(self.part(key), status[key], key)
        for key in ("attempt", "plan"):
            shown_part = self.part(key)
            assert isinstance(shown_part, dict)
            self.assertEqual({**shown_part, **status[key]}, shown_part, key)
        for shown, member in zip(self.each("members"), status["members"], strict=True):
            self.assertEqual({**shown, **member}, shown)

    def test_a_row_for_each_member(self) -> None:
        self.fleet.begin()
        self.fleet.report("web-2", READY)
        self.fleet.leave("web-4")
        self.look()
        rows = [
            (
                row["host"],
                row["state"],
                row["phase"],
                row["active"],
                row["preview"],
                row["stable"],
                row["awaited"],
            )
            for row in map(self.machine, HOSTS)
        ]
        self.assertEqual(
            rows,
            [
                ("web-1", WORKING, "scaling", "web-v1", "web-v2", "web-v1", READY),
                ("web-2", READY, "paused", "web-v1", "web-v2", "web-v1", None),
                ("web-3", WORKING, "scaling", "web-v1", "web-v2", "web-v1", READY),
                ("web-4", "away", None, None, None, None, READY),
                ("web-5", WORKING, "scaling", "web-v1", "web-v2", "web-v1", READY),
            ],
        )
        self.assertEqual((self.part("member_count"), self.part("away_count")), (5, 1))
        self.assertEqual(
            self.part("awaited"),
            ["web-1: working", "web-3: working", "web-5: working", "web-4: is away"],
        )

    def test_what_is_awaited_in_each_stage(self) -> None:
        for stage, awaited in (
            (DEPLOYING, READY),
            (PROMOTING, PASSED),
            (ABORTED, FOLLOWS),
            (SUCCESSFUL, FOLLOWS),
        ):
            self.fleet.decide(stage)
            self.fleet.report("web-2", WORKING)
            self.look()
            self.assertEqual(self.machine("web-2")["awaited"], awaited, stage)

    def test_a_machine_that_is_no_member(self) -> None:
        self.fleet.report("web-9", WORKING)
        self.look()
        self.assertEqual(
            ([each["host"] for each in self.each("others")], self.part("member_count")),
            (["web-9"], 5),
        )

    def test_what_the_fleet_goes_back_to(self) -> None:
        for stage, stable in (
            (DEPLOYING, "web-v1"),
            (PROMOTING, "web-v1"),
            (ABORTED, "web-v1"),
            (SUCCESSFUL, "web-v2"),
        ):
            self.fleet.decide(stage, V2, V1)
            self.look()
            self.assertEqual(self.part("attempt", "stable"), stable, stage)

    def test_a_plan_that_waits(self) -> None:
        self.fleet.put_plan(V1, V2, by_hand=True, max_missing=1)
        self.look()
        self.assertEqual(
            self.read()["plan"],
            {
                "id": self.fleet.plan_id,
                "last": "web-v2",
                "waits": True,
                "by_hand": True,
                "max_missing": 1,
            },
        )
        self.fleet.decide(DEPLOYING)
        self.look()
        self.assertIs(self.part("plan", "waits"), False)

    def test_an_order_that_stands(self) -> None:
        self.fleet.order(ABORT)
        self.look()
        self.assertEqual(
            self.read()["order"], {"order": ABORT, "attempt": self.fleet.plan_id, "by": "kim"}
        )

    def test_who_has_decided(self) -> None:
        self.fleet.lead("web-3")
        self.look()
        self.assertEqual(
            (self.part("attempt", "written_by"), self.part("leader")), ("web-1", "web-3")
        )
        self.board = FleetBoard("web")  # that of a dashboard which was started later
        self.look()
        self.assertIsNone(self.part("attempt", "written_by"))

    def test_nothing_was_put_yet(self) -> None:
        self.fleet.delete(*self.fleet.keys.keys)
        self.look()
        told = self.read()
        self.assertEqual(
            (told["attempt"], told["plan"], told["member_count"], told["awaited"]),
            (None, None, 0, ["a leader", "a plan"]),
        )

    def test_what_can_not_be_read_is_a_problem(self) -> None:
        for name, problem in (
            (ATTEMPT, "the record of the attempt can't be read"),
            (PLAN, "the plan is wrong"),
            (ORDER, "the order can't be read"),
        ):
            before = self.fleet.keys.keys.get(name)
            self.fleet.put(**{name: "{"})
            self.look()
            found = str(self.part("problem"))
            self.assertIn(problem, found)
            self.assertIn(
                ("fault", found), [(each["kind"], each["text"]) for each in self.board.happened]
            )
            self.assertEqual(len(self.each("members")), 5)
            self.fleet.put(**{name: before.value if before else ""})

    def test_a_report_that_can_not_be_read(self) -> None:
        self.fleet.put(**{f"{MACHINES}web-2": "{"})
        self.look()
        self.assertEqual(self.machine("web-2")["state"], WORKING)
        self.assertIn("its report can't be read", str(self.machine("web-2")["reason"]))


class Bounds(Looked):
    def test_a_text_is_cut_and_changes_nothing_around_it(self) -> None:
        self.fleet.report("web-2", FAILED, "x" * (LONGEST_TEXT + 1))
        self.fleet.report("web-3", FAILED, f"{HOSTILE}\n\u202e")
        self.look()
        self.assertEqual(self.machine("web-2")["reason"], "x" * LONGEST_TEXT + "..")
        self.assertEqual(self.machine("web-3")["reason"], f"{HOSTILE}\ufffd\ufffd")

    def test_only_so_many_rows_and_those_that_matter_first(self) -> None:
        self.fleet.put(**{f"{MEMBERS}a-{number:03}": "" for number in range(MOST_SHOWN)})
        for number in range(MOST_SHOWN):
            self.fleet.report(f"a-{number:03}", FOLLOWS)
        self.fleet.leave("web-5")
        self.look()
        self.assertEqual(
            (self.part("member_count"), self.part("unshown"), len(self.each("members"))),
            (MOST_SHOWN + 5, 5, MOST_SHOWN),
        )
        self.assertEqual(self.machine("web-5")["state"], "away")

    def test_what_happened_is_bounded(self) -> None:
        for number in range(MOST_HAPPENED + 5):
            self.board.say("change", f"{number}")
        self.assertEqual(
            (len(self.board.happened), self.board.happened[-1]["text"]),
            (MOST_HAPPENED, f"{MOST_HAPPENED + 4}"),
        )


class Times(Looked):
    def test_since_when_a_machine_is_in_its_state(self) -> None:
        first = {"time": BEGIN + 1, "exact": False}
        self.assertEqual(self.machine("web-2")["since"], first)
        self.look(5)
        self.assertEqual(self.machine("web-2")["since"], first)
        self.fleet.report("web-2", TESTING)
        self.look(5)
        self.look(5)
        self.assertEqual(
            (self.machine("web-2")["since"], self.machine("web-3")["since"]),
            ({"time": BEGIN + 11, "exact": True}, first),
        )

    def test_another_reason_is_no_other_state(self) -> None:
        self.fleet.report("web-2", FOLLOWS, "waits")
        self.look(5)
        self.assertEqual(self.machine("web-2")["since"], {"time": BEGIN + 1, "exact": False})

    def test_since_when_somebody_leads(self) -> None:
        self.fleet.delete(LEADER)
        self.look(5)
        self.assertEqual(
            (self.part("leader"), self.part("leader_since")),
            (None, {"time": BEGIN + 6, "exact": True}),
        )

    def test_how_long_the_attempt_is_in_its_stage(self) -> None:
        record = Record(self.fleet.plan_id, V2, V1, PROMOTING, time=int(BEGIN) + 100)
        self.fleet.put(**{ATTEMPT: record.text()})
        self.look(130)
        self.assertEqual(self.board.attempt_seconds(), self.at - 100)
        self.fleet.put(
            **{
                ATTEMPT: Record(
                    self.fleet.plan_id, V2, V1, PROMOTING, time=int(BEGIN) + 9999
                ).text()
            }
        )
        self.look()
        self.assertEqual(self.board.attempt_seconds(), 0)  # the clock of the leader is ahead
        self.fleet.put(**{ATTEMPT: Record(self.fleet.plan_id, V2, V1, PROMOTING).text()})
        self.look()
        self.assertIsNone(self.board.attempt_seconds())


class EtcdAway(Looked):
    def test_before_the_first_read(self) -> None:
        board = FleetBoard("web", lambda: self.at, lambda: BEGIN + self.at)
        self.at += 7
        told = fleet_json.whole(board)
        self.assertEqual(
            (told["read"], told["etcd"]),
            (
                None,
                {
                    "answers": False,
                    "fault": "etcd has not been asked yet",
                    "since": BEGIN + 1,
                    "read": None,
                },
            ),
        )
        self.assertEqual(board.lost_seconds(), 7)

    def test_the_last_state_stays_and_is_marked_as_old(self) -> None:
        before = self.read()
        self.store.is_cut = True
        self.look(2)
        self.look(3)
        told = fleet_json.whole(self.board)
        self.assertEqual(
            told["etcd"],
            {"answers": False, "fault": "it is away", "since": BEGIN + 3, "read": BEGIN + 1},
        )
        self.assertEqual((self.read(), self.board.lost_seconds()), (before, 3))

    def test_it_is_said_once_and_when_it_ends(self) -> None:
        def away() -> None:
            self.store.is_cut = True
            self.look()
            self.look()

        self.assertEqual(self.said(away), [("silence", "etcd gives no answer: it is away")])
        self.fleet.leave("web-4")

        def back() -> None:
            self.store.is_cut = False

        self.assertEqual(
            self.said(back),
            [
                ("answer", f"etcd answers: attempt {self.fleet.plan_id} of web-v1: successful"),
                ("away", "web-4 is away"),
            ],
        )
        self.assertEqual((self.board.answers, self.board.lost_seconds()), (True, 0))

    def test_another_cluster(self) -> None:
        self.fleet.keys.cluster = "1002"
        self.fleet.leave("web-4")
        self.assertEqual(
            self.said(lambda: None),
            [("fault", "etcd is another cluster than before, restored from a backup or new")],
        )


class Happened(Looked):
    def test_an_attempt_that_succeeds(self) -> None:
        self.said(self.fleet.begin)
        told = f"attempt {self.fleet.plan_id} of web-v2"
        self.assertEqual(
            self.said(lambda: self.fleet.decide(PROMOTING)), [("switch", f"{told}: promoting")]
        )
        self.assertEqual(
            self.said(lambda: self.fleet.decide(SUCCESSFUL, missing=("web-5",))),
            [("switch", f"{told}: successful; without a vote: web-5")],
        )

    def test_an_attempt_begins(self) -> None:
        told = self.said(self.fleet.begin)
        attempt = self.fleet.plan_id
        self.assertEqual(
            told[:3],
            [
                ("plan", f"plan {attempt} was put: web-v2"),
                ("change", f"attempt {attempt} of web-v2: deploying"),
                ("member", "web-1: working"),
            ],
        )
        self.assertEqual(len(told), 7)

    def test_an_attempt_is_aborted(self) -> None:
        self.fleet.begin()
        self.look()
        self.assertEqual(
            self.said(lambda: self.fleet.report("web-3", FAILED, "analysis pre: failed")),
            [("member", "web-3: failed, analysis pre: failed")],
        )
        self.assertEqual(
            self.said(lambda: self.fleet.decide(ABORTED, reason="web-3: analysis pre: failed")),
            [
                (
                    "abort",
                    f"attempt {self.fleet.plan_id} of web-v2: aborted, web-3: analysis pre: failed",
                )
            ],
        )

    def test_a_machine_goes_and_comes_back(self) -> None:
        self.assertEqual(self.said(lambda: self.fleet.leave("web-4")), [("away", "web-4 is away")])
        self.assertEqual(
            self.said(lambda: self.fleet.report("web-4", FOLLOWS)),
            [("member", "web-4 is back: follows")],
        )

    def test_a_machine_reports_the_same_of_another_attempt(self) -> None:
        self.fleet.put_plan(V1)
        self.look()
        self.assertEqual(
            self.said(lambda: self.fleet.report("web-4", FOLLOWS)), [("member", "web-4: follows")]
        )

    def test_members(self) -> None:
        self.assertEqual(
            self.said(lambda: self.fleet.put(**{f"{MEMBERS}web-6": ""})),
            [("member", "web-6 is a member from now on")],
        )
        self.assertEqual(
            self.said(lambda: self.fleet.report("web-7", WORKING)), [("member", "web-7: working")]
        )
        self.assertEqual(
            self.said(lambda: self.fleet.leave("web-7")), [("away", "web-7, no member, is away")]
        )
        self.assertEqual(
            self.said(lambda: self.fleet.delete(f"{MEMBERS}web-6")),
            [("member", "web-6 is a member no longer")],
        )

    def test_leaders_and_orders(self) -> None:
        self.assertEqual(
            self.said(lambda: self.fleet.delete(LEADER)),
            [("leader", "web-1 leads no longer, and nobody leads")],
        )
        self.assertEqual(self.said(lambda: self.fleet.lead("web-2")), [("leader", "web-2 leads")])
        attempt = self.fleet.plan_id
        self.assertEqual(
            self.said(lambda: self.fleet.order(ABORT)),
            [("order", f"kim orders abort for attempt {attempt}")],
        )
        self.assertEqual(
            self.said(lambda: self.fleet.delete(ORDER)),
            [("order", "the order abort of kim stands no longer")],
        )

    def test_nothing_happens_by_a_read_alone(self) -> None:
        self.assertEqual(self.said(lambda: None), [])

    def test_an_update_has_what_is_new(self) -> None:
        fleet_json.update(self.board)
        self.said(lambda: self.fleet.leave("web-4"))
        told = fleet_json.update(self.board)["happened"]
        assert isinstance(told, list)
        self.assertEqual([each["text"] for each in told], ["web-4 is away"])
        self.assertEqual(fleet_json.update(self.board)["happened"], [])


class Steps(Looked):
    def states(self) -> list[str]:
        steps = self.part("attempt", "steps")
        assert isinstance(steps, list)
        return [step["state"] for step in steps]

    def test_each_stage(self) -> None:
        for stage, expected in (
            (DEPLOYING, ["current", "ahead", "ahead"]),
            (PROMOTING, ["done", "current", "ahead"]),
            (SUCCESSFUL, ["done", "done", "done"]),
        ):
            self.fleet.decide(stage)
            self.look()
            self.assertEqual(self.states(), expected, stage)

    def test_where_it_was_aborted(self) -> None:
        for stage, expected in (
            (DEPLOYING, ["failed", "ahead", "ahead"]),
            (PROMOTING, ["done", "failed", "ahead"]),
        ):
            self.fleet.begin()
            self.fleet.decide(stage)
            self.look()
            self.fleet.decide(ABORTED)
            self.look()
            self.look()
            self.assertEqual(self.states(), expected, stage)

    def test_where_that_was_not_seen(self) -> None:
        aborted = Record(self.fleet.plan_id, V2, V1, ABORTED)
        self.assertEqual(
            [step["state"] for step in steps_of(aborted, "")], ["ahead", "ahead", "ahead"]
        )

    def test_an_attempt_that_was_begun_and_aborted_between_two_reads(self) -> None:
        self.fleet.begin()
        self.look()
        self.fleet.put_plan(V1, V2)
        self.fleet.decide(ABORTED)
        self.look()
        self.assertEqual(self.states(), ["ahead", "ahead", "ahead"])


if __name__ == "__main__":
    unittest.main()
