"""The texts of a fleet's keys and of an agent's file: what is written is read, and what can't be
read is refused with a sentence."""
import dataclasses
import json
import os
import tempfile
import unittest
from collections.abc import Callable
from unittest import mock

from bg_switch_tools.controller.plan.plan import (
    Analyses,
    Commands,
    Health,
    Plan,
    PlannedAnalysis,
    PlannedRevision,
    Progress,
)
from bg_switch_tools.controller.plan.plan_reader import PlanError
from bg_switch_tools.fleet.machine.line_table import Joined
from bg_switch_tools.fleet.machine.machine_state import (
    MachineState,
    MachineStateFile,
    read_machine_state,
)
from bg_switch_tools.fleet.plan import fleet_plan
from bg_switch_tools.fleet.plan.fleet_plan import (
    FleetPlan,
    MachineSettings,
    machine_plan,
    missing_analyses,
    plan_text,
    read_fleet_plan,
    read_stored_plan,
)
from bg_switch_tools.fleet.record.record import (
    PROMOTE,
    PROMOTING,
    READY,
    WORKING,
    MachineReport,
    PersonOrder,
    Record,
    UnreadableError,
    View,
    read_machine_report,
    read_order,
    read_record,
)
from bg_switch_tools.fleet.store.store import Key, Snapshot

V1, V2 = PlannedRevision("web-v1", (9101, 9102)), PlannedRevision("web-v2", (9201, 9202))
RECORD = Record(20, V2, V1, PROMOTING, "ordered by ann", ("c",), 7, 1000)
REPORT = MachineReport("id", 20, READY, "", "paused", "web-v1", "web-v2", "web-v1", "web-v2", 2)
ORDER = PersonOrder(PROMOTE, 20, "ann")
Value = Record | MachineReport | PersonOrder
ALL: tuple[tuple[Callable[[str], Value], Value], ...] = (
    (read_record, RECORD),
    (read_machine_report, REPORT),
    (read_order, ORDER),
)


def changed(text: str, **values: object) -> str:
    """A text with other members; None for one that is left out."""
    told = {**json.loads(text), **values}
    return json.dumps({key: value for key, value in told.items() if value is not None})


class Texts(unittest.TestCase):
    def refused(self, read: Callable[[str], object], text: str, why: str) -> None:
        with self.assertRaisesRegex(UnreadableError, why):
            read(text)

    def test_what_is_written_is_read(self) -> None:
        self.assertEqual(read_record(RECORD.text()), RECORD)
        self.assertEqual(read_machine_report(REPORT.text()), REPORT)
        self.assertEqual(read_order(ORDER.text()), ORDER)

    def test_each_has_a_version(self) -> None:
        for read, value in ALL:
            self.assertEqual(json.loads(value.text())["version"], 1)
            self.refused(
                read,
                changed(value.text(), version=2),
                "its version is 2, and this program knows version 1",
            )
            self.refused(read, changed(value.text(), version=None), "its version is None")
            self.refused(read, "[]", "not an object")
            self.refused(read, "{", "not JSON")

    def test_each_key_is_needed(self) -> None:
        for read, value in ALL:
            for field in dataclasses.fields(value):
                if field.name in ("plan", "leader"):  # those of the version before have none
                    continue
                with self.subTest(field=field.name):
                    self.refused(
                        read,
                        changed(value.text(), **{field.name: None}),
                        f"{field.name}: is missing",
                    )

    def test_a_record_keeps_its_plan(self) -> None:
        text = json.dumps(
            {
                "health": {"path": "/ready", "interval": 0.25, "failures": 3},
                "analyses": {"post": "errors", "seconds": 7.5},
                "progress": {"seconds": 61, "abort": True, "outage": 4},
                "redispatch": False,
                "fleet": {"by_hand": True, "seconds": 2, "max_missing": 1, "promoting_seconds": 9},
                "revisions": [
                    {"name": f"web-v{number}", "ports": [9000 + number]} for number in (1, 2)
                ],
                "$schema": "fleet",
            }
        )
        for plan in (
            read_stored_plan(text),
            read_stored_plan('{"revisions": [{"name": "v", "ports": [1]}]}'),
        ):
            record = dataclasses.replace(RECORD, plan=plan)
            self.assertEqual(read_record(record.text()), record)
            self.assertEqual(read_stored_plan(plan_text(plan)), plan)
        self.assertNotIn('"plan"', RECORD.text())
        self.assertIsNone(read_record(RECORD.text()).plan)

    def test_a_wrong_plan_of_the_store_is_judged_once(self) -> None:
        """To judge a nested text may take seconds, and each read of the store has it."""
        text = "a: " + "[" * 60 + " of this test"
        with mock.patch.object(fleet_plan, "value_of") as of_yaml, mock.patch.object(
            fleet_plan, "decoded", side_effect=ValueError("it is none")
        ) as of_json:
            for _ in range(3):
                with self.assertRaisesRegex(PlanError, "it is not JSON: it is none"):
                    read_stored_plan(text)
        self.assertEqual((of_json.call_count, of_yaml.call_count), (1, 0))

    def test_a_plan_of_the_store_is_json(self) -> None:
        text = "revisions:\n- {name: web-v1, ports: [9101]}\n"
        with self.assertRaisesRegex(PlanError, "it is not JSON"):
            read_stored_plan(text)

    def test_a_report_of_the_version_before(self) -> None:
        self.assertEqual(read_machine_report(changed(REPORT.text(), leader=None)), REPORT)
        self.refused(read_machine_report, changed(REPORT.text(), leader="x"), "leader: ")

    def test_no_text_of_another_machine_has_any_length(self) -> None:
        long = "x" * 800000
        read = read_machine_report(changed(REPORT.text(), reason=long, phase=long))
        self.assertEqual((len(read.reason), read.reason[-3:], len(read.phase)), (502, "x..", 502))
        self.assertEqual(len(read_order(changed(ORDER.text(), by=long)).by), 502)

    def test_a_record_with_a_wrong_plan(self) -> None:
        for plan in ({}, "x", {"revisions": [{"name": "v", "ports": [1]}], "newer": 1}):
            self.refused(read_record, changed(RECORD.text(), plan=plan), "plan: ")

    def test_the_longest_plan_fits_into_a_record(self) -> None:
        """etcd takes 1.5 MiB, and a plan of one MiB is mostly spaces or a long `$schema`, which the
        record does not keep."""
        revisions = [
            {"name": f"{number:063}", "ports": [1000 + 64 * number + port for port in range(64)]}
            for number in range(64)
        ]
        plan = read_stored_plan(json.dumps({"revisions": revisions}) + " " * 1000000)
        self.assertLess(len(dataclasses.replace(RECORD, plan=plan).text()), 40000)

    def test_other_keys(self) -> None:
        self.refused(read_record, changed(RECORD.text(), more=1), "more: there is no such key")
        self.refused(read_order, changed(ORDER.text(), more=1), "more: there is no such key")
        self.assertEqual(read_machine_report(changed(REPORT.text(), more=1)), REPORT)

    def test_values_of_other_types(self) -> None:
        for key, value in (
            ("id", -1),
            ("revision", {"name": "V", "ports": [1]}),
            ("stable", {}),
            ("stage", "over"),
            ("missing", "c"),
            ("by", "x"),
        ):
            self.refused(read_record, changed(RECORD.text(), **{key: value}), f"^{key}")
        self.refused(
            read_machine_report, changed(REPORT.text(), state="over"), "state: is none of working"
        )
        self.refused(
            read_order, changed(ORDER.text(), order="retry"), "order: is none of promote, abort"
        )

    def test_a_view(self) -> None:
        keys = {
            "members/b": Key("", 2, 2, 0),
            "members/a": Key("", 2, 2, 0),
            "machines/a": Key(REPORT.text(), 3, 3, 9),
            "machines/b": Key("x", 3, 4, 9),
            "attempt": Key(RECORD.text(), 5, 6, 0),
        }
        view = View(Snapshot(9, "c1", keys))
        self.assertEqual(
            (view.members, view.record, view.plan, view.order), (("a", "b"), RECORD, None, None)
        )
        self.assertEqual((view.changed("attempt"), view.changed("plan")), (6, 0))
        self.assertEqual((view.machine("a"), view.machine("c")), (REPORT, None))
        unreadable = view.machine("b")
        self.assertTrue(
            unreadable and unreadable.state == WORKING and "can't be read" in unreadable.reason
        )


GOOD: dict[str, object] = {
    "health": {"path": "/up", "interval": 1, "timeout": 1, "failures": 3},
    "analyses": {"pre": "smoke", "post": "errors", "seconds": 60},
    "progress": {"seconds": 120, "abort": True, "outage": 9},
    "redispatch": False,
    "revisions": [
        {"name": "web-v1", "ports": [9101, 9102]},
        {"name": "web-v2", "ports": [9201, 9202]},
    ],
    "fleet": {"by_hand": True, "seconds": 30, "max_missing": 1, "promoting_seconds": 90},
}


class Plans(unittest.TestCase):
    def problems(self, **values: object) -> list[str]:
        with self.assertRaises(PlanError) as raised:
            read_fleet_plan(changed(json.dumps(GOOD), **values))
        return raised.exception.problems

    def test_a_whole_plan(self) -> None:
        self.assertEqual(
            read_fleet_plan(json.dumps(GOOD)),
            FleetPlan(
                (V1, V2),
                Health("/up", 1, 1, 3),
                {"pre": "smoke", "post": "errors"},
                60,
                Progress(120, True, 9),
                False,
                True,
                30,
                1,
                90,
            ),
        )

    def test_what_is_left_out(self) -> None:
        plan = read_fleet_plan(json.dumps({"revisions": GOOD["revisions"]}))
        self.assertEqual(plan, FleetPlan((V1, V2)))
        self.assertEqual(
            (plan.max_missing, plan.by_hand, plan.seconds, plan.promoting_seconds),
            (0, False, 0, 1200),
        )
        self.assertEqual(
            (plan.first, plan.last, plan.named("web-v2"), plan.named("x")), (V1, V2, V2, None)
        )

    def test_two_revisions_are_live_for_no_longer_than_tests_and_progress_take(self) -> None:
        text = changed(json.dumps(GOOD), fleet={})
        self.assertEqual(read_fleet_plan(text).promoting_seconds, 180)

    def test_a_command_has_no_place_in_it(self) -> None:
        for key, value in (
            ("start", ["x"]),
            ("stop", ["x"]),
            ("notify", ["x"]),
            ("control", 8082),
            ("active", 1),
            ("timeout", 1),
        ):
            self.assertEqual(
                self.problems(**{key: value}), [f"{key}: stands in the fleet file of each machine"]
            )
        self.assertRegex(
            self.problems(analyses={"pre": ["./smoke.sh"]})[0],
            r'^analyses.pre\[0\]: "./smoke.sh" is not a name',
        )

    def test_what_is_wrong(self) -> None:
        cases: tuple[tuple[dict[str, object], str], ...] = (
            ({"fleet": {"max_missing": -1}}, "fleet.max_missing: -1 is below 0"),
            ({"fleet": {"by_hand": 1}}, "fleet.by_hand: 1 is neither"),
            ({"fleet": {"more": 1}}, "fleet.more: there is no such key"),
            ({"fleet": {"promoting_seconds": 0}}, "is below 0.1"),
            ({"fleet": []}, "fleet: .* is not an object"),
            ({"revisions": None}, "revisions: is missing"),
            (
                {"revisions": [{"name": "a", "ports": [1]}, {"name": "b", "ports": [1]}]},
                "an endpoint serves one revision",
            ),
        )
        for values, problem in cases:
            self.assertRegex("\n".join(self.problems(**values)), problem)
        for text in ("{", "[]", "x" * (1 << 21)):
            self.assertRaises(PlanError, read_fleet_plan, text)

    def test_the_plan_of_a_machine(self) -> None:
        settings = MachineSettings(
            8082, {"smoke": ("./smoke.sh",)}, Commands(("up",)), {"active": 8080}
        )
        plan = read_fleet_plan(json.dumps(GOOD))
        v0 = PlannedRevision("web-v0", (9001, 9002))
        self.assertEqual(
            machine_plan(plan, settings, (v0, V1)),
            Plan(
                8082,
                plan.health,
                Analyses({"pre": (PlannedAnalysis(("./smoke.sh",)),)}, 60),
                Progress(120, False, 9),
                (v0, V1, V2),
                Commands(("up",)),
                False,
                {"active": 8080},
            ),
        )
        self.assertEqual(missing_analyses(plan, settings), ["errors"])
        with self.assertRaisesRegex(PlanError, "is a port of the switch itself"):
            machine_plan(plan, MachineSettings(9201))


class SeveralAnalyses(unittest.TestCase):
    """A list of names in the place of one."""

    def plan(self, *names: object) -> FleetPlan:
        return read_fleet_plan(changed(json.dumps(GOOD), analyses={"post": list(names)}))

    def test_a_list_of_names(self) -> None:
        settings = MachineSettings(8082, {"errors": ("a", "b"), "latency": ("c",), "more": ("d",)})
        made = machine_plan(self.plan("latency", "errors"), settings)
        expected = (PlannedAnalysis(("c",), "latency"), PlannedAnalysis(("a", "b"), "errors"))
        self.assertEqual(made.analyses.commands, {"post": expected})
        only = machine_plan(self.plan("errors"), settings).analyses.commands["post"]
        self.assertEqual(only, (PlannedAnalysis(("a", "b"), "errors"),))

    def test_a_machine_that_lacks_one_runs_none(self) -> None:
        """What it could run would pass without the one that is missing."""
        settings, plan = MachineSettings(8082, {"latency": ("c",)}), self.plan("latency", "errors")
        self.assertEqual(machine_plan(plan, settings).analyses.commands, {})
        self.assertEqual(missing_analyses(plan, settings), ["errors"])

    def test_what_is_no_list_of_names(self) -> None:
        for names, problem in (
            ((), r"analyses\.post: it is not a list of 1 to 16 names"),
            ([f"a{number}" for number in range(17)], r"analyses\.post: it is not a list of 1 to"),
            (("a", "b", "a"), r'analyses\.post\[2\]: "a" is already at analyses\.post\[0\]'),
            (("a", 7), r"analyses\.post\[1\]: 7 is not a name"),
            (({"name": "a"},), r"analyses\.post\[0\]: .* is not a name"),
        ):
            with self.assertRaisesRegex(PlanError, f"^{problem}"):
                self.plan(*names)


class Files(unittest.TestCase):
    STATE = MachineState("c1", json.dumps(GOOD), RECORD, Joined("c1", 20, "web-v2", True, "why"))

    def test_what_is_kept_is_read(self) -> None:
        with tempfile.TemporaryDirectory() as folder:
            file = MachineStateFile(os.path.join(folder, "fleet.json"))
            self.assertEqual(file.read(), MachineState())
            for state in (self.STATE, MachineState()):
                file.write(state)
                self.assertEqual(file.read(), state)

    def test_a_file_that_is_none(self) -> None:
        text = self.STATE.text()
        for wrong, why in (
            (text[:-9], "not JSON"),
            ("[]", "not an object"),
            (changed(text, version=2), "version"),
            (changed(text, more=1), "more"),
            (changed(text, joined={}), "joined.cluster: is missing"),
            (changed(text, cluster=1), "cluster"),
            (changed(text, record="{}"), "version"),
            ("", "not JSON"),
        ):
            with self.assertRaisesRegex(UnreadableError, why):
                read_machine_state(wrong.encode())

    def test_a_file_that_can_not_be_opened(self) -> None:
        with tempfile.TemporaryDirectory() as folder:
            os.mkdir(os.path.join(folder, "f.fleet"))
            with self.assertRaisesRegex(UnreadableError, "can't be read: Is a directory"):
                MachineStateFile(os.path.join(folder, "f")).read()


if __name__ == "__main__":
    unittest.main()
