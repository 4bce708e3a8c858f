"""The state file: what it keeps, and what becomes of one that is cut, foreign or not there."""
import dataclasses
import io
import json
import os
import pathlib
import tempfile
import time
import unittest

from bg_switch_tools.controller.history.memory import Memory
from bg_switch_tools.controller.log import Log
from bg_switch_tools.controller.plan.plan import Analyses, Health, Plan, PlannedRevision, Progress
from bg_switch_tools.controller.process_groups import ProcessId
from bg_switch_tools.controller.state.state_file import (
    HeldBack,
    State,
    StateError,
    StateFile,
    StateLock,
    StateLockedError,
    read_state,
    written,
)

V1, V2, V3 = (
    PlannedRevision(f"web-v{number}", (9000 + number, 9100 + number)) for number in (1, 2, 3)
)
PLAN = Plan(8082, Health(), Analyses({}), Progress(), (V1, V2, V3))
BEGUN = int(time.time()) - 5000  # when the moment was 0
DAY = 86400
STATE = State(
    5000,
    V2,
    V3,
    V3,
    BEGUN,
    (ProcessId(700, 12345),),
    (V2, V3),
    (ProcessId(701, 7),),
    (8082, "/run/bg-switch/control", 8182),
    (V2, V3),
    (HeldBack(PlannedRevision("web-v1", (1, 2)), "it has other ports"),),
)


class Texts(unittest.TestCase):
    def test_what_is_written_is_read(self) -> None:
        several = State(1, analyses=(ProcessId(700, 5), ProcessId(701, 6)))
        for state in (
            STATE,
            State(),
            State(1, V1, None, None),
            State(1, unknown="web-v1"),
            several,
        ):
            self.assertEqual(read_state(written(state)), state)

    def test_one_analysis_is_written_as_before(self) -> None:
        """An earlier controller knows no list of them."""
        one, other = ProcessId(700, 5), ProcessId(701, 6)
        told = [json.loads(written(State(analyses=each))) for each in ((), (one,), (one, other))]
        self.assertEqual(
            [(each["analysis"], each.get("analyses")) for each in told],
            [(None, None), (vars(one), None), (None, [vars(one), vars(other)])],
        )
        self.assertEqual(list(told[0]), list(told[1]))

    def test_every_cut_is_noticed(self) -> None:
        whole = written(STATE)
        for length in range(len(whole) - 1):
            with self.assertRaises(StateError):
                read_state(whole[:length])

    def test_what_is_no_state(self) -> None:
        text = written(STATE).decode()
        for wrong in (
            "[]",
            "{}",
            text.replace("web-v2", "web-v2\\nabort"),
            text.replace("9002", "70000"),
            text.replace('"moment": 5000', '"moment": -1'),
            text.replace("moment", "time"),
            text.replace('"moment": 5000', '"moment": 1.5'),
            text.replace('"web-v2"', "null"),
            text.replace("700", "1"),
            text.replace("700", "-7"),
            text.replace("12345", '"x"'),
            text.replace("pid", "process"),
        ):
            with self.subTest(text=wrong), self.assertRaises(StateError):
                read_state(wrong.encode())

    def test_a_file_of_an_earlier_controller(self) -> None:
        text = b'{"moment": 7, "stable": null, "deployed": null, "attempt": null}'
        self.assertEqual(read_state(text), State(7))


class Files(unittest.TestCase):
    def setUp(self) -> None:
        folder = tempfile.TemporaryDirectory()
        self.addCleanup(folder.cleanup)
        self.plan = os.path.join(folder.name, "plan.json")
        self.file = StateFile(self.plan)
        self.out = io.StringIO()

    def memory(self, plan: Plan = PLAN) -> Memory:
        return Memory(self.plan, plan, Log(self.out, False))

    @staticmethod
    def without_since(memory: Memory) -> State:
        return dataclasses.replace(memory.state, since=0)

    def cut(self, path: str) -> None:
        text = pathlib.Path(path).read_bytes()
        pathlib.Path(path).write_bytes(text[: len(text) // 2])

    def test_a_file_that_is_there(self) -> None:
        self.file.write(STATE)
        self.assertEqual(
            sorted(os.listdir(os.path.dirname(self.plan))),
            ["plan.json.state", "plan.json.state.copy"],
        )
        memory = self.memory()
        self.assertEqual((memory.state, memory.is_fresh), (STATE, False))
        self.assertIn(
            "moment 5000, stable web-v2, deployed by the plan web-v3", self.out.getvalue()
        )

    def test_a_file_that_is_not_there(self) -> None:
        memory = self.memory()
        self.assertEqual((self.without_since(memory), memory.is_fresh), (State(), True))
        self.assertIn(
            "since there is none; a switch without a book will be opened with web-v1, the plan's first revision",
            self.out.getvalue(),
        )

    def test_a_file_that_is_cut(self) -> None:
        self.file.write(STATE)
        self.cut(self.file.path)
        self.assertEqual(self.memory().state, STATE)
        self.assertIn("is cut, so its copy is used", self.out.getvalue())

    def test_a_copy_that_is_cut(self) -> None:
        self.file.write(STATE)
        self.cut(self.file.copy)
        self.assertEqual(self.memory().state, STATE)
        self.assertNotIn("is cut", self.out.getvalue())

    def test_both_are_cut(self) -> None:
        self.file.write(STATE)
        self.cut(self.file.path)
        self.cut(self.file.copy)
        self.assertEqual(self.without_since(self.memory()), State())
        self.assertIn(
            "since it is cut; a switch without a book will be opened with web-v1",
            self.out.getvalue(),
        )

    def test_a_file_of_another_plan(self) -> None:
        self.file.write(STATE)
        other = dataclasses.replace(
            PLAN,
            revisions=(PlannedRevision("media-v1", (1, 2)), PlannedRevision("media-v2", (3, 4))),
        )
        self.assertEqual(self.without_since(self.memory(other)), State())
        self.assertIn(
            f"no switch is opened by this plan: by the state file {self.file.path}, web-v2 was stable and web-v3 was deployed "
            "last, and the plan does not name them. Name web-v2 with its ports 9002 9102 first in the plan; or, to begin anew "
            "with media-v1, which no preview and no analysis has judged, ",
            self.out.getvalue(),
        )

    def test_a_file_of_another_plan_stays_until_a_book_is_open(self) -> None:
        self.file.write(STATE)
        other = dataclasses.replace(PLAN, revisions=(PlannedRevision("media-v1", (1, 2)),))
        memory = self.memory(other)
        memory.set_held((HeldBack(PlannedRevision("media-v1", (1, 2)), "x"),))
        self.assertEqual(self.file.read()[0], STATE)
        memory.take_book()
        memory.set_deployed(None)
        self.assertEqual(self.file.read()[0].names, [])

    def test_a_file_before_the_first_opening(self) -> None:
        """It names no revision, so it is of each plan: what was started by then is stopped one
        day."""
        self.file.write(State(0, started=(V1,)))
        memory = self.memory()
        self.assertEqual(
            (memory.state.started, memory.is_fresh, memory.why_not_opened(PLAN)), ((V1,), True, "")
        )

    def test_a_plan_that_names_the_stable_revision_no_longer(self) -> None:
        self.file.write(STATE)
        memory = self.memory(dataclasses.replace(PLAN, revisions=(V1, V3)))
        self.assertEqual((memory.state, memory.known(PLAN, "web-v2")), (STATE, V2))

    def test_a_plan_with_other_ports_for_what_was_deployed(self) -> None:
        """Traffic goes to the ports of the deploy, whatever the plan says by now."""
        self.file.write(STATE)
        others = tuple(PlannedRevision(revision.name, (7, 8)) for revision in (V1, V2, V3))
        memory = self.memory(dataclasses.replace(PLAN, revisions=(V1, *others[1:], V2)))
        plan = dataclasses.replace(PLAN, revisions=others)
        self.assertEqual(
            [memory.known(plan, revision.name) for revision in (V1, V2, V3)], [others[0], V2, V3]
        )

    def test_a_folder_that_takes_no_file(self) -> None:
        memory = self.memory()
        os.rmdir(os.path.dirname(self.plan))
        memory.set_deployed(V1)
        memory.set_deployed(V2)
        self.assertEqual(self.out.getvalue().count("the state can't be kept in"), 1)
        os.mkdir(os.path.dirname(self.plan))
        memory.set_deployed(V3)
        self.assertIn("the state is kept again in", self.out.getvalue())
        self.assertEqual(
            dataclasses.replace(self.file.read()[0], since=0), State(0, None, V3, None)
        )

    def test_a_file_that_is_missing_beside_a_good_copy(self) -> None:
        self.file.write(STATE)
        os.remove(self.file.path)
        memory = self.memory()
        self.assertEqual((memory.state, memory.is_fresh), (STATE, False))
        self.assertIn("plan.json.state is not there, so its copy is used", self.out.getvalue())

    def test_only_a_file_that_is_cut_is_called_cut(self) -> None:
        self.file.write(STATE)
        for text, expected in (
            (None, "can't be read: Is a directory"),
            (b"[7]", "is not a state file: it has no object"),
            (b'{"moment": "x"}', "is not a state file: stable: is missing"),
            (b"moment: 7\n", "is not a state file: Expecting value"),
            (b"", "is empty"),
        ):
            with self.subTest(expected=expected):
                path = pathlib.Path(self.file.path)
                path.unlink()
                path.mkdir() if text is None else path.write_bytes(text)
                self.assertEqual(self.memory().state, STATE)
                self.assertIn(expected, self.out.getvalue())
                self.assertNotIn("is cut", self.out.getvalue())
                if text is None:
                    path.rmdir()
                    path.touch()

    def test_a_moment_that_the_clock_does_not_let_be_true(self) -> None:
        """A damaged file would end the ticks of a healthy switch for ever: no moment comes after
        the greatest one."""
        for moment in (1 << 53, int(time.time()) - BEGUN + DAY + 3600):
            self.file.write(dataclasses.replace(STATE, moment=moment))
            begun = int(time.time())
            memory = self.memory()
            self.assertTrue(
                begun <= memory.state.moment + BEGUN - DAY <= time.time(), memory.state.moment
            )
            self.assertIn(
                f"the moment {moment} of the state file lies more than a day ahead of the clock",
                self.out.getvalue(),
            )
        self.file.write(dataclasses.replace(STATE, moment=1 << 53, since=0))
        self.assertLess(self.memory().state.moment, 1 << 33)


class Locks(unittest.TestCase):
    def test_a_second_controller_has_no_lock(self) -> None:
        with tempfile.TemporaryDirectory() as folder:
            plan = os.path.join(folder, "plan.json")
            lock = StateLock(plan)
            with self.assertRaisesRegex(
                StateLockedError,
                f"another controller runs this plan: process {os.getpid()} has the lock",
            ):
                StateLock(plan)
            lock.release()
            StateLock(plan).release()


if __name__ == "__main__":
    unittest.main()
