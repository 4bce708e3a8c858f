"""Whether a controller lives: by its lock, by the time of its latest round, and in what the tools
tell of it."""
import fcntl
import json
import os
import signal
import tempfile
import threading
import time
import unittest
from unittest import mock

from bg_switch_tools.controller.state import controller_life
from bg_switch_tools.controller.state.controller_life import Life, life_of
from bg_switch_tools.controller.state.state_file import StateLock, StateLockedError
from bg_switch_tools.dashboard.local_controller import LocalController
from support.processes import Run
from tests.fake_switch import FakeSwitch
from tests.test_bgctl import run
from tests.tool_runs import ControllerRun, comes, operator, plan_of


class Locks(unittest.TestCase):
    def setUp(self) -> None:
        folder = tempfile.TemporaryDirectory()
        self.addCleanup(folder.cleanup)
        self.plan = os.path.join(folder.name, "plan.json")

    def lock(self) -> StateLock:
        lock = StateLock(self.plan)
        self.addCleanup(lock.release)
        return lock

    def test_it_is_up_while_it_has_the_lock(self) -> None:
        self.assertEqual(
            life_of(self.plan), (Life.DOWN, f"no controller runs the plan {self.plan}")
        )
        lock = self.lock()
        self.assertEqual(life_of(self.plan), (Life.UP, ""))
        lock.release()
        self.assertEqual(
            life_of(self.plan), (Life.DOWN, f"no controller runs the plan {self.plan}")
        )

    def test_it_hangs_where_no_round_has_touched_the_file(self) -> None:
        lock = self.lock()
        for moved in (-100, 100):  # the clock may have been set back
            os.utime(lock.path, (time.time() + moved, time.time() + moved))
            self.assertEqual(
                (life_of(self.plan).life, "hangs: its last round was" in life_of(self.plan).text),
                (Life.HANGS, True),
            )
        lock.touch()
        self.assertEqual(life_of(self.plan).life, Life.UP)

    def test_the_file_is_touched_once_a_second(self) -> None:
        lock = self.lock()
        lock.touch()
        os.utime(lock.path, (5, 5))
        lock.touch()
        self.assertEqual(os.stat(lock.path).st_mtime, 5)
        lock.next = 0
        lock.touch()
        self.assertGreater(os.stat(lock.path).st_mtime, 5)

    def test_what_is_not_known_is_not_wrong(self) -> None:
        with mock.patch("os.open", side_effect=PermissionError(13, "Permission denied")):
            told = life_of(self.plan)
        self.assertEqual(
            (told.life, told.is_wrong, told.text.endswith("can't be read: Permission denied")),
            (Life.UNKNOWN, False, True),
        )

    def test_a_look_keeps_no_controller_from_its_start(self) -> None:
        self.lock().release()
        descriptor = os.open(self.plan + ".state.lock", os.O_RDONLY)
        fcntl.flock(descriptor, fcntl.LOCK_SH)
        threading.Timer(0.1, os.close, (descriptor,)).start()
        self.lock()

    def test_a_look_leaves_the_lock_to_the_next_controller(self) -> None:
        self.lock().release()
        self.assertEqual(life_of(self.plan).life, Life.DOWN)
        self.lock()
        with self.assertRaises(StateLockedError):
            StateLock(self.plan)


class OnThePage(unittest.TestCase):
    def test_no_controller_is_missed_where_there_is_no_plan(self) -> None:
        """The package's page names a plan, and the switch may be operated by hand."""
        with tempfile.TemporaryDirectory() as folder:
            path = os.path.join(folder, "plan.json")
            page = LocalController(path)
            self.assertEqual((page.look().life, page.look().faults()), ((Life.UNKNOWN, ""), []))
            plan_of(folder, 8082).write([("web-v1", [1])])
            self.assertEqual(page.look().life.life, Life.DOWN)
            StateLock(path).release()
            os.remove(path)
            self.assertEqual(
                (page.look().life.life, len(page.look().faults())),
                (Life.DOWN, 1),
                "a controller has run",
            )


class Killed(unittest.TestCase):
    """A controller in a process of its own."""

    def setUp(self) -> None:
        folder = tempfile.TemporaryDirectory()
        self.addCleanup(folder.cleanup)
        self.switch = FakeSwitch("pause")
        self.addCleanup(self.switch.kill)
        self.plan = plan_of(folder.name, self.switch.port)
        self.plan.write([("web-v1", [1, 2])])

    def start(self) -> ControllerRun:
        made = ControllerRun([self.plan.path])
        self.addCleanup(made.wait)
        self.addCleanup(made.kill)
        return made

    def bgctl(self, *words: str) -> Run:
        return run(*words, BG_PLAN=self.plan.path)

    def life(self) -> Life:
        return life_of(self.plan.path).life

    def test_a_controller_that_was_killed(self) -> None:
        controller = self.start()
        self.assertTrue(controller.says("open web-v1"))
        self.switch.book.answer("available 1 2")
        self.assertTrue(comes(lambda: self.life() == Life.UP))
        controller.kill()
        self.switch.book.answer("available 1 2")
        text = f"no controller runs the plan {self.plan.path}"
        status = self.bgctl("status")
        self.assertEqual(
            (status.status, status.printed[:7], status.told), (5, "steady:", f"bgctl: {text}\n")
        )
        self.assertEqual(json.loads(self.bgctl("status", "--json").printed)["controller"], "down")
        beside = operator(self.switch.port, "status", "--plan", self.plan.path)
        self.assertEqual((beside.status, beside.told), (5, f"operator: {text}\n"))
        for words in (("deploy", "web-v2", "3", "4"), ("pause",)):
            told = self.bgctl(*words)
            self.assertEqual(
                (
                    told.status,
                    f"bgctl: {text}; this takes effect once a controller runs the plan\n"
                    in told.told,
                ),
                (0, True),
                told,
            )
        waited = self.bgctl("deploy", "web-v2", "3", "4", "--wait", "--timeout", "1")
        self.assertEqual(
            (
                waited.status,
                waited.told.count(text),
                f"web-v2 by the plan yet; {text}" in waited.told,
            ),
            (2, 3, True),
            waited.told,
        )

    def test_no_endpoint_comes_before_it(self) -> None:
        self.switch.book.answer("open web-v1 1 2")
        self.assertEqual(self.bgctl("status").status, 3)
        self.switch.book.answer("available 1 2")
        self.assertEqual(
            (self.bgctl("status").status, run("status", BG_CONTROL=str(self.switch.port)).status),
            (5, 0),
        )

    def test_a_controller_that_is_stopped(self) -> None:
        controller = self.start()
        self.assertTrue(controller.says("open web-v1"))
        with mock.patch.object(controller_life, "STALE", 3.0):
            self.assertTrue(comes(lambda: self.life() == Life.UP))
            controller.process.send_signal(signal.SIGSTOP)
            self.assertTrue(comes(lambda: self.life() == Life.HANGS))
            controller.process.send_signal(signal.SIGCONT)
            self.assertTrue(comes(lambda: self.life() == Life.UP))

    def test_a_switch_that_gives_no_answer_is_no_fault_of_the_controller(self) -> None:
        controller = self.start()
        self.assertTrue(controller.says("open web-v1"))
        self.switch.kill()
        self.assertTrue(controller.says("no answer"))
        path = self.plan.path + ".state.lock"
        before = os.stat(path).st_mtime_ns
        self.assertTrue(comes(lambda: os.stat(path).st_mtime_ns > before))
        self.assertEqual(self.life(), Life.UP)

    def test_a_second_controller_is_refused_as_before(self) -> None:
        self.assertTrue(self.start().says("open web-v1"))
        second = self.start().wait()
        self.assertEqual(
            (second.status, "another controller runs this plan: process" in second.told),
            (1, True),
            second.told,
        )


if __name__ == "__main__":
    unittest.main()
