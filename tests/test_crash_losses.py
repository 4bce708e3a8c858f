"""What a crash, a damaged moment or a second controller could undo or poison, and what is told if
something is lost."""
import os
import pathlib
import signal
import subprocess
import time
import unittest
from unittest import mock

from bg_switch_tools.controller.analyses import analysis_runner
from bg_switch_tools.controller.rounds import controller
from bg_switch_tools.controller.rounds.controller import ROUND as OWN_ROUND
from bg_switch_tools.controller.state.state_file import StateFile
from bg_switch_tools.switch.moments import DAY, believed
from tests.test_complaints import Controlled
from tests.test_controller import NAMES, ControllerCase
from tests.tool_runs import TOOLS, comes, operator

GREATEST = 1 << 53


class Moments(ControllerCase):
    def test_what_is_believed(self) -> None:
        self.assertEqual(
            [believed(moment, 1000, 1600.5) for moment in (0, 600, 600 + DAY, 601 + DAY, GREATEST)],
            [0, 600, 600 + DAY, 600 + DAY, 600 + DAY],
        )
        self.assertEqual(believed(700, 5000, 1000), 700)
        self.assertEqual(believed(700, 5000000, 1000), 0, "a clock that was put back")

    def test_a_greatest_moment_is_not_kept_over_a_restart(self) -> None:
        """No tick is possible in this book any more; the next one begins at a moment that can be
        true, and is ticked on."""
        self.write("web-v1")
        self.start()
        self.await_book("steady", 1)
        self.by_hand(f"tick {GREATEST}")
        self.some_rounds()
        self.assertLessEqual(StateFile(self.plan.path).read()[0].moment, DAY + 60)
        self.await_log(
            f"the moment {GREATEST} of the switch lies more than a day ahead of the clock, and is not kept"
        )
        self.restart_switch()
        first = self.switch.book.moment
        self.assertLessEqual(first, DAY + 60)
        self.assertTrue(comes(lambda: self.switch.book.moment > first))

    def test_a_damaged_state_file_does_not_poison_a_healthy_switch(self) -> None:
        """A book that is open has the moment that it has, whatever the file says."""
        self.write("web-v1")
        runner = self.start()
        self.await_book("steady", 1)
        runner.stop()
        file = StateFile(self.plan.path)
        for path in (file.path, file.copy):
            text = pathlib.Path(path).read_text(encoding="ascii")
            moment = text.split('"moment": ')[1].split(",")[0]
            pathlib.Path(path).write_text(
                text.replace(f'"moment": {moment},', f'"moment": {GREATEST - 1},'), encoding="ascii"
            )
        before = self.switch.book.moment
        self.start()
        self.await_log(
            "of the state file lies more than a day ahead of the clock, and is not believed"
        )
        self.assertTrue(comes(lambda: self.switch.book.moment > before))
        self.assertLess(self.switch.book.moment, before + 60)


class Ticks(Controlled):
    def test_a_tick_far_ahead_wants_a_word_more(self) -> None:
        self.switch.book.answer("open web-v1 1 2")
        self.switch.book.answer("tick 100")
        for moment in (GREATEST, 101 + DAY):
            told = operator(self.switch.port, "tick", str(moment))
            self.assertEqual((told.status, told.printed, self.switch.book.moment), (1, "", 100))
            self.assertIn(
                f"not sent: moment {moment} is more than a day ahead of moment 100", told.told
            )
        self.assertEqual(operator(self.switch.port, lines=f"tick {GREATEST}\n").status, 1)
        self.assertEqual(operator(self.switch.port, "tick", str(100 + DAY)).printed, "ok 0\n")
        self.assertEqual(
            operator(self.switch.port, "tick", str(GREATEST), "--yes").printed, "ok 0\n"
        )


class Promotes(ControllerCase):
    def test_a_promote_outlives_a_crash_within_a_second(self) -> None:
        """With the controller's own pauses."""
        self.stack.enter_context(mock.patch.object(controller, "ROUND", OWN_ROUND))
        self.write(*NAMES[:2])
        self.start()
        self.await_book("paused", 2)
        self.by_hand("promote")
        time.sleep(0.6)
        self.restart_switch()
        self.assertEqual(self.switch.sent_lines()[0], f"open {self.words('web-v2')}")


class LostSteps(ControllerCase):
    steps = ("pause", "post")

    def test_what_can_not_be_kept_is_told(self) -> None:
        self.write(*NAMES[:2])
        self.start()
        self.await_book("paused", 2)
        self.by_hand("promote")
        self.await_book("postAnalysis", 2)
        self.restart_switch()
        self.await_log(
            "seconds old: postAnalysis: active web-v2",
            "a line that came after it is lost",
            "lost with the book that was open: live traffic was at web-v2, and is at web-v1",
            "lost with the book that was open: the attempt of web-v2 was in the phase postAnalysis and begins again: a promote "
            "is to be sent again",
        )
        self.await_book("paused", 2)

    def test_an_aborted_attempt_is_told(self) -> None:
        self.write(*NAMES[:2])
        self.start()
        self.await_book("paused", 2)
        # an open request keeps the revision from its scale-down
        self.assertRegex((self.switch.book.answer("enter 0 preview") or [""])[0], "^entered ")
        self.by_hand("abort")
        self.by_hand("deploy hotfix 1 2")
        self.some_rounds()
        self.restart_switch()
        self.await_log(
            "lost with the book that was open: the attempt of hotfix is not begun again",
            "lost with the book that was open: revision 2 web-v2 does not exist any more",
        )


class Waits(Controlled):
    def test_a_wait_directly_after_an_edit_of_the_plan(self) -> None:
        """The controller, which is started later, has not seen the edit: the deploy is to come."""
        self.write("web-v1")
        run = self.run_controller()
        self.assertTrue(comes(lambda: "available 1 2" in self.switch.lines))
        self.assertEqual(run.signal(signal.SIGTERM)[0], 0)
        self.write("web-v1", "web-v2")
        words = [
            str(TOOLS / "operator"),
            str(self.switch.port),
            "wait",
            "phase=paused",
            "newest=web-v2",
            "--plan",
            self.plan.path,
            "--timeout",
            "30",
        ]
        with subprocess.Popen(words, stdout=subprocess.PIPE, text=True) as pending:
            time.sleep(0.7)
            self.assertIsNone(pending.poll())
            self.run_controller()
            self.assertEqual(pending.communicate(timeout=30)[0].split(":")[0], "paused")
        told = operator(self.switch.port, "wait", "stable=web-v3", "--plan", self.plan.path)
        self.assertEqual(
            (told.status, "no revision web-v3 exists" in told.told),
            (1, True),
            "the plan is deployed",
        )

    def test_a_deploy_that_never_comes_is_named(self) -> None:
        self.write("web-v1")
        self.switch.book.answer(f"open {self.words('web-v1')}")
        told = operator(
            self.switch.port, "wait", "stable=web-v1", "--plan", self.plan.path, "--timeout", "0.5"
        )
        self.assertEqual(told.status, 2)
        self.assertIn("the controller has not deployed web-v1 by the plan yet", told.told)
        self.assertIn(
            "is not a plan",
            operator(self.switch.port, "wait", "settled", "--plan", "/no/such").told,
        )


class TwoControllers(Controlled):
    def test_the_second_is_refused(self) -> None:
        self.write("web-v1")
        first = self.run_controller()
        self.assertTrue(comes(lambda: "available 1 2" in self.switch.lines))
        second = self.run_controller()
        self.assertTrue(comes(lambda: second.process.poll() is not None))
        told = second.end()
        self.assertEqual((told.status, told.printed), (1, ""))
        self.assertIn(
            f"another controller runs this plan: process {first.process.pid} has the lock",
            told.told,
        )
        first.kill()
        third = self.run_controller()
        self.assertTrue(third.says("continues from the state file"))


def alive(pid: str) -> bool:
    """Whether a process runs, and is not just waited for."""
    try:
        return (
            pathlib.Path(f"/proc/{pid}/stat")
            .read_text(encoding="ascii")
            .rpartition(")")[2]
            .split()[0]
            not in "ZX"
        )
    except OSError:
        return False


class Leftovers(Controlled):
    """Analyses that outlive what has started them."""

    def setUp(self) -> None:
        super().setUp()
        self.switch.kill()
        self.switch.steps = ("pre",)
        self.switch.start()

    def begin(self, command: str) -> None:
        self.write("web-v1", "web-v2", analyses={"pre": ["sh", "-c", command], "seconds": 60})

    def pids(self, name: str = "pids") -> list[str]:
        path = pathlib.Path(self.plan.path).with_name(name)
        return path.read_text(encoding="ascii").split() if path.exists() else []

    def test_the_next_controller_ends_the_analysis_of_one_that_was_killed(self) -> None:
        """With its children, and before it begins its own."""
        self.begin("sleep 61 & echo $$ $! >> pids; wait")
        run = self.run_controller()
        self.assertTrue(comes(lambda: len(self.pids()) == 2), run.log)
        self.assertTrue(comes(lambda: StateFile(self.plan.path).read()[0].analyses))
        run.kill()
        self.assertEqual([alive(pid) for pid in self.pids()], [True, True])
        next_one = self.run_controller()
        self.assertTrue(
            next_one.says(
                "the analysis that the controller before has left behind, process", "is stopped"
            )
        )
        self.assertTrue(comes(lambda: len(self.pids()) == 4))
        self.assertEqual([alive(pid) for pid in self.pids()], [False, False, True, True])
        next_one.end()

    def test_each_of_several_that_were_left_behind_is_ended(self) -> None:
        """Before any of them is begun again."""
        several = [
            {"name": name, "command": ["sh", "-c", f"echo $$ >> pids; exec sleep {seconds}"]}
            for name, seconds in (("errors", 61), ("latency", 62), ("smoke", 63))
        ]
        self.write("web-v1", "web-v2", analyses={"pre": several, "seconds": 60})
        run = self.run_controller()
        self.assertTrue(comes(lambda: len(self.pids()) == 3), run.log)
        self.assertTrue(comes(lambda: len(StateFile(self.plan.path).read()[0].analyses) == 3))
        run.kill()
        self.assertEqual([alive(pid) for pid in self.pids()], [True] * 3)
        next_one = self.run_controller()
        self.assertTrue(comes(lambda: len(self.pids()) == 6), next_one.log)
        self.assertEqual([alive(pid) for pid in self.pids()], [False] * 3 + [True] * 3)
        self.assertEqual(next_one.count("has left behind, process", "is stopped"), 3)
        next_one.end()
        self.assertTrue(comes(lambda: not any(map(alive, self.pids()))))

    def test_the_number_of_another_process_is_left_alone(self) -> None:
        """A number is given again: the start of the process tells."""
        self.begin("exec sleep 60")
        run = self.run_controller()
        self.assertTrue(
            comes(
                lambda: os.path.exists(f"{self.plan.path}.state")
                and StateFile(self.plan.path).read()[0].analyses
            )
        )
        run.kill()
        time.sleep(2 / os.sysconf("SC_CLK_TCK"))  # what starts now has another start, in ticks
        with subprocess.Popen(["sleep", "60"], start_new_session=True) as other:
            file = StateFile(self.plan.path)
            (left,) = file.read()[0].analyses
            for path in (file.path, file.copy):
                text = pathlib.Path(path).read_text(encoding="ascii")
                pathlib.Path(path).write_text(
                    text.replace(f'"pid": {left.pid}', f'"pid": {other.pid}'),
                    encoding="ascii",
                )
            second = self.run_controller()
            self.assertTrue(second.says("analysis pre of web-v2 begins", longest=15), second.log)
            self.assertIsNone(other.poll())
            other.kill()
            second.end()
        os.kill(left.pid, signal.SIGKILL)

    def test_sigterm_comes_first_and_reaches_the_children(self) -> None:
        self.begin(
            "sh -c \"trap 'echo child >> told; exit' TERM; echo x >> pids; while :; do sleep 0.05; done\" & "
            "trap 'echo parent >> told; exit' TERM; echo x >> pids; while :; do sleep 0.05; done"
        )
        run = self.run_controller()
        self.assertTrue(comes(lambda: len(self.pids()) == 2), run.log)
        self.assertEqual(operator(self.switch.port, "abort").status, 0)
        self.assertTrue(
            comes(lambda: set(self.pids("told")) == {"child", "parent"}), self.pids("told")
        )

    def test_a_child_that_ignores_sigterm_is_killed(self) -> None:
        self.begin(
            "sh -c \"trap '' TERM; echo \\$\\$ >> pids; while :; do sleep 0.05; done\" & exec sleep 60"
        )
        run = self.run_controller()
        self.assertTrue(comes(lambda: len(self.pids()) == 1), run.log)
        self.assertEqual(operator(self.switch.port, "abort").status, 0)
        self.assertTrue(comes(lambda: not alive(self.pids()[0]), analysis_runner.GRACE + 5))

    def test_an_edit_of_the_plan_reaches_the_analysis_that_runs(self) -> None:
        self.begin("echo first >> told; exec sleep 60")
        run = self.run_controller()
        self.assertTrue(comes(lambda: self.pids("told") == ["first"]))
        self.begin("echo second >> told; exec sleep 60")
        self.assertTrue(
            run.says("analysis pre of web-v2 is stopped: the plan has another command for it")
        )
        self.assertTrue(comes(lambda: self.pids("told") == ["first", "second"]))
        self.write(
            "web-v1",
            "web-v2",
            analyses={"pre": ["sh", "-c", "echo second >> told; exec sleep 60"], "seconds": 1},
        )
        self.assertTrue(run.says("analysis pre of web-v2: it has not ended after 1 seconds"))
        self.assertEqual(self.pids("told"), ["first", "second"])


if __name__ == "__main__":
    unittest.main()
