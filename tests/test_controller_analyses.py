"""Several analyses in a phase: all have to pass, the first that fails decides, and each one's result
is told with the last lines that it has printed."""
import fcntl
import json
import os
import pathlib
import signal
import sys
import tempfile
import termios
import threading
import time
import unittest
from collections.abc import Callable, Mapping
from unittest import mock

from bg_switch_tools.controller.analyses import analysis_runner, printed_lines
from bg_switch_tools.controller.analyses.analysis_process import (
    SETTLE,
    AnalysesOfPhase,
    Analysis,
    AnalysisCommand,
    Judged,
)
from bg_switch_tools.controller.analyses.printed_lines import PIECE, PrintedLines, shown
from bg_switch_tools.controller.history.history_file import HistoryFile
from bg_switch_tools.controller.history.history_recorder import HistoryRecorder
from bg_switch_tools.controller.log import Log
from bg_switch_tools.controller.plan.plan import PlannedAnalysis, PlannedRevision
from bg_switch_tools.controller.process_groups import identity
from bg_switch_tools.controller.state.analysis_results import (
    LONGEST_LINE,
    PAUSE,
    AnalysisResult,
    AnalysisResults,
    AttemptResults,
    ResultsFile,
)
from bg_switch_tools.controller.state.pause import PauseFile
from bg_switch_tools.controller.state.state_file import StateFile
from bg_switch_tools.controller.rounds.controller import Controller
from bg_switch_tools.switch.connection import Connection
from bg_switch_tools.switch.lines import AnalysisKind
from bg_switch_tools.switch.reports import Report
from support.pace import is_within
from tests.test_bgctl import run
from tests.test_bgctl_history import KNOWN, report
from tests.test_controller import NAMES, ControllerCase
from tests.tool_runs import comes

JUDGED = Judged(AnalysisKind.POST, 2, PlannedRevision("web-v2", (1, 2)), 8082)
SLEEPS = "echo $$ > {}; exec sleep 60"
STUBBORN = "trap '' TERM; echo $$ > {}; while :; do sleep 0.05; done"


def named(commands: Mapping[str, str]) -> list[dict[str, object]]:
    """Analyses of a plan, each a script of a shell."""
    return [{"name": name, "command": ["sh", "-c", text]} for name, text in commands.items()]


class SeveralCase(ControllerCase):
    steps = ("pre", "pause", "post")

    def write_pre(self, commands: Mapping[str, str], seconds: float = 60) -> None:
        self.write(*NAMES[:2], analyses={"pre": named(commands), "seconds": seconds})

    def path(self, name: str) -> pathlib.Path:
        return pathlib.Path(self.folder, name)

    def pid(self, name: str) -> int:
        """The number that a command has written."""
        self.assertTrue(
            comes(lambda: self.path(name).exists() and bool(self.path(name).read_text().strip())),
            self.log(),
        )
        return int(self.path(name).read_text())

    def verdicts(self) -> list[str]:
        return [line for line in self.switch.sent_lines() if line.startswith("verdict")]

    def results(self) -> AttemptResults:
        return ResultsFile(self.plan.path).read()

    def outcomes(self) -> dict[str, str]:
        return {each.name: each.result for each in self.results().analyses}


class Verdicts(SeveralCase):
    def test_all_run_at_the_same_time(self) -> None:
        """Each one waits for the other one."""
        wait = "touch {}; until test -e {}; do sleep 0.02; done"
        self.write_pre({"one": wait.format("a", "b"), "other": wait.format("b", "a")})
        self.start()
        self.await_book("paused", 2)
        self.assertEqual(self.verdicts(), ["verdict pre successful"])
        self.await_log(
            "analysis pre one of web-v2 begins",
            "analysis pre other of web-v2 begins",
            "analysis pre one of web-v2: successful",
            "analysis pre other of web-v2: successful",
        )

    def test_all_have_to_pass(self) -> None:
        """One that has passed says nothing of the others, whichever it is."""
        for place, waits in enumerate(("one", "other")):
            with self.subTest(waits):
                wait = f"until test -e go{place}; do sleep 0.02; done"
                self.write_pre(
                    {name: wait if name == waits else "exit 0" for name in ("one", "other")}
                )
                runner = self.start()
                passes = "other" if waits == "one" else "one"
                self.await_log(f"analysis pre {passes} of web-v2: successful")
                self.some_rounds()
                self.assertEqual((self.switch.book.phase, self.verdicts()), ("preAnalysis", []))
                self.path(f"go{place}").touch()
                self.await_book("paused", 2)
                self.assertEqual(self.verdicts(), ["verdict pre successful"])
                runner.stop()
                self.switch.kill()
                self.switch.lines.clear()
                self.switch.start()
                for name in os.listdir(self.folder):
                    os.remove(self.path(name))

    def test_the_first_that_fails_decides_at_once(self) -> None:
        """The others are ended, although one ignores SIGTERM, and count for nothing."""
        with mock.patch.object(analysis_runner, "GRACE", 1.0):
            self.write_pre(
                {
                    "latency": SLEEPS.format("p1"),
                    "errors": "until test -e p2; do sleep 0.02; done; echo 9 errors; exit 1",
                    "smoke": STUBBORN.format("p2"),
                }
            )
            self.start()
            pids = [self.pid("p1"), self.pid("p2")]
            self.await_log("verdict pre failed => ok 0")
            self.assertIsNotNone(identity(pids[1]), "the verdict waits for no end")
            self.await_book("aborted", 2)
            self.assertTrue(comes(lambda: not any(map(identity, pids))))
        self.assertEqual(self.verdicts(), ["verdict pre failed"])
        self.await_log(
            "analysis pre errors of web-v2: failed: 9 errors",
            "analysis pre latency of web-v2 is stopped: errors has failed",
            "analysis pre smoke of web-v2 is stopped: errors has failed",
        )
        self.assertEqual(
            self.outcomes(), {"latency": "stopped", "errors": "failed", "smoke": "stopped"}
        )

    def test_an_error(self) -> None:
        self.write_pre({"errors": "exit 3", "latency": SLEEPS.format("p1")})
        self.start()
        self.await_log(
            "analysis pre errors of web-v2: error, its exit status is 3",
            "analysis pre latency of web-v2 is stopped: errors has ended in an error",
            "verdict pre error => ok 0",
        )
        self.assertEqual(self.verdicts(), ["verdict pre error"])

    def test_one_that_is_not_there(self) -> None:
        told = [*named({"latency": SLEEPS.format("p1")})]
        told.append({"name": "errors", "command": ["./no_such_file" + "x" * 5000]})
        self.write(*NAMES[:2], analyses={"pre": told})
        self.start()
        self.await_log(
            "analysis pre errors of web-v2: error, it can't be run: ",
            "analysis pre latency of web-v2 is stopped: errors has ended in an error",
            "verdict pre error => ok 0",
        )
        self.assertLessEqual(max(map(len, self.log().splitlines())), 400)
        self.assertEqual(self.results().analyses[1].reason[:17], "it can't be run: ")

    def test_the_limit_holds_for_each(self) -> None:
        self.write_pre({"errors": "exit 0", "latency": SLEEPS.format("p1")}, seconds=0.5)
        self.start()
        self.await_log(
            "analysis pre errors of web-v2: successful",
            "analysis pre latency of web-v2: error, it has not ended after 0.5 seconds",
            "verdict pre error => ok 0",
        )
        pid = self.pid("p1")
        self.assertTrue(comes(lambda: identity(pid) is None))

    def test_a_verdict_that_is_refused_stays_what_it_is(self) -> None:
        """Those that were stopped have an exit status by then."""
        self.write_pre({"errors": "exit 1", "latency": SLEEPS.format("p1")})
        self.switch.book.refusals["verdict"] = "HistoryFull"
        with mock.patch.object(analysis_runner, "GRACE", 0.2):
            self.start()
            self.await_log("verdict pre failed => refused HistoryFull")
            self.assertTrue(comes(lambda: self.verdicts().count("verdict pre failed") >= 3))
            self.some_rounds()
        self.assertEqual(set(self.verdicts()), {"verdict pre failed"})
        for text in ("errors of web-v2: failed", "latency of web-v2 is stopped: "):
            self.assertEqual(self.log().count(text), 1)
        del self.switch.book.refusals["verdict"]
        self.await_book("aborted", 2)

    def test_how_one_ends_that_was_stopped_counts_for_nothing(self) -> None:
        """Not even if it has the status of a failure then."""
        fails = "trap 'exit 1' TERM; echo $$ > p1; while :; do sleep 0.05; done"
        self.write_pre(
            {"errors": "until test -e p1; do sleep 0.02; done; exit 3", "latency": fails}
        )
        self.switch.book.refusals["verdict"] = "HistoryFull"
        self.start()
        pid = self.pid("p1")
        self.assertTrue(comes(lambda: identity(pid) is None), self.log())
        count = len(self.verdicts())
        self.assertTrue(comes(lambda: len(self.verdicts()) >= count + 3))
        self.assertEqual(set(self.verdicts()), {"verdict pre error"})
        self.assertEqual(self.outcomes(), {"errors": "error", "latency": "stopped"})

    def test_another_command_of_one_begins_all_anew(self) -> None:
        self.write_pre({"one": SLEEPS.format("p1"), "other": SLEEPS.format("p2")})
        self.start()
        pids = [self.pid("p1"), self.pid("p2")]
        self.write_pre({"one": SLEEPS.format("p1"), "other": "exit 0"})
        self.await_log(
            "analysis pre one of web-v2 is stopped: the plan has another command for it",
            "analysis pre other of web-v2 is stopped: the plan has another command for it",
            "analysis pre other of web-v2: successful",
        )
        self.assertTrue(comes(lambda: not any(map(identity, pids))))
        self.assertEqual((self.verdicts(), self.outcomes()["one"]), ([], "running"))

    def test_another_limit_holds_for_each(self) -> None:
        commands = {"one": "exit 0", "other": SLEEPS.format("p1")}
        self.write_pre(commands)
        self.start()
        pid = self.pid("p1")
        self.write_pre(commands, seconds=0.5)
        self.await_log("analysis pre other of web-v2: error, it has not ended after 0.5 seconds")
        self.assertTrue(comes(lambda: identity(pid) is None))

    def test_each_one_is_remembered_before_the_next_one_begins(self) -> None:
        """A controller that is killed between two of them leaves none behind that nobody knows."""
        known, begin = list[int](), AnalysesOfPhase.begin

        def counted(several: AnalysesOfPhase, command: AnalysisCommand) -> Analysis:
            known.append(len(StateFile(self.plan.path).read()[0].analyses))
            return begin(several, command)

        with mock.patch.object(AnalysesOfPhase, "begin", counted):
            self.write_pre({name: SLEEPS.format(name) for name in ("p1", "p2", "p3")})
            self.start()
            self.pid("p3")
        self.assertEqual(known, [0, 1, 2])

    def test_all_are_ended_with_the_controller(self) -> None:
        self.write_pre({"one": SLEEPS.format("p1"), "other": STUBBORN.format("p2")})
        runner = self.start()
        pids = [self.pid("p1"), self.pid("p2")]
        runner.stop()
        self.assertTrue(comes(lambda: not any(map(identity, pids))))
        self.await_log(
            "analysis pre one of web-v2 is stopped: the controller ends",
            "analysis pre other of web-v2 is stopped: the controller ends",
        )
        self.assertEqual(StateFile(self.plan.path).read()[0].analyses, ())

    def test_a_paused_controller_hands_in_what_was_decided_afterwards(self) -> None:
        PauseFile(self.plan.path).pause()
        self.write("web-v1")
        self.start()
        self.await_book("steady", 1)
        PauseFile(self.plan.path).resume()
        self.write_pre(
            {"one": SLEEPS.format("p1"), "other": "until test -e go; do sleep 0.02; done; exit 1"}
        )
        self.pid("p1")
        PauseFile(self.plan.path).pause()
        self.await_log("paused by")
        self.path("go").touch()
        self.some_rounds()
        self.assertEqual((self.verdicts(), self.outcomes()["other"]), ([], "running"))
        PauseFile(self.plan.path).resume()
        self.await_log("verdict pre failed => ok 0")


class Decisions(unittest.TestCase):
    def decided(self, *scripts: str) -> tuple[str | None, str]:
        """What analyses that have all ended come to, and the reason."""
        planned = tuple(
            PlannedAnalysis(("sh", "-c", text), f"a{number}") for number, text in enumerate(scripts)
        )
        several = AnalysesOfPhase(JUDGED, planned)
        for each in planned:
            several.begin(AnalysisCommand(each, "/", 60))
        groups = [one.group for one in several.runs if one.group]
        self.assertTrue(comes(lambda: all(group.status() is not None for group in groups)))
        several.look()
        for one in several.runs:
            one.stop(0, "")
        return several.verdict(), several.reason()

    def test_what_decides_where_several_have_ended(self) -> None:
        """As in Argo, a failure counts more than an error, and an error more than success."""
        failed, error = "a1 has failed", "a1 has ended in an error: its exit status is 2"
        for scripts, verdict, reason in (
            (("exit 0", "exit 0"), "successful", ""),
            (("exit 0", "exit 1"), "failed", failed),
            (("exit 0", "exit 2"), "error", error),
            (("exit 2", "exit 1"), "failed", failed),
            (("kill -9 $$", "exit 1", "exit 0"), "failed", failed),
        ):
            self.assertEqual(self.decided(*scripts), (verdict, reason), scripts)

    def test_the_last_line_of_one_that_has_just_ended_is_there(self) -> None:
        """Even if the thread that reads it is slow."""
        planned = PlannedAnalysis(("sh", "-c", "echo 9 errors; exit 1"), "errors")
        several = AnalysesOfPhase(JUDGED, (planned,))

        def slow(line: bytes) -> str:
            time.sleep(0.05)
            return shown(line)

        with mock.patch.object(printed_lines, "shown", slow):
            only = several.begin(AnalysisCommand(planned, "/", 60))
            group = only.group
            assert group is not None
            while group.status() is None:
                time.sleep(0.001)
            several.look()
        only.stop(0, "")
        self.assertEqual(several.results()[0].last, ("9 errors",))

    def left_behind(self, count: int) -> AnalysesOfPhase:
        """Analyses that have ended, and whose children have not."""
        words = ("sh", "-c", "echo up; sleep 100 & exit 0")
        planned = tuple(PlannedAnalysis(words, f"a{number}") for number in range(count))
        several = AnalysesOfPhase(JUDGED, planned)
        for each in planned:
            group = several.begin(AnalysisCommand(each, "/", 60)).group
            assert group is not None
            self.addCleanup(os.killpg, group.id.pid, signal.SIGKILL)
        groups = [one.group for one in several.runs if one.group]
        self.assertTrue(comes(lambda: all(group.status() is not None for group in groups)))
        return several

    def test_what_a_command_leaves_behind_is_not_waited_for(self) -> None:
        several, begun = self.left_behind(1), time.monotonic()
        self.assertEqual(several.look(), several.runs)
        seconds = time.monotonic() - begun
        self.assertTrue(is_within(seconds, 3), seconds)
        several.runs[0].stop(0, "")
        self.assertEqual(several.results()[0].last, ("up",))

    def test_all_together_wait_no_longer_than_one_for_what_they_leave_behind(self) -> None:
        several, waited = self.left_behind(5), list[float]()

        def settle(_: PrintedLines, seconds: float) -> None:
            waited.append(min(seconds, SETTLE / 2))
            time.sleep(waited[-1])

        with mock.patch.object(PrintedLines, "settle", settle):
            several.look()
        self.assertEqual(len(waited), 5)
        self.assertLessEqual(sum(waited), SETTLE)
        for one in several.runs:
            one.stop(0, "")

    def test_one_without_a_name_gives_the_reason_alone(self) -> None:
        planned = PlannedAnalysis(("sh", "-c", "exit 3"))
        several = AnalysesOfPhase(JUDGED, (planned,))
        only = several.begin(AnalysisCommand(planned, "/", 60))
        self.assertTrue(comes(lambda: several.look() == [only]))
        self.assertEqual((several.verdict(), several.reason()), ("error", "its exit status is 3"))
        only.stop(0, "")


class Names(unittest.TestCase):
    """The name of an analysis stands before each line that it prints; one without a name prints as
    it does."""

    def told(self, name: str) -> bytes:
        told, stderr = os.pipe()
        planned = PlannedAnalysis(("sh", "-c", "echo one; echo other >&2; printf 3"), name)
        with mock.patch.object(printed_lines, "TO_STDERR", stderr):
            several = AnalysesOfPhase(JUDGED, (planned,))
            only = several.begin(AnalysisCommand(planned, "/", 60))
            self.assertTrue(comes(lambda: several.look() == [only]))
            only.stop(0, "")
        os.close(stderr)
        with open(told, "rb") as file:
            return file.read()

    def test_the_lines_of_one_with_a_name(self) -> None:
        self.assertEqual(self.told("errors"), b"errors: one\nerrors: other\nerrors: 3\n")

    def test_the_lines_of_one_without_a_name(self) -> None:
        self.assertEqual(self.told(""), b"one\nother\n3")


class Told(SeveralCase):
    def test_the_lines_of_json_have_the_results(self) -> None:
        self.write_pre({"errors": "echo one; echo two; exit 1", "latency": SLEEPS.format("p1")})
        self.start(as_json=True)
        self.await_book("aborted", 2)
        lines = [json.loads(line) for line in self.log().splitlines()]
        (told,) = [line for line in lines if line.get("result")]
        self.assertEqual(
            {key: told[key] for key in ("event", "analysis", "name", "result", "reason", "last")},
            {
                "event": "analysis",
                "analysis": "pre",
                "name": "errors",
                "result": "failed",
                "reason": "",
                "last": ["one", "two"],
            },
        )
        self.assertEqual(told["text"], "analysis pre errors of web-v2: failed: one / two")

    def test_the_history_names_which_has_failed(self) -> None:
        self.write_pre(
            {"errors": "until test -e p1; do sleep 0.02; done; echo 9 errors; exit 1"}
            | {"latency": SLEEPS.format("p1")}
        )
        self.start()
        self.await_book("aborted", 2)
        file = HistoryFile(self.plan.path)
        self.assertTrue(comes(lambda: file.read()[0].all[-1].how == "aborted"))
        expected = (
            AnalysisResult("pre", "errors", "failed", "", ("9 errors",)),
            AnalysisResult("pre", "latency", "stopped", "errors has failed"),
        )
        self.assertEqual(file.read()[0].all[-1].analyses, expected)
        shown = run("history", "--plan", self.plan.path).printed.splitlines()
        self.assertIn("  aborted  ", shown[-3])
        self.assertEqual(
            shown[-2:],
            ["  pre errors: failed: 9 errors", "  pre latency: stopped, errors has failed"],
        )
        told = run("history", "--json", "--plan", self.plan.path).printed.splitlines()
        self.assertEqual(
            [json.loads(line).get("analyses") for line in told],
            [None, [each.as_json() for each in expected]],
        )

    def test_the_next_attempt_begins_without_results(self) -> None:
        self.write_pre({"errors": "test -e go", "latency": "test -e go"})
        self.start()
        self.await_book("aborted", 2)
        self.assertTrue(comes(lambda: self.results().how == "aborted"))
        self.path("go").touch()
        self.by_hand("retry")
        self.await_book("paused", 2)
        self.assertTrue(comes(lambda: set(self.outcomes().values()) == {"successful"}))
        self.assertEqual(self.results().how, "")
        self.by_hand("abort")
        attempts = HistoryFile(self.plan.path)
        self.assertTrue(comes(lambda: len(attempts.read()[0].all) == 3))
        self.assertTrue(comes(lambda: attempts.read()[0].all[-1].how == "aborted"))
        self.assertEqual(
            [[each.result for each in one.analyses] for one in attempts.read()[0].all],
            [[], ["failed", mock.ANY], ["successful", "successful"]],
        )

    def test_an_attempt_that_ends_before_its_analyses_has_no_results(self) -> None:
        """Even if the attempt before, of the same revision, had some."""
        results = AnalysisResults(self.plan.path)
        recorder = HistoryRecorder(self.plan.path, Log(self.out, False), None, results)
        recorder.take_in(report("steady", 1, 1, 1), KNOWN)
        recorder.take_in(report("preAnalysis", 1, 1, 2), KNOWN)
        results.begin_analyses("web-v2", 2)
        results.take(2, "pre", [AnalysisResult("pre", "errors", "failed")])
        for phase in ("aborted", "scaling", "aborted"):
            recorder.take_in(report(phase, 1, 1, 2), KNOWN)
        attempts = HistoryFile(self.plan.path).read()[0].all
        self.assertEqual(
            [(one.how, len(one.analyses)) for one in attempts],
            [("stable", 0), ("aborted", 1), ("aborted", 0)],
        )

    def test_both_phases_are_in_the_history(self) -> None:
        self.write(
            *NAMES[:2],
            analyses={"pre": named({"smoke": "echo up"}), "post": named({"errors": "exit 1"})},
        )
        runner = self.start()
        self.await_book("paused", 2)
        runner.stop()
        self.start()  # another controller goes on, and knows what the one before has seen
        self.await_log("continues from the state file")
        self.by_hand("promote")
        self.await_book("aborted", 2)
        file = HistoryFile(self.plan.path)
        self.assertTrue(comes(lambda: file.read()[0].all[-1].how == "aborted"))
        self.assertEqual(
            [(each.title(), each.result) for each in file.read()[0].all[-1].analyses],
            [("pre smoke", "successful"), ("post errors", "failed")],
        )

    def test_one_that_an_abort_by_hand_stops(self) -> None:
        self.write_pre({"latency": SLEEPS.format("p1")})
        self.start()
        pid = self.pid("p1")
        self.by_hand("abort")
        self.assertTrue(comes(lambda: identity(pid) is None))
        file = HistoryFile(self.plan.path)
        self.assertTrue(comes(lambda: file.read()[0].all[-1].how == "aborted"))
        self.assertEqual([each.result for each in file.read()[0].all[-1].analyses], ["stopped"])
        self.await_log("analysis pre latency of web-v2 is stopped: its phase has ended")
        self.assertTrue(comes(lambda: self.outcomes() == {"latency": "stopped"}))

    def test_the_status_tells_what_runs_and_what_has_failed(self) -> None:
        self.write_pre(
            {"errors": "echo 1 of 100; until test -e go; do sleep 0.02; done; exit 1"}
            | {"latency": SLEEPS.format("p1")}
        )
        self.start()
        line = "bgctl: analysis pre errors of web-v2: running: 1 of 100"
        self.assertTrue(comes(lambda: line in run("status", BG_PLAN=self.plan.path).told))
        self.path("go").touch()
        self.await_book("aborted", 2)
        told = run("status", BG_PLAN=self.plan.path).told
        self.assertIn("bgctl: analysis pre errors of web-v2: failed: 1 of 100", told)
        self.assertIn("bgctl: analysis pre latency of web-v2: stopped, errors has failed", told)

    def test_the_status_of_a_stable_revision_has_no_analyses(self) -> None:
        self.write(
            *NAMES[:2],
            analyses={"pre": named({"smoke": "exit 0"}), "post": named({"errors": "exit 0"})},
        )
        self.start()
        self.await_book("paused", 2)
        self.by_hand("promote")
        self.await_book("steady", 2)
        self.assertTrue(comes(lambda: self.results().how == "stable"))
        self.assertNotIn("analysis", run("status", BG_PLAN=self.plan.path).told)


class RetriedAtOnce(SeveralCase):
    """An attempt that is aborted and retried within a round: one report alone shows the abort."""

    EXPECTED = [("deployed", "aborted"), ("retried", "")]

    def check_retry(self, step: str) -> None:
        """The abort shows in the report of this step of a round, and the retry in the next one."""
        step_of_round: Callable[..., Report | None] = getattr(Controller, step)

        def between_orders(
            its: Controller, connection: Connection, *report: Report
        ) -> Report | None:
            if not self.path("go").exists():
                return step_of_round(its, connection, *report)
            self.path("go").unlink()
            self.by_hand("abort")
            shown = its.book.open_report(connection)
            self.by_hand("retry")
            return shown

        def read_again(its: Controller, connection: Connection, _: Report) -> Report:
            return its.book.open_report(connection)

        self.write_pre({"latency": SLEEPS.format("p1")})
        with mock.patch.object(Controller, "_tick", read_again):
            with mock.patch.object(Controller, step, between_orders):
                runner = self.start()
                pid = self.pid("p1")
                self.path("p1").unlink()
                self.path("go").touch()
                self.assertNotEqual(self.pid("p1"), pid)
                self.assertTrue(comes(lambda: identity(pid) is None))
                runner.stop()
        self.await_log(
            "phase: preAnalysis -> aborted",
            "analysis pre latency of web-v2 is stopped: its phase has ended",
            "phase: aborted -> preAnalysis",
        )
        attempts = HistoryFile(self.plan.path).read()[0].all
        self.assertEqual([(each.began, each.how) for each in attempts[-2:]], self.EXPECTED)

    def test_its_analyses_are_judged_by_the_report_after_the_abort(self) -> None:
        self.check_retry("_open_book")

    def test_its_analyses_are_judged_by_the_report_of_the_abort(self) -> None:
        self.check_retry("_tick")


class OneCommand(SeveralCase):
    """A command without a list: its files and lines are what they were before there were lists."""

    def test_it_has_neither_a_result_in_the_log_nor_in_the_history(self) -> None:
        self.write(*NAMES[:2], analyses={"pre": ["sh", "-c", "echo 9 errors; exit 1"]})
        self.start()
        self.await_book("aborted", 2)
        file = HistoryFile(self.plan.path)
        self.assertTrue(comes(lambda: file.read()[0].all[-1].how == "aborted"))
        self.assertNotIn("analyses", pathlib.Path(file.path).read_text(encoding="ascii"))
        told = [line.partition(": ")[2] for line in self.log().splitlines() if "analysis" in line]
        self.assertEqual(told, ["analysis pre of web-v2 begins"])

    def test_the_page_and_the_status_have_its_last_lines(self) -> None:
        self.write(*NAMES[:2], analyses={"pre": ["sh", "-c", "echo 9 errors; exit 1"]})
        self.start()
        self.await_book("aborted", 2)
        self.assertTrue(comes(lambda: self.results().how == "aborted"))
        self.assertEqual(
            self.results().analyses, (AnalysisResult("pre", "", "failed", "", ("9 errors",)),)
        )
        self.assertIn(
            "bgctl: analysis pre of web-v2: failed: 9 errors",
            run("status", BG_PLAN=self.plan.path).told,
        )

    def test_its_process_is_in_the_state_file_as_before(self) -> None:
        self.write(*NAMES[:2], analyses={"pre": ["sh", "-c", SLEEPS.format("p1")]})
        self.start()
        pid = self.pid("p1")
        file = StateFile(self.plan.path)
        self.assertTrue(comes(lambda: bool(file.read()[0].analyses)))
        told = json.loads(pathlib.Path(file.path).read_text(encoding="ascii"))
        self.assertEqual((told["analysis"]["pid"], "analyses" in told), (pid, False))


def bytes_in(pipe: int) -> int:
    """The number of bytes in a pipe that were not read yet."""
    return int.from_bytes(fcntl.ioctl(pipe, termios.FIONREAD, bytes(4)), sys.byteorder)


class Printed(unittest.TestCase):
    """What a command prints."""

    def setUp(self) -> None:
        self.told, self.stderr = os.pipe()
        self.addCleanup(os.close, self.told)
        patched = mock.patch.object(printed_lines, "TO_STDERR", self.stderr)
        patched.start()
        self.addCleanup(patched.stop)

    def printed(self, *pieces: bytes, prefix: str = "") -> tuple[tuple[str, ...], bytes]:
        """The lines that are kept of these pieces, and what is told on standard error."""
        reading, writing = os.pipe()
        lines, told = PrintedLines(reading, prefix), bytearray()

        def read() -> None:
            while piece := os.read(self.told, PIECE):
                told.extend(piece)

        reader = threading.Thread(target=read)
        reader.start()
        for piece in pieces:
            os.write(writing, piece)
            self.assertTrue(comes(lambda: not bytes_in(reading)))  # each piece is one read
        os.close(writing)
        lines.settle(10)
        os.close(self.stderr)
        reader.join(10)
        self.assertFalse(lines.thread.is_alive() or reader.is_alive())
        return lines.last(), bytes(told)

    def test_the_last_lines_are_kept(self) -> None:
        text = b"".join(b"line %d\n" % number for number in range(9))
        self.assertEqual(self.printed(text), (("line 6", "line 7", "line 8"), text))

    def test_a_line_that_comes_in_parts_or_has_no_end(self) -> None:
        self.assertEqual(
            self.printed(b"fir", b"st\nsec", b"ond", prefix="errors: "),
            (("first", "second"), b"errors: first\nerrors: second\n"),
        )

    def test_each_line_has_the_name_before_it(self) -> None:
        self.assertEqual(
            self.printed(b"a\n\nb\n", prefix="errors: "),
            (("a", "b"), b"errors: a\nerrors: \nerrors: b\n"),
        )

    def test_without_a_name_all_goes_on_as_it_comes(self) -> None:
        text = b"a\r\x1b[31mb\n\xff\x00c"
        self.assertEqual(self.printed(text)[1], text)

    def test_what_no_page_can_show_is_not_kept(self) -> None:
        long = "x" * (3 * LONGEST_LINE)
        kept = self.printed(b"10%\r50%\r100%\n\x1b[2J<b>\xff\n" + long.encode() + b"\n")[0]
        self.assertEqual(kept, ("100%", "[2J<b>\ufffd", "x" * LONGEST_LINE))

    def test_a_line_of_any_length_takes_no_memory(self) -> None:
        with mock.patch.object(printed_lines, "PIECE", 1000):
            kept, told = self.printed(b"y" * 2500, b"z\n", prefix="a: ")
        parts = [b"a: " + part + b"\n" for part in (b"y" * 1000, b"y" * 1000, b"y" * 500 + b"z")]
        self.assertEqual((told, len(kept), len(kept[0])), (b"".join(parts), 3, LONGEST_LINE))

    def test_a_command_that_prints_without_end_leaves_the_processor_to_the_others(self) -> None:
        text, begun = b"y\n" * 2500, time.monotonic()
        with mock.patch.object(printed_lines, "PIECE", 100):
            with mock.patch.object(printed_lines, "BREAK", 0.01):
                self.assertEqual(self.printed(text), (("y", "y", "y"), text))
        self.assertGreaterEqual(time.monotonic() - begun, 0.5)

    def test_lines_that_show_nothing_are_passed_over(self) -> None:
        kept = self.printed(b"first\n", b"second\n \n\r\n\n", b"\n" * 500, b"third\n\n")[0]
        self.assertEqual(kept, ("first", "second", "third"))

    def test_a_reader_that_is_gone_stops_no_command(self) -> None:
        os.close(self.stderr)
        reading, writing = os.pipe()
        lines = PrintedLines(reading, "errors: ")
        os.write(writing, b"a\n")
        self.assertTrue(comes(lambda: lines.last() == ("a",)))
        os.write(writing, b"b\n")
        os.close(writing)
        lines.settle(10)
        self.assertEqual(lines.last(), ("a", "b"))


class Files(unittest.TestCase):
    """The file of the results."""

    def setUp(self) -> None:
        folder = tempfile.TemporaryDirectory()
        self.addCleanup(folder.cleanup)
        self.plan = os.path.join(folder.name, "plan.json")
        self.path = self.plan + ".state.analyses"

    def test_what_is_written_is_read(self) -> None:
        for told in (
            AttemptResults("web-v2", 2, "aborted", (AnalysisResult("pre", "", "error", "why"),)),
            AttemptResults("a", 7, "", (AnalysisResult("post", "b", last=("x", "\u00e9")),)),
        ):
            ResultsFile(self.plan).write(told)
            self.assertEqual(ResultsFile(self.plan).read(), told)
        self.assertEqual(os.stat(self.path).st_mode & 0o777, 0o644)

    def test_what_is_no_result_is_left_out(self) -> None:
        good: dict[str, object] = {"analysis": "pre", "name": "errors", "result": "failed"}
        wrongs = [dict(good, **{key: "x y"}) for key in ("analysis", "name", "result")]
        for wrong in (*wrongs, 7, None, {}):
            text = json.dumps({"revision": "a", "number": 1, "how": "", "analyses": [wrong, good]})
            pathlib.Path(self.path).write_text(text, encoding="ascii")
            read = ResultsFile(self.plan).read()
            self.assertEqual([each.name for each in read.analyses], ["errors"])
        for text in ("", "[]", "{}", '{"revision": "a"', '{"revision": "A B", "number": 1}', "7"):
            pathlib.Path(self.path).write_text(text, encoding="ascii")
            self.assertEqual(ResultsFile(self.plan).read(), AttemptResults())

    def test_lines_of_any_length_are_cut(self) -> None:
        told = [{"analysis": "pre", "result": "failed", "last": ["a\x1b", "b" * 999, "c", "d"]}]
        text = json.dumps({"revision": "a", "number": 1, "how": "", "analyses": told * 99})
        pathlib.Path(self.path).write_text(text, encoding="ascii")
        read = ResultsFile(self.plan).read().analyses
        self.assertEqual((len(read), read[0].last), (64, ("b" * LONGEST_LINE, "c", "d")))

    def test_new_lines_alone_are_written_once_a_second(self) -> None:
        results = AnalysisResults(self.plan)
        results.begin_analyses("web-v2", 2)
        with mock.patch.object(ResultsFile, "write") as write:
            for number in range(50):
                results.take(2, "pre", [AnalysisResult("pre", "a", last=(str(number),))])
            self.assertLessEqual(write.call_count, 2)
            results.take(2, "pre", [AnalysisResult("pre", "a", "failed", last=("50",))])
            self.assertEqual(write.call_args[0][0].analyses[0].result, "failed")
            results.written_at = time.monotonic() - PAUSE
            results.take(2, "pre", [AnalysisResult("pre", "a", "failed", last=("51",))])
            self.assertEqual(write.call_args[0][0].analyses[0].last, ("51",))

    def test_those_of_an_earlier_attempt_are_not_kept(self) -> None:
        results = AnalysisResults(self.plan)
        results.begin_analyses("web-v2", 2)
        results.take(2, "pre", [AnalysisResult("pre", "a", "failed")])
        results.begin("web-v3", 3)
        results.take(2, "pre", [AnalysisResult("pre", "a", "stopped")])
        self.assertEqual(AnalysisResults(self.plan).attempt, AttemptResults("web-v3", 3))
        self.assertEqual(results.end("web-v2", 2, "replaced"), ())


if __name__ == "__main__":
    unittest.main()
