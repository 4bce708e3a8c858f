"""The controller's turns, in this process and with short pauses, before a fake switch."""
import contextlib
import io
import json
import os
import pathlib
import tempfile
import threading
import time
import unittest
from collections.abc import Sequence
from unittest import mock

from bg_switch_tools.controller import cli as controller_cli
from bg_switch_tools.controller.cli import Runner
from bg_switch_tools.controller.endpoints.former_switches import is_gone
from bg_switch_tools.controller.history import memory
from bg_switch_tools.controller.lines import book
from bg_switch_tools.controller.log import Log
from bg_switch_tools.controller.plan.plan_file import PlanFile
from bg_switch_tools.controller.rounds import controller
from bg_switch_tools.controller.state.state_file import StateFile, StateLock
from support.pace import is_within
from tests.fake_journal import FakeJournal
from tests.fake_port import REPORT, FakePort
from tests.fake_switch import FakeBook, FakeSwitch
from tests.tool_runs import WAIT, Endpoint, comes, plan_of

NAMES = ("web-v1", "web-v2", "web-v3")


class ControllerCase(unittest.TestCase):
    """A switch, two endpoints for each of three revisions, and a controller that takes twenty turns
    a second."""

    steps: Sequence[str] = ("pause",)
    knows_down = False
    has_journal = False

    def setUp(self) -> None:
        self.stack = contextlib.ExitStack()
        self.addCleanup(self.stack.close)
        self.stack.enter_context(mock.patch.object(controller, "ROUND", 0.05))
        self.folder = self.stack.enter_context(tempfile.TemporaryDirectory())
        self.endpoints = {name: [Endpoint(), Endpoint()] for name in NAMES}
        for pair in self.endpoints.values():
            for endpoint in pair:
                self.stack.callback(endpoint.stop)
        self.journal = FakeJournal()
        self.switch = FakeSwitch(
            *self.steps,
            knows_down=self.knows_down,
            journal=self.journal if self.has_journal else None,
        )
        self.stack.callback(self.switch.kill)
        self.plan = plan_of(self.folder, self.switch.port)
        self.out = io.StringIO()

    def words(self, name: str) -> str:
        return " ".join([name, *(str(endpoint.port) for endpoint in self.endpoints[name])])

    def write(self, *names: str, **members: object) -> None:
        self.plan.write(
            [(name, [endpoint.port for endpoint in self.endpoints[name]]) for name in names],
            **members,
        )

    def start(self, as_json: bool = False) -> Runner:
        file = PlanFile(self.plan.path)
        plan = file.read()
        assert plan is not None
        runner = Runner(file, plan, Log(self.out, as_json), StateLock(self.plan.path))
        runner.thread.start()
        self.stack.callback(runner.stop)
        self.runner = runner
        return runner

    def log(self) -> str:
        return self.out.getvalue()

    def await_log(self, *texts: str) -> None:
        for text in texts:
            self.assertTrue(comes(lambda: text in self.log()), f"{text}\n{self.log()}")

    def await_book(self, phase: str, newest: int) -> None:
        self.assertTrue(
            comes(lambda: (self.switch.book.phase, self.switch.book.newest) == (phase, newest)),
            self.log(),
        )
        self.some_rounds()

    def some_rounds(self) -> None:
        """Waits for a few whole turns."""
        ticks = self.switch.lines.count("report")
        self.assertTrue(
            comes(
                lambda: self.switch.lines.count("report") >= ticks + 8
                or not self.switch.control.thread.is_alive()
            )
        )

    def restart_switch(self) -> None:
        self.switch.kill()
        self.switch.lines.clear()
        self.switch.start()
        self.assertTrue(comes(lambda: self.switch.book.revisions), self.log())
        self.some_rounds()

    def by_hand(self, line: str) -> None:
        """An order by hand, between two lines of the controller's."""
        self.assertRegex((self.switch.book.answer(line) or [""])[0], "^ok ")

    def v3_is_paused(self) -> Runner:
        self.write(*NAMES[:2])
        runner = self.start()
        self.await_book("paused", 2)
        self.by_hand("promote")
        self.write(*NAMES)
        self.await_book("paused", 3)
        return runner


class Openings(ControllerCase):
    def test_the_first_opening(self) -> None:
        self.write(*NAMES[:2])
        self.start()
        self.await_book("paused", 2)
        self.assertEqual(
            self.switch.sent_lines(),
            [
                f"open {self.words('web-v1')}",
                "available 1 2",
                f"deploy {self.words('web-v2')}",
                "available 2 2",
            ],
        )
        self.await_log("no book is open: it is opened with web-v1, the plan's first revision")

    def test_an_aborted_attempt_is_not_begun_again(self) -> None:
        self.v3_is_paused()
        self.by_hand("abort")
        self.some_rounds()
        self.restart_switch()
        self.assertEqual(
            self.switch.sent_lines(), [f"open {self.words('web-v2')}", "available 1 2"]
        )
        self.await_log("web-v3 is not deployed again: it was aborted or undone")

    def test_an_undone_attempt_is_not_begun_again(self) -> None:
        self.v3_is_paused()
        self.by_hand(f"deploy {self.words('web-v1')}")
        self.some_rounds()
        self.restart_switch()
        self.assertEqual(
            self.switch.sent_lines(), [f"open {self.words('web-v2')}", "available 1 2"]
        )

    def test_an_attempt_is_begun_again_once_after_each_start(self) -> None:
        self.v3_is_paused()
        for _ in range(2):
            self.restart_switch()
            self.assertEqual(
                self.switch.sent_lines()[2:], [f"deploy {self.words('web-v3')}", "available 2 2"]
            )
        self.by_hand("abort")
        self.some_rounds()
        self.assertEqual(len(self.switch.sent_lines()), 4)

    def test_another_plan_while_the_switch_is_down(self) -> None:
        self.v3_is_paused()
        self.switch.kill()
        self.write(*NAMES[:2])
        self.await_log("the plan has changed: its control port is")
        self.switch.lines.clear()
        self.switch.start()
        self.await_book("steady", 1)
        self.assertEqual(
            self.switch.sent_lines(), [f"open {self.words('web-v2')}", "available 1 2"]
        )

    def test_the_plan_has_other_ports_by_then(self) -> None:
        """A new book takes the ports that were live, and not those that the plan has now."""
        self.v3_is_paused()
        self.switch.kill()
        live = self.words("web-v2")
        self.endpoints["web-v2"] = self.endpoints["web-v1"]
        self.write(*NAMES[1:])
        self.await_log("the plan has changed: its control port is", "web-v2 is held back")
        self.switch.lines.clear()
        self.switch.start()
        self.await_book("paused", 2)
        self.assertEqual(
            self.switch.sent_lines(),
            [f"open {live}", "available 1 2", f"deploy {self.words('web-v3')}", "available 2 2"],
        )

    def test_a_second_switch_is_opened_with_the_stable_revision(self) -> None:
        """An upgrade: the plan names the control port of another switch."""
        self.v3_is_paused()
        self.by_hand("abort")
        self.some_rounds()
        second = FakeSwitch("pause")
        self.stack.callback(second.kill)
        self.switch.lines.clear()
        self.write(*NAMES, control=second.port)
        self.assertTrue(
            comes(lambda: len([line for line in second.lines if line.startswith("tick ")]) >= 2),
            self.log(),
        )
        self.assertEqual(second.sent_lines(), [f"open {self.words('web-v2')}", "available 1 2"])
        self.assertEqual((self.switch.sent_lines(), "started again" in self.log()), ([], False))

    def test_a_second_switch_at_a_control_socket(self) -> None:
        """An upgrade: the plan names the control socket of another switch in place of a port."""
        self.v3_is_paused()
        self.by_hand("abort")
        self.some_rounds()
        path = f"{self.folder}/control"
        second = FakeSwitch("pause", path=path)
        self.stack.callback(second.kill)
        self.write(*NAMES, control=path)
        self.assertTrue(
            comes(lambda: len([line for line in second.lines if line.startswith("tick ")]) >= 2),
            self.log(),
        )
        self.assertEqual(second.sent_lines(), [f"open {self.words('web-v2')}", "available 1 2"])
        self.await_log(f"the plan has changed: its control socket is {path}, its last revision")

    def test_the_switch_before_was_at_a_control_socket(self) -> None:
        """Its file may be left, or gone, once nobody listens there."""
        for is_left in (True, False):
            path = f"{self.folder}/control-{is_left}"
            with FakePort(lambda line: REPORT, path=path):
                self.assertFalse(is_gone(path))
            if not is_left:
                os.unlink(path)
            self.assertTrue(is_gone(path))

    def test_the_moment_goes_on(self) -> None:
        runner = self.v3_is_paused()
        self.by_hand("tick 5000")
        self.some_rounds()
        self.restart_switch()
        self.assertGreaterEqual(self.switch.book.moment, 5000)
        runner.stop()
        self.assertGreaterEqual(StateFile(self.plan.path).read()[0].moment, 5000)
        self.switch.kill()
        self.switch.start()
        self.start()
        self.await_book("paused", 2)
        self.assertGreaterEqual(self.switch.book.moment, 5000)

    def test_a_book_that_somebody_else_opens(self) -> None:
        self.v3_is_paused()
        self.by_hand("tick 5000")
        self.some_rounds()
        self.switch.kill()
        self.switch.lines.clear()
        self.switch.start(f"open {self.words('web-v1')}")
        self.await_log(
            "the switch was started again: the book that was open is gone",
            "a book is open: phase steady, active revision 1 web-v1",
        )
        self.some_rounds()
        self.assertEqual(self.switch.sent_lines(), ["available 1 2"])

    def test_an_opening_whose_reply_is_lost(self) -> None:
        """The attempt that ran is begun again all the same."""
        self.v3_is_paused()
        self.switch.kill()
        self.switch.lines.clear()
        self.switch.start()
        answer = self.switch.book.answer
        lost: list[str] = []

        def loses(line: str) -> Sequence[str] | None:
            reply = answer(line)
            if line.startswith("open ") and not lost:
                lost.append(line)
                return None
            return reply

        self.switch.control.answer = loses
        self.await_book("paused", 2)
        self.assertEqual(lost, [f"open {self.words('web-v2')}"])
        self.await_log("the attempt of web-v3, which ran, is begun again")
        self.assertEqual(self.switch.sent_lines().count(f"deploy {self.words('web-v3')}"), 1)

    def test_a_switch_that_ends_right_after_a_deploy(self) -> None:
        """No report has shown the attempt, and it is begun again."""
        self.write("web-v1")
        self.start()
        self.await_book("steady", 1)
        answer = self.switch.book.answer
        deployed: list[str] = []

        def ends(line: str) -> Sequence[str] | None:
            reply = None if deployed else answer(line)
            deployed.extend([line] if line.startswith("deploy ") else [])
            return reply

        self.switch.control.answer = ends
        self.write("web-v1", "web-v2")
        self.assertTrue(comes(lambda: deployed and "deploy web-v2" in self.log()), self.log())
        self.restart_switch()
        self.await_book("paused", 2)
        self.await_log("the attempt of web-v2, which ran, is begun again")

    def test_a_plan_that_does_not_fit_the_switch(self) -> None:
        self.plan.write([("web-v1", [1])])
        runner = self.start()
        self.assertTrue(comes(lambda: not runner.thread.is_alive()))
        self.assertIn(
            "the switch can't be opened with web-v1: open web-v1 1 => refused BadPorts: a revision has one port for each",
            runner.unfit,
        )
        self.assertIn(
            "bgctl check PLAN --rollout FILE compares the plan with the Rollout of the switch, and says what to do",
            runner.unfit,
        )

    def test_a_switch_that_is_started_again_with_other_replicas(self) -> None:
        """Clients hang: who operates it is told why, and what to do."""
        self.write("web-v1")
        self.start()
        self.await_book("steady", 1)
        with mock.patch.object(FakeBook, "_open", lambda *_: ["refused BadPorts"]), mock.patch(
            "sys.stderr", io.StringIO()
        ) as told:
            self.switch.kill()
            self.switch.start()
            text = f"no book is open, and clients wait: the switch can't be opened with web-v1: open {self.words('web-v1')} => refused BadPorts: "
            self.await_log(text)
            self.some_rounds()
        self.assertEqual(
            (self.log().count(text), told.getvalue().count(f"controller: {text}")), (1, 1)
        )
        self.assertIn("bgctl check PLAN --rollout FILE compares", told.getvalue())

    def test_a_number_of_ports_that_does_not_fit_an_open_book(self) -> None:
        self.by_hand("open web-v1 1 2")
        self.plan.write([("web-v1", [1]), ("web-v2", [2])])
        with mock.patch("sys.stderr", io.StringIO()) as told:
            self.start()
            self.await_log(
                "deploy web-v2 2 => refused BadPorts: a revision has one port for each replica"
            )
        self.assertIn(
            "the number of ports of each revision of the plan is 1, and the switch needs one for each of 2 replicas",
            told.getvalue(),
        )


class WithoutState(ControllerCase):
    def test_what_does_not_exist_is_deployed(self) -> None:
        self.by_hand(f"open {self.words('web-v1')}")
        self.write(*NAMES[:2])
        self.start()
        self.await_book("paused", 2)
        self.await_log(
            "plan.json.state is not used, since there is none",
            "web-v2 does not exist yet, so it is deployed",
        )

    def test_what_exists_and_is_not_the_newest_is_taken_for_undone(self) -> None:
        for line in (
            f"open {self.words('web-v1')}",
            f"deploy {self.words('web-v2')}",
            f"deploy {self.words('web-v1')}",
        ):
            self.by_hand(line)
        self.write(*NAMES[:2])
        self.start()
        self.await_log(
            "web-v2 exists and is not the newest revision, so it counts as undone and not deployed"
        )
        self.some_rounds()
        self.assertEqual(
            [line for line in self.switch.sent_lines() if line.startswith("deploy")], []
        )


class Deploys(ControllerCase):
    def test_a_refused_deploy_is_tried_again(self) -> None:
        self.write("web-v1")
        with mock.patch.object(controller, "AGAIN", 0.3), mock.patch.object(book, "AGAIN", 0.3):
            self.start()
            self.await_book("steady", 1)
            self.switch.book.refusals["deploy"] = "TooManyRevisions"
            self.plan.write(
                [
                    ("web-v1", [endpoint.port for endpoint in self.endpoints["web-v1"]]),
                    ("web-v2", [1, 2]),
                ]
            )
            self.await_log("deploy web-v2 1 2 => refused TooManyRevisions: 64 revisions exist")
            self.assertTrue(comes(lambda: self.switch.lines.count("deploy web-v2 1 2") >= 3))
            del self.switch.book.refusals["deploy"]
            self.await_log("deploy web-v2 1 2 => ok 0")

    def test_an_undo_by_hand_stands_until_the_plan_names_another(self) -> None:
        self.v3_is_paused()
        self.by_hand(f"deploy {self.words('web-v2')}")
        self.some_rounds()
        self.assertEqual((self.switch.book.phase, self.switch.book.newest), ("steady", 2))
        self.write("web-v3", "web-v1")
        self.await_log(f"deploy {self.words('web-v1')} => ok")

    def test_a_revision_that_is_not_in_the_plan_is_told_once(self) -> None:
        self.write("web-v1")
        self.start()
        self.await_book("steady", 1)
        self.by_hand("deploy hotfix 1 2")
        self.await_log("revision 2 hotfix is not in the plan: its endpoints are not probed")
        self.by_hand("available 2 2")
        self.by_hand("promote")
        self.await_log(
            "revision 2 hotfix is stable and not in the plan, so its ports are not known: a switch that is started again "
            "would be opened with web-v1"
        )
        self.some_rounds()
        self.assertEqual(
            (
                self.log().count("is not in the plan: "),
                self.log().count("stable and not in the plan"),
            ),
            (1, 1),
        )

    def test_a_switch_that_ends_a_connection_in_the_middle(self) -> None:
        self.write(*NAMES[:2])
        answer, counts = self.switch.book.answer, [0]

        def ends_now_and_then(line: str) -> Sequence[str] | None:
            counts[0] += 1
            return None if counts[0] % 7 == 0 else answer(line)

        self.switch.control.answer = ends_now_and_then
        self.start()
        self.await_book("paused", 2)
        self.await_log("no answer: the switch has ended the connection", "answers again, after")


class Progress(ControllerCase):
    def test_an_attempt_without_progress_is_told_and_aborted(self) -> None:
        for endpoint in self.endpoints["web-v2"][1:]:
            endpoint.stop()
        self.write("web-v1", "web-v2", progress={"seconds": 0.4, "abort": True})
        self.start()
        self.await_book("aborted", 2)
        self.await_log(
            "revision 2 web-v2 has made no progress for 0.4 seconds: 1 of 2 endpoints are up",
            "abort => ok 0",
        )
        self.some_rounds()
        self.assertEqual(self.switch.sent_lines().count("abort"), 1)

    def test_it_is_told_alone_where_the_plan_does_not_abort(self) -> None:
        self.endpoints["web-v2"][0].stop()
        self.write("web-v1", "web-v2", progress={"seconds": 0.3})
        self.start()
        self.await_log(
            "revision 2 web-v2 has made no progress for 0.3 seconds: 0 of 2 endpoints are up"
        )
        self.some_rounds()
        self.assertEqual((self.switch.book.phase, self.log().count("no progress")), ("scaling", 1))
        self.endpoints["web-v2"][0].start()
        self.await_book("paused", 2)


class Analyses(ControllerCase):
    steps = ("pre", "pause", "post")

    def write_with(self, pre: str, post: str = "exit 0", seconds: float = 60) -> None:
        self.write(
            *NAMES[:2],
            analyses={"pre": ["sh", "-c", pre], "post": ["sh", "-c", post], "seconds": seconds},
        )

    def test_verdicts(self) -> None:
        ports = self.words("web-v2").removeprefix("web-v2 ")
        self.write_with(
            f'test "$BG_REVISION $BG_REVISION_NUMBER $BG_PORTS" = "web-v2 2 {ports}"', "exit 1"
        )
        self.start()
        self.await_book("paused", 2)
        self.by_hand("promote")
        self.await_book("aborted", 2)
        self.assertEqual(
            [line for line in self.switch.sent_lines() if line.startswith("verdict")],
            ["verdict pre successful", "verdict post failed"],
        )

    def test_errors(self) -> None:
        for seconds, command, why in (
            (60, "exit 3", "its exit status is 3"),
            (0.3, "sleep 60", "it has not ended after 0.3 seconds"),
            (60, "kill -9 $$", "its exit status is -9"),
        ):
            with self.subTest(command=command):
                self.write_with(command, seconds=seconds)
                runner = self.start()
                self.await_log(f"analysis pre of web-v2: {why}", "verdict pre error => ok 0")
                runner.stop()
                self.switch.kill()
                self.switch.start()
                for name in os.listdir(self.folder):
                    os.remove(os.path.join(self.folder, name))

    def test_why_it_is_an_error_is_told_once(self) -> None:
        """Even if its verdict is refused again and again."""
        self.write_with("exit 3")
        self.switch.book.refusals["verdict"] = "HistoryFull"
        self.start()
        self.await_log("verdict pre error => refused HistoryFull")
        self.some_rounds()
        self.assertEqual(self.log().count("analysis pre of web-v2: its exit status is 3"), 1)

    def test_a_command_that_is_not_there(self) -> None:
        self.write(*NAMES[:2], analyses={"pre": ["./no_such_file"]})
        self.start()
        self.await_log("analysis pre of web-v2: it can't be run: ", "verdict pre error => ok 0")

    def test_it_is_stopped_when_its_phase_ends(self) -> None:
        self.write_with("echo $$ > pid; exec sleep 60")
        self.start()
        pid = pathlib.Path(self.folder, "pid")
        self.assertTrue(comes(lambda: pid.exists() and pid.read_text(encoding="ascii").strip()))
        process = int(pid.read_text(encoding="ascii"))
        self.by_hand("abort")
        self.await_log("analysis pre of web-v2 is stopped: its phase has ended")
        self.assertTrue(comes(lambda: not os.path.exists(f"/proc/{process}")))
        self.some_rounds()
        self.assertEqual(
            [line for line in self.switch.sent_lines() if line.startswith("verdict")], []
        )

    def test_no_verdict_for_another_revision(self) -> None:
        """The analysis of web-v2 ends while web-v3, which took its place, is in the same phase."""
        self.write(
            *NAMES, analyses={"pre": ["sh", "-c", "test $BG_REVISION = web-v2 && exec sleep 60"]}
        )
        self.by_hand(f"open {self.words('web-v1')}")
        self.by_hand(f"deploy {self.words('web-v3')}")
        self.by_hand(f"deploy {self.words('web-v2')}")
        self.start()
        self.await_log("analysis pre of web-v2 begins")
        self.by_hand(f"deploy {self.words('web-v3')}")
        self.await_log(
            "analysis pre of web-v2 is stopped: its phase has ended",
            "analysis pre of web-v3 begins",
            "verdict pre failed",
        )
        self.assertEqual(self.log().count("verdict pre"), 1)

    def test_one_without_a_command_is_told_once(self) -> None:
        self.write(*NAMES[:2])
        self.start()
        self.await_book("preAnalysis", 2)
        self.assertEqual(
            self.log().count(
                "revision 2 web-v2 waits for verdict pre by hand: the plan has no command for it"
            ),
            1,
        )

    def test_it_is_stopped_when_the_switch_is_started_again(self) -> None:
        self.write_with("exec sleep 60")
        self.start()
        self.await_log("analysis pre of web-v2 begins")
        self.restart_switch()
        self.await_log("analysis pre of web-v2 is stopped: its book is gone")
        self.assertTrue(comes(lambda: self.log().count("analysis pre of web-v2 begins") == 2))


class Logs(ControllerCase):
    def test_lines_of_json(self) -> None:
        self.write(*NAMES[:2])
        runner = self.start(as_json=True)
        self.await_book("paused", 2)
        runner.stop()
        lines = [json.loads(line) for line in self.log().splitlines()]
        for line in lines:
            self.assertRegex(line["time"], r"^\d{4}-\d\d-\d\dT\d\d:\d\d:\d\d[+-]\d\d:\d\d$")
            self.assertTrue({"moment", "event", "text"} <= set(line), line)
        sent_lines = [line for line in lines if line["event"] == "order"]
        self.assertEqual(
            [
                (line["line"], line["reply"], line["carried_out"], line["meaning"])
                for line in sent_lines
            ][1:],
            [
                ("available 1 2", "ok 0", True, None),
                (f"deploy {self.words('web-v2')}", "ok 0", True, None),
                ("available 2 2", "ok 1", True, None),
            ],
        )
        self.assertEqual(lines[-1]["event"], "end")
        self.assertIn(
            "phase: scaling -> paused",
            [line["text"] for line in lines if line["event"] == "change"],
        )

    def test_a_tick_that_is_refused_is_told_once_a_minute(self) -> None:
        self.write("web-v1")
        self.start()
        self.await_book("steady", 1)
        self.switch.book.refusals["tick"] = "HistoryFull"
        self.await_log(
            "=> refused HistoryFull: the history has no room left; upgrade to a second switch (docs/OPERATING.md)"
        )
        self.some_rounds()
        self.assertEqual(self.log().count("HistoryFull"), 1)

    def test_each_minute_without_an_answer(self) -> None:
        self.write("web-v1")
        self.switch.kill()
        with mock.patch.object(controller_cli, "MINUTE", 0.2), mock.patch.object(
            controller_cli, "CONNECT", 0.05
        ):
            self.start()
            self.assertTrue(comes(lambda: self.log().count("no answer for") >= 2))
        self.assertEqual(self.log().count("no answer: port"), 1)

    def test_the_moment_of_the_file_is_renewed(self) -> None:
        self.write("web-v1")
        with mock.patch.object(memory, "MOMENT_AGE", 0.1):
            self.start()
            self.await_book("steady", 1)
            self.by_hand("tick 700")
            self.assertTrue(comes(lambda: StateFile(self.plan.path).read()[0].moment >= 700))


class Ends(ControllerCase):
    def test_it_ends_at_once_whatever_it_waits_for(self) -> None:
        self.write("web-v1")
        runner = self.start()
        self.await_book("steady", 1)
        asked, holds = threading.Event(), threading.Event()
        self.stack.callback(holds.set)

        def hang(_: str) -> list[str]:
            asked.set()
            holds.wait(WAIT)
            return ["ok 0"]

        self.switch.control.answer = hang
        self.assertTrue(asked.wait(WAIT))
        begun = time.monotonic()
        runner.stop()
        seconds = time.monotonic() - begun
        self.assertTrue(is_within(seconds, 1.5), seconds)
        self.assertFalse(runner.thread.is_alive())


if __name__ == "__main__":
    unittest.main()
