"""bin/operator, in this process, before a fake switch."""
import contextlib
import io
import json
import tempfile
import threading
import unittest
from unittest import mock

from bg_switch_tools.bgctl.commands import BGCTL_COMMANDS
from bg_switch_tools.bgctl.line_commands import listed_commands
from bg_switch_tools.bgctl.prompt import Prompt, PromptCommand
from bg_switch_tools.operator import cli as operator_cli
from bg_switch_tools.operator.cli import main
from bg_switch_tools.switch.client import Switch
from support.processes import Run
from tests.fake_port import free_port
from tests.fake_switch import FakeSwitch
from tests.tool_runs import WithBook, run_in_process


class Operated(WithBook):
    def operator(self, *words: str, lines: str = "", port: int | None = None) -> Run:
        return run_in_process(main, str(port or self.switch.port), *words, lines=lines)


class Lines(Operated):
    def test_statuses(self) -> None:
        self.assertEqual(self.operator("tick", "5"), ("ok 0\n", "", 0))
        self.assertEqual(
            self.operator("promote"),
            ("refused NotPaused\n", "operator: refused NotPaused: the rollout is not paused\n", 1),
        )
        self.assertEqual(
            self.operator(lines="tick 6\npromote\ntick 7\n")[::2], ("ok 0\nrefused NotPaused\n", 1)
        )
        self.assertEqual(
            self.operator("--keep-going", lines="promote\njump\ntick 8\n")[::2],
            ("refused NotPaused\nfault UnknownWord\nok 0\n", 1),
        )
        nobody = self.operator("--wait", "0.2", "report", port=free_port())
        self.assertEqual(
            (nobody.printed, nobody.status, "can't be reached" in nobody.told), ("", 2, True)
        )

    def test_a_path_names_the_control_socket(self) -> None:
        with tempfile.TemporaryDirectory() as folder:
            path = f"{folder}/control"
            switch = FakeSwitch(path=path)
            self.addCleanup(switch.kill)
            switch.book.answer("open web-v1 9101 9102")
            self.assertEqual(run_in_process(main, path, "tick", "5"), ("ok 0\n", "", 0))
            with mock.patch("builtins.input", side_effect=["report", EOFError]) as asked:
                with contextlib.redirect_stdout(io.StringIO()) as printed:
                    Prompt(Switch(path, 5), {}).run()
            self.assertIn(f"The switch at socket {path}.", printed.getvalue())
            asked.assert_called_with(f"{path}> ")

    def test_quit_is_the_last_line(self) -> None:
        self.assertEqual(self.operator(lines="tick 6\nquit\ntick 7\n")[::2], ("ok 0\n", 0))
        self.assertEqual(self.switch.sent_lines(), ["quit"])

    def test_json(self) -> None:
        told = self.operator("--json", "--keep-going", lines="tick 5\njump\nreport\n")
        tick, jump, report = map(json.loads, told.printed.splitlines())
        self.assertEqual(
            tick, {"line": "tick 5", "reply": "ok 0", "carried_out": True, "meaning": None}
        )
        self.assertEqual(
            jump,
            {
                "line": "jump",
                "reply": "fault UnknownWord",
                "carried_out": False,
                "meaning": "the first word of the line is none that is known; help lists the lines",
            },
        )
        self.assertEqual(
            (report["moment"], report["stable"], report["revisions"][0]["available"]),
            (5, {"number": 1, "name": "web-v1"}, 2),
        )

    def test_a_report_as_json_before_a_book(self) -> None:
        self.switch.kill()
        self.switch.start()
        told = self.operator("report", "--json")
        self.assertEqual((json.loads(told.printed)["reply"], told.status), ("refused NotOpen", 1))

    def test_a_line_end_in_a_word_is_two_lines(self) -> None:
        self.assertEqual(self.operator("tick 9\njump")[::2], ("ok 0\nfault UnknownWord\n", 1))


class Deploys(Operated):
    def test_which_revision_it_made_or_took_again(self) -> None:
        self.assertEqual(
            self.operator("deploy", "web-v2", "3", "4"),
            ("ok 0\n", "operator: makes revision 2 web-v2\n", 0),
        )
        self.assertEqual(
            self.operator("deploy", "web-v1", "1", "2"),
            ("ok 1\n", "operator: takes revision 1 web-v1 again\n", 0),
        )
        self.assertEqual(
            self.operator("deploy", "web-v1", "1", "2")[::2], ("refused SameTemplate\n", 1)
        )

    def test_idempotent(self) -> None:
        words = ("deploy", "web-v2", "3", "4", "--idempotent")
        self.assertEqual(
            self.operator(*words), ("ok 0\n", "operator: makes revision 2 web-v2\n", 0)
        )
        self.assertEqual(
            self.operator(*words),
            (
                "refused SameTemplate\n",
                "operator: revision 2 web-v2 is running already, in the phase scaling\n",
                0,
            ),
        )
        self.by_hand("abort")
        told = self.operator(*words)
        self.assertEqual(told[::2], ("refused SameTemplate\n", 1))
        self.assertIn("its attempt was aborted; retry begins it again", told.told)
        self.by_hand("retry", "available 2 2", "promote")
        self.assertEqual(
            self.operator(*words),
            ("refused SameTemplate\n", "operator: revision 2 web-v2 is stable already\n", 0),
        )
        self.assertEqual(json.loads(self.operator(*words, "--json").printed)["carried_out"], True)
        self.assertEqual(
            self.operator("deploy", "web-v1", "5", "6", "--idempotent")[::2],
            ("refused PortsDiffer\n", 1),
        )


class States(Operated):
    def test_status(self) -> None:
        line = "active web-v1, preview web-v1, stable web-v1, newest web-v1, moment 0\n"
        self.assertEqual(self.operator("status"), (f"steady: {line}", "", 0))
        self.by_hand("deploy web-v2 3 4")
        self.assertEqual(self.operator("status").status, 0)
        self.by_hand("abort")
        told = self.operator("status")
        self.assertEqual((told.status, told.printed.startswith("aborted: ")), (1, True))
        self.assertEqual(json.loads(self.operator("status", "--json").printed)["phase"], "aborted")
        self.assertEqual(self.operator("status", "--wait", "0.2", port=free_port()).status, 2)
        self.switch.kill()
        self.switch.start()
        self.assertEqual(self.operator("status"), ("no book is open yet\n", "", 1))


class Waits(Operated):
    def test_what_holds(self) -> None:
        self.assertEqual(
            self.operator("wait", "settled", "stable=web-v1", "open(web-v1)=0").status, 0
        )

    def test_what_comes(self) -> None:
        self.by_hand("deploy web-v2 3 4")
        timer = threading.Timer(0.5, lambda: self.by_hand("tick 7", "available 2 2"))
        timer.start()
        told = self.operator("wait", "phase=paused", "newest=web-v2", "--timeout", "50")
        self.assertEqual(
            (told.printed, told.status),
            ("paused: active web-v1, preview web-v2, stable web-v1, newest web-v2, moment 7\n", 0),
        )
        self.assertIn("operator: moment 7: phase: scaling -> paused\n", told.told)

    def test_what_cannot_come_any_more(self) -> None:
        self.by_hand("deploy web-v2 3 4")
        timer = threading.Timer(0.5, lambda: self.by_hand("deploy web-v3 5 6"))
        timer.start()
        told = self.operator("wait", "stable=web-v2", "--timeout", "50", "--json")
        self.assertEqual(
            (json.loads(told.printed)["reason"], told.status),
            ("stable=web-v2 cannot hold unless a line is sent: web-v3 took the place of web-v2", 1),
        )

    def test_the_timeout(self) -> None:
        self.by_hand("deploy web-v2 3 4")
        told = self.operator("wait", "phase=paused", "--timeout", "0.4")
        self.assertEqual((told.printed, told.status), ("", 2))
        self.assertIn(
            "phase=paused does not hold after 0.4 seconds: scaling: active web-v1", told.told
        )
        told = self.operator("wait", "settled", "--timeout", "0.3", port=free_port())
        self.assertEqual((told.status, "can't be reached" in told.told), (2, True))

    def test_a_switch_that_is_started_meanwhile(self) -> None:
        self.switch.kill()
        timer = threading.Timer(0.4, lambda: self.switch.start("open web-v1 1 2"))
        timer.start()
        self.assertEqual(
            self.operator("wait", "stable=web-v1", "--timeout", "50", "--wait", "2").status, 0
        )


class Words(Operated):
    def test_wrong_words_name_what_is_expected(self) -> None:
        for words, expected in (
            (("wait",), "wait needs one condition or more"),
            (("wait", "phase=x"), "a phase is needed"),
            (
                ("wait", "settled", "--timeout", "x"),
                "a number of seconds from 0 to 86400 is expected, and not 'x'",
            ),
            (("status", "now"), "status takes no further words"),
            (("--wait", "-1", "tick", "1"), "a number of seconds"),
            (("tick", "1", "--timeout", "3"), "--timeout is only for wait"),
            (("promote", "--yes"), "--yes is only for"),
            (("promote", "--idempotent"), "--idempotent is only for deploy"),
            (("--unheard",), "--unheard"),
        ):
            with self.subTest(words=words):
                told = self.operator(*words)
                self.assertEqual(
                    (told.printed, told.status, expected in told.told), ("", 2, True), told
                )
                self.assertNotRegex(told.told, r"_of|Traceback|<")
        for port in ("0", "65536", "x", "-1", "1.5", "９"):
            told = self.operator_at(port)
            self.assertEqual((told.status, "the control port" in told.told), (2, True), told)
        self.assertEqual(self.switch.lines, [])

    def operator_at(self, port: str) -> Run:
        return run_in_process(main, port, "report")

    def test_help(self) -> None:
        told = self.operator("help")
        self.assertEqual(
            (told.status, "deploy NAME PORT.." in told.printed, "shutdown" in told.printed),
            (0, True, True),
        )
        told = self.operator("-h")
        for example in (
            "bin/operator 8082 deploy web-v2 9201 9202",
            "bin/operator 8082 wait phase=paused",
            "bin/operator 8082 status",
            "bin/operator 8082 shutdown",
            "bin/operator 8082 promote full",
        ):
            self.assertIn(example, told.printed)


class Alias(unittest.TestCase):
    def test_its_commands_are_those_of_bgctl(self) -> None:
        for command in operator_cli.COMMANDS.values():
            self.assertIn(command, BGCTL_COMMANDS)


class Shutdowns(Operated):
    def test_it_asks(self) -> None:
        self.assertEqual(self.operator("shutdown").status, 2)
        self.assertEqual(self.switch.sent_lines(), [])
        self.assertEqual(self.operator("shutdown", "--yes").status, 0)
        self.assertEqual(self.switch.sent_lines(), ["quit"])


class Prompts(Operated):
    def typed(self, *lines: str) -> str:
        """What a prompt prints at which these lines are typed, and then the end of the input."""
        printed = io.StringIO()
        with contextlib.redirect_stdout(printed), mock.patch(
            "builtins.input", side_effect=[*lines, EOFError]
        ):
            commands: dict[str, PromptCommand] = {"status": lambda _: print("the status")}
            Prompt(Switch(self.switch.port, 2), commands, listed_commands()).run()
        return printed.getvalue()

    def test_lines_and_their_meaning(self) -> None:
        told = self.typed("tick 5", "", "promote", "deploy web-v2 3 4", "status", "help")
        for text in (
            "ok 0\n",
            "refused NotPaused: the rollout is not paused\n",
            "makes revision 2 web-v2\n",
            "the status\n",
            "quit, exit, ctrl-D       leave this prompt",
        ):
            self.assertIn(text, told)

    def test_quit_and_exit_leave(self) -> None:
        for word in ("quit", "exit", " quit "):
            self.typed(word, "tick 77")
        self.assertNotIn("tick 77", self.switch.lines)
        self.assertNotIn("quit", self.switch.sent_lines())

    def test_shutdown_asks(self) -> None:
        self.assertIn("The switch continues.", self.typed("shutdown", "n", "tick 5"))
        self.assertEqual(self.switch.sent_lines(), [])
        self.assertIn("The switch shuts down.", self.typed("shutdown", "y", "tick 6"))
        self.assertEqual(self.switch.sent_lines(), ["quit"])
        self.assertNotIn("tick 6", self.switch.lines)

    def test_a_switch_that_is_gone_ends_no_prompt(self) -> None:
        self.switch.kill()
        printed = io.StringIO()
        with contextlib.redirect_stdout(printed), mock.patch(
            "builtins.input", side_effect=["tick 1", "tick 2", EOFError]
        ):
            Prompt(Switch(self.switch.port, 0.1), {}).run()
        self.assertEqual(printed.getvalue().count("can't be reached"), 2)


if __name__ == "__main__":
    unittest.main()
