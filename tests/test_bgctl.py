"""bin/bgctl, in this process, before a fake switch."""
import json
import os
import pathlib
import re
import subprocess
import sys
import tempfile
import time
import unittest
import zipapp
from typing import Any
from unittest import mock

from bg_switch_tools import VERSION
from bg_switch_tools.bgctl import exit_statuses
from bg_switch_tools.bgctl.argument_parser import in_order, long_options, parser, place_of_command
from bg_switch_tools.bgctl.cli import main
from bg_switch_tools.bgctl.commands import BGCTL_COMMANDS, FIRST_ONES
from bg_switch_tools.bgctl.state_commands import NOT_KNOWN
from bg_switch_tools.dashboard import cli as dashboard_cli
from bg_switch_tools.operator import cli as operator_cli
from bg_switch_tools.switch.client import Answer, Switch
from bg_switch_tools.switch.connection import NEVER_IN_TIME
from bg_switch_tools.switch.meanings import LACKS_ORDER, UNSAVED
from support.processes import Run
from tests.fake_port import REPORT, FakePort, free_port
from tests.fake_switch import FakeSwitch
from tests.tool_runs import TOP, WithBook, WithJournal, plan_of, run_in_process


def run(*words: str, lines: str = "", **variables: str) -> Run:
    """A run of bgctl."""
    return run_in_process(main, *words, lines=lines, **variables)


class Words(unittest.TestCase):
    def test_alone_it_tells_how_to_begin(self) -> None:
        told = run()
        self.assertEqual((told.told, told.status, len(FIRST_ONES)), ("", 0, 5))
        for text in (
            *(f"\n  {command.name} " for command in FIRST_ONES),
            "bgctl deploy web-v2 9201 9202",
            "docs/OPERATING.md",
        ):
            self.assertIn(text, told.printed)

    def test_each_command_has_help_with_an_example_of_it(self) -> None:
        for command in BGCTL_COMMANDS:
            with self.subTest(command.name):
                told = run(command.name, "--help")
                self.assertEqual(told.status, 0)
                self.assertIn(f"example:\n  {command.example}\n", told.printed)
                self.assertTrue(command.example.startswith(f"bgctl {command.name}"))
                parser().parse_args(command.example.split()[1:])

    def test_did_you_mean(self) -> None:
        self.assertEqual(
            run("promot"), ("", "bgctl: there is no command promot; did you mean promote?\n", 2)
        )
        self.assertEqual(
            run("--control", "1", "stauts").told,
            "bgctl: there is no command stauts; did you mean status?\n",
        )
        self.assertEqual(
            run("xyzzy").told, "bgctl: there is no command xyzzy; bgctl --help lists them\n"
        )
        self.assertEqual(
            run("verdict", "pre", "failed").told,
            "bgctl: verdict is a line of the switch: bgctl line verdict .. sends it\n",
        )
        self.assertEqual(
            run("rollback").told, "bgctl: there is no command rollback; did you mean undo?\n"
        )
        for words, commands in (
            (("abort", "--yes"), "line and shutdown have it"),
            (("status", "--read-only"), "dashboard has it"),
            (("--wait", "status"), "deploy and undo have it"),
        ):
            told = run(*words, BG_CONTROL="1")
            self.assertEqual(
                (told.status, told.told.splitlines()[-1].endswith(f"; {commands}")),
                (2, True),
                told.told,
            )
        wrong = run("deploy", "a", "1", "--watt")
        self.assertEqual((wrong.status, "--watt; did you mean --wait?" in wrong.told), (2, True))
        self.assertIn("the nearest is paused", run("wait", "phase=pausd", "--control", "1").told)
        self.assertNotIn("nearest", run("wait", "phase=foo", "--control", "1").told)
        self.assertEqual(run("status", "--contr", "1").status, 2)

    def test_the_place_of_the_command(self) -> None:
        for line, place in (
            ("status", 0),
            ("--control status watch", 2),
            ("--plan=status wait", 1),
            ("--version", None),
            ("", None),
        ):
            self.assertEqual(place_of_command(line.split()), place, line)

    def test_an_option_stands_before_or_after_its_command(self) -> None:
        valued = parser().valued
        for line, expected in (
            ("--json status", "status --json"),
            ("--timeout 5 --control 7 wait settled", "--control 7 wait --timeout 5 settled"),
            ("--plan=p --last=3 history", "--plan=p history --last=3"),
            ("--yes shutdown", "shutdown --yes"),
            ("--to web-v1 undo --wait", "undo --to web-v1 --wait"),
            ("--version", "--version"),
            ("--log f --seconds 5 analysis", "analysis --log f --seconds 5"),
            ("--help", "--help"),
        ):
            self.assertEqual(" ".join(in_order(line.split(), valued)[0]), expected)
        for command in BGCTL_COMMANDS:  # each option of each example
            words = command.example.split()[1:]
            begin = next(
                (place for place, word in enumerate(words) if word.startswith("--")), len(words)
            )
            turned, place = in_order([*words[begin:], *words[:begin]], valued)
            self.assertEqual(
                (
                    turned[place or 0],
                    vars(parser().parse_args(turned))
                    | {"before_control": None, "before_plan": None, "control": None, "plan": None},
                ),
                (
                    command.name,
                    vars(parser().parse_args(words))
                    | {"before_control": None, "before_plan": None, "control": None, "plan": None},
                ),
            )

    def test_help_and_version_are_commands(self) -> None:
        self.assertEqual(run("version"), run("--version"))
        self.assertEqual(run("help"), run("--help"))
        self.assertEqual(run("help", "deploy"), run("deploy", "--help"))
        self.assertEqual(run("help", "deplo").status, 2)

    def test_the_statuses_stand_in_the_help_alone(self) -> None:
        self.assertIn(exit_statuses.listed(), run("--help").printed)
        self.assertEqual([status for status, _ in exit_statuses.TABLE], [0, 1, 2, 3, 4, 5, 70, 130])
        for page in TOP.glob("docs/**/*.md"):
            self.assertNotIn("ended by ctrl-C", page.read_text(encoding="utf-8"), page.name)

    def test_the_version_is_that_of_the_switch(self) -> None:
        self.assertEqual(run("--version").printed, f"bgctl {VERSION}\n")
        source = (TOP / "crates" / "bg_command_line" / "src" / "command_line.rt").read_text(
            encoding="utf-8"
        )
        self.assertIn(f'"{VERSION}"', re.findall(r"VERSION: [^;]*", source)[0])

    def test_the_dashboard_has_its_own_options(self) -> None:
        told = run("dashboard", "--help").printed
        for option in long_options(dashboard_cli.parser()):
            self.assertIn(option, told)

    def test_each_command_has_a_function_of_its_own(self) -> None:
        functions = [command.run for command in BGCTL_COMMANDS]
        self.assertEqual(len(set(functions)), len(functions))


class Operated(WithBook):
    def bgctl(self, *words: str, lines: str = "") -> Run:
        return run(*words, lines=lines, BG_CONTROL=str(self.switch.port))


class Ports(Operated):
    def test_where_the_port_comes_from(self) -> None:
        port, other = str(self.switch.port), str(free_port())
        self.assertEqual(run("status", "--control", port, BG_CONTROL=other).status, 0)
        self.assertEqual(run("--control", port, "status").status, 0)
        self.assertEqual(run("--control", other, "status", "--control", port).status, 0)
        self.assertEqual(run("status", BG_CONTROL=port).status, 0)

    def test_what_names_no_port(self) -> None:
        told = run("status", BG_CONTROL="")
        self.assertEqual(
            (told.status, told.told),
            (
                2,
                "bgctl: the control port is not known: --control PORT names it, or the variable "
                "BG_CONTROL, or a plan (--plan FILE, BG_PLAN)\n",
            ),
        )
        self.assertEqual(
            run("status", BG_CONTROL="8o82").told,
            "bgctl: BG_CONTROL: the control port is expected, a number from 1 to 65535, "
            "or the path of the control socket, and not '8o82'\n",
        )
        self.assertEqual(run("status", "--control", "0").status, 2)

    def test_a_path_names_the_control_socket(self) -> None:
        with tempfile.TemporaryDirectory() as folder:
            path, plan = f"{folder}/control", pathlib.Path(folder, "plan.json")
            switch = FakeSwitch("pause", path=path)
            self.addCleanup(switch.kill)
            switch.book.answer("open web-v1 9101 9102")
            plan.write_text(
                json.dumps(
                    {"control": path, "revisions": [{"name": "web-v1", "ports": [9101, 9102]}]}
                ),
                encoding="ascii",
            )
            for told in (
                run("status", "--control", path),
                run("--control", path, "status"),
                run("status", BG_CONTROL=path),
                run("status", BG_PLAN=str(plan)),
            ):
                self.assertIn("web-v1", told.printed, told)
            self.assertEqual(run("line", "tick", "5", BG_CONTROL=path).printed, "ok 0\n")
            told = run("status", "--request-timeout", "0.2", BG_CONTROL=f"{folder}/other")
            self.assertIn(f"socket {folder}/other can't be reached", told.told)

    def test_a_plan_that_cannot_be_read_is_told_whatever_else_names_the_port(self) -> None:
        words, path = ("abort", "--control", str(self.switch.port)), "/none/plan.json"
        for told in (run(*words, "--plan", path), run(*words, BG_PLAN=path)):
            self.assertEqual(
                (told.status, told.told),
                (
                    2,
                    "bgctl: /none/plan.json is not a plan: it can't be read: No such file or directory\n",
                ),
            )
        self.assertEqual(self.switch.sent_lines(), [])

    def test_nobody_answers(self) -> None:
        told = run("promote", "--control", str(free_port()), "--request-timeout", "0.2")
        self.assertEqual(
            (told.status, told.printed, "can't be reached" in told.told), (2, "", True)
        )
        told = run("status", "--json", "--control", str(free_port()), "--request-timeout", "0.2")
        shown = json.loads(told.printed)
        self.assertEqual(
            (told.status, shown["phase"], f"bgctl: {shown['reason']}\n"), (2, None, told.told)
        )


class Lines(Operated):
    def test_they_are_the_lines_of_operators(self) -> None:
        """The same output and the same statuses as those of bin/operator."""
        for words in (
            ["status"],
            ["status", "--json"],
            ["promote"],
            ["abort"],
            ["retry"],
            ["wait", "settled"],
            ["wait", "stable=web-v9", "--timeout", "5"],
            ["wait", "settled", "--json"],
        ):
            with self.subTest(words):
                ours, theirs = self.bgctl(*words), run_in_process(
                    operator_cli.main, str(self.switch.port), *words
                )
                self.assertEqual((ours.printed, ours.status), (theirs.printed, theirs.status))
                self.assertEqual(ours.told, theirs.told.replace("operator: ", "bgctl: "))

    def test_promotions(self) -> None:
        self.by_hand("deploy web-v2 3 4")
        self.assertEqual(self.bgctl("promote")[::2], ("refused NotPaused\n", 1))
        self.by_hand("available 2 2")
        self.assertEqual(self.bgctl("promote", "--json").status, 0)
        self.by_hand("deploy web-v1 1 2")
        self.assertEqual(self.bgctl("promote", "--full").status, 0)
        self.assertEqual(self.switch.sent_lines(), ["promote", "promote", "promote full"])

    def test_a_promotion_by_name(self) -> None:
        """Somebody else has deployed another revision meanwhile: that one is not promoted
        unseen."""
        self.by_hand("deploy web-v2 3 4", "available 2 2", "deploy web-v3 5 6", "available 3 2")
        text = "not sent: revision 3 web-v3 is the newest one, and not web-v2"
        self.assertEqual(self.bgctl("promote", "web-v2"), ("", f"bgctl: {text}\n", 1))
        told = json.loads(self.bgctl("promote", "web-v2", "--full", "--json").printed)
        self.assertEqual(
            (told["line"], told["carried_out"], told["meaning"]), ("promote full", False, text)
        )
        self.assertEqual(self.switch.sent_lines(), [])
        self.assertEqual(self.bgctl("promote", "web-v3").status, 0)
        self.assertEqual(self.switch.sent_lines(), ["promote"])
        self.assertEqual(self.bgctl("promote", "web-v3")[::2], ("refused NotPaused\n", 1))

    def test_abort_and_retry(self) -> None:
        self.by_hand("deploy web-v2 3 4", "available 2 2")
        self.assertEqual((self.bgctl("abort").printed, self.bgctl("status").status), ("ok 0\n", 1))
        self.assertEqual((self.bgctl("retry").status, self.bgctl("status").status), (0, 0))
        self.by_hand("available 1 0")
        self.assertEqual(self.bgctl("status").status, 3)

    def test_lines(self) -> None:
        self.assertEqual(self.bgctl("line", "tick", "5"), ("ok 0\n", "", 0))
        self.assertEqual(
            self.bgctl("line", lines="tick 6\npromote\ntick 7\n")[::2],
            ("ok 0\nrefused NotPaused\n", 1),
        )
        self.assertEqual(
            json.loads(self.bgctl("line", "--json", "jump").printed)["reply"], "fault UnknownWord"
        )
        self.assertEqual(
            self.bgctl("line")[1:],
            ("bgctl: there is no line to send: bgctl line WORD.., or lines on standard input\n", 2),
        )
        self.assertEqual(self.bgctl("line", "tick", "999999")[::2], ("", 1))
        self.assertEqual(self.bgctl("line", "tick 8\njump")[::2], ("ok 0\nfault UnknownWord\n", 1))
        self.assertEqual(self.bgctl("line", "--yes", "tick", "999999").status, 0)

    def test_a_shutdown_asks_at_a_terminal_alone(self) -> None:
        self.assertEqual((self.bgctl("shutdown").status, self.switch.sent_lines()), (2, []))
        self.assertEqual(
            (self.bgctl("shutdown", "--yes").status, self.switch.sent_lines()), (0, ["quit"])
        )

    def test_interrupted(self) -> None:
        with mock.patch("bg_switch_tools.switch.client.ask_state", side_effect=KeyboardInterrupt):
            self.assertEqual(self.bgctl("status").status, 130)


class Unsaved(WithJournal):
    """The journal of the switch fails."""

    def setUp(self) -> None:
        super().setUp()
        self.by_hand("deploy web-v2 3 4", "available 2 2")
        self.failing.fails = True

    def bgctl(self, *words: str, lines: str = "") -> Run:
        return run(*words, lines=lines, BG_CONTROL=str(self.switch.port))

    def test_it_was_carried_out_with_a_warning(self) -> None:
        told = f"bgctl: unsaved 3: {UNSAVED}\n"
        self.assertEqual(self.bgctl("promote"), ("unsaved 3\n", told, 0))
        refused = self.bgctl("deploy", "web-v3", "5", "6")
        self.assertEqual((refused.printed, refused.status), ("refused JournalFailed\n", 1))
        self.assertIn(
            "the journal lacks an earlier order, so nothing was carried out", refused.told
        )

    def test_the_warning_stands_beside_what_a_deploy_has_made(self) -> None:
        told = f"bgctl: makes revision 3 web-v3\nbgctl: unsaved 1: {UNSAVED}\n"
        self.assertEqual(self.bgctl("deploy", "web-v3", "5", "6"), ("unsaved 1\n", told, 0))

    def test_lines_go_on_after_it(self) -> None:
        told = self.bgctl("line", lines="promote\nreport\ntick 9\ntick 10\n")
        self.assertEqual(told.printed.splitlines()[0], "unsaved 3")
        self.assertEqual((told.printed.splitlines()[-1], told.status), ("refused JournalFailed", 1))

    def test_as_json(self) -> None:
        shown = json.loads(self.bgctl("promote", "--json").printed)
        self.assertEqual(
            (shown["reply"], shown["carried_out"], shown["meaning"]), ("unsaved 3", True, UNSAVED)
        )

    def test_the_state_tells_it_until_it_is_kept(self) -> None:
        self.assertEqual(self.bgctl("status").told, "")
        self.bgctl("promote")
        for _ in range(2):
            told = self.bgctl("status")
            self.assertEqual((told.told, told.status), (f"bgctl: {LACKS_ORDER}\n", 0))
        self.assertTrue(json.loads(self.bgctl("status", "--json").printed)["unsaved"])
        self.failing.fails = False
        self.assertEqual((self.bgctl("status").told, self.bgctl("status").status), ("", 0))
        self.assertFalse(json.loads(self.bgctl("status", "--json").printed)["unsaved"])


class Silent(unittest.TestCase):
    def test_a_disk_that_gives_no_answer(self) -> None:
        """The report is shown, and what is not known."""
        lines = list[str]()

        def answers(line: str) -> list[str]:
            lines.append(line)
            if line != "report":
                time.sleep(1)
            return [*REPORT]

        with FakePort(answers) as port:
            told = run("status", "--request-timeout", "0.3", BG_CONTROL=str(port.port))
        self.assertEqual((told.printed[:7], told.status), ("steady:", 0))
        self.assertEqual(told.told, f"bgctl: {NOT_KNOWN}\n")
        self.assertEqual(lines, ["report", str(NEVER_IN_TIME)])


class OtherTools(Operated):
    """The commands that are tools of their own."""

    def handed_on(self, function: str, *words: str, **variables: str) -> Any:
        """What the function of a tool is given first."""
        with mock.patch(f"bg_switch_tools.{function}", return_value=0) as tool:
            self.assertEqual(run(*words, **variables).status, 0)
        return tool.call_args.args[0]

    def test_check_and_controller(self) -> None:
        with tempfile.TemporaryDirectory() as folder:
            path = os.path.join(folder, "plan.json")
            pathlib.Path(path).write_text(
                '{"control": 8082, "revisions": [{"name": "web-v1", "ports": [1]}]}',
                encoding="ascii",
            )
            for words in (("check", path), ("check", "--plan", path), ("--plan", path, "check")):
                self.assertEqual(run(*words), (f"{path} is a plan\n", "", 0))
            self.assertEqual(run("check", BG_PLAN=path).status, 0)
            pathlib.Path(path).write_text('{"control": 0}', encoding="ascii")
            self.assertEqual(
                run("check", path), ("revisions: is missing\ncontrol: 0 is below 1\n", "", 1)
            )
            for words in (
                ("check", path + "x"),
                ("controller", path + "x"),
                ("check", "--plan", path + "x"),
            ):
                self.assertEqual(
                    run(*words),
                    ("", f"bgctl: the plan {path}x can't be read: No such file or directory\n", 2),
                )
            for words in (("controller", path, "--json"), ("controller", "--json", "--plan", path)):
                with mock.patch("bg_switch_tools.controller.cli.run", return_value=0) as tool:
                    self.assertEqual(run(*words).status, 0)
                self.assertEqual(tool.call_args.args, (path, True, b'{"control": 0}'))

    def test_analysis(self) -> None:
        words = [
            "analysis",
            "--log",
            "f",
            "--seconds",
            "1",
            "--revision",
            "1",
            "--p99-at-most",
            "1s",
        ]
        cases: tuple[tuple[list[str], list[str], dict[str, str], int | None], ...] = (
            ([], [], {}, None),
            ([], ["--control", "5"], {"BG_CONTROL": "6"}, 5),
            ([], [], {"BG_CONTROL": "6"}, 6),
            (["--control", "7"], [], {"BG_CONTROL": "6"}, 7),
        )
        for before, after, variables, control in cases:
            given = self.handed_on("analysis.cli.judge", *before, *words, *after, **variables)
            self.assertEqual((given.log, given.seconds, given.control), ("f", 1.0, control))

    def test_dashboard(self) -> None:
        words = ["dashboard", "--listen", "8090", "--read-only"]
        given = self.handed_on("dashboard.cli.show", *words, BG_CONTROL="6")
        self.assertEqual(
            (given.control, given.listen, given.log, given.plan, given.read_only),
            (6, 8090, "", "", True),
        )
        with tempfile.TemporaryDirectory() as folder:
            plan = plan_of(folder, 7)
            plan.write([("web-v1", [1])])
            given = self.handed_on("dashboard.cli.show", *words, "--fleet", "f", BG_PLAN=plan.path)
            self.assertEqual((given.control, given.plan, given.fleet), (7, plan.path, "f"))

    def test_prompt(self) -> None:
        with mock.patch("builtins.input", side_effect=["tick 5", "exit"]):
            told = self.bgctl("prompt")
        self.assertEqual(
            (told.status, self.switch.sent_lines(), "tick 5" in self.switch.lines), (0, [], True)
        )
        told = run("prompt", "--control", str(free_port()), "--request-timeout", "0.2")
        self.assertEqual(
            (told.status, told.printed, "can't be reached" in told.told), (2, "", True)
        )

    def test_they_are_one_file_as_well(self) -> None:
        with tempfile.TemporaryDirectory() as folder:
            archive = os.path.join(folder, "tools.pyz")
            zipapp.create_archive(
                TOP / "lib", archive, filter=lambda path: "__pycache__" not in path.parts
            )
            told = subprocess.run(
                [sys.executable, archive, "bgctl", "promot"], capture_output=True, text=True
            )
        self.assertEqual(
            (told.returncode, told.stderr),
            (2, "bgctl: there is no command promot; did you mean promote?\n"),
        )

    def test_no_library_is_needed(self) -> None:
        """Python's standard library alone, without what Debian or anybody has installed, carries an
        order out."""
        words = [
            sys.executable,
            "-I",
            "-S",
            "-B",
            str(TOP / "lib"),
            "bgctl",
            "status",
            "--control",
            str(self.switch.port),
        ]
        told = subprocess.run(words, capture_output=True, text=True)
        self.assertEqual((told.returncode, told.stdout[:7], told.stderr), (0, "steady:", ""))


class WithoutAPlan(Operated):
    def test_deploy(self) -> None:
        self.assertEqual(
            self.bgctl("deploy", "web-v2", "3", "4"),
            ("ok 0\n", "bgctl: makes revision 2 web-v2\n", 0),
        )
        self.assertEqual(self.bgctl("deploy", "web-v2", "3", "4").status, 0)
        self.by_hand("abort")
        self.assertEqual(self.bgctl("deploy", "web-v2", "3", "4").status, 1)
        self.assertEqual(self.bgctl("deploy", "web-v3", "3")[::2], ("refused BadPorts\n", 1))
        self.assertEqual(self.bgctl("deploy", "web-v3", "0", "1").status, 2)

    def test_deploy_and_wait(self) -> None:
        self.assertEqual(
            self.bgctl("deploy", "web-v2", "3", "4", "--wait", "--timeout", "0.5").status, 2
        )
        self.by_hand("available 2 2", "promote")
        waited = self.bgctl("deploy", "web-v2", "3", "4", "--wait", "--timeout", "50")
        self.assertEqual((waited.status, "steady: active web-v2" in waited.printed), (0, True))
        self.by_hand("deploy web-v3 5 6")

        def aborted_by_another(*_: object, **__: object) -> Answer:
            self.by_hand("abort")
            return Answer("deploy web-v3 5 6", ["ok 0"], True, None)

        with mock.patch.object(Switch, "deploy", side_effect=aborted_by_another):
            aborted = self.bgctl("deploy", "web-v3", "5", "6", "--wait", "--timeout", "50")
        self.assertEqual(
            (aborted.status, "the attempt of web-v3 was aborted" in aborted.told), (1, True)
        )

    def test_undo_while_the_attempt_runs(self) -> None:
        self.by_hand("deploy web-v2 3 4")
        told = self.bgctl("undo")
        self.assertEqual((told.status, self.switch.sent_lines()), (2, []))
        self.assertIn(
            "the ports of web-v1 are not known, since the switch does not report them: --ports PORT.. names them",
            told.told,
        )
        self.assertEqual(self.bgctl("undo", "--ports", "1", "2").status, 0)
        self.assertEqual(
            (self.switch.sent_lines(), self.switch.book.newest), (["deploy web-v1 1 2"], 1)
        )

    def test_undo_to_a_name_or_a_number(self) -> None:
        self.by_hand("deploy web-v2 3 4", "available 2 2", "promote", "deploy web-v3 5 6", "abort")
        self.assertEqual(self.bgctl("undo", "--to", "1", "--ports", "1", "2").status, 0)
        self.assertEqual(self.bgctl("undo", "--to", "web-v3", "--ports", "5", "6").status, 0)
        self.assertEqual(self.switch.sent_lines(), ["deploy web-v1 1 2", "deploy web-v3 5 6"])
        self.assertEqual(
            self.bgctl("undo", "--to", "web-v33").told,
            "bgctl: no revision web-v33 is known; did you mean web-v3?\n",
        )
        self.assertEqual(self.bgctl("undo", "--to", "9").status, 2)

    def test_undo_that_is_not_clear(self) -> None:
        self.assertEqual(
            self.bgctl("undo").told,
            "bgctl: no revision is known that was stable before web-v1: --to NAME names "
            "another one\n",
        )
        self.by_hand("deploy web-v2 3 4", "abort", "deploy web-v3 5 6", "available 3 2", "promote")
        self.assertEqual(
            self.bgctl("undo").told,
            "bgctl: no history tells which revision was stable before web-v3: --to NAME names one "
            "of web-v1, web-v2\n",
        )
        self.assertEqual(self.switch.sent_lines(), [])

    def test_what_needs_a_plan(self) -> None:
        for command in ("history", "pause", "resume", "check", "controller"):
            told = self.bgctl(command)
            self.assertEqual(
                (told.status, "--plan FILE or the variable BG_PLAN names the plan" in told.told),
                (2, True),
                command,
            )


if __name__ == "__main__":
    unittest.main()
