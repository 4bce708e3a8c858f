"""What stood in the way of users of the tools. Each test runs the whole tool before a fake
switch."""
import contextlib
import json
import os
import pty
import re
import select
import signal
import subprocess
import tempfile
import time
import unittest

from support.pace import is_within
from tests.fake_switch import FakeSwitch
from tests.tool_runs import (
    TOOLS,
    TOP,
    WAIT,
    ControllerRun,
    Endpoint,
    comes,
    controlling,
    operator,
    plan_of,
    with_fast_clock,
)


class Controlled(unittest.TestCase):
    """A switch, and two endpoints for each of three revisions, which a plan names."""

    def setUp(self) -> None:
        self.stack = contextlib.ExitStack()
        self.addCleanup(self.stack.close)
        folder = self.stack.enter_context(tempfile.TemporaryDirectory())
        self.endpoints = {name: [Endpoint(), Endpoint()] for name in ("web-v1", "web-v2", "web-v3")}
        for pair in self.endpoints.values():
            for endpoint in pair:
                self.stack.callback(endpoint.stop)
        self.switch = FakeSwitch("pause")
        self.stack.callback(self.switch.kill)
        self.plan = plan_of(folder, self.switch.port)

    def ports(self, name: str) -> list[int]:
        return [endpoint.port for endpoint in self.endpoints[name]]

    def words(self, name: str) -> str:
        return " ".join([name, *map(str, self.ports(name))])

    def write(self, *names: str, **members: object) -> None:
        self.plan.write([(name, self.ports(name)) for name in names], **members)

    def run_controller(self) -> ControllerRun:
        return self.stack.enter_context(controlling(self.plan))

    def bring_v2_out(self) -> ControllerRun:
        """v2 is stable, and v3 is in its pause."""
        self.write("web-v1", "web-v2")
        run = self.run_controller()
        self.assertTrue(comes(lambda: self.switch.book.phase == "paused"), run.log)
        self.assertEqual(operator(self.switch.port, "promote").printed, "ok 3\n")
        self.write("web-v1", "web-v2", "web-v3")
        self.assertTrue(
            comes(lambda: (self.switch.book.phase, self.switch.book.newest) == ("paused", 3)),
            run.log,
        )
        comes(lambda: run.says("phase: scaling -> paused") and self.remembers_v3(), 1.2)
        return run

    def remembers_v3(self) -> bool:
        """Whether the state file has the attempt of web-v3."""
        with contextlib.suppress(FileNotFoundError), open(
            f"{self.plan.path}.state", encoding="ascii"
        ) as file:
            attempt = json.load(file)["attempt"]
            return attempt is not None and attempt["name"] == "web-v3"
        return False


class SwitchCrashes(Controlled):
    def test_a_switch_started_again_is_opened_with_the_stable_revision(self) -> None:
        run = self.bring_v2_out()
        for endpoint in self.endpoints["web-v1"]:
            endpoint.stop()
        self.switch.kill()
        self.switch.lines.clear()
        time.sleep(0.5)
        self.switch.start()
        self.assertTrue(comes(lambda: self.switch.book.phase == "paused"), run.log)
        self.assertEqual(
            self.switch.sent_lines()[:3],
            [f"open {self.words('web-v2')}", "available 1 2", f"deploy {self.words('web-v3')}"],
        )
        self.assertTrue(run.says("no book is open: it is opened with web-v2, which was stable"))
        self.assertTrue(run.says("the attempt of web-v3, which ran, is begun again"))


class ControllerCrashes(Controlled):
    def test_a_controller_started_again_deploys_nothing_that_was_undone(self) -> None:
        run = self.bring_v2_out()
        self.assertEqual(
            operator(self.switch.port, "deploy", *self.words("web-v2").split()).printed, "ok 1\n"
        )
        run.kill()
        self.switch.lines.clear()
        self.run_controller()
        self.assertTrue(
            comes(lambda: sum(line.startswith("tick ") for line in list(self.switch.lines)) >= 2)
        )
        self.assertEqual(self.switch.sent_lines(), [])


class Silences(Controlled):
    def test_it_goes_on_where_the_switch_gives_no_answer_for_minutes(self) -> None:
        self.write("web-v1")
        self.switch.kill()
        old, new = TOOLS / "controller", TOP / "lib"
        program = [str(new), "controller"] if TOOLS == TOP / "bin" else [str(old)]
        run = ControllerRun([], with_fast_clock(60, *program, self.plan.path))
        self.stack.callback(run.wait)
        self.stack.callback(run.kill)
        self.assertTrue(run.says("no answer for 1"), run.log)
        self.assertTrue(comes(lambda: run.count("no answer") >= 4), run.log)
        self.switch.start()
        self.assertTrue(comes(lambda: self.switch.sent_lines()))
        self.assertTrue(run.says("answers again, after"))


class Probing(Controlled):
    def test_an_endpoint_that_trickles_is_down_and_holds_up_no_end(self) -> None:
        self.write("web-v1", health={"interval": 0.1, "timeout": 0.9, "failures": 2})
        run = self.run_controller()
        self.assertTrue(comes(lambda: "available 1 2" in self.switch.lines))
        self.endpoints["web-v1"][1].trickle()
        self.assertTrue(
            comes(lambda: "available 1 1" in self.switch.lines, 30), self.switch.sent_lines()
        )
        status, seconds = run.signal(signal.SIGTERM)
        self.assertEqual((status, is_within(seconds, 2) or seconds), (0, True))


class Ends(Controlled):
    def ends_at_once(self, number: int) -> None:
        """With an analysis that ignores signals, a probe that trickles, and a switch that does not
        answer."""
        self.switch.kill()
        self.switch.steps = ("pre",)
        self.switch.start()
        pid = os.path.join(os.path.dirname(self.plan.path), "pid")
        self.endpoints["web-v1"][1].trickle()
        self.write(
            "web-v1",
            "web-v2",
            analyses={"pre": ["sh", "-c", "trap '' TERM INT; echo $$ > pid; sleep 60; sleep 60"]},
            health={"interval": 0.1, "timeout": 60, "failures": 2},
        )
        run = self.run_controller()
        self.assertTrue(comes(lambda: os.path.exists(pid) and os.path.getsize(pid) > 1), run.log)
        with open(pid, encoding="ascii") as file:
            process = file.read().strip()
        status, seconds = run.signal(number)
        self.assertEqual((status, is_within(seconds, 2) or seconds), (0, True))
        self.assertTrue(comes(lambda: not os.path.exists(f"/proc/{process}")))

    def test_sigterm(self) -> None:
        self.ends_at_once(signal.SIGTERM)

    def test_an_interrupt(self) -> None:
        self.ends_at_once(signal.SIGINT)


class Plans(Controlled):
    def judged(self, place: str, **members: object) -> None:
        """The controller ends with status 1, names the place, and has sent nothing."""
        revisions = members.pop("revisions", [("web-v1", self.ports("web-v1"))])
        assert isinstance(revisions, list)
        self.plan.write(revisions, **members)
        run = self.run_controller()
        comes(lambda: run.process.poll() is not None, 30)
        told = run.end()
        self.assertEqual(
            (told.status, "Traceback" in told.told, self.switch.lines), (1, False, []), told
        )
        self.assertIn(f"  {place}: ", told.told)

    def test_a_command_that_is_one_text(self) -> None:
        self.judged("analyses.pre", analyses={"pre": "./smoke.sh 21081"})

    def test_a_name_with_a_letter_outside_ascii(self) -> None:
        self.judged("revisions[1].name", revisions=[("web-v1", [1, 2]), ("web-é", [3, 4])])

    def test_an_unknown_key(self) -> None:
        self.judged("analysis", analysis={"pre": ["true"]})

    def test_a_name_with_a_line_end(self) -> None:
        self.judged("revisions[1].name", revisions=[("web-v1", [1, 2]), ("web-v6\nabort", [3, 4])])

    def test_a_port_above_the_greatest(self) -> None:
        self.judged("revisions[1].ports[0]", revisions=[("web-v1", [1, 2]), ("web-v2", [70000, 4])])

    def test_a_plan_that_turns_bad_leaves_the_one_before(self) -> None:
        self.write("web-v1")
        run = self.run_controller()
        self.assertTrue(comes(lambda: "available 1 2" in self.switch.lines))
        self.plan.write([("web-v1", self.ports("web-v1")), ("web-v6\nabort", [70000, 4])])
        self.assertTrue(
            run.says("the plan is wrong, so the one before is used: revisions[1].name: ")
        )
        self.assertTrue(
            run.says(
                "the plan is wrong, so the one before is used: revisions[1].ports[0]: 70000 is above 65535"
            )
        )
        time.sleep(1.2)
        self.assertEqual(
            [line for line in self.switch.sent_lines() if line.startswith(("deploy", "abort"))], []
        )


class Pipelines(Controlled):
    def test_a_pipeline_waits_until_it_is_stable(self) -> None:
        self.write("web-v1")
        self.run_controller()
        self.assertTrue(comes(lambda: "available 1 2" in self.switch.lines))
        deployed = operator(self.switch.port, "deploy", *self.words("web-v2").split())
        self.assertEqual((deployed.printed, deployed.status), ("ok 0\n", 0))
        self.assertIn("makes revision 2 web-v2", deployed.told)
        self.write("web-v1", "web-v2")
        paused = operator(
            self.switch.port, "wait", "phase=paused", "newest=web-v2", "--timeout", "50"
        )
        self.assertEqual((paused.status, paused.printed.startswith("paused: ")), (0, True), paused)
        self.assertEqual(operator(self.switch.port, "promote").status, 0)
        self.assertEqual(
            operator(self.switch.port, "wait", "stable=web-v2", "--timeout", "50").status, 0
        )

    def test_a_pipeline_hears_of_a_failure(self) -> None:
        self.bring_v2_out()
        self.assertEqual(operator(self.switch.port, "abort").status, 0)
        waited = operator(self.switch.port, "wait", "stable=web-v3", "--timeout", "9")
        self.assertEqual(waited.status, 1)
        self.assertIn("the attempt of web-v3 was aborted", waited.told)

    def test_replies_as_json(self) -> None:
        self.switch.book.answer("open web-v1 1 2")
        report = operator(self.switch.port, "report", "--json")
        self.assertEqual(json.loads(report.printed)["phase"], "steady")
        reply = operator(self.switch.port, "promote", "--json")
        self.assertEqual(
            (json.loads(reply.printed), reply.status),
            (
                {
                    "line": "promote",
                    "reply": "refused NotPaused",
                    "carried_out": False,
                    "meaning": "the rollout is not paused",
                },
                1,
            ),
        )


class Prompts(Controlled):
    def test_quit_at_the_prompt_leaves_the_prompt(self) -> None:
        for word in ("quit", "exit", "\x04"):
            self.assertEqual(self.typed(word), 0)
        self.assertEqual(self.switch.lines, [])

    def typed(self, word: str) -> int:
        """The status of a prompt at which this is typed."""
        end, other = pty.openpty()
        process = subprocess.Popen(
            [str(TOOLS / "operator"), str(self.switch.port)],
            stdin=other,
            stdout=other,
            stderr=other,
            start_new_session=True,
            env={**os.environ, "TERM": "dumb"},
        )
        os.close(other)
        shown = b""
        while b"> " not in shown and select.select([end], [], [], WAIT)[0]:
            shown += os.read(end, 4096)
        os.write(end, word.encode() + (b"" if word == "\x04" else b"\n"))
        status = process.wait(WAIT)
        os.close(end)
        return status

    def test_help_lists_the_lines(self) -> None:
        told = operator(self.switch.port, "help")
        self.assertEqual(
            (told.status, "promote full" in told.printed, "wait CONDITION" in told.printed),
            (0, True, True),
            told,
        )
        self.assertEqual(self.switch.lines, [])


class Logs(Controlled):
    def test_no_ticks_but_all_that_changes_by_whomever(self) -> None:
        run = self.bring_v2_out()
        told = run.end().printed.split("\n")
        self.assertEqual([line for line in told if " tick " in line], [])
        pattern = re.compile(r"\d{4}-\d\d-\d\dT\d\d:\d\d:\d\d[+-]\d\d:\d\d (moment \d+: )?\S")
        self.assertEqual([line for line in told if not pattern.match(line)], [])
        for change in (
            "phase: paused -> steady",
            "active: revision 1 web-v1 -> revision 2 web-v2",
            "revision 3 web-v3: deployed, desired 2",
            "revision 1 web-v1: scale-down at moment none -> ",
        ):
            self.assertTrue(any(change in line for line in told), (change, told))

    def test_a_refusal_has_its_meaning(self) -> None:
        self.write("web-v1", "web-v2")
        self.switch.book.answer(f"open {self.words('web-v1')}")
        self.switch.book.answer("deploy web-v2 1 2")
        self.switch.book.answer(f"deploy {self.words('web-v1')}")
        self.write("web-v1", "web-v3")
        run = self.run_controller()
        self.assertTrue(run.says(f"deploy {self.words('web-v3')} => ok 0"))
        self.write("web-v1", "web-v2")
        self.assertTrue(
            run.says(
                f"deploy {self.words('web-v2')} => refused PortsDiffer: a revision of this name already has other ports"
            )
        )


if __name__ == "__main__":
    unittest.main()
