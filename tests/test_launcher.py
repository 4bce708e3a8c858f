"""A plan that starts and stops what it deploys, and tells a command of each event."""
import json
import os
import pathlib
import time
import unittest
from unittest import mock

from bg_switch_tools.controller.endpoints import launcher
from bg_switch_tools.controller.endpoints.former_switches import needed_names
from bg_switch_tools.controller.endpoints.launcher import words_for
from bg_switch_tools.controller.plan.plan import PlannedRevision
from bg_switch_tools.controller.rounds import notifier
from bg_switch_tools.controller.state.pause import PauseFile
from bg_switch_tools.controller.state.state_file import StateFile
from bg_switch_tools.switch.reports import read_report
from support.pace import is_within
from tests.fake_port import REPORT
from tests.fake_switch import FakeSwitch
from tests.test_controller import NAMES, ControllerCase
from tests.tool_runs import comes

# Writes down what it was called for. A file of the name that it is called with lets it fail, or
# never end.
FAKE = """echo "$0 $1 $2 $3" >> calls; test ! -e "hang-$0" || exec sleep 60; test ! -e "fail-$0"; exit"""


class Launched(ControllerCase):
    """Endpoints run if the fake commands were called for them: a thread starts and stops them as
    the calls say."""

    knows_down = True

    def setUp(self) -> None:
        super().setUp()
        self.stack.enter_context(mock.patch.object(launcher, "FIRST_PAUSE", 0.1))
        for pair in self.endpoints.values():
            for endpoint in pair:
                endpoint.stop()
        self.members: dict[str, object] = {
            name: ["sh", "-c", FAKE, name, "{revision}", "{port}", "{number}"]
            for name in ("start", "stop")
        }

    def calls(self) -> list[str]:
        path = pathlib.Path(self.folder, "calls")
        return path.read_text(encoding="ascii").splitlines() if path.exists() else []

    def await_calls(self, *calls: str) -> None:
        self.assertTrue(
            comes(lambda: set(calls) <= set(self.calls())), (calls, self.calls(), self.log())
        )

    def call(self, kind: str, name: str, number: int) -> str:
        return f"{kind} {name} {self.endpoints[name][number - 1].port} {number}"

    def both(self, kind: str, name: str) -> tuple[str, str]:
        return self.call(kind, name, 1), self.call(kind, name, 2)

    def come_up(self, name: str) -> None:
        for endpoint in self.endpoints[name]:
            endpoint.start()

    def go_down(self, name: str) -> None:
        for endpoint in self.endpoints[name]:
            endpoint.stop()

    def file(self, name: str) -> pathlib.Path:
        return pathlib.Path(self.folder, name)

    def started(self) -> list[str]:
        return [revision.name for revision in StateFile(self.plan.path).read()[0].started]

    def bring_v1_up(self) -> None:
        self.write("web-v1", **self.members)
        self.start()
        self.await_calls(*self.both("start", "web-v1"))
        self.come_up("web-v1")
        self.await_log("available 1 2 => ok 0")

    def bring_v2_to_its_pause(self) -> None:
        self.bring_v1_up()
        self.write(*NAMES[:2])
        self.await_calls(*self.both("start", "web-v2"))
        self.come_up("web-v2")
        self.await_book("paused", 2)


class NeededNames(unittest.TestCase):
    """The revisions whose endpoints a report of a switch needs."""

    def needed(self, state: str) -> bool:
        """Whether it needs revision 2, which no service selects, in this state."""
        report = read_report([*REPORT[:-1], f"revision 2 web-v2 {state} deadline none", REPORT[-1]])
        assert report is not None
        return needed_names(report) == ["web-v1", "web-v2"]

    def test_a_revision_is_needed_while_it_is_sized_or_has_a_request(self) -> None:
        for state, expected in (
            ("desired 2 available 2 open 0", True),
            ("desired 0 available 0 open 1", True),
            ("desired 0 available 0 open 0", False),
        ):
            with self.subTest(state):
                self.assertEqual(self.needed(state), expected)


class Rollouts(Launched):
    def test_from_no_process_to_the_end_of_the_old_ones(self) -> None:
        self.bring_v1_up()
        # the endpoints come up one after the other
        sent = [line for line in self.switch.sent_lines() if line != "available 1 1"]
        self.assertEqual(sent, [f"open {self.words('web-v1')}", "available 1 2"])
        self.write(*NAMES[:2])
        self.await_calls(*self.both("start", "web-v2"))
        self.await_log(f"deploy {self.words('web-v2')} => ok 0")
        self.come_up("web-v2")
        self.await_book("paused", 2)
        self.assertEqual(self.started(), ["web-v1", "web-v2"])
        self.switch.book.answer("enter 0 active")
        self.by_hand("promote")
        self.some_rounds()
        self.assertEqual([call for call in self.calls() if call.startswith("stop")], [])
        self.by_hand("tick 40")
        self.some_rounds()
        self.assertTrue(self.switch.book.revisions[1].is_draining)
        self.assertEqual(
            [call for call in self.calls() if call.startswith("stop")], [], "a request is open"
        )
        self.switch.book.answer("leave 0")
        self.await_calls(*self.both("stop", "web-v1"))
        self.await_log("web-v1 is stopped")
        self.assertEqual(self.started(), ["web-v2"])
        self.assertEqual(len([call for call in self.calls() if call.startswith("stop")]), 2)

    def test_a_deploy_waits_until_start_has_succeeded(self) -> None:
        self.bring_v1_up()
        self.file("fail-start").touch()
        self.write(*NAMES[:2])
        self.await_log(
            f"start of web-v2 at port {self.endpoints['web-v2'][0].port} has failed, and is run again in 0.1 seconds: "
            "its exit status is 1",
            "is run again in 0.4 seconds",
        )
        self.assertEqual(
            [line for line in self.switch.sent_lines() if line.startswith("deploy")], []
        )
        self.file("fail-start").unlink()
        self.await_log(f"deploy {self.words('web-v2')} => ok 0")

    def test_a_command_that_does_not_end_is_killed_and_run_again(self) -> None:
        self.bring_v1_up()
        self.file("hang-start").touch()
        self.write(*NAMES[:2], timeout=0.3)
        self.await_log(
            "has failed, and is run again in 0.1 seconds: it has not ended after 0.3 seconds"
        )
        self.file("hang-start").unlink()
        self.await_log(f"deploy {self.words('web-v2')} => ok 0")

    def test_an_endpoint_of_a_desired_revision_that_dies_is_started_again(self) -> None:
        self.bring_v1_up()
        before = len(self.calls())
        self.endpoints["web-v1"][1].stop()
        self.assertTrue(comes(lambda: len(self.calls()) > before))
        self.assertEqual(set(self.calls()[before:]), {self.call("start", "web-v1", 2)})
        self.endpoints["web-v1"][1].start()
        self.await_log("available 1 2 => ok 0")

    def test_a_port_that_another_revision_has_is_waited_for(self) -> None:
        """web-v3 takes the ports of web-v1, which still runs."""
        self.bring_v1_up()
        self.endpoints["web-v3"] = self.endpoints["web-v1"]
        self.write("web-v3", **self.members)
        self.await_log(
            "start of web-v3 at port", "waits: the port is that of web-v1, which is not stopped yet"
        )
        self.some_rounds()
        self.assertEqual([call for call in self.calls() if "web-v3" in call], [])
        self.assertEqual(
            [line for line in self.switch.sent_lines() if line.startswith("deploy")],
            [],
            "they are no endpoints of web-v3",
        )
        before = len(self.calls())
        self.endpoints["web-v1"][0].stop()
        self.assertTrue(
            comes(lambda: self.call("start", "web-v1", 1) in self.calls()[before:]),
            "web-v1 is live",
        )


class Stops(Launched):
    def scale_v1_down(self) -> None:
        self.bring_v2_to_its_pause()
        self.by_hand("promote")
        self.by_hand("tick 40")

    def test_a_stop_that_fails_is_run_again_by_the_next_controller_too(self) -> None:
        self.file("fail-stop").touch()
        self.scale_v1_down()
        self.await_log(
            "stop of web-v1 at port",
            "has failed, and is run again in 0.2 seconds: its exit status is 1",
        )
        self.runner.stop()
        self.assertEqual(self.started(), ["web-v1", "web-v2"])
        self.file("fail-stop").unlink()
        self.start()
        self.await_log("web-v1 is stopped")

    def test_a_revision_that_is_needed_again_is_started_again(self) -> None:
        """An undo by hand while the old revision is stopped. A late answer to a probe does not
        count for it."""
        self.scale_v1_down()
        self.await_calls(*self.both("stop", "web-v1"))
        before = len(self.calls())
        self.go_down("web-v1")
        self.by_hand(f"deploy {self.words('web-v1')}")
        self.assertTrue(
            comes(lambda: set(self.both("start", "web-v1")) <= set(self.calls()[before:])),
            (self.calls(), self.log()),
        )
        self.come_up("web-v1")
        self.await_book("paused", 1)

    def test_nothing_is_stopped_while_no_book_is_open(self) -> None:
        """The switch is started again, and its opening waits for the stable revision. The attempt
        that ran is begun again later."""
        self.bring_v2_to_its_pause()
        self.go_down("web-v1")
        self.await_log("available 1 0 => ok 0")
        self.switch.kill()
        self.switch.start()
        self.some_rounds()
        self.assertEqual(
            (self.switch.book.phase, [call for call in self.calls() if call.startswith("stop")]),
            ("", []),
        )
        self.come_up("web-v1")
        self.await_book("paused", 2)
        self.assertEqual([call for call in self.calls() if call.startswith("stop")], [])

    def test_nothing_is_stopped_that_the_switch_before_still_needs(self) -> None:
        """An upgrade while a request of the old revision is open at the first switch, which ends
        later."""
        self.bring_v2_to_its_pause()
        self.switch.book.answer("enter 0 active")
        self.by_hand("promote")
        self.some_rounds()
        second = FakeSwitch("pause", knows_down=True)
        self.stack.callback(second.kill)
        self.write(*NAMES[:2], control=second.port)
        self.await_log(f"open {self.words('web-v2')} => ok 0")
        time.sleep(1)
        self.assertEqual([call for call in self.calls() if call.startswith("stop")], [])
        self.switch.kill()
        self.await_log("web-v1 is stopped")
        self.assertEqual([call for call in self.calls() if call.startswith("stop web-v2")], [])

    def test_an_aborted_revision_is_stopped_once_it_is_scaled_down(self) -> None:
        """It is still the newest one, and no service selects it."""
        self.bring_v2_to_its_pause()
        self.by_hand("abort")
        self.some_rounds()
        self.assertEqual([call for call in self.calls() if call.startswith("stop")], [])
        self.by_hand("tick 40")
        self.await_log("web-v2 is stopped")
        self.go_down("web-v2")
        self.some_rounds()
        self.assertEqual(len([call for call in self.calls() if call.startswith("start web-v2")]), 2)

    def test_an_aborted_revision_of_a_book_that_is_open_is_not_started(self) -> None:
        """Nothing is known of it, and the switch is not asked for its ports before the pause
        ends."""
        opened, deployed = (f"open {self.words('web-v1')}", f"deploy {self.words('web-v2')}")
        for line in (opened, deployed, "abort", "tick 40"):
            self.by_hand(line)
        self.assertEqual(self.switch.book.revisions[2].desired, 0)
        self.write(*NAMES[:2], **self.members)
        PauseFile(self.plan.path).pause()
        probes = self.start().controller.probes
        self.assertTrue(
            comes(
                lambda: all(probes.is_down(endpoint.port) for endpoint in self.endpoints["web-v2"])
            )
        )
        self.await_calls(*self.both("start", "web-v1"))
        self.some_rounds()
        self.assertEqual([call for call in self.calls() if call.startswith("start web-v2")], [])

    def test_a_revision_that_never_was_deployed_is_stopped(self) -> None:
        self.bring_v1_up()
        self.file("fail-start").touch()
        self.write(*NAMES[:2])
        self.await_calls(*self.both("start", "web-v2"))
        self.write("web-v1")
        self.await_calls(*self.both("stop", "web-v2"))
        self.assertEqual([call for call in self.calls() if call.startswith("stop web-v1")], [])


class Words(unittest.TestCase):
    def test_places(self) -> None:
        revision = PlannedRevision("web-v1", (81, 82))
        self.assertEqual(
            words_for(
                ("systemctl", "start", "{revision}@{port}-{number}", "${x} {y}"), revision, 82
            ),
            ["systemctl", "start", "web-v1@82-2", "${x} {y}"],
        )


class Notified(ControllerCase):
    def events(self) -> list[dict[str, object]]:
        path = os.path.join(self.folder, "events")
        if not os.path.exists(path):
            return []
        with open(path, encoding="ascii") as file:
            return [json.loads(line) for line in file]

    def test_each_event_as_an_object(self) -> None:
        self.write(*NAMES[:2], notify=["sh", "-c", "cat >> events"])
        self.start()
        self.await_book("paused", 2)
        expected = {f"deploy {self.words('web-v2')} => ok 0", "phase: scaling -> paused"}
        self.assertTrue(
            comes(lambda: expected <= {str(event["text"]) for event in self.events()}),
            self.events(),
        )
        self.assertEqual(
            {"number", "time", "moment", "event", "text"} - set(self.events()[0]), set()
        )

    def test_the_rollout_waits_for_none(self) -> None:
        """Each call hangs, and is killed after its timeout; not more than a few run at a time."""
        with mock.patch.object(notifier, "GRACE", 0.2):
            self.write(
                *NAMES[:2],
                notify=["sh", "-c", "trap '' TERM; echo $$ >> pids; while :; do sleep 0.1; done"],
                timeout=0.4,
            )
            self.start()
            begun = time.monotonic()
            self.await_book("paused", 2)
            seconds = time.monotonic() - begun
            self.assertTrue(is_within(seconds, 8), seconds)
            path = pathlib.Path(self.folder, "pids")
            self.assertTrue(
                comes(
                    lambda: path.exists()
                    and len(path.read_text(encoding="ascii").split()) > notifier.MOST_AT_ONCE
                )
            )
            pids = path.read_text(encoding="ascii").split()
            self.assertLessEqual(
                sum(os.path.exists(f"/proc/{pid}") for pid in pids), notifier.MOST_AT_ONCE
            )
            self.await_log(
                "notify has failed, 1 times since it was told: it has not ended after 0.4 seconds"
            )
            self.assertTrue(comes(lambda: not os.path.exists(f"/proc/{pids[0]}")))
            self.runner.stop()
            time.sleep(0.2)
            begun_by_then = path.read_text(encoding="ascii").split()
            time.sleep(1)
            self.assertEqual(
                path.read_text(encoding="ascii").split(),
                begun_by_then,
                "none begins when the controller has ended",
            )
            self.assertEqual([pid for pid in begun_by_then if os.path.exists(f"/proc/{pid}")], [])


if __name__ == "__main__":
    unittest.main()
