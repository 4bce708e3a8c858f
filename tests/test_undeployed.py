"""Revisions that the plan named last and that were not deployed: their start fails, or another edit
has overtaken them."""
import json
import threading
import unittest

from bg_switch_tools.controller.edits.announced_deploy import AnnouncedDeploy
from bg_switch_tools.controller.edits.plan_edit import deploy_by_plan
from bg_switch_tools.controller.state.plan_author import Author
from bg_switch_tools.controller.state.state_file import StateFile
from support.pace import widened
from support.processes import Run
from tests.test_bgctl import run
from tests.test_controller import ControllerCase
from tests.tool_runs import comes


class Undeployed(ControllerCase):
    """A rollout whose stable revision is web-v1."""

    def setUp(self) -> None:
        super().setUp()
        self.write("web-v1")
        self.start()
        self.await_book("steady", 1)

    def bgctl(self, *words: str) -> Run:
        return run(*words, BG_PLAN=self.plan.path)

    def undeployed(self) -> list[tuple[str, str, str]]:
        """What the history has of such revisions: name, by whom, and why."""
        told = [json.loads(line) for line in self.bgctl("history", "--json").printed.splitlines()]
        return [
            (each["name"], each["by"], each["how"])
            for each in told
            if each["began"] == "undeployed"
        ]


class Overtaken(Undeployed):
    """A controller that is paused deploys nothing, so the edits are certain to come one after the
    other before a deploy."""

    def setUp(self) -> None:
        super().setUp()
        self.assertEqual(self.bgctl("pause").status, 0)

    def deploy_later(self, name: str) -> None:
        """Another person deploys by the plan while somebody waits."""
        ports = [endpoint.port for endpoint in self.endpoints[name]]
        timer = threading.Timer(
            0.5, deploy_by_plan, (self.plan.path, name, ports, Author(self.plan.path).sign)
        )
        self.addCleanup(timer.join)
        timer.start()

    def test_who_waits_is_told_at_once(self) -> None:
        self.deploy_later("web-v3")
        told = self.bgctl("deploy", *self.words("web-v2").split(), "--wait", "--timeout", "50")
        self.assertEqual(told.status, 1, told)  # 2 if its time has passed
        self.assertIn(
            "stable=web-v2 cannot hold by the plan: web-v2 was overtaken before its deploy: the plan names web-v3 last",
            told.told,
        )

    def test_a_wait_that_begins_later_is_told_too(self) -> None:
        for name in ("web-v2", "web-v3"):
            self.bgctl("deploy", *self.words(name).split())
        told = self.bgctl("wait", "newest=web-v2", "phase=paused", "--timeout", "50")
        self.assertEqual(
            (told.status, "web-v2 was overtaken before its deploy" in told.told), (1, True), told
        )

    def test_what_is_deployed_by_hand_all_the_same(self) -> None:
        """A wait goes on, since the revision may become stable once the plan's last one is deployed
        too, or is mended."""
        for name in ("web-v2", "web-v3"):
            self.bgctl("deploy", *self.words(name).split())
        for line in (f"deploy {self.words('web-v2')}", "available 2 2"):
            self.by_hand(line)
        told = self.bgctl("wait", "stable=web-v2", "--timeout", "0.5")
        self.assertEqual((told.status, "overtaken" in told.told), (2, False), told)

    def test_an_edit_by_other_means(self) -> None:
        self.write("web-v1", "web-v2")
        announced = AnnouncedDeploy(self.plan.path, ["web-v2"])
        self.assertEqual(announced.look()[::4], ("web-v2", ""))
        self.write("web-v1", "web-v3")
        self.assertEqual(
            announced.look()[::4],
            ("web-v3", "web-v2 was overtaken before its deploy: the plan names web-v3 last"),
        )
        self.write("web-v1", "web-v2")
        self.assertEqual(announced.look()[::4], ("web-v2", ""), "it is to be deployed again")

    def test_who_overtakes_is_told(self) -> None:
        self.bgctl("deploy", *self.words("web-v2").split())
        told = self.bgctl("deploy", *self.words("web-v3").split())
        who = Author(self.plan.path).name()
        self.assertEqual(
            (
                told.status,
                f"bgctl: web-v2, which {who} had named last, was not deployed yet, and is overtaken\n"
                in told.told,
            ),
            (0, True),
            told,
        )

    def test_the_history_has_it_once(self) -> None:
        for name in ("web-v2", "web-v3"):
            self.bgctl("deploy", *self.words(name).split())
        self.bgctl("resume")
        self.await_book("paused", 2)
        who = Author(self.plan.path).name() or ""
        for _ in range(2):
            self.assertEqual(self.undeployed(), [("web-v2", who, "overtaken by web-v3")])
            self.runner.stop()
            self.start()
            self.some_rounds()
        self.assertRegex(
            self.bgctl("history").printed,
            f" - web-v2 +{who} +not deployed: overtaken by web-v3 +-\n",
        )

    def test_the_history_has_it_after_an_edit_by_other_means(self) -> None:
        for name in ("web-v2", "web-v3"):
            self.write("web-v1", name)
            self.await_log(f"its last revision {name}")
            self.some_rounds()
        self.assertEqual(self.undeployed(), [("web-v2", "plan", "overtaken by web-v3")])

    def test_a_deploy_that_was_carried_out_is_not_overtaken(self) -> None:
        self.bgctl("resume")
        for name, number in (("web-v2", 2), ("web-v3", 3)):
            self.bgctl("deploy", *self.words(name).split())
            self.await_book("paused", number)
        self.assertEqual((self.undeployed(), Author(self.plan.path).overtaken()), ([], []))


class Failing(Undeployed):
    """The start of the endpoints of web-v4 fails, which nobody else starts."""

    text = "start of web-v4 at port 1 has failed, and is run again: its exit status is 1"

    def setUp(self) -> None:
        super().setUp()
        self.write("web-v1", start=["false"])
        self.await_log("the plan has changed")

    def await_failing(self, *names: str) -> None:
        def failing() -> list[str]:
            return [each.revision.name for each in StateFile(self.plan.path).read()[0].failing]

        self.assertTrue(comes(lambda: failing() == list(names)), self.log())

    def test_who_waits_is_told(self) -> None:
        longest = f"{widened(3):.0f}"
        told = self.bgctl("deploy", "web-v4", "1", "2", "--wait", "--timeout", longest)
        self.assertEqual(
            (
                told.status,
                f"bgctl: {self.text}\n" in told.told,
                told.told.endswith(f"; {self.text}\n"),
            ),
            (2, True, True),
            told,
        )

    def test_status_tells_it_until_the_plan_names_another(self) -> None:
        self.bgctl("deploy", "web-v4", "1", "2")
        self.await_failing("web-v4")
        self.assertEqual(
            self.bgctl("status")[1:], (f"bgctl: web-v4 is held back: {self.text}\n", 4)
        )
        self.write("web-v1", start=["false"])
        self.await_failing()
        self.assertEqual(self.bgctl("status").status, 0)

    def test_the_history_has_it_once(self) -> None:
        self.bgctl("deploy", "web-v4", "1", "2")
        self.assertTrue(
            comes(lambda: self.log().count("start of web-v4 at port 1 has failed") > 1), self.log()
        )
        self.assertEqual(
            self.undeployed(), [("web-v4", Author(self.plan.path).name(), "start fails")]
        )

    def test_a_start_that_succeeds_later(self) -> None:
        self.bgctl("deploy", "web-v4", "1", "2")
        self.await_failing("web-v4")
        self.plan.write([("web-v4", (1, 2))], start=["true"])
        self.await_failing()
        self.assertTrue(comes(lambda: "deploy web-v4 1 2" in self.switch.lines), self.log())

    def test_a_command_that_is_not_there_is_told_by_the_deploy(self) -> None:
        self.write("web-v1", start=["./nope.sh"])
        told = self.bgctl("deploy", "web-v4", "1", "2")
        self.assertEqual(
            (
                told.status,
                f"bgctl: {self.plan.path}: start[0]: there is no program ./nope.sh that can be run\n"
                in told.told,
            ),
            (0, True),
            told,
        )


del ControllerCase  # it has tests of its own elsewhere


if __name__ == "__main__":
    unittest.main()
