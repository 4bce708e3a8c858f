"""Whether a Rollout and a plan fit one another, by `bgctl check --rollout` and `bin/controller
check --rollout`."""
import json
import os
import pathlib
import tempfile
import unittest

from bg_switch_tools.controller import cli as controller_cli
from support.processes import Run
from tests.test_bgctl import run
from tests.tool_runs import TOP, run_in_process

STRATEGY: dict[str, object] = {
    "activeService": "web",
    "previewService": "web-preview",
    "postPromotionAnalysis": {},
}
PRE: dict[str, object] = {"prePromotionAnalysis": {}}
REVISIONS = [{"name": "web-v1", "ports": [9101, 9102]}, {"name": "web-v2", "ports": [9201, 9202]}]


class Fits(unittest.TestCase):
    def setUp(self) -> None:
        folder = tempfile.TemporaryDirectory()
        self.addCleanup(folder.cleanup)
        self.plan, self.rollout = (
            os.path.join(folder.name, name) for name in ("plan.json", "rollout.json")
        )
        self.write_plan()

    def write_plan(self, **members: object) -> None:
        told = {
            "control": 8082,
            "revisions": REVISIONS,
            "analyses": {"post": ["sh", "-c", "true"]},
            **members,
        }
        pathlib.Path(self.plan).write_text(json.dumps(told), encoding="ascii")

    def check(self, replicas: object = 2, **strategy: object) -> Run:
        told: dict[str, object] = {
            "spec": {"replicas": replicas, "strategy": strategy or {"blueGreen": STRATEGY}}
        }
        pathlib.Path(self.rollout).write_text(json.dumps(told), encoding="ascii")
        return run("check", self.plan, "--rollout", self.rollout)

    def test_what_fits(self) -> None:
        self.assertEqual(self.check(), (f"{self.plan} is a plan\n", "", 0))
        self.assertEqual(self.check(None).status, 0, "what is no number, the switch says")

    def test_replicas(self) -> None:
        self.assertEqual(
            self.check(3),
            (
                f"{self.rollout}: spec.replicas is 3, and each revision of the plan has 2 ports: the switch refuses them (BadPorts). Set replicas "
                "to 2, or give each revision of the plan 3 ports, by new names; a switch that runs keeps the Rollout with which it was "
                "started\n",
                "",
                1,
            ),
        )
        self.assertEqual(
            run_in_process(
                controller_cli.main, "check", self.plan, "--rollout", self.rollout
            ).status,
            1,
        )
        self.assertEqual(run("check", self.plan).status, 0, "nobody has named it")

    def test_analyses(self) -> None:
        told = self.check(blueGreen={"activeService": "web"})
        self.assertEqual(
            (told.printed, told.status),
            (
                f"{self.rollout}: spec.strategy.blueGreen.postPromotionAnalysis is missing, so the command analyses.post of the plan is never run: "
                "{} is enough\n",
                1,
            ),
        )
        self.assertEqual(
            self.check(blueGreen={**STRATEGY, **PRE}).status, 0, "a verdict by hand is awaited"
        )

    def test_canary(self) -> None:
        told = self.check(canary={"steps": []})
        self.assertEqual(
            (told.status, told.printed.partition(": ")[2]),
            (
                1,
                "spec.strategy.canary: the switch has no canary: it moves all live traffic at once. Write spec.strategy.blueGreen in its place; "
                "its previewService gets requests of testers before the switch\n",
            ),
        )
        self.assertEqual(
            self.check(other={}).printed, f"{self.rollout}: spec.strategy.blueGreen is missing\n"
        )

    def test_what_is_no_rollout(self) -> None:
        for text, problem in (
            (b"spec:", "it is not JSON: "),
            (b"[]", "spec.strategy.blueGreen is missing"),
            (b" " * (1 << 21), "it has more than"),
        ):
            pathlib.Path(self.rollout).write_bytes(text)
            told = run("check", self.plan, "--rollout", self.rollout)
            self.assertEqual(
                (told.status, told.printed.startswith(f"{self.rollout}: {problem}")),
                (1, True),
                told.printed,
            )
        told = run("check", self.plan, "--rollout", self.rollout + "x")
        self.assertEqual(
            (told.printed, told.status),
            (f"{self.rollout}x can't be read: No such file or directory\n", 1),
        )

    def test_the_examples_fit(self) -> None:
        folder = TOP / "examples" / "controller"
        told = run("check", str(folder / "plan.json"), "--rollout", str(folder / "rollout.json"))
        self.assertEqual(told.status, 0, told.printed)


if __name__ == "__main__":
    unittest.main()
