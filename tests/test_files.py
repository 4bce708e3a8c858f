"""The files around the tools: the pipeline, the example's plan, and the tools as one file."""
import contextlib
import os
import pathlib
import subprocess
import tempfile
import unittest
import zipapp

from bg_switch_tools.controller.plan.plan_kinds import names_of
from bg_switch_tools.controller.plan.plan_reader import KEYS, read_plan
from tests.fake_switch import FakeSwitch
from tests.tool_runs import TOP, WAIT, Endpoint, comes, controlling, plan_of

RELEASE = TOP / "examples" / "ci" / "release.sh"
MOST_LINES = 15


class Pipeline(unittest.TestCase):
    """A job and a controller, which work by one plan."""

    def setUp(self) -> None:
        self.stack = contextlib.ExitStack()
        self.addCleanup(self.stack.close)
        folder = self.stack.enter_context(tempfile.TemporaryDirectory())
        self.switch = FakeSwitch("pause", "post")
        self.stack.callback(self.switch.kill)
        self.plan = plan_of(folder, self.switch.port)
        self.ports = []
        for _ in range(4):
            endpoint = Endpoint()
            self.stack.callback(endpoint.stop)
            self.ports.append(endpoint.port)

    def begin(self, status: int) -> None:
        """Starts a controller, whose analysis ends with this status."""
        self.plan.write(
            [("web-v1", self.ports[:2])], analyses={"post": ["sh", "-c", f"exit {status}"]}
        )
        self.stack.enter_context(controlling(self.plan))
        self.assertTrue(comes(lambda: "available 1 2" in self.switch.lines))

    def release(self) -> "subprocess.CompletedProcess[str]":
        words = [
            str(RELEASE),
            str(self.switch.port),
            self.plan.path,
            "web-v2",
            *map(str, self.ports[2:]),
        ]
        return subprocess.run(words, capture_output=True, text=True, timeout=WAIT, check=False)

    def test_it_is_short(self) -> None:
        self.assertLessEqual(len(RELEASE.read_text(encoding="ascii").splitlines()), MOST_LINES)

    def test_a_release(self) -> None:
        """The revision stands in the plan, so the controller probes its endpoints, and keeps its
        name over a crash."""
        self.begin(0)
        told = self.release()
        self.assertEqual(told.returncode, 0, told.stderr)
        self.assertEqual(
            self.switch.sent_lines()[2:],
            [
                f"deploy web-v2 {self.ports[2]} {self.ports[3]}",
                "available 2 2",
                "promote",
                "verdict post successful",
            ],
        )
        self.assertEqual(
            [
                revision.name
                for revision in read_plan(pathlib.Path(self.plan.path).read_bytes()).revisions
            ],
            ["web-v1", "web-v2"],
        )
        again = self.release()
        self.assertEqual(
            (again.returncode, "web-v2 is the last revision of" in again.stdout),
            (0, True),
            again.stderr,
        )

    def test_one_that_fails(self) -> None:
        self.begin(1)
        told = self.release()
        self.assertEqual(told.returncode, 1)
        self.assertIn(
            "stable=web-v2 cannot hold unless a line is sent: the attempt of web-v2 was aborted",
            told.stderr,
        )


class OneFile(unittest.TestCase):
    def test_the_tools_as_one_file(self) -> None:
        with tempfile.TemporaryDirectory() as folder:
            archive = os.path.join(folder, "tools.pyz")
            zipapp.create_archive(TOP / "lib", archive, "/usr/bin/env python3")
            run = subprocess.run(
                [archive, "operator", "1", "help"],
                cwd=folder,
                capture_output=True,
                text=True,
                timeout=WAIT,
                check=False,
            )
            self.assertEqual((run.returncode, "deploy NAME" in run.stdout), (0, True), run.stderr)
            pathlib.Path(folder, "plan.json").write_text("{}", encoding="ascii")
            run = subprocess.run(
                [archive, "controller", "check", "plan.json"],
                cwd=folder,
                capture_output=True,
                text=True,
                timeout=WAIT,
                check=False,
            )
            self.assertEqual(
                (run.returncode, run.stdout), (1, "control: is missing\nrevisions: is missing\n")
            )
            self.assertEqual(
                subprocess.run([archive], capture_output=True, check=False).returncode, 2
            )


class Example(unittest.TestCase):
    def test_the_plan_of_the_example(self) -> None:
        self.assertEqual(
            len(read_plan((TOP / "examples" / "controller" / "plan.json").read_bytes()).revisions),
            2,
        )

    def test_the_plan_of_the_controllers_help(self) -> None:
        told = subprocess.run(
            [str(TOP / "bin" / "controller"), "-h"],
            capture_output=True,
            text=True,
            timeout=WAIT,
            check=False,
        ).stdout
        plan, keys, *_ = told.split("\nA plan:\n")[1].split("\n\n")
        self.assertEqual(read_plan(plan.encode()).control, 8082)
        listed = [line.split()[0] for line in keys.split("\n") if not line.startswith("   ")]
        self.assertEqual([name for name in listed if "." not in name], list(names_of(KEYS)))


if __name__ == "__main__":
    unittest.main()
