"""What a public host and pre-commit read: the workflow runs the gate, hooks are local, and what
they name is there."""
import importlib
import importlib.util
import os
import re
import unittest
from typing import Any

from tests.tool_runs import TOP

FORMS = sorted((TOP / ".github").rglob("*.yml"))
HOOKS = TOP / ".pre-commit-config.yaml"
GATE = ".ci/run"


def load(text: str) -> Any:
    """What a text in YAML says. The library has no types, and is not installed everywhere."""
    return importlib.import_module("yaml").safe_load(text)


@unittest.skipUnless(importlib.util.find_spec("yaml"), "python3-yaml is not installed")
class HostFiles(unittest.TestCase):
    def setUp(self) -> None:
        self.targets = set(
            re.findall(r"^([a-z-]+):", (TOP / "Makefile").read_text(encoding="utf-8"), re.M)
        )

    def judge_command(self, command: str) -> None:
        """Whether each target of make, and each module of tests, that a command names is there."""
        words = command.split()
        if words[0] == "make":
            self.assertLessEqual(set(words[1:]), self.targets)
        for module in re.findall(r"\btests\.(\w+)", command):
            self.assertTrue((TOP / "tests" / f"{module}.py").exists(), module)

    def test_the_workflow_runs_the_gate(self) -> None:
        jobs = load((TOP / ".github" / "workflows" / "ci.yml").read_text(encoding="utf-8"))["jobs"]
        commands = {
            name: [step["run"] for step in job["steps"] if "run" in step]
            for name, job in jobs.items()
        }
        self.assertEqual(commands["gate"], [GATE])
        self.assertTrue(os.access(TOP / GATE, os.X_OK))
        self.assertIn("make lint test-tools", commands["tools"])
        for command in commands["tools"]:
            self.judge_command(command)

    def test_hooks_are_local(self) -> None:
        repositories = load(HOOKS.read_text(encoding="utf-8"))["repos"]
        self.assertEqual([one["repo"] for one in repositories], ["local"])
        entries = [
            hook["entry"] for hook in repositories[0]["hooks"] if hook["language"] == "system"
        ]
        self.assertEqual(len(entries), len(repositories[0]["hooks"]))
        self.assertIn("make lint", entries)
        for entry in entries:
            self.judge_command(entry)

    def test_each_template_asks_for_something(self) -> None:
        forms = [
            load(template.read_text(encoding="utf-8"))
            for template in FORMS
            if template.parent.name == "ISSUE_TEMPLATE"
        ]
        self.assertTrue(forms)
        for template in forms:
            with self.subTest(template["name"]):
                self.assertTrue(template["description"])
                required = [
                    field
                    for field in template["body"]
                    if field.get("validations", {}).get("required")
                ]
                self.assertTrue(required)
                asked = [field["id"] for field in template["body"] if "id" in field]
                self.assertEqual(len(asked), len(set(asked)))


if __name__ == "__main__":
    unittest.main()
