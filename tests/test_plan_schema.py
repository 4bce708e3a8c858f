"""share/plan.schema.json is made from the reader of plans, and takes the plans that the reader
takes, value by value."""
import copy
import importlib
import json
import re
import unittest
from collections.abc import Iterator
from typing import Any

from bg_switch_tools.controller.plan.plan_kinds import names_of
from bg_switch_tools.controller.plan.plan_reader import KEYS, PlanError, read_plan
from tests.test_plan import GOOD
from tests.tool_runs import TOP
from tools import plan_schema

MEND = "run tools/plan_schema.py --write"
LEAST_VALUES = 200
Value = Any  # of JSON


def is_taken(plan: Value) -> bool:
    """Whether the reader takes a plan."""
    try:
        read_plan(json.dumps(plan).encode())
        return True
    except PlanError:
        return False


def library() -> Any:
    """python3-jsonschema, or None if it is not installed."""
    try:
        return importlib.import_module("jsonschema")
    except ImportError:
        return None


def validator() -> Any:
    """What judges plans by the schema."""
    jsonschema = library()
    schema = json.loads(plan_schema.FILE.read_text(encoding="utf-8"))
    jsonschema.Draft7Validator.check_schema(schema)
    return jsonschema.Draft7Validator(schema)


def numbers_at_the_limits(schema: Value) -> Iterator[Value]:
    """Numbers at and beside the limits of a schema."""
    for limit in (schema["minimum"], schema["maximum"]):
        step = 1 if schema["type"] == "integer" else 0.01
        yield from (limit, limit - step, limit + step)


def other_values(schema: Value) -> Iterator[Value]:
    """Values of each type, and those at the limits of a schema."""
    yield from (
        None,
        True,
        7,
        1.5,
        -1,
        "",
        "text",
        "/a b",
        "/a\n",
        "/up",
        "a" * 64,
        [],
        [""],
        ["a", 1],
        ["a", ""],
        ["a\0"],
        {},
        {"x": 1},
    )
    if "anyOf" in schema:
        named: Value = {"name": "errors", "command": ["a"]}
        yield from ([named], [named, ["a"]], [named, "a"], ["a", named], [named, {}], [[named]])
        many = [{**named, "name": f"a{number}"} for number in range(17)]
        yield from (many, many[:16])
    if "minimum" in schema:
        yield from numbers_at_the_limits(schema)
    if schema.get("uniqueItems"):
        most = schema["maxItems"]
        yield from (
            [1, 1],
            [0, 1],
            [1, 65535],
            [1, 65536],
            list(range(1, most + 1)),
            list(range(1, most + 2)),
        )


def changed(plan: Value, schema: Value) -> Iterator[Value]:
    """A plan with one value changed, left out or added, at each place that the schema knows."""
    for each in schema.get("anyOf", ()):
        if isinstance(plan[0], dict) is isinstance(each["items"], dict):
            yield from changed(plan, each)
    if "anyOf" in schema:
        return
    if schema["type"] == "object":
        for key, below in schema["properties"].items():
            for value in other_values(below):
                yield {**plan, key: value}
            if key in plan:
                yield {name: value for name, value in plan.items() if name != key}
                yield from ({**plan, key: value} for value in changed(plan[key], below))
        yield {**plan, "further": 1}
    elif schema["type"] == "array" and isinstance(schema["items"], dict):
        for place, one in enumerate(plan):
            for value in changed(one, schema["items"]):
                yield [*plan[:place], value, *plan[place + 1 :]]


def one_revision() -> Value:
    """A plan with each key and one revision, so that nothing has to fit another revision."""
    plan: dict[str, Value] = copy.deepcopy(dict(GOOD))
    plan.update(
        {
            "$schema": "plan.schema.json",
            "analyses": {
                "pre": ["a"],
                "post": [{"name": "errors", "command": ["b"]}],
                "seconds": 9,
            },
            "revisions": [{"name": "web-v1", "ports": [9101]}],
        }
    )
    return plan


class Schema(unittest.TestCase):
    def test_the_file_is_that_of_the_reader(self) -> None:
        self.assertEqual(plan_schema.FILE.read_text(encoding="utf-8"), plan_schema.text(), MEND)

    def test_each_key_has_a_description(self) -> None:
        schema: Value = plan_schema.schema()
        self.assertEqual(set(schema["properties"]), set(names_of(KEYS)))
        objects = [
            schema,
            *(each for each in schema["properties"].values() if each["type"] == "object"),
        ]
        self.assertTrue(
            all("description" in each for one in objects for each in one["properties"].values())
        )

    def test_a_plan_can_name_it(self) -> None:
        self.assertTrue(is_taken({**GOOD, "$schema": "/usr/share/bg-switch/plan.schema.json"}))
        for wrong in (7, None, ["a"]):
            self.assertFalse(is_taken({**GOOD, "$schema": wrong}))

    @unittest.skipIf(library() is None, "python3-jsonschema is not installed")
    def test_it_takes_what_the_reader_takes(self) -> None:
        judge, plans = validator(), list(changed(one_revision(), plan_schema.schema()))
        self.assertGreater(len(plans), LEAST_VALUES)
        self.assertTrue(judge.is_valid(one_revision()))
        verdicts = set()
        for plan in plans:
            taken = is_taken(plan)
            verdicts.add(taken)
            with self.subTest(plan=plan):
                self.assertEqual(judge.is_valid(plan), taken)
        self.assertEqual(verdicts, {True, False})

    @unittest.skipIf(library() is None, "python3-jsonschema is not installed")
    def test_it_takes_each_plan_of_the_examples(self) -> None:
        judge = validator()
        told = [path.read_text(encoding="utf-8") for path in TOP.glob("examples/**/plan.json")]
        told += re.findall(
            r"plan\.json << 'END'\n(\{.*?)\nEND\n",
            (TOP / "docs" / "OPERATING.md").read_text(encoding="utf-8"),
            re.S,
        )
        self.assertGreaterEqual(len(told), 2)
        for text in told:
            with self.subTest(text):
                self.assertTrue(judge.is_valid(json.loads(text)))
                self.assertTrue(is_taken(json.loads(text)))


class Page(unittest.TestCase):
    def test_it_has_the_table_of_the_keys(self) -> None:
        page = plan_schema.PAGE.read_text(encoding="utf-8")
        self.assertEqual(len(plan_schema.TABLE.findall(page)), 1)
        self.assertEqual(page, plan_schema.page_with(page, plan_schema.table()), MEND)

    def test_the_table_has_each_key_with_its_default(self) -> None:
        rows = [row.split(" | ") for row in plan_schema.table().splitlines()[2:]]
        told = {row[0].strip("| `"): row[-1].strip("| `") for row in rows}
        self.assertLessEqual(set(names_of(KEYS)), set(told))
        self.assertEqual(
            (
                told["control"],
                told["revisions[].ports"],
                told["health.failures"],
                told["progress.abort"],
                told["start"],
            ),
            ("needed", "needed", "2", "false", "-"),
        )

    def test_its_example_is_a_plan(self) -> None:
        found = re.findall(
            r"^```json\n(.*?)^```$", plan_schema.PAGE.read_text(encoding="utf-8"), re.M | re.S
        )
        self.assertEqual([is_taken(json.loads(text)) for text in found], [True])


if __name__ == "__main__":
    unittest.main()
