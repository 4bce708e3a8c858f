"""A plan is judged as a whole, with the place of each problem."""
import contextlib
import dataclasses
import importlib
import io
import json
import os
import pathlib
import tempfile
import time
import unittest
from collections.abc import Mapping
from typing import Any
from unittest import mock

from bg_switch_tools.controller import cli as controller_cli
from bg_switch_tools.controller.edits.plan_check import problems_of
from bg_switch_tools.controller.edits.plan_edit import deploy_by_plan
from bg_switch_tools.controller.plan import plan_text
from bg_switch_tools.controller.plan.plan import (
    Commands,
    Health,
    Plan,
    PlannedAnalysis,
    PlannedRevision,
    Progress,
)
from bg_switch_tools.controller.plan.plan_file import PlanFile
from bg_switch_tools.controller.plan.plan_kinds import Schema, names_of
from bg_switch_tools.controller.plan.plan_limits import missing_commands
from bg_switch_tools.controller.plan.plan_reader import (
    COMMANDS,
    PLAN_SCHEMA,
    PlanError,
    read_plan,
)

WHOLE_SCHEMA: Any = PLAN_SCHEMA
SCHEMAS = WHOLE_SCHEMA["properties"]  # by the keys of a plan
GOOD: dict[str, object] = {
    "control": 8082,
    "health": {"path": "/up?deep=1", "interval": 0.5, "timeout": 1, "failures": 3},
    "analyses": {"pre": ["./smoke_test.sh", "8081"], "seconds": 60},
    "progress": {"seconds": 30, "abort": True, "outage": 3},
    "redispatch": False,
    "active": 8080,
    "preview": 8081,
    "start": ["systemctl", "start", "web@{port}"],
    "stop": ["true"],
    "notify": ["./tell"],
    "timeout": 20,
    "revisions": [
        {"name": "web-v1", "ports": [9101, 9102]},
        {"name": "web-v2", "ports": [9201, 9202]},
    ],
}


def problems(told: object) -> list[str]:
    """What is wrong with a plan of this value, or this text."""
    text = told if isinstance(told, str) else json.dumps(told)
    try:
        read_plan(text.encode())
        return []
    except PlanError as wrong:
        return wrong.problems


def with_keys(**members: object) -> dict[str, object]:
    """The good plan with other values of these keys."""
    told = dict(GOOD)
    told.update(members)
    return told


def with_revision(name: object = "web-v2", ports: object = (1, 2)) -> object:
    """The good plan with another second revision."""
    return with_keys(
        revisions=[{"name": "web-v1", "ports": [9101, 9102]}, {"name": name, "ports": ports}]
    )


def named(name: str, *words: str) -> dict[str, object]:
    return {"name": name, "command": list(words)}


class Good(unittest.TestCase):
    def test_every_value(self) -> None:
        plan = read_plan(json.dumps(GOOD).encode())
        self.assertEqual(
            (plan.control, plan.health, plan.progress),
            (8082, Health("/up?deep=1", 0.5, 1, 3), Progress(30, True, 3)),
        )
        self.assertEqual(
            (plan.commands, plan.redispatch, plan.services),
            (
                Commands(("systemctl", "start", "web@{port}"), ("true",), ("./tell",), 20),
                False,
                {"active": 8080, "preview": 8081},
            ),
        )
        self.assertEqual(
            (plan.analyses.commands, plan.analyses.seconds),
            ({"pre": (PlannedAnalysis(("./smoke_test.sh", "8081")),)}, 60),
        )
        self.assertEqual(
            (plan.first, plan.last),
            (PlannedRevision("web-v1", (9101, 9102)), PlannedRevision("web-v2", (9201, 9202))),
        )
        self.assertEqual(plan.last.words, "web-v2 9201 9202")
        self.assertEqual((plan.named("web-v1"), plan.named("web-v3")), (plan.first, None))

    def test_what_is_left_out(self) -> None:
        plan = read_plan(b'{"control": 1, "revisions": [{"name": "a", "ports": [65535]}]}')
        self.assertEqual(
            (plan.health, plan.progress), (Health("/", 2, 2, 2), Progress(600, False, 5))
        )
        self.assertEqual(
            (plan.commands, plan.redispatch, plan.services), (Commands((), (), (), 60), True, {})
        )
        self.assertEqual((plan.analyses.commands, plan.analyses.seconds), ({}, 600))
        self.assertIs(plan.first, plan.last)
        self.assertEqual(plan.endpoint_address, "127.0.0.1")

    def test_the_address_of_the_endpoints(self) -> None:
        for told, address in (
            ("127.0.0.2", "127.0.0.2"),
            ("FD00:0::2", "fd00::2"),
            ("::ffff:192.0.2.1", "192.0.2.1"),
        ):
            plan = read_plan(json.dumps(with_keys(endpoint_address=told)).encode())
            self.assertEqual(plan.endpoint_address, address)

    def test_ports_of_the_switch_at_another_address(self) -> None:
        """They are no ports of the switch there, whose own still differ."""
        revisions = [{"name": "web-v1", "ports": [8080, 8082]}]
        self.assertEqual(problems(with_keys(endpoint_address="127.0.0.2", revisions=revisions)), [])
        self.assertEqual(
            problems(with_keys(endpoint_address="127.0.0.2", preview=8080, revisions=revisions)),
            ["preview: 8080 is already at active"],
        )
        self.assertEqual(len(problems(with_keys(revisions=revisions))), 2)

    def test_what_is_no_address_of_endpoints(self) -> None:
        for told, problem in (
            ("localhost", '"localhost" is not an IPv4 or IPv6 address'),
            ("127.0.0.1:80", '"127.0.0.1:80" is not an IPv4 or IPv6 address'),
            ("fe80::1%lo", '"fe80::1%lo" is not an IPv4 or IPv6 address'),
            ("127.1", '"127.1" is not an IPv4 or IPv6 address'),
            (2130706433, "2130706433 is not an IPv4 or IPv6 address"),
            ("0.0.0.0", 'no connection can be opened to "0.0.0.0"'),
            ("::", 'no connection can be opened to "::"'),
        ):
            self.assertEqual(
                problems(with_keys(endpoint_address=told)), [f"endpoint_address: {problem}"]
            )


def another(schema: Mapping[str, Any]) -> object:
    """A value that a schema takes, and that is not its default."""
    if schema["type"] == "boolean":
        return not schema["default"]
    if schema["type"] == "string":
        return "/another"
    return schema["maximum"] if "maximum" in schema else ["another", "word"]


class EachKey(unittest.TestCase):
    """A key gives the field of its name, and the fields without a key have their defaults."""

    def read(self, **members: object) -> Plan:
        needed = {name: GOOD[name] for name in ("control", "revisions")}
        return read_plan(json.dumps({**needed, **members}).encode())

    def check(self, got: object, plain: Any, name: str, value: object, schema: Schema) -> None:
        """That this value is that of the field `name`, and differs from the default."""
        field = tuple(value) if isinstance(value, list) else value
        self.assertEqual(got, dataclasses.replace(plain, **{name: field}))
        self.assertNotEqual(got, plain)
        self.assertEqual(getattr(plain, name), schema.get("default", ()))

    def test_of_objects(self) -> None:
        for key, plain in (("health", Health()), ("progress", Progress())):
            schemas = SCHEMAS[key]["properties"]
            self.assertEqual(set(schemas), set(vars(plain)))
            for name, schema in schemas.items():
                with self.subTest(f"{key}.{name}"):
                    value = another(schema)
                    got = getattr(self.read(**{key: {name: value}}), key)
                    self.check(got, plain, name, value, schema)

    def test_of_commands(self) -> None:
        self.assertEqual(set(names_of(COMMANDS)), set(vars(Commands())))
        for key in COMMANDS:
            with self.subTest(key.name):
                schema = key.schema()
                value = another(schema)
                got = self.read(**{key.name: value}).commands
                self.check(got, Commands(), key.name, value, schema)


class SeveralAnalyses(unittest.TestCase):
    """A list of analyses in the place of a command."""

    def problems(self, *told: object, seconds: float = 60) -> list[str]:
        return problems(with_keys(analyses={"post": list(told), "seconds": seconds}))

    def test_a_list_with_names(self) -> None:
        told = {"post": [named("errors", "a", "b"), named("latency", "c")], "pre": ["d", "e"]}
        plan = read_plan(json.dumps(with_keys(analyses=told)).encode())
        self.assertEqual(
            plan.analyses.commands,
            {
                "pre": (PlannedAnalysis(("d", "e")),),
                "post": (
                    PlannedAnalysis(("a", "b"), "errors"),
                    PlannedAnalysis(("c",), "latency"),
                ),
            },
        )

    def test_what_is_no_list_of_analyses(self) -> None:
        place, word = "analyses.post", 'a list of words, such as ["./smoke_test.sh", "8081"]'
        cases: tuple[tuple[list[object], str], ...] = (
            ([], f"{place}: [] is not {word}"),
            (
                [named("a", "x"), named("a", "y")],
                f'{place}[1].name: "a" is already at {place}[0].name',
            ),
            ([named("a", "x"), "y"], f'{place}[1]: "y" is not an object'),
            ([{"name": "a"}], f"{place}[0].command: is missing"),
            ([{"command": ["x"]}], f"{place}[0].name: is missing"),
            ([dict(named("a", "x"), sconds=1)], f"{place}[0].sconds: there is no such key; "),
            ([named("a")], f"{place}[0].command: [] is not {word}"),
            ([named("A b", "x")], f'{place}[0].name: "A b" is not a name: '),
        )
        for told, expected in cases:
            self.assertEqual(
                [problem.startswith(expected) for problem in self.problems(*told)], [True], told
            )

    def test_how_many_there_may_be(self) -> None:
        many = [named(f"a{number}", "x") for number in range(17)]
        self.assertEqual(self.problems(*many[:16]), [])
        self.assertEqual(
            self.problems(*many), ["analyses.post: it is not a list of 1 to 16 analyses"]
        )

    def test_check_judges_each_of_them(self) -> None:
        tool = ("bg-analysis", "--log", "x", "--errors-at-most", "1%")
        self.assertEqual(
            self.problems(
                named("a", *tool, "--seconds", "9"), named("b", *tool, "--seconds", "60")
            ),
            [
                "analyses.post[1].command: --seconds 60 is not below analyses.seconds, 60: the analysis would be stopped before its end"
            ],
        )
        told = [named("a", "sh"), named("b", "bin/analysis", "--log", "x", "--seconds", "9")]
        plan = read_plan(json.dumps(with_keys(analyses={"post": told})).encode())
        place = "analyses.post[1].command"
        self.assertEqual(
            [each for each in problems_of("/none/plan.json", plan, None) if "analyses" in each],
            [
                f"{place}[0]: there is no program bin/analysis that can be run",
                f"{place}: a limit is needed: --errors-at-most, --p99-at-most or both",
            ],
        )


class Complaints(unittest.TestCase):
    """Plans that were taken, and stood in the way later."""

    def test_a_command_that_is_one_text(self) -> None:
        self.assertEqual(
            problems(with_keys(analyses={"pre": "./smoke.sh 21081"})),
            [
                'analyses.pre: "./smoke.sh 21081" is not a list of words, such as ["./smoke.sh", "21081"]'
            ],
        )

    def test_a_name_with_a_letter_outside_ascii(self) -> None:
        [problem] = problems(with_revision(name="web-é"))
        self.assertTrue(
            problem.startswith(
                'revisions[1].name: "web-\\u00e9" is not a name: a name is 1 to 63 lower-case'
            ),
            problem,
        )

    def test_an_unknown_key(self) -> None:
        self.assertEqual(
            problems(with_keys(analysis={})),
            ["analysis: there is no such key; the nearest is analyses"],
        )
        [problem] = problems(with_keys(health={"retries": 1}))
        self.assertEqual(
            problem.split("those that can stand there are ")[0],
            "health.retries: there is no such key; ",
        )
        self.assertEqual(
            problem.split(" are ")[1].split(", "), list(SCHEMAS["health"]["properties"])
        )

    def test_a_name_with_a_line_end(self) -> None:
        for name in ("web-v6\nabort", "web-v6\n", "web-v6\r", "web v6", "web-v6 1 2"):
            with self.subTest(name=name):
                self.assertEqual(
                    [problem[:20] for problem in problems(with_revision(name=name))],
                    ['revisions[1].name: "'],
                )

    def test_a_port_above_the_greatest(self) -> None:
        self.assertEqual(
            problems(with_revision(ports=[70000, 2])),
            ["revisions[1].ports[0]: 70000 is above 65535"],
        )


class Judged(unittest.TestCase):
    def test_all_problems_at_once(self) -> None:
        self.assertEqual(
            problems(
                {
                    "control": "8082",
                    "helth": {},
                    "analyses": {"post": []},
                    "progress": {"abort": 1},
                    "revisions": [
                        {"name": "a", "ports": [0, 1.5]},
                        {"name": "a", "ports": [7, 7, 9]},
                        {"port": [1]},
                        3,
                    ],
                }
            ),
            [
                "helth: there is no such key; the nearest is health",
                'control: "8082" is not a number',
                'analyses.post: [] is not a list of words, such as ["./smoke_test.sh", "8081"]',
                "progress.abort: 1 is neither true nor false",
                "revisions[0].ports[0]: 0 is below 1",
                "revisions[0].ports[1]: 1.5 is not a whole number",
                "revisions[1].ports[1]: 7 is already at revisions[1].ports[0]",
                "revisions[2].port: there is no such key; the nearest is ports",
                "revisions[2].name: is missing",
                "revisions[2].ports: is missing",
                "revisions[3]: 3 is not an object",
                'revisions[1].name: "a" is already at revisions[0].name',
                "revisions[1].ports: has 3, and revisions[0].ports has 2: each revision has one port for each replica",
            ],
        )

    def test_names(self) -> None:
        for name in ("a", "0", "a-b", "a" * 63):
            self.assertEqual(problems(with_revision(name=name)), [])
        for wrong in ("", "-a", "a-", "A", "a.b", "a" * 64, 7, None, True):
            with self.subTest(name=wrong):
                self.assertEqual(len(problems(with_revision(name=wrong))), 1)

    def test_ports(self) -> None:
        for wrong in (
            "9201 9202",
            [],
            None,
            [True, 2],
            [1, "2"],
            [-1, 2],
            [1, 65536],
            [1, None],
            list(range(1, 66)),
        ):
            with self.subTest(ports=wrong):
                self.assertGreaterEqual(len(problems(with_revision(ports=wrong))), 1)

    def test_numbers(self) -> None:
        for key, wrong in (
            ("interval", 0),
            ("interval", True),
            ("timeout", -1),
            ("timeout", "2"),
            ("timeout", 1e9),
            ("failures", 0),
            ("failures", 2.0),
            ("failures", None),
            ("path", "up"),
            ("path", "/ HTTP/1.1\r\nX: y"),
            ("path", 3),
        ):
            with self.subTest(key=key, value=wrong):
                [problem] = problems(with_keys(health={key: wrong}))
                self.assertTrue(problem.startswith(f"health.{key}: "), problem)

    def test_commands(self) -> None:
        for wrong in ([""], ["a\0b"], ["a", 1], {}, [], "", "unended 'text", ["\ud800"]):
            with self.subTest(command=wrong):
                [problem] = problems(with_keys(analyses={"pre": wrong}))
                self.assertTrue(problem.startswith("analyses.pre: "), problem)

    def test_what_is_no_object_of_json(self) -> None:
        self.assertEqual(problems("[]"), ["the plan: [] is not an object"])
        self.assertEqual(problems("{}"), ["control: is missing", "revisions: is missing"])
        for text in ("", "{", '{"control": NaN}', "[" * 100000, '{"control": ' + "9" * 5000 + "}"):
            with self.subTest(text=text[:20]):
                [problem] = problems(text)
                self.assertTrue(problem.startswith("it is not JSON: "), problem)
        self.assertEqual(problems(" " * 2**20 + "{}"), ["it has more than 1048576 bytes"])
        with self.assertRaisesRegex(PlanError, "it is not JSON"):
            read_plan(b'{"control": 1, "\xff": 2}')

    def test_a_key_that_stands_twice(self) -> None:
        self.assertEqual(
            problems('{"control": 1, "control": 2, "revisions": [{"name": "a", "ports": [1]}]}'),
            ["control: is there more than once"],
        )

    def test_a_large_plan_is_judged_soon(self) -> None:
        text, begun = (
            json.dumps({"control": {str(number): 0 for number in range(30000)}}),
            time.process_time(),
        )
        self.assertEqual(len(problems(text)), 2)
        self.assertLess(time.process_time() - begun, 10)

    def test_a_file_without_end(self) -> None:
        with self.assertRaisesRegex(PlanError, "it has more than 1048576 bytes"):
            PlanFile("/dev/zero").read()

    def test_no_problem_holds_more_than_a_line(self) -> None:
        for wrong in (
            {"x\ny": 1},
            with_keys(control="a\nb"),
            with_revision(name="x" * 100000),
            {"\u2028" * 9999: 1},
        ):
            for problem in problems(wrong):
                self.assertTrue(problem.isprintable() and len(problem) < 400, problem)


def with_post(*words: str, seconds: float = 60) -> dict[str, object]:
    """The good plan with this analysis after the switch."""
    return with_keys(analyses={"post": list(words), "seconds": seconds})


class Contradictions(unittest.TestCase):
    """Plans that `check` took, and that could not work."""

    def test_two_revisions_with_one_port(self) -> None:
        self.assertEqual(
            problems(with_revision(ports=[9103, 9101])),
            [
                "revisions[1].ports[1]: 9101 is already at revisions[0].ports[0]: an endpoint serves one revision"
            ],
        )

    def test_a_control_socket(self) -> None:
        self.assertEqual(
            read_plan(json.dumps(with_keys(control="/run/bg-switch/control")).encode()).control,
            "/run/bg-switch/control",
        )
        for path in ("run/control", "./control", "/a\n", "/ä", "/" + "a" * 107):
            told = problems(with_keys(control=path))
            self.assertEqual(len(told), 1)
            self.assertIn("is not the absolute path of a socket", told[0])
        self.assertEqual(problems(with_keys(control="/" + "a" * 106)), [])

    def test_a_port_of_the_switch_itself(self) -> None:
        for port, key in ((8080, "active"), (8081, "preview"), (8082, "control")):
            self.assertEqual(
                problems(with_revision(ports=[9201, port])),
                [f"revisions[1].ports[1]: {port} is a port of the switch itself, as {key} says"],
            )
        self.assertEqual(problems(with_keys(active=8082)), ["active: 8082 is already at control"])

    def test_limits_that_no_analysis_can_keep(self) -> None:
        tool = (
            "/usr/local/bin/bg_switch_tools.pyz",
            "analysis",
            "--log",
            "x",
            "--errors-at-most",
            "1%",
        )
        self.assertEqual(
            problems(with_post(*tool, "--seconds", "60")),
            [
                "analyses.post: --seconds 60 is not below analyses.seconds, 60: the analysis would be stopped before its end"
            ],
        )
        self.assertEqual(
            problems(with_post("bin/analysis", "--seconds=9", "--every", "10")),
            ["analyses.post: --every 10 is above --seconds 9: nothing is measured before the end"],
        )
        self.assertEqual(problems(with_post(*tool, "--seconds", "59", "--every", "59")), [])
        self.assertEqual(
            problems(with_post("./smoke.sh", "--seconds", "600")), [], "another program"
        )

    def test_each_analysis_that_the_pages_and_the_package_use(self) -> None:
        for tool in (
            ("/usr/bin/bg-analysis",),
            ("bg-analysis",),
            ("bgctl", "analysis"),
            ("/x/bin/analysis",),
            ("/usr/bin/python3", "-B", "/usr/share/bg-switch/bg_switch_tools.pyz", "analysis"),
            ("nice", "-n", "5", "bg-analysis"),
        ):
            for seconds in ("10m", "60s", "1m", "61"):
                self.assertEqual(
                    len(
                        problems(
                            with_post(
                                *tool, "--log", "x", "--seconds", seconds, "--errors-at-most", "1%"
                            )
                        )
                    ),
                    1,
                    tool,
                )
        tool = (
            "/usr/bin/bg-analysis",
            "--prometheus",
            "http://127.0.0.1:9090",
            "--query",
            "up",
            "--at-most",
            "1%",
        )
        self.assertEqual(
            problems(
                with_post(*tool, "--interval", "10s", "--count", "5", "--initial-delay", "20s")
            ),
            [
                "analyses.post: --count 5 with --interval 10 and --initial-delay 20 takes 60 seconds, which is not below analyses.seconds, 60: the "
                "analysis would be stopped before its end"
            ],
        )
        self.assertEqual(
            problems(with_post(*tool, "--seconds", "50", "--initial-delay", "10")),
            [
                "analyses.post: --seconds 50 after --initial-delay 10 is not below analyses.seconds, 60: the analysis would be stopped before "
                "its end"
            ],
        )
        for good in (
            ("--interval=10s", "--count", "5", "--initial-delay", "19"),
            ("--count", "12"),
            ("--seconds", "59s"),
        ):
            self.assertEqual(problems(with_post(*tool, *good)), [])
        self.assertEqual(
            problems(with_post("bin/analysis", "--seconds", "9", "--interval", "10")),
            ["analyses.post: --every 10 is above --seconds 9: nothing is measured before the end"],
        )
        self.assertEqual(
            problems(with_post("./smoke.sh", "analysis.log", "--seconds", "600")),
            [],
            "another program",
        )

    def test_words_by_which_an_analysis_would_end_at_once(self) -> None:
        """Its status would be 2: the verdict is `error`, and a good revision goes back."""
        words = ("bin/analysis", "--log", "x", "--seconds", "9")
        for wrong, fault in (
            (words, "a limit is needed: --errors-at-most, --p99-at-most or both"),
            (words[:1], "one of the arguments --log " "--prometheus is required"),
            ((*words, "--errors-at-most", "x"), "argument --errors-at-most: "),
            (
                (*words, "--errors-at-most", "1%", "--sconds", "1"),
                "unrecognized arguments: --sconds 1",
            ),
            (
                ("bgctl", "analysis", *words[1:], "--errors-at-most", "1%", "--query", "up"),
                "--query belongs to --prometheus",
            ),
        ):
            self.assertEqual(
                [problem.startswith(f"analyses.post: {fault}") for problem in self.checked(*wrong)],
                [True],
                self.checked(*wrong),
            )
        self.assertEqual(self.checked(*words, "--errors-at-most", "1%"), [])

    def checked(self, *words: str) -> list[str]:
        """What `check` finds beside commands that are not there."""
        plan = read_plan(json.dumps(with_post(*words)).encode())
        return [
            problem
            for problem in problems_of("/none/plan.json", plan, None)
            if "there is no program" not in problem
        ]

    def test_commands_that_are_not_there(self) -> None:
        with tempfile.TemporaryDirectory() as folder:
            script = pathlib.Path(folder, "smoke_test.sh")
            told = with_keys(
                analyses={"pre": ["./smoke_test.sh"], "post": ["no-such-program-anywhere"]},
                start=["/no/such"],
                stop=["sh", "-c", "x"],
                notify=["./{revision}"],
            )
            plan = read_plan(json.dumps(told).encode())
            expected = {
                "analyses.pre[0]: there is no program ./smoke_test.sh that can be run",
                "analyses.post[0]: there is no program no-such-program-anywhere that can be run",
                "start[0]: there is no program /no/such that can be run",
            }
            self.assertEqual(set(missing_commands(plan, folder)), expected)
            path = os.path.join(folder, "plan.json")
            pathlib.Path(path).write_text(json.dumps(told), encoding="ascii")
            with contextlib.redirect_stdout(io.StringIO()) as printed:
                self.assertEqual(controller_cli.main(["check", path]), 1)
            self.assertEqual(set(printed.getvalue().splitlines()), expected)
            script.touch()
            self.assertEqual(set(missing_commands(plan, folder)), expected, "it is no program yet")
            script.chmod(0o755)
            self.assertEqual(len(missing_commands(plan, folder)), 2)


YAML = b"""# a plan
control: 8082
health: {path: /up, interval: 0.5}
revisions:
- name: web-v1
  ports: [9101, 9102]
- {name: "web-v2", ports: [9201, 9202]}
"""


def problem(text: bytes) -> str:
    """What is wrong with a plan of this text."""
    try:
        read_plan(text)
        return ""
    except PlanError as wrong:
        return "; ".join(wrong.problems)


class Yaml(unittest.TestCase):
    def setUp(self) -> None:
        if plan_text._yaml() is None:
            self.skipTest("python3-yaml is not installed")

    def test_a_plan_in_yaml(self) -> None:
        plan = read_plan(YAML)
        self.assertEqual(
            (plan.control, plan.health.interval, [revision.words for revision in plan.revisions]),
            (8082, 0.5, ["web-v1 9101 9102", "web-v2 9201 9202"]),
        )

    def test_what_is_wrong_is_named_as_in_json(self) -> None:
        self.assertEqual(
            problem(YAML.replace(b"9102", b"70000")), "revisions[0].ports[1]: 70000 is above 65535"
        )
        self.assertEqual(problem(YAML + b"control: 1\n"), "control: is there more than once")
        self.assertEqual(
            problem(b"control: x: y"),
            "it is neither JSON nor YAML: mapping values are not allowed here in line 1",
        )
        self.assertIn(
            "a value that JSON does not have, of the type tag:yaml.org,2002:timestamp",
            problem(YAML + b"x: 2026-11-26\n"),
        )
        self.assertIn(
            "a value that JSON does not have", problem(b"x: !!python/object/apply:os.system [ls]")
        )
        self.assertIn("a key that is not a text", problem(YAML + b"7: x\n"))

    def test_no_text_grows(self) -> None:
        bomb = b"a: &a [x]\n" + b"".join(
            b"%c: &%c [*%c, *%c]\n" % (c + 1, c + 1, c, c) for c in range(97, 121)
        )
        self.assertIn("it has an alias", problem(bomb))
        self.assertIn("nested", problem(b"a: " + b"[" * 300 + b"]" * 300))

    def test_without_the_library(self) -> None:
        with mock.patch.object(importlib, "import_module", side_effect=ImportError):
            self.assertIn("; YAML is read only where python3-yaml is installed", problem(YAML))
            self.assertEqual(problem(json.dumps(GOOD).encode()), "")


class Edits(unittest.TestCase):
    def setUp(self) -> None:
        folder = tempfile.TemporaryDirectory()
        self.addCleanup(folder.cleanup)
        self.path = os.path.join(folder.name, "plan.json")
        pathlib.Path(self.path).write_text(json.dumps(GOOD), encoding="ascii")

    def plan(self) -> list[str]:
        return [
            revision.words for revision in read_plan(pathlib.Path(self.path).read_bytes()).revisions
        ]

    def test_a_deploy(self) -> None:
        self.assertEqual(
            deploy_by_plan(self.path, "web-v3", [1, 2]),
            f"web-v3 is the last revision of {self.path}",
        )
        self.assertEqual(self.plan(), ["web-v1 9101 9102", "web-v2 9201 9202", "web-v3 1 2"])
        deploy_by_plan(self.path, "web-v1", [9101, 9102])
        self.assertEqual(self.plan(), ["web-v2 9201 9202", "web-v3 1 2", "web-v1 9101 9102"])
        self.assertIn("already", deploy_by_plan(self.path, "web-v1", [9101, 9102]))
        self.assertEqual(
            read_plan(pathlib.Path(self.path).read_bytes()).health, Health("/up?deep=1", 0.5, 1, 3)
        )

    def test_what_is_refused_changes_nothing(self) -> None:
        before = pathlib.Path(self.path).read_bytes()
        for name, ports in (
            ("web-v3", [9101, 2]),
            ("Web", [1, 2]),
            ("web-v3", [1]),
            ("web-v3", [0, 1]),
        ):
            with self.subTest(name=name, ports=ports), self.assertRaises(PlanError):
                deploy_by_plan(self.path, name, ports)
        self.assertEqual(pathlib.Path(self.path).read_bytes(), before)

    def test_what_is_wrong_is_told(self) -> None:
        with contextlib.redirect_stderr(io.StringIO()) as told:
            self.assertEqual(controller_cli.main(["deploy", self.path, "web-v3", "9101", "x"]), 1)
        self.assertEqual(
            told.getvalue().splitlines(),
            [
                f"controller: {self.path} stays as it is, since with web-v3 it would not be a plan:",
                "  revisions[2].ports[1]: 0 is below 1",
                "  revisions[2].ports[0]: 9101 is already at revisions[0].ports[0]: an endpoint serves one revision",
            ],
        )

    def test_comments_of_yaml_are_not_lost(self) -> None:
        if plan_text._yaml() is None:
            self.skipTest("python3-yaml is not installed")
        pathlib.Path(self.path).write_bytes(YAML)
        with self.assertRaisesRegex(PlanError, "it is YAML, whose comments this edit would lose"):
            deploy_by_plan(self.path, "web-v3", [1, 2])
        self.assertEqual(pathlib.Path(self.path).read_bytes(), YAML)

    def test_the_oldest_goes_where_there_are_too_many(self) -> None:
        revisions = [
            {"name": f"web-v{number}", "ports": [2 * number, 2 * number + 1]}
            for number in range(1, 65)
        ]
        pathlib.Path(self.path).write_text(
            json.dumps(with_keys(revisions=revisions)), encoding="ascii"
        )
        deploy_by_plan(self.path, "web-v65", [3001, 3002])
        self.assertEqual(
            (len(self.plan()), self.plan()[0], self.plan()[-1]),
            (64, "web-v2 4 5", "web-v65 3001 3002"),
        )


if __name__ == "__main__":
    unittest.main()
