"""A fleet file is judged as a whole, with the place of each problem, and its JSON schema takes what
its reader takes."""
import json
import os
import pathlib
import re
import tempfile
import unittest
from collections.abc import Iterator
from typing import Any

from bg_switch_tools.controller.plan.plan_kinds import names_of
from bg_switch_tools.controller.plan.plan_reader import COMMANDS, read_plan
from bg_switch_tools.fleet.plan.fleet_file import (
    KEYS,
    MOST_ENDPOINTS,
    FleetFile,
    FleetFileError,
    missing_files,
    read_fleet_file,
    read_whole_fleet_file,
)
from bg_switch_tools.fleet.plan.fleet_plan import MachineSettings
from bg_switch_tools.fleet.store.etcd_gateway import EtcdSettings
from bg_switch_tools.fleet.store.store_endpoints import StoreEndpoint
from bg_switch_tools.fleet.store.tls_files import TlsFiles
from tests.test_plan import GOOD as PLAN
from tests.test_plan_schema import library, other_values
from tests.tool_runs import TOP
from tools import fleet_schema

GOOD: dict[str, object] = {
    "fleet": "web",
    "host": "web-3",
    "control": 8082,
    "active": 8080,
    "preview": 8081,
    "rollout": "rollout.json",
    "etcd": ["10.0.0.1:2379", "store-2.example:2379", "[fd00::3]:2379"],
    "tls": {"ca": "ca.pem", "certificate": "/etc/bg/web-3.pem", "key": "web-3.key"},
    "user": "agent",
    "password_file": "password",
    "timeout_seconds": 1.5,
    "analyses": {"smoke": ["./smoke_test.sh", "8081"], "log": ["bg-analysis"]},
    # the commands of a machine are those of a plan
    **{name: PLAN[name] for name in names_of(COMMANDS) if name in PLAN},
}
FOLDER = "/etc/bg"
LEAST_VALUES = 300
Value = Any  # of JSON


def problems(told: object) -> list[str]:
    """What is wrong with a fleet file of this value, or this text."""
    text = told if isinstance(told, str) else json.dumps(told)
    try:
        read_fleet_file(text.encode(), FOLDER)
        return []
    except FleetFileError as wrong:
        return wrong.problems


def with_keys(**members: object) -> dict[str, object]:
    """The good file with other values of these keys."""
    return {**GOOD, **members}


def without(*keys: str) -> dict[str, object]:
    return {key: value for key, value in GOOD.items() if key not in keys}


class Good(unittest.TestCase):
    def test_every_value(self) -> None:
        etcd = EtcdSettings(
            (
                StoreEndpoint("10.0.0.1", 2379),
                StoreEndpoint("store-2.example", 2379),
                StoreEndpoint("fd00::3", 2379),
            ),
            TlsFiles("/etc/bg/ca.pem", "/etc/bg/web-3.pem", "/etc/bg/web-3.key"),
            "agent",
            "/etc/bg/password",
            1.5,
        )
        machine = MachineSettings(
            8082,
            {"smoke": ("./smoke_test.sh", "8081"), "log": ("bg-analysis",)},
            read_plan(json.dumps(PLAN).encode()).commands,
            {"active": 8080, "preview": 8081},
            "/etc/bg/rollout.json",
        )
        self.assertEqual(
            read_fleet_file(json.dumps(GOOD).encode(), FOLDER),
            FleetFile("web", etcd, FOLDER, "web-3", machine),
        )

    def test_what_is_left_out(self) -> None:
        told = read_fleet_file(
            b'{"fleet": "web", "host": "a", "control": 1, "etcd": ["a:1"]}', FOLDER
        )
        self.assertEqual(
            told,
            FleetFile(
                "web",
                EtcdSettings((StoreEndpoint("a", 1),), None, "", "", 2.0),
                FOLDER,
                "a",
                MachineSettings(1),
            ),
        )

    def test_a_file_for_people_alone(self) -> None:
        told = read_fleet_file(b'{"fleet": "web", "etcd": ["a:1"], "tls": {}}', FOLDER)
        self.assertEqual(
            told,
            FleetFile("web", EtcdSettings((StoreEndpoint("a", 1),), TlsFiles()), FOLDER, "", None),
        )

    def test_a_file_is_read_from_its_folder(self) -> None:
        with tempfile.TemporaryDirectory() as folder:
            path = pathlib.Path(folder, "fleet.json")
            path.write_text(json.dumps(GOOD), encoding="ascii")
            self.assertEqual(
                read_whole_fleet_file(str(path)).etcd.password_file,
                os.path.join(folder, "password"),
            )
            with self.assertRaises(FleetFileError) as raised:
                read_whole_fleet_file(os.path.join(folder, "absent"))
            self.assertEqual(
                raised.exception.problems, ["it can't be read: No such file or directory"]
            )

    def test_the_file_of_the_page(self) -> None:
        whole = (TOP / "docs" / "FLEET.md").read_text(encoding="utf-8")
        page = whole.split("\n## The fleet file\n", 1)[1].split("\n## ", 1)[0]
        [text] = re.findall(r"```json\n(\{.*?)\n```", page, re.S)
        told = read_fleet_file(text.encode(), FOLDER)
        self.assertEqual((told.fleet, told.host, told.etcd.timeout), ("web", "web-3", 2.0))
        rows = re.findall(r"^\| (`.*?) \|", page, re.M)
        self.assertEqual(
            {key for row in rows for key in re.findall(r"`(\w+)`", row)},
            set(KEYS) - {"$schema"},
            "the table has each key",
        )


class Problems(unittest.TestCase):
    def test_each_value(self) -> None:
        command = 'is not a list of words, such as ["./smoke_test.sh", "8081"]'
        name = "is not a name: a name is 1 to 63 lower-case letters, digits and hyphens, with no hyphen at its ends"
        endpoint = 'is not an endpoint, such as "10.0.0.1:2379" or "[fd00::1]:2379"'
        wrong: list[tuple[dict[str, object], str]] = [
            ({"fleet": "Web"}, f'fleet: "Web" {name}'),
            ({"fleet": "a/b"}, f'fleet: "a/b" {name}'),
            ({"host": ""}, f'host: "" {name}'),
            ({"control": 0}, "control: 0 is below 1"),
            (
                {"control": "run/control"},
                'control: "run/control" is not the absolute path of a socket: / and at most 106 further '
                "printable characters of ASCII",
            ),
            ({"active": 8082}, "active: 8082 is already at control"),
            ({"preview": 8080}, "preview: 8080 is already at active"),
            ({"etcd": []}, f"etcd: it is not a list of 1 to {MOST_ENDPOINTS} endpoints"),
            (
                {"etcd": "10.0.0.1:2379"},
                f"etcd: it is not a list of 1 to {MOST_ENDPOINTS} endpoints",
            ),
            (
                {"etcd": [f"a:{port}" for port in range(1, MOST_ENDPOINTS + 2)]},
                f"etcd: it is not a list of 1 to {MOST_ENDPOINTS} endpoints",
            ),
            ({"etcd": ["http://a:1"]}, f'etcd[0]: "http://a:1" {endpoint}'),
            ({"etcd": ["a:1", 7]}, f"etcd[1]: 7 {endpoint}"),
            ({"etcd": ["a"]}, f'etcd[0]: "a" {endpoint}'),
            ({"etcd": ["a:65536"]}, f'etcd[0]: "a:65536" {endpoint}'),
            ({"etcd": ["a:1", "a:1"]}, 'etcd[1]: "a:1" is already at etcd[0]'),
            ({"tls": True}, "tls: true is not an object"),
            ({"tls": {"ca": ""}}, 'tls.ca: "" is not the path of a file'),
            ({"tls": {"ca": "a\0"}}, 'tls.ca: "a\\u0000" is not the path of a file'),
            ({"tls": {"cert": "a"}}, "tls.cert: there is no such key; the nearest is certificate"),
            ({"tls": {"certificate": "a"}}, "tls.key: is missing, and certificate is there"),
            ({"tls": {"key": "a"}}, "tls.certificate: is missing, and key is there"),
            ({"user": ""}, 'user: "" is not the name of a user'),
            ({"user": "a\n"}, 'user: "a\\n" is not the name of a user'),
            ({"password_file": 5}, "password_file: 5 is not the path of a file"),
            ({"timeout_seconds": 0}, "timeout_seconds: 0 is below 0.1"),
            ({"timeout_seconds": 61}, "timeout_seconds: 61 is above 60"),
            ({"timeout_seconds": "2s"}, 'timeout_seconds: "2s" is not a number'),
            (
                {"analyses": []},
                'analyses: it is not an object of at most 64 commands, such as {"smoke": ["./smoke_test.sh"]}',
            ),
            ({"analyses": {"Smoke": ["a"]}}, f'analyses: "Smoke" {name}'),
            ({"analyses": {"smoke": []}}, f"analyses.smoke: [] {command}"),
            ({"start": []}, f"start: [] {command}"),
            ({"timeout": 0}, "timeout: 0 is below 0.1"),
            ({"$schema": 1}, "$schema: 1 is not a text"),
            ({"passwort": 1}, "passwort: there is no such key; the nearest is password_file"),
        ]
        for members, problem in wrong:
            with self.subTest(problem):
                self.assertEqual(problems(with_keys(**members)), [problem])

    def test_keys_that_are_missing(self) -> None:
        for keys, told in (
            (("fleet",), ["fleet: is missing"]),
            (("etcd",), ["etcd: is missing"]),
            (("user",), ["user: is missing, and password_file is there"]),
            (("password_file",), ["password_file: is missing, and user is there"]),
            (("host",), ["host: is missing, and control is there"]),
            (("control",), ["control: is missing, and host is there"]),
            (
                ("host", "control"),
                ["host: is missing, and so is control: the file has other keys of a machine"],
            ),
        ):
            with self.subTest(keys):
                self.assertEqual(problems(without(*keys)), told)

    def test_texts(self) -> None:
        self.assertEqual(problems("[1]"), ["the fleet file: [1] is not an object"])
        self.assertEqual(
            problems('{"fleet": "a", "fleet": "b", "etcd": ["a:1"]}'),
            ["fleet: is there more than once"],
        )
        twice = '{"fleet": "a", "etcd": ["a:1"], "host": "h", "control": 1, "analyses": {"x": ["a"], "x": ["b"]}}'
        self.assertEqual(problems(twice), ["analyses.x: is there more than once"])
        self.assertIn("it is not JSON", problems("{")[0])
        self.assertEqual(problems(" " * (1 << 20) + "{}"), ["it has more than 1048576 bytes"])

    def test_all_are_told(self) -> None:
        self.assertEqual(
            len(problems(with_keys(fleet=1, etcd=["a"], tls={"key": 1}, timeout=-1))), 5
        )


class Files(unittest.TestCase):
    def test_what_is_not_there(self) -> None:
        with tempfile.TemporaryDirectory() as folder:
            path = pathlib.Path(folder, "fleet.json")
            told = with_keys(
                tls={"ca": "fleet.json"},
                analyses={"smoke": ["./absent.sh"]},
                start=["true"],
                notify=["true"],
            )
            path.write_text(json.dumps(told), encoding="ascii")
            self.assertEqual(
                missing_files(read_whole_fleet_file(str(path))),
                [
                    "analyses.smoke[0]: there is no program ./absent.sh that can be run",
                    f"password_file: {os.path.join(folder, 'password')} can't be read",
                    f"rollout: {os.path.join(folder, 'rollout.json')} can't be read",
                ],
            )
            self.assertEqual(
                missing_files(read_fleet_file(b'{"fleet": "web", "etcd": ["a:1"]}', folder)), []
            )


def changed(file: Value, schema: Value) -> Iterator[Value]:
    """A fleet file with one value changed, left out or added."""
    for key, below in schema["properties"].items():
        for value in other_values(below):
            yield {**file, key: value}
        yield {name: value for name, value in file.items() if name != key}
    for key in ("ca", "certificate", "key"):
        for value in other_values(schema["properties"]["tls"]["properties"][key]):
            yield {**file, "tls": {**file["tls"], key: value}}
        yield {**file, "tls": {name: value for name, value in file["tls"].items() if name != key}}
    for value in (*other_values({}), "a:1", "[::1]:1", "a:1\n", "http://a:1"):
        yield {**file, "etcd": [value]}
        yield {**file, "analyses": {"smoke": value}}
    for name in ("A", "a_b", "-", "a-b", "a\n", "", "a" * 63, "a" * 64):
        yield {**file, "analyses": {name: ["true"]}}
    yield {**file, "etcd": ["a:1", "a:1"]}
    yield {**file, "etcd": [f"a:{port}" for port in range(1, MOST_ENDPOINTS + 2)]}
    yield {**file, "analyses": {f"a{number}": ["true"] for number in range(65)}}
    yield {key: file[key] for key in ("fleet", "etcd")}
    yield {key: value for key, value in file.items() if key not in ("host", "control")}


class Schema(unittest.TestCase):
    def test_the_file_is_that_of_the_reader(self) -> None:
        self.assertEqual(
            fleet_schema.FILE.read_text(encoding="utf-8"),
            fleet_schema.text(),
            "run tools/fleet_schema.py --write",
        )

    def test_each_key_has_a_description(self) -> None:
        schema: Value = fleet_schema.schema()
        self.assertEqual(set(schema["properties"]), set(KEYS))
        objects = [schema, schema["properties"]["tls"]]
        self.assertTrue(
            all("description" in each for one in objects for each in one["properties"].values())
        )

    @unittest.skipIf(library() is None, "python3-jsonschema is not installed")
    def test_it_takes_what_the_reader_takes(self) -> None:
        jsonschema = library()
        jsonschema.Draft7Validator.check_schema(fleet_schema.schema())
        judge = jsonschema.Draft7Validator(
            json.loads(fleet_schema.FILE.read_text(encoding="utf-8"))
        )
        file = with_keys(**{"$schema": "fleet.schema.json"})
        files, verdicts = list(changed(file, fleet_schema.schema())), set()
        self.assertGreater(len(files), LEAST_VALUES)
        self.assertTrue(judge.is_valid(file))
        for each in files:
            is_taken = problems(each) == []
            verdicts.add(is_taken)
            with self.subTest(file=each):
                self.assertEqual(judge.is_valid(each), is_taken, problems(each))
        self.assertEqual(verdicts, {True, False})


if __name__ == "__main__":
    unittest.main()
