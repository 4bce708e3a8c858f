"""The files of examples/fleet: the tools read the JSON files, the schema takes them, and HAProxy,
nginx, systemd and etcd take theirs."""
import contextlib
import importlib.util
import io
import json
import os
import pathlib
import re
import shutil
import subprocess
import tempfile
import unittest
from typing import Any
from unittest import mock

from bg_switch_tools.controller.edits.plan_edit import with_last
from bg_switch_tools.fleet.person.plan_change import plan_problems
from bg_switch_tools.fleet.plan.fleet_file import FleetFile, read_whole_fleet_file
from bg_switch_tools.fleet.plan.fleet_plan import (
    FleetPlan,
    machine_plan,
    missing_analyses,
    read_fleet_plan,
)
from bg_switch_tools.fleet.plan.rollout_settings import rollout_faults
from bg_switch_tools.fleet.store.etcd import EtcdStore
from bg_switch_tools.fleet.store.store import StoreError
from support.fleet.demonstration import (
    ACTIVE,
    MACHINES,
    PORTS,
    PREVIEW,
    Clients,
    missing_packages,
    place_of,
    placed,
)
from support.fleet.hosts import Address
from support.fleet.recording import Answered
from tests.fake_port import free_port
from tests.real_etcd import NO_OPENSSL, OPENSSL, Certificates
from tests.real_etcd import MISSING as NO_ETCD
from tests.real_etcd import PROGRAM as ETCD
from tests.test_plan_schema import library
from tests.tool_runs import TOP, WAIT, comes
from tools import fleet_schema

EXAMPLE = TOP / "examples" / "fleet"
PRODUCTION = TOP / "examples" / "production"
PLANS = ("plan-v1.json", "plan-v2.json", "plan-v3.json")
NAME = "web.example"
# Debian has these outside the path of users.
PLACES = os.pathsep.join((os.environ.get("PATH", ""), "/usr/sbin", "/sbin"))
MOST_EXPOSED = 1.9  # as tests/live/live_production.py has it for the other units


def text(name: str, folder: pathlib.Path = EXAMPLE) -> str:
    return (folder / name).read_text(encoding="ascii")


def told(name: str) -> Any:
    return json.loads(text(name))


def plan(name: str) -> FleetPlan:
    return read_fleet_plan(text(name))


def fleet_file(name: str) -> FleetFile:
    return read_whole_fleet_file(str(EXAMPLE / name))


def judged(*words: str) -> tuple[int, str]:
    """The status of a program that judges a file, and what it told."""
    done = subprocess.run(
        words,
        capture_output=True,
        text=True,
        timeout=WAIT,
        check=False,
        env={**os.environ, "PATH": PLACES},
    )
    return done.returncode, done.stderr


class Json(unittest.TestCase):
    def test_the_fleet_files(self) -> None:
        machine, person = fleet_file("fleet.json"), fleet_file("person.json")
        self.assertIn(machine.host, MACHINES)
        self.assertIsNone(person.machine)
        self.assertEqual(
            (machine.fleet, machine.etcd.endpoints), (person.fleet, person.etcd.endpoints)
        )
        self.assertNotEqual(machine.etcd.user, person.etcd.user)

    def test_the_schema_takes_the_fleet_files(self) -> None:
        jsonschema = library()
        if jsonschema is None:
            self.skipTest("python3-jsonschema is not installed")
        judge = jsonschema.Draft7Validator(
            json.loads(fleet_schema.FILE.read_text(encoding="utf-8"))
        )
        for name in ("fleet.json", "person.json"):
            with self.subTest(name):
                self.assertEqual([error.message for error in judge.iter_errors(told(name))], [])
        self.assertNotEqual(list(judge.iter_errors({**told("fleet.json"), "hosts": 1})), [])

    def test_the_plans_follow_one_another(self) -> None:
        plans = [plan(name) for name in PLANS]
        self.assertEqual([one.last.name for one in plans], ["web-v1", "web-v2", "web-v3"])
        self.assertEqual([one.by_hand for one in plans], [False, False, True])
        for before, after in zip(plans, plans[1:]):
            self.assertEqual(plan_problems(before, after, None), [])
            self.assertIn(before.last, after.revisions)
        self.assertEqual({one.last.name: one.last.ports for one in plans}, PORTS)

    def test_the_plans_fit_the_machine(self) -> None:
        machine = fleet_file("fleet.json").machine
        assert machine
        for name in PLANS:
            with self.subTest(name):
                self.assertEqual(missing_analyses(plan(name), machine), [])
                self.assertEqual(machine_plan(plan(name), machine).last, plan(name).last)
        scripts = {command[0] for command in machine.analyses.values()}
        for script in scripts:
            self.assertTrue(os.access(EXAMPLE / script, os.X_OK), script)
        self.assertEqual({command[1] for command in machine.analyses.values()}, {ACTIVE, PREVIEW})

    def test_the_rollout_fits_a_fleet(self) -> None:
        self.assertEqual(rollout_faults(text("rollout.json").encode(), has_pre=True), [])
        self.assertEqual(
            {len(ports) for ports in PORTS.values()}, {told("rollout.json")["spec"]["replicas"]}
        )

    def test_the_ports_and_the_socket_are_those_of_the_units(self) -> None:
        start = next(
            line
            for line in text("bg-switch.service", PRODUCTION).splitlines()
            if line.startswith("ExecStart=")
        )
        machine = told("fleet.json")
        for key, word in (
            ("active", "active"),
            ("preview", "preview"),
            ("control", "control-socket"),
        ):
            self.assertIn(f" --{word} {machine[key]} ", start)
        self.assertIn("\nStartLimitIntervalSec=0\n", text("bg-fleet.service").split("[Service]")[0])
        self.assertIn(" /etc/bg/fleet.json agent", text("bg-fleet.service"))

    def test_an_undo_of_the_last_plan_is_a_plan(self) -> None:
        last = told(PLANS[-1])
        self.assertEqual(
            read_fleet_plan(json.dumps(with_last(last, "web-v2", PORTS["web-v2"]))).last.name,
            "web-v2",
        )


class Page(unittest.TestCase):
    def test_the_readme_names_each_file(self) -> None:
        named = set(
            re.findall(
                r"^\| `([\w.-]+)` \|", (EXAMPLE / "README.md").read_text(encoding="utf-8"), re.M
            )
        )
        there = {path.name for path in EXAMPLE.iterdir() if path.is_file()} - {"README.md"}
        self.assertEqual(named, there)


def with_paths(given: str, folder: pathlib.Path) -> str:
    """A file of the example with the certificates of a folder."""
    return re.sub(r"/etc/(?:haproxy|etcd|ssl)/(\w+)\.(pem|key)", rf"{folder}/\1.\2", given)


class Programs(unittest.TestCase):
    folder: pathlib.Path

    @classmethod
    def setUpClass(cls) -> None:
        cls.folder = pathlib.Path(cls.enterClassContext(tempfile.TemporaryDirectory()))
        if OPENSSL:
            certificates = Certificates(cls.folder)
            for name in ("web", "server", "client"):
                certificates.sign(name, f"DNS:{NAME},IP:127.0.0.1", "/")
            both = cls.folder / "web.pem"  # HAProxy has a certificate and its key in one file
            both.write_bytes(both.read_bytes() + (cls.folder / "web.key").read_bytes())
            shutil.copy(cls.folder / "ca.pem", cls.folder / "machines.pem")

    def need(self, program: str) -> None:
        """Skips a test if a program, or openssl, is not installed."""
        if not shutil.which(program, path=PLACES):
            self.skipTest(f"{program} is not installed")
        if not OPENSSL:
            self.skipTest(NO_OPENSSL)

    def test_haproxy_takes_its_file(self) -> None:
        self.need("haproxy")
        path = self.folder / "haproxy.cfg"
        path.write_text(with_paths(text("haproxy.cfg"), self.folder), encoding="ascii")
        status, fault = judged("haproxy", "-c", "-q", "-f", str(path))
        self.assertEqual((status, fault), (0, ""))
        path.write_text(
            path.read_text(encoding="ascii").replace("balance roundrobin", "balance roundrobins"),
            encoding="ascii",
        )
        self.assertNotEqual(judged("haproxy", "-c", "-q", "-f", str(path))[0], 0)

    def test_nginx_takes_the_file_of_a_machine(self) -> None:
        """Beside those of a single machine."""
        self.need("nginx")
        (self.folder / "switch.conf").write_text(text("switch.conf", PRODUCTION), encoding="ascii")
        web = with_paths(text("web.conf", PRODUCTION), self.folder).replace(
            "/etc/nginx/", f"{self.folder}/"
        )
        web = re.sub(r"listen 443", f"listen 127.0.0.1:{free_port()}", web)
        path = self.folder / "nginx.conf"
        path.write_text(
            f"pid {self.folder}/pid; error_log {self.folder}/log; events {{}}\nhttp {{ access_log off;\n{web}\n"
            f"{text('balancer.conf')}\n}}\n",
            encoding="ascii",
        )
        status, fault = judged(
            "nginx", "-t", "-q", "-e", f"{self.folder}/log", "-p", str(self.folder), "-c", str(path)
        )
        self.assertEqual((status, fault), (0, ""))

    def test_systemd_takes_the_unit(self) -> None:
        if not shutil.which("systemd-analyze"):
            self.skipTest("systemd-analyze is not installed")
        unit = self.folder / "bg-fleet.service"
        unit.write_text(
            re.sub(r"/usr/bin/bg-\w+", "/bin/true", text("bg-fleet.service")), encoding="ascii"
        )
        self.assertEqual(judged("systemd-analyze", "verify", "--man=no", str(unit)), (0, ""))
        done = subprocess.run(
            ["systemd-analyze", "security", "--offline=true", "--no-pager", str(unit)],
            capture_output=True,
            text=True,
            timeout=WAIT,
            check=False,
        )
        self.assertLessEqual(
            float(done.stdout.rsplit("exposure level", 1)[1].split(":")[1].split()[0]), MOST_EXPOSED
        )

    def test_etcd_starts_by_its_file(self) -> None:
        """As one member, at other ports; it takes only clients with a certificate."""
        if not ETCD:
            self.skipTest(NO_ETCD)
        if not OPENSSL:
            self.skipTest(NO_OPENSSL)
        client, peer = free_port(), free_port()
        places = {
            "10.0.0.11:2379": f"127.0.0.1:{client}",
            "10.0.0.11:2380": f"127.0.0.1:{peer}",
            ",etcd-2=https://10.0.0.12:2380,etcd-3=https://10.0.0.13:2380": "",
            "/var/lib/etcd/fleet": f"{self.folder}/data",
        }
        given = with_paths(placed(text("etcd.conf"), places), self.folder)
        variables = dict(
            line.split("=", 1) for line in given.splitlines() if line and not line.startswith("#")
        )
        self.assertTrue(all(name.startswith("ETCD_") for name in variables))
        with open(self.folder / "etcd.log", "wb") as log:
            process = subprocess.Popen(
                [ETCD], env={**os.environ, **variables}, stdout=log, stderr=log
            )
        self.addCleanup(process.wait, WAIT)
        self.addCleanup(process.kill)
        path = self.folder / "person.json"
        path.write_text(
            json.dumps(
                {
                    "fleet": "web",
                    "etcd": [f"127.0.0.1:{client}"],
                    "tls": {"ca": "ca.pem", "certificate": "client.pem", "key": "client.key"},
                }
            ),
            encoding="ascii",
        )
        store = EtcdStore(read_whole_fleet_file(str(path)).etcd, "web")

        def answers() -> bool:
            with contextlib.suppress(StoreError):
                return store.read().revision > 0
            return False

        self.assertTrue(
            comes(answers),
            (self.folder / "etcd.log").read_text(encoding="utf-8", errors="replace")[-2000:],
        )
        path.write_text(
            json.dumps({"fleet": "web", "etcd": [f"127.0.0.1:{client}"], "tls": {"ca": "ca.pem"}}),
            encoding="ascii",
        )
        with self.assertRaisesRegex(StoreError, "TLS fails"):
            EtcdStore(read_whole_fleet_file(str(path)).etcd, "web").read()


def demonstration() -> Any:
    """The module of examples/fleet/fleet_demo.py."""
    spec = importlib.util.spec_from_file_location("fleet_demo", EXAMPLE / "fleet_demo.py")
    assert spec and spec.loader
    module = importlib.util.module_from_spec(spec)
    spec.loader.exec_module(module)
    return module


class Demonstration(unittest.TestCase):
    def outcome(self, *statuses: int) -> tuple[int, str]:
        """The exit status after requests with these statuses, and what is printed."""
        clients, printed = Clients(Address("127.0.0.1", 1)), io.StringIO()
        for status in statuses:
            clients.take(Answered(0.0, 0.1, status, "web-v1" if status == 200 else "", "web-1"))
        with contextlib.redirect_stdout(printed):
            return demonstration().outcome(clients), printed.getvalue()

    def test_a_request_that_failed_ends_it_with_status_1(self) -> None:
        self.assertEqual(self.outcome(200, 200), (0, "\nrequests: 2, failed: 0\n"))
        status, printed = self.outcome(200, 503, 200)
        self.assertEqual(status, 1)
        self.assertRegex(printed, r"\nrequests: 3, failed: 1\n    Answered\(.*status=503")
        self.assertEqual(self.outcome()[0], 1)

    def test_each_request_that_no_revision_answers_has_failed(self) -> None:
        clients = Clients(Address("127.0.0.1", 1))
        good = Answered(0.0, 0.1, 200, "web-v1", "web-1")
        bad = (
            good._replace(status=0),
            good._replace(status=503),
            good._replace(revision=""),
            good._replace(revision="<html><body>"),
            good._replace(status=502, revision=""),
        )
        for answered in (good, *bad):
            clients.take(answered)
        self.assertEqual(
            (clients.count, clients.failed, clients.failures), (1 + len(bad), len(bad), list(bad))
        )
        self.assertEqual(dict(clients.part()), {("web-1", "web-v1"): 1})
        self.assertEqual(dict(clients.part()), {})

    def test_it_names_the_packages_that_it_needs(self) -> None:
        told = io.StringIO()
        with mock.patch.object(shutil, "which", return_value=None), contextlib.redirect_stderr(
            told
        ):
            self.assertEqual(demonstration().main(), 1)
        self.assertEqual(
            told.getvalue(),
            "the demonstration needs these packages: apt-get install etcd-server haproxy curl\n",
        )

    def test_a_program_that_is_not_on_the_path_of_users_is_found(self) -> None:
        with tempfile.TemporaryDirectory() as folder, mock.patch.dict(
            os.environ, {"PATH": "/nowhere"}
        ):
            path = pathlib.Path(folder, "haproxy")
            path.touch(0o755)
            with mock.patch("support.fleet.demonstration.SYSTEM_FOLDERS", (folder,)):
                self.assertEqual(place_of("haproxy"), str(path))
                self.assertEqual(missing_packages(), ["etcd-server", "curl"])

    def test_a_word_that_is_not_there_is_not_passed_over(self) -> None:
        with self.assertRaisesRegex(ValueError, "'d'"):
            placed("a b", {"a": "c", "d": "e"})
        self.assertEqual(placed("a b a", {"a": "c"}), "c b c")


if __name__ == "__main__":
    unittest.main()
