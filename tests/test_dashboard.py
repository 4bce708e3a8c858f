"""bin/dashboard before a fake switch, over HTTP: the page, its JSON and events, metrics, and orders
that are refused."""
import json
import os
import pathlib
import re
import shutil
import socket
import subprocess
import sys
import time
import unittest
import zipapp
from collections.abc import Sequence

from bg_switch_tools import VERSION
from bg_switch_tools.controller.plan.plan import PlannedRevision
from bg_switch_tools.controller.state.analysis_results import (
    AnalysisResult,
    AttemptResults,
    ResultsFile,
)
from bg_switch_tools.controller.state.state_file import HeldBack, State, StateFile, StateLock
from bg_switch_tools.switch.access_log import LogEntry
from support.pace import is_within
from tests.dashboard_runs import HAS_LIBRARIES, MISSING, PYTHON, Answer, WithDashboard
from tests.fake_port import free_port
from tests.fake_journal import FakeJournal
from tests.fake_switch import FakeSwitch
from tests.synthetic_log import ANSWERED, GrowingLog, Part, entries, refused
from tests.tool_runs import TOOLS, TOP, WAIT, comes

PAGE = TOP / "lib" / "bg_switch_tools" / "dashboard" / "page"
# Metrics by their names, each with the one that it had before; counters without `_total`.
OLD_NAMES = {
    "bg_switch_rollout_info": "rollout_info",
    "bg_switch_rollout_events": "rollout_events",
    "bg_switch_replicas_desired": "rollout_info_replicas_desired",
    "bg_switch_replicas_available": "rollout_info_replicas_available",
    "bg_switch_replicas_unavailable": "rollout_info_replicas_unavailable",
    "bg_switch_http_requests": "nginx_http_requests",
    "bg_switch_http_request_duration_seconds": "nginx_ingress_controller_request_duration_seconds",
    "bg_switch_http_response_duration_seconds": "nginx_ingress_controller_response_duration_seconds",
}
NO_COMMANDS = dict.fromkeys(("promote", "promote full", "abort", "retry"), False)
HOSTILE = '/"><script>alert(1)</script><img src=x onerror=alert(2)>'


class Dashboard(WithDashboard):
    """A fake switch that is paused at web-v2, a log, and a dashboard."""

    options: Sequence[str] = ()
    at_socket = False

    def setUp(self) -> None:
        super().setUp()
        path = str(self.folder / "control") if self.at_socket else ""
        self.journal = FakeJournal()
        self.switch = FakeSwitch("pause", "post", path=path, journal=self.journal)
        self.addCleanup(self.switch.kill)
        self.by_hand("open web-v1 1 2", "available 1 2", "deploy web-v2 3 4", "available 2 2")
        self.log = GrowingLog(self.folder / "access.log")
        self.log.add(self.now([Part(1, 7)]))
        self.start([str(TOOLS / "dashboard")])

    def start(self, program: Sequence[str]) -> None:
        words = [
            *program,
            str(self.switch.control.control),
            "--listen",
            str(self.port),
            "--log",
            str(self.log.path),
            *self.options,
        ]
        self.begin(words, "/api/state", "web-v1")

    def by_hand(self, *lines: str) -> None:
        for line in lines:
            self.switch.book.answer(line)

    @staticmethod
    def now(parts: Sequence[Part]) -> list[LogEntry]:
        """Entries that end at this time."""
        return list(entries(parts, time.time() - 1, 1.0))

    def state(self) -> dict[str, object]:
        return self.get("/api/state").told()

    def token(self) -> str:
        found = re.search(r'name="token" content="([^"]*)"', self.get("/").body)
        assert found is not None
        return found[1]

    def send_command(self, line: str = "promote", revision: int = 2, **changed: str) -> Answer:
        """An order as the page sends it, but for the fields that are changed; an empty one is left
        out."""
        headers = {
            "X_Token": self.token(),
            "Origin": f"http://127.0.0.1:{self.port}",
            "Content_Type": "application/json",
            **changed,
        }
        kept = {name: value for name, value in headers.items() if value}
        return self.get(
            "/api/order", "POST", json.dumps({"order": line, "revision": revision}), **kept
        )


class AtControlSocket(Dashboard):
    """A dashboard of a switch that takes lines at a control socket."""

    at_socket = True

    def test_a_command_of_the_page(self) -> None:
        self.assertEqual(self.state()["control"], self.switch.path)
        self.assertEqual(self.send_command().status, 200)
        self.assertEqual(self.switch.sent_lines(), ["promote"])


class Pages(Dashboard):
    def test_the_page_and_its_files(self) -> None:
        page = self.get("/")
        self.assertEqual(
            (page.status, "{{" in page.body, len(self.token()) >= 40), (200, False, True)
        )
        named = re.findall(r'(?:src|href)="([^"]+)"', page.body)
        self.assertIn("dashboard.js", named)
        for name in [*named, "charts.js", "parts.js", "frame.js"]:
            answer = self.get(f"/{name.removeprefix('/')}")
            self.assertEqual(
                (answer.status, answer.headers["X-Content-Type-Options"]), (200, "nosniff"), name
            )
        for path in (
            "/nothing",
            "/../server.py",
            "/index.html",
            "/page/index.html",
            "/%2e%2e/server.py",
        ):
            self.assertEqual(self.get(path).status, 404, path)

    def test_each_answer_has_a_content_security_field(self) -> None:
        for path in ("/", "/metrics", "/api/state", "/nothing", "/dashboard.js"):
            content_security = self.get(path).headers["Content-Security-Policy"]
            self.assertIn("default-src 'none'; script-src 'self';", content_security, path)
            self.assertNotIn("unsafe", content_security)

    def test_the_page_names_no_other_address_and_puts_no_text_in_as_html(self) -> None:
        for path in PAGE.iterdir():
            text = path.read_text(encoding="utf-8")
            addresses = [
                found
                for found in re.findall(r"https?://[^\s\"']+", text)
                if "www.w3.org/2000/svg" not in found
            ]
            self.assertEqual(addresses, [], path)
            unsafe = (
                r"innerHTML|outerHTML|insertAdjacentHTML|document\.write|eval\(| style=| on\w+="
            )
            self.assertEqual(re.findall(unsafe, text), [], path)

    def test_state(self) -> None:
        told = self.state()
        report = told["report"]
        assert isinstance(report, dict)
        self.assertEqual(
            (report["phase"], report["active"], told["waits_for"]),
            ("paused", {"number": 1, "name": "web-v1"}, "waits for: promote"),
        )
        self.assertEqual(
            told["orders"], {"promote": True, "promote full": True, "abort": True, "retry": False}
        )
        self.log.add(
            [
                ANSWERED._replace(
                    time=time.time(), revision=2, status=None, end="write_failed", target=HOSTILE
                )
            ]
        )
        self.assertTrue(comes(lambda: self.state()["failed"]))
        failed = self.state()["failed"]
        assert isinstance(failed, list)
        self.assertEqual(
            (failed[0]["target"], failed[0]["revision"], failed[0]["end"]),
            (HOSTILE, "web-v2", "write_failed"),
        )

    def test_events(self) -> None:
        with self.events() as told:
            name, first = next(told)
            self.assertEqual((name, first["kept_seconds"]), ("state", 600))
            self.by_hand("promote")
            self.log.add(self.now([Part(2, 11)]))
            seen: set[str] = set()
            counted = 0
            for name, update in told:
                self.assertEqual(name, "update")
                happened, slots = update["happened"], update["slots"]
                assert isinstance(happened, list) and isinstance(slots, list)
                seen |= {each["text"] for each in happened}
                counted += sum(
                    cell["revision"] == "web-v2" for slot in slots for cell in slot["cells"]
                )
                if "active: revision 1 web-v1 -> revision 2 web-v2" in seen and counted:
                    break
        self.assertIn("phase: paused -> postAnalysis", seen)

    def test_it_ends_at_a_signal_with_a_page_open(self) -> None:
        with self.events() as told:
            next(told)
            begun = time.monotonic()
            status, errors = self.end()
            seconds = time.monotonic() - begun
            self.assertEqual((status, errors, is_within(seconds, 5) or seconds), (0, "", True))

    def test_malformed_requests_are_not_told(self) -> None:
        for text in (
            b"GET /\x01 HTTP/1.1\r\nHost: localhost\r\n\r\n",
            b"\x16\x03\x01\r\n\r\n",
            b"GET / HTTP/1.1\r\nA\x00: b\r\n\r\n",
        ):
            with socket.create_connection(("127.0.0.1", self.port), timeout=WAIT) as client:
                client.sendall(text)
                self.assertRegex(client.recv(99), rb"^HTTP/1\.[01] 40[03] ")
        self.assertEqual(self.get("/").status, 200)
        self.assertEqual(self.end(), (0, ""))

    def test_a_switch_that_gives_no_answer(self) -> None:
        self.switch.kill()
        self.assertTrue(comes(lambda: '"answers": false' in self.get("/api/state").body))
        told = self.state()
        self.assertEqual((told["report"] is not None, told["orders"]), (True, NO_COMMANDS))
        self.assertIn("bg_switch_up 0.0", self.get("/metrics").body)
        self.assertEqual(self.send_command().status, 503)
        self.assertTrue(comes(self.starts_again))
        self.assertTrue(comes(lambda: '"answers": true' in self.get("/api/state").body))

    def starts_again(self) -> bool:
        """Starts the switch again. False if its port was given to a connection meanwhile."""
        try:
            self.switch.start("open web-v1 1 2")
        except OSError:
            return False
        return True


class Streams(unittest.TestCase):
    def test_a_listener_that_reads_nothing_and_one_that_comes_after_an_order(self) -> None:
        if not HAS_LIBRARIES:
            self.skipTest(MISSING)
        run = subprocess.run(
            [PYTHON, "-B", "-m", "tests.streams_of_a_server", str(free_port())],
            cwd=TOP,
            capture_output=True,
            text=True,
            timeout=WAIT,
            check=False,
            env={**os.environ, "PYTHONPATH": "lib:scripts"},
        )
        expected = (
            "orders in the state and the update: 1, 0\nstreams 0, connections 0\n"
            "faults 3, said 2, traces 2: the dashboard could not look at the switch: KeyError: 'planted'; some requests may not "
            "be counted\n"
        )
        self.assertEqual((run.stdout, run.returncode), (expected, 0), run.stderr)


class Controllers(Dashboard):
    """A dashboard that is given the plan of the controller too, whose state a test writes."""

    def start(self, program: Sequence[str]) -> None:
        self.plan = str(self.folder / "plan.json")
        self.state_file = StateFile(self.plan)
        self.write_plan(3, 4)
        self.lock = StateLock(self.plan)
        self.addCleanup(self.lock.release)
        self.options = ("--plan", self.plan)
        super().start(program)

    def write_plan(self, *ports: int) -> None:
        told = {
            "control": self.switch.port,
            "revisions": [{"name": "web-v2", "ports": list(ports)}],
        }
        pathlib.Path(self.plan).write_text(json.dumps(told), encoding="ascii")

    def controller(self) -> dict[str, object]:
        told = self.state()["controller"]
        assert isinstance(told, dict)
        return told

    def held_by_metric(self) -> bool:
        return "bg_controller_revisions_held_back 1.0" in self.get("/metrics").body

    def test_a_controller_that_is_dead_or_hangs(self) -> None:
        self.assertIn("bg_controller_up 1.0", self.get("/metrics").body)
        self.assertEqual((self.controller()["life"], self.controller()["faults"]), ("up", []))
        os.utime(self.lock.path, (time.time() - 100, time.time() - 100))
        self.assertTrue(comes(lambda: "bg_controller_up 0.0" in self.get("/metrics").body))
        self.assertEqual(
            (
                self.controller()["life"],
                str(self.controller()["faults"]).count("hangs: its last round was 10"),
            ),
            ("hangs", 1),
        )
        self.lock.release()
        text = f"No controller runs the plan {self.plan}."
        self.assertTrue(comes(lambda: self.controller()["faults"] == [text]))
        self.assertEqual(
            (self.controller()["life"], "bg_controller_up 0.0" in self.get("/metrics").body),
            ("down", True),
        )
        self.lock = StateLock(self.plan)
        self.addCleanup(self.lock.release)
        self.assertTrue(comes(lambda: "bg_controller_up 1.0" in self.get("/metrics").body))
        told = self.state()["happened"]
        assert isinstance(told, list)
        self.assertEqual(
            [each["text"] for each in told if each["kind"] in ("controller", "answer")][-2:],
            [text, "the controller runs, and holds nothing back"],
        )

    def test_whether_a_controller_runs_is_not_known(self) -> None:
        os.remove(self.lock.path)
        os.symlink(self.lock.path, self.lock.path)
        self.assertTrue(comes(lambda: self.controller()["life"] == "unknown"))
        self.assertIn("Whether a controller runs is not known", str(self.controller()["faults"]))
        self.assertNotIn("bg_controller_up", self.get("/metrics").body)

    def test_a_revision_that_is_held_back(self) -> None:
        self.assertEqual(
            (self.controller()["plan"], self.controller()["held_back"]), (self.plan, [])
        )
        self.assertIn("bg_controller_revisions_held_back 0.0", self.get("/metrics").body)
        self.write_plan(5, 6)
        self.state_file.write(
            State(held=(HeldBack(PlannedRevision("web-v2", (5, 6)), "the switch refuses it"),))
        )
        self.assertTrue(comes(self.held_by_metric))
        told, text = self.state(), "The controller holds web-v2 back: the switch refuses it."
        assert isinstance(told["happened"], list)
        self.assertEqual(
            self.controller()["held_back"],
            [{"name": "web-v2", "ports": [5, 6], "reason": "the switch refuses it"}],
        )
        self.assertIn(text, str(self.controller()["faults"]))
        self.assertEqual(
            [each["text"] for each in told["happened"] if each["kind"] == "controller"].count(text),
            1,
        )
        self.write_plan(3, 4)
        self.assertTrue(comes(lambda: not self.held_by_metric()))
        self.assertIn("the controller runs, and holds nothing back", self.get("/api/state").body)

    def test_the_results_of_analyses(self) -> None:
        """Each with its last lines, and with what a page could take for its own as text."""
        none = {"revision": "", "number": 0, "how": "", "analyses": []}
        self.assertEqual(self.state()["results"], none)
        results = AttemptResults(
            "web-v2",
            2,
            "aborted",
            (
                AnalysisResult("post", "errors", "failed", "", ("<b>9</b> errors",)),
                AnalysisResult("post", "latency", "stopped", "errors has failed"),
            ),
        )
        ResultsFile(self.plan).write(results)
        expected = {
            "revision": "web-v2",
            "number": 2,
            "how": "aborted",
            "analyses": [
                {
                    "analysis": "post",
                    "name": "errors",
                    "result": "failed",
                    "reason": "",
                    "last": ["<b>9</b> errors"],
                },
                {
                    "analysis": "post",
                    "name": "latency",
                    "result": "stopped",
                    "reason": "errors has failed",
                    "last": [],
                },
            ],
        }
        self.assertTrue(comes(lambda: self.state()["results"] == expected))
        pathlib.Path(ResultsFile(self.plan).path).write_text("{", encoding="ascii")
        self.assertTrue(comes(lambda: self.state()["results"] == none))

    def test_a_plan_is_that_of_a_switch(self) -> None:
        told = subprocess.run(
            [str(TOOLS / "dashboard"), "--fleet", "x", "--listen", "1", "--plan", "y"],
            capture_output=True,
            text=True,
        )
        self.assertEqual((told.returncode, "name its control port too" in told.stderr), (2, True))


class Metrics(Dashboard):
    def value(self, line: str) -> float | None:
        found = re.search(rf"^{re.escape(line)} (.*)$", self.get("/metrics").body, re.M)
        return float(found[1]) if found else None

    def test_values(self) -> None:
        labels = '{revision="web-v2",service="active",status="5xx"}'
        self.log.add(
            [*self.now([Part(2, 20, 1.0)]), refused("no_preview")._replace(time=time.time())]
        )
        self.assertTrue(comes(lambda: self.value(f"bg_switch_http_requests_total{labels}")))
        self.assertEqual(self.value(f"bg_switch_http_requests_total{labels}"), 20)
        self.assertEqual(
            self.value(
                'bg_switch_http_requests_total{revision="none",service="active",status="5xx"}'
            ),
            1,
        )
        # these stood there before
        self.assertEqual(
            self.value(
                'bg_switch_http_requests_total{revision="web-v1",service="active",status="2xx"}'
            ),
            0,
        )
        self.assertEqual(self.value(f"bg_switch_http_request_duration_seconds_count{labels}"), 20)
        for line, expected in (
            ('bg_switch_phase{phase="paused"}', 1),
            ('bg_switch_phase{phase="steady"}', 0),
            ("bg_switch_up", 1),
            ('bg_switch_selected{revision="web-v2",service="preview"}', 1),
            ('bg_switch_open_requests{revision="web-v1"}', 0),
            ('bg_switch_rollout_info{phase="Paused",strategy="blueGreen"}', 1),
            ('bg_switch_replicas_desired{revision="web-v2"}', 2),
            ('bg_switch_replicas_available{revision="web-v2"}', 2),
            ('bg_switch_service_without_endpoint{service="active"}', 0),
            ("bg_switch_journal_lacks_order", 0),
            ("bg_switch_dashboard_faults_total", 0),
        ):
            self.assertEqual(self.value(line), expected, line)
        self.by_hand("promote")
        self.assertTrue(
            comes(lambda: self.value('bg_switch_rollout_events_total{reason="SwitchService"}') == 1)
        )

    def test_old_names_have_the_same_values(self) -> None:
        self.log.add(self.now([Part(2, 20, 0.5)]))
        self.by_hand("abort")
        self.assertTrue(
            comes(lambda: "bg_switch_http_requests_total{" in self.get("/metrics").body)
        )
        self.assertTrue(comes(lambda: "RolloutAborted" in self.get("/metrics").body))
        lines = [
            line for line in self.get("/metrics").body.splitlines() if not line.startswith("#")
        ]
        for name, old in OLD_NAMES.items():
            by_new = [
                line.removeprefix(name)
                for line in lines
                if re.match(rf"{name}(_total|_bucket|_sum|_count)?[{{ ]", line)
            ]
            by_old = [
                line.removeprefix(old)
                for line in lines
                if re.match(rf"{old}(_total|_bucket|_sum|_count)?[{{ ]", line)
            ]
            self.assertEqual((by_new, len(by_new) > 0), (by_old, True), name)
        other = [line for line in lines if not line.startswith(("bg_switch_", *OLD_NAMES.values()))]
        self.assertEqual(other, [])

    def test_no_endpoint_is_up(self) -> None:
        self.by_hand("available 1 0")
        self.assertTrue(
            comes(lambda: self.value('bg_switch_service_without_endpoint{service="active"}') == 1)
        )
        self.assertEqual(self.value('bg_switch_service_without_endpoint{service="preview"}'), 0)
        self.log.add([refused("no_endpoint")._replace(time=time.time())] * 3)
        labels = '{revision="web-v1",service="active",status="5xx"}'
        self.assertTrue(comes(lambda: self.value(f"bg_switch_http_requests_total{labels}") == 3))
        self.assertIn("No endpoint of web-v1 is up.", self.get("/api/state").body)

    def test_the_journal_of_the_switch_fails(self) -> None:
        self.journal.fails = True
        self.by_hand("abort")
        self.assertTrue(comes(lambda: self.value("bg_switch_journal_lacks_order") == 1))
        self.assertIn("a crash may undo it", self.get("/api/state").body)
        self.journal.fails = False
        self.assertTrue(comes(lambda: self.value("bg_switch_journal_lacks_order") == 0))

    def test_requests_that_were_sent_to_another_endpoint(self) -> None:
        self.log.add(
            [each._replace(port=9202, slot_port=9201, tries=3) for each in self.now([Part(2, 4)])]
        )
        labels = '{revision="web-v2",service="active",status="2xx"}'
        self.assertTrue(
            comes(lambda: self.value(f"bg_switch_redispatched_requests_total{labels}") == 4)
        )
        self.assertEqual(self.value(f"bg_switch_connect_retries_total{labels}"), 8)
        recent = self.state()["recent"]
        assert isinstance(recent, dict)
        self.assertEqual([each["port"] for each in recent["web-v2"]["ports"]], [9202])

    def test_requests_on_kept_connections(self) -> None:
        self.log.add(
            each._replace(connection_request=number, upstream_reused=number > 2)
            for number, each in enumerate(self.now([Part(2, 5)]), 1)
        )
        labels = '{revision="web-v2",service="active",status="2xx"}'
        self.assertTrue(
            comes(lambda: self.value(f"bg_switch_kept_connection_requests_total{labels}") == 4)
        )
        self.assertEqual(self.value(f"bg_switch_upstream_reused_requests_total{labels}"), 3)

    def test_clients_that_have_gone(self) -> None:
        now = time.time()
        gone = refused("client_gone")._replace(time=now, revision=2, idle_connections=5)
        self.log.add([gone, *self.now([Part(2, 4)])])
        labels = '{revision="web-v2",service="active",status="4xx"}'
        self.assertTrue(
            comes(lambda: self.value(f"bg_switch_client_gone_requests_total{labels}") == 1)
        )
        self.assertEqual(self.value("bg_switch_idle_connections_total"), 5)
        state = self.state()
        recent = state["recent"]
        assert isinstance(recent, dict)
        self.assertEqual((recent["web-v2"]["errors"], state["failed"]), (0, []))

    def test_promtool(self) -> None:
        promtool = shutil.which("promtool")
        if promtool is None:
            self.skipTest("promtool is not installed: apt-get install prometheus to run this test")
        self.log.add(self.now([Part(1, 20), Part(2, 20, 0.5)]))
        self.assertTrue(
            comes(lambda: "bg_switch_http_requests_total{" in self.get("/metrics").body)
        )
        self.by_hand("abort")
        self.assertTrue(comes(lambda: "RolloutAborted" in self.get("/metrics").body))
        run = subprocess.run(
            [promtool, "check", "metrics"],
            input=self.get("/metrics").body,
            capture_output=True,
            text=True,
            timeout=WAIT,
            check=False,
        )
        self.assertEqual((run.returncode, run.stdout, run.stderr), (0, "", ""))


class Commanded(Dashboard):
    def check_refused(self, answer: Answer, status: int, why: str) -> None:
        self.assertEqual(
            (answer.status, why in str(answer.told()["fault"])), (status, True), answer
        )
        self.assertEqual(self.switch.sent_lines(), [])

    def test_an_order(self) -> None:
        answer = self.send_command()
        self.assertEqual(
            (answer.status, answer.told()),
            (200, {"line": "promote", "reply": "ok 2", "carried_out": True, "meaning": None}),
        )
        again = self.send_command().told()
        self.assertEqual(
            (again["carried_out"], again["meaning"]), (False, "the rollout is not paused")
        )
        self.assertTrue(comes(lambda: "promote => ok 2" in self.get("/api/state").body))
        self.assertEqual(self.switch.sent_lines(), ["promote", "promote"])

    def test_what_is_refused(self) -> None:
        self.check_refused(self.send_command(X_Token=""), 403, "does not have the token")
        self.check_refused(self.send_command(X_Token="x" * 43), 403, "does not have the token")
        self.check_refused(
            self.send_command(Origin="http://evil.example"), 403, "from another site"
        )
        self.check_refused(
            self.send_command(Origin="http://127.0.0.1:3000"), 403, "from another site"
        )
        self.check_refused(self.send_command(Origin=""), 403, "from which site")
        self.check_refused(self.send_command(Origin="null"), 403, "from another site")
        self.check_refused(
            self.send_command(Host="evil.example", Origin="http://evil.example"),
            403,
            "by the name localhost",
        )
        self.check_refused(
            self.send_command(revision=1), 409, "the newest revision is revision 2 web-v2 by now"
        )
        self.check_refused(self.send_command(line="quit"), 400, "one of promote")
        self.check_refused(self.send_command(line="promote" + " " * 5000), 413, "")
        self.check_refused(self.get("/api/order"), 405, "")
        self.assertEqual(self.get("/api/events", "HEAD").status, 405)

    def test_nothing_is_read_by_another_name(self) -> None:
        for path in ("/", "/api/state", "/api/events", "/metrics", "/dashboard.js"):
            answer = self.get(path, Host=f"evil.example:{self.port}")
            self.assertEqual(
                (answer.status, self.token() in answer.body, "web-v1" in answer.body),
                (403, False, False),
                path,
            )
            self.assertEqual(self.get(path, Origin="http://evil.example").status, 403, path)

    def test_it_listens_on_loopback_alone(self) -> None:
        own = socket.gethostbyname_ex(socket.gethostname())[2]
        for address in [each for each in own if not each.startswith("127.")]:
            with self.assertRaises(OSError):
                socket.create_connection((address, self.port), timeout=2).close()
        lines = [
            line.split()
            for line in pathlib.Path("/proc/net/tcp").read_text(encoding="ascii").splitlines()[1:]
        ]
        listening = [
            line[1] for line in lines if line[3] == "0A" and line[1].endswith(f":{self.port:04X}")
        ]
        self.assertEqual(listening, [f"0100007F:{self.port:04X}"])


class ReadOnly(Dashboard):
    options = ("--read-only",)

    def test_nothing_can_be_ordered(self) -> None:
        self.assertEqual(self.token(), "")
        answer = self.send_command(X_Token="x")
        self.assertEqual((answer.status, self.switch.sent_lines()), (403, []))
        self.assertIn("--read-only", answer.body)
        told = self.state()
        self.assertEqual((told["read_only"], told["orders"]), (True, NO_COMMANDS))


class Started(Dashboard):
    def test_a_port_that_is_taken(self) -> None:
        words = [str(TOOLS / "dashboard"), str(self.switch.port), "--listen", str(self.port)]
        run = subprocess.run(words, capture_output=True, text=True, timeout=WAIT, check=False)
        self.assertEqual(
            (run.returncode, run.stderr),
            (1, f"dashboard: port {self.port} cannot be used: Address already in use\n"),
        )

    def test_as_one_file(self) -> None:
        self.end()
        archive = str(self.folder / "tools.pyz")
        zipapp.create_archive(TOP / "lib", archive, PYTHON)
        self.start([PYTHON, archive, "dashboard"])
        self.assertEqual(self.get("/dashboard.js").status, 200)


class OldNames(unittest.TestCase):
    def test_the_pages_name_the_version_that_drops_them(self) -> None:
        """It is not released yet: with that version the old names and this test go."""
        source = (TOP / "lib" / "bg_switch_tools" / "dashboard" / "metrics.py").read_text(
            encoding="utf-8"
        )
        dropped = re.findall(r'^DROPPED_IN = "(.*)"', source, re.M)[0]
        self.assertLess(
            [int(part) for part in VERSION.split(".")], [int(part) for part in dropped.split(".")]
        )
        for page in ("docs/DASHBOARD.md", "CHANGELOG.md"):
            self.assertIn(
                f"version {dropped} drops them", (TOP / page).read_text(encoding="utf-8"), page
            )


class Libraries(unittest.TestCase):
    def test_without_its_libraries_it_names_the_package(self) -> None:
        words = [sys.executable, "-S", "-B", str(TOP / "lib"), "dashboard", "1", "--listen", "2"]
        run = subprocess.run(words, capture_output=True, text=True, timeout=WAIT, check=False)
        self.assertEqual(run.returncode, 1)
        self.assertIn("apt-get install python3-aiohttp", run.stderr)
        self.assertNotIn("Traceback", run.stderr)

    def test_the_other_tools_need_no_library(self) -> None:
        code = (
            "import sys; sys.argv = ['x']; sys.path.insert(0, 'lib'); import __main__, runpy; "
            "import bg_switch_tools.analysis.cli, bg_switch_tools.bgctl.cli, bg_switch_tools.controller.cli, "
            "bg_switch_tools.dashboard.cli, bg_switch_tools.operator.cli; "
            "sys.exit('aiohttp' in sys.modules or 'prometheus_client' in sys.modules)"
        )
        self.assertEqual(
            subprocess.run(
                [sys.executable, "-B", "-c", code], cwd=TOP, timeout=WAIT, check=False
            ).returncode,
            0,
        )


if __name__ == "__main__":
    unittest.main()
