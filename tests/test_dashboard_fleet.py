"""bin/dashboard before a fleet, over HTTP: its page, JSON, events and metrics, by an etcd in memory
whose reads are counted."""
import contextlib
import dataclasses
import json
import re
import shutil
import subprocess
import sys
import time
import unittest
from collections.abc import Mapping

from bg_switch_tools.controller.state.analysis_results import (
    AnalysisResult,
    AttemptResults,
    ResultsFile,
)
from bg_switch_tools.fleet.agent.agent_status import AgentStatus
from bg_switch_tools.fleet.record.record import (
    ABORT,
    ABORTED,
    FAILED,
    LEADER,
    MEMBERS,
    PROMOTING,
    READY,
    STAGES,
)
from tests.dashboard_runs import PYTHON, WithDashboard
from tests.fake_port import free_port
from tests.fake_switch import FakeSwitch
from tests.synthetic_fleet import HOSTS, SyntheticEtcd, SyntheticFleet
from tests.tool_runs import TOOLS, TOP, WAIT, comes

HOSTILE = '<img src=x onerror="window.taken=1"></script>'
HOSTILE_HOST = 'web"\\{}\n<b>'
ALERTS = TOP / "examples" / "fleet" / "alerts.yml"
PROMTOOL = shutil.which("promtool")
NO_PROMTOOL = "promtool is not installed: apt-get install prometheus to run this test"
PAUSE = 1.0  # seconds between two reads
# Reads the metrics of standard input by the parser of prometheus_client, and prints each with its
# type, its help and its samples.
PARSE = """import json, sys
from prometheus_client.parser import text_string_to_metric_families as families
print(json.dumps([[each.name, each.type, each.documentation, [[one.name, one.labels, one.value] for one in each.samples]]
                  for each in families(sys.stdin.read())]))"""
OF_READS = {
    "bg_fleet_stage",
    "bg_fleet_member_state",
    "bg_fleet_members",
    "bg_fleet_has_leader",
    "bg_fleet_attempt_seconds",
}
ALWAYS = {"bg_fleet_etcd_lost_seconds", "bg_fleet_dashboard_faults"}


class Fleet(WithDashboard):
    """A fleet of five, an etcd that has its keys, and a dashboard of the fleet alone."""

    timeout = 1.0  # seconds of a read

    def setUp(self) -> None:
        super().setUp()
        self.fleet = SyntheticFleet()
        self.etcd = SyntheticEtcd(self.fleet)
        self.addCleanup(self.etcd.stop)
        self.path = self.folder / "fleet.json"
        self.path.write_text(self.etcd.fleet_file(self.timeout), encoding="utf-8")
        self.begin(
            [*self.program(), "--fleet", str(self.path), "--listen", str(self.port)],
            "/api/fleet",
            "web-v1",
        )

    def program(self) -> list[str]:
        return [str(TOOLS / "dashboard")]

    def told(self) -> dict[str, object]:
        return self.get("/api/fleet").told()

    def shows(self, *texts: str) -> bool:
        """Whether the state comes to have these texts of JSON."""
        return comes(lambda: all(text in self.get("/api/fleet").body for text in texts))


class Pages(Fleet):
    def test_the_page_and_its_files(self) -> None:
        for path in ("/", "/fleet"):
            page = self.get(path)
            self.assertEqual(
                (page.status, "{{" in page.body, "token" in page.body), (200, False, False), path
            )
        named = [
            name
            for name in re.findall(r'(?:src|href)="([^"]+)"', page.body)
            if not name.startswith("/api")
        ]
        self.assertLessEqual({"fleet.js", "fleet.css", "dashboard.css"}, set(named))
        for name in [*named, "frame.js", "parts.js"]:
            self.assertEqual(self.get(f"/{name}").status, 200, name)

    def test_there_is_no_switch(self) -> None:
        for path in ("/api/state", "/api/events", "/dashboard.html", "/fleet.html"):
            self.assertEqual(self.get(path).status, 404, path)
        self.assertEqual(self.get("/api/order", "POST", "{}").status, 404)
        self.assertNotIn("bg_switch_", self.get("/metrics").body)

    def test_it_has_the_guards_of_each_page(self) -> None:
        for path in ("/", "/fleet", "/api/fleet", "/api/fleet/events", "/fleet.js"):
            self.assertEqual(self.get(path, Host=f"evil.example:{self.port}").status, 403, path)
            self.assertEqual(self.get(path, Origin="http://evil.example").status, 403, path)
        for path in ("/fleet", "/api/fleet", "/fleet.js"):
            self.assertIn(
                "default-src 'none'; script-src 'self';",
                self.get(path).headers["Content-Security-Policy"],
                path,
            )
        self.assertEqual(self.get("/api/fleet/events", "HEAD").status, 405)
        self.assertEqual(self.get("/api/fleet", "POST", "{}").status, 405)

    def test_what_comes_from_etcd_is_never_html(self) -> None:
        self.fleet.report("web-2", FAILED, HOSTILE)
        self.fleet.decide(ABORTED, reason=HOSTILE)
        self.assertTrue(self.shows(json.dumps(HOSTILE)))
        self.assertEqual(
            self.get("/api/fleet").headers["Content-Type"], "application/json; charset=utf-8"
        )
        for path in ("/", "/fleet"):
            self.assertNotIn("window.taken", self.get(path).body)

    def test_events(self) -> None:
        with self.events("/api/fleet/events") as told:
            name, first = next(told)
            self.assertEqual((name, first["fleet"]), ("state", "web"))
            self.fleet.leave("web-4")
            seen: list[str] = []
            for name, update in told:
                happened = update["happened"]
                assert isinstance(happened, list)
                seen += [each["text"] for each in happened]
                self.assertEqual(name, "update")
                if seen:
                    break
        self.assertEqual(seen, ["web-4 is away"])


class Reads(Fleet):
    def test_no_viewer_costs_a_read(self) -> None:
        with contextlib.ExitStack() as stack:
            for _ in range(8):
                next(stack.enter_context(self.events("/api/fleet/events")))
            begun, before = time.monotonic(), self.etcd.reads
            while time.monotonic() < begun + 3 * PAUSE:
                for path in ("/fleet", "/api/fleet", "/metrics"):
                    self.assertEqual(self.get(path).status, 200)
                time.sleep(0.05)
            seconds, reads = time.monotonic() - begun, self.etcd.reads - before
        self.assertGreaterEqual(reads, 1)
        self.assertLessEqual(reads, seconds / PAUSE + 1)
        self.assertEqual({path for path, _ in self.etcd.asked}, {"/v3/kv/range"})

    def test_it_goes_on_without_a_viewer(self) -> None:
        before = self.etcd.reads
        self.assertTrue(comes(lambda: self.etcd.reads >= before + 2))

    def test_etcd_is_away_and_comes_back(self) -> None:
        self.etcd.stop()
        self.assertTrue(self.shows('"answers": false'))
        told = self.told()
        etcd, read = told["etcd"], told["read"]
        assert isinstance(etcd, dict) and isinstance(read, dict)
        self.assertEqual(
            (
                len(read["members"]),
                etcd["read"] <= etcd["since"],
                "no endpoint of etcd" in etcd["fault"],
            ),
            (5, True, True),
        )
        self.etcd.start()
        self.assertTrue(self.shows('"answers": true', '"kind": "silence"', '"kind": "answer"'))

    def test_etcd_is_silent(self) -> None:
        self.etcd.is_held = True
        self.addCleanup(setattr, self.etcd, "is_held", False)
        self.assertTrue(self.shows('"answers": false', "no endpoint of etcd gives an answer: "))


class LongReads(Fleet):
    """A read takes so long that nothing may wait for it."""

    timeout = 60.0

    def setUp(self) -> None:
        super().setUp()
        reads = self.etcd.reads
        self.etcd.is_held = True
        self.addCleanup(setattr, self.etcd, "is_held", False)
        self.assertTrue(comes(lambda: self.etcd.reads > reads))

    def test_all_who_look_are_told_that_the_dashboard_is_there(self) -> None:
        with self.events("/api/fleet/events") as told:
            begun = time.monotonic()
            times = [float(str(update["time"])) for _, update in (next(told) for _ in range(4))]
        self.assertEqual(
            (times, time.monotonic() - begun < self.timeout / 3), (sorted(set(times)), True)
        )

    def test_it_ends_at_a_signal(self) -> None:
        with self.events("/api/fleet/events") as told:
            next(told)
            begun = time.monotonic()
            self.assertEqual(
                (self.end(), time.monotonic() - begun < self.timeout / 3), ((0, ""), True)
            )


Samples = dict[str, dict[str, float]]


def samples_of(text: str) -> tuple[Samples, Mapping[str, tuple[str, str]]]:
    """The samples of metrics, by the name and by the values of the labels, and the type and the
    help of each name."""
    run = subprocess.run(
        [PYTHON, "-c", PARSE], input=text, capture_output=True, text=True, timeout=WAIT, check=True
    )
    families = json.loads(run.stdout)
    samples = {
        name: {",".join(labels.values()): value for _, labels, value in found}
        for name, _, _, found in families
    }
    return samples, {name: (kind, told) for name, kind, told, _ in families}


class Metrics(Fleet):
    def samples(self) -> Samples:
        return samples_of(self.get("/metrics").body)[0]

    def test_a_fleet_in_which_nothing_moves(self) -> None:
        told, kinds = samples_of(self.get("/metrics").body)
        self.assertEqual(set(told), OF_READS | ALWAYS)
        self.assertEqual(
            told["bg_fleet_stage"], {stage: float(stage == "successful") for stage in STAGES}
        )
        self.assertEqual(
            (
                told["bg_fleet_members"],
                told["bg_fleet_has_leader"],
                told["bg_fleet_etcd_lost_seconds"],
            ),
            ({"": 5}, {"": 1}, {"": 0}),
        )
        self.assertEqual(
            sorted(labels for labels, value in told["bg_fleet_member_state"].items() if value),
            [f"{host},follows" for host in HOSTS],
        )
        self.assertEqual(len(told["bg_fleet_member_state"]), 7 * 5)
        for name, (kind, text) in kinds.items():
            self.assertEqual(
                (kind, len(text) > 20),
                ("counter" if name == "bg_fleet_dashboard_faults" else "gauge", True),
                name,
            )

    def test_an_attempt_that_waits(self) -> None:
        self.fleet.begin()
        self.fleet.report("web-2", READY)
        self.fleet.leave("web-4")
        self.fleet.delete(LEADER, f"{MEMBERS}web-5")
        self.assertTrue(self.shows('"stage": "deploying"', '"member_count": 4'))
        told = self.samples()
        self.assertEqual(
            (told["bg_fleet_members"], told["bg_fleet_has_leader"]), ({"": 4}, {"": 0})
        )
        self.assertEqual(
            [stage for stage, value in told["bg_fleet_stage"].items() if value], ["deploying"]
        )
        self.assertEqual(
            sorted(labels for labels, value in told["bg_fleet_member_state"].items() if value),
            ["web-1,working", "web-2,ready", "web-3,working", "web-4,away"],
        )

    def test_how_long_it_promotes(self) -> None:
        self.fleet.begin()
        self.fleet.decide(PROMOTING)
        self.assertTrue(self.shows('"stage": "promoting"'))
        first = self.samples()["bg_fleet_attempt_seconds"][""]
        self.assertTrue(comes(lambda: self.samples()["bg_fleet_attempt_seconds"][""] > first))
        self.assertLess(first, WAIT)

    def test_etcd_is_away(self) -> None:
        self.etcd.stop()
        self.assertTrue(self.shows('"answers": false'))
        told = self.samples()
        self.assertEqual(set(told), ALWAYS)
        self.assertTrue(comes(lambda: self.samples()["bg_fleet_etcd_lost_seconds"][""] > 1))

    def test_a_fleet_without_a_key(self) -> None:
        self.fleet.delete(*self.fleet.keys.keys)
        self.assertTrue(self.shows('"attempt": null'))
        told = self.samples()
        self.assertEqual(
            (told["bg_fleet_members"], told["bg_fleet_has_leader"], "bg_fleet_stage" in told),
            ({"": 0}, {"": 0}, False),
        )

    def test_labels_are_escaped(self) -> None:
        self.fleet.put(**{MEMBERS + HOSTILE_HOST: ""})
        self.assertTrue(self.shows('"member_count": 6'))
        self.assertEqual(self.samples()["bg_fleet_member_state"][f"{HOSTILE_HOST},away"], 1)

    def test_promtool(self) -> None:
        if PROMTOOL is None:
            self.skipTest(NO_PROMTOOL)
        run = subprocess.run(
            [PROMTOOL, "check", "metrics"],
            input=self.get("/metrics").body,
            capture_output=True,
            text=True,
            timeout=WAIT,
            check=False,
        )
        self.assertEqual((run.returncode, run.stdout, run.stderr), (0, "", ""))


class WithSwitch(Fleet):
    """The dashboard of a machine: its switch, and its fleet."""

    def program(self) -> list[str]:
        self.switch = FakeSwitch("pause")
        self.addCleanup(self.switch.kill)
        self.switch.book.answer("open web-v1 1 2")
        return [*super().program(), str(self.switch.port)]

    def test_both_have_a_page_and_link_to_one_another(self) -> None:
        self.assertTrue(comes(lambda: '"phase"' in self.get("/api/state").body))
        self.assertIn('<a href="/fleet">the fleet</a>', self.get("/").body)
        self.assertIn('<a href="/">the switch</a>', self.get("/fleet").body)
        metrics = self.get("/metrics").body
        self.assertEqual(
            ("bg_switch_up 1.0" in metrics, "bg_fleet_members 5.0" in metrics), (True, True)
        )

    def test_a_switch_that_is_away_leaves_the_fleet_as_it_is(self) -> None:
        self.switch.kill()
        self.assertTrue(comes(lambda: '"answers": false' in self.get("/api/state").body))
        self.fleet.order(ABORT)
        self.assertTrue(self.shows('"order": "abort"'))


class WithAgent(Fleet):
    """The dashboard of a machine: its switch, its fleet, and the file that its agent keeps."""

    def program(self) -> list[str]:
        switch = FakeSwitch("pause")
        self.addCleanup(switch.kill)
        machine = {"host": "web-3", "control": switch.port, "rollout": "rollout.json"}
        self.path.write_text(
            json.dumps({**json.loads(self.etcd.fleet_file(self.timeout)), **machine}),
            encoding="utf-8",
        )
        state = self.folder / "state"
        state.mkdir()
        self.status = AgentStatus("web", "web-3", 1)
        self.agent_file = state / "web.web-3.agent"
        return [*super().program(), str(switch.port), "--agent-state", str(state)]

    def told_of(self, written: float, lost: float) -> Samples:
        """The metrics if the agent has written its file `written` seconds ago, and has lost etcd
        `lost` seconds ago (0: it has not)."""
        now = time.time()
        status = dataclasses.replace(
            self.status, written=now - written, read=now - written, lost=now - lost if lost else 0.0
        )
        self.agent_file.write_text(status.text(), encoding="ascii")
        return samples_of(self.get("/metrics").body)[0]

    def test_what_the_agent_tells(self) -> None:
        told = samples_of(self.get("/metrics").body)[0]
        self.assertEqual(
            (told["bg_fleet_agent_up"], "bg_fleet_agent_etcd_lost_seconds" in told),
            ({"": 0}, False),
        )
        told = self.told_of(1, 0)
        self.assertEqual(
            (told["bg_fleet_agent_up"], told["bg_fleet_agent_etcd_lost_seconds"]),
            ({"": 1}, {"": 0}),
        )
        lost = self.told_of(1, 90)["bg_fleet_agent_etcd_lost_seconds"][""]
        self.assertEqual((lost >= 90, lost < 90 + WAIT), (True, True))
        told = self.told_of(16, 90)  # it hangs, or was killed
        self.assertEqual(
            (told["bg_fleet_agent_up"], "bg_fleet_agent_etcd_lost_seconds" in told),
            ({"": 0}, False),
        )
        self.agent_file.write_text("{", encoding="ascii")
        self.assertEqual(samples_of(self.get("/metrics").body)[0]["bg_fleet_agent_up"], {"": 0})

    def test_the_results_of_analyses_are_those_of_the_agent(self) -> None:
        result = AnalysisResult("post", "errors", "failed", "", ("9 errors",))
        told = AttemptResults("web-v2", 2, "aborted", (result,))
        ResultsFile(str(self.agent_file.with_suffix(""))).write(told)
        self.assertTrue(
            comes(lambda: json.loads(self.get("/api/state").body)["results"] == told.as_json())
        )


class Words(unittest.TestCase):
    def run_with(self, *words: str) -> "subprocess.CompletedProcess[str]":
        return subprocess.run(
            [
                sys.executable,
                "-B",
                str(TOP / "lib"),
                "dashboard",
                "--listen",
                str(free_port()),
                *words,
            ],
            capture_output=True,
            text=True,
            timeout=WAIT,
            check=False,
        )

    def test_nothing_that_is_shown(self) -> None:
        for words, why in (
            ((), "name what is shown"),
            (("--fleet", "f.json", "--log", "l"), "name its control port too"),
            (("1", "--agent-state", "s"), "name its control port and the fleet file too"),
        ):
            told = self.run_with(*words)
            self.assertEqual((told.returncode, why in told.stderr), (2, True), told.stderr)


class WrongFile(WithDashboard):
    def test_a_fleet_file_that_is_wrong(self) -> None:
        path = self.folder / "fleet.json"
        for text, why in (
            ('{"fleet": "web"}', "etcd: is missing"),
            ("{", "it is not"),
            ("", "it can't be read: No such file"),
        ):
            if text:
                path.write_text(text, encoding="ascii")
            else:
                path.unlink()
            run = subprocess.run(
                [str(TOOLS / "dashboard"), "--fleet", str(path), "--listen", str(self.port)],
                capture_output=True,
                text=True,
                timeout=WAIT,
                check=False,
            )
            self.assertEqual(
                (
                    run.returncode,
                    run.stderr.startswith(f"dashboard: {path}: "),
                    why in run.stderr,
                    run.stdout,
                ),
                (1, True, True, ""),
                run.stderr,
            )


ALERT_TESTS = """rule_files: [{rules}]
evaluation_interval: 5s
tests:
  - interval: 5s
    input_series:
      - {{series: 'bg_fleet_has_leader{{instance="a", job="j"}}', values: '0x30'}}
      - {{series: 'bg_fleet_member_state{{host="web-4", state="away"}}', values: '1x30'}}
      - {{series: 'bg_fleet_member_state{{host="web-5", state="away"}}', values: '0x30'}}
      - {{series: 'bg_fleet_stage{{instance="a", job="j", stage="promoting"}}', values: '1x30'}}
      - {{series: 'bg_fleet_attempt_seconds{{instance="a", job="j"}}', values: '290+5x30'}}
      - {{series: 'bg_fleet_etcd_lost_seconds{{instance="a", job="j"}}', values: '0x30'}}
    promql_expr_test:
      - expr: count by (alertname) (ALERTS{{alertstate="firing"}})
        eval_time: 2m
        exp_samples:
          - {{labels: '{{alertname="FleetHasNoLeader"}}', value: 1}}
          - {{labels: '{{alertname="FleetMemberIsAway"}}', value: 1}}
          - {{labels: '{{alertname="FleetPromotesForLong"}}', value: 1}}
  - interval: 5s
    input_series:
      - {{series: 'bg_fleet_has_leader{{instance="a", job="j"}}', values: '1x30'}}
      - {{series: 'bg_fleet_member_state{{host="web-4", state="failed"}}', values: '0x30'}}
      - {{series: 'bg_fleet_stage{{instance="a", job="j", stage="promoting"}}', values: '0x30'}}
      - {{series: 'bg_fleet_attempt_seconds{{instance="a", job="j"}}', values: '9999x30'}}
      - {{series: 'bg_fleet_etcd_lost_seconds{{instance="a", job="j"}}', values: '0x30'}}
    promql_expr_test:
      - expr: ALERTS
        eval_time: 2m
        exp_samples: []
  - interval: 5s
    input_series:
      - {{series: 'bg_fleet_etcd_lost_seconds{{instance="a", job="j"}}', values: '0+5x30'}}
      - {{series: 'bg_fleet_member_state{{host="web-4", state="failed"}}', values: '1x30'}}
    promql_expr_test:
      - expr: count by (alertname) (ALERTS{{alertstate="firing"}})
        eval_time: 1m
        exp_samples:
          - {{labels: '{{alertname="FleetHasLostEtcd"}}', value: 1}}
          - {{labels: '{{alertname="FleetMemberHasFailed"}}', value: 1}}
  - interval: 5s
    input_series:
      - {{series: 'up{{job="j"}}', values: '0x30'}}
    promql_expr_test:
      - expr: count by (alertname) (ALERTS{{alertstate="firing"}})
        eval_time: 2m
        exp_samples:
          - {{labels: '{{alertname="FleetHasNoDashboard"}}', value: 1}}
"""


class Alerts(WithDashboard):
    def promtool(self, *words: str) -> "subprocess.CompletedProcess[str]":
        if PROMTOOL is None:
            self.skipTest(NO_PROMTOOL)
        return subprocess.run(
            [PROMTOOL, *words], capture_output=True, text=True, timeout=WAIT, check=False
        )

    def test_the_file_is_one(self) -> None:
        told = self.promtool("check", "rules", str(ALERTS))
        self.assertEqual(
            (told.returncode, "6 rules found" in told.stdout), (0, True), told.stdout + told.stderr
        )

    def test_each_fires_when_it_should(self) -> None:
        path = self.folder / "alerts_test.yml"
        path.write_text(ALERT_TESTS.format(rules=ALERTS), encoding="ascii")
        told = self.promtool("test", "rules", str(path))
        self.assertEqual(
            (told.returncode, "SUCCESS" in told.stdout), (0, True), told.stdout + told.stderr
        )

    def test_they_name_metrics_that_there_are(self) -> None:
        named = set(
            re.findall(
                r"\bbg_fleet_\w+",
                re.sub(r"^#.*|- name: .*", "", ALERTS.read_text(encoding="ascii"), flags=re.M),
            )
        )
        self.assertLessEqual(named, OF_READS | ALWAYS)
        self.assertGreaterEqual(len(named), 4)


if __name__ == "__main__":
    unittest.main()
