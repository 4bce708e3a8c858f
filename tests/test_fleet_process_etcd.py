"""bin/fleet FLEET.json agent at a real etcd: signals, a crash, a process that is stopped and woken,
and an etcd that goes away."""
import json
import os
import pathlib
import signal
import sys
import tempfile
import threading
import time
import unittest
from collections.abc import Sequence
from unittest import mock

from bg_switch_tools.fleet import exit_statuses
from bg_switch_tools.fleet.record.record import (
    MachineReport,
    PersonOrder,
    View,
    read_machine_report,
)
from bg_switch_tools.fleet.store.etcd import EtcdStore
from bg_switch_tools.fleet.store.etcd_gateway import EtcdSettings
from bg_switch_tools.fleet.store.store import StoreError
from support import processes
from support.pace import is_within
from tests.fake_switch import FakeSwitch
from tests.fleet_processes import FIT
from tests.real_etcd import WithCluster
from tests.tool_runs import TOOLS, TOP, WAIT, ControllerRun, Endpoint, comes
from tests.typed_lines import line_of, untimed

PROGRAM = (str(TOOLS / "fleet"),)


def with_lease(seconds: int) -> tuple[str, ...]:
    """A program as bin/fleet, whose leases have `seconds` seconds."""
    code = f"""import sys; sys.path.insert(0, {str(TOP / 'lib')!r})
from bg_switch_tools.fleet.agent import agent_process
from bg_switch_tools.fleet.plan import fleet_file
agent_process.lease_seconds = lambda _: {seconds}
sys.exit(agent_process.run_agent(fleet_file.read_whole_fleet_file(sys.argv[1]), agent_process.AgentArguments()))"""
    return (sys.executable, "-B", "-c", code)


class AgentCase(WithCluster):
    """The host `a` of a fleet, whose switch has a pause and an analysis after the switch, which
    ends once the file `judged` is there."""

    def setUp(self) -> None:
        self.folder = pathlib.Path(self.enterContext(tempfile.TemporaryDirectory()))
        self.judged = self.folder / "judged"
        self.endpoints = [Endpoint() for _ in range(4)]
        for endpoint in self.endpoints:
            self.addCleanup(endpoint.stop)
        self.switch = FakeSwitch("pause", "post")
        self.addCleanup(self.switch.kill)
        self.store = EtcdStore(EtcdSettings(self.cluster.endpoints), "web")
        self.store.write([], {}, list(self.store.read().keys))
        self.store.write([], {"members/a": ""})
        self.runs = list[ControllerRun]()

    def fleet_file(self, folder: str = "a", **members: object) -> str:
        """A fleet file in a folder of its own."""
        place = self.folder / folder
        place.mkdir(exist_ok=True)
        (place / "rollout.json").write_text(json.dumps(FIT), encoding="ascii")
        judge = ["sh", "-c", f"until [ -e {self.judged} ]; do sleep 0.05; done"]
        told = {
            "fleet": "web",
            "host": "a",
            "control": self.switch.port,
            "etcd": [str(each) for each in self.cluster.endpoints],
            "rollout": "rollout.json",
            "analyses": {"errors": judge},
            **members,
        }
        (place / "fleet.json").write_text(json.dumps(told), encoding="ascii")
        return str(place / "fleet.json")

    def started(self, path: str = "", program: Sequence[str] = PROGRAM) -> ControllerRun:
        run = ControllerRun([path or self.fleet_file(), "agent"], program)
        self.runs.append(run)
        self.addCleanup(self.end, run)
        return run

    def end(self, run: ControllerRun) -> None:
        run.process.send_signal(signal.SIGCONT)
        run.kill()
        run.wait()

    def put(self, last: str, **members: object) -> None:
        ports = [endpoint.port for endpoint in self.endpoints]
        revisions = {"web-v1": ports[:2], "web-v2": ports[2:]}
        told = [{"name": name, "ports": revisions[name]} for name in revisions if name <= last]
        self.store.write(
            [],
            {
                "plan": json.dumps(
                    {
                        "revisions": told,
                        "analyses": {"post": "errors"},
                        "health": {"interval": 0.1, "timeout": WAIT},
                        **members,
                    }
                )
            },
        )

    def order(self, what: str) -> None:
        record = View(self.store.read()).record
        assert record is not None
        self.store.write([], {"order": PersonOrder(what, record.id, "somebody").text()})

    def told(self) -> MachineReport | None:
        try:
            key = self.store.read().keys.get("machines/a")
        except StoreError:
            return None
        return read_machine_report(key.value) if key else None

    def await_that(self, holds: object, what: str) -> None:
        if not comes(holds, 30):  # type: ignore[arg-type]
            logs = ["\n".join(run.log) for run in self.runs]
            self.fail(f"it did not come that {what}: {logs} {self.store.read()}")

    def await_state(self, state: str) -> None:
        self.await_that(
            lambda: (told := self.told()) is not None and told.state == state,
            f"the machine is {state}",
        )

    def await_stage(self, stage: str) -> None:
        self.await_that(
            lambda: (record := View(self.store.read()).record) is not None
            and record.stage == stage,
            f"the attempt is {stage}",
        )

    def own_lines(self) -> list[str]:
        return [
            line_of(untimed(line)).word
            for line in self.switch.sent_lines()
            if not line.startswith("available ")
        ]

    def begun(self, program: Sequence[str] = PROGRAM) -> ControllerRun:
        self.put("web-v1")
        run = self.started(program=program)
        self.await_state("follows")
        return run


class Signals(AgentCase):
    def test_it_ends_by_a_signal_and_the_others_know_at_once(self) -> None:
        for number in (signal.SIGTERM, signal.SIGINT):
            with self.subTest(number.name):
                self.switch.kill()
                self.switch.start()
                run = self.begun()
                self.await_that(lambda: "leader" in self.store.read().keys, "it leads")
                status, seconds = run.signal(number)
                self.assertEqual(
                    (
                        status,
                        [
                            name
                            for name in self.store.read().keys
                            if name in ("leader", "machines/a")
                        ],
                    ),
                    (0, []),
                )
                self.assertTrue(is_within(seconds, 3), seconds)
                ended = run.wait()
                self.assertIn("ends; the switch continues", ended.printed)
                self.assertEqual(ended.told, "")

    def test_it_is_killed_in_an_analysis_and_goes_on(self) -> None:
        run = self.begun()
        self.put("web-v2")
        self.assertTrue(run.says("analysis post of web-v2 begins"))
        lines = self.own_lines()
        run.kill()
        again = self.started()
        self.assertTrue(
            again.says("the analysis that the controller before has left behind", "is stopped")
        )
        self.assertTrue(again.says("analysis post of web-v2 begins"))
        self.assertEqual(self.own_lines(), lines)
        self.judged.touch()
        self.await_stage("successful")
        self.await_state("follows")
        self.assertEqual(self.own_lines(), ["open", "deploy", "promote", "verdict"])
        self.assertEqual(again.end().told, "")

    def test_it_is_stopped_while_it_waits_for_the_switch(self) -> None:
        """It has read `promoting`, and wakes after the attempt was aborted: the read is too old for
        a promote."""
        run = self.begun(with_lease(1))
        self.put("web-v2", fleet={"by_hand": True})
        self.await_state("ready")
        going_on, asked = threading.Event(), threading.Event()
        answer = self.switch.control.answer

        def hang(line: str) -> Sequence[str] | None:
            has_read = "promoting" in (self.folder / "a" / "web.a.fleet").read_text(
                encoding="ascii"
            )
            if has_read and line == "report" and not going_on.is_set():
                asked.set()
                going_on.wait(WAIT)
            return answer(line)

        with mock.patch.object(self.switch.control, "answer", hang):
            self.order("promote")
            self.assertTrue(asked.wait(WAIT))
            processes.pause(run.process.pid)
            self.order("abort")
            record = View(self.store.read()).record
            assert record is not None
            time.sleep(1.2)
            self.store.write(
                [], {"attempt": json.dumps({**json.loads(record.text()), "stage": "aborted"})}
            )
            going_on.set()
            run.process.send_signal(signal.SIGCONT)
            self.await_state("follows")
        self.assertEqual(self.own_lines(), ["open", "deploy", "abort"])


class Refusals(AgentCase):
    def test_an_unsafe_rollout(self) -> None:
        path = self.fleet_file()
        pathlib.Path(path).with_name("rollout.json").write_text(
            json.dumps({"spec": {"strategy": {"blueGreen": {}}}}), encoding="ascii"
        )
        run = self.started(path)
        run.process.wait(WAIT)
        ended = run.wait()
        self.assertEqual(ended.status, exit_statuses.REFUSED)
        self.assertIn(
            "autoPromotionEnabled is not false: the switch would promote by itself, before the fleet does",
            ended.told,
        )
        self.assertEqual((self.switch.lines, list(self.store.read().keys)), ([], ["members/a"]))

    def test_a_second_agent_with_the_same_files(self) -> None:
        first = self.begun()
        second = self.started()
        second.process.wait(WAIT)
        ended = second.wait()
        self.assertEqual((ended.status, ended.printed), (exit_statuses.REFUSED, ""))
        self.assertIn(
            f"another agent of a runs here: process {first.process.pid} has the lock", ended.told
        )

    def test_a_second_agent_of_the_host(self) -> None:
        first = self.begun(with_lease(1))
        second = self.started(self.fleet_file("other"), with_lease(1))
        second.process.wait(WAIT)
        ended = second.wait()
        self.assertEqual(ended.status, exit_statuses.TAKEN)
        self.assertRegex(
            ended.told, "^fleet: another machine reports as a: machines/a is of the machine "
        )
        self.assertIsNone(first.process.poll())
        self.assertEqual(self.own_lines(), ["open"])


class EtcdAway(AgentCase):
    def test_it_goes_away_and_comes_back(self) -> None:
        run = self.begun()
        self.put("web-v2", fleet={"by_hand": True})
        self.await_state("ready")
        self.cluster.members[0].kill()
        self.assertTrue(run.says("the store gives no answer, so nothing is switched here"))
        self.endpoints[1].stop()
        self.await_that(
            lambda: "available 1 1" in self.switch.lines,
            "the switch learns of an endpoint that is down",
        )
        self.assertEqual(self.own_lines(), ["open", "deploy"])
        self.cluster.start_member(0)
        self.cluster.wait()
        self.assertTrue(run.says("the store answers again"))
        self.order("promote")
        self.judged.touch()
        self.await_stage("successful")
        self.await_state("follows")
        ended = run.end()
        self.assertEqual((ended.status, ended.told), (0, ""))
        self.assertLess(len(ended.printed.splitlines()), 60, ended.printed)
        self.assertFalse(os.path.exists(self.folder / "a" / "web.a.agent"))


if __name__ == "__main__":
    unittest.main()
