"""How the process of an agent begins and ends, over a store in memory: its files, a second agent of
its host, and unfit machines."""
import dataclasses
import json
import pathlib
import shutil
import subprocess
import sys
import threading
import time
import unittest
from unittest import mock

from bg_switch_tools.controller.plan.plan import PlannedRevision
from bg_switch_tools.controller.process_groups import identity
from bg_switch_tools.controller.state.state_file import State, StateFile
from bg_switch_tools.fleet.agent.agent_files import StateKeeper, machine_id, path_of
from bg_switch_tools.fleet.agent.agent_process import (
    AgentArguments,
    AgentProcess,
    lease_seconds,
    start_faults,
)
from bg_switch_tools.fleet.agent.agent_rounds import ANSWER, CONNECT
from bg_switch_tools.fleet.machine.machine_state import MachineState
from bg_switch_tools.fleet.plan.fleet_file import FleetFile
from bg_switch_tools.fleet.plan.fleet_plan import MachineSettings
from bg_switch_tools.fleet.store.etcd_gateway import EtcdSettings
from bg_switch_tools.fleet.store.store import Snapshot, Store
from bg_switch_tools.switch.before import boot_clock
from tests.fleet_processes import FIT, LEASE, FleetProcessCase, SharedStore
from tests.tool_runs import WAIT, comes


class Ends(FleetProcessCase):
    def test_the_others_know_at_once(self) -> None:
        process = self.begun()
        self.await_that(lambda: "leader" in self.keys(), "it leads")
        process.stop()
        self.assertEqual([name for name in self.keys() if name in ("leader", "machines/a")], [])
        self.assertIn("ends; the switch continues", self.out.getvalue())
        self.assertFalse((self.folder / "state" / "web.a.agent").exists())
        self.assertFalse(process.has_fault)

    def ends_in_a_refresh(self, process: AgentProcess, store: Store) -> None:
        """No call that was begun before takes a lease again."""
        self.await_that(lambda: "leader" in self.keys(), "it leads")
        asked, refresh = threading.Event(), store.refresh

        def slow(lease: int) -> int:
            asked.set()
            time.sleep(1)
            return refresh(lease)

        with mock.patch.object(store, "refresh", slow):
            self.assertTrue(asked.wait(WAIT))
            process.stop()
            time.sleep(1.5)
        self.assertEqual([name for name in self.keys() if name in ("leader", "machines/a")], [])
        self.assertEqual(self.network.keys.leases, {})

    def test_it_ends_while_the_lease_of_the_leader_is_refreshed(self) -> None:
        process = self.begun()
        self.ends_in_a_refresh(process, process.candidate.store)

    def test_it_ends_while_the_lease_of_the_machine_is_refreshed(self) -> None:
        process = self.begun()
        self.ends_in_a_refresh(process, process.agent.store)

    def test_its_analysis_is_ended(self) -> None:
        process = self.begun()
        marker = self.folder / "begun"
        words = f"import pathlib, time; pathlib.Path({str(marker)!r}).touch(); time.sleep(1000)"
        process.agent.machine.settings = MachineSettings(
            self.switch.port, {"errors": (sys.executable, "-c", words)}, rollout=str(self.rollout)
        )
        self.put(self.v1, self.v2)
        self.await_that(marker.exists, "the analysis begins")
        controller = process.rounds.controller
        assert controller is not None and controller.analyses.running is not None
        (begun,) = controller.analyses.running.processes()
        pid = begun.pid
        process.stop()
        self.await_that(lambda: identity(pid) is None, "the analysis is ended")

    def test_one_that_begins_again_goes_on(self) -> None:
        process = self.begun()
        self.put(self.v1, self.v2, fleet={"by_hand": True})
        self.await_that(lambda: self.told_is("ready"), "the machine is ready")
        process.stop()
        lines = self.own_lines()
        self.started()
        self.await_that(lambda: self.told_is("ready"), "the machine is ready again")
        self.assertEqual(self.own_lines(), lines)

    def test_the_analysis_of_one_that_was_killed_is_ended(self) -> None:
        """Even if the plan names neither the revision that was stable then nor any other one of
        it."""
        left = subprocess.Popen(
            [sys.executable, "-c", "import time; time.sleep(1000)"], start_new_session=True
        )
        self.addCleanup(left.kill)
        process = identity(left.pid)
        assert process is not None
        (self.folder / "state").mkdir()
        StateFile(str(self.folder / "state" / "web.a")).write(
            State(7, PlannedRevision("web-v0", (1, 2)), analyses=(process,))
        )
        self.begun()
        self.assertTrue(comes(lambda: left.poll() is not None, LEASE * 5), self.out.getvalue())
        self.assertIn("continues from the state file", self.out.getvalue())

    def test_a_fault_of_a_thread_ends_it(self) -> None:
        process = self.begun()
        with mock.patch.object(process.agent, "fetch", side_effect=KeyError("a fault")), mock.patch(
            "sys.stderr"
        ):
            self.await_that(process.stopping.is_set, "the process ends")
        self.assertTrue(process.has_fault)


LATE = 0.7  # seconds that a read of a slow store takes


class TwoOfOneHost(FleetProcessCase):
    def test_the_second_one_is_refused(self) -> None:
        self.begun()
        value = self.keys()["machines/a"]
        second = self.started("other")
        self.await_that(second.stopping.is_set, "the second one ends")
        self.assertRegex(
            second.refusal,
            r"^another machine reports as a: machines/a is of the machine [0-9a-f]{32}\.",
        )
        second.stop()
        self.assertEqual(self.keys()["machines/a"], value)
        self.assertIn(
            f"this agent ends, unless the lease of the other one ends within {2 * LEASE} seconds",
            self.out.getvalue(),
        )
        self.put(self.v1, self.v2)
        self.await_stage("web-v2 successful")

    def test_one_with_a_copy_of_the_files_is_refused_too(self) -> None:
        self.begun()
        shutil.copytree(self.folder / "state", self.folder / "copy")
        second = self.started("copy")
        self.await_that(second.stopping.is_set, "the second one ends")
        self.assertIn("another machine reports as a", second.refusal)

    def test_it_may_once_the_lease_of_the_first_one_ends(self) -> None:
        """As after a restart of the system."""
        self.begun()
        self.put(self.v1, self.v2, fleet={"by_hand": True})
        self.await_that(lambda: self.told_is("ready"), "the machine is ready")
        value = json.loads(self.keys()["machines/a"])
        self.stack.close()
        self.setUp()
        self.add("a")
        self.put(self.v1)
        lease = self.person.grant(LEASE)
        self.person.write(
            [], {"machines/a": json.dumps({**value, "machine": "before"})}, lease=lease
        )
        process = self.started()
        self.await_log("another machine reports as a: machines/a is of the machine before")
        self.await_that(lambda: self.told_is("follows"), "it follows")
        self.assertFalse(process.stopping.is_set())

    def test_one_that_runs_stays_when_another_takes_its_place(self) -> None:
        process = self.begun()
        self.network.silence = 0.0
        time.sleep(LEASE + 0.5)
        self.person.read()
        text = json.dumps({**json.loads(process.agent.text(None)), "machine": "other"})
        self.person.write([], {"machines/a": text}, lease=self.person.grant(1000))
        self.network.silence = None
        self.await_log("another machine reports as a: machines/a is of the machine other")
        time.sleep(2 * LEASE + 1)
        self.assertFalse(process.stopping.is_set())
        self.assertEqual(self.keys()["machines/a"], text)


class UnfitMachines(FleetProcessCase):
    def test_a_rollout_that_becomes_unsafe_opens_no_book(self) -> None:
        self.begun()
        unsafe = json.dumps(FIT).replace("false", "true")
        self.rollout.write_text(unsafe, encoding="ascii")
        self.await_log("autoPromotionEnabled is not false: the switch would promote by itself")
        self.switch.kill()
        self.switch.lines.clear()
        self.switch.start()
        self.await_that(
            lambda: (told := self.told()) is not None
            and "autoPromotionEnabled" in told.reason
            and not told.active,
            "the fleet is told",
        )
        time.sleep(0.5)
        self.assertEqual(self.own_lines(), [])
        self.rollout.write_text(json.dumps(FIT), encoding="ascii")
        self.await_log("this machine is fit for the plan again")
        self.await_that(
            lambda: self.own_lines() == [f"open {self.v1.words}"], "the switch is opened"
        )

    def test_a_plan_with_a_port_of_the_switch_is_not_deployed(self) -> None:
        self.begun()
        bad = PlannedRevision("web-v3", (self.switch.port, self.v2.ports[0]))
        self.put(self.v1, bad)
        self.await_stage("web-v3 aborted")
        self.assertIn("the plan does not fit this machine", self.out.getvalue())
        self.assertEqual(self.own_lines(), [f"open {self.v1.words}"])
        self.put(self.v1, self.v2)
        self.await_stage("web-v2 successful")

    def test_a_rollout_without_the_analysis_of_the_plan(self) -> None:
        text = {
            "spec": {
                "replicas": 2,
                "strategy": {
                    "blueGreen": {"autoPromotionEnabled": False, "postPromotionAnalysis": {}}
                },
            }
        }
        self.rollout.write_text(json.dumps(text), encoding="ascii")
        self.begun()
        self.put(self.v1, self.v2, analyses={"pre": "errors", "post": "errors"})
        self.await_stage("web-v2 aborted")
        self.assertIn("prePromotionAnalysis is missing", self.out.getvalue())
        self.assertEqual(self.own_lines(), [f"open {self.v1.words}"])

    def test_a_switch_that_can_not_be_opened(self) -> None:
        """It is told to the fleet, and opened by the next plan that fits."""
        self.add("a")
        one = PlannedRevision("web-v1", self.v1.ports[:1])
        self.put(one)
        process = self.started()
        self.await_that(
            lambda: (told := self.told()) is not None
            and "the switch can't be opened with web-v1" in told.reason,
            "the fleet is told",
        )
        self.assertFalse(process.stopping.is_set())


class Starts(unittest.TestCase):
    def file(self, rollout: str = "", host: str = "a") -> FleetFile:
        return FleetFile(
            "web",
            EtcdSettings(()),
            "/etc/bg",
            host,
            MachineSettings(8082, rollout=rollout) if host else None,
        )

    def test_what_no_agent_runs_by(self) -> None:
        self.assertRegex("\n".join(start_faults(self.file(host=""))), "it is one for people")
        self.assertRegex("\n".join(start_faults(self.file())), "^the fleet file has no key rollout")
        self.assertEqual(
            start_faults(self.file("/absent")), ["/absent can't be read: No such file or directory"]
        )

    def test_where_the_files_are(self) -> None:
        with mock.patch.dict("os.environ", {"STATE_DIRECTORY": "/var/lib/bg:/other"}):
            self.assertEqual(path_of(self.file(), None), "/var/lib/bg/web.a")
            self.assertEqual(path_of(self.file(), pathlib.Path("/")), "/web.a")
            self.assertEqual(path_of(self.file(), pathlib.Path("/x/agent")), "/x/agent")
        with mock.patch.dict("os.environ", clear=True):
            self.assertEqual(path_of(self.file(), None), "/etc/bg/web.a")

    def test_a_turn_is_shorter_than_the_lease(self) -> None:
        for timeout in (0.1, 2.0, 10.0, 60.0):
            self.assertGreater(lease_seconds(timeout), 3 * timeout + CONNECT + ANSWER)
        self.assertEqual(lease_seconds(2.0), 10)
        self.assertLess(AgentArguments().round_seconds, 1)

    def test_the_clock_counts_on_while_the_system_is_suspended(self) -> None:
        self.assertLess(abs(boot_clock() - time.clock_gettime(time.CLOCK_BOOTTIME)), 1)


class ComesBack(FleetProcessCase):
    """A machine whose files name web-v1, and web-v2 was successful while it was down."""

    def go(self) -> None:
        """The agent and the switch end, and the fleet goes on."""
        process = self.begun()
        record = self.record()
        assert record is not None
        process.stop()
        port = self.switch.port
        self.switch.kill()
        self.put(self.v1, self.v2)
        told = dataclasses.replace(
            record, id=self.keys_of("plan"), revision=self.v2, stable=self.v1, plan=None
        )
        self.person.write([], {"attempt": told.text()})
        self.switch.port = port
        self.switch.lines.clear()
        self.switch.start()

    def keys_of(self, name: str) -> int:
        return self.person.read().keys[name].changed

    def test_it_waits_for_a_read_before_it_opens_its_switch(self) -> None:
        self.go()
        read = SharedStore.read

        def late(store: SharedStore) -> Snapshot:
            time.sleep(LATE)
            return read(store)

        with mock.patch.object(SharedStore, "read", late):
            self.started()
            self.await_that(lambda: self.own_lines(), "the switch is opened")
            self.assertEqual(self.own_lines()[0], f"open {self.v2.words}")

    def test_it_opens_by_its_files_while_the_store_is_away(self) -> None:
        for silence in (0.0, 60.0):
            with self.subTest(silence):
                self.go()
                self.network.silence, begun = silence, time.monotonic()
                self.started()
                self.await_that(lambda: self.own_lines(), "the switch is opened")
                self.assertGreaterEqual(time.monotonic() - begun, EtcdSettings(()).timeout)
                self.assertEqual(self.own_lines()[0], f"open {self.v1.words}")
            self.network.silence = None
            self.network.has_ended.set()
            self.stack.close()
            self.setUp()


class Files(FleetProcessCase):
    def test_an_id_is_kept_and_is_that_of_one_folder(self) -> None:
        said: list[str] = []
        made = [
            machine_id(str(self.folder / name), lambda _, text: said.append(text))
            for name in ("x", "x", "y")
        ]
        self.assertEqual((made[0] == made[1], made[0] == made[2], said), (True, False, []))
        (self.folder / "x.id").write_text("no id\n", encoding="ascii")
        self.assertNotEqual(
            machine_id(str(self.folder / "x"), lambda _, text: said.append(text)), made[0]
        )

    def test_a_copy_of_the_files_has_another_id(self) -> None:
        """Even if the copy is used on the same kernel, as by a container."""
        made = machine_id(str(self.folder / "x"), lambda *_: None)
        copied = pathlib.Path(shutil.copy2(self.folder / "x.id", self.folder / "y.id"))
        self.assertEqual(copied.read_text(), (self.folder / "x.id").read_text())
        self.assertNotEqual(machine_id(str(self.folder / "y"), lambda *_: None), made)

    def test_a_folder_that_takes_no_file_is_told_once(self) -> None:
        said: list[str] = []
        keeper = StateKeeper(str(self.folder / "absent" / "x"), lambda _, text: said.append(text))
        for _ in range(3):
            keeper.keep(MachineState("c1"))
            keeper.keep_again()
        self.assertEqual(len(said), 1)
        (self.folder / "absent").mkdir()
        keeper.keep_again()
        keeper.keep_again()
        self.assertEqual((len(said), keeper.read().cluster), (2, "c1"))

    def test_a_state_that_can_not_be_read_begins_anew(self) -> None:
        said: list[str] = []
        keeper = StateKeeper(str(self.folder / "x"), lambda _, text: said.append(text))
        for text in ("{", MachineState("c1", "{").text()):
            pathlib.Path(keeper.file.path).write_text(text, encoding="ascii")
            self.assertEqual(keeper.read(), MachineState())
        self.assertEqual(len(said), 2)


if __name__ == "__main__":
    unittest.main()
