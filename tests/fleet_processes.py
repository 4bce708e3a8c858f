"""Agents of a fleet whose threads run in the process of a test, over a store in memory that can be
away or silent."""
import contextlib
import io
import json
import pathlib
import tempfile
import threading
import time
import unittest
from collections.abc import Collection, Mapping, Sequence
from unittest import mock

from bg_switch_tools.controller.log import Log
from bg_switch_tools.controller.plan.plan import PlannedRevision
from bg_switch_tools.fleet.agent import agent_process
from bg_switch_tools.fleet.agent.agent_process import AgentArguments, AgentProcess, make_agent
from bg_switch_tools.fleet.plan.fleet_file import FleetFile
from bg_switch_tools.fleet.plan.fleet_plan import MachineSettings
from bg_switch_tools.fleet.record.record import MachineReport, Record, View, read_machine_report
from bg_switch_tools.fleet.store.etcd_gateway import EtcdSettings
from bg_switch_tools.fleet.store.store import (
    NO_WATCH_STATE,
    Compare,
    Snapshot,
    StoreError,
    WatchState,
)
from tests.fake_switch import FakeSwitch
from tests.memory_store import Keys, MemoryStore
from tests.tool_runs import WAIT, Endpoint, comes
from tests.typed_lines import untimed

LONGEST = 20.0  # seconds for which anything is awaited
LEASE = 2  # seconds
FIT = {
    "spec": {
        "replicas": 2,
        "strategy": {
            "blueGreen": {
                "autoPromotionEnabled": False,
                "prePromotionAnalysis": {},
                "postPromotionAnalysis": {},
            }
        },
    }
}


def ended(process: AgentProcess) -> None:
    """Stops an agent and waits for its threads, which write into its folder until they end."""
    process.stop()
    for thread in (process.round_thread, *process.writing_threads):
        thread.join(WAIT)


class Network:
    """What the stores of a test share: `silence` is for how many seconds each call waits before it
    fails; None if no call fails. While a call waits, `is_asked` is set. All that wait fail once the
    test has ended. `delay` is for how many seconds each call waits that does not fail.

    A watch that stands while `hangs` is set, or while nothing answers, hangs: it tells of nothing
    any more, also later. With `breaks` it ends by a fault. `watches` is how many were begun, and
    `reads` how many reads of agents there were.
    """

    def __init__(self) -> None:
        self.keys = Keys(time.monotonic)
        self.lock = threading.RLock()
        self.silence: float | None = None
        self.delay = 0.0
        self.hangs = self.breaks = False
        self.watches = self.reads = 0
        self.is_asked, self.has_ended = threading.Event(), threading.Event()

    def reach(self) -> None:
        if self.silence is not None:
            self.is_asked.set()
            self.has_ended.wait(self.silence)
            raise StoreError("it is away")
        self.has_ended.wait(self.delay)


class SharedStore(MemoryStore):
    """A store in memory as several threads may use it."""

    def __init__(self, network: Network, client: str, is_cuttable: bool = True) -> None:
        super().__init__(network.keys, client)
        self.network = network
        self.is_cuttable = is_cuttable

    def _pass(self) -> threading.RLock:
        if self.is_cuttable:
            self.network.reach()
        return self.network.lock

    def read(self) -> Snapshot:
        with self._pass():
            self.network.reads += self.is_cuttable
            return super().read()

    def write(
        self,
        compares: Sequence[Compare],
        puts: Mapping[str, str],
        deletes: Collection[str] = (),
        lease: int = 0,
    ) -> int | None:
        with self._pass():
            return super().write(compares, puts, deletes, lease)

    def grant(self, seconds: int) -> int:
        with self._pass():
            return super().grant(seconds)

    def refresh(self, lease: int) -> int:
        with self._pass():
            return super().refresh(lease)

    def seconds_left(self, lease: int) -> int:
        with self._pass():
            return super().seconds_left(lease)

    def revoke(self, lease: int) -> None:
        with self._pass():
            super().revoke(lease)

    def wait(self, after: int, seconds: float, state: WatchState = NO_WATCH_STATE) -> bool:
        """A watch, which hangs once the network was broken."""
        network, cut = self.network, threading.Event()
        deadline, hangs = time.monotonic() + seconds, False
        network.watches += 1
        state.begin(after, cut.set)
        try:
            while time.monotonic() < deadline and not cut.wait(0.01):
                hangs = hangs or network.hangs or network.silence is not None
                if network.breaks:
                    raise StoreError("the watch has ended")
                if network.keys.revision > after and not hangs:
                    return True
            return False
        finally:
            state.end()


class FleetProcessCase(unittest.TestCase):
    """A fleet of the host `a`, whose switch has a pause and an analysis after the switch. It ends
    once the file `judged` is there, and passes while the file `good` is there."""

    def setUp(self) -> None:
        self.folder = pathlib.Path(self.enterContext(tempfile.TemporaryDirectory()))
        self.stack = self.enterContext(contextlib.ExitStack())
        self.good, self.judged, self.rollout = (
            self.folder / "good",
            self.folder / "judged",
            self.folder / "rollout.json",
        )
        self.good.touch()
        self.judged.touch()
        self.rollout.write_text(json.dumps(FIT), encoding="ascii")
        self.endpoints = {name: [Endpoint(), Endpoint()] for name in ("web-v1", "web-v2")}
        for pair in self.endpoints.values():
            for endpoint in pair:
                self.stack.callback(endpoint.stop)
        self.v1, self.v2 = (
            PlannedRevision(name, tuple(endpoint.port for endpoint in pair))
            for name, pair in self.endpoints.items()
        )
        self.switch = FakeSwitch("pause", "post")
        self.stack.callback(self.switch.kill)
        self.network = Network()
        self.addCleanup(self.network.has_ended.set)
        self.person = SharedStore(self.network, "person", is_cuttable=False)
        self.out = io.StringIO()
        self.enterContext(mock.patch.object(agent_process, "lease_seconds", lambda _: LEASE))

    def put(self, *revisions: PlannedRevision, **members: object) -> None:
        """A person puts a plan with these revisions."""
        told = [{"name": one.name, "ports": list(one.ports)} for one in revisions]
        self.person.write(
            [],
            {
                "plan": json.dumps(
                    {
                        "revisions": told,
                        "analyses": {"post": "errors"},
                        "health": {"interval": 0.1, "timeout": WAIT},
                        **members,
                    }
                )
            },
        )

    def add(self, *hosts: str) -> None:
        self.person.write([], {f"members/{host}": "" for host in hosts})

    def settings(self) -> MachineSettings:
        judge = (
            "sh",
            "-c",
            f"until [ -e {self.judged} ]; do sleep 0.05; done; test -e {self.good}",
        )
        return MachineSettings(self.switch.port, {"errors": judge}, rollout=str(self.rollout))

    def started(self, folder: str = "state", host: str = "a") -> AgentProcess:
        """An agent that runs, and is stopped with the test."""
        state = self.folder / folder
        state.mkdir(exist_ok=True)
        file = FleetFile("web", EtcdSettings(()), str(self.folder), host, self.settings())
        made = make_agent(
            file,
            self.settings(),
            AgentArguments(state, 0.1),
            Log(self.out, False),
            lambda _: SharedStore(self.network, f"{host} of {folder}"),
        )
        made.start()
        self.stack.callback(ended, made)
        return made

    def begun(self) -> AgentProcess:
        """An agent whose fleet has web-v1 live."""
        self.add("a")
        self.put(self.v1)
        process = self.started()
        self.await_that(lambda: self.told_is("follows"), "the machine follows")
        return process

    def await_that(self, holds: object, what: str, longest: float = LONGEST) -> None:
        if not comes(holds, longest):  # type: ignore[arg-type]
            self.fail(
                f"in {longest:g} seconds it did not come that {what}: {self.out.getvalue()}\n{self.keys()}"
            )

    def await_log(self, text: str, longest: float = LONGEST) -> None:
        self.await_that(lambda: text in self.out.getvalue(), f"the log has {text!r}", longest)

    def keys(self) -> Mapping[str, str]:
        return {name: key.value for name, key in self.person.read().keys.items()}

    def record(self) -> Record | None:
        return View(self.person.read()).record

    def stage(self) -> str:
        """The stage of the record with its revision; empty if there is no record."""
        record = self.record()
        return f"{record.revision.name} {record.stage}" if record else ""

    def await_stage(self, stage: str) -> None:
        self.await_that(lambda: self.stage() == stage, f"the record has {stage}")

    def told(self, host: str = "a") -> MachineReport | None:
        text = self.keys().get(f"machines/{host}")
        return read_machine_report(text) if text else None

    def told_is(self, state: str, host: str = "a") -> bool:
        told = self.told(host)
        return told is not None and told.state == state

    def own_lines(self) -> list[str]:
        """The lines that select something, without their time limits."""
        return [
            untimed(line) for line in self.switch.sent_lines() if not line.startswith("available ")
        ]
