"""The keys of a fleet of five as its agents and its leader write them, in a store in memory, and a
server that answers as an etcd that has them."""
import json
import socket
import time
from collections.abc import Sequence

from bg_switch_tools.controller.plan.plan import PlannedRevision
from bg_switch_tools.fleet.record.record import (
    ATTEMPT,
    DEPLOYING,
    FOLLOWS,
    LEADER,
    MACHINES,
    MEMBERS,
    ORDER,
    PLAN,
    SUCCESSFUL,
    WORKING,
    MachineReport,
    PersonOrder,
    Record,
)
from tests.fake_etcd import CLUSTER, FakeEtcd, in_base64, keys
from tests.memory_store import Keys, MemoryStore

FLEET = "web"
HOSTS = ("web-1", "web-2", "web-3", "web-4", "web-5")
V1, V2 = PlannedRevision("web-v1", (9101, 9102)), PlannedRevision("web-v2", (9201, 9202))
NEEDED_PHASES = {
    "ready": "paused",
    "testing": "postAnalysis",
    "passed": "postAnalysis",
    "failed": "aborted",
    "follows": "steady",
}


class SyntheticFleet:
    """A fleet that runs web-v1 on all members, with the leader web-1."""

    def __init__(self, hosts: Sequence[str] = HOSTS) -> None:
        self.keys = Keys(time.monotonic, CLUSTER)
        self.store = MemoryStore(self.keys, "test")
        self.hosts = hosts
        self.put(**{MEMBERS + host: "" for host in hosts})
        self.put_plan(V1)
        self.lead(hosts[0])
        self.decide(SUCCESSFUL, V1, V1)
        for host in hosts:
            self.report(host, FOLLOWS)

    def put(self, **values: str) -> None:
        self.store.write([], values)

    def delete(self, *names: str) -> None:
        self.store.write([], {}, names)

    def put_plan(self, *revisions: PlannedRevision, **fleet: object) -> None:
        listed = [{"name": each.name, "ports": list(each.ports)} for each in revisions]
        self.put(**{PLAN: json.dumps({"revisions": listed, "fleet": fleet})})

    @property
    def plan_id(self) -> int:
        return self.keys.keys[PLAN].changed

    def lead(self, host: str) -> None:
        """A host leads from now on, with a key that is created."""
        self.delete(LEADER)
        self.put(**{LEADER: host})

    def decide(
        self,
        stage: str,
        revision: PlannedRevision = V2,
        stable: PlannedRevision = V1,
        reason: str = "",
        missing: tuple[str, ...] = (),
    ) -> None:
        """The leader writes the record, of an attempt of the present plan."""
        leader = self.keys.keys[LEADER].created
        self.put(
            **{
                ATTEMPT: Record(
                    self.plan_id, revision, stable, stage, reason, missing, leader, int(time.time())
                ).text()
            }
        )

    def report(
        self,
        host: str,
        state: str,
        reason: str = "",
        active: str = "web-v1",
        stable: str = "web-v1",
    ) -> None:
        """A machine reports on the present attempt; what is not said is as on a machine with web-v1
        live."""
        newest = "web-v1" if state == FOLLOWS else "web-v2"
        told = MachineReport(
            f"id-{host}",
            self.plan_id,
            state,
            reason,
            NEEDED_PHASES.get(state, "scaling"),
            active,
            newest,
            stable,
            newest,
            2,
            self.keys.keys[LEADER].created if LEADER in self.keys.keys else 0,
        )
        self.put(**{MACHINES + host: told.text()})

    def begin(self) -> None:
        """An attempt of web-v2 begins, which all machines deploy."""
        self.put_plan(V1, V2)
        self.decide(DEPLOYING)
        for host in self.hosts:
            self.report(host, WORKING)

    def order(self, order: str, by: str = "kim") -> None:
        self.put(**{ORDER: PersonOrder(order, self.plan_id, by).text()})

    def leave(self, host: str) -> None:
        """The lease of a machine ends."""
        self.delete(MACHINES + host)


class SyntheticEtcd(FakeEtcd):
    """An etcd that answers reads with the keys of a fleet. While it is held, it takes calls and
    answers none."""

    def __init__(self, fleet: SyntheticFleet) -> None:
        self.fleet = fleet
        self.is_held = False
        super().__init__(read=self._read)

    def _read(self, connection: socket.socket) -> None:
        while self.is_held:
            time.sleep(0.02)
        store = self.fleet.keys
        listed = [
            {
                "key": in_base64(f"/bg-switch/{FLEET}/{name}"),
                "value": in_base64(key.value),
                "create_revision": str(key.created),
                "mod_revision": str(key.changed),
                "version": "1",
            }
            for name, key in dict(store.keys).items()
        ]
        connection.sendall(keys(*listed, revision=store.revision, cluster=store.cluster))

    @property
    def reads(self) -> int:
        return self.calls("/v3/kv/range")

    def fleet_file(self, timeout: float = 1.0) -> str:
        """The text of a fleet file that names this etcd, by which a read takes at most `timeout`
        seconds."""
        return json.dumps(
            {"fleet": FLEET, "etcd": [str(self.endpoint)], "timeout_seconds": timeout}
        )
