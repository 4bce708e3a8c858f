"""What the tests of bin/fleet share: a fleet in memory, what its leader, its machines and other
people write, and runs of the tool."""
import json
import os
import pathlib
import tempfile
import time
import unittest
from collections.abc import Callable, Collection, Mapping, Sequence
from unittest import mock

from bg_switch_tools.controller.plan.plan import PlannedRevision
from bg_switch_tools.fleet import cli, commands
from bg_switch_tools.fleet.record.record import (
    ATTEMPT,
    DEPLOYING,
    LEADER,
    MACHINES,
    MEMBERS,
    ORDER,
    PLAN,
    MachineReport,
    PersonOrder,
    Record,
    View,
)
from bg_switch_tools.fleet.store.store import NO_WATCH_STATE, Compare, WatchState
from support.processes import Run
from tests.memory_store import Keys, MemoryStore
from tests.tool_runs import run_in_process

V1, V2, V3 = (
    PlannedRevision(f"web-v{number}", (9001 + 100 * number, 9002 + 100 * number))
    for number in (1, 2, 3)
)
MOMENT = 1790000000  # of the record: 2026-09-21T13:33:20 in UTC
HOSTS = ("web-1", "web-2", "web-3")


def plan_text(*revisions: PlannedRevision, **members: object) -> str:
    """A plan with these revisions, and these further keys."""
    return json.dumps(
        {
            "revisions": [{"name": each.name, "ports": list(each.ports)} for each in revisions],
            **members,
        }
    )


class PersonStore(MemoryStore):
    """The store as a person has it. What others do between a read of that person and the next
    write, or while the person waits, is given as functions."""

    def __init__(self, keys: Keys) -> None:
        super().__init__(keys, "person")
        self.before_writes: list[Callable[[], object]] = []
        self.during_waits: list[Callable[[], object]] = []
        self.writes = 0

    def write(
        self,
        compares: Sequence[Compare],
        puts: Mapping[str, str],
        deletes: Collection[str] = (),
        lease: int = 0,
    ) -> int | None:
        if self.before_writes:
            self.before_writes.pop(0)()
        self.writes += 1
        return super().write(compares, puts, deletes, lease)

    def wait(self, after: int, seconds: float, state: WatchState = NO_WATCH_STATE) -> bool:
        if self.during_waits:
            self.during_waits.pop(0)()
        else:
            time.sleep(seconds)
        return super().wait(after, seconds, state)


class WithFleet(unittest.TestCase):
    """A fleet of web-1, web-2 and web-3, whose plan names web-v1 and web-v2. It has a leader and no
    record."""

    def setUp(self) -> None:
        self.keys = Keys(lambda: 0.0)
        self.others = MemoryStore(self.keys, "others")
        self.store = PersonStore(self.keys)
        folder = tempfile.TemporaryDirectory()
        self.addCleanup(folder.cleanup)
        self.folder = pathlib.Path(folder.name)
        self.file = self.write_file(
            "fleet.json", json.dumps({"fleet": "web", "etcd": ["127.0.0.1:2379"]})
        )
        zone = mock.patch.dict(os.environ, TZ="UTC")
        zone.start()
        time.tzset()
        self.addCleanup(time.tzset)
        self.addCleanup(zone.stop)
        for host in HOSTS:
            self.put(MEMBERS + host, "")
        self.put(LEADER, "web-1")
        self.plan_id = self.put_plan(V1, V2)

    # ---- what others write ----

    def put(self, name: str, value: str) -> int:
        """Puts a key, and gives the revision of the write."""
        revision = self.others.write([], {name: value})
        assert revision is not None
        return revision

    def delete(self, name: str) -> None:
        self.others.write([], {}, [name])

    def put_plan(self, *revisions: PlannedRevision, **members: object) -> int:
        return self.put(PLAN, plan_text(*revisions, **members))

    def put_record(
        self,
        stage: str,
        revision: PlannedRevision = V2,
        stable: PlannedRevision = V1,
        **others: object,
    ) -> None:
        """Puts the record of the attempt, that of the plan that stands unless `id` says another
        one."""
        by = self.view.snapshot.keys[LEADER].created if self.view.key(LEADER) else 0
        values: dict[str, object] = {
            "id": self.view.changed(PLAN),
            "by": by,
            "time": MOMENT,
            **others,
        }
        self.put(ATTEMPT, Record(revision=revision, stable=stable, stage=stage, **values).text())  # type: ignore[arg-type]

    def report(self, state: str, *hosts: str, **values: object) -> None:
        """Puts the reports of these hosts, or of all three, on the attempt that stands."""
        record = self.view.record
        told: dict[str, object] = {
            "attempt": record.id if record else 0,
            "phase": "paused",
            "active": "web-v1",
            "preview": "web-v2",
            "stable": record.fleet_stable.name if record else "web-v1",
            "newest": "web-v2",
            "available": 2,
            "leader": self.view.leader,
            **values,
        }
        for host in hosts or HOSTS:
            self.put(MACHINES + host, MachineReport(f"id-{host}", state=state, **told).text())  # type: ignore[arg-type]

    def put_order(self, order: str, attempt: int | None = None, by: str = "bob") -> None:
        self.put(ORDER, PersonOrder(order, self.plan_id if attempt is None else attempt, by).text())

    def begin(self, stage: str = DEPLOYING, state: str = "working") -> None:
        """The attempt of web-v2 is in this stage, and all machines report this state."""
        self.put_record(stage)
        self.report(state)

    # ---- what is seen, and runs ----

    @property
    def view(self) -> View:
        return View(self.others.read())

    def write_file(self, name: str, text: str) -> str:
        path = self.folder / name
        path.write_text(text, encoding="utf-8")
        return str(path)

    def plan_file(self, *revisions: PlannedRevision, **members: object) -> str:
        return self.write_file("plan.json", plan_text(*revisions, **members))

    def fleet(self, *words: str, lines: str = "", at_terminal: bool = False) -> Run:
        """A run of bin/fleet with the fleet file of a person, over the store in memory."""

        def main(given: Sequence[str]) -> int:
            with mock.patch("sys.stdin.isatty", return_value=at_terminal):
                return cli.main(given, lambda file: self.store)

        with mock.patch.object(commands, "login_name", return_value="alice"):
            return run_in_process(main, self.file, *words, lines=lines)

    def check_refused(self, reason: str, *words: str) -> None:
        """The command is refused with this sentence, and nothing is written."""
        before = self.keys.revision
        self.assertEqual(self.fleet(*words), ("", f"fleet: {reason}\n", 1))
        self.assertEqual(self.keys.revision, before)
