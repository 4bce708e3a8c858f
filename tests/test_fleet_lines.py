"""A controller whose lines come from the record of a fleet, before a fake switch, with real
endpoints and analyses."""
import contextlib
import io
import json
import pathlib
import sys
import tempfile
import time
import unittest
from collections.abc import Callable, Sequence
from unittest import mock

from bg_switch_tools.controller.endpoints.probes import Probes
from bg_switch_tools.controller.history.history_file import HistoryFile
from bg_switch_tools.controller.log import Log
from bg_switch_tools.controller.plan.plan import Commands, PlannedRevision
from bg_switch_tools.controller.rounds.composition import Makers, files_beside, make_controller
from bg_switch_tools.fleet.agent.agent import FleetAgent
from bg_switch_tools.fleet.agent.fleet_lines import FleetLines
from bg_switch_tools.fleet.machine.fleet_memory import FleetMemory
from bg_switch_tools.fleet.machine.machine import FRESH, Machine
from bg_switch_tools.fleet.machine.machine_state import MachineStateFile
from bg_switch_tools.fleet.plan.fleet_plan import MachineSettings
from bg_switch_tools.fleet.record.record import (
    ABORTED,
    DEPLOYING,
    FAILED,
    FOLLOWS,
    PASSED,
    PROMOTING,
    READY,
    SUCCESSFUL,
    MachineReport,
    Record,
    read_machine_report,
)
from bg_switch_tools.switch.before import boot_clock
from bg_switch_tools.switch.connection import Connection
from tests.fake_journal import FakeJournal
from tests.fake_switch import FakeSwitch
from tests.memory_store import Keys, MemoryStore
from tests.tool_runs import WAIT, Endpoint
from tests.typed_lines import untimed

PAUSE = 0.02  # seconds between two rounds


class FleetLinesCase(unittest.TestCase):
    """A machine whose switch has a pause and an analysis after the switch, which passes while the
    file `good` is there."""

    named: object = "errors"  # the analyses that the plan names
    journal: FakeJournal | None = None  # of the switch

    def setUp(self) -> None:
        self.stack = self.enterContext(contextlib.ExitStack())
        self.folder = self.enterContext(tempfile.TemporaryDirectory())
        self.good = pathlib.Path(self.folder, "good")
        self.good.touch()
        self.endpoints = {name: [Endpoint(), Endpoint()] for name in ("web-v1", "web-v2")}
        for pair in self.endpoints.values():
            for endpoint in pair:
                self.stack.callback(endpoint.stop)
        self.v1, self.v2 = (
            PlannedRevision(name, tuple(endpoint.port for endpoint in pair))
            for name, pair in self.endpoints.items()
        )
        self.switch = FakeSwitch("pause", "post", journal=self.journal)
        self.stack.callback(self.switch.kill)
        self.ahead = 0.0
        self.switch.book.clock = self.clock
        self.keys = Keys(time.monotonic)
        self.person = MemoryStore(self.keys, "person")
        self.put_plan()
        self.put(SUCCESSFUL, self.v1)
        self.out = io.StringIO()
        self.start()

    def clock(self) -> float:
        """The clock since boot of the agent and of the switch, which goes on by itself, and further
        if a test sets it ahead."""
        return boot_clock() + self.ahead

    def put_plan(self) -> None:
        revisions = [{"name": one.name, "ports": list(one.ports)} for one in (self.v1, self.v2)]
        self.person.write(
            [],
            {
                "plan": json.dumps(
                    {
                        "revisions": revisions,
                        "analyses": {"post": self.named},
                        "health": {"interval": 0.1, "timeout": WAIT},
                    }
                )
            },
        )

    def put(self, stage: str, revision: PlannedRevision | None = None) -> None:
        self.person.write(
            [],
            {
                "attempt": Record(
                    self.keys.keys["plan"].changed, revision or self.v2, self.v1, stage
                ).text()
            },
        )

    def start(self, commands: Commands = Commands()) -> None:
        """Starts the agent, as after a restart of its machine."""
        file = MachineStateFile(str(pathlib.Path(self.folder, "fleet.json")))
        judge = (
            sys.executable,
            "-c",
            f"import os, sys; sys.exit(not os.path.exists({str(self.good)!r}))",
        )
        settings = MachineSettings(self.switch.port, self.analyses(judge), commands)
        machine = Machine("a", "m1", settings, file.write, file.read())
        self.store = MemoryStore(self.keys, "a")
        self.agent = FleetAgent(machine, self.store, lambda *_: None, self.clock)
        self.agent.read()
        plan = machine.plan()
        assert plan is not None
        probes = Probes()
        self.stack.callback(probes.stop)
        self.controller = make_controller(
            files_beside(str(pathlib.Path(self.folder, "fleet.json"))),
            plan,
            Log(self.out, False),
            probes,
            Makers(
                lambda *told: FleetMemory(machine, *told),
                lambda parts: FleetLines(machine, parts, self.clock),
            ),
        )
        self.stack.callback(self.controller.end)

    def analyses(self, judge: tuple[str, ...]) -> dict[str, tuple[str, ...]]:
        """The commands of the machine by the names that its plan has for them."""
        return {"errors": judge}

    def do_round(self) -> None:
        self.agent.read()
        with Connection(self.switch.port, WAIT) as connection:
            connection.allow(WAIT)
            self.controller.do_round(connection)
        self.agent.tell(self.controller.book.latest)

    def told(self) -> MachineReport:
        return read_machine_report(self.keys.keys["machines/a"].value)

    def rounds_until(self, holds: Callable[[], bool]) -> None:
        deadline = time.monotonic() + WAIT
        while not holds():
            self.assertLess(time.monotonic(), deadline, self.out.getvalue())
            self.do_round()
            time.sleep(PAUSE)

    def rounds_to(self, state: str) -> None:
        self.rounds_until(lambda: "machines/a" in self.keys.keys and self.told().state == state)

    def some_rounds(self) -> None:
        for _ in range(8):
            self.do_round()
            time.sleep(PAUSE)

    def joins(self) -> None:
        self.rounds_to(FOLLOWS)
        self.put(DEPLOYING)
        self.rounds_to(READY)

    def words(self, revision: PlannedRevision) -> str:
        return f"deploy {revision.words}"

    def own_lines(self) -> list[str]:
        """The lines that select something, without the moments of lines `before`."""
        sent = [line for line in self.switch.sent_lines() if not line.startswith("available ")]
        return [untimed(line) for line in sent]


class Attempts(FleetLinesCase):
    def test_a_good_one(self) -> None:
        self.joins()
        self.put(PROMOTING)
        self.rounds_to(PASSED)
        self.some_rounds()
        self.assertEqual(
            (self.switch.book.phase, self.switch.book.active, self.switch.book.stable),
            ("postAnalysis", 2, 1),
        )
        self.put(SUCCESSFUL)
        self.rounds_to(FOLLOWS)
        self.assertEqual(
            self.own_lines(),
            [f"open {self.v1.words}", self.words(self.v2), "promote", "verdict post successful"],
        )
        self.assertEqual((self.switch.book.phase, self.switch.book.stable), ("steady", 2))
        for text in (
            "it is opened with web-v1, the fleet's stable revision",
            f"promotes {self.v2.name} by attempt",
        ):
            self.assertIn(text, self.out.getvalue())

    def test_the_fleet_aborts(self) -> None:
        self.joins()
        self.put(PROMOTING)
        self.rounds_to(PASSED)
        self.put(ABORTED)
        self.rounds_to(FOLLOWS)
        self.assertEqual((self.switch.book.phase, self.switch.book.active), ("aborted", 1))
        self.assertEqual(self.own_lines()[-2:], ["promote", "abort"])

    def test_an_analysis_that_fails_takes_the_switch_back_without_the_store(self) -> None:
        self.joins()
        self.good.unlink()
        self.put(PROMOTING)
        self.rounds_until(lambda: self.switch.book.phase == "postAnalysis")
        self.store.is_cut = True
        self.rounds_until(lambda: self.switch.book.phase == "aborted")
        self.assertEqual(self.switch.book.active, 1)
        self.store.is_cut = False
        self.rounds_to(FAILED)
        self.assertEqual(self.told().reason, "analysis post: failed")
        self.some_rounds()
        self.assertEqual(self.own_lines()[-2:], ["promote", "verdict post failed"])

    def test_without_the_store_nothing_is_promoted(self) -> None:
        self.joins()
        self.put(PROMOTING)
        self.store.is_cut = True
        self.some_rounds()
        self.assertEqual(self.switch.book.phase, "paused")
        self.store.is_cut = False
        self.rounds_to(PASSED)

    def test_no_promote_rests_on_a_read_that_has_become_old_while_the_log_was_written(self) -> None:
        """A log that nobody reads can wait, and a process can be stopped at any place."""
        self.joins()
        self.put(PROMOTING)
        say, slept = self.controller.log.say, list[str]()

        def slow(event: str, text: str) -> None:
            say(event, text)
            if text.startswith("promotes ") and not slept:
                slept.append(text)
                time.sleep(FRESH + 0.1)

        with mock.patch.object(self.controller.log, "say", slow):
            self.do_round()
        self.assertEqual((self.switch.book.phase, len(slept)), ("paused", 1))
        self.assertIn("does not promote web-v2: the read has become too old", self.out.getvalue())
        self.rounds_to(PASSED)

    def test_a_switch_that_is_started_again_joins_again(self) -> None:
        self.joins()
        self.switch.kill()
        self.switch.lines.clear()
        self.switch.start()
        self.rounds_until(lambda: self.switch.book.phase == "paused")
        self.rounds_to(READY)
        self.assertEqual(self.own_lines(), [f"open {self.v1.words}", self.words(self.v2)])
        self.assertNotIn("the attempt of web-v2 is not begun again", self.out.getvalue())

    def test_the_history_has_the_attempt(self) -> None:
        self.joins()
        newest = HistoryFile(str(pathlib.Path(self.folder, "fleet.json"))).read()[0].newest
        self.assertEqual((newest and newest.name, newest and newest.by), ("web-v2", "plan"))

    def test_an_agent_that_is_started_again_goes_on(self) -> None:
        self.joins()
        self.put(PROMOTING)
        self.rounds_to(PASSED)
        self.controller.end()
        self.good.unlink()  # it has passed, and is not run again
        self.start()
        self.put(SUCCESSFUL)
        self.rounds_to(FOLLOWS)
        self.assertEqual(self.own_lines()[-1], "verdict post successful")

    def test_a_promote_by_hand_is_taken_back(self) -> None:
        self.joins()
        self.switch.book.answer("promote")
        self.rounds_to(FAILED)
        self.assertEqual(self.told().reason, "it was promoted on this machine alone")
        self.assertEqual((self.switch.book.phase, self.switch.book.active), ("aborted", 1))

    def test_a_machine_that_was_away_catches_up_by_its_own_analysis(self) -> None:
        self.rounds_to(FOLLOWS)
        self.good.unlink()
        self.put(SUCCESSFUL)
        self.rounds_until(lambda: self.switch.book.phase == "aborted")
        self.some_rounds()
        self.assertEqual(
            self.own_lines()[1:], [self.words(self.v2), "promote", "verdict post failed"]
        )
        self.assertEqual(self.told().reason, "catches up with web-v2: analysis post: failed")


class Journaled(FleetLinesCase):
    """A switch with a journal, whose starts resume its book."""

    def setUp(self) -> None:
        self.journal = FakeJournal()
        super().setUp()

    def resume_switch(self) -> None:
        self.switch.kill()
        self.switch.lines.clear()
        self.switch.start()
        self.switch.book.clock = self.clock

    def test_a_switch_that_was_resumed_is_joined_still(self) -> None:
        """It is not opened, deploys nothing again, and takes part in the attempt as before."""
        self.joins()
        self.resume_switch()
        self.rounds_to(READY)
        self.some_rounds()
        self.assertEqual((self.own_lines(), self.switch.book.phase), ([], "paused"))
        self.put(PROMOTING)
        self.rounds_to(PASSED)
        self.resume_switch()
        self.some_rounds()
        self.assertEqual((self.told().state, self.own_lines()), (PASSED, []))
        self.put(SUCCESSFUL)
        self.rounds_to(FOLLOWS)
        self.assertEqual(self.own_lines(), ["verdict post successful"])
        self.assertEqual((self.switch.book.phase, self.switch.book.stable), ("steady", 2))
        self.assertNotIn("started again", self.out.getvalue())

    def test_an_agent_that_is_started_with_it_goes_on(self) -> None:
        self.joins()
        self.controller.end()
        self.resume_switch()
        self.start()
        self.rounds_to(READY)
        self.assertEqual(self.own_lines(), [])

    def test_an_agent_joins_a_switch_that_was_resumed(self) -> None:
        """It knows nothing of the book, as after the loss of its files."""
        self.rounds_to(FOLLOWS)
        self.controller.end()
        for file in pathlib.Path(self.folder).glob("fleet.json.*"):
            file.unlink()
        self.resume_switch()
        self.start()
        self.joins()
        self.assertEqual(self.own_lines(), [self.words(self.v2)])

    def test_what_the_fleet_has_decided_meanwhile_is_made_up_for(self) -> None:
        self.joins()
        self.switch.kill()
        self.put(ABORTED)
        self.resume_switch()
        self.rounds_to(FOLLOWS)
        self.assertEqual((self.own_lines(), self.switch.book.phase), (["abort"], "aborted"))

    def test_a_deploy_that_a_crash_has_undone_comes_again(self) -> None:
        assert self.journal is not None
        self.rounds_to(FOLLOWS)
        answer, journal, deploys = self.switch.control.answer, self.journal, list[str]()

        def fails(line: str) -> Sequence[str] | None:
            if line.startswith("deploy "):
                journal.fails = True
                deploys.append(line)
            return answer(line)

        self.switch.control.answer = fails
        self.put(DEPLOYING)
        self.rounds_until(lambda: bool(deploys))
        self.assertIn(" => unsaved 0: ", self.out.getvalue())
        journal.fails = False
        self.resume_switch()
        self.rounds_to(READY)
        self.assertEqual(self.own_lines(), [self.words(self.v2)])


class SeveralAnalyses(FleetLinesCase):
    """A second analysis, which passes once the file `fast` is there."""

    named = ["errors", "latency"]

    def analyses(self, judge: tuple[str, ...]) -> dict[str, tuple[str, ...]]:
        waits = "echo measures; until test -e fast; do sleep 0.02; done"
        return {"errors": judge, "latency": ("sh", "-c", waits)}

    def test_a_machine_has_passed_once_all_have(self) -> None:
        self.joins()
        self.put(PROMOTING)
        self.rounds_until(
            lambda: "analysis post errors of web-v2: successful" in self.out.getvalue()
        )
        self.some_rounds()
        self.assertNotEqual(self.told().state, PASSED)
        pathlib.Path(self.folder, "fast").touch()
        self.rounds_to(PASSED)
        self.put(SUCCESSFUL)
        self.rounds_to(FOLLOWS)
        self.assertEqual(self.own_lines()[-1], "verdict post successful")

    def test_the_record_and_the_history_name_which_has_failed(self) -> None:
        self.joins()
        self.good.unlink()
        self.put(PROMOTING)
        self.rounds_to(FAILED)
        self.assertEqual(self.told().reason, "analysis post: failed, errors has failed")
        self.assertEqual(self.own_lines()[-2:], ["promote", "verdict post failed"])
        self.some_rounds()
        newest = HistoryFile(str(pathlib.Path(self.folder, "fleet.json"))).read()[0].newest
        assert newest is not None
        self.assertEqual(
            [(each.title(), each.result) for each in newest.analyses],
            [("post errors", "failed"), ("post latency", "stopped")],
        )


class Endpoints(FleetLinesCase):
    def test_a_deploy_waits_for_the_start_of_its_endpoints(self) -> None:
        self.rounds_to(FOLLOWS)
        self.controller.end()
        for endpoint in self.endpoints["web-v2"]:
            endpoint.stop()
        allowed = pathlib.Path(self.folder, "allowed")
        self.start(Commands(("test", "-e", str(allowed)), timeout=5))
        self.put(DEPLOYING)
        self.some_rounds()
        self.assertEqual(self.own_lines(), [f"open {self.v1.words}"])
        self.assertIn("start of web-v2 at port", self.out.getvalue())
        allowed.touch()
        self.rounds_until(lambda: self.own_lines()[-1] == self.words(self.v2))


if __name__ == "__main__":
    unittest.main()
