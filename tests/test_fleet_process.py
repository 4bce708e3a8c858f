"""The process of an agent, over a store in memory: its threads, and a store that is away or
silent."""
import dataclasses
import io
import json
import threading
import time
import unittest
from collections.abc import Sequence
from unittest import mock

from bg_switch_tools.fleet.agent import agent_process
from bg_switch_tools.fleet.agent.agent_process import PlainLog
from bg_switch_tools.fleet.agent.agent_rounds import ANSWER, CONNECT
from bg_switch_tools.fleet.agent.agent_status import STALE, read_agent_status
from bg_switch_tools.fleet.machine.machine import FRESH
from tests.fleet_processes import LEASE, FleetProcessCase
from tests.tool_runs import WAIT

SILENCE = 20 * WAIT  # seconds; nothing else is awaited for as long


class Rollouts(FleetProcessCase):
    def test_a_good_revision_goes_live(self) -> None:
        self.begun()
        self.put(self.v1, self.v2)
        self.await_stage("web-v2 successful")
        self.await_that(lambda: self.told_is("follows"), "the machine follows")
        self.assertEqual(
            self.own_lines(),
            [
                f"open {self.v1.words}",
                f"deploy {self.v2.words}",
                "promote",
                "verdict post successful",
            ],
        )
        for text in (
            "it is opened with web-v1, the fleet's stable revision",
            "a leads",
            "promotes web-v2 by attempt",
        ):
            self.assertIn(text, self.out.getvalue())
        self.assertNotIn("the plan's first revision", self.out.getvalue())

    def test_what_others_have_written_makes_no_lines(self) -> None:
        """Texts of a report go into the log of the leader, which people read at a terminal."""
        out = io.StringIO()
        PlainLog(out, False).say("leader", "web-2: \x1b[2J\nattempt 9 of web-v9: successful")
        self.assertEqual(out.getvalue().count("\n"), 1)
        self.assertIn("web-2: ?[2J?attempt 9", out.getvalue())
        out = io.StringIO()
        PlainLog(out, True).say("leader", "\x1b[2J")
        self.assertEqual(json.loads(out.getvalue())["text"], "?[2J")

    def test_a_bad_one_comes_back(self) -> None:
        self.begun()
        self.good.unlink()
        self.put(self.v1, self.v2)
        self.await_stage("web-v2 aborted")
        self.assertEqual((self.switch.book.active, self.switch.book.phase), (1, "aborted"))
        self.assertIn("a: analysis post: failed", self.out.getvalue())

    def test_a_fleet_begins_with_what_is_live(self) -> None:
        self.switch.book.answer(f"open {self.v2.words}")
        self.add("a")
        self.put(self.v1, self.v2)
        self.started()
        self.await_stage("web-v2 successful")
        self.assertIn(
            "attempt 0 of web-v2: successful, the fleet begins with it", self.out.getvalue()
        )
        self.await_that(lambda: self.told_is("follows"), "the machine follows")
        self.assertEqual(self.own_lines(), [])

    def test_without_its_word_no_fleet_begins(self) -> None:
        """A switch that gives no answer may have any revision live."""
        self.switch.book.answer(f"open {self.v2.words}")
        port = self.switch.port
        self.switch.kill()
        self.add("a")
        self.put(self.v1, self.v2)
        self.started()
        self.await_log("no answer: port")
        time.sleep(1)
        self.assertEqual((self.stage(), self.told()), ("", None))
        self.switch.port = port
        self.switch.start(f"open {self.v2.words}")
        self.await_stage("web-v2 successful")


class StoreAway(FleetProcessCase):
    def fall_silent(self) -> None:
        """From now on a call of the store has no answer before this test has ended. One waits, and
        the rounds at the switch go on."""
        self.network.is_asked.clear()
        self.network.silence = SILENCE
        self.assertTrue(self.network.is_asked.wait(WAIT))
        self.switch.lines.clear()
        self.await_that(lambda: self.switch.lines.count("report") > 2, "it asks the switch")

    def test_nothing_is_promoted_until_it_is_back(self) -> None:
        self.begun()
        self.put(self.v1, self.v2, fleet={"by_hand": True})
        self.await_that(lambda: self.told_is("ready"), "the machine is ready")
        self.network.silence = 0.0
        record = self.record()
        assert record is not None
        self.person.write([], {"attempt": dataclasses.replace(record, stage="promoting").text()})
        self.await_log("the store gives no answer, so nothing is switched here: it is away")
        time.sleep(1.5)
        self.assertEqual(
            (self.switch.book.phase, self.own_lines()[-1]), ("paused", f"deploy {self.v2.words}")
        )
        self.network.silence = None
        self.await_log("the store answers again, after")
        self.await_that(lambda: "promote" in self.own_lines(), "it is promoted")
        self.assertEqual(self.out.getvalue().count("so nothing is switched here"), 1)

    def test_a_silent_store_holds_up_no_round(self) -> None:
        self.begun()
        self.network.silence = 0.0
        self.await_log("the store gives no answer")
        self.fall_silent()
        self.endpoints["web-v1"][1].stop()
        self.await_that(
            lambda: "available 1 1" in self.switch.lines,
            "the switch learns of an endpoint that is down",
        )

    def test_what_fails_goes_back_at_once_without_it(self) -> None:
        self.begun()
        self.good.unlink()
        self.judged.unlink()
        self.put(self.v1, self.v2)
        self.await_that(lambda: self.switch.book.phase == "postAnalysis", "it has switched")
        self.fall_silent()
        time.sleep(1)
        self.assertEqual((self.switch.book.phase, self.switch.book.active), ("postAnalysis", 2))
        self.judged.touch()
        self.await_that(lambda: self.switch.book.phase == "aborted", "it goes back")
        self.assertEqual(self.switch.book.active, 1)

    def test_a_round_that_took_long_promotes_nothing_by_its_read(self) -> None:
        """As when the process is stopped, and woken after the attempt was aborted."""
        process = self.begun()
        self.put(self.v1, self.v2, fleet={"by_hand": True})
        self.await_that(lambda: self.told_is("ready"), "the machine is ready")
        asked, going_on, answer = threading.Event(), threading.Event(), self.switch.control.answer

        def hang(line: str) -> Sequence[str] | None:
            record = process.agent.machine.record
            if (
                line == "report"
                and record
                and record.stage == "promoting"
                and not going_on.is_set()
            ):
                asked.set()
                going_on.wait(WAIT)
            return answer(line)

        record = self.record()
        assert record is not None
        with mock.patch.object(self.switch.control, "answer", hang):
            self.person.write(
                [], {"attempt": dataclasses.replace(record, stage="promoting").text()}
            )
            self.assertTrue(asked.wait(WAIT))
            time.sleep(FRESH + 0.1)
            self.person.write([], {"attempt": dataclasses.replace(record, stage="aborted").text()})
            going_on.set()
            self.await_that(lambda: self.told_is("follows"), "the machine follows")
        self.assertEqual(
            self.own_lines(), [f"open {self.v1.words}", f"deploy {self.v2.words}", "abort"]
        )

    def test_it_is_away_when_the_agent_begins(self) -> None:
        """The switch is opened by what the agent before has kept."""
        self.begun().stop()
        self.switch.kill()
        self.switch.lines.clear()
        self.switch.start()
        self.network.silence = 0.1
        self.started()
        self.await_that(
            lambda: self.own_lines() == [f"open {self.v1.words}"], "the switch is opened"
        )
        self.network.silence = None
        self.await_log("the store answers again")

    def test_no_fault_of_the_store_ends_it(self) -> None:
        process = self.begun()
        for _ in range(3):
            self.network.silence = 0.0
            time.sleep(0.4)
            self.network.silence = None
            time.sleep(0.4)
        self.assertFalse(process.stopping.is_set() or process.has_fault)
        self.put(self.v1, self.v2)
        self.await_stage("web-v2 successful")

    def test_the_status_tells_since_when(self) -> None:
        self.begun()
        path = self.folder / "state" / "web.a.agent"
        self.assertEqual(read_agent_status(path.read_bytes()).lost_seconds(time.time()), 0)
        self.network.silence = 0.0
        self.await_that(lambda: read_agent_status(path.read_bytes()).lost > 0, "the status has it")
        status = read_agent_status(path.read_bytes())
        self.assertTrue(
            0 < status.lost_seconds(status.lost + 7) <= 7 and status.read <= status.lost, status
        )
        self.assertEqual(
            (status.host, status.is_stale(time.time()), status.is_stale(time.time() + STALE)),
            ("a", False, True),
        )


class Hangs(FleetProcessCase):
    def test_an_agent_whose_rounds_hang_is_taken_as_away(self) -> None:
        """No thread beside the rounds keeps its lease."""
        process = self.begun()
        going_on = threading.Event()
        do_round = process.rounds.do_round

        def hang() -> tuple[str | None, float]:
            going_on.wait(WAIT)
            return do_round()

        with mock.patch.object(process.rounds, "do_round", hang):
            self.await_that(
                lambda: self.told() is None, "its report goes with its lease", 4 * LEASE
            )
            going_on.set()
            self.await_log("the lease of the machine had ended")
        self.await_that(lambda: self.told_is("follows"), "it is back")

    def test_a_switch_that_hangs_does_not_end_the_lease(self) -> None:
        with mock.patch.object(agent_process, "lease_seconds", lambda _: ANSWER + CONNECT + 1):
            self.begun()
        created, going_on = self.network.keys.keys["machines/a"].created, threading.Event()
        answer = self.switch.control.answer

        def hang(line: str) -> Sequence[str] | None:
            going_on.wait(WAIT)
            return answer(line)

        with mock.patch.object(self.switch.control, "answer", hang):
            self.await_log("gave no answer in time")
            self.await_that(lambda: self.told_is("working"), "it is told")
            time.sleep(ANSWER + CONNECT + 1)
            self.assertEqual(self.network.keys.keys["machines/a"].created, created)
            going_on.set()
        self.await_that(lambda: self.told_is("follows"), "it answers again")


if __name__ == "__main__":
    unittest.main()
