"""Agents and switches that are stopped while a promote is on its way: the switch refuses it, and the
next read decides. Without the time limit of the line each would promote late."""
import inspect
import unittest
from collections.abc import Callable
from unittest import mock

from bg_switch_tools.fleet.agent.fleet_lines import FleetLines
from bg_switch_tools.fleet.machine.machine import FRESH
from bg_switch_tools.fleet.record.record import ABORTED, FOLLOWS, PASSED, PROMOTING
from bg_switch_tools.switch.before import boot_clock
from bg_switch_tools.switch.connection import Connection
from tests.fleet_faults import Patch, without_time_limit
from tests.test_fleet_agent import FleetCase, SlowStore
from tests.test_fleet_lines import FleetLinesCase

STOPPED = 5.0  # seconds for which an agent or a switch is stopped
Stop = Callable[["LateCase"], Patch]


class LateCase(FleetLinesCase):
    """A machine whose attempt is promoting, so that the next round sends the promote."""

    def setUp(self) -> None:
        super().setUp()
        self.stops = 0
        self.joins()
        self.put(PROMOTING)

    def stop_once(self) -> None:
        """Time goes on while the agent or the switch does not."""
        if not self.stops:
            self.stops += 1
            self.ahead += STOPPED

    @property
    def is_promoted(self) -> bool:
        return self.switch.book.active != self.switch.book.stable


def stopped_agent(case: LateCase) -> Patch:
    """The agent is stopped after it has decided, and before it sends its line."""
    answer = Connection.answer

    def late(self: Connection, line: bytes) -> list[str]:
        if line.endswith(b"promote"):
            case.stop_once()
        return answer(self, line)

    return mock.patch.object(Connection, "answer", late)


def stopped_switch(case: LateCase) -> Patch:
    """The switch is stopped when the line has arrived, before it is carried out."""
    answer = case.switch.control.answer

    def late(line: str) -> object:
        if line.endswith("promote"):
            case.stop_once()
        return answer(line)

    return mock.patch.object(case.switch.control, "answer", late)


class Stopped(LateCase):
    def check_refused(self, stop: Stop) -> None:
        with stop(self):
            self.do_round()
        self.assertEqual((self.stops, self.is_promoted), (1, False))
        self.assertEqual(self.switch.book.phase, "paused")
        self.assertEqual(self.out.getvalue().count("promote => refused TooLate"), 1)

    def check_late_without_a_time_limit(self, stop: Stop) -> None:
        with stop(self), without_time_limit():
            self.do_round()
        self.assertEqual((self.stops, self.is_promoted), (1, True))

    def test_an_agent(self) -> None:
        self.check_refused(stopped_agent)

    def test_a_switch(self) -> None:
        self.check_refused(stopped_switch)

    def test_an_agent_without_the_time_limit_promotes_late(self) -> None:
        self.check_late_without_a_time_limit(stopped_agent)

    def test_a_switch_without_the_time_limit_promotes_late(self) -> None:
        self.check_late_without_a_time_limit(stopped_switch)

    def test_the_next_read_decides_anew(self) -> None:
        self.check_refused(stopped_agent)
        self.rounds_to(PASSED)
        self.assertTrue(self.is_promoted)

    def test_what_was_aborted_meanwhile_is_not_promoted(self) -> None:
        self.check_refused(stopped_switch)
        self.put(ABORTED)
        self.rounds_to(FOLLOWS)
        self.assertEqual((self.switch.book.phase, self.is_promoted), ("aborted", False))
        self.assertEqual(self.own_lines()[-2:], ["promote", "abort"])

    def test_it_is_no_fault_of_the_machine(self) -> None:
        self.check_refused(stopped_agent)
        self.assertEqual((self.told().state, self.told().reason), ("ready", ""))

    def test_it_is_told_once_a_minute(self) -> None:
        for _ in range(3):
            self.stops = 0
            self.check_refused(stopped_agent)
        self.assertEqual(len([line for line in self.own_lines() if line == "promote"]), 3)

    def test_a_switch_that_does_not_know_the_line_promotes_nothing(self) -> None:
        self.switch.book.knows_before = False
        self.some_rounds()
        self.assertEqual((self.switch.book.phase, self.is_promoted), ("paused", False))
        reason = "promote: fault UnknownWord, since this switch does not know the line `before`"
        self.assertEqual(self.told().reason, f"{reason}: upgrade it")


class TimeLimits(LateCase):
    def test_the_time_limit_is_a_second_after_the_read_was_begun(self) -> None:
        begun = self.clock()
        self.do_round()
        ended = self.clock()
        line = next(line for line in self.switch.sent_lines() if line.endswith("promote"))
        word, limit, promote = line.split(" ")
        self.assertEqual((word, promote), ("before", "promote"))
        self.assertLessEqual(int((begun + FRESH) * 1000), int(limit))
        self.assertLess(int(limit), (ended + FRESH) * 1000)

    def test_going_back_has_no_time_limit(self) -> None:
        self.rounds_to(PASSED)
        self.put(ABORTED)
        self.rounds_to(FOLLOWS)
        self.assertIn("abort", self.switch.sent_lines())

    def test_the_clock_of_an_agent_is_that_of_the_switch(self) -> None:
        self.assertIs(inspect.signature(FleetLines).parameters["now"].default, boot_clock)


class FromTheBegin(FleetCase):
    def test_a_slow_read_counts_from_its_begin(self) -> None:
        begun = self.time
        self.agent.store = SlowStore(self.keys, "a", self.pass_time)
        self.agent.read()
        self.assertEqual(self.agent.machine.promotes_before, begun + FRESH)
        self.assertGreater(self.time, begun + 0.5)

    def test_without_a_read_there_is_no_time_limit(self) -> None:
        self.assertIsNone(self.agent.machine.promotes_before)
        self.agent.read()
        self.cut(self.agent)
        self.agent.read()
        self.assertIsNone(self.agent.machine.promotes_before)


if __name__ == "__main__":
    unittest.main()
