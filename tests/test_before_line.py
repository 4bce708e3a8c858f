"""The line `before` of the switches that stand in: each answer, and each fault in its order."""
import unittest
from collections.abc import Mapping

from bg_switch_tools.switch.before import before, boot_clock
from bg_switch_tools.switch.connection import Connection
from bg_switch_tools.switch.lines import Abort, Promote
from bg_switch_tools.switch.replies import TOO_LATE
from tests.fake_switch import FakeSwitch
from tests.tool_runs import WAIT
from tests.typed_lines import untimed

NOW = 5.0005  # seconds since the boot
OPEN, DEPLOY = "open web-v1 9101 9102", "deploy web-v2 9201 9202"
FAULTS: Mapping[str, str] = {
    "before": "WrongCount",
    "before 5001": "WrongCount",
    "before x": "WrongCount",
    "before x promote": "BadNumber",
    "before -1 promote": "BadNumber",
    "before 5001.5 promote": "BadNumber",
    "before 18446744073709551616 promote": "BadNumber",
    "before 000000000000000000001 promote": "BadNumber",
    "before x jump": "BadNumber",
    "before 9 jump": "UnknownWord",
    "before 9 promote half": "BadWord",
    "before 9 promote full now": "WrongCount",
    "before 9 verdict mid successful": "BadWord",
    "before 9 verdict pre": "WrongCount",
    "before 9 deploy web-v2": "WrongCount",
    "before 9 deploy web-v2 65536": "BadNumber",
    "before 9 available 2 4294967296": "BadNumber",
    "before 9 tick x": "BadNumber",
    "before 9 abort now": "WrongCount",
    "before 9 enter x blue": "BadNumber",
    "before 9 enter 0 blue": "BadWord",
    "before 9 down x": "BadNumber",
    "before 9 open web-v1": "WrongCount",
    "before 9 before": "BadWord",
    "before 9 before x promote": "BadWord",
    "before 9 before 9 promote": "BadWord",
    **{
        f"before 9 {line}": "BadWord"
        for line in ("report", "quit", OPEN, "down 9101", "enter 0 active", "leave 0", "compact")
    },
}


class Answers(unittest.TestCase):
    def setUp(self) -> None:
        self.switch = FakeSwitch("pause")
        self.addCleanup(self.switch.kill)
        self.switch.book.clock = lambda: NOW

    def answer(self, line: str) -> str:
        with Connection(self.switch.port, WAIT) as connection:
            return connection.answer_to(line)

    def pause(self) -> None:
        for line in (OPEN, "available 1 2", DEPLOY, "available 2 2"):
            self.answer(line)
        self.assertEqual(self.switch.book.phase, "paused")

    def test_each_fault(self) -> None:
        for is_open in (False, True):
            for line, fault in FAULTS.items():
                self.assertEqual(self.answer(line), f"fault {fault}", line)
            if not is_open:
                self.pause()
        self.assertEqual(self.switch.book.phase, "paused")

    def test_without_a_book(self) -> None:
        for limit in (0, 9999):
            self.assertEqual(self.answer(f"before {limit} promote"), "refused NotOpen")

    def test_in_time(self) -> None:
        self.pause()
        self.assertEqual(self.answer("before 5001 promote"), "ok 3")
        self.assertEqual(self.switch.book.active, 2)

    def test_with_the_greatest_number_and_spaces(self) -> None:
        self.pause()
        self.assertEqual(self.answer("  before  18446744073709551615   promote  "), "ok 3")

    def test_too_late(self) -> None:
        self.pause()
        for limit in (0, 4999, 5000):
            self.assertEqual(self.answer(f"before {limit} promote"), str(TOO_LATE))
        self.assertEqual(self.switch.book.phase, "paused")

    def test_each_event(self) -> None:
        self.pause()
        for line, reply in (
            ("tick 30", "ok 0"),
            ("available 1 2", "ok 0"),
            ("promote full", "ok 3"),
            ("promote", "refused NotPaused"),
            ("abort", "refused NothingToAbort"),
            ("retry", "refused NotAborted"),
            ("verdict post failed", "refused NoAnalysis"),
            ("deploy web-v3 9301 9302", "ok 0"),
        ):
            self.assertEqual(self.answer(f"before 5000 {line}"), str(TOO_LATE))
            self.assertEqual(self.answer(f"before 5001 {line}"), reply, line)


class TimeLimits(unittest.TestCase):
    def test_the_time_limit_is_rounded_down(self) -> None:
        self.assertEqual(str(before(5.0009, Promote(is_full=True))), "before 5000 promote full")
        self.assertEqual(str(before(-1.0, Abort())), "before 0 abort")

    def test_the_line_without_its_time_limit(self) -> None:
        for line in ("promote full", "report"):
            self.assertEqual(untimed(line), line)
        self.assertEqual(untimed("before 5 promote full"), "promote full")

    def test_the_clock_of_a_switch_is_that_of_the_tools(self) -> None:
        switch = FakeSwitch("pause")
        self.addCleanup(switch.kill)
        self.assertIs(switch.book.clock, boot_clock)


if __name__ == "__main__":
    unittest.main()
