"""The port at which a drill notes the lines of operators, what it finds wrong with a journal, and the
clients that ask at a fixed rate."""
import unittest

from bg_switch_tools.switch.connection import Connection, UnreachableError
from support.recorded_lines import SentLine, RecordedLines, acknowledged, faults_of_orders, in_doubt
from support.steady_clients import FailedRequest, Outage
from tests.fake_port import free_port
from tests.fake_switch import FakeSwitch
from tests.tool_runs import comes


class Recorded(unittest.TestCase):
    def setUp(self) -> None:
        self.switch = FakeSwitch()
        self.addCleanup(self.switch.kill)
        self.lines = RecordedLines(free_port(), self.switch.port)
        self.lines.begin()
        self.addCleanup(self.lines.end)

    def test_each_line_is_noted_with_its_reply_and_of_a_report_the_first_line(self) -> None:
        with Connection(self.lines.port, 5) as connection:
            told = connection.answers([b"open a 1 2", b"report", b"tick 7", b"promote"])
        self.assertEqual((told[0], len(told[1]) > 5, told[2]), (["ok 0"], True, ["ok 0"]))
        noted = [(each.line, each.reply, each.order) for each in self.lines.end()]
        self.assertEqual(
            noted,
            [
                ("open a 1 2", "ok 0", ""),
                ("report", "moment 0", ""),
                ("tick 7", "ok 0", "tick 7"),
                ("promote", told[3][0], "promote"),
            ],
        )

    def test_a_line_without_a_reply_is_in_doubt(self) -> None:
        self.switch.control.answer = lambda line: None
        with Connection(self.lines.port, 5) as connection:
            connection.send(b"before 9 tick 7")
            self.assertTrue(comes(lambda: "before 9 tick 7" in self.switch.lines))
            self.switch.kill()
            noted = self.lines.end()
        self.assertEqual((in_doubt(noted), acknowledged(noted)), (["tick 7"], []))

    def test_no_connection_is_taken_while_the_switch_is_gone(self) -> None:
        self.lines.end()
        with self.assertRaises(UnreachableError):
            Connection(self.lines.port, 0.2)
        self.lines.begin()
        with Connection(self.lines.port, 5) as connection:
            self.assertEqual(connection.answer_to("report"), "refused NotOpen")


class Faults(unittest.TestCase):
    """What a journal has to have of the orders of two connections."""

    NOTED = [
        SentLine(1, "tick 1", "ok 0"),
        SentLine(2, "promote", "ok 3"),
        SentLine(1, "before 5 abort", "ok 0"),
        SentLine(2, "retry", "refused NotAborted"),
        SentLine(1, "tick 2"),
        SentLine(2, "tick 3"),
    ]

    def faults(self, *kept: str) -> list[str]:
        return faults_of_orders(kept, self.NOTED)

    def test_the_acknowledged_ones_with_at_most_one_in_doubt(self) -> None:
        for kept in (
            ["tick 1", "promote", "abort"],
            ["tick 1", "abort", "promote"],
            ["tick 1", "promote", "abort", "tick 3"],
        ):
            with self.subTest(kept):
                self.assertEqual(self.faults(*kept), [])

    def test_each_fault_is_named(self) -> None:
        for kept, fault in (
            (["tick 1", "promote"], ["lost: abort"]),
            (["tick 1", "promote", "abort", "retry"], ["nobody has sent: retry"]),
            (["tick 1", "promote", "promote", "abort"], ["nobody has sent: promote"]),
            (
                ["tick 1", "promote", "abort", "tick 2", "tick 3"],
                ["in doubt, and kept: tick 2, tick 3"],
            ),
            (["abort", "promote", "tick 1"], ["in another order: tick 1, abort"]),
        ):
            with self.subTest(kept):
                self.assertEqual(self.faults(*kept), fault)


class Requests(unittest.TestCase):
    def test_which_ones_an_outage_explains(self) -> None:
        outage = Outage(10.0, 11.0)
        for begun, ended, expected in (
            (9.0, 9.9, False),
            (9.0, 10.1, True),
            (10.2, 10.3, True),
            (10.9, 12.0, True),
            (11.1, 11.2, False),
        ):
            with self.subTest(begun=begun):
                failed = FailedRequest(begun, ended, None)
                self.assertEqual(failed.is_explained_by(outage), expected)


if __name__ == "__main__":
    unittest.main()
