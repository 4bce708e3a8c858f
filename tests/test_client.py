"""The client of a switch: a line for each of its calls, and what it makes of the replies."""
import unittest
from collections.abc import Callable

from bg_switch_tools.switch.client import Answer, Switch
from bg_switch_tools.switch.conditions import Conditions
from bg_switch_tools.switch.connection import UnreachableError
from bg_switch_tools.switch.lines import AnalysisKind, VerdictResult
from bg_switch_tools.switch.meanings import UNSAVED
from bg_switch_tools.switch.wait import NEVER, REACHED, TOO_LATE, wait_for
from tests.fake_port import ENDS, REPORT, FakePort, free_port
from tests.tool_runs import WithBook, WithJournal

# by the line that is sent: the call
CALLS: dict[str, Callable[[Switch], Answer]] = {
    "deploy web-v2 3 4": lambda switch: switch.deploy("web-v2", (3, 4)),
    "promote": lambda switch: switch.promote(),
    "promote full": lambda switch: switch.promote(full=True),
    "abort": lambda switch: switch.abort(),
    "retry": lambda switch: switch.retry(),
    "verdict pre successful": lambda switch: switch.verdict(
        AnalysisKind.PRE, VerdictResult.SUCCESSFUL
    ),
    "verdict post error": lambda switch: switch.verdict(AnalysisKind.POST, VerdictResult.ERROR),
    "tick 7": lambda switch: switch.send(b"tick 7"),
    "jump 1": lambda switch: switch.send(b"jump 1"),
}


class Calls(unittest.TestCase):
    def test_each_sends_its_line_after_a_report(self) -> None:
        for line, call in CALLS.items():
            with self.subTest(line), FakePort(
                lambda told: [*REPORT] if told == "report" else ["ok 3"]
            ) as port:
                reply = call(Switch(port.port, 5))
                self.assertEqual(
                    (reply.line, reply.lines, reply.carried_out), (line, ["ok 3"], True)
                )
                self.assertEqual([told for told in port.lines if told != "report"], [line])
                self.assertEqual(port.lines[0], "report")

    def test_each_refusal_has_its_meaning(self) -> None:
        for line, call in CALLS.items():
            with self.subTest(line), FakePort(
                lambda told: [*REPORT] if told == "report" else ["refused OutOfMemory"]
            ) as port:
                reply = call(Switch(port.port, 5))
                self.assertEqual(
                    (reply.carried_out, reply.meaning, reply.note),
                    (False, "out of memory; nothing has changed", None),
                )

    def test_a_reply_of_a_newer_switch_is_passed_on(self) -> None:
        with FakePort(lambda told: [*REPORT] if told == "report" else ["later 5"]) as port:
            answer = Switch(port.port, 5).send(b"postpone 5")
            self.assertEqual(
                (answer.lines, answer.carried_out, answer.meaning), (["later 5"], True, None)
            )

    def test_a_shutdown_has_no_reply(self) -> None:
        with FakePort(lambda told: [*REPORT] if told == "report" else ENDS) as port:
            reply = Switch(port.port, 5).shut_down()
            self.assertEqual((reply.lines, reply.carried_out), ([], True))
            self.assertEqual(port.lines, ["report", "quit"])

    def test_nobody_answers(self) -> None:
        for call in CALLS.values():
            with self.assertRaisesRegex(UnreachableError, "can't be reached"):
                call(Switch(free_port(), 0.1))


class WithASwitch(WithBook):
    def setUp(self) -> None:
        super().setUp()
        self.client = Switch(self.switch.port, 5)

    def test_a_report(self) -> None:
        report = self.client.report()
        self.assertEqual(report and (report.phase, report.stable.name), ("steady", "web-v1"))
        self.switch.kill()
        self.switch.start()
        self.assertIsNone(self.client.report())

    def test_a_promotion_of_another_revision_is_not_sent(self) -> None:
        self.by_hand("deploy web-v2 3 4", "available 2 2")
        reply = self.client.promote(name="web-v1")
        text = "not sent: revision 2 web-v2 is the newest one, and not web-v1"
        self.assertEqual((reply.carried_out, reply.meaning, reply.note), (False, text, text))
        self.assertEqual(self.switch.sent_lines(), [])
        self.assertEqual(self.client.promote(name="web-v2").lines, ["ok 3"])

    def test_a_deploy_says_what_it_has_made(self) -> None:
        self.assertEqual(self.client.deploy("web-v2", [3, 4]).note, "makes revision 2 web-v2")
        again = self.client.deploy("web-v2", [3, 4])
        self.assertEqual((again.carried_out, again.lines), (False, ["refused SameTemplate"]))
        again = self.client.deploy("web-v2", [3, 4], is_idempotent=True)
        self.assertEqual(
            (again.carried_out, again.note),
            (True, "revision 2 web-v2 is running already, in the phase scaling"),
        )

    def test_a_name_that_no_switch_takes_is_sent_as_it_is(self) -> None:
        self.client.deploy("w\u00e9b \udcff", [3, 4])
        self.assertEqual(self.switch.sent_lines(), ["deploy w\u00c3\u00a9b \u00ff 3 4"])

    def test_a_tick_far_ahead_needs_somebody_who_is_sure(self) -> None:
        for line in (b"tick 999999", b"before 5 tick 999999", b" tick  99999999999999999999 \r"):
            self.assertIn("more than a day ahead", self.client.send(line).note or "", line)
        self.assertEqual([line for line in self.switch.lines if line != "report"], [])
        self.assertTrue(self.client.send(b"tick 999999", is_sure=True).carried_out)

    def test_a_switch_without_a_journal_lacks_no_order(self) -> None:
        self.assertFalse(self.client.state()[1])
        self.switch.book.knows_before = False
        self.assertFalse(self.client.state()[1], "a switch that was built before the line `before`")
        self.switch.kill()
        self.switch.start()
        self.assertEqual(self.client.state(), (None, False))

    def test_waits(self) -> None:
        for condition, status in (("settled", REACHED), ("phase=paused", NEVER)):
            waited = wait_for(self.client, Conditions([condition]), 5, lambda _: None)
            self.assertEqual(waited.status, status)
        self.by_hand("deploy web-v2 3 4")
        waited = wait_for(self.client, Conditions(["phase=paused"]), 0.3, lambda _: None)
        self.assertEqual(waited.status, TOO_LATE)


class WithAJournal(WithJournal):
    def setUp(self) -> None:
        super().setUp()
        self.client = Switch(self.switch.port, 5)

    def test_an_order_that_is_not_saved_was_carried_out(self) -> None:
        self.failing.fails = True
        answer = self.client.deploy("web-v2", [3, 4])
        self.assertEqual(
            (answer.lines, answer.carried_out, answer.meaning, answer.note),
            (["unsaved 0"], True, UNSAVED, "makes revision 2 web-v2"),
        )
        refused = self.client.promote()
        self.assertEqual((refused.lines, refused.carried_out), (["refused JournalFailed"], False))

    def test_whether_it_lacks_an_order(self) -> None:
        """To ask changes nothing, but that the switch tries once more."""
        self.assertFalse(self.client.state()[1])
        self.failing.fails = True
        self.assertFalse(self.client.state()[1], "each order is kept")
        self.client.abort()
        self.client.deploy("web-v2", [3, 4])
        before, (after, lacks_order) = self.client.report(), self.client.state()
        self.assertEqual((before, lacks_order), (after, True))
        self.failing.fails = False
        self.assertFalse(self.client.state()[1])
        self.assertEqual(self.client.report(), before)


if __name__ == "__main__":
    unittest.main()
