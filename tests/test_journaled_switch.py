"""The controller before a switch with a journal: a start resumes the book, so there is nothing to
open, and nothing is lost but an order that was not saved."""
import io
import pathlib
import time
import unittest
from collections.abc import Sequence
from unittest import mock

from bg_switch_tools.controller import cli as controller_cli
from bg_switch_tools.controller.history.attempts import LOST
from bg_switch_tools.controller.history.history_file import HistoryFile
from bg_switch_tools.controller.rounds import book_opener
from bg_switch_tools.controller.state.state_file import StateFile
from bg_switch_tools.switch.moments import Clock
from tests.test_controller import NAMES, ControllerCase
from tests.tool_runs import comes

OPENED = "no book is open: it is opened with"
NEW_BOOK = (OPENED, "started again", "is begun again", "lost with the book")


class Clocks(unittest.TestCase):
    def test_a_book_goes_on_where_it_was_once_its_switch_was_down(self) -> None:
        clock = Clock()
        clock.begin_at(500)
        clock.follow(20)
        self.assertEqual(clock.moment(), 500, "it was ticked on all the time")
        clock.is_stopped = True
        moments = list[int]()
        for moment in (20, 30, 10):
            clock.follow(moment)
            moments.append(clock.moment())
        self.assertEqual(moments, [20, 30, 30])


class JournaledCase(ControllerCase):
    """A controller before a switch with a journal."""

    has_journal = True

    def resume_switch(self) -> None:
        """The switch is killed, and started again with its journal."""
        self.switch.kill()
        self.switch.lines.clear()
        self.switch.start()
        self.some_rounds()

    def told_of_new_book(self) -> list[str]:
        """What the log has of a new book, but for the first opening."""
        return [text for text in NEW_BOOK if self.log().count(text) > (text == OPENED)]

    def assert_resumed(self, *lines: str) -> None:
        """The controller goes on by the report, and has sent these lines since the start."""
        self.assertEqual((self.switch.sent_lines(), self.told_of_new_book()), ([*lines], []))
        path = pathlib.Path(f"{self.plan.path}.state.history")
        self.assertNotIn(f'"{LOST}"', path.read_text(encoding="ascii"))

    def fail_at(self, word: str) -> None:
        """The journal fails from the next line of this word on."""
        answer, failed = self.switch.control.answer, list[str]()

        def fails(line: str) -> Sequence[str] | None:
            if line.startswith(word) and not failed:
                failed.append(line)
                self.journal.fails = True
            return answer(line)

        self.switch.control.answer = fails


class Restarts(JournaledCase):
    def test_an_attempt_goes_on_where_it_was(self) -> None:
        self.v3_is_paused()
        for _ in range(2):
            self.resume_switch()
            self.assert_resumed()
        book = self.switch.book
        self.assertEqual(
            (book.phase, book.active, book.stable, book.newest), ("paused", 2, 2, 3), self.log()
        )
        attempts = HistoryFile(self.plan.path).read()[0].all
        self.assertEqual(
            [(each.name, each.number, each.how) for each in attempts],
            [("web-v1", 1, "stable"), ("web-v2", 2, "stable"), ("web-v3", 3, "")],
        )

    def test_a_promote_directly_before_a_crash_stands(self) -> None:
        """No report has shown it."""
        self.v3_is_paused()
        self.by_hand("promote")
        self.resume_switch()
        self.assert_resumed()
        self.assertEqual((self.switch.book.phase, self.switch.book.stable), ("steady", 3))

    def test_an_aborted_attempt_stays_aborted(self) -> None:
        self.v3_is_paused()
        self.by_hand("abort")
        self.resume_switch()
        self.assert_resumed()
        self.assertEqual((self.switch.book.phase, self.switch.book.newest), ("aborted", 3))
        self.by_hand("retry")
        self.assertEqual(self.switch.book.phase, "paused")

    def test_a_revision_that_was_deployed_by_hand_stays(self) -> None:
        self.v3_is_paused()
        self.by_hand("deploy hotfix 1 2")
        self.resume_switch()
        self.assert_resumed()
        self.assertEqual(self.switch.book.revisions[4].name, "hotfix")

    def test_the_moment_goes_on(self) -> None:
        self.v3_is_paused()
        self.by_hand("tick 5000")
        self.resume_switch()
        first = self.switch.book.moment
        self.assertGreaterEqual(first, 5000)
        self.assertTrue(comes(lambda: self.switch.book.moment > first))
        self.assertLess(self.switch.book.moment, 5060)

    def test_no_delay_passes_while_it_is_down(self) -> None:
        """Of a second, in which the controller tries to connect."""
        self.stack.enter_context(mock.patch.object(controller_cli, "CONNECT", 0.1))
        self.v3_is_paused()
        self.by_hand("tick 5000")
        self.some_rounds()
        self.switch.kill()
        self.await_log("no answer: port")
        time.sleep(3)
        self.switch.lines.clear()
        self.switch.start()
        self.assertTrue(comes(lambda: self.switch.book.moment > 5001), self.log())
        ticks = [int(line.split()[1]) for line in self.switch.lines if line.startswith("tick ")]
        self.assertLess(ticks[0], 5003)

    def test_both_are_started_again(self) -> None:
        runner = self.v3_is_paused()
        runner.stop()
        self.switch.kill()
        self.switch.lines.clear()
        self.switch.start()
        self.start()
        self.some_rounds()
        self.assert_resumed()
        self.assertEqual((self.switch.book.phase, self.switch.book.newest), ("paused", 3))

    def test_the_plan_has_changed_meanwhile(self) -> None:
        """The attempt that was resumed is replaced, as in a book that was open all the time."""
        self.write(*NAMES[:2])
        self.start()
        self.await_book("paused", 2)
        self.switch.kill()
        self.write(*NAMES)
        self.await_log("the plan has changed: its control port is")
        self.switch.lines.clear()
        self.switch.start()
        self.await_book("paused", 3)
        self.assert_resumed(f"deploy {self.words('web-v3')}", "available 3 2")

    def test_an_endpoint_that_died_meanwhile_is_reported(self) -> None:
        self.v3_is_paused()
        self.switch.kill()
        self.endpoints["web-v2"][1].stop()
        self.switch.lines.clear()
        self.switch.start()
        self.assertTrue(comes(lambda: "available 2 1" in self.switch.lines), self.log())
        self.assert_resumed("available 2 1")

    def test_no_book_was_opened_before_the_crash(self) -> None:
        self.switch.kill()
        self.switch.start()
        self.write("web-v1")
        self.start()
        self.await_book("steady", 1)
        self.assertEqual(
            self.switch.sent_lines(), [f"open {self.words('web-v1')}", "available 1 2"]
        )

    def test_it_is_another_book_whose_journal_was_removed(self) -> None:
        self.v3_is_paused()
        self.switch.kill()
        self.switch.journal = None
        self.switch.start()
        self.await_log("the switch was started again", "it is opened with web-v2, which was stable")

    def test_a_first_opening_that_the_journal_does_not_keep_is_tried_again(self) -> None:
        self.journal.fails = True
        self.write("web-v1")
        with mock.patch.object(book_opener, "AGAIN", 0.3), mock.patch("sys.stderr", io.StringIO()):
            self.start()
            self.await_log("no book is open, and clients wait: ", "=> refused JournalFailed")
            self.journal.fails = False
            self.await_book("steady", 1)


class Analyses(JournaledCase):
    steps = ("pre", "pause", "post")

    def test_one_that_runs_goes_on(self) -> None:
        judged = pathlib.Path(self.folder, "judged")
        command = f"echo begun; until [ -e {judged} ]; do sleep 0.05; done"
        self.write(*NAMES[:2], analyses={"pre": ["sh", "-c", command], "seconds": 60})
        self.start()
        self.await_log("analysis pre of web-v2 begins")
        self.resume_switch()
        judged.touch()
        self.await_book("paused", 2)
        self.assert_resumed("verdict pre successful")
        self.assertEqual(self.log().count("analysis pre of web-v2 begins"), 1)

    def test_a_verdict_that_was_lost_is_found_anew(self) -> None:
        self.fail_at("verdict")
        self.write(*NAMES[:2], analyses={"pre": ["true"], "seconds": 60})
        self.start()
        self.await_book("paused", 2)
        self.await_log("verdict pre successful => unsaved")
        self.switch.kill()
        self.journal.fails = False
        self.switch.start()
        self.await_log("verdict pre successful => ok")
        self.await_book("paused", 2)
        self.assertEqual(self.log().count("analysis pre of web-v2 begins"), 2)
        self.assertEqual(self.told_of_new_book(), [])


class Failing(JournaledCase):
    """The disk of the journal takes nothing for a while."""

    def deploy_unsaved(self) -> None:
        """The plan names web-v2 last, and its deploy is not saved."""
        self.write("web-v1")
        self.start()
        self.await_book("steady", 1)
        self.fail_at("deploy")
        self.write(*NAMES[:2])
        self.await_log(f"deploy {self.words('web-v2')} => unsaved 0: it was carried out, but")

    def begin_again(self, keeps_doubted: bool) -> None:
        self.switch.kill()
        self.journal.keeps_doubted, self.journal.fails = keeps_doubted, False
        self.switch.lines.clear()
        self.switch.start()

    def deploys(self) -> list[str]:
        return [line for line in self.switch.sent_lines() if line.startswith("deploy")]

    def test_it_is_told_and_goes_on_by_itself(self) -> None:
        self.v3_is_paused()
        self.journal.fails = True
        self.await_log(
            " => unsaved 0: it was carried out", " => refused JournalFailed: the journal"
        )
        self.some_rounds()
        self.assertEqual(self.log().count("=> refused JournalFailed"), 1)
        moment = self.switch.book.moment
        self.journal.fails = False
        self.assertTrue(comes(lambda: self.switch.book.moment > moment), self.log())
        self.assertIsNone(self.journal.doubted)

    def test_a_tick_that_a_crash_has_undone_makes_no_new_book(self) -> None:
        self.v3_is_paused()
        self.journal.fails = True
        self.await_log("=> unsaved 0", "=> refused JournalFailed")
        self.switch.lines.clear()
        self.begin_again(False)
        self.some_rounds()
        self.assert_resumed()

    def test_an_unsaved_deploy_that_a_crash_has_undone_comes_again(self) -> None:
        self.deploy_unsaved()
        self.begin_again(False)
        self.await_book("paused", 2)
        self.assertEqual(
            (self.deploys(), self.told_of_new_book()), ([f"deploy {self.words('web-v2')}"], [])
        )

    def test_an_unsaved_deploy_that_a_crash_has_left_stands(self) -> None:
        """The switch is asked whether it has the ports of the plan."""
        self.deploy_unsaved()
        self.begin_again(True)
        self.await_book("paused", 2)
        self.assertTrue(comes(self.is_deployed), self.log())
        deploy = f"deploy {self.words('web-v2')}"
        self.assertEqual((self.deploys(), self.told_of_new_book()), ([deploy], []))

    def test_an_unsaved_deploy_counts_once_it_is_saved(self) -> None:
        """It is not held back: its attempt runs."""
        self.deploy_unsaved()
        self.some_rounds()
        state = StateFile(self.plan.path).read()[0]
        self.assertEqual((self.is_deployed(), state.held), (False, ()))
        self.journal.fails = False
        self.await_book("paused", 2)
        self.assertTrue(comes(self.is_deployed), self.log())

    def is_deployed(self) -> bool:
        deployed = StateFile(self.plan.path).read()[0].deployed
        return deployed is not None and deployed.name == "web-v2"

    def test_a_deploy_that_is_refused_is_held_back(self) -> None:
        self.write("web-v1")
        self.start()
        self.await_book("steady", 1)
        self.journal.fails = True
        self.by_hand_unsaved("tick 700")
        self.write(*NAMES[:2])
        self.await_log("web-v2 is held back: the switch refuses to deploy web-v2")

    def by_hand_unsaved(self, line: str) -> None:
        self.assertTrue((self.switch.book.answer(line) or [""])[0].startswith("unsaved "))


if __name__ == "__main__":
    unittest.main()
