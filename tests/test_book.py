"""Which lines and replies a controller's book puts into the log, and how often."""
import io
import unittest
from unittest import mock

from bg_switch_tools.controller.lines.book import AGAIN, Book
from bg_switch_tools.controller.log import Log
from bg_switch_tools.switch.lines import Abort, Before, Deploy, Line, Promote, Tick
from bg_switch_tools.switch.replies import TOO_LATE, Done, Refused, Reply

BACK, NOT_PAUSED = Refused("MomentBack"), Refused("NotPaused")


class Noted(unittest.TestCase):
    def setUp(self) -> None:
        self.out = io.StringIO()
        self.book = Book(Log(self.out, False))
        self.now = 0.0
        clock = mock.patch(f"{Book.__module__}.time.monotonic", lambda: self.now)
        clock.start()
        self.addCleanup(clock.stop)

    def check(self, line: Line, reply: Reply, *told: str) -> None:
        """What this reply adds to the log."""
        self.out.seek(0)
        self.out.truncate()
        self.assertIs(self.book.note(line, reply), reply)
        texts = [text.partition(" ")[2] for text in self.out.getvalue().splitlines()]
        self.assertEqual(texts, list(told))

    def test_a_line_that_was_carried_out(self) -> None:
        self.check(Deploy("web-v2", (1, 2)), Done(1), "deploy web-v2 1 2 => ok 1")
        self.check(Before(5, Promote()), Done(0), "before 5 promote => ok 0")
        self.assertTrue(self.book.has_sent)

    def test_a_tick_is_not_told(self) -> None:
        self.check(Tick(5), Done(0))
        self.assertTrue(self.book.has_sent)

    def test_a_refusal_is_told_once_a_minute(self) -> None:
        told = "abort => refused NotPaused: the rollout is not paused"
        self.check(Abort(), NOT_PAUSED, told)
        self.now = AGAIN - 0.1
        self.check(Abort(), NOT_PAUSED)
        self.now = AGAIN
        self.check(Abort(), NOT_PAUSED, told)
        self.assertFalse(self.book.has_sent)

    def test_another_moment_or_time_limit_is_not_another_line(self) -> None:
        told = "the moment lies before the book's"
        self.check(Tick(5), BACK, f"tick 5 => refused MomentBack: {told}")
        self.check(Tick(6), BACK)
        late = f"before 5 promote => {TOO_LATE.with_meaning()}"
        self.check(Before(5, Promote()), TOO_LATE, late)
        self.check(Before(6, Promote()), TOO_LATE)
        self.check(Promote(), NOT_PAUSED)

    def test_a_refusal_is_told_again_after_a_success(self) -> None:
        told = "promote => refused NotPaused: the rollout is not paused"
        self.check(Promote(), NOT_PAUSED, told)
        self.check(Before(7, Promote()), Done(1), "before 7 promote => ok 1")
        self.check(Promote(), NOT_PAUSED, told)


if __name__ == "__main__":
    unittest.main()
