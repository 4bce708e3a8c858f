"""Tells in the log that a switch gives no answer."""
import time

from bg_switch_tools.controller.log import Log


class SwitchSilence:
    """Tells in the log when the switch gives no answer: when that begins, again and again, and when
    it ends."""

    def __init__(self, log: Log, period: float) -> None:
        """`period` are the seconds between two lines of the log while it lasts."""
        self.log = log
        self.period = period
        self.since = self.next = 0.0
        self.lasts = False

    def begin(self, reason: str) -> None:
        now = time.monotonic()
        if not self.lasts:
            self.lasts, self.since, self.next = True, now, now + self.period
            self.log.say("switch", f"no answer: {reason}")
        elif now >= self.next:
            self.next += self.period
            self.log.say("switch", f"no answer for {now - self.since:.0f} seconds: {reason}")

    def end(self) -> None:
        if self.lasts:
            self.log.say(
                "switch", f"answers again, after {time.monotonic() - self.since:.0f} seconds"
            )
        self.lasts = False
