"""The moments that a controller ticks, and how far a moment that somebody else has set is
believed."""
import time

DAY = 86400  # seconds: how far ahead of the clock a moment may be


class Clock:
    """Counts the moments of a book by the monotonic clock, on from the moment that the book had."""

    def __init__(self) -> None:
        self.start = time.monotonic()  # the time at which the moment was 0
        self.is_stopped = False  # whether the switch was found to be down since the latest moment

    def begin_at(self, moment: int) -> None:
        """The book has this moment now."""
        self.start, self.is_stopped = time.monotonic() - moment, False

    def follow(self, moment: int) -> None:
        """The book has at least this moment now: somebody may have ticked further. If its switch was
        down meanwhile, the book goes on where it was: no delay passes while a switch is down."""
        if self.is_stopped:
            self.begin_at(moment)
        self.start = min(self.start, time.monotonic() - moment)

    def moment(self) -> int:
        """The moment that it is now."""
        return int(time.monotonic() - self.start)


def believed(moment: int, since: int, now: float) -> int:
    """The moment, or the latest one that can be true if that is earlier: a day after the seconds
    that have passed since the moment was 0. `since` and `now` are seconds of the system's clock
    (Unix time)."""
    return max(0, min(moment, int(now - since) + DAY))
