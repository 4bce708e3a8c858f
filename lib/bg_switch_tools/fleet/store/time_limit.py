"""A limit on the time that several steps may take together."""
import time


class TimeLimit:
    """Begins now, and is over after `seconds` seconds of the monotonic clock."""

    def __init__(self, seconds: float) -> None:
        self._end = time.monotonic() + seconds

    def rest(self) -> float:
        """The seconds that are left, 0 if none are."""
        return max(0.0, self._end - time.monotonic())

    def left(self) -> float:
        """The seconds that are left, which are above 0. `TimeoutError` if none are."""
        seconds = self.rest()
        if not seconds:
            raise TimeoutError
        return seconds

    def share(self, count: int) -> "TimeLimit":
        """An equal share of the time that is left, for one of `count` steps. `TimeoutError` if none
        is left."""
        return TimeLimit(self.left() / count)

    def extend(self, other: "TimeLimit") -> None:
        """From now on it is over when the other one is."""
        self._end = other._end
