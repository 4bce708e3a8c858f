"""The rest of an agent: while nothing is to be done in its fleet, it keeps its lease and reads
nothing, until something is changed, or may have been changed without a word.

At rest an agent stands on a watch of the store. A watch whose connection hangs is as silent as one
that has nothing to tell. So a rest ends with each sign that the store was not reached for a while,
and the watch is begun anew then.
"""
import random
import threading
import time
from collections.abc import Callable, Mapping, Sequence
from typing import Protocol

from bg_switch_tools.fleet.agent.wake import Wake
from bg_switch_tools.fleet.record.record import ORDER, Record, UnreadableError, View

# Seconds after which an agent at rest reads at the latest: what no sign tells of, such as a member
# of the store that keeps its watches and gives them no events, holds it up no longer. A read each
# minute costs the store less than the renewals of a lease in that time.
BOUND = 60.0
# Of the bound: by so much a rest is shorter at random, so that not all agents read at once.
SPREAD = 0.25
# Seconds by which a renewal, or the next look at the clock, may be late. Beyond, the store or this
# process was stopped for a while, and what was sent meanwhile may be lost.
LATE = 1.0
LOOK = 1.0  # seconds between two looks at the clock
SHORTEST = 0.05  # seconds between two reads, however often keys change

# What keeps a fleet from rest, by its name: something is to be done before a key changes.
UNREST: Mapping[str, Callable[[View, Record], bool]] = {
    "an attempt runs": lambda view, record: record.is_running,
    "another plan waits": lambda view, record: view.other_plan is not None,
    "an order stands": lambda view, record: view.key(ORDER) is not None,
    "nobody leads": lambda view, record: view.leader == 0,
}


def is_at_rest(view: View) -> bool:
    """Whether nothing is to be done in a fleet until somebody changes a key."""
    try:
        record = view.record
    except UnreadableError:
        return False
    return record is not None and not any(holds(view, record) for holds in UNREST.values())


class Standing:
    """The watch on which the threads of an agent stand while they rest. All threads may use it."""

    def __init__(self) -> None:
        self.wakes: Sequence[Wake] = ()
        self._lock = threading.Lock()
        self._after: int | None = (
            None  # the watch tells of changes after it; None if no watch stands
        )
        self._cut: Callable[[], None] | None = None

    def begin(self, after: int, cut: Callable[[], None]) -> None:
        """A watch stands. It tells of each change after this revision, and `cut` ends it."""
        with self._lock:
            self._after, self._cut = after, cut

    def end(self) -> None:
        """The watch has ended: who stands on it reads."""
        with self._lock:
            stood, self._after, self._cut = self._after is not None, None, None
        if stood:
            self.wake()

    def doubt(self) -> None:
        """The watch may hang: it is begun anew, and all read."""
        with self._lock:
            cut, self._after, self._cut = self._cut, None, None
        if cut:
            cut()
        self.wake()

    def wake(self) -> None:
        for wake in self.wakes:
            wake.wake()

    def covers(self, revision: int) -> bool:
        """Whether the watch tells of each change after a read of this revision."""
        with self._lock:
            return self._after is not None and self._after <= revision


class Resting(Protocol):
    """What a thread does while it rests."""

    def due(self) -> float:
        """The seconds until something is to be kept, 0 or less if that is now."""

    def keep(self) -> bool:
        """Keeps it. False if that tells that the store was not reached for a while."""


class Rest:
    """The rests of one thread."""

    def __init__(self, wake: Wake, standing: Standing, now: Callable[[], float]) -> None:
        self.wake = wake
        self.standing = standing
        self.now = now

    def pause(self, seconds: float) -> bool:
        """Waits until the thread is woken, but for at most `seconds` seconds. Gives whether it was
        woken."""
        return self.wake.wait(seconds, SHORTEST)

    def last(self, revision: int, seconds: float, resting: Resting) -> None:
        """Rests after a read of this revision, until the next one is due. If no watch tells of all
        changes after it, that is after `seconds` seconds, unless one does by then."""
        if not self.standing.covers(revision) and self.pause(seconds):
            return
        begun = time.monotonic()
        self._last(revision, resting)
        time.sleep(max(begun + SHORTEST - time.monotonic(), 0.0))

    def _last(self, revision: int, resting: Resting) -> None:
        end = self.end()
        while self.standing.covers(revision):
            now = self.now()
            seconds = max(min(resting.due(), end - now, LOOK), 0.0)
            if self.wake.wait(seconds):
                return
            is_over = self.now() >= end or self.was_stopped(now + seconds)
            if is_over or resting.due() <= 0 and not resting.keep():
                self.standing.doubt()
                return

    def end(self) -> float:
        """The moment at which a rest that begins now is over."""
        return self.now() + BOUND * random.uniform(1.0 - SPREAD, 1.0)

    def was_stopped(self, due: float) -> bool:
        """Whether this process was stopped for a while before it looks at the clock, which was due
        at this moment."""
        return self.now() > due + LATE
