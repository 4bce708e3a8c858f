"""Waits until conditions on a fleet hold, or can't come to hold any more."""
import time
from collections.abc import Callable
from typing import NamedTuple

from bg_switch_tools.fleet.exit_statuses import DONE, NO_ANSWER, REFUSED
from bg_switch_tools.fleet.person.conditions import Conditions
from bg_switch_tools.fleet.store.store import Snapshot, Store, StoreError, StoreRefusedError

PAUSE = 0.2  # seconds between two reads at least
LONGEST_WATCH = (
    2.0  # seconds for which a change is awaited before the next read, since an event can be lost
)
See = Callable[[Snapshot], None]
Lose = Callable[[StoreError], None]


class WaitResult(NamedTuple):
    """How a wait has ended: `DONE`, `REFUSED` if the conditions can't hold any more, `NO_ANSWER` if
    the time is over or the store refuses the reads; the reason of the latter two; the latest
    read."""

    status: int
    reason: str
    snapshot: Snapshot | None


def wait_for_change(store: Store, after: int, seconds: float) -> None:
    """Waits for a change after this revision of the store, for at most `seconds` seconds, and for a
    pause at least."""
    begun, least = time.monotonic(), min(PAUSE, seconds)
    try:
        store.wait(after, seconds)
    except StoreError:  # the next read tells of it
        least = seconds
    time.sleep(max(least - (time.monotonic() - begun), 0.0))


def wait_for(
    store: Store, conditions: Conditions, timeout: float, see: See, lose: Lose
) -> WaitResult:
    """Waits for conditions, for `timeout` seconds and the end of a call at most. `see` is given
    each read that does not end the wait, and `lose` each fault of the store that is no refusal,
    which does not end it either."""
    deadline = time.monotonic() + timeout
    snapshot, fault = None, ""
    while True:
        try:
            snapshot, fault = store.read(), ""
        except StoreRefusedError as refusal:
            return WaitResult(NO_ANSWER, str(refusal), snapshot)
        except StoreError as lost:
            fault = str(lost)
            lose(lost)
        else:
            outlook = conditions.outlook(snapshot)
            if outlook.holds or outlook.never:
                return WaitResult(DONE if outlook.holds else REFUSED, outlook.never, snapshot)
            see(snapshot)
        left = deadline - time.monotonic()
        if left <= 0:
            break
        if snapshot is None or fault:
            time.sleep(min(PAUSE, left))
        else:
            wait_for_change(store, snapshot.revision, min(LONGEST_WATCH, left))
    reason = f"{' '.join(conditions.texts)} does not hold after {timeout:g} seconds" + (
        f": {fault}" if fault else ""
    )
    return WaitResult(NO_ANSWER, reason, snapshot)
