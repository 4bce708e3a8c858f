"""Checks, which are counted, and the run of the parts of a script."""
import concurrent.futures
import faulthandler
import os
import statistics
import sys
import threading
import time
import traceback
from collections.abc import Callable, Sequence
from typing import NoReturn

from support import TOP
from support.pace import at_the_limit, is_busy, is_within, widened

# How long a check waits, in seconds, for what is to come soon. This limit, and each below, is wider
# on a busy machine.
LONGEST_WAIT = 30
# How long a script may take, in seconds; and one whose parts are named or run by hand.
LONGEST_RUN, LONGEST_BY_HAND = 170, 1800
# For how many seconds a script goes on that writes where its threads are, since it has taken too
# long.
TRACE = 1
TIMES = 10  # see `check_beside`
PAUSE = 0.02  # seconds between two looks at what is awaited

Part = Callable[[], None]


class Counts:
    """How many checks have passed and failed; parts that run side by side share it."""

    def __init__(self) -> None:
        self.passed = self.failed = 0
        self.lock = threading.Lock()

    def add(self, has_passed: bool) -> None:
        with self.lock:
            if has_passed:
                self.passed += 1
            else:
                self.failed += 1


COUNTS = Counts()


def fail(name: str, why: str) -> None:
    COUNTS.add(False)
    print(f"FAILED: {name}: {why}", flush=True)


def check(name: str, got: object, expected: object) -> None:
    """Counts whether this is what was wanted, and prints both if it isn't."""
    if got == expected:
        COUNTS.add(True)
    else:
        fail(name, f"{got!r}, not {expected!r}")


def check_within(name: str, got: float, most: float) -> None:
    """Counts whether this is at most so much."""
    if got <= most:
        COUNTS.add(True)
    else:
        fail(name, f"{got:.2f}, which is above {most:g}")


def check_soon(name: str, seconds: float, most: float) -> None:
    """Counts whether this took at most `most` seconds, or as many more as the machine is slower
    than a free one. It fits a limit that says `not for ever`."""
    if is_within(seconds, most):
        COUNTS.add(True)
    else:
        fail(
            name, f"{seconds:.2f} seconds, which is above {most:g}, though the machine is no slower"
        )


def check_beside(
    name: str, seconds: Sequence[float], elsewhere: Sequence[float], most: float
) -> None:
    """Counts whether each of these calls took at most `most` seconds; or, on a busy machine, no
    longer than TIMES as long as the slowest of the same calls that were made in turn with them, but
    not beside what could hold them up. There a single call may be late by chance, so the medians may
    be compared, too.
    """
    slowest, slowest_elsewhere = max(seconds), max(elsewhere, default=0.0)
    median, median_elsewhere = statistics.median(seconds), statistics.median(elsewhere or [0.0])
    if (
        slowest <= TIMES * slowest_elsewhere
        or is_within(slowest, most)
        or (median <= TIMES * median_elsewhere and is_busy())
    ):
        COUNTS.add(True)
    else:
        fail(
            name,
            f"{slowest:.3f} seconds, which is above {most:g}; elsewhere {slowest_elsewhere:.3f}; "
            f"the medians are {median:.3f} and {median_elsewhere:.3f}",
        )


def comes(holds: Callable[[], object], longest: float = LONGEST_WAIT) -> bool:
    """Whether this holds within `longest` seconds, or as many more as the machine is slower than a
    free one. It is asked again and again."""
    begun, limit, is_widened = time.monotonic(), longest, False
    while not holds():
        if time.monotonic() > begun + limit:
            if is_widened:
                return False
            limit, is_widened = widened(longest), True
        time.sleep(PAUSE)
    return True


def run_part(part: Part) -> None:
    """Runs a part. An exception is a failed check: a wait that has taken too long is one, too."""
    try:
        part()
    except Exception as error:  # pylint: disable=broad-except
        fail(part.__name__, "".join(traceback.format_exception(error)))


def run(
    name: str,
    parts: Sequence[Part],
    at_once: int = 1,
    by_hand: Sequence[Part] = (),
    longest: int = LONGEST_RUN,
) -> NoReturn:
    """Runs the parts in turn, or `at_once` at a time, and prints the counts; status 0 if no check
    has failed. The words name parts that are run alone; with `--by-hand` those are run that take
    too long for the gate. The script may take `longest` seconds."""
    at_the_limit(
        LONGEST_BY_HAND if sys.argv[1:] else longest,
        lambda: faulthandler.dump_traceback_later(TRACE, exit=True),
    )
    os.chdir(TOP)
    if sys.argv[1:] == ["--by-hand"]:
        parts = by_hand
    elif sys.argv[1:]:
        known = {part.__name__: part for part in (*parts, *by_hand)}
        if unknown := [word for word in sys.argv[1:] if word not in known]:
            print(
                f"{name}: there is no part {' '.join(unknown)}, but {' '.join(known)}",
                file=sys.stderr,
            )
            sys.exit(2)
        parts = [known[word] for word in sys.argv[1:]]
    with concurrent.futures.ThreadPoolExecutor(at_once) as pool:
        list(pool.map(run_part, parts))
    print(f"{name}: {COUNTS.passed} passed, {COUNTS.failed} failed", flush=True)
    sys.exit(COUNTS.failed != 0)
