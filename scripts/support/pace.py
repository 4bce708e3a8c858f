"""The pace of the machine: limits that only say `not for ever` are wider if it is busy or slow.

If a limit is what is checked, a check compares with a control in the same run, or looks at the
order of events.
"""
import os
import pathlib
import statistics
import subprocess
import sys
import threading
import time
from collections.abc import Callable

# The work by which the pace is measured: the start of a process, and a little that it computes. It
# takes `FREE` seconds on a free machine.
WORK = (sys.executable, "-I", "-S", "-c", "for _ in range(300_000): pass")
FREE = 0.025
RUNS = 5
BUSY = 1.5  # from this slowness on a machine is busy
# The number of threads that run or wait for a processor is in its fourth word.
LOADS = pathlib.Path("/proc/loadavg")


def slowness() -> float:
    """How many times as long as on a free machine the work takes now, or took in the last minute,
    by the number of threads that had to share a processor; 1 at least. It takes a tenth of a
    second."""
    seconds, threads = list[float](), list[int]()
    for _ in range(RUNS):
        seconds.append(seconds_of_work())
        threads.append(runnable_threads())
    sharing = max(statistics.median(threads), os.getloadavg()[0])
    shared = sharing / len(os.sched_getaffinity(0))
    return max(1.0, shared, statistics.median(seconds) / FREE)


def seconds_of_work() -> float:
    start = time.monotonic()
    subprocess.run(WORK, stdin=subprocess.DEVNULL, check=True)
    return time.monotonic() - start


def runnable_threads() -> int:
    """How many threads of the machine run or wait for a processor now, but for the one that
    asks."""
    return int(LOADS.read_text(encoding="ascii").split()[3].partition("/")[0]) - 1


def is_busy() -> bool:
    """Whether the machine is so slow that a limit in seconds says little."""
    return slowness() >= BUSY


def widened(limit: float) -> float:
    """A limit in seconds as the machine can keep it now."""
    return limit * slowness()


def is_within(seconds: float, limit: float) -> bool:
    """Whether this took no longer than the limit. The pace is measured only if the limit itself is
    not kept."""
    return seconds <= limit or seconds <= widened(limit)


def at_the_limit(limit: float, end: Callable[[], object]) -> threading.Thread:
    """Calls `end` in a thread once the limit is over, as the machine keeps it then. The thread ends
    with the program."""

    def wait() -> None:
        time.sleep(limit)
        time.sleep(widened(limit) - limit)
        end()

    thread = threading.Thread(target=wait, daemon=True)
    thread.start()
    return thread
