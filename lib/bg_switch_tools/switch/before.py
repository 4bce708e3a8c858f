"""Time limits of lines: the switch carries LINE of `before MILLISECONDS LINE` out within a time limit of
the boot clock, or never, however long the sender or the switch was stopped meanwhile."""
import time

from bg_switch_tools.switch.lines import Before, Event

WORD = Before.word


def boot_clock() -> float:
    """Seconds since the machine's start, which count also while it is suspended. All processes of a
    machine read the same ones, but for those of another time namespace."""
    return time.clock_gettime(time.CLOCK_BOOTTIME)


def milliseconds_of(limit: float) -> int:
    """A time limit in seconds of the boot clock as a line has it, rounded down."""
    return max(int(limit * 1000), 0)


def before(limit: float, event: Event) -> Before:
    """This line with a time limit, in seconds of the boot clock."""
    return Before(milliseconds_of(limit), event)
