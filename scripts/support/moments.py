"""The moments by which what happens on this machine is recorded."""
import time


def moment() -> float:
    """The seconds of the boot clock (clock_gettime(2), CLOCK_BOOTTIME). All processes of the machine
    have the same one, and a step of the wall clock does not change it."""
    return time.clock_gettime(time.CLOCK_BOOTTIME)
