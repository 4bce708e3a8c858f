"""The wall clock of this machine, which all of its processes read."""
import ctypes
import os
import time

# linux/timex.h: the time is added to the clock at once, and its fraction is in nanoseconds
ADJ_SETOFFSET, ADJ_NANO = 0x0100, 0x2000
SIZE = 208  # of a timex with all of its fields


class Timex(ctypes.Structure):
    """The fields of struct timex up to the time, and the room of the others (adjtimex(2))."""

    _fields_ = [
        ("modes", ctypes.c_uint),
        ("before_time", ctypes.c_long * 8),
        ("seconds", ctypes.c_long),
        ("nanoseconds", ctypes.c_long),
        ("after_time", ctypes.c_byte * (SIZE - 88)),
    ]


def step_wall_clock(seconds: int) -> None:
    """Steps the wall clock by whole seconds, in one call, so that several drills may do so at a time.
    Raises OSError if it may not be set here."""
    step = Timex(modes=ADJ_SETOFFSET | ADJ_NANO, seconds=seconds)
    libc = ctypes.CDLL(None, use_errno=True)
    if libc.clock_adjtime(time.CLOCK_REALTIME, ctypes.byref(step)) < 0:
        number = ctypes.get_errno()
        raise OSError(number, f"the wall clock can't be set: {os.strerror(number)}")
