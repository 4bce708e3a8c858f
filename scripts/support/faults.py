"""Faults that the checks bring about in a program that begins: posts of a signal that are lost, and
watches that the system refuses."""
import ctypes
import errno
import platform
import struct
from collections.abc import Collection, Sequence

# prctl(2), for which Python has no function.
LIBRARY = ctypes.CDLL(None, use_errno=True)
PR_SET_NO_NEW_PRIVS, PR_SET_SECCOMP, SECCOMP_MODE_FILTER = 38, 22, 2
# The numbers of write(2) and epoll_ctl(2), and the operation of the latter that adds a descriptor to
# a set.
WRITE = {"x86_64": 1, "aarch64": 64}
EPOLL_CTL = {"x86_64": 233, "aarch64": 21}
EPOLL_CTL_ADD = 1
# A filter of system calls (seccomp(2)): its instructions, where it finds the call and its
# arguments, and what it decides.
LOAD, IS, IS_AT_LEAST, DECIDE = 0x20, 0x15, 0x35, 0x06
NUMBER, FIRST, SECOND, THIRD = 0, 16, 24, 32
FAIL, ALLOW = 0x00050000, 0x7FFF0000
Instruction = tuple[int, int, int, int]


def refuse_posts(signals: Collection[int]) -> None:
    """From now on each write of this process, and of the program that it begins, to one of these
    descriptors fails: a post of the signal that has it is lost (write(2))."""
    filter_calls(
        (
            (LOAD, 0, 0, NUMBER),
            (IS, 0, 1 + len(signals), WRITE[platform.machine()]),
            (LOAD, 0, 0, FIRST),
            *((IS, len(signals) - place, 0, signal) for place, signal in enumerate(signals)),
            (DECIDE, 0, 0, ALLOW),
            (DECIDE, 0, 0, FAIL | errno.EAGAIN),
        )
    )


def refuse_watches(least: int) -> None:
    """From now on the system refuses to let this process, and the program that it begins, watch
    descriptors from this one on, as if the limit of watches was reached (epoll_ctl(2))."""
    filter_calls(
        (
            (LOAD, 0, 0, NUMBER),
            (IS, 0, 5, EPOLL_CTL[platform.machine()]),
            (LOAD, 0, 0, SECOND),
            (IS, 0, 3, EPOLL_CTL_ADD),
            (LOAD, 0, 0, THIRD),
            (IS_AT_LEAST, 0, 1, least),
            (DECIDE, 0, 0, FAIL | errno.ENOSPC),
            (DECIDE, 0, 0, ALLOW),
        )
    )


def filter_calls(instructions: Sequence[Instruction]) -> None:
    """A filter decides on the system calls of this process from now on."""
    program = ctypes.create_string_buffer(
        b"".join(struct.pack("=HBBI", *instruction) for instruction in instructions)
    )
    filters = struct.pack("HxxxxxxP", len(instructions), ctypes.addressof(program))
    if LIBRARY.prctl(PR_SET_NO_NEW_PRIVS, 1, 0, 0, 0) or LIBRARY.prctl(
        PR_SET_SECCOMP, SECCOMP_MODE_FILTER, filters, 0, 0
    ):
        raise OSError(ctypes.get_errno(), "a filter of system calls")
