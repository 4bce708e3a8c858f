"""Connections of another user, for scripts that root runs."""
import contextlib
import ctypes
import os
import socket
from collections.abc import Iterator

from bg_switch_tools.switch.control import Control

from support.clients import connect

# A user without rights.
NOBODY = 65534
SYSTEM = ctypes.CDLL(None, use_errno=True)


def is_root() -> bool:
    return os.geteuid() == 0


@contextlib.contextmanager
def sockets_of(user: int) -> Iterator[None]:
    """The sockets that this thread makes in the block belong to this user (setfsuid(2)). Other
    threads aren't affected."""
    before = SYSTEM.setfsuid(user)
    try:
        yield
    finally:
        SYSTEM.setfsuid(before)


def connect_as(user: int, at: Control) -> socket.socket:
    """A connection of this user to a port, or to the Unix socket of a path."""
    with sockets_of(user):
        return connect(at)


@contextlib.contextmanager
def files_of_group(group: int) -> Iterator[None]:
    """This thread opens files as a member of this group in the block (setfsgid(2))."""
    before = SYSTEM.setfsgid(group)
    try:
        yield
    finally:
        SYSTEM.setfsgid(before)
