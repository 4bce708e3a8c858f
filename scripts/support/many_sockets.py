"""Connected sockets on this machine, which processes of their own hold: more than a script may have,
and than one port has peers.

As a program: `many_sockets.py COUNT` holds COUNT of them, prints `ready`, and ends with its input.
"""
import contextlib
import resource
import socket
import subprocess
import sys
from collections.abc import Iterator

HOST = "127.0.0.1"
OF_A_HOLDER = 16_000  # sockets of one process, which the usual hard limit of descriptors allows
FURTHER = 100  # descriptors of a process beside those of its sockets


@contextlib.contextmanager
def many_sockets(count: int) -> Iterator[None]:
    """`count` further sockets of this machine."""
    with contextlib.ExitStack() as stack:
        holders = []
        for begun in range(0, count, OF_A_HOLDER):
            words = [sys.executable, __file__, str(min(count - begun, OF_A_HOLDER))]
            holder = subprocess.Popen(words, stdin=subprocess.PIPE, stdout=subprocess.PIPE)
            holders.append(stack.enter_context(holder))
        for holder in holders:
            assert holder.stdout is not None
            if holder.stdout.readline() != b"ready\n":
                raise OSError(f"{count} sockets can't be had")
        yield


def hold(count: int) -> None:
    """Holds `count` sockets until the input ends."""
    most = resource.getrlimit(resource.RLIMIT_NOFILE)[1]
    resource.setrlimit(resource.RLIMIT_NOFILE, (count + FURTHER, most))
    with contextlib.ExitStack() as stack:
        listener = stack.enter_context(socket.create_server((HOST, 0), backlog=64))
        for _ in range(count // 2):
            stack.enter_context(socket.create_connection(listener.getsockname()))
            stack.enter_context(listener.accept()[0])
        print("ready", flush=True)
        sys.stdin.read()


if __name__ == "__main__":
    hold(int(sys.argv[1]))
