"""Ports of 127.0.0.1 that belong to this process until it ends, so that no two tests or drills that
run side by side take one."""
import random
import socket

HOST = "127.0.0.1"
# The names of the ports that this process has. Linux keeps a name until its socket is closed, and
# so until the process ends.
KEPT = list[socket.socket]()


def named(port: int) -> socket.socket | None:
    """The socket that has a port's name; None if another process has the name, or something listens
    at the port."""
    name = socket.socket(socket.AF_UNIX)
    try:
        name.bind(f"\0bg-test-port-{port}")
        with socket.socket() as there:
            there.bind((HOST, port))
    except OSError:
        name.close()
        return None
    return name


def reserved_block(ports: range, count: int) -> int:
    """The first of `count` ports of a range, one after the other, that nothing listens at. They are
    reserved."""
    while True:
        first = random.choice(ports[: len(ports) - count + 1])
        names = [named(port) for port in range(first, first + count)]
        taken = [name for name in names if name]
        if len(taken) == count:
            KEPT.extend(taken)
            return first
        for name in taken:
            name.close()


def reserved(ports: range) -> int:
    """A port of a range that nothing listens at. It is reserved."""
    return reserved_block(ports, 1)
