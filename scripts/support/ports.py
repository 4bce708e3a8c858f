"""Ports of 127.0.0.1 that nothing listens at, whether connections to a port are refused, and whether
the machine has IPv6."""
import itertools
import os
import pathlib
import socket
import sys
import threading
from collections.abc import Iterator

from support.checks import LONGEST_WAIT, comes

HOST = "127.0.0.1"
IPV6 = "::1"
# The scripts that run side by side. Each takes its ports from a share of its own, so that none
# takes another's; all are below those that the system gives to connections of itself.
SCRIPTS = (
    "live",
    "live_starting",
    "live_timeouts",
    "live_resources",
    "live_attack",
    "live_random",
    "live_operator",
    "live_controller",
    "live_crash",
    "live_readme",
    "live_operating",
    "live_clients",
    "live_endpoints",
    "live_control",
    "live_shutdown",
    "live_production",
    "live_access_log",
    "live_access_log_random",
    "live_history",
    "live_dashboard",
    "live_analysis",
    "live_concurrency",
    "live_operators",
    "live_fleet_pages",
    "live_memory",
    "live_error_pages",
    "live_event_loop",
    "live_keep_alive",
    "keep_alive_clients",
    "keep_alive_soak",
    "live_journal",
    "live_resumed",
    "live_addresses",
    "live_containers",
    "live_streams",
    "live_forwarded",
    "live_upgrade",
    "live_uploads",
    "live_cut_uploads",
    "live_slow_uploads",
)
# The first port of the scripts, and the first that the system gives to connections of itself.
FIRST_PORT, SYSTEM_PORT = 19_500, 32_768
PORTS_EACH = (SYSTEM_PORT - FIRST_PORT) // len(SCRIPTS)
# The system's table of sockets, its columns, and the state of a socket that listens.
TABLE = pathlib.Path("/proc/net/tcp")
LOCAL, PEER, STATE, QUEUES, INODE = 1, 2, 3, 4, 9
LISTENS, ESTABLISHED = "0A", "01"


def all_ports() -> Iterator[int]:
    """The ports of the running script's share, again and again, from a place on that differs from
    run to run."""
    first = FIRST_PORT + PORTS_EACH * SCRIPTS.index(pathlib.Path(sys.argv[0]).stem)
    start = os.getpid() % PORTS_EACH
    for place in itertools.count():
        yield first + (start + place) % PORTS_EACH


def has_ipv6() -> bool:
    """Whether the machine has the address ::1."""
    try:
        socket.create_server((IPV6, 0), family=socket.AF_INET6).close()
    except OSError:
        return False
    return True


class FreePorts:
    """Gives ports of the share in turn, to parts that run side by side too."""

    def __init__(self) -> None:
        self.ports = all_ports()
        self.lock = threading.Lock()

    def take(self, count: int) -> list[int]:
        with self.lock:
            return [port for port, _ in zip(filter(is_free, self.ports), range(count))]


def is_free(port: int) -> bool:
    with socket.socket() as one:
        # A child that another thread starts has this socket too until it runs its program. With this
        # option the socket keeps no listener away, since it never listens.
        one.setsockopt(socket.SOL_SOCKET, socket.SO_REUSEADDR, 1)
        try:
            one.bind((HOST, port))
        except OSError:
            return False
    return True


FREE = FreePorts()


def free_ports(count: int) -> list[int]:
    """Ports that nothing listens at."""
    return FREE.take(count)


def free_port() -> int:
    return free_ports(1)[0]


def refuses(port: int) -> bool:
    """Whether a connection to a port is refused now."""
    try:
        socket.create_connection((HOST, port), timeout=LONGEST_WAIT).close()
    except ConnectionRefusedError:
        return True
    except (ConnectionResetError, TimeoutError):
        # one that nobody accepts times out once the backlog is full
        pass
    return False


def is_refused(port: int) -> bool:
    """Whether connections to a port are refused, from a moment on that comes soon."""
    return comes(lambda: refuses(port))


def rows_at(port: int) -> list[list[str]]:
    """The rows of the sockets of programs at a port of this machine, in the system's table."""
    place = f":{port:04X} "
    # the table may have tens of thousands of rows of connections that have ended, which aren't
    # split
    rows = [
        line.split() for line in TABLE.read_text(encoding="ascii").splitlines() if place in line
    ]
    return [
        fields for fields in rows if fields[LOCAL].endswith(place.rstrip()) and fields[INODE] != "0"
    ]


def sockets_at(port: int) -> list[str]:
    """The states of the sockets of programs at a port of this machine, by the system's table, as it
    writes them."""
    return [fields[STATE] for fields in rows_at(port)]


def unread_at(port: int) -> int:
    """How many bytes have come for the connections of a port that its program has not read."""
    return sum(
        int(fields[QUEUES].partition(":")[2], 16)
        for fields in rows_at(port)
        if fields[STATE] != LISTENS
    )


def has_delivered(port: int) -> bool:
    """Whether all that the program of a port has sent on its connections has come to its peers."""
    return all(
        fields[QUEUES].startswith("00000000:")
        for fields in rows_at(port)
        if fields[STATE] != LISTENS
    )


def has_closed_all(port: int) -> bool:
    """Whether the program of a port has closed each connection that it has accepted."""
    return ESTABLISHED not in sockets_at(port)


def inodes_at(port: int) -> set[str]:
    """The numbers of the sockets of the connections that a program keeps at a port (`lsof -i`)."""
    return {fields[INODE] for fields in rows_at(port) if fields[STATE] != LISTENS}


def is_accepted(client: socket.socket) -> bool:
    """Whether the program of a port of this machine has accepted a client. Counts before and after
    don't tell it: while sockets come and go, a read of the table may miss some."""
    port, own = client.getpeername()[1], client.getsockname()[1]
    return any(fields[PEER].endswith(f":{own:04X}") for fields in rows_at(port))


def is_open(port: int) -> bool:
    """Whether a port of this machine is listened at: a connection would count."""
    return LISTENS in sockets_at(port)


def connections_at(port: int) -> int:
    """How many connections a program keeps at a port."""
    return sum(state != LISTENS for state in sockets_at(port))
