"""Endpoints of a store: a host and a port, and connections to it within a time limit."""
import concurrent.futures
import re
import socket
import threading
from collections.abc import Sequence
from typing import Any, NamedTuple

from bg_switch_tools.fleet.store.time_limit import TimeLimit
from bg_switch_tools.switch.json_values import GREATEST_PORT

# A name or an address of IPv4, or an address of IPv6 in brackets.
TEXT = re.compile(
    r"(?:\[([0-9A-Fa-f:.]{2,45})\]|([A-Za-z0-9_](?:[A-Za-z0-9._-]{0,251}[A-Za-z0-9_])?)):([1-9][0-9]{0,4})"
)
# After how many seconds without traffic a connection is probed, at what interval, and how many
# times: a peer that is gone is noticed within twenty seconds, and what stands between keeps the
# connection.
PROBES = (
    (socket.TCP_KEEPIDLE, 10),
    (socket.TCP_KEEPINTVL, 5),
    (socket.TCP_KEEPCNT, 2),
)
# as the system's lookup gives it
Address = tuple[socket.AddressFamily, socket.SocketKind, int, str, Any]
Addresses = Sequence[Address]


class StoreEndpoint(NamedTuple):
    """Where a member of a store takes connections: the name or the address of a host, and a
    port."""

    host: str
    port: int

    def __str__(self) -> str:
        return f"[{self.host}]:{self.port}" if ":" in self.host else f"{self.host}:{self.port}"


def store_endpoint_of(text: str) -> StoreEndpoint:
    """The endpoint of a text such as `10.0.0.1:2379`, `store-1:2379` or `[fd00::1]:2379`.
    `ValueError` if it is not an endpoint."""
    found = TEXT.fullmatch(text)
    if not found or int(found[3]) > GREATEST_PORT:
        raise ValueError(f"{text!r} is not HOST:PORT")
    if found[1]:
        try:
            socket.inet_pton(socket.AF_INET6, found[1])
        except OSError:
            raise ValueError(f"{text!r} has no address of IPv6 in its brackets") from None
    return StoreEndpoint(found[1] or found[2], int(found[3]))


class Lookups:
    """Looks the addresses of endpoints up. The system's lookup has no time limit, so a thread makes
    it, one at a time for each
    endpoint: lookups that hang do not add up."""

    def __init__(self) -> None:
        self._lock = threading.Lock()
        self._running: dict[StoreEndpoint, concurrent.futures.Future[Addresses]] = {}

    def addresses(self, endpoint: StoreEndpoint, limit: TimeLimit) -> Addresses:
        """The addresses of an endpoint. `OSError` if there is none, or if none is found in time."""
        with self._lock:
            found = self._running.get(endpoint)
            if found is None:
                found = self._running[endpoint] = concurrent.futures.Future()
                threading.Thread(target=self._look_up, args=(endpoint, found), daemon=True).start()
        return found.result(limit.left())

    def _look_up(
        self, endpoint: StoreEndpoint, found: "concurrent.futures.Future[Addresses]"
    ) -> None:
        try:
            addresses = socket.getaddrinfo(endpoint.host, endpoint.port, type=socket.SOCK_STREAM)
        except (OSError, UnicodeError) as error:
            found.set_exception(
                OSError(f"its address is not found ({getattr(error, 'strerror', None) or error})")
            )
        else:
            found.set_result(addresses)
        finally:
            with self._lock:
                del self._running[endpoint]


LOOKUPS = Lookups()


def connected(
    endpoint: StoreEndpoint, limit: TimeLimit, lookups: Lookups = LOOKUPS
) -> socket.socket:
    """A connection to an endpoint, at the first of its addresses that takes one. `OSError` if none
    does in time."""
    problem = OSError("it has no address")
    addresses = lookups.addresses(endpoint, limit)
    for place, (family, kind, protocol, _, address) in enumerate(addresses):
        connection = socket.socket(family, kind, protocol)
        try:
            connection.settimeout(limit.share(len(addresses) - place).left())
            connection.connect(address)
            connection.setsockopt(socket.IPPROTO_TCP, socket.TCP_NODELAY, 1)
            connection.setsockopt(socket.SOL_SOCKET, socket.SO_KEEPALIVE, 1)
            for option, value in PROBES:
                connection.setsockopt(socket.IPPROTO_TCP, option, value)
            return connection
        except OSError as error:
            connection.close()
            problem = error
    raise problem
