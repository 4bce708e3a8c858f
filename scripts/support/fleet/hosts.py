"""The hosts of a drill: network namespaces if this user is root, else one host whose parts have
ports of their own.

In namespaces each host has two networks: one for clients, and one for etcd, which can be cut. On
one host, relays stand between each host and etcd, and are what is cut: bytes stop, and connections
stay open, as if packets were lost.
"""
import contextlib
import ctypes
import os
import selectors
import shutil
import socket
import subprocess
import threading
from collections.abc import Iterator, Sequence
from typing import NamedTuple, Protocol

from support.reserved import reserved, reserved_block

LOOPBACK = "127.0.0.1"
# Below the ports that the system gives to connections by itself, and below those of the other
# scripts. Single addresses and blocks have ranges of their own, so that single ones leave room for
# blocks.
SINGLE_PORTS, BLOCKS = range(10_000, 14_000), range(14_000, 20_000)
PIECE = 65536


class Address(NamedTuple):
    """Where something listens, or is reached."""

    host: str
    port: int

    def __str__(self) -> str:
        return f"{self.host}:{self.port}"


class Addresses(NamedTuple):
    """The addresses of a host. Those of the switch are on loopback of the host; `web` is that of
    nginx before it."""

    active: Address
    preview: Address
    control: Address
    web: Address
    etcd: Address
    peer: Address


class Network(Protocol):
    """How hosts reach one another."""

    hosts: Sequence[str]
    shares_loopback: bool  # whether all hosts have one loopback, so that the endpoints of a revision are the same ones

    def up(self) -> None:
        ...

    def down(self) -> None:
        ...

    def addresses(self, host: str) -> Addresses:
        ...

    def balancer(self) -> Address:
        ...

    def etcd_of(self, host: str) -> list[Address]:
        ...  # the members as the programs of a host reach them, its own first

    def words(self, host: str) -> list[str]:
        ...  # what stands before a command of a host; an empty name is the load balancer's

    def cut(self, host: str) -> None:
        ...

    def mend(self, host: str) -> None:
        ...

    def inside(self) -> contextlib.AbstractContextManager[None]:
        ...  # where a socket is made that reaches the hosts


def run(words: Sequence[str], is_needed: bool = True) -> None:
    """Runs a program. `OSError` with what it printed if it fails and is needed."""
    done = subprocess.run(words, capture_output=True, text=True, check=False)
    if done.returncode and is_needed:
        raise OSError(f"{' '.join(words)}: {done.stderr.strip()}")


def rotated(hosts: Sequence[str], host: str) -> list[str]:
    """The hosts, this one first."""
    place = hosts.index(host) if host in hosts else 0
    return [*hosts[place:], *hosts[:place]]


class Namespaces:
    """Each host is a network namespace, and so is the load balancer. It needs root, and `ip`."""

    shares_loopback = False

    def __init__(self, hosts: Sequence[str]) -> None:
        self.hosts = hosts
        self.mark = f"bg{os.getpid()}"  # drills that run side by side have namespaces of their own

    @staticmethod
    def can_be_made() -> bool:
        if os.geteuid() or not shutil.which("ip"):
            return False
        name = f"bgtry{os.getpid()}"
        made = (
            subprocess.run(
                ["ip", "netns", "add", name], capture_output=True, check=False
            ).returncode
            == 0
        )
        if made:
            tried = subprocess.run(
                ["ip", "-n", name, "link", "add", "try0", "type", "bridge"],
                capture_output=True,
                check=False,
            )
            subprocess.run(["ip", "netns", "del", name], capture_output=True, check=False)
            return tried.returncode == 0
        return False

    def name(self, host: str) -> str:
        return f"{self.mark}-{host or 'lb'}"

    def _ip(self, host: str, *words: str) -> None:
        run(["ip", "-n", self.name(host), *words])

    def up(self) -> None:
        for host in ("", *self.hosts):
            run(["ip", "netns", "add", self.name(host)])
            self._ip(host, "link", "set", "lo", "up")
        for net, bridge in ((1, "data0"), (2, "etcd0")):
            self._ip("", "link", "add", bridge, "type", "bridge")
            self._ip("", "addr", "add", f"10.77.{net}.1/24", "dev", bridge)
            self._ip("", "link", "set", bridge, "up")
            for number, host in enumerate(self.hosts):
                inner, outer = f"{bridge[0]}0", f"{bridge[0]}{number}"
                run(
                    [
                        "ip",
                        "link",
                        "add",
                        inner,
                        "netns",
                        self.name(host),
                        "type",
                        "veth",
                        "peer",
                        "name",
                        outer,
                        "netns",
                        self.name(""),
                    ]
                )
                self._ip("", "link", "set", outer, "master", bridge, "up")
                self._ip(host, "addr", "add", f"10.77.{net}.{11 + number}/24", "dev", inner)
                self._ip(host, "link", "set", inner, "up")

    def down(self) -> None:
        for host in (*self.hosts, ""):
            run(["ip", "netns", "del", self.name(host)], is_needed=False)

    def addresses(self, host: str) -> Addresses:
        last = 11 + self.hosts.index(host)
        return Addresses(
            Address(LOOPBACK, 8080),
            Address(LOOPBACK, 8081),
            Address(LOOPBACK, 8082),
            Address(f"10.77.1.{last}", 80),
            Address(f"10.77.2.{last}", 2379),
            Address(f"10.77.2.{last}", 2380),
        )

    def balancer(self) -> Address:
        return Address("10.77.1.1", 8000)

    def etcd_of(self, host: str) -> list[Address]:
        return [self.addresses(each).etcd for each in rotated(self.hosts, host)]

    def words(self, host: str) -> list[str]:
        return ["ip", "netns", "exec", self.name(host)]

    def cut(self, host: str) -> None:
        self._ip(host, "link", "set", "e0", "down")

    def mend(self, host: str) -> None:
        self._ip(host, "link", "set", "e0", "up")

    @contextlib.contextmanager
    def inside(self) -> Iterator[None]:
        """The thread that calls it is in the namespace of the load balancer meanwhile."""
        library = ctypes.CDLL(None, use_errno=True)
        with open("/proc/thread-self/ns/net", "rb") as before, open(
            f"/run/netns/{self.name('')}", "rb"
        ) as there:
            if library.setns(there.fileno(), 0):
                raise OSError(ctypes.get_errno(), "setns")
            try:
                yield
            finally:
                if library.setns(before.fileno(), 0):
                    raise OSError(ctypes.get_errno(), "setns, back")


class Relay:
    """Passes bytes on between a port and an address until it is cut, and after it is mended."""

    def __init__(self, to: Address) -> None:
        self.to = to
        self.listener = socket.create_server((LOOPBACK, 0), backlog=64)
        self.address = Address(LOOPBACK, self.listener.getsockname()[1])
        self.is_mended, self.has_ended = threading.Event(), threading.Event()
        self.is_mended.set()
        threading.Thread(target=self._accept, daemon=True).start()

    def _accept(self) -> None:
        with contextlib.suppress(OSError):
            while not self.has_ended.is_set():
                taken = self.listener.accept()[0]
                threading.Thread(target=self._pass_on, args=(taken,), daemon=True).start()

    def _pass_on(self, taken: socket.socket) -> None:
        with contextlib.suppress(OSError), taken:
            self.is_mended.wait()
            with socket.create_connection(
                self.to, timeout=2
            ) as there, selectors.DefaultSelector() as selector:
                there.settimeout(5)
                taken.settimeout(5)
                selector.register(taken, selectors.EVENT_READ, there)
                selector.register(there, selectors.EVENT_READ, taken)
                while not self.has_ended.is_set():
                    for key, _ in selector.select(0.2):
                        self.is_mended.wait()
                        piece = key.fileobj.recv(PIECE)  # type: ignore[union-attr]
                        if not piece:
                            return
                        key.data.sendall(piece)

    def end(self) -> None:
        self.has_ended.set()
        self.is_mended.set()
        with contextlib.suppress(OSError):
            self.listener.shutdown(socket.SHUT_RDWR)
        self.listener.close()


def free_addresses(count: int) -> list[Address]:
    """Addresses of loopback that nothing listens at, reserved for this process."""
    return [Address(LOOPBACK, reserved(SINGLE_PORTS)) for _ in range(count)]


def free_block(count: int) -> int:
    """The first of `count` ports of loopback, one after the other, that nothing listens at,
    reserved for this process."""
    return reserved_block(BLOCKS, count)


class OneHost:
    """All hosts are this machine, and have ports of their own. A cut stops the relays by which a
    host reaches etcd; the members of etcd still reach one another."""

    shares_loopback = True

    def __init__(self, hosts: Sequence[str]) -> None:
        self.hosts = hosts
        self.relays: dict[str, dict[str, Relay]] = {}

    def up(self) -> None:
        found = free_addresses(1 + len(self.hosts) * len(Addresses._fields))
        self.front = found.pop()
        each = len(Addresses._fields)
        self.places = {
            host: Addresses(*found[place * each : (place + 1) * each])
            for place, host in enumerate(self.hosts)
        }
        self.relays = {
            host: {member: Relay(self.places[member].etcd) for member in self.hosts}
            for host in self.hosts
        }

    def down(self) -> None:
        for relay in [relay for relays in self.relays.values() for relay in relays.values()]:
            relay.end()
        self.relays = {}

    def addresses(self, host: str) -> Addresses:
        return self.places[host]

    def balancer(self) -> Address:
        return self.front

    def etcd_of(self, host: str) -> list[Address]:
        if host not in self.relays:
            return [self.places[each].etcd for each in self.hosts]
        return [self.relays[host][each].address for each in rotated(self.hosts, host)]

    def words(self, host: str) -> list[str]:
        return []

    def cut(self, host: str) -> None:
        for relay in self.relays[host].values():
            relay.is_mended.clear()

    def mend(self, host: str) -> None:
        for relay in self.relays[host].values():
            relay.is_mended.set()

    def inside(self) -> contextlib.AbstractContextManager[None]:
        return contextlib.nullcontext()


def network_of(hosts: Sequence[str]) -> Network:
    """The network that can be made here."""
    if Namespaces.can_be_made():
        return Namespaces(hosts)
    return OneHost(hosts)
