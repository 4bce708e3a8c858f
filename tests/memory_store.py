"""A store in memory with etcd's revisions and leases, and with its faults: it is away, the answer to
a write is lost, or leases end late."""
import random
from collections.abc import Callable, Collection, Mapping, Sequence
from typing import NamedTuple

from bg_switch_tools.fleet.store.store import (
    NO_WATCH_STATE,
    Compare,
    Key,
    Snapshot,
    StoreError,
    WatchState,
)


class Change(NamedTuple):
    """A change of one key. `value` is None if the key was deleted; `client` is empty if its lease
    has ended. `read` is the revision of the client's latest read."""

    revision: int
    at: float
    name: str
    value: str | None
    created: int
    client: str
    read: int


def revision_of(key: Key | None, what: str) -> int:
    """What a compare looks at of a key; 0 if there is no such key."""
    if key is None:
        return 0
    return key.created if what == "created" else key.changed


class Keys:
    """All keys, and every change that there was."""

    def __init__(self, now: Callable[[], float], cluster: str = "c1") -> None:
        self.now = now
        self.cluster = cluster
        self.revision = 1
        self.keys: dict[str, Key] = {}
        self.leases: dict[int, tuple[float, int]] = {}  # by number: when it ends, and its seconds
        self.last_lease = 0
        self.late = 0.0  # how many seconds after its time a lease ends
        self.changes: list[Change] = []

    def expire(self) -> None:
        """Ends the leases whose time has come."""
        for lease in [lease for lease in self.leases if self.left(lease) + self.late <= 0]:
            self.end(lease)

    def left(self, lease: int) -> float:
        """The seconds until the time of a lease is over."""
        return self.leases[lease][0] - self.now()

    def end(self, lease: int) -> None:
        """Ends a lease, and deletes its keys."""
        self.leases.pop(lease, None)
        gone = [name for name, key in self.keys.items() if key.lease == lease]
        if gone:
            self.revision += 1
            for name in gone:
                self.delete(name, "", 0)

    def delete(self, name: str, client: str, read: int) -> None:
        key = self.keys.pop(name, None)
        if key:
            self.changes.append(
                Change(self.revision, self.now(), name, None, key.created, client, read)
            )

    def holds(self, compare: Compare) -> bool:
        name, what, value = compare
        if name.endswith("/"):
            return all(
                revision_of(key, what) <= value
                for other, key in self.keys.items()
                if other.startswith(name)
            )
        return revision_of(self.keys.get(name), what) == value

    def put(self, name: str, value: str, lease: int, client: str, read: int) -> None:
        before = self.keys.get(name)
        self.keys[name] = Key(
            value, before.created if before else self.revision, self.revision, lease
        )
        self.changes.append(
            Change(self.revision, self.now(), name, value, self.keys[name].created, client, read)
        )


class MemoryStore:
    """The store as one client has it."""

    def __init__(self, keys: Keys, client: str, chance: random.Random | None = None) -> None:
        self.all = keys
        self.client = client
        self.chance = chance
        self.is_cut = False
        self.loses = 0.0  # how probable it is that the answer to a write is lost
        self.read_revision = 0
        self.read_at = 0.0

    def _reach(self) -> None:
        self.all.expire()
        if self.is_cut:
            raise StoreError("it is away")

    def read(self) -> Snapshot:
        self._reach()
        self.read_revision, self.read_at = self.all.revision, self.all.now()
        return Snapshot(self.all.revision, self.all.cluster, dict(self.all.keys))

    def write(
        self,
        compares: Sequence[Compare],
        puts: Mapping[str, str],
        deletes: Collection[str] = (),
        lease: int = 0,
    ) -> int | None:
        self._reach()
        if lease and lease not in self.all.leases:
            raise StoreError("etcdserver: requested lease not found")
        is_written = all(self.all.holds(compare) for compare in compares)
        if is_written:
            self.all.revision += 1
            for name, value in puts.items():
                self.all.put(name, value, lease, self.client, self.read_revision)
            for name in deletes:
                self.all.delete(name, self.client, self.read_revision)
        if self.chance and self.chance.random() < self.loses:
            raise StoreError("the answer was lost")
        return self.all.revision if is_written else None

    def grant(self, seconds: int) -> int:
        self._reach()
        self.all.last_lease += 1
        self.all.leases[self.all.last_lease] = (self.all.now() + seconds, seconds)
        return self.all.last_lease

    def refresh(self, lease: int) -> int:
        self._reach()
        if lease not in self.all.leases:
            return 0
        if self.all.left(lease) <= 0:
            raise StoreError("it waits for the end of the lease")
        seconds = self.all.leases[lease][1]
        self.all.leases[lease] = (self.all.now() + seconds, seconds)
        return seconds

    def seconds_left(self, lease: int) -> int:
        self._reach()
        return int(self.all.left(lease)) if lease in self.all.leases else -1

    def revoke(self, lease: int) -> None:
        self._reach()
        self.all.end(lease)

    def wait(self, after: int, seconds: float, state: WatchState = NO_WATCH_STATE) -> bool:
        self._reach()
        return True
