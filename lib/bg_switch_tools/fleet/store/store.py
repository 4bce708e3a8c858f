"""The store of a fleet: the keys that its machines share, and the calls that read and write them.

A store has a prefix, such as `/bg-switch/web/`, and all names are names below it. Decisions rest on
reads and on the compares of writes, and never on what wakes a wait: an event that is lost costs
time only.
"""
from collections.abc import Callable, Collection, Mapping, Sequence
from typing import Literal, NamedTuple, Protocol


class StoreError(Exception):
    """The store has not done what it was asked, or gave no answer. The text is a sentence that says
    why.

    A `write`, `grant` or `revoke` that ends so may have been carried out, since its answer can be
    lost: the caller reads again.
    """


class StoreRefusedError(StoreError):
    """The store refuses a call, and has changed nothing. It would refuse the call again until
    somebody changes the store, or who asks."""


class Key(NamedTuple):
    """A key below the prefix, as a read gives it. `created` and `changed` are revisions of the
    store: those of the write that created the key, and of the write that changed it last."""

    value: str
    created: int
    changed: int
    lease: int  # 0: none


class Snapshot(NamedTuple):
    """One linearizable read of all keys below the prefix: it has each write that was over before
    the read began.

    `revision` is the revision of the store at the read. `cluster` is the identity of the store:
    revisions of two clusters are not comparable. `keys` are by their names without the prefix, e.g.
    `attempt`, `members/web-1`."""

    revision: int
    cluster: str
    keys: Mapping[str, Key]


class Compare(NamedTuple):
    """What a write requires of a key, or of all keys below a further prefix.

    `name` is a name, or a prefix of names that ends with `/`. For a name, its revision `what` is
    equal to `value`, and 0 means that there is no such key. For a prefix, no key below it has a
    greater revision `what` than `value`; without keys that holds, and a key that was deleted does
    not count."""

    name: str
    what: Literal["created", "changed"]
    value: int


class WatchState(Protocol):
    """What a wait tells of its watch, in the thread that waits."""

    def begin(self, after: int, cut: Callable[[], None]) -> None:
        """The store has taken the watch: it tells of each change after this revision from now on,
        as long as nothing is broken. `cut` ends the wait early; any thread may call it, at any
        time."""

    def end(self) -> None:
        """The watch has ended, or was not taken."""


class NoWatchState:
    """For whoever does not ask how the watch stands."""

    def begin(self, after: int, cut: Callable[[], None]) -> None:
        """Nobody asks."""

    def end(self) -> None:
        """Nobody asks."""


NO_WATCH_STATE = NoWatchState()


class Store(Protocol):
    """A store. Each call ends within the time limit of the store, `wait` within its own, and each
    may raise `StoreError`, whatever happens to the store; the next call begins anew. Several
    threads may use one store."""

    def read(self) -> Snapshot:
        """All keys below the prefix, at one revision."""

    def write(
        self,
        compares: Sequence[Compare],
        puts: Mapping[str, str],
        deletes: Collection[str] = (),
        lease: int = 0,
    ) -> int | None:
        """Puts and deletes these keys in one step, if all compares hold. Gives the revision of the
        write, or None if a compare does not hold; nothing is changed then. With a lease, the keys
        that are put go when the lease ends (0: they stay). A lease that is gone is a `StoreError`.
        A `StoreError` does not say that nothing was written: the caller reads again.
        """

    def grant(self, seconds: int) -> int:
        """Begins a lease of at least `seconds` seconds (1 or more), and gives its number. The store
        may choose a longer time."""

    def refresh(self, lease: int) -> int:
        """Lets a lease last for its whole time again. Gives the seconds that it has now, and 0 if
        it is gone."""

    def seconds_left(self, lease: int) -> int:
        """The whole seconds until the time of a lease is over. Below 0 if it has been over for a
        second, or the lease is gone. A store may end a lease later than its time; a call that
        refreshes the lease may wait for its end until then."""

    def revoke(self, lease: int) -> None:
        """Ends a lease, and deletes its keys. A lease that is gone is no fault."""

    def wait(self, after: int, seconds: float, state: WatchState = NO_WATCH_STATE) -> bool:
        """Returns when a key below the prefix was changed or deleted after this revision, or after
        `seconds` seconds. True if something has, or may have, changed. It may return early without
        a change. `StoreError`, at once, if the store gives no events: a caller in a loop pauses
        then. `state` is told how the watch stands."""
