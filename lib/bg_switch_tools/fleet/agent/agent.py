"""What an agent does at the store: it keeps the lease of its machine, reads all keys, and tells
what the machine reports."""
from collections.abc import Callable
from typing import NamedTuple

from bg_switch_tools.fleet.agent.rest import LATE, is_at_rest
from bg_switch_tools.fleet.machine.machine import Machine
from bg_switch_tools.fleet.record.record import MACHINES, View
from bg_switch_tools.fleet.store.store import Compare, Snapshot, Store, StoreError
from bg_switch_tools.switch.before import boot_clock
from bg_switch_tools.switch.reports import Report

LEASE = 10  # seconds: longer than a round at a switch that hangs
MINUTE = 60.0
Say = Callable[[str, str], None]  # is given the kind of an event, and its text
Clock = Callable[[], float]


class Lease:
    """A lease that is refreshed by the round, and not by a thread beside it, which would keep an
    agent that hangs alive."""

    def __init__(self, store: Store, now: Clock, seconds: int = LEASE) -> None:
        self.store = store
        self.now = now
        self.seconds = seconds
        self.number = 0
        self.refreshed = 0.0
        # How often it was renewed after a call that had failed, or late, or granted anew: the
        # connection to the store may have been broken before each of these.
        self.gaps = 0
        self.has_failed = False  # whether the latest call has

    def due(self) -> float:
        """The seconds until it is to be renewed, 0 or less if that is now."""
        return self.refreshed + self.seconds / 4 - self.now() if self.number else 0.0

    def hold(self) -> bool:
        """Grants or refreshes it. False if it has ended since, and another one was granted.
        `StoreError` if neither can be done."""
        due = self.due()
        if due > 0:
            return True
        begun, had_one, has_failed = self.now(), self.number != 0, self.has_failed
        self.has_failed = True
        is_refreshed = self._refresh()
        self.has_failed = False
        is_late = had_one and self.now() > begun + due + LATE
        self.refreshed = begun
        self.gaps += has_failed or is_late or had_one and not is_refreshed
        return is_refreshed or not had_one

    def _refresh(self) -> bool:
        """Refreshes it, and grants another one if it is gone. Gives whether it was there."""
        if self.number and not self._was_ended() and self.store.refresh(self.number) > 0:
            return True
        self.number = 0
        self.number = self.store.grant(self.seconds)
        return False

    def _was_ended(self) -> bool:
        """Ends it if its time is over, and the store has not ended it. etcd 3.4 ends leases by the
        wall clock: if that is set back, a lease lasts longer by that time, and a call that refreshes
        it gets no answer until then."""
        is_due = self.now() >= self.refreshed + self.seconds
        if not is_due or self.store.seconds_left(self.number) >= 0:
            return False
        self.store.revoke(self.number)
        return True


class Trouble:
    """Something that does not work for a while: the log tells it when that begins, each minute, and
    when it ends."""

    def __init__(self, say: Callable[[str], None], now: Clock, what: str) -> None:
        """`what` says what does not work."""
        self.say = say
        self.now = now
        self.what = what
        self.since: float | None = None
        self.next = 0.0

    def begin(self, why: str) -> None:
        """It does not work now. `why` is told if it is due."""
        now = self.now()
        if self.since is None:
            self.since, self.next = now, now + MINUTE
            self.say(f"{self.what}: {why}")
        elif now >= self.next:
            self.next = now + MINUTE
            self.say(f"{self.what}, for {now - self.since:.0f} seconds now: {why}")

    def end(self, over: str) -> None:
        """It works. `over` is told if it did not work before."""
        if self.since is not None:
            self.say(f"{over}, after {self.now() - self.since:.0f} seconds")
        self.since = None


class Read(NamedTuple):
    """What came of a read that was begun at this moment: the keys, or why there are none. `is_anew`
    says that the lease of the machine had ended before, so that the fleet has taken it as away."""

    begun: float
    snapshot: Snapshot | None
    fault: str = ""
    is_anew: bool = False


class FleetAgent:
    """The store's side of a machine. If the store gives no answer, everything stays as it is, and
    the log says so once.

    `fetch` and `write` wait for the store, and may be called by a thread of their own; all else is
    for the thread of the machine.
    """

    def __init__(
        self,
        machine: Machine,
        store: Store,
        say: Say,
        now: Clock = boot_clock,
        seconds: int = LEASE,
    ) -> None:
        """`seconds` are those of the machine's lease."""
        self.machine = machine
        self.store = store
        self.say = say
        self.now = now
        self.lease = Lease(store, now, seconds)
        self.is_anew = False  # whether the lease had ended while the agent rested
        self.snapshot: Snapshot | None = None  # the latest read; None if it has failed
        self.silence = Trouble(
            lambda text: say("fleet", text),
            now,
            "the store gives no answer, so nothing is switched here",
        )
        self.unwritten = Trouble(
            lambda text: say("fleet", text),
            now,
            "the store does not take the report of this machine",
        )
        self.told_fault = ""

    @property
    def key(self) -> str:
        return MACHINES + self.machine.host

    def read(self) -> None:
        """Reads the keys of the fleet."""
        self.take(self.fetch())

    def fetch(self) -> Read:
        """Keeps the lease, and reads the keys of the fleet."""
        is_anew, self.is_anew = self.is_anew, False
        try:
            is_anew = not self.lease.hold() or is_anew
            begun = self.now()
            return Read(begun, self.store.read(), "", is_anew)
        except StoreError as fault:
            return Read(self.now(), None, str(fault), is_anew)

    def keep(self) -> bool:
        """Keeps the lease of an agent that rests. False if that has failed, came late, or was the
        first time after one of these."""
        gaps = self.lease.gaps
        try:
            self.is_anew = not self.lease.hold() or self.is_anew
        except StoreError:  # which the next read tells, if it lasts
            return False
        return self.lease.gaps == gaps

    def may_rest(self, snapshot: Snapshot, text: str | None) -> bool:
        """Whether nothing is to be done by this read: the fleet is at rest, and has what this
        machine reports, which is that it follows."""
        view = View(snapshot)
        return self.is_written(view, text) and is_at_rest(view) and self.follows(view)

    def is_written(self, view: View, text: str | None) -> bool:
        """Whether what this machine reports stands, under the lease that is kept."""
        key = view.key(self.key)
        return key is not None and (key.lease, key.value) == (self.lease.number, text)

    def follows(self, view: View) -> bool:
        """Whether this machine has told the leader that leads now that it follows the record."""
        report, record = view.machine(self.machine.host), view.record
        if report is None or record is None:
            return False
        return report.leader == view.leader and report.follows(record)

    def take(self, read: Read) -> None:
        """Goes on by what was read."""
        if read.is_anew:
            self.say("fleet", "the lease of the machine had ended: the fleet has taken it as away")
        if read.snapshot is None:
            self.silence.begin(read.fault)
            self.snapshot = None
            self.machine.lose_store()
            return
        self.silence.end("the store answers again")
        self.snapshot = read.snapshot
        self.machine.take_read(self.snapshot, read.begun)
        if self.machine.fault != self.told_fault:
            self.told_fault = self.machine.fault
            if self.told_fault:
                self.say("fleet", self.told_fault)

    def tell(self, report: Report | None) -> None:
        """Writes what the machine reports, if that has changed since the read of this round."""
        if self.snapshot:
            self.write(self.snapshot, self.text(report))

    def text(self, report: Report | None) -> str:
        """What the machine reports, as its key has it."""
        return self.machine.report(report, self.now()).text()

    def write(self, snapshot: Snapshot, text: str) -> None:
        """Writes what the machine reports, unless it stands in this read already."""
        if not self.lease.number or self.is_of_another(snapshot):
            return
        key = View(snapshot).key(self.key)
        if key and (key.lease, key.value) == (self.lease.number, text):
            return
        try:
            self.store.write(
                [Compare(self.key, "changed", key.changed if key else 0)],
                {self.key: text},
                lease=self.lease.number,
            )
        except StoreError as fault:
            self.unwritten.begin(str(fault))
        else:
            self.unwritten.end("the store takes the report of this machine again")

    def is_of_another(self, snapshot: Snapshot) -> bool:
        """Whether another machine reports as this host: the second agent of a host is refused until
        the first one's lease ends."""
        other = View(snapshot).machine(self.machine.host)
        return other is not None and other.machine not in ("", self.machine.machine)
