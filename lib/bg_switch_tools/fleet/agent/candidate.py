"""A candidate for the leader of a fleet: it leads while it holds the leader's key, and writes what
`leader` decides."""
import math
import time
from typing import NamedTuple

from bg_switch_tools.fleet.agent.agent import LEASE, Clock, Lease, Say, Trouble
from bg_switch_tools.fleet.agent.rest import is_at_rest
from bg_switch_tools.fleet.record.leader import StageClock, Write, decide
from bg_switch_tools.fleet.record.record import LEADER, ORDER, PLAN, UnreadableError, View
from bg_switch_tools.fleet.store.store import Compare, Snapshot, Store, StoreError


class Pending(NamedTuple):
    """A write that was decided and not sent yet."""

    write: Write
    lease: int = 0


class Clocks(NamedTuple):
    """By what a candidate measures, and by what it dates the record."""

    now: Clock = time.monotonic
    unix_time: Clock = time.time


class Candidate:
    """Each agent is one. Its store and its lease are its own, so a slow switch does not end its
    lead."""

    def __init__(
        self, host: str, store: Store, say: Say, clocks: Clocks = Clocks(), seconds: int = LEASE
    ) -> None:
        """`seconds` are those of the leader's lease."""
        self.host = host
        self.store = store
        self.say = say
        self.now = now = clocks.now
        self.unix_time = clocks.unix_time
        self.lease = Lease(store, now, seconds)
        self.next_look = 0.0  # when it looks next whether the time of the leader's lease is over
        self.created = 0  # the `created` revision of the leader's key while this one leads
        # Whether a read has failed since this one leads. What was reported before may be of machines
        # that are gone, since an etcd that is back lets leases last longer: so the lead is given up,
        # and each machine reports to the next leader, which may be this one.
        self.has_lost = False
        self.snapshot: Snapshot | None = None  # the latest read; None if it has failed
        self.clock = StageClock()
        self.told_fault = ""
        self.told_dropped: tuple[str, int] = ("", 0)  # with the `changed` revision of its order
        self.silence = Trouble(
            lambda text: say("leader", text), now, "the store gives no answer to the candidate"
        )
        self.unwritten = Trouble(
            lambda text: say("leader", text),
            now,
            "the store does not take what the candidate writes",
        )
        self.unseen = Trouble(
            lambda text: say("leader", text),
            now,
            "the store does not tell the candidate of the leader's lease",
        )

    @property
    def leads(self) -> bool:
        """Whether it led by the latest read. Only a write shows whether it still does."""
        return self.created != 0

    def do_round(self) -> bool:
        """One read, one decision, one write. Gives whether something was written, so that the next
        round comes at once."""
        pending = self.look()
        return pending is not None and self.send(pending)

    def look(self) -> Pending | None:
        """Reads, and decides what to write; None if nothing is to be written."""
        self.snapshot = None
        try:
            self._hold(self.leads)
            snapshot = self.store.read()
            # a lease is held for the leader's key alone
            self._hold(LEADER not in snapshot.keys)
        except StoreError as fault:
            self._lose(fault)
            return None
        self.snapshot = snapshot
        self.silence.end("the store answers the candidate again")
        self._see(snapshot)
        key = View(snapshot).key(LEADER)
        if key is None:
            self._stop_leading(
                "reads have failed, so another lead begins" if self.has_lost else "its key is gone"
            )
            write = Write((Compare(LEADER, "created", 0),), {LEADER: self.host}, (), None)
            return Pending(write, self.lease.number)
        # of another one, or of a lease of this host before, which ends by itself, or of none
        if not self.lease.number or key.lease != self.lease.number:
            self._stop_leading(f"{key.value} leads")
            self._end_lapsed(key.lease)
            return None
        if self.has_lost and self.created == key.created:
            return Pending(Write((Compare(LEADER, "created", key.created),), {}, (LEADER,), None))
        if self.created != key.created:
            self.say("leader", f"{self.host} leads")
            self.created, self.has_lost = key.created, False
            self.clock.forget()
        return self._decide(snapshot)

    def _end_lapsed(self, lease: int) -> None:
        """Ends the lease of a leader if its time is over and the store has not ended it, as etcd 3.4
        does not for as long as the wall clock of its machine was set back. Looks again when its time
        may be over."""
        if not lease or self.now() < self.next_look:
            return
        try:
            left = self.store.seconds_left(lease)
            if left < 0:
                self.store.revoke(lease)
        except StoreError as fault:
            self.unseen.begin(str(fault))
            left = self.lease.seconds
        else:
            self.unseen.end("the store tells the candidate of the leader's lease again")
        # the seconds are rounded down, and a lease counts as over a second later
        self.next_look = self.now() + max(left, 0) + 2.0

    def _hold(self, is_needed: bool) -> None:
        if is_needed and not self.lease.hold():
            self._stop_leading("its lease has ended")

    def _lose(self, fault: StoreError) -> None:
        """The store gives no answer."""
        self.silence.begin(str(fault))
        self.clock.lose()
        self.has_lost = self.created != 0

    def may_rest(self) -> bool:
        """Whether nothing is to be decided by the latest read until a key changes."""
        return self.snapshot is not None and not self.has_lost and is_at_rest(View(self.snapshot))

    def due(self) -> float:
        """The seconds until the lease of a leader is to be renewed; a candidate that does not lead
        holds none."""
        return self.lease.due() if self.leads else math.inf

    def keep(self) -> bool:
        """Keeps the lease of a leader that rests. False if that has failed, came late, or was the
        first time after one of these, or if another lease was granted."""
        gaps = self.lease.gaps
        try:
            self._hold(self.leads)
        except StoreError as fault:
            self._lose(fault)
            return False
        return self.lease.gaps == gaps

    def _see(self, snapshot: Snapshot) -> None:
        """Notes since when the stage lasts, whoever leads."""
        try:
            self.clock.see(View(snapshot).record, self.now())
        except UnreadableError:  # which is told if this one leads
            return

    def _decide(self, snapshot: Snapshot) -> Pending | None:
        view = View(snapshot)
        try:
            waited = self.clock.look(snapshot, self.now())
            write = decide(snapshot, self.created, waited, int(self.unix_time()))
        except UnreadableError as reason:
            self._tell_fault(f"nothing is decided: {reason}")
            return None
        is_wrong = view.key(PLAN) is not None and view.standing_plan is None
        self._tell_fault(f"no attempt begins: {view.plan_fault}" if is_wrong else "")
        return Pending(write) if write else None

    def _tell_fault(self, fault: str) -> None:
        """Tells why less is decided than could be, once; empty if that is over."""
        if fault and fault != self.told_fault:
            self.say("leader", fault)
        self.told_fault = fault

    def _stop_leading(self, why: str) -> None:
        if self.created:
            self.say("leader", f"{self.host} leads no longer: {why}")
        self.created, self.has_lost = 0, False
        self.clock.forget()

    def _tell_dropped(self, write: Write) -> None:
        """Tells of an order that is dropped, once. It is told before the write, so that no order
        goes without a line, even if this process ends meanwhile."""
        order = next((compare.value for compare in write.compares if compare.name == ORDER), 0)
        if write.dropped and (write.dropped, order) != self.told_dropped:
            self.told_dropped = (write.dropped, order)
            self.say("leader", write.dropped)

    def send(self, pending: Pending) -> bool:
        """Writes what was decided. Gives whether it was written: not if something has changed since
        the read."""
        write = pending.write
        self._tell_dropped(write)
        try:
            revision = self.store.write(write.compares, write.puts, write.deletes, pending.lease)
        except StoreError as fault:
            self.unwritten.begin(str(fault))
            return False
        self.unwritten.end("the store takes what the candidate writes")
        record = write.record
        if record:
            what = f"attempt {record.id} of {record.revision.name}: {record.stage}" + (
                f", {record.reason}" if record.reason else ""
            )
            self.say(
                "leader",
                what
                if revision is not None
                else f"not written, since something has changed: {what}",
            )
        return revision is not None
