"""The threads of an agent that wait for its store: they read and write, lead, and wake one another
when a key has changed."""
import threading

from bg_switch_tools.fleet.agent.agent import FleetAgent
from bg_switch_tools.fleet.agent.candidate import Candidate
from bg_switch_tools.fleet.agent.handover import Handover
from bg_switch_tools.fleet.agent.rest import BOUND, SHORTEST, Rest, Standing
from bg_switch_tools.fleet.agent.wake import Wake
from bg_switch_tools.fleet.store.store import Store, StoreError

WATCH = 2 * BOUND  # seconds of a watch: the rest of a thread ends it before
AGAIN = 1.0  # seconds until another watch is begun after one that has failed
ASIDE = 1.0  # seconds between two reads of a candidate that does not lead


class StoreTurns:
    """Reads the keys for the rounds at the switch, and writes what the machine reports after
    them."""

    def __init__(
        self,
        agent: FleetAgent,
        handover: Handover,
        standing: Standing,
        seconds: float,
        stopping: threading.Event,
    ) -> None:
        """`seconds` are those between two reads if no key changes and the agent may not rest."""
        self.agent = agent
        self.handover = handover
        self.seconds = seconds
        self.stopping = stopping
        self.wake = Wake()
        self.rest = Rest(self.wake, standing, agent.now)
        self.gaps = 0  # of the lease, after which the watch was begun anew
        self.has_failed = False  # whether the latest read has
        self.rounds = 0  # that were over when the lease was kept last
        self.reads = 0  # that have succeeded
        self.revision = 0  # of the latest one

    def run(self) -> None:
        while not self.stopping.is_set():
            self.wake.clear()
            if self.do_turn():
                self.rest.last(self.revision, self.seconds, self)
            else:
                self.rest.pause(self.seconds)

    def do_turn(self) -> bool:
        """A read, and what follows from it. Gives whether the agent may rest then."""
        read = self.agent.fetch()
        self.handover.put(read)
        text = self.handover.await_text()
        self.rounds = self.handover.rounds
        if read.snapshot is None:
            self.has_failed = True
            return False
        self.revision = read.snapshot.revision
        self.reads += 1
        self._doubt()
        if text is not None:
            self.agent.write(read.snapshot, text)
        return self.agent.may_rest(read.snapshot, text)

    def _doubt(self) -> None:
        """Begins the watch anew when the store answers again: it may have hung since."""
        has_failed, gaps = self.has_failed, self.gaps
        self.has_failed, self.gaps = False, self.agent.lease.gaps
        if has_failed or self.gaps != gaps:
            self.rest.standing.doubt()

    def due(self) -> float:
        return self.agent.lease.due()

    def keep(self) -> bool:
        """Keeps the lease once another round is over: an agent whose rounds hang is away."""
        self.handover.await_round(self.rounds)
        self.rounds = self.handover.rounds
        return not self.stopping.is_set() and self.agent.keep()


class Leading:
    """Lets a candidate go on, once it may."""

    def __init__(
        self, candidate: Candidate, standing: Standing, seconds: float, stopping: threading.Event
    ) -> None:
        """`seconds` are those between two reads of a leader if no key changes and it may not
        rest."""
        self.candidate = candidate
        self.seconds = seconds
        self.stopping = stopping
        self.wake = Wake()
        self.rest = Rest(self.wake, standing, candidate.now)
        self.may_lead = threading.Event()

    def run(self) -> None:
        self.may_lead.wait()
        while not self.stopping.is_set():
            self.wake.clear()
            if self.candidate.do_round():
                continue
            candidate = self.candidate
            seconds = self.seconds if candidate.leads else ASIDE
            if candidate.snapshot and candidate.may_rest():
                self.rest.last(candidate.snapshot.revision, seconds, candidate)
            else:
                self.rest.pause(seconds)


class Watch:
    """Wakes the other threads if a key has changed since the latest read, and tells them how the
    watch stands."""

    def __init__(
        self,
        store: Store,
        turns: StoreTurns,
        standing: Standing,
        stopping: threading.Event,
    ) -> None:
        """`store` is that of the turns: a call of them that fails at a member ends the watch
        there."""
        self.store = store
        self.turns = turns
        self.standing = standing
        self.stopping = stopping

    def run(self) -> None:
        woken = 0  # how many reads there were when the others were woken
        while not self.stopping.wait(SHORTEST):
            reads = self.turns.reads
            if reads == woken:
                continue
            try:
                if not self.store.wait(self.turns.revision, WATCH, self.standing):
                    continue
            except StoreError:
                self.stopping.wait(AGAIN)
                continue
            woken = reads
            self.standing.wake()
