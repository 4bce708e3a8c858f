"""Faults of a fleet at random: which one comes next, for how long, and what it does to the fleet of
a drill."""
import collections
import random
import threading
import time
from collections.abc import Collection, Mapping, Sequence
from typing import NamedTuple

from support.fleet.lab import Lab

AGENT_KILLED, AGENT_STOPPED, LINK_CUT = (
    "agents killed",
    "agents stopped and woken",
    "links to etcd cut",
)
MEMBER_KILLED, MAJORITY_KILLED, SWITCH_KILLED = (
    "members of etcd killed",
    "majorities of etcd killed",
    "switches killed",
)
SWITCH_DELAYED, CLOCK_STEPPED = "switches delayed", "wall clocks of agents stepped"
MACHINE_STEPPED = "wall clock of the machine stepped"  # only if the drill may do so
COMPACTED = (
    "compactions of etcd while a link is cut"  # which has no end, and so is not one of the kinds
)
KINDS = (
    AGENT_KILLED,
    AGENT_STOPPED,
    LINK_CUT,
    MEMBER_KILLED,
    MAJORITY_KILLED,
    SWITCH_KILLED,
    SWITCH_DELAYED,
    CLOCK_STEPPED,
)
# How often a kind comes beside the others. Without a majority or a leader nothing is decided, so
# those are rare.
WEIGHTS: Mapping[str, float] = {
    AGENT_KILLED: 3,
    AGENT_STOPPED: 3,
    LINK_CUT: 2,
    MEMBER_KILLED: 3,
    MAJORITY_KILLED: 0.5,
    SWITCH_KILLED: 3,
    SWITCH_DELAYED: 2,
    CLOCK_STEPPED: 1,
    MACHINE_STEPPED: 1,
}
STEPS = (-7200.0, -30.0, 30.0, 7200.0)  # seconds by which the wall clock of an agent is stepped
# the same of the machine's, which others read too; all are longer than what any rule allows
MACHINE_STEPS = (-120, -30, 30, 120)
COMPACTING = 0.8  # how probable it is that etcd is compacted at a look while a link is cut
RETURNING = 2.0  # seconds until the load balancer has a machine again whose switch is up
LEADER = 0.1  # how probable it is that a fault of an agent hits the leader
PAST_LEASE = 0.2  # how probable it is that an agent is stopped past its lease
# Seconds from the fault to its end, by its kind.
SECONDS: Mapping[str, tuple[float, float]] = {
    AGENT_KILLED: (0.5, 5),
    AGENT_STOPPED: (0.5, 6),
    LINK_CUT: (1, 8),
    MEMBER_KILLED: (1, 6),
    MAJORITY_KILLED: (1, 4),
    SWITCH_KILLED: (0.3, 2),
    SWITCH_DELAYED: (0.1, 1.4),
    CLOCK_STEPPED: (1, 15),
    MACHINE_STEPPED: (1, 15),
}
PAST_LEASE_SECONDS = (11.0, 15.0)
PERIOD = 0.02  # seconds between two looks at whether a fault is to end
# What a kind breaks, as the lab calls it, and what may not be broken anywhere while it comes.
BREAKS: Mapping[str, str] = {
    AGENT_KILLED: "agent",
    AGENT_STOPPED: "agent",
    LINK_CUT: "link",
    MEMBER_KILLED: "etcd",
    MAJORITY_KILLED: "etcd",
    SWITCH_KILLED: "switch",
    SWITCH_DELAYED: "delay",
    CLOCK_STEPPED: "clock",
    MACHINE_STEPPED: "machine clock",
}
EXCLUDED_BY: Mapping[str, tuple[str, ...]] = {
    "agent": (),
    "link": ("link", "etcd"),
    "etcd": ("link", "etcd"),
    "switch": ("switch", "delay"),
    "delay": ("switch", "delay"),
    "clock": (),
    "machine clock": ("machine clock",),
}
Broken = Collection[tuple[str, str]]  # by what and host


class Fault(NamedTuple):
    """A fault that comes now, and ends after `seconds` seconds."""

    kind: str
    hosts: tuple[str, ...]
    seconds: float

    @property
    def broken(self) -> list[tuple[str, str]]:
        return [(BREAKS[self.kind], host) for host in self.hosts]


def may_come(fault: Fault, broken: Broken) -> bool:
    """Whether a fault may come beside those that last: etcd keeps its majority unless it is killed
    on purpose, and one switch at the most is down, so that each request finds a machine."""
    excluded = EXCLUDED_BY[BREAKS[fault.kind]]
    return not any(what in excluded for what, _ in broken) and not any(
        one in broken for one in fault.broken
    )


def next_fault(
    chance: random.Random,
    hosts: Sequence[str],
    leader: str,
    broken: Broken,
    kinds: Sequence[str] = KINDS,
) -> Fault | None:
    """A fault at random; None if it may not come now."""
    kind = chance.choices(kinds, [WEIGHTS[it] for it in kinds])[0]
    host = chance.choice(hosts)
    seconds = chance.uniform(*SECONDS[kind])
    if BREAKS[kind] == "agent" and leader and chance.random() < LEADER:
        host = leader
    if kind == AGENT_STOPPED and chance.random() < PAST_LEASE:
        seconds = chance.uniform(*PAST_LEASE_SECONDS)
    hit = tuple(each for each in hosts if each != host) if kind == MAJORITY_KILLED else (host,)
    fault = Fault(kind, hit, seconds)
    return fault if may_come(fault, broken) else None


class Faults:
    """The faults of a running fleet. Several threads may use it; one of its own ends each fault in
    time."""

    def __init__(self, lab: Lab, chance: random.Random, kinds: Sequence[str] = KINDS) -> None:
        self.lab = lab
        self.chance = chance
        self.kinds = kinds
        self.counts: collections.Counter[str] = collections.Counter({kind: 0 for kind in kinds})
        self.lasting: list[tuple[float, Fault]] = []  # with the moment of the end of each
        self.down_at: dict[str, float] = {}  # by host: when a look at its switch had no answer
        self.lock = threading.Lock()
        self.ending = threading.Event()
        self.error: Exception | None = None  # why faults are not ended any more
        self.thread = threading.Thread(target=self._end_in_time, daemon=True)
        self.thread.start()

    @property
    def broken(self) -> list[tuple[str, str]]:
        return [one for _, fault in self.lasting for one in fault.broken]

    def begin_some(self, leader: str) -> None:
        """A fault at random begins, if it may come now. Raises what has kept one before from its
        end."""
        if self.error:
            raise self.error
        with self.lock:
            broken = [*self.broken, *self._down()]
            fault = next_fault(self.chance, self.lab.hosts, leader, broken, self.kinds)
            if fault:
                self._begin(fault)
            self._compact()

    def _down(self) -> list[tuple[str, str]]:
        """The switches that are down, by looks, or were so until now: one that was started again
        waits for its agent, which may be gone, and then for the load balancer."""
        now = time.monotonic()
        self.down_at |= {host: now for host, look in self.lab.looks().items() if not look.is_up}
        return [("switch", host) for host, at in self.down_at.items() if now < at + RETURNING]

    def _compact(self) -> None:
        """Etcd drops what an agent that is cut off has not seen."""
        is_cut = any(what == "link" for what, _ in self.broken)
        if is_cut and self.chance.random() < COMPACTING and self.lab.compact():
            self.counts[COMPACTED] += 1

    def delay_some_switch(self, seconds: float) -> bool:
        """A switch at random answers late from now on, for `seconds` seconds. False if one is down
        or late already."""
        with self.lock:
            fault = Fault(SWITCH_DELAYED, (self.chance.choice(self.lab.hosts),), seconds)
            if self.ending.is_set() or not may_come(fault, [*self.broken, *self._down()]):
                return False
            self._begin(fault)
            return True

    def _begin(self, fault: Fault) -> None:
        self.lasting.append((time.monotonic() + fault.seconds, fault))
        self.counts[fault.kind] += 1
        for what, host in fault.broken:
            if what == "link":
                self.lab.cut(host)
            elif what == "delay":
                self.lab.delay_switch(host)
            elif what == "clock":
                self.lab.step_clock(host, self.chance.choice(STEPS))
            elif what == "machine clock":
                self.lab.step_machine_clock(self.chance.choice(MACHINE_STEPS))
            elif fault.kind == AGENT_STOPPED:
                self.lab.stop(what, host)
            else:
                self.lab.kill(what, host)

    def _end_in_time(self) -> None:
        try:
            while not self.ending.wait(PERIOD):
                with self.lock:
                    self._end_due()
        except Exception as error:  # pylint: disable=broad-except
            self.error = error

    def _end_due(self) -> None:
        now = time.monotonic()
        for until, fault in list(self.lasting):
            if until <= now:
                self._end(until, fault)

    def end_all(self) -> None:
        """Ends all faults. None begins after it."""
        with self.lock:
            self.ending.set()
        self.thread.join()
        for until, fault in list(self.lasting):
            self._end(until, fault)

    def _end(self, until: float, fault: Fault) -> None:
        self.lasting.remove((until, fault))
        for what, host in fault.broken:
            if what == "link":
                self.lab.mend(host)
            elif what == "delay":
                self.lab.let_switch_go_on(host)
            elif what == "clock":
                self.lab.set_clock_right(host)
            elif what == "machine clock":
                self.lab.set_machine_clock_right()
            elif fault.kind == AGENT_STOPPED:
                self.lab.wake(what, host)
            else:
                self.lab.restart(what, host)
