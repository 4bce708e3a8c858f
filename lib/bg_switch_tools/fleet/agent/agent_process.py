"""The agent of a machine as a process: it keeps the switch at what the record of its fleet asks
for, and is a candidate for the leader."""
import dataclasses
import math
import os
import pathlib
import sys
import threading
import time
from collections.abc import Callable, Mapping
from typing import NamedTuple

from bg_switch_tools.controller.endpoints.probes import Probes
from bg_switch_tools.controller.log import Log
from bg_switch_tools.controller.rounds.composition import ControllerFiles, Makers, make_controller
from bg_switch_tools.controller.rounds.controller import ROUND
from bg_switch_tools.controller.state.state_file import StateLock, StateLockedError
from bg_switch_tools.fleet.agent.agent import LEASE, FleetAgent, Read
from bg_switch_tools.fleet.agent.agent_files import StateKeeper, machine_id, path_of
from bg_switch_tools.fleet.agent.agent_rounds import ANSWER, CONNECT, AgentRounds
from bg_switch_tools.fleet.agent.agent_status import AgentStatus, AgentStatusFile
from bg_switch_tools.fleet.agent.candidate import Candidate, Clocks
from bg_switch_tools.fleet.agent.fleet_lines import FleetLines
from bg_switch_tools.fleet.agent.handover import Handover
from bg_switch_tools.fleet.agent.rest import Standing
from bg_switch_tools.fleet.agent.store_threads import Leading, StoreTurns, Watch
from bg_switch_tools.fleet.exit_statuses import DONE, FAULT, REFUSED, TAKEN
from bg_switch_tools.fleet.machine.fleet_memory import FleetMemory
from bg_switch_tools.fleet.machine.machine import FRESH, Machine
from bg_switch_tools.fleet.plan.fleet_file import FleetFile, missing_files
from bg_switch_tools.fleet.plan.fleet_plan import MachineSettings
from bg_switch_tools.fleet.plan.rollout_settings import RolloutFile
from bg_switch_tools.fleet.record.status_text import plain
from bg_switch_tools.fleet.store.etcd import EtcdStore
from bg_switch_tools.fleet.store.store import Store, StoreError
from bg_switch_tools.fleet.store.time_limit import TimeLimit
from bg_switch_tools.switch.before import boot_clock
from bg_switch_tools.switch.frame import Signals

TURN = 0.3  # seconds
LONGEST_END = 1.2  # seconds for the round to end after a signal
LONGEST_CALLS = 2.0  # seconds for the calls of the store to end that were begun before
LONGEST_REVOKE = 2.0  # seconds of a call that ends a lease
CALLS = 3  # of the store, in the turn of a machine: each may take the whole timeout
MakeStore = Callable[[float], Store]  # is given the seconds within which a call has to end


@dataclasses.dataclass(frozen=True)
class AgentArguments:
    """How an agent is run. `state` is the path beside which it keeps its files, or a folder for
    them: left out, it is the folder of the state of systemd's unit, or else that of the fleet file.
    `round_seconds` are those between two reads of the store if no key changes; more than one counts
    as one, since no line goes forward by an older read."""

    state: pathlib.Path | None = None
    round_seconds: float = TURN
    as_json: bool = False


def lease_seconds(timeout: float) -> int:
    """The seconds of a lease, which are more than those of the longest turn: the store needs its
    whole timeout for each call, and the switch hangs."""
    return max(LEASE, math.ceil(CALLS * timeout + CONNECT + ANSWER + 2 * ROUND))


class AgentLimits(NamedTuple):
    """The seconds within which a call of the store has to end, and those of a lease."""

    call: float
    lease: int


class AgentParts(NamedTuple):
    """What the process of an agent works with (`make_agent` puts it together)."""

    log: Log
    keeper: StateKeeper
    agent: FleetAgent
    candidate: Candidate
    rounds: AgentRounds
    status: AgentStatusFile
    stopping: threading.Event
    handover: Handover
    turns: StoreTurns
    leading: Leading
    watch: Watch


class AgentProcess:
    """The threads of an agent: the rounds at the switch, the turns at the store, the candidate, and
    the wait for events."""

    def __init__(self, parts: AgentParts, limits: AgentLimits, make_store: MakeStore) -> None:
        self.log = parts.log
        self.make_store = make_store
        self.timeout, self.seconds = limits
        self.keeper = parts.keeper
        self.agent = parts.agent
        self.candidate = parts.candidate
        self.rounds = parts.rounds
        self.status = parts.status
        self.stopping = parts.stopping
        self.handover = parts.handover
        self.turns = parts.turns
        self.leading = parts.leading
        self.watch = parts.watch
        self.read_at = self.lost_at = 0.0  # Unix times
        self.is_known = False  # whether the store has had the report of this machine
        self.other_since: float | None = None  # since when another machine reports as this host
        self.refusal = ""  # why this agent ends: another machine reports as its host
        self.has_fault = False
        self.round_thread = self._thread(self._run_rounds)
        self.writing_threads = [self._thread(self.turns.run), self._thread(self.leading.run)]

    def _thread(self, run: Callable[[], None]) -> threading.Thread:
        """A thread whose exception, which nobody expects, ends the process."""

        def guarded() -> None:
            try:
                run()
            except BaseException:
                self.has_fault = True
                raise
            finally:
                self.stopping.set()

        return threading.Thread(target=guarded, daemon=True)

    def start(self) -> None:
        for thread in (self.round_thread, *self.writing_threads, self._thread(self.watch.run)):
            thread.start()

    def _run_rounds(self) -> None:
        """Rounds at the switch, until the agent is stopped. They wait for no call of the store."""
        pause = 0.0
        self._await_first_read()
        while not self.stopping.is_set():
            for read in self.handover.await_reads(pause):
                self._take(read)
            text, pause = self.rounds.do_round()
            if self.handover.finish(text):
                self.turns.wake.wake()
            self.keeper.keep_again()
            self.status.keep(self.read_at, self.lost_at)
        self.rounds.end()
        self.status.remove()

    def _await_first_read(self) -> None:
        """Waits for a read, but not longer than a call of the store may take: what the files of
        this machine say may be old, and a switch is not to be opened by it while the store
        answers."""
        limit = TimeLimit(self.timeout)
        while not (self.stopping.is_set() or self.read_at) and (left := limit.rest()):
            for read in self.handover.await_reads(left):
                self._take(read)
            if not self.read_at:
                self.handover.finish(None)

    def _take(self, read: Read) -> None:
        self.agent.take(read)
        if read.snapshot is None:
            self.lost_at = self.lost_at or time.time()
            return
        self.read_at, self.lost_at = time.time() - max(boot_clock() - read.begun, 0.0), 0.0
        if not self.agent.is_of_another(read.snapshot):
            self.is_known = self.is_known or self.agent.key in read.snapshot.keys
            self.other_since = None
            self.leading.may_lead.set()
        elif not self.is_known:
            self._wait_for_other()

    def _wait_for_other(self) -> None:
        """Another machine reports as this host: after a restart of the system it may be this one,
        before. So its lease has twice the time that it needs to end."""
        limit = 2 * self.seconds
        if self.other_since is None:
            self.other_since = boot_clock()
            self.log.say(
                "fleet",
                f"this agent ends, unless the lease of the other one ends within {limit} seconds",
            )
        elif boot_clock() >= self.other_since + limit:
            self.refusal = self.agent.machine.fault
            self.stopping.set()

    def stop(self) -> None:
        """Ends all, within some seconds: what runs, and the leases, so that the other machines know
        at once."""
        self.stopping.set()
        self.rounds.stop()
        self.handover.end()
        self.leading.may_lead.set()
        for wake in (self.turns.wake, self.leading.wake):
            wake.wake()
        self.round_thread.join(LONGEST_END)
        if self.round_thread.is_alive() or self.has_fault:
            self.rounds.end_at_once()
        self.rounds.probes.stop()
        limit = TimeLimit(LONGEST_CALLS)
        # a call that ends after the lease would begin another one
        for thread in self.writing_threads:
            thread.join(limit.rest())
        self._revoke()

    def _revoke(self) -> None:
        store = self.make_store(min(self.timeout, LONGEST_REVOKE))
        for lease in (self.agent.lease.number, self.candidate.lease.number):
            try:
                if lease:
                    store.revoke(lease)
            except StoreError as fault:
                self.log.say(
                    "fleet",
                    f"the others learn of the end when the leases end, since the store gives no answer: {fault}",
                )
                return


def make_rounds(agent: FleetAgent, files: ControllerFiles, log: Log) -> AgentRounds:
    """The rounds of an agent, whose controller goes by the record of the fleet."""
    probes, machine = Probes(), agent.machine
    makers = Makers(
        lambda path, plan, log: FleetMemory(machine, path, plan, log),
        lambda parts: FleetLines(machine, parts, agent.now),
    )
    return AgentRounds(
        agent, log, probes, lambda plan: make_controller(files, plan, log, probes, makers)
    )


def make_agent(
    file: FleetFile,
    settings: MachineSettings,
    arguments: AgentArguments,
    log: Log,
    make_store: MakeStore,
) -> AgentProcess:
    """The agent of a machine: its parts are made here, and each is given those that it works
    with."""
    path, timeout = path_of(file, arguments.state), file.etcd.timeout
    pause, seconds = min(arguments.round_seconds, FRESH), lease_seconds(timeout)
    keeper = StateKeeper(path, log.say)
    machine = Machine(file.host, machine_id(path, log.say), settings, keeper.keep, keeper.read())
    store, standing, stopping = make_store(timeout), Standing(), threading.Event()
    # by this clock a read is old that was made before the system was suspended
    agent = FleetAgent(machine, store, log.say, boot_clock, seconds)
    candidate = Candidate(file.host, make_store(timeout), log.say, Clocks(boot_clock), seconds)
    handover = Handover()
    turns = StoreTurns(agent, handover, standing, pause, stopping)
    leading = Leading(candidate, standing, pause, stopping)
    standing.wakes = (turns.wake, leading.wake)
    parts = AgentParts(
        log=log,
        keeper=keeper,
        agent=agent,
        candidate=candidate,
        rounds=make_rounds(agent, ControllerFiles(path, file.folder), log),
        status=AgentStatusFile(path, AgentStatus(file.fleet, file.host, os.getpid())),
        stopping=stopping,
        handover=handover,
        turns=turns,
        leading=leading,
        watch=Watch(store, turns, standing, stopping),
    )
    return AgentProcess(parts, AgentLimits(timeout, seconds), make_store)


class PlainLog(Log):
    """A log in which a text of another machine, of a person or of a plan moves no cursor, and makes
    no line of its own."""

    def _object(self, event: str, text: str, members: Mapping[str, object]) -> dict[str, object]:
        return super()._object(event, plain(text), members)


def tell(text: str) -> None:
    """Tells the user something beside the log."""
    print(f"fleet: {text}", file=sys.stderr)


def start_faults(file: FleetFile) -> list[str]:
    """Why no agent can run by this fleet file, a sentence each; empty if one can."""
    if file.machine is None:
        return [
            "the fleet file has neither host nor control: it is one for people, and no agent runs by it"
        ]
    if not file.machine.rollout:
        return [
            "the fleet file has no key rollout, the file of the Rollout with which the switch is started: an agent has to know that "
            "the switch does not promote by itself"
        ]
    return RolloutFile(file.machine.rollout).faults(False)


def run_agent(file: FleetFile, arguments: AgentArguments) -> int:
    """Runs the agent of a machine until SIGTERM or ctrl-C. Gives the exit status: `DONE`; `REFUSED`
    if the fleet file is not that of a machine, if the Rollout lets its switch promote by itself,
    and if an agent runs here already; `TAKEN` if another machine reports as its host; `FAULT` after
    a fault of its own."""
    faults = start_faults(file)
    for fault in faults:
        tell(fault)
    if faults or file.machine is None:
        return REFUSED
    path = path_of(file, arguments.state)
    try:
        lock = StateLock(path, f"another agent of {file.host} runs here")
    except StateLockedError as reason:
        tell(str(reason))
        return REFUSED
    except OSError as error:
        tell(
            f"the lock file beside {path} cannot be made, so a second agent is not noticed: {error.strerror}"
        )
        return _run_locked(file, file.machine, arguments)
    try:
        return _run_locked(file, file.machine, arguments)
    finally:
        lock.release()


def _run_locked(file: FleetFile, settings: MachineSettings, arguments: AgentArguments) -> int:
    signals = Signals()
    log = PlainLog(sys.stdout, arguments.as_json)
    for problem in missing_files(file):
        log.say("plan", problem)
    process = make_agent(
        file,
        settings,
        arguments,
        log,
        lambda seconds: EtcdStore(file.etcd._replace(timeout=seconds), file.fleet),
    )
    process.start()
    signals.wait_while(lambda: not process.stopping.is_set())
    process.stop()
    if process.has_fault:
        return FAULT
    if process.refusal:
        tell(process.refusal)
        return TAKEN
    return DONE
