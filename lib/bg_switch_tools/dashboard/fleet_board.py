"""What the dashboard knows of a fleet: the latest read of its keys, since when each thing is as it
is, and what has happened."""
import secrets
import time
from typing import NamedTuple, TypedDict

from bg_switch_tools.dashboard.fleet_changes import attempt_told, changes
from bg_switch_tools.dashboard.fleet_state import FleetState, read_state
from bg_switch_tools.fleet.agent.agent import Clock
from bg_switch_tools.fleet.record.record import Record
from bg_switch_tools.fleet.store.store import Snapshot

MOST_HAPPENED = 200
MOST_LEADERS = 100  # leaders of before whose names are known
LONGEST_TEXT = 500  # characters of a text of the fleet's keys that are shown


class FleetHappening(TypedDict):
    """Something that happened. `kind` is one of a `FleetChange`, or `silence`, `answer` or
    `fault`."""

    id: int
    time: float
    kind: str
    text: str


class Since(NamedTuple):
    """When something was seen first (Unix time). If it stood at the first read, it is older:
    `is_exact` is False."""

    time: float
    is_exact: bool


class Seen:
    """Since when each value of a name is as it is."""

    def __init__(self) -> None:
        self.values: dict[str, tuple[object, Since]] = {}

    def take(self, values: dict[str, object], at: float, is_first: bool) -> None:
        """Takes in all values that there are now. Those that were there at the first read may be
        older."""
        known = self.values
        self.values = {
            name: known[name]
            if name in known and known[name][0] == value
            else (value, Since(at, not is_first))
            for name, value in values.items()
        }

    def since(self, name: str) -> Since:
        return self.values[name][1]


def shown_text(text: str) -> str:
    """A text of the fleet's keys as it is shown: not at any length, and without what changes the
    text around it."""
    cut = text if len(text) <= LONGEST_TEXT else text[:LONGEST_TEXT] + ".."
    return "".join(each if each.isprintable() else "\N{REPLACEMENT CHARACTER}" for each in cut)


class FleetBoard:
    """Takes in what is read, and tells all of it. Its times are seconds of `unix_time`, and what it
    measures is of `now`."""

    def __init__(
        self, fleet: str, now: Clock = time.monotonic, unix_time: Clock = time.time
    ) -> None:
        self.fleet = fleet
        self.now, self.unix_time = now, unix_time
        # by which a page notices that another dashboard has taken the place
        self.session = secrets.token_hex(8)
        self.state: FleetState | None = (
            None  # of the latest read that was answered; None before the first one
        )
        self.read_at: float | None = None  # when that read was
        self.fault = (
            "etcd has not been asked yet"  # why the latest read was not answered; empty if it was
        )
        self.since = unix_time()  # when etcd began to answer, or not to
        self.lost_at = now()
        self.own_fault = ""  # what has ended the last look, if it was not expected
        self.own_faults = 0
        self.first_seen = Seen()
        # hosts by the `created` revision of the leader's key, those that were seen first first
        self.leaders: dict[int, str] = {}
        self.failed_at = ""  # the stage in which the attempt was aborted, if that was seen
        self.happened: list[FleetHappening] = []
        self.next_id = 1
        self.told_up_to = 0

    def say(self, kind: str, text: str) -> None:
        self.happened.append(
            {
                "id": self.next_id,
                "time": round(self.unix_time(), 3),
                "kind": kind,
                "text": shown_text(text),
            }
        )
        del self.happened[:-MOST_HAPPENED]
        self.next_id += 1

    @property
    def answers(self) -> bool:
        """Whether the latest read was answered."""
        return not self.fault

    def lost_seconds(self) -> float:
        """For how long no read was answered; 0 while reads are."""
        return 0.0 if self.answers else max(self.now() - self.lost_at, 0.0)

    def attempt_seconds(self) -> float | None:
        """For how long the attempt has been in its stage, by the leader's clock and this one; None
        if that is not known."""
        record = self.state.record if self.state else None
        return max(self.unix_time() - record.time, 0.0) if record and record.time else None

    def take_read(self, snapshot: Snapshot) -> None:
        """Takes in a read that was answered."""
        at, state = self.unix_time(), read_state(self.fleet, snapshot)
        before, self.state, self.read_at = self.state, state, at
        if before and before.cluster != state.cluster:
            self.say("fault", "etcd is another cluster than before, restored from a backup or new")
            before, self.leaders, self.failed_at = None, {}, ""
        if self.fault:
            self.say("answer", f"etcd answers: {attempt_told(state.status)}")
            self.fault, self.since = "", at
        self._take_record(before.record if before else None, state.record)
        if state.leader_created:
            self.leaders[state.leader_created] = state.status.leader
            for created in list(self.leaders)[:-MOST_LEADERS]:
                del self.leaders[created]
        values: dict[str, object] = {
            f"machine {host}": machine.state for host, machine in state.machines.items()
        }
        self.first_seen.take({**values, "leader": state.leader}, at, before is None)
        for change in changes(before, state) if before else []:
            self.say(change.kind, change.text)
        if state.status.problem and (
            before is None or before.status.problem != state.status.problem
        ):
            self.say("fault", state.status.problem)

    def _take_record(self, before: Record | None, now: Record | None) -> None:
        is_same = before is not None and now is not None and before.id == now.id
        if before and before.is_running and is_same:
            self.failed_at = before.stage
        elif not is_same:
            self.failed_at = ""

    def take_silence(self, fault: str) -> None:
        """Takes in that a read was not answered, and why."""
        if not self.fault:
            self.say("silence", f"etcd gives no answer: {fault}")
            self.since, self.lost_at = self.unix_time(), self.now()
        self.fault = shown_text(fault)

    def take_fault(self, fault: str) -> bool:
        """Takes in what has ended a look, or with an empty text that none has. Gives whether that
        is new."""
        is_new = fault != self.own_fault
        if is_new and fault:
            self.say("fault", f"the dashboard could not look at the fleet: {fault}")
        elif is_new:
            self.say("answer", "the dashboard looks at the fleet again")
        self.own_fault = fault
        self.own_faults += bool(fault)
        return is_new

    def since_of(self, host: str) -> Since:
        """Since when a machine of the state is in its state."""
        return self.first_seen.since(f"machine {host}")

    @property
    def leader_since(self) -> Since:
        """Since when the leader of the state leads, or nobody does."""
        return self.first_seen.since("leader")

    def news(self) -> list[FleetHappening]:
        """What has happened since this was asked last."""
        known, self.told_up_to = self.told_up_to, self.next_id - 1
        return [each for each in self.happened if each["id"] > known]
