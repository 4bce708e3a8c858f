"""The values of a fleet's keys: the record of its attempt, what each machine reports, and what a
person orders.

Each is an object of JSON with a `version`. A record or an order of another version, or with a key
that is not known here, is refused as a whole: an agent that does not know it changes nothing. Of a
report, keys that are not known are passed over. A record without its plan is one that the version
before has written.
"""
import dataclasses
import functools
import json
from collections.abc import Sequence

from bg_switch_tools.controller.plan.plan import PlannedRevision
from bg_switch_tools.controller.plan.plan_reader import REVISION, PlanError
from bg_switch_tools.fleet.plan.fleet_plan import (
    FleetPlan,
    plan_object,
    read_kept_plan,
    read_stored_plan,
)
from bg_switch_tools.fleet.store.store import Key, Snapshot
from bg_switch_tools.switch.json_values import JsonObject, Judge, decoded

VERSION = 1
GREATEST = (1 << 63) - 1  # of a revision of etcd
LONGEST_TEXT = 500  # characters of a text that another machine or a person has written

# The stages of an attempt.
DEPLOYING, PROMOTING, SUCCESSFUL, ABORTED = "deploying", "promoting", "successful", "aborted"
STAGES = (DEPLOYING, PROMOTING, SUCCESSFUL, ABORTED)
RUNNING = (DEPLOYING, PROMOTING)
# What a machine reports of an attempt.
WORKING, READY, TESTING, PASSED, FAILED, FOLLOWS = (
    "working",
    "ready",
    "testing",
    "passed",
    "failed",
    "follows",
)
STATES = (WORKING, READY, TESTING, PASSED, FAILED, FOLLOWS)
# What a person orders.
PROMOTE, ABORT = "promote", "abort"

# The keys below the prefix of a fleet.
PLAN, ATTEMPT, LEADER, ORDER, MEMBERS, MACHINES = (
    "plan",
    "attempt",
    "leader",
    "order",
    "members/",
    "machines/",
)


def shortened(text: str) -> str:
    """A text of a machine or of a person, which a record and a log may repeat: not at any
    length."""
    return text if len(text) <= LONGEST_TEXT else text[:LONGEST_TEXT] + ".."


class UnreadableError(Exception):
    """A key has no value that this version reads. The text says why."""


@dataclasses.dataclass(frozen=True)
class Record:
    """The record of an attempt: all decisions of a fleet. `id` is the plan's `changed` revision, of
    the plan that the attempt is of. `revision` is what the machines go to, `stable` what they go
    back to. `missing` are the members without a vote: they were away when the stage was decided.
    `by` is the `created` revision of the leader's key, of the leader that wrote this, and `time`
    when it did (Unix time of its clock, for people). `plan` is the plan that the attempt began
    with, by which it is decided, whatever the plan's key holds later; None in a record of the
    version before."""

    id: int
    revision: PlannedRevision
    stable: PlannedRevision
    stage: str
    reason: str = ""
    missing: tuple[str, ...] = ()
    by: int = 0
    time: int = 0
    plan: FleetPlan | None = None

    @property
    def is_running(self) -> bool:
        return self.stage in RUNNING

    @property
    def fleet_stable(self) -> PlannedRevision:
        """The stable revision of the fleet."""
        return self.revision if self.stage == SUCCESSFUL else self.stable

    def text(self) -> str:
        """As the key has it."""
        members: dict[str, object] = {
            "version": VERSION,
            **vars(self),
            "revision": vars(self.revision),
            "stable": vars(self.stable),
        }
        members["plan"] = plan_object(self.plan) if self.plan else None
        return json.dumps({key: value for key, value in members.items() if value is not None})


@dataclasses.dataclass(frozen=True)
class MachineReport:
    """What a machine reports. `leader` is the `created` revision of the leader's key that the
    machine has read before (0: none, or a report of the version before): a report is a vote for
    that leader alone. `machine` is the id of the machine itself, whatever its host is called.
    `attempt` is the attempt that its switch has joined (0: none), `state` what came of it, `reason`
    why it failed or waits. What the switch selects is empty if no book is open or no switch
    answers."""

    machine: str
    attempt: int
    state: str
    reason: str = ""
    phase: str = ""
    active: str = ""
    preview: str = ""
    stable: str = ""
    newest: str = ""
    available: int = 0
    leader: int = 0

    def follows(self, record: Record) -> bool:
        """Whether the machine follows an attempt that is over. The report of a machine that has
        gone stands until its lease ends, and may be one of a revision that was stable before."""
        return self.state == FOLLOWS and self.stable == record.fleet_stable.name

    def text(self) -> str:
        return json.dumps({"version": VERSION, **vars(self)})


@dataclasses.dataclass(frozen=True)
class PersonOrder:
    """What a person orders for the attempt that they saw: `promote` or `abort`. `by` is their
    name."""

    order: str
    attempt: int
    by: str

    @property
    def title(self) -> str:
        """The order, as a log names it."""
        return f"the order {self.order} for attempt {self.attempt}, by {self.by or 'nobody'}"

    def text(self) -> str:
        return json.dumps({"version": VERSION, **vars(self)})


def _object(text: str) -> JsonObject:
    """The members of a text. `UnreadableError` if it is no object of this version."""
    try:
        value = decoded(text.encode())
    except ValueError as error:
        raise UnreadableError(f"it is not JSON: {error}") from None
    if not isinstance(value, JsonObject):
        raise UnreadableError("it is not an object")
    if value.get("version") != VERSION:
        raise UnreadableError(
            f"its version is {value.get('version')}, and this program knows version {VERSION}"
        )
    return value


def _one_of(judge: Judge, value: object, place: str, known: Sequence[str]) -> str:
    if isinstance(value, str) and value in known:
        return value
    judge.note(place, f"is none of {', '.join(known)}")
    return known[0]


def _count(judge: Judge, value: object, place: str) -> int:
    return judge.whole_number(value, place, 0, GREATEST)


def _texts(judge: Judge, value: object, place: str) -> tuple[str, ...]:
    if isinstance(value, list) and all(isinstance(text, str) for text in value):
        return tuple(value)
    judge.note(place, "is not a list of texts")
    return ()


def _raise_problems(judge: Judge) -> None:
    if judge.problems:
        raise UnreadableError("; ".join(judge.problems))


def _keys(kind: type) -> tuple[str, ...]:
    return ("version", *(field.name for field in dataclasses.fields(kind)))


@functools.lru_cache(maxsize=256)
def read_record(text: str) -> Record:
    """The record of a text. `UnreadableError` if it is not a record."""
    judge, keys = Judge(), _keys(Record)
    members = judge.members(_object(text), "", keys, [key for key in keys if key != "plan"])
    _raise_problems(judge)
    record = Record(
        _count(judge, members["id"], "id"),
        REVISION.read(judge, members["revision"], "revision"),
        REVISION.read(judge, members["stable"], "stable"),
        _one_of(judge, members["stage"], "stage", STAGES),
        judge.text(members["reason"], "reason"),
        _texts(judge, members["missing"], "missing"),
        _count(judge, members["by"], "by"),
        _count(judge, members["time"], "time"),
        _kept_plan(judge, members["plan"]) if "plan" in members else None,
    )
    _raise_problems(judge)
    return record


def _kept_plan(judge: Judge, value: object) -> FleetPlan | None:
    """The plan that a record keeps; None, and a problem, if it is not a plan."""
    try:
        return read_kept_plan(value)
    except PlanError as wrong:
        judge.note("plan", "; ".join(wrong.problems))
        return None


@functools.lru_cache(maxsize=1024)
def read_machine_report(text: str) -> MachineReport:
    """What a machine reports. `UnreadableError` if the text is no report of this version."""
    judge = Judge()
    members = _object(text)
    for key in [key for key in _keys(MachineReport) if key not in members and key != "leader"]:
        judge.note(key, "is missing")
    _raise_problems(judge)
    words = {
        key: shortened(judge.text(members[key], key))
        for key in ("machine", "reason", "phase", "active", "preview", "stable", "newest")
    }
    report = MachineReport(
        attempt=_count(judge, members["attempt"], "attempt"),
        state=_one_of(judge, members["state"], "state", STATES),
        available=_count(judge, members["available"], "available"),
        leader=_count(judge, members.get("leader", 0), "leader"),
        **words,
    )
    _raise_problems(judge)
    return report


@functools.lru_cache(maxsize=64)
def read_order(text: str) -> PersonOrder:
    """What a person orders. `UnreadableError` if the text is no order of this version."""
    judge = Judge()
    members = judge.members(_object(text), "", _keys(PersonOrder), _keys(PersonOrder))
    _raise_problems(judge)
    order = PersonOrder(
        _one_of(judge, members["order"], "order", (PROMOTE, ABORT)),
        _count(judge, members["attempt"], "attempt"),
        shortened(judge.text(members["by"], "by")),
    )
    _raise_problems(judge)
    return order


def plan_of_attempt(view: "View", record: Record) -> FleetPlan:
    """The plan by which an attempt is decided: the one that it began with. A record of the version
    before keeps none: there it is the plan that stands, if the attempt is of it, and else one by
    which nothing goes on without a person."""
    if record.plan:
        return record.plan
    plan = view.standing_plan if view.changed(PLAN) == record.id else None
    return plan or FleetPlan((record.stable, record.revision), by_hand=True)


class View:
    """What the keys of a snapshot say."""

    def __init__(self, snapshot: Snapshot) -> None:
        self.snapshot = snapshot

    def key(self, name: str) -> Key | None:
        return self.snapshot.keys.get(name)

    def changed(self, name: str) -> int:
        """The `changed` revision of a key; 0 if there is no such key."""
        key = self.key(name)
        return key.changed if key else 0

    @property
    def leader(self) -> int:
        """The `created` revision of the leader's key, which tells one lead from another; 0 if
        nobody leads."""
        key = self.key(LEADER)
        return key.created if key else 0

    def is_current(self, report: MachineReport) -> bool:
        """Whether a report was written for the leader that leads now. One from before may be that
        of a machine that is gone: etcd lets leases last longer after an outage of its own."""
        return self.leader in (0, report.leader)

    @property
    def plan(self) -> FleetPlan | None:
        """The plan; None if no plan was put. `UnreadableError` if it is wrong."""
        key = self.key(PLAN)
        try:
            return read_stored_plan(key.value) if key else None
        except PlanError as wrong:
            raise UnreadableError(f"the plan is wrong: {wrong}") from None

    @property
    def standing_plan(self) -> FleetPlan | None:
        """The plan; None if no plan was put that can be read."""
        try:
            return self.plan
        except UnreadableError:
            return None

    @property
    def plan_fault(self) -> str:
        """Why no plan stands that can be read; empty if one does."""
        try:
            return "" if self.plan else "there is no plan"
        except UnreadableError as reason:
            return str(reason)

    @property
    def other_plan(self) -> FleetPlan | None:
        """The plan that stands, if it is another one than that of the attempt of the record; None
        if it is that one, or if no plan can be read: that ends no attempt."""
        record = self.record
        return self.standing_plan if record and record.id != self.changed(PLAN) else None

    @property
    def record(self) -> Record | None:
        """The record; None if none was written. `UnreadableError` if it is of another version."""
        key = self.key(ATTEMPT)
        try:
            return read_record(key.value) if key else None
        except UnreadableError as reason:
            raise UnreadableError(f"the record of the attempt can't be read: {reason}") from None

    @property
    def order(self) -> PersonOrder | None:
        """What a person orders; None if nobody does. An order that can't be read is one for no
        attempt."""
        key = self.key(ORDER)
        try:
            return read_order(key.value) if key else None
        except UnreadableError:
            return PersonOrder(ABORT, 0, "")

    @property
    def order_fault(self) -> str:
        """Why the order can't be read; empty if it can, or if there is no order."""
        key = self.key(ORDER)
        try:
            if key:
                read_order(key.value)
        except UnreadableError as reason:
            return f"it can't be read: {reason}"
        return ""

    @property
    def members(self) -> tuple[str, ...]:
        """The hosts of the members, in the order of their names."""
        return tuple(
            sorted(
                name.removeprefix(MEMBERS)
                for name in self.snapshot.keys
                if name.startswith(MEMBERS)
            )
        )

    def machine(self, host: str) -> MachineReport | None:
        """What a machine reports; None if it is away. A report that can't be read is one of a
        machine that works."""
        key = self.key(MACHINES + host)
        try:
            return read_machine_report(key.value) if key else None
        except UnreadableError as reason:
            return MachineReport("", 0, WORKING, f"its report can't be read: {reason}")
