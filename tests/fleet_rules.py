"""The rules of a fleet, checked on a trace by code that shares nothing with the agents: it reads
the values of the keys by itself."""
import dataclasses
import json
from collections.abc import Iterator
from typing import Any, NamedTuple

from tests.memory_store import Change

FRESHEST = 1.0  # seconds: how old a read may be that a promote rests on


class Promote(NamedTuple):
    """A line `promote` was carried out. `read_at` and `record` are of the agent's latest read, by
    the store's own note."""

    at: float
    host: str
    revision: str
    read_at: float
    record: str
    begun_by: str  # the record that its attempt was begun by


class Selection(NamedTuple):
    """The service `active` or `stable` of a host selects another revision."""

    at: float
    changes: int  # how many changes of the store came before
    host: str
    service: str
    revision: str


class Said(NamedTuple):
    """A line of an agent's log, after `changes` changes of the store."""

    changes: int
    text: str


@dataclasses.dataclass
class Trace:
    """What a history has left."""

    changes: list[Change]
    said: list[Said] = dataclasses.field(default_factory=list)
    promotes: list[Promote] = dataclasses.field(default_factory=list)
    selections: list[Selection] = dataclasses.field(default_factory=list)
    # rules 4, 5 and 6, which are looked at as the history goes on
    broken: list[str] = dataclasses.field(default_factory=list)


Told = dict[str, Any]


def stable_of(record: Told) -> str:
    name: str = record["revision" if record["stage"] == "successful" else "stable"]["name"]
    return name


class Replay:
    """The keys before each change, one after the other."""

    def __init__(self, changes: list[Change]) -> None:
        self.changes = changes
        self.keys: dict[str, Change] = {}
        # by name: the revision of its latest change, also if that was a deletion
        self.newest: dict[str, int] = {}

    def go(self) -> Iterator[Change]:
        for change in self.changes:
            yield change
            self.newest[change.name] = change.revision
            if change.value is None:
                self.keys.pop(change.name, None)
            else:
                self.keys[change.name] = change

    def value(self, name: str) -> Told | None:
        change = self.keys.get(name)
        told: Told | None = json.loads(change.value) if change and change.value else None
        return told

    def members(self) -> list[str]:
        return sorted(name.split("/")[1] for name in self.keys if name.startswith("members/"))

    def max_missing(self, record: Told) -> int:
        """By the plan that an attempt began with: the one at the revision that is its id."""
        text = next(
            (
                each.value
                for each in self.changes
                if (each.name, each.revision) == ("plan", record["id"])
            ),
            None,
        )
        plan = json.loads(text) if text else {}
        most: int = plan.get("fleet", {}).get("max_missing", 0)
        return most


def vote_faults(replay: Replay, record: Told) -> Iterator[str]:
    """What is wrong with the votes that `promoting` or `successful` rests on, by the reports at the
    moment of its write."""
    needed = {"promoting": "ready", "successful": "passed"}[record["stage"]]
    before = replay.value("attempt") or {}
    without = set(before.get("missing", [])) if record["stage"] == "successful" else set()
    count = 0
    for host in replay.members():
        report = replay.value(f"machines/{host}")
        if report is None or host in without:
            without.add(host)
        elif (report["attempt"], report["state"]) != (record["id"], needed):
            yield f"{host} reports {report['state']} for {report['attempt']}"
        elif report["leader"] != record["by"]:
            yield f"the report of {host} is for an earlier leader"
        else:
            count += 1
    without &= set(replay.members())
    most = replay.max_missing(record)
    if len(without) > most:
        yield f"{sorted(without)} have no vote, and at most {most} may"
    if not count:
        yield "no member has voted"


def write_faults(replay: Replay, change: Change, record: Told) -> Iterator[str]:
    """What is wrong with a write of the attempt beside its votes: who wrote it, and what had
    changed since their read."""
    leader = replay.keys.get("leader")
    if leader is None or leader.created != record["by"]:
        yield f"rule 3: {record['stage']} was written by {change.client}, which does not lead"
    before = replay.value("attempt")
    if before and record["by"] < before["by"]:
        yield f"rule 3: {record['stage']} was written by a leader of before, {change.client}"
    watched = ["attempt", "plan"]
    if (
        record["stage"] in ("promoting", "successful")
        and before
        and before["stage"] in ("deploying", "promoting")
    ):
        watched += [f"machines/{host}" for host in replay.members()]
    newer = [name for name in watched if replay.newest.get(name, 0) > change.read]
    newer += [
        name
        for name, key in replay.keys.items()
        if name.startswith("members/") and key.revision > change.read
    ]
    if newer:
        yield f"rule 3: {record['stage']} was written by {change.client}, and {', '.join(newer)} had changed since its read"


def broken_by_writes(trace: Trace) -> Iterator[str]:
    """Rules 1 and 3, by the writes of the attempt."""
    replay = Replay(trace.changes)
    for change in replay.go():
        if change.name != "attempt" or change.value is None:
            continue
        record, before = json.loads(change.value), replay.value("attempt")
        yield from write_faults(replay, change, record)
        is_voted = (
            record["stage"] == "promoting"
            or record["stage"] == "successful"
            and before
            and before["stage"] == "promoting"
        )
        for fault in vote_faults(replay, record) if is_voted else ():
            yield f"rule 1: {record['stage']} was written for attempt {record['id']}, and {fault}"
        if before and before["id"] == record["id"] and before["stage"] == "aborted":
            yield f"rule 2: attempt {record['id']} was aborted, and {record['stage']} was written after"


def title_of(order: Told) -> str:
    """An order, as a log names it."""
    return f"the order {order['order']} for attempt {order['attempt']}, by {order['by']}"


def broken_by_orders(trace: Trace) -> Iterator[str]:
    """Rule 7: an attempt whose abort stands in the store does not go on, and an order goes only if
    the record has carried it out, or with a line of a log that names it and says why."""
    replay, aborts = Replay(trace.changes), set[int]()
    carried_out = {"abort": "aborted", "promote": "promoting"}
    done: dict[int, Told] = {}  # by the revision: the record that was written
    for change in trace.changes:
        if change.name == "attempt" and change.value:
            done[change.revision] = json.loads(change.value)
    for number, change in enumerate(replay.go()):
        told = json.loads(change.value or "{}") if change.name in ("attempt", "order") else {}
        if change.name == "attempt" and told.get("stage") in ("promoting", "successful"):
            if told["id"] in aborts:
                yield f"rule 7: {told['stage']} was written for attempt {told['id']}, whose abort was ordered before"
        elif change.name == "order" and told:
            aborts |= {told["attempt"]} if told["order"] == "abort" else set()
        elif change.name == "order" and (order := replay.value("order")):
            record = done.get(change.revision, {})
            is_done = (record.get("id"), record.get("stage")) == (
                order["attempt"],
                carried_out[order["order"]],
            )
            put = trace.changes.index(replay.keys["order"])
            if not is_done and not any(
                put < said.changes <= number and f"drops {title_of(order)}: " in said.text
                for said in trace.said
            ):
                yield f"rule 7: {title_of(order)}, went without a word"


def broken_by_selections(trace: Trace) -> Iterator[str]:
    """Rule 1, by what the services select: a revision is active once `promoting` was written for
    it, and stable once the fleet has succeeded with it. The revision that the fleet began with may
    be both."""
    written = [
        (number, json.loads(change.value))
        for number, change in enumerate(trace.changes)
        if change.name == "attempt" and change.value
    ]
    needed = {"active": "promoting", "stable": "successful"}
    for selection in trace.selections:
        stage = needed[selection.service]
        if not any(
            record["revision"]["name"] == selection.revision
            and (record["stage"] == stage or record["id"] == 0)
            for number, record in written
            if number < selection.changes
        ):
            yield f"rule 1: {selection.host} has {selection.service} {selection.revision}, for which {stage} was not written"


def broken_by_promotes(trace: Trace) -> Iterator[str]:
    """Rules 1 and 2, by the promotes and the reads that they rest on."""
    for promote in trace.promotes:
        age = promote.at - promote.read_at
        if age > FRESHEST:
            yield f"rule 2: {promote.host} promotes {promote.revision} on a read that is {age:.2f} seconds old"
        record = json.loads(promote.record) if promote.record else None
        if record is None or stable_of(record) == promote.revision:
            continue
        if (record["stage"], record["revision"]["name"]) != ("promoting", promote.revision):
            rule = 2 if record["stage"] == "aborted" else 1
            yield f"rule {rule}: {promote.host} promotes {promote.revision} on a read of {record['revision']['name']} {record['stage']}"
        elif not promote.begun_by or json.loads(promote.begun_by)["id"] != record["id"]:
            yield f"rule 1: {promote.host} promotes {promote.revision} for attempt {record['id']}, which it has not joined"


def broken(trace: Trace) -> list[str]:
    """What breaks a rule, a text each that begins with the rule."""
    return [
        *broken_by_writes(trace),
        *broken_by_orders(trace),
        *broken_by_selections(trace),
        *broken_by_promotes(trace),
        *trace.broken,
    ]
