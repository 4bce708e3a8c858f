"""What a drill records, from sources that do not know one another: the history of etcd's keys, the
moments at which the store had a revision, looks at each switch, the agents' logs, the verdicts of
the analyses, the clients, and the faults that the drill made.

Each source is a file of lines of JSON in the folder of a run. All moments are seconds of the boot
clock of the one machine.
"""
import json
import pathlib
import re
from collections.abc import Iterator, Mapping, Sequence
from typing import NamedTuple

PROMOTES = re.compile(r"promotes (\S+) by attempt (\d+), which was read ([\d.]+) seconds ago")
DROPS = re.compile(r"drops the order (\S+) for attempt (\d+), by (.*?): ")
HISTORY, POLLS, VERDICTS, REQUESTS, OUTAGES = (
    "history.jsonl",
    "polls.jsonl",
    "verdicts.jsonl",
    "client.jsonl",
    "outages.jsonl",
)


class Event(NamedTuple):
    """A change of a key. `revision` is etcd's; `created` that of its creation; `value` is None if
    the key was deleted."""

    revision: int
    name: str
    value: str | None
    created: int = 0


class Poll(NamedTuple):
    """A linearizable read between two moments, and the revision that the store had in it. `term` is
    that of etcd's own leader: it rises with each election (0: a recording without it)."""

    begun: float
    ended: float
    revision: int
    term: int = 0


class Look(NamedTuple):
    """What a switch answered between two moments. The phase is empty if it gave no answer."""

    begun: float
    ended: float
    phase: str = ""
    active: str = ""
    stable: str = ""
    newest: str = ""

    @property
    def is_up(self) -> bool:
        return self.phase != ""


class Promote(NamedTuple):
    """A line `promote` of an agent, by its log: of which revision, by the record of which attempt,
    and how many seconds before it had read that. A machine that catches up promotes the stable
    revision of the record."""

    host: str
    moment: float
    revision: str
    attempt: int
    age: float


class Dropped(NamedTuple):
    """A line of a leader's log: it drops an order, and says why."""

    host: str
    moment: float
    order: str
    attempt: int
    by: str


class Verdict(NamedTuple):
    """What an analysis came to: `step` is pre or post."""

    moment: float
    host: str
    step: str
    revision: str
    verdict: str


class Answered(NamedTuple):
    """A client's request. The status is 0 if no answer came. `revision` is the one that answered,
    and `host` its machine. `stepped` is by how many seconds the wall clock of the machine was
    stepped meanwhile."""

    begun: float
    seconds: float
    status: int
    revision: str = ""
    host: str = ""
    stepped: float = 0.0


class Outage(NamedTuple):
    """A fault that the drill made: `what` is switch, agent, etcd or link. It was mended at
    `ended`."""

    what: str
    host: str
    begun: float
    ended: float


class Recording(NamedTuple):
    """A whole run."""

    events: Sequence[Event]
    polls: Sequence[Poll]
    looks: Mapping[str, Sequence[Look]]
    promotes: Sequence[Promote] = ()
    verdicts: Sequence[Verdict] = ()
    requests: Sequence[Answered] = ()
    outages: Sequence[Outage] = ()
    dropped: Sequence[Dropped] = ()


def look_file(host: str) -> str:
    return f"look-{host}.jsonl"


def agent_file(host: str) -> str:
    return f"agent-{host}.log"


def _objects(path: pathlib.Path) -> Iterator[dict[str, object]]:
    """The lines of a file; empty if it is missing. The last one may be cut off if its program was
    killed."""
    if path.exists():
        lines = path.read_text(encoding="utf-8").split("\n")
        for line in lines[:-1]:
            yield json.loads(line)


def _promotes(path: pathlib.Path, host: str) -> Iterator[Promote]:
    for told in _objects(path):
        if found := PROMOTES.search(str(told["line"])):
            yield Promote(
                host, float(str(told["moment"])), found[1], int(found[2]), float(found[3])
            )


def _dropped(path: pathlib.Path, host: str) -> Iterator[Dropped]:
    for told in _objects(path):
        if found := DROPS.search(str(told["line"])):
            yield Dropped(host, float(str(told["moment"])), found[1], int(found[2]), found[3])


def read_recording(folder: pathlib.Path, hosts: Sequence[str]) -> Recording:
    """The recording of a run with these hosts."""

    def rows(name: str) -> list[dict[str, object]]:
        return list(_objects(folder / name))

    return Recording(
        [Event(**row) for row in rows(HISTORY)],  # type: ignore[arg-type]
        [Poll(**row) for row in rows(POLLS)],  # type: ignore[arg-type]
        {host: [Look(**row) for row in rows(look_file(host))] for host in hosts},  # type: ignore[arg-type]
        [promote for host in hosts for promote in _promotes(folder / agent_file(host), host)],
        [Verdict(**row) for row in rows(VERDICTS)],  # type: ignore[arg-type]
        [Answered(**row) for row in rows(REQUESTS)],  # type: ignore[arg-type]
        [Outage(**row) for row in rows(OUTAGES)],  # type: ignore[arg-type]
        [each for host in hosts for each in _dropped(folder / agent_file(host), host)],
    )
