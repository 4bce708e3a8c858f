"""The rules of a fleet, checked on a recording.

The checks read etcd's keys by themselves and use no code of the fleet. When moments are compared, a
rule counts as broken only if it is broken whatever happened between two looks: a write has an
earliest and a latest moment, by the reads before and after it.
"""
import collections
import json
from collections.abc import Callable, Iterator, Mapping, Sequence
from typing import Any, NamedTuple

from support.fleet.recording import Answered, Event, Look, Outage, Poll, Promote, Recording

OLDEST_READ = 1.0  # seconds: how old a read may be that a promote rests on
SLACK = 0.5  # seconds: how late a line of a log or a look may be on a busy machine
GOING_BACK = 3.0  # seconds in which a machine goes back after its analysis has failed
PROMOTING = 1200.0  # seconds for which an attempt may be promoting, if its plan does not say it
LEASE = 10.0  # seconds of each lease of an agent
# Seconds in which another agent leads after one that was killed: etcd looks for leases that have
# ended, and the others read.
REPLACING = LEASE + 3.0
SETTLING = 1.5  # seconds after which the load balancer has left out a machine whose switch was killed, or has taken it in again
BALANCER_TIMEOUT = 15.0  # seconds that the load balancer waits for a machine
RUNNING = ("deploying", "promoting")
OVER = ("successful", "aborted")
# The stages that may follow a stage in one attempt; None before its first one.
STEPS: Mapping[str | None, tuple[str, ...]] = {
    None: ("deploying", "successful"),
    "deploying": ("promoting", "aborted"),
    "promoting": OVER,
    "successful": (),
    "aborted": (),
}
CARRIED_OUT = {"abort": "aborted", "promote": "promoting"}  # by the order: the stage
QUIET = ("steady", "aborted")  # phases of a switch in which no attempt runs
FOREVER = float("inf")


class Broken(NamedTuple):
    """A rule that is broken, and how."""

    rule: int
    text: str


class Write(NamedTuple):
    """A write of the record. `before` are the keys as they were at the revision before; `earliest`
    and `latest` enclose its moment."""

    revision: int
    record: dict[str, Any]
    before: Mapping[str, Event]
    earliest: float
    latest: float

    @property
    def stage(self) -> str:
        return str(self.record["stage"])

    @property
    def name(self) -> str:
        """The revision that the attempt is of."""
        return str(self.record["revision"]["name"])

    @property
    def stable(self) -> str:
        """The fleet's stable revision from this write on."""
        return self.name if self.stage == "successful" else str(self.record["stable"]["name"])

    @property
    def promotes(self) -> bool:
        return self.stage in ("promoting", "successful")

    def names(self) -> set[str]:
        """The revisions that a switch may select by this record."""
        return {str(self.record["stable"]["name"]), *([self.name] if self.promotes else [])}

    def members(self) -> list[str]:
        return [
            name.removeprefix("members/") for name in self.before if name.startswith("members/")
        ]

    def told(self, name: str) -> dict[str, Any] | None:
        """The value of a key before the write, which is JSON."""
        event = self.before.get(name)
        return None if event is None or event.value is None else json.loads(event.value)

    def fleet_settings(self) -> dict[str, Any]:
        """The key `fleet` of the plan that the attempt began with, and of the plan before the write
        if the record keeps none."""
        settings = (self.record.get("plan") or plan_of(self.before.get("plan")) or {}).get(
            "fleet", {}
        )
        return settings if isinstance(settings, dict) else {}


def plan_of(event: Event | None) -> dict[str, Any] | None:
    """The plan of a key's value; None if the value is not a plan."""
    try:
        plan = json.loads(event.value) if event and event.value else None
    except ValueError:
        return None
    return plan if isinstance(plan, dict) and plan.get("revisions") else None


class Run:
    """A recording with the writes of its record, and the moments of each."""

    def __init__(self, recording: Recording) -> None:
        self.recording = recording
        # the revision, the host, and what its switch selects
        self.reports: list[tuple[int, str, str]] = []
        self.writes = list(self._replay())
        self.next_latest = [write.latest for write in self.writes[1:]] + [FOREVER]
        # by a revision: from when on it may have been promoted or stable
        self.known_from: dict[str, float] = {}
        for write in self.writes:
            for name in write.names():
                self.known_from.setdefault(name, write.earliest)
        if self.writes:
            # it was live before there was a fleet
            self.known_from[str(self.writes[0].record["stable"]["name"])] = 0.0

    def moments(self, revision: int) -> tuple[float, float]:
        """Between which moments a revision came to be."""
        earliest, latest = 0.0, FOREVER
        for poll in self.recording.polls:
            if poll.revision < revision:
                earliest = max(earliest, poll.begun)
            else:
                latest = min(latest, poll.ended)
        return earliest, latest

    def _replay(self) -> Iterator[Write]:
        keys: dict[str, Event] = {}
        changes: dict[int, list[Event]] = collections.defaultdict(list)
        for event in self.recording.events:
            changes[event.revision].append(event)
        for revision in sorted(changes):
            before = dict(keys)
            for event in changes[revision]:
                if event.value is None:
                    keys.pop(event.name, None)
                    continue
                keys[event.name] = event
                if event.name == "attempt":
                    yield Write(revision, json.loads(event.value), before, *self.moments(revision))
                elif event.name.startswith("machines/"):
                    self.reports.append(
                        (
                            revision,
                            event.name.removeprefix("machines/"),
                            json.loads(event.value).get("active", ""),
                        )
                    )

    def in_force(self, begun: float, ended: float) -> list[Write]:
        """The writes that may have been the newest one at a moment between these two."""
        return [
            write
            for write, until in zip(self.writes, self.next_latest)
            if write.earliest <= ended and until >= begun
        ]

    def abort_of(self, promote: Promote) -> Write | None:
        """The abort of the attempt that is promoted; None if there was no abort."""
        return next(
            (
                write
                for write in self.writes
                if (write.record["id"], write.stage, write.name)
                == (promote.attempt, "aborted", promote.revision)
            ),
            None,
        )

    def late_promotes(self) -> list[Promote]:
        """The promotes that met an abort on its way: it was written already for sure, and the agent
        had read the record before."""
        return [
            promote
            for promote in self.recording.promotes
            if (aborted := self.abort_of(promote)) and aborted.latest <= promote.moment
        ]

    def is_known(self, name: str, moment: float) -> bool:
        """Whether a revision may have been promoted up to a moment."""
        return self.known_from.get(name, FOREVER) <= moment

    def outages(self, what: str, host: str) -> list[Outage]:
        return [
            outage
            for outage in self.recording.outages
            if (outage.what, outage.host) == (what, host)
        ]


def _report_is(report: dict[str, Any] | None, attempt: int, state: str) -> bool:
    return report is not None and (report["attempt"], report["state"]) == (attempt, state)


def _without_word(write: Write, state: str) -> Iterator[str]:
    """The members with a vote that did not report this when the record was written, and members
    without one that are too many."""
    attempt, missing = write.record["id"], write.record.get("missing", [])
    for host in write.members():
        report = write.told(f"machines/{host}")
        if host not in missing and not _report_is(report, attempt, state):
            told = report and (report["attempt"], report["state"])
            yield f"revision {write.revision}: {write.stage} was written while {host} reported {told}"
    without = [host for host in write.members() if host in missing]
    if len(without) > int(write.fleet_settings().get("max_missing", 0)):
        yield f"revision {write.revision}: {write.stage} was written without {', '.join(without)}, and the plan allows fewer"


def selections(looks: Sequence[Look]) -> Iterator[tuple[Look, Look]]:
    """The looks before and after each change of what the active service selects."""
    for before, after in zip(looks, looks[1:]):
        if after.is_up and after.active != before.active:
            yield before, after


def _promoting_is_allowed(run: Run) -> Iterator[str]:
    for write in run.writes:
        if write.stage != "promoting":
            continue
        yield from _without_word(write, "ready")
        order = write.told("order")
        is_ordered = order is not None and (order["order"], order["attempt"]) == (
            "promote",
            write.record["id"],
        )
        if write.fleet_settings().get("by_hand") and not is_ordered:
            yield f"revision {write.revision}: promoting was written, and nobody had ordered it"


def _reports_follow(run: Run) -> Iterator[str]:
    """No report in etcd says that a machine selects a revision that was not promoted before, by
    etcd's own revisions."""
    if not run.writes:
        return
    first = run.writes[0].revision
    known = {name for revision, _, name in run.reports if revision < first}
    selected: dict[str, str] = {}
    for revision, host, name in run.reports:
        if (
            name
            and name != selected.get(host)
            and name not in known
            and not any(name in write.names() for write in run.writes if write.revision < revision)
        ):
            yield f"revision {revision}: {host} reports that it selects {name}, which was not promoted"
        selected[host] = name or selected.get(host, "")


def rule_1(run: Run) -> Iterator[str]:
    """No active service selects a revision before `promoting` was written, and that only while
    every member was ready."""
    yield from _promoting_is_allowed(run)
    yield from _reports_follow(run)
    for host, looks in run.recording.looks.items():
        for _, after in selections(looks):
            if not run.is_known(after.active, after.ended):
                yield f"{host} selected {after.active} at {after.ended:.3f}, before it was promoted"
    for promote in run.recording.promotes:
        allowing = [
            write
            for write in run.writes
            if write.record["id"] == promote.attempt
            and (
                promote.revision == write.stable
                or (write.promotes and promote.revision == write.name)
            )
        ]
        if not any(write.earliest <= promote.moment + SLACK for write in allowing):
            yield (
                f"{promote.host} promoted {promote.revision} at {promote.moment:.3f}, before promoting was written for attempt "
                f"{promote.attempt}"
            )
    for request in run.recording.requests:
        if request.revision and not run.is_known(request.revision, request.begun + request.seconds):
            yield f"a client was answered by {request.revision} at {request.begun:.3f}, before it was promoted"


def _steps_are_legal(run: Run) -> Iterator[str]:
    before: Write | None = None
    for write in run.writes:
        same = before is not None and before.record["id"] == write.record["id"]
        stage = before.stage if before and same else None
        if write.stage not in STEPS[stage]:
            yield f"revision {write.revision}: attempt {write.record['id']} went from {stage} to {write.stage}"
        if before and not same and before.stage in RUNNING:
            yield f"revision {write.revision}: attempt {before.record['id']} was replaced while it was {before.stage}"
        before = write


def _promote_is_fresh(run: Run, promote: Promote) -> Iterator[str]:
    if promote.age > OLDEST_READ:
        yield f"{promote.host} promoted {promote.revision} by a read {promote.age:.3f} seconds old"
    aborted, read_at = run.abort_of(promote), promote.moment - promote.age
    if aborted and aborted.latest < read_at - SLACK:
        yield (
            f"{promote.host} promoted {promote.revision} by a read at {read_at:.3f}, and attempt {promote.attempt} was aborted at "
            f"{aborted.latest:.3f}"
        )


def rule_2(run: Run) -> Iterator[str]:
    """An attempt that was aborted is not promoted by a read of that or of anything later, nor by a
    read older than a second."""
    yield from _steps_are_legal(run)
    for promote in run.recording.promotes:
        yield from _promote_is_fresh(run, promote)
    for host, looks in run.recording.looks.items():
        for before, after in selections(looks):
            # a switch that was started again, or goes back to its own stable revision, needs no
            # permission
            if (
                not before.is_up
                or after.active == before.stable
                or not run.is_known(after.active, after.ended)
            ):
                continue
            found = run.in_force(before.begun - OLDEST_READ - SLACK, after.ended)
            if not any(
                after.active in (write.name if write.promotes else "", write.stable)
                for write in found
            ):
                yield f"{host} selected {after.active} at {after.ended:.3f}, more than a second after it was no longer promoted"


def rule_3(run: Run) -> Iterator[str]:
    """The writer of the record holds the leader's key, no older leader writes after a newer one,
    and the plan is that of the attempt."""
    last = 0
    for write in run.writes:
        leader, by = write.before.get("leader"), int(write.record["by"])
        if leader is None or leader.created != by:
            yield f"revision {write.revision} was written by the leader {by}, and {leader.created if leader else 'nobody'} led"
        if by < last:
            yield f"revision {write.revision} was written by the leader {by} after the leader {last}"
        last = max(last, by)
        plan, begins = write.before.get("plan"), write.stage == "deploying"
        is_wrong = begins if plan_of(plan) is None else plan and plan.revision != write.record["id"]
        if write.stage != "aborted" and write.record["id"] and is_wrong:
            stands = plan.revision if plan else "none"
            yield f"revision {write.revision}: {write.stage} of attempt {write.record['id']}, and the plan was {stands}"


def rule_4(run: Run) -> Iterator[str]:
    """At the end all machines have the same active and stable revision, which is the fleet's."""
    stable = run.writes[-1].stable if run.writes else ""
    if run.writes and run.writes[-1].stage in RUNNING:
        yield f"at the end attempt {run.writes[-1].record['id']} is {run.writes[-1].stage}"
    for host, looks in run.recording.looks.items():
        last = looks[-1] if looks else None
        if (
            last is None
            or (last.active, last.stable) != (stable, stable)
            or last.phase not in QUIET
        ):
            yield f"at the end {host} is at {last}, and the fleet at {stable}"


def _is_of_a_step(request: Answered) -> bool:
    """Whether the load balancer ended the request since the wall clock was stepped forward by more
    than its timeout: HAProxy 2.6 measures its timeouts by the wall clock."""
    return request.status == 504 and not request.host and request.stepped > BALANCER_TIMEOUT


def _is_excused(run: Run, request: Answered) -> bool:
    """Whether the switch of the machine that answered was killed itself. An answer of the load
    balancer names no machine: it is excused if the switches of all machines were killed."""
    hosts = [request.host] if request.host else list(run.recording.looks)
    return bool(hosts) and all(_was_killed(run, host, request) for host in hosts)


def _was_killed(run: Run, host: str, request: Answered) -> bool:
    """Whether the switch of a machine was killed when a request came, or was not up again."""
    for outage in run.outages("switch", host):
        looks = run.recording.looks.get(host, ())
        back = next(
            (look.ended for look in looks if look.begun >= outage.ended and look.is_up),
            outage.ended,
        )
        if outage.begun - request.seconds - SLACK <= request.begun <= back + SETTLING:
            return True
    return False


def rule_5(run: Run) -> Iterator[str]:
    """No request fails but those of a machine whose own switch was killed, and those that the load
    balancer ends since the wall clock was stepped."""
    for request in run.recording.requests:
        if request.status != 200 and not _is_excused(run, request) and not _is_of_a_step(request):
            yield f"a request at {request.begun:.3f} got {request.status or 'no answer'} from {request.host or 'no machine'}"


def rule_6(run: Run) -> Iterator[str]:
    """A machine whose analysis after the switch fails goes back at once, and the fleet does not
    succeed without its word."""
    for write in run.writes:
        if (
            write.stage == "successful"
            and write.told("attempt")
            and write.record["revision"] != write.record["stable"]
        ):
            yield from _without_word(write, "passed")
    for verdict in run.recording.verdicts:
        if verdict.step != "post" or verdict.verdict == "successful":
            continue
        until = verdict.moment + GOING_BACK
        down = [
            outage
            for what in ("switch", "agent")
            for outage in run.outages(what, verdict.host)
            if outage.begun <= until and outage.ended >= verdict.moment - SLACK
        ]
        left = any(
            look.ended >= verdict.moment
            and look.begun <= until
            and look.is_up
            and look.active != verdict.revision
            for look in run.recording.looks.get(verdict.host, ())
        )
        if not left and not down:
            yield f"{verdict.host} still selected {verdict.revision} {GOING_BACK:g} seconds after its analysis had failed"


def rule_7(run: Run) -> Iterator[str]:
    """An attempt whose abort was ordered does not go on, and an order goes only if the record has
    carried it out, or with a line in a leader's log that names it."""
    written = {write.revision: (write.record["id"], write.stage) for write in run.writes}
    told = collections.Counter(
        (each.order, each.attempt, each.by) for each in run.recording.dropped
    )
    aborts: set[int] = set()
    standing: dict[str, Any] = {}
    for event in run.recording.events:
        attempt, stage = written.get(event.revision, (None, ""))
        if event.name == "attempt" and stage in ("promoting", "successful") and attempt in aborts:
            yield f"revision {event.revision}: {stage} of attempt {attempt}, whose abort was ordered before"
        if event.name != "order":
            continue
        order, standing = standing, json.loads(event.value or "{}")
        if standing.get("order") == "abort":
            aborts.add(standing["attempt"])
        if (
            not order
            or event.value
            or (attempt, stage) == (order["attempt"], CARRIED_OUT[order["order"]])
        ):
            continue
        title = (order["order"], order["attempt"], order["by"])
        told[title] -= 1
        if told[title] < 0:
            yield f"revision {event.revision}: the order {title[0]} for attempt {title[1]}, by {title[2]}, went without a word"


def _without_store(run: Run, begun: float, ended: float) -> float:
    """For how many seconds between two moments something was broken by which nothing can be
    decided: etcd, a link to it, or an agent, which may be the leader's. Faults at the same time
    count once."""
    seconds, until = 0.0, begun
    for outage in sorted(run.recording.outages, key=lambda each: each.begun):
        if outage.what in ("etcd", "link", "agent"):
            seconds += max(min(outage.ended, ended) - max(outage.begun, until), 0.0)
            until = max(until, min(outage.ended, ended))
    return seconds


def elections(polls: Sequence[Poll], begun: float, ended: float) -> int:
    """How many elections of etcd's own leader polls show between two moments. Each lets all leases
    last for their whole time again, also that of an agent that is gone."""
    count, term = 0, 0
    for before, poll in zip(polls, polls[1:]):
        term = max(term, before.term)
        if poll.term > term > 0 and poll.ended >= begun and before.begun <= ended:
            count += 1
    return count


def rule_8(run: Run) -> Iterator[str]:
    """Whatever the plan's key holds, an attempt is promoting for the seconds of the plan that it
    began with at most, and one whose abort was ordered ends. A leader that is lost is replaced
    after its lease, which each election of etcd begins anew, and the time in which something is
    broken is added."""
    last = max((poll.ended for poll in run.recording.polls), default=0.0)
    aborts = {
        json.loads(event.value)["attempt"]: run.moments(event.revision)[1]
        for event in run.recording.events
        if event.name == "order" and event.value and '"abort"' in event.value
    }
    for write, after in zip(run.writes, [*run.writes[1:], None]):
        attempt, until = write.record["id"], after.earliest if after else last
        seconds = float(write.fleet_settings().get("promoting_seconds", PROMOTING))
        limits = [("it was promoting", write.latest, seconds)] if write.stage == "promoting" else []
        if attempt in aborts and write.stage in RUNNING:
            limits.append(("its abort was ordered", max(aborts[attempt], write.latest), 0.0))
        for what, begun, limit in limits:
            took, since = until - begun, begun - REPLACING
            elected = elections(run.recording.polls, since, until)
            limit += REPLACING + LEASE * elected + _without_store(run, since, until)
            if took > limit:
                yield (
                    f"attempt {attempt} was {write.stage} {took:.1f} seconds after {what}, and the limit is {limit:.1f}, with "
                    f"{elected} elections of etcd"
                )


RULES: tuple[Callable[[Run], Iterator[str]], ...] = (
    rule_1,
    rule_2,
    rule_3,
    rule_4,
    rule_5,
    rule_6,
    rule_7,
    rule_8,
)


def broken_rules(recording: Recording) -> list[Broken]:
    """Each way in which a rule is broken."""
    run = Run(recording)
    return [Broken(number, text) for number, rule in enumerate(RULES, 1) for text in rule(run)]


def figures(recording: Recording) -> dict[str, str]:
    """What a run had, for people: without promotions, aborts and faults its checks say little."""
    run = Run(recording)
    stages = collections.Counter(write.stage for write in run.writes)
    failed = [request for request in recording.requests if request.status != 200]
    return {
        "writes of the record": f"{len(run.writes)} ({', '.join(f'{stage} {count}' for stage, count in stages.items())})",
        "leaders": str(len({write.record["by"] for write in run.writes})),
        "promotes of agents": f"{len(recording.promotes)}, {len(run.late_promotes())} of them while an abort was on its way",
        "oldest read of a promote": f"{max((promote.age for promote in recording.promotes), default=0):.3f} s",
        "changes of active services": str(
            sum(1 for looks in recording.looks.values() for _ in selections(looks))
        ),
        "requests": f"{len(recording.requests)}, {len(failed)} failed, {sum(_is_excused(run, each) for each in failed)} of these at a "
        f"machine whose switch was killed, and {sum(map(_is_of_a_step, failed))} at a step of the wall clock",
        "slowest answer": f"{max((request.seconds for request in recording.requests), default=0):.2f} s",
    }
