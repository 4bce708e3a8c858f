"""Counters, which only grow, as metrics need them: requests and their durations, and what has
happened."""
import bisect
import collections
from collections.abc import Iterator
from typing import NamedTuple

from bg_switch_tools.dashboard.traffic import CLASSES, NO_ANSWER, class_of
from bg_switch_tools.switch.access_log import CLIENT_SERVICES, LogEntry
from bg_switch_tools.switch.phases import Phase
from bg_switch_tools.switch.reports import SERVICES, Report

# The ends of the buckets of durations, in seconds.
BUCKETS = (0.001, 0.0025, 0.005, 0.01, 0.025, 0.05, 0.1, 0.25, 0.5, 1.0, 2.5, 5.0, 10.0, 30.0, 60.0)
# By the phase that an attempt has come to.
REASONS = {Phase.ABORTED: ["RolloutAborted"], Phase.PAUSED: ["RolloutPaused"]}
MOST_REVISIONS = (
    200  # names of revisions that are counted by; those that were seen first are dropped
)


class Labels(NamedTuple):
    """What requests are counted by."""

    service: str
    revision: str
    status: str


class DurationTally:
    """Durations: how many are in each bucket, and their sum in seconds."""

    def __init__(self) -> None:
        self.counts = [0] * (len(BUCKETS) + 1)
        self.sum = 0.0

    def add(self, milliseconds: float) -> None:
        seconds = milliseconds / 1000
        self.counts[bisect.bisect_left(BUCKETS, seconds)] += 1
        self.sum += seconds

    @property
    def is_empty(self) -> bool:
        return not any(self.counts)

    def buckets(self) -> list[tuple[str, float]]:
        """Each end as a text with how many durations are not above it."""
        ends, so_far, found = [*map(str, BUCKETS), "+Inf"], 0, []
        for end, count in zip(ends, self.counts):
            so_far += count
            found.append((end, float(so_far)))
        return found


class RequestCounts:
    """Requests that are counted together: `redispatched` are those of which another endpoint was
    dialled than that of the slot, `retries` the connects after the first one of each, `gone` those
    whose clients had gone before their answers, `kept` those on connections of clients that had
    carried a request before, and `reused` those on such connections to endpoints."""

    def __init__(self) -> None:
        self.requests = self.bytes = self.redispatched = self.retries = self.gone = 0
        self.kept = self.reused = 0
        self.durations = DurationTally()
        self.upstream = DurationTally()

    def add(self, entry: LogEntry) -> None:
        self.requests += 1
        self.bytes += entry.response_bytes or 0
        self.redispatched += entry.slot_port is not None
        self.retries += max((entry.tries or 0) - 1, 0)
        self.gone += entry.has_client_gone
        self.kept += entry.is_on_kept_connection
        self.reused += bool(entry.upstream_reused)
        if entry.answer_ms is not None:
            self.durations.add(entry.answer_ms)
        if entry.upstream_ms is not None:
            self.upstream.add(entry.upstream_ms)


class Totals:
    """All that has come since the dashboard began."""

    def __init__(self) -> None:
        self.counted: dict[Labels, RequestCounts] = {}
        self.events: collections.Counter[str] = collections.Counter()
        self.names: dict[str, None] = {}  # of revisions, by when they were seen first
        self.lost = self.unreadable = 0
        self.idle_connections = 0  # that ended without having sent a byte

    def add(self, entry: LogEntry, revision: str) -> None:
        self.idle_connections += entry.idle_connections or 0
        labels = Labels(entry.service, revision or "none", class_of(entry.status))
        counted = self.counted.get(labels)
        if counted is None:
            self._know(labels.revision)
            counted = self.counted[labels] = RequestCounts()
        counted.add(entry)

    def begin(self, report: Report) -> None:
        """Counts from 0 on what services are about to get: of a counter that begins with a larger
        number, Prometheus would not see the first requests, and of one that is missing it has no
        rate."""
        for service in CLIENT_SERVICES:
            revision = report.service(service).name
            if Labels(service, revision, NO_ANSWER) not in self.counted:
                self._know(revision)
                for each in CLASSES:
                    self.counted.setdefault(Labels(service, revision, each), RequestCounts())

    def items(self) -> Iterator[tuple[Labels, RequestCounts]]:
        yield from self.counted.items()

    def _know(self, revision: str) -> None:
        """Counts by the name of this revision from now on, and no longer by one that is too old."""
        self.names.setdefault(revision)
        if len(self.names) > MOST_REVISIONS:
            oldest = next(iter(self.names))
            del self.names[oldest]
            for labels in [labels for labels in self.counted if labels.revision == oldest]:
                del self.counted[labels]

    def take_changes(self, before: Report | None, now: Report) -> None:
        """Counts what has changed between two reports, by the reasons of the events of Argo
        Rollouts."""
        if before is not None:
            self.events.update(reasons(before, now))


def reasons(before: Report, now: Report) -> list[str]:
    """The reasons of the events that the changes between two reports would be in Argo Rollouts."""
    found = ["NewReplicaSetCreated" for number in now.revisions if number not in before.revisions]
    found += [
        "ScalingReplicaSet"
        for number, revision in now.revisions.items()
        if number in before.revisions and before.revisions[number].desired != revision.desired
    ]
    found += [
        "SwitchService"
        for service in SERVICES[:2]
        if before.selected[service] != now.selected[service]
    ]
    if before.phase != now.phase:
        is_resumed = before.phase is Phase.PAUSED and now.phase is not Phase.ABORTED
        found += REASONS.get(now.phase, [])
        found += ["RolloutResumed"] if is_resumed else []
    return found + (
        ["RolloutCompleted"] if before.selected["stable"] != now.selected["stable"] else []
    )
