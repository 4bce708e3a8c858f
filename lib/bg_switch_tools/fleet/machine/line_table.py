"""What an agent does at its switch, by where its switch and the record of the fleet stand, and by
nothing else.

So a machine that crashed, was cut off or missed attempts is brought up by the same table as any
other one.
"""
import dataclasses
from typing import NamedTuple

from bg_switch_tools.controller.plan.plan import PlannedRevision
from bg_switch_tools.fleet.record.record import (
    DEPLOYING,
    FAILED,
    FOLLOWS,
    PASSED,
    PROMOTING,
    READY,
    TESTING,
    WORKING,
    Record,
)
from bg_switch_tools.switch.lines import (
    Abort,
    AnalysisKind,
    Deploy,
    Event,
    Line,
    Promote,
    Retry,
    Verdict,
    VerdictResult,
)
from bg_switch_tools.switch.phases import PAST_THE_PAUSE, Phase
from bg_switch_tools.switch.reports import Report

PASSED_LINE = Verdict(AnalysisKind.POST, VerdictResult.SUCCESSFUL)
PROMOTE_LINE = Promote()


@dataclasses.dataclass(frozen=True)
class Joined:
    """Of which attempt the newest revision of a switch is. `cluster` is etcd's cluster id, since
    another etcd counts anew; `attempt` the id of the record by which the attempt of `revision` was
    begun here (0: none). `has_passed` says that the analysis of this machine after the switch has
    passed in it, `reason` why the attempt has failed here."""

    cluster: str = ""
    attempt: int = 0
    revision: str = ""
    has_passed: bool = False
    reason: str = ""


class Known(NamedTuple):
    """What the table decides by, beside the report. `may_retry` says that an attempt of the fleet's
    stable revision that has failed on this machine alone may begin again."""

    record: Record
    cluster: str
    joined: Joined
    may_retry: bool = False

    def has_joined(self, report: Report) -> bool:
        """Whether the newest revision of the switch is of an attempt that was begun by this
        record."""
        joined = self.joined
        return (joined.cluster, joined.attempt, joined.revision) == (
            self.cluster,
            self.record.id,
            report.newest.name,
        )

    def has_passed(self, report: Report) -> bool:
        """Whether the analysis of this machine after the switch has passed for the newest revision
        of the switch. A state file that is older than the attempt names another revision, or
        another etcd."""
        joined = self.joined
        is_of_switch = (joined.cluster, joined.revision) == (self.cluster, report.newest.name)
        return joined.has_passed and is_of_switch


def is_behind(report: Report, record: Record) -> bool:
    """Whether the switch has another stable revision than the fleet."""
    return report.stable.name != record.fleet_stable.name


def is_of_fleet(report: Report, known: Known) -> bool:
    """Whether the newest revision of the switch is one that the record asks for, so that its
    analyses are run."""
    if is_behind(report, known.record):
        return report.newest.name == known.record.fleet_stable.name
    return known.record.is_running and known.has_joined(report)


def is_known_to_be_over(report: Report, known: Known) -> bool:
    """Whether the attempt of the newest revision was begun by a record, and is over by the record
    that was read last. An attempt that is over never goes on, so this stays true however old the
    read is."""
    joined, record = known.joined, known.record
    is_joined = joined.attempt > 0 and (joined.cluster, joined.revision) == (
        known.cluster,
        report.newest.name,
    )
    return is_joined and (joined.attempt != record.id or not record.is_running)


def line_by_record(report: Report, known: Known) -> Event | None:
    """The line that brings a switch one step nearer to the record; None if nothing is to be
    sent."""
    if is_behind(report, known.record):
        return _catch_up(report, known)
    record, newest = known.record, report.newest.name
    if not record.is_running:
        return Abort() if report.is_running else None
    if newest != record.revision.name:
        return Abort() if report.is_running else _deploy(record.revision)
    if not known.has_joined(report):
        return Abort() if report.is_running else Retry()
    if record.stage == DEPLOYING and report.phase in PAST_THE_PAUSE:
        return Abort()  # somebody has promoted on this machine alone
    return PROMOTE_LINE if record.stage == PROMOTING and report.phase is Phase.PAUSED else None


def _deploy(revision: PlannedRevision) -> Deploy:
    return Deploy(revision.name, revision.ports)


def _catch_up(report: Report, known: Known) -> Event | None:
    """The way to the stable revision of the fleet: through analyses of this machine's own, which
    have no vote."""
    stable = known.record.fleet_stable
    if report.newest.name != stable.name:
        return Abort() if report.is_running else _deploy(stable)
    if report.phase is Phase.ABORTED:
        return Retry() if known.may_retry or not known.has_joined(report) else None
    if report.phase is Phase.POST_ANALYSIS:
        return PASSED_LINE if known.has_passed(report) else None
    return PROMOTE_LINE if report.phase is Phase.PAUSED else None


def joined_after(line: Line, report: Report, known: Known) -> Joined:
    """What a switch has joined once it has carried out this line, which rests on this report."""
    if isinstance(line, Retry):
        return Joined(known.cluster, known.record.id, report.newest.name)
    if isinstance(line, Deploy):
        return Joined(known.cluster, known.record.id, line.name)
    is_alone = (
        isinstance(line, Abort)
        and known.record.stage == DEPLOYING
        and known.has_joined(report)
        and report.phase in PAST_THE_PAUSE
    )
    reason = "it was promoted on this machine alone"
    return (
        dataclasses.replace(known.joined, reason=reason)
        if is_alone and not known.joined.reason
        else known.joined
    )


def state_of(report: Report, known: Known) -> tuple[str, str]:
    """What a machine reports of the attempt of the record, and why."""
    record, newest = known.record, report.newest
    if is_behind(report, record):
        reason = known.joined.reason if known.has_joined(report) else ""
        return WORKING, f"catches up with {record.fleet_stable.name}" + (
            f": {reason}" if reason else ""
        )
    if not record.is_running:
        agrees = not report.is_running and report.service("active").name == report.stable.name
        return (FOLLOWS if agrees else WORKING), ""
    if not known.has_joined(report):
        return WORKING, ""
    if report.phase is Phase.ABORTED:
        return FAILED, known.joined.reason or "it was aborted on this machine"
    if report.phase is Phase.PAUSED and newest.available == newest.desired:
        return READY, ""
    if report.phase is Phase.POST_ANALYSIS:
        return (PASSED if known.has_passed(report) else TESTING), ""
    return WORKING, ""
