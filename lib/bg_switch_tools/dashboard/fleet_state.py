"""What one read of a fleet's keys says, as the page and the metrics of a fleet need it."""
from typing import NamedTuple

from bg_switch_tools.dashboard.steps import Step
from bg_switch_tools.fleet.record.record import (
    ABORTED,
    DEPLOYING,
    LEADER,
    PROMOTING,
    STATES,
    SUCCESSFUL,
    Record,
)
from bg_switch_tools.fleet.record.status import FleetStatus, MemberStatus, status_of
from bg_switch_tools.fleet.store.store import Snapshot

AWAY = "away"  # the state of a member without a report
MEMBER_STATES = (*STATES, AWAY)
STEPS = (DEPLOYING, PROMOTING, SUCCESSFUL)  # the stages of an attempt that succeeds


class FleetState(NamedTuple):
    """What a read says: how the fleet stands, the identity of the store, and the `created` revision
    of the leader's key, by which the record names its leader (0: nobody leads)."""

    status: FleetStatus
    cluster: str
    leader_created: int

    @property
    def record(self) -> Record | None:
        return self.status.record

    @property
    def leader(self) -> tuple[str, int]:
        """The host of the leader, which is empty if nobody leads, and the revision by which it
        does."""
        return self.status.leader, self.leader_created

    @property
    def machines(self) -> dict[str, MemberStatus]:
        """All machines that are known, by host: the members, and then those that report and are
        none."""
        return {machine.host: machine for machine in (*self.status.members, *self.status.others)}

    @property
    def members(self) -> tuple[str, ...]:
        """The hosts of the members."""
        return tuple(member.host for member in self.status.members)

    @property
    def away(self) -> tuple[str, ...]:
        """The members without a report."""
        return tuple(member.host for member in self.status.members if member.report is None)


def read_state(fleet: str, snapshot: Snapshot) -> FleetState:
    """What a snapshot says of the fleet of this name. What can't be read is a problem of the
    status, and never an exception."""
    leader = snapshot.keys.get(LEADER)
    return FleetState(status_of(fleet, snapshot), snapshot.cluster, leader.created if leader else 0)


def steps_of(record: Record, failed_at: str) -> list[Step]:
    """The attempt as a line of steps. `failed_at` is the stage in which it was aborted; empty if
    that is not known."""
    if record.stage == ABORTED:
        reached, state = (
            STEPS.index(failed_at) if failed_at in STEPS else 0,
            "failed" if failed_at in STEPS else "ahead",
        )
    else:
        reached, state = (
            STEPS.index(record.stage),
            "done" if record.stage == SUCCESSFUL else "current",
        )
    return [
        {
            "name": name,
            "title": name,
            "state": "done" if place < reached else state if place == reached else "ahead",
        }
        for place, name in enumerate(STEPS)
    ]
