"""The metrics of a fleet, as `prometheus_client` writes them."""
from collections.abc import Iterator

from prometheus_client.core import Metric

from bg_switch_tools.dashboard.fleet_agent import LocalAgent
from bg_switch_tools.dashboard.fleet_board import FleetBoard
from bg_switch_tools.dashboard.fleet_state import MEMBER_STATES, FleetState
from bg_switch_tools.dashboard.metric_families import by_label, counter, gauge, gauges
from bg_switch_tools.fleet.record.record import STAGES


def _of_read(state: FleetState) -> Iterator[Metric]:
    """What a read says."""
    record = state.record
    if record:
        yield by_label(
            "bg_fleet_stage",
            "The stage of the attempt: 1 for the one that it is in.",
            "stage",
            {stage: stage == record.stage for stage in STAGES},
        )
    yield gauges(
        "bg_fleet_member_state",
        "What a member reports: 1 for the state that it is in.",
        ["host", "state"],
        [
            ([member.host, each], each == member.state)
            for member in state.status.members
            for each in MEMBER_STATES
        ],
    )
    yield gauge("bg_fleet_members", "Members of the fleet.", len(state.status.members))
    yield gauge("bg_fleet_has_leader", "Whether a leader holds its key.", state.leader_created != 0)


def _of_board(board: FleetBoard) -> Iterator[Metric]:
    """What was read is left out while no read is answered: it would look as if it were of now."""
    if board.state and board.answers:
        yield from _of_read(board.state)
        seconds = board.attempt_seconds()
        if seconds is not None:
            yield gauge(
                "bg_fleet_attempt_seconds",
                "Seconds since the attempt came to its stage, by the clock of the leader.",
                seconds,
            )
    yield gauge(
        "bg_fleet_etcd_lost_seconds",
        "Seconds for which no read of the dashboard was answered; 0 while reads are.",
        board.lost_seconds(),
    )
    yield counter(
        "bg_fleet_dashboard_faults",
        "Looks of the dashboard at the fleet that ended by a fault of its own.",
        [],
        [([], board.own_faults)],
    )


def _of_agent(agent: LocalAgent, now: float) -> Iterator[Metric]:
    status = agent.status(now)
    yield gauge(
        "bg_fleet_agent_up",
        "Whether the agent of this machine runs, by the file that it keeps.",
        status is not None,
    )
    if status:
        yield gauge(
            "bg_fleet_agent_etcd_lost_seconds",
            "Seconds for which no read of the agent was answered; 0 while reads are.",
            status.lost_seconds(now),
        )


class FleetCollector:
    """Gives the metrics of a fleet, and of the agent of this machine if it has one, each time they
    are asked for."""

    def __init__(self, board: FleetBoard, agent: LocalAgent | None) -> None:
        self.board = board
        self.agent = agent

    def collect(self) -> Iterator[Metric]:
        yield from _of_board(self.board)
        if self.agent:
            yield from _of_agent(self.agent, self.board.unix_time())
