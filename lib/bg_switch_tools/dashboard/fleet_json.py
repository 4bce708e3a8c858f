"""The state of a fleet as the page is told it, in values of JSON: that of `bin/fleet status
--json`, with what the dashboard knows beside it."""
from typing import TypedDict

from bg_switch_tools.dashboard.fleet_board import FleetBoard, FleetHappening, Since, shown_text
from bg_switch_tools.dashboard.fleet_state import FleetState, steps_of
from bg_switch_tools.fleet.record.status import MemberStatus

MOST_SHOWN = 200  # rows of machines, and items of each other list


class SinceJson(TypedDict):
    """`exact` is false if it is older than this time."""

    time: float
    exact: bool


def bounded(value: object) -> object:
    """A value of JSON as it is shown: no text and no list is of any length."""
    if isinstance(value, str):
        return shown_text(value)
    if isinstance(value, list):
        return [bounded(each) for each in value[:MOST_SHOWN]]
    return {key: bounded(each) for key, each in value.items()} if isinstance(value, dict) else value


def _since(since: Since) -> SinceJson:
    return {"time": since.time, "exact": since.is_exact}


def _shown(state: FleetState) -> list[str]:
    """The hosts that have a row. If there are too many, those that are away or awaited come
    first."""
    machines = state.machines
    if len(machines) <= MOST_SHOWN:
        return list(machines)
    return sorted(
        machines, key=lambda host: not machines[host].awaited and machines[host].report is not None
    )[:MOST_SHOWN]


def _machines(
    board: FleetBoard, machines: tuple[MemberStatus, ...], shown: list[str]
) -> list[dict[str, object]]:
    return [
        {**machine.as_json(), "since": _since(board.since_of(machine.host))}
        for machine in machines
        if machine.host in shown
    ]


def _attempt(board: FleetBoard, state: FleetState, value: object) -> dict[str, object] | None:
    """The attempt, with the leader that wrote it, if it was seen to lead, even if it leads no
    longer."""
    record = state.record
    if record is None or not isinstance(value, dict):
        return None
    return {
        **value,
        "written_by": board.leaders.get(record.by),
        "steps": steps_of(record, board.failed_at),
    }


def _plan(state: FleetState, value: object) -> dict[str, object] | None:
    if not isinstance(value, dict):
        return None
    plan = state.status.plan
    return {
        **value,
        "by_hand": plan.by_hand if plan else None,
        "max_missing": plan.max_missing if plan else None,
    }


def _read(board: FleetBoard, state: FleetState) -> object:
    """What the latest read says."""
    status, shown = state.status, _shown(state)
    members = status.as_json()
    beside: dict[str, object] = {
        "attempt": _attempt(board, state, members["attempt"]),
        "plan": _plan(state, members["plan"]),
        "leader_since": _since(board.leader_since),
        "members": _machines(board, status.members, shown),
        "others": _machines(board, status.others, shown),
        "unshown": len(state.machines) - len(shown),
        "member_count": len(status.members),
        "away_count": len(state.away),
    }
    return bounded({**members, **beside})


def _message(board: FleetBoard, happened: list[FleetHappening]) -> dict[str, object]:
    return {
        "time": board.unix_time(),
        "session": board.session,
        "fleet": board.fleet,
        "fault": board.own_fault,
        "etcd": {
            "answers": board.answers,
            "fault": board.fault,
            "since": board.since,
            "read": board.read_at,
        },
        "read": _read(board, board.state) if board.state else None,
        "happened": happened,
    }


def whole(board: FleetBoard) -> dict[str, object]:
    """All that is known."""
    return _message(board, board.happened)


def update(board: FleetBoard) -> dict[str, object]:
    """All but what has happened, of which only what is new since the time before."""
    return _message(board, board.news())
