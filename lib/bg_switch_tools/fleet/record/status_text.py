"""How a fleet stands, as lines for people: a tree of its members."""
from bg_switch_tools.controller.log import local_time
from bg_switch_tools.fleet.record.record import Record
from bg_switch_tools.fleet.record.status import FleetStatus, MemberStatus

TITLES = ("MEMBER", "STATE", "PHASE", "ACTIVE", "PREVIEW", "STABLE", "AWAITED", "REASON")
REASON = TITLES.index("REASON")
NOT_BEGUN = "no attempt has begun"
UNKNOWN = "the attempt is not known"


def plain(text: str) -> str:
    """A text from the store as a terminal shows it: what could move its cursor or change its
    colours becomes `?`."""
    return "".join(each if each.isprintable() else "?" for each in text)


def attempt_title(record: Record) -> str:
    """An attempt, as sentences name it."""
    return f"attempt {record.id} of {record.revision.name}"


def _since(record: Record) -> str:
    """Since when an attempt is in its stage, by the clock of the leader that wrote it; empty if
    that is not known."""
    try:
        return f" since {local_time(record.time)}" if record.time else ""
    except (OverflowError, OSError, ValueError):  # no year has such a time
        return ""


def _attempt(status: FleetStatus) -> list[str]:
    record = status.record
    if record is None:
        return [UNKNOWN if status.problem else NOT_BEGUN]
    by = f", by the leader {status.leader}" if status.wrote else ""
    lines = [f"{attempt_title(record)}: {record.stage}{_since(record)}{by}"]
    return lines + ([f"reason: {record.reason}"] if record.reason else [])


def _plan(status: FleetStatus) -> list[str]:
    if not status.plan_id:
        return [] if status.record else ["no plan was put"]
    last = f": its last revision is {status.plan.last.name}" if status.plan else ""
    return [f"plan {status.plan_id} waits for a leader{last}"] if status.plan_waits else []


def _order(status: FleetStatus) -> list[str]:
    order = status.order
    return (
        [f"order: {order.order} attempt {order.attempt}, by {order.by}; no leader has answered it"]
        if order
        else []
    )


def _cells(member: MemberStatus, why_no_vote: str) -> tuple[str, ...]:
    report = member.report
    state = member.state if member.has_vote else f"{member.state}, {why_no_vote}"
    selected = (
        (report.phase, report.active, report.preview, report.stable) if report else ("", "", "", "")
    )
    return (member.host, state, *selected, member.awaited, report.reason if report else "")


def _table(status: FleetStatus) -> list[str]:
    """A line for each member, and one for each other machine that reports."""
    if not status.members and not status.others:
        return ["the fleet has no member"]
    cells = [
        *(_cells(member, "no vote") for member in status.members),
        *(_cells(other, "no member") for other in status.others),
    ]
    rows = [TITLES, *(tuple(map(plain, row)) for row in cells)]
    widths = [max(len(row[column]) for row in rows) for column in range(len(TITLES))]
    widths[REASON] = 0
    branches = ["   "] + ["├─ "] * (len(cells) - 1) + ["└─ "]
    return [
        (branch + "  ".join(cell.ljust(width) for cell, width in zip(row, widths))).rstrip()
        for branch, row in zip(branches, rows)
    ]


def draw(status: FleetStatus) -> list[str]:
    """The lines of a status: the attempt, what stands beside it, what is awaited, and a tree of the
    members."""
    leader = f"led by {status.leader}" if status.leader else "no leader"
    stable = f", stable {status.record.fleet_stable.name}" if status.record else ""
    head = [
        f"fleet {status.fleet}: {leader}{stable}",
        *_attempt(status),
        *_plan(status),
        *_order(status),
        *([f"problem: {status.problem}"] if status.problem else []),
        *([f"waits for {'; '.join(status.awaited)}"] if status.awaited else []),
    ]
    return [*map(plain, head), *_table(status)]


def in_one_line(status: FleetStatus) -> str:
    """The state in one line: the attempt, and what is awaited."""
    record, problem = status.record, status.problem
    attempt = f"{attempt_title(record)}: {record.stage}" if record else problem or NOT_BEGUN
    if record:
        attempt += "".join(
            f"{sign} {text}" for sign, text in ((",", record.reason), (";", problem)) if text
        )
    waits = f"; plan {status.plan_id} waits" if status.plan_waits else ""
    awaited = f"; waits for {', '.join(status.awaited)}" if status.awaited else ""
    return plain(attempt + waits + awaited)
