"""The history of a plan's rollout as a table, and as JSON."""
from bg_switch_tools.controller.history.attempts import BEGINNINGS, DEPLOYED, UNDEPLOYED, Attempt

TITLES = ("WHEN", "REVISION", "BY", "HOW IT ENDED", "LIVE FOR")
UNITS = (("d", 86400), ("h", 3600), ("m", 60), ("s", 1))


def duration(seconds: float) -> str:
    """Seconds in the two greatest units that they have: `3m12s`, `2h05m`."""
    left = int(seconds)
    for (unit, size), (lesser, part) in zip(UNITS, UNITS[1:]):
        if left >= size:
            return f"{left // size}{unit}{left % size // part:02}{lesser}"
    return f"{left}s"


def _by(attempt: Attempt) -> str:
    """By whom, and how it began if that was not a deploy."""
    return (
        attempt.by if attempt.began in (DEPLOYED, UNDEPLOYED) else f"{attempt.by} ({attempt.began})"
    )


def _live_for(attempt: Attempt, now: str) -> str:
    """For how long it was live, and whether it is; `-` if it never was."""
    seconds = attempt.live_seconds(now)
    if attempt.live_since:
        return f"{duration(seconds)}, live"
    return duration(seconds) if seconds else "-"


def _cells(attempt: Attempt, now: str) -> tuple[str, ...]:
    how = attempt.how or ("runs" if attempt.begun else "")
    if attempt.began == UNDEPLOYED:
        return (attempt.begun, f"- {attempt.name}", _by(attempt), f"not deployed: {how}", "-")
    return (
        attempt.begun or "before",
        f"{attempt.number} {attempt.name}",
        _by(attempt),
        how,
        _live_for(attempt, now),
    )


def as_json(attempt: Attempt, now: str) -> dict[str, object]:
    """An attempt as an object of JSON; what is not known, or has not come yet, is null. `analyses`
    is only there if some have names."""
    analyses = [result.as_json() for result in attempt.analyses]
    return {
        "begun": attempt.begun or None,
        "began": attempt.began if attempt.began in (*BEGINNINGS, UNDEPLOYED) else None,
        "name": attempt.name,
        "number": attempt.number or None,
        "ports": list(attempt.ports),
        "by": attempt.by or None,
        "how": attempt.how or None,
        "ended": attempt.ended or None,
        "live_seconds": attempt.live_seconds(now),
        "is_live": bool(attempt.live_since),
        **({"analyses": analyses} if analyses else {}),
    }


def table(attempts: list[Attempt], now: str) -> list[str]:
    """The lines of a table with a row for each attempt, and a line below it for each of its
    analyses."""
    rows = [(_cells(attempt, now), attempt.analyses) for attempt in attempts]
    all_cells = [TITLES, *(cells for cells, _ in rows)]
    widths = [max(len(cells[column]) for cells in all_cells) for column in range(len(TITLES))]
    return [
        line
        for cells, analyses in [(TITLES, ()), *rows]
        for line in (
            "  ".join(cell.ljust(width) for cell, width in zip(cells, widths)).rstrip(),
            *(f"  {result.title()}: {result.outcome()}" for result in analyses),
        )
    ]
