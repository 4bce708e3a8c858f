"""Waits until conditions hold, or can't come to hold any more."""
import time
from collections.abc import Callable
from typing import NamedTuple

from bg_switch_tools.switch.client import Switch
from bg_switch_tools.switch.conditions import Conditions
from bg_switch_tools.switch.connection import UnreachableError
from bg_switch_tools.switch.report_text import in_one_line
from bg_switch_tools.switch.reports import Report, ReportError

PAUSE = 0.2  # seconds between two reports
REACHED, NEVER, TOO_LATE = 0, 1, 2


class Announcement(NamedTuple):
    """The name of the revision whose deploy is announced; None if none is. `refusal` says why it is
    held back, `absence` why no controller deploys it, and `trouble` why it is not deployed yet;
    empty if nothing prevents it. `overtaken` says that another edit has overtaken a deploy that is
    awaited."""

    name: str | None = None
    refusal: str = ""
    absence: str = ""
    trouble: str = ""
    overtaken: str = ""


class WaitResult(NamedTuple):
    """How a wait has ended: `REACHED`, `NEVER` or `TOO_LATE`; the reason of the latter two; the
    latest report."""

    status: int
    reason: str
    report: Report | None


def nothing_comes() -> Announcement:
    """What a wait that knows of no plan takes for announced."""
    return Announcement()


def wait_for(
    switch: Switch,
    conditions: Conditions,
    longest: float,
    see: Callable[[Report], None],
    announced: Callable[[], Announcement] = nothing_comes,
) -> WaitResult:
    """Waits for conditions, for `longest` seconds. `see` is given each report. `announced` gives the
    revision whose deploy a plan announces: up to that deploy the wait goes on, unless the deploy
    was refused.

    A switch that does not answer in time, or has no book yet, is asked again.
    """
    deadline = time.monotonic() + longest
    report: Report | None = None
    state = "the switch was not asked"
    while True:
        coming = announced()  # before the report: what was deployed by then, the report shows
        try:
            report = switch.report(max(min(switch.wait, deadline - time.monotonic()), PAUSE))
            state = in_one_line(report)
        except (UnreachableError, ReportError) as error:
            report, state = None, str(error)
        if report is not None:
            see(report)
            outlook = conditions.outlook(report, coming.name)
            if outlook.holds or outlook.never:
                return WaitResult(REACHED if outlook.holds else NEVER, outlook.never, report)
        # what was overtaken may have been deployed by hand all the same
        is_overtaken = coming.overtaken and (
            report is None or report.newest.name not in conditions.revisions
        )
        if why := coming.refusal or (coming.overtaken if is_overtaken else ""):
            return WaitResult(
                NEVER, f"{' '.join(conditions.texts)} cannot hold by the plan: {why}", report
            )
        if time.monotonic() + PAUSE >= deadline:
            break
        time.sleep(PAUSE)
    state += (
        f"; the controller has not deployed {coming.name} by the plan yet" if coming.name else ""
    )
    state += "".join(f"; {why}" for why in (coming.trouble, coming.absence) if why)
    return WaitResult(
        TOO_LATE,
        f"{' '.join(conditions.texts)} does not hold after {longest:g} seconds: {state}",
        report,
    )
