"""An attempt as a line of steps, and the commands that make sense in it."""
from collections.abc import Collection, Mapping
from typing import TypedDict

from bg_switch_tools.switch.lines import Abort, Line, Promote, Retry
from bg_switch_tools.switch.phases import PHASES, Phase
from bg_switch_tools.switch.reports import Report

# The steps of the line: the phases of an attempt, the switch and the end.
NAMES: tuple[str, ...] = (
    Phase.SCALING,
    Phase.PRE_ANALYSIS,
    Phase.PAUSED,
    Phase.SIZING,
    "switch",
    Phase.POST_ANALYSIS,
    "stable",
)
# Of the others, the title is the name.
TITLES: Mapping[str, str] = {Phase.PRE_ANALYSIS: "analysis", Phase.POST_ANALYSIS: "analysis"}
PROMOTE, PROMOTE_FULL, ABORT, RETRY = Promote(), Promote(is_full=True), Abort(), Retry()
COMMANDS: tuple[Line, ...] = (PROMOTE, PROMOTE_FULL, ABORT, RETRY)  # of the page's buttons


class Step(TypedDict):
    """A step: `state` is `done`, `passed`, `current`, `failed` or `ahead`. A step that was passed
    was not seen: the strategy may leave it out, or it took less time than lies between two
    reports."""

    name: str
    title: str
    state: str


class SeenPhases:
    """What was seen of the attempt that the reports show: its phases, and in which one it was
    aborted; None if that is not known."""

    def __init__(self) -> None:
        self.number = 0
        self.was_running = False
        self.phases: list[Phase] = []
        self.failed_at: Phase | None = None

    def take(self, report: Report) -> None:
        """Takes in the next report."""
        if report.newest.number != self.number or (report.is_running and not self.was_running):
            self.phases, self.failed_at = [], None
        if report.phase is Phase.ABORTED and self.was_running and self.phases:
            self.failed_at = self.phases[-1]
        if report.is_running and report.phase not in self.phases:
            self.phases.append(report.phase)
        self.number, self.was_running = report.newest.number, report.is_running


def steps(report: Report, seen_phases: Collection[Phase], failed_at: Phase | None) -> list[Step]:
    """The line of steps. `seen_phases` are those of the attempt that were seen, and `failed_at` the
    one in which it was aborted; None if that is not known."""
    if report.phase is Phase.STEADY:
        reached, state = len(NAMES), ""
    elif report.phase is Phase.ABORTED:
        reached, state = (
            NAMES.index(failed_at) if failed_at else 0,
            "failed" if failed_at else "ahead",
        )
    else:
        reached, state = NAMES.index(report.phase), "current"
    before = {
        name: "done" if name in seen_phases or name not in PHASES else "passed" for name in NAMES
    }
    return [
        {
            "name": name,
            "title": TITLES.get(name, name),
            "state": before[name] if place < reached else state if place == reached else "ahead",
        }
        for place, name in enumerate(NAMES)
    ]


def possible_commands(report: Report | None) -> dict[Line, bool]:
    """Whether each of `COMMANDS` makes sense by this report. The switch has the last word."""
    is_running = report is not None and report.is_running
    return {
        PROMOTE: report is not None and report.phase is Phase.PAUSED,
        PROMOTE_FULL: is_running,
        ABORT: is_running,
        RETRY: report is not None and report.phase is Phase.ABORTED,
    }
