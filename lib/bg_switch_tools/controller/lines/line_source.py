"""Where a controller learns which revision its switch is to have, and by which lines it gets
there."""
from collections.abc import Callable
from typing import NamedTuple, Protocol

from bg_switch_tools.controller.endpoints.launcher import Launcher
from bg_switch_tools.controller.history.history_recorder import HistoryRecorder
from bg_switch_tools.controller.history.memory import Memory
from bg_switch_tools.controller.lines.held_back import HeldRevisions
from bg_switch_tools.controller.log import Log
from bg_switch_tools.controller.plan.plan import Plan, PlannedRevision
from bg_switch_tools.controller.state.pause import Pause
from bg_switch_tools.switch.lines import Line, Verdict
from bg_switch_tools.switch.replies import Reply
from bg_switch_tools.switch.reports import Report


class LineSource(Protocol):
    """Decides on the lines that select a revision. All else is the controller's: ticks, probes,
    availability, the endpoints' commands, and the runs of analyses. One thread calls it."""

    def take_opened(self, plan: Plan, opened: PlannedRevision) -> PlannedRevision | None:
        """A book was opened with this revision. Gives the revision that the source deploys next, if
        it knows of one."""

    def lose_book(self) -> None:
        """The book of the reports before is gone."""

    def take_report(self, plan: Plan, report: Report) -> None:
        """The first step of a round with a report."""

    def coming(self, plan: Plan, report: Report) -> PlannedRevision | None:
        """The revision that is deployed next, whose endpoints are started before; None if there is
        none."""

    def next_line(self, plan: Plan, report: Report) -> Line | None:
        """The line to be sent now; None if there is no line. It is sent at once."""

    def take_reply(self, plan: Plan, report: Report, line: Line, reply: Reply) -> bool:
        """Takes in the reply of the switch to a line of `next_line`, which was asked for with this
        report. Gives whether the next line has to wait: for a minute, another plan, or another
        book. If the line was carried out, the next one is asked for.
        """

    def is_paused(self) -> bool:
        """Whether no verdict of an analysis is to be handed in."""

    def why_not_judged(self, plan: Plan, report: Report) -> str:
        """Why no analysis is to run in the phase of this report; empty if one may."""

    def may_hand_in(self, report: Report, verdict: Verdict, fault: str) -> bool:
        """Whether the verdict of an analysis is to be handed in now. `fault` says why it is an
        error. The source is asked again in each round until it is."""


class SourceParts(NamedTuple):
    """What a controller has that its source of lines may use."""

    log: Log
    memory: Memory
    history: HistoryRecorder
    pause: Pause
    launcher: Launcher
    held: HeldRevisions


MakeSource = Callable[[SourceParts], LineSource]
