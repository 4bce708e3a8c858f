"""A switch as a client of its control port or socket sees it: a call for each thing that an operator
asks of it, and what came of each."""
from collections.abc import Sequence
from typing import NamedTuple

from bg_switch_tools.switch.before import boot_clock, milliseconds_of
from bg_switch_tools.switch.connection import (
    Connection,
    UnreachableError,
    ask,
    ask_report,
    ask_state,
    sent,
)
from bg_switch_tools.switch.control import Control
from bg_switch_tools.switch.lines import (
    Abort,
    AnalysisKind,
    Deploy,
    Line,
    Promote,
    Quit,
    Retry,
    Tick,
    Verdict,
    VerdictResult,
    in_time,
    is_report,
    line_in,
    without_time_limit,
)
from bg_switch_tools.switch.moments import DAY
from bg_switch_tools.switch.phases import Phase
from bg_switch_tools.switch.replies import SAME_TEMPLATE, reply_in
from bg_switch_tools.switch.reports import Report, ReportError, as_json, read_report

WAIT = 10.0  # seconds within which a switch answers by default


class Answer(NamedTuple):
    """What a line was answered. `note` is told beside it, on standard error. `report` is the report
    that was asked for."""

    line: str
    lines: Sequence[str]
    carried_out: bool
    meaning: str | None
    note: str | None = None
    report: Report | None = None

    def as_json(self) -> dict[str, object]:
        """An object of JSON: a report's values, or the line, its reply, whether it was carried out,
        and what it means."""
        if self.report is not None:
            return as_json(self.report)
        return {
            "line": self.line,
            "reply": "\n".join(self.lines),
            "carried_out": self.carried_out,
            "meaning": self.meaning,
        }


def _text_of(line: bytes) -> str:
    return line.decode("utf-8", "replace")


def _was_carried_out(lines: Sequence[str]) -> bool:
    """Whether the line was carried out that these lines are the reply to. A newer switch may have
    replies that are not known here, but refuses by those that are."""
    reply = reply_in(lines[0])
    return reply is None or reply.was_carried_out


def _answer(line: bytes, lines: Sequence[str], note: str | None = None) -> Answer:
    """What a line was answered that was sent; `quit` alone has no reply."""
    if not lines:
        return Answer(_text_of(line), lines, True, None)
    report = read_report(lines) if is_report(line) else None
    reply = reply_in(lines[0])
    meaning = reply.meaning if reply else None
    return Answer(_text_of(line), lines, _was_carried_out(lines), meaning, note, report)


def _not_sent(line: bytes, why: str) -> Answer:
    return Answer(_text_of(line), [], False, f"not sent: {why}", f"not sent: {why}")


class Switch:
    """A switch that takes lines at a control port or a control socket. Each call has a connection
    of its own, and ends with `UnreachableError` if the switch gives no answer within `wait`
    seconds."""

    def __init__(self, control: Control, wait: float = WAIT, within: float | None = None) -> None:
        """With `within`, lines that give an event have a time limit: `within` seconds from now."""
        self.control = control
        self.wait = wait
        self.time_limit = None if within is None else boot_clock() + within

    def _in_time(self, line: bytes) -> bytes:
        """The line with its time limit, if there is one and the line gives an event."""
        if self.time_limit is None:
            return line
        return in_time(milliseconds_of(self.time_limit), line)

    def report(self, wait: float | None = None) -> Report | None:
        """The state; None if no book is open. `ReportError` if what answers is not a switch."""
        return ask_report(self.control, self.wait if wait is None else wait)

    def state(self) -> tuple[Report | None, bool | None]:
        """The report as `report` gives it, and whether the journal of the switch lacks an order that
        was carried out; None if the switch does not tell it in time."""
        return ask_state(self.control, self.wait)

    def deploy(self, name: str, ports: Sequence[int], is_idempotent: bool = False) -> Answer:
        """Deploys a revision, and tells which one it made or took again. With `is_idempotent`, one
        that is running or stable already counts as deployed."""
        line = Deploy(name, tuple(ports))
        return self._deploy(self._in_time(line.encoded()), is_idempotent)

    def promote(self, full: bool = False, name: str | None = None) -> Answer:
        """Ends the pause of the attempt, or with `full` skips all analyses and pauses of it. With
        `name`, nothing is sent if another revision is the newest by a report on the same
        connection."""
        line = self._in_time(Promote(full).encoded())
        if name is None:
            return _answer(line, ask(self.control, line, self.wait))
        with Connection(self.control, self.wait) as connection:
            report = connection.ask_report()
            if report is None:
                return _not_sent(line, "no book is open")
            if report.newest.name != name:
                return _not_sent(line, f"{report.newest.title()} is the newest one, and not {name}")
            return _answer(line, sent(connection, line, self.wait))

    def abort(self) -> Answer:
        """Ends the attempt: both services select the stable revision again."""
        return self._ask(Abort())

    def retry(self) -> Answer:
        """Begins the attempt of the newest revision again."""
        return self._ask(Retry())

    def verdict(self, analysis: AnalysisKind, result: VerdictResult) -> Answer:
        """Ends the analysis before or after the switch."""
        return self._ask(Verdict(analysis, result))

    def shut_down(self) -> Answer:
        """Shuts the switch down. It has ended the connection then, and no operator is answered any
        more."""
        return self._ask(Quit())

    def send(self, line: bytes, is_idempotent: bool = False, is_sure: bool = False) -> Answer:
        """Sends a line as a person wrote it, with what `deploy` and `tick` do beside it."""
        line = self._in_time(line)
        known = line_in(line)
        event = without_time_limit(known) if known else None
        if isinstance(event, Deploy):
            return self._deploy(line, is_idempotent)
        if isinstance(event, Tick) and not is_sure:
            return self._tick(line, event)
        return _answer(line, ask(self.control, line, self.wait))

    def _ask(self, line: Line) -> Answer:
        text = self._in_time(line.encoded())
        return _answer(text, ask(self.control, text, self.wait))

    def _tick(self, line: bytes, tick: Tick) -> Answer:
        with Connection(self.control, self.wait) as connection:
            before = connection.ask_report()
            if before and tick.moment > before.moment + DAY:
                return _not_sent(
                    line,
                    f"moment {tick.moment} is more than a day ahead of moment {before.moment}, and no moment can be taken back; "
                    "--yes sends it",
                )
            return _answer(line, sent(connection, line, self.wait))

    def _deploy(self, line: bytes, is_idempotent: bool) -> Answer:
        with Connection(self.control, self.wait) as connection:
            before = connection.ask_report()
            lines = sent(connection, line, self.wait)
            if reply_in(lines[0]) == SAME_TEMPLATE and before and is_idempotent:
                return _deployed_before(line, lines, before)
            note = _deploy_note(connection, before) if _was_carried_out(lines) and before else None
        return _answer(line, lines, note)


def _deploy_note(connection: Connection, before: Report) -> str | None:
    """What a deploy has made, by a report after it; None if the switch no longer gives a report."""
    try:
        after = connection.ask_report()
    except (UnreachableError, ReportError):
        return None
    if after is None:
        return None
    newest = after.newest
    return (
        f"takes {newest.title()} again"
        if newest.number in before.revisions
        else f"makes {newest.title()}"
    )


def _deployed_before(line: bytes, lines: Sequence[str], report: Report) -> Answer:
    """A deploy of what is the newest revision already: that is as good as carried out, unless its
    attempt was aborted."""
    newest = report.newest
    if report.phase is Phase.ABORTED:
        meaning = f"{newest.title()} has this name and these ports already, and its attempt was aborted; retry begins it again"
        return Answer(_text_of(line), lines, False, meaning)
    state = (
        f"is running already, in the phase {report.phase}"
        if report.is_running
        else "is stable already"
    )
    return Answer(
        _text_of(line), lines, True, f"{newest.title()} {state}", f"{newest.title()} {state}"
    )
