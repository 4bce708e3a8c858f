"""The revision that an analysis judges, by its name and its number in the book that is open."""
import argparse
import os
from collections.abc import Mapping

from bg_switch_tools.analysis.verdicts import NotJudgedError
from bg_switch_tools.switch import arguments
from bg_switch_tools.switch.connection import UnreachableError, ask_report
from bg_switch_tools.switch.control import Control
from bg_switch_tools.switch.reports import Report, ReportError

FIRST_WAIT = 10.0  # seconds for the switch to answer at the begin
WAIT = 1.0  # seconds for it to answer later
# variables of the controller
NAME, NUMBER, CONTROL = ("BG_REVISION", "BG_REVISION_NUMBER", "BG_CONTROL")


class JudgedRevision:
    """A revision. With a control port, its number is that of its name in the book that is open: a
    switch that was started again gives numbers anew. `name` is empty if it is not known."""

    def __init__(self, name: str, number: int, control: Control | None = None) -> None:
        self.name = name
        self.number = number
        self.control = control

    @property
    def title(self) -> str:
        return f"revision {self.number} {self.name}".rstrip()

    def current_report(self) -> Report | None:
        """A report that has the revision; None if the switch gives no answer, or no book is open.
        `NotJudgedError` if the open book no longer has it."""
        if self.control is None:
            return None
        try:
            report = ask_report(self.control, WAIT)
        except (UnreachableError, ReportError):
            return None
        if report is not None:
            self.take(report)
        return report

    def take(self, report: Report) -> None:
        """Takes the number that the revision has in a report. `NotJudgedError` if the report has it
        not."""
        found = report.named(self.name) if self.name else report.revisions.get(self.number)
        if found is None:
            raise NotJudgedError(f"the switch has no revision {self.name or self.number}")
        self.name, self.number = found.name, found.number


def subject_of(
    name_or_number: str, control: Control | None, variables: Mapping[str, str] = os.environ
) -> JudgedRevision:
    """The revision that was told by its name or number, or else the one that the controller tells
    by variables. `NotJudgedError` if its number can't be known."""
    name, number = variables.get(NAME, ""), variables.get(NUMBER, "")
    if name_or_number in ("", name) and number.isdigit():
        return JudgedRevision(name, int(number), control or control_of(variables))
    if not name_or_number:
        raise NotJudgedError(
            "no revision is given: --revision names it, if no controller runs this"
        )
    is_number = name_or_number.isascii() and name_or_number.isdigit()
    if control is None:
        if is_number:
            return JudgedRevision("", int(name_or_number))
        raise NotJudgedError(
            f"the number of {name_or_number} is not known: --control tells the port to ask, or --revision the number"
        )
    return asked_subject(
        JudgedRevision(
            "" if is_number else name_or_number, int(name_or_number) if is_number else 0, control
        ),
        control,
    )


def control_of(variables: Mapping[str, str]) -> Control | None:
    """The control port that the controller gives; None if it gives none. `NotJudgedError` if it is
    not a port."""
    control_text = variables.get(CONTROL, "")
    try:
        return arguments.control_of(control_text) if control_text else None
    except argparse.ArgumentTypeError as reason:
        raise NotJudgedError(f"{CONTROL}: {reason}") from None


def asked_subject(subject: JudgedRevision, control: Control) -> JudgedRevision:
    """A revision with the number and name that the switch tells. `NotJudgedError` if it tells
    none."""
    title = subject.name or subject.number
    try:
        report = ask_report(control, FIRST_WAIT)
    except (UnreachableError, ReportError) as reason:
        raise NotJudgedError(f"the number of {title} is not known: {reason}") from None
    if report is None:
        raise NotJudgedError(f"the switch has no revision {title}")
    subject.take(report)
    return subject
