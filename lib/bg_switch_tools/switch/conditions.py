"""What `wait` can wait for: conditions on a report, and whether one can still hold unless a line is
sent."""
import argparse
import dataclasses
import difflib
import re
from collections.abc import Callable, Sequence
from typing import NamedTuple, Protocol

from bg_switch_tools.switch.json_values import NAME
from bg_switch_tools.switch.phases import PHASES, RUNNING, Phase
from bg_switch_tools.switch.reports import SERVICES, Report

CONDITION_SYNTAX = "phase=PHASE, active=NAME, preview=NAME, stable=NAME, newest=NAME, open(NAME)=N, scaled-down=NAME, settled"


class Outlook(NamedTuple):
    """Whether a condition holds. If it doesn't and cannot hold unless a line is sent, `never` says
    why."""

    holds: bool
    never: str = ""


HOLDS, MAY_COME = Outlook(True), Outlook(False)


class SeenRevisions:
    """What a wait has seen: the names of all revisions that existed, and the number of the one
    whose attempt it waits for."""

    def __init__(self) -> None:
        self.names: set[str] = set()
        self.newest: int | None = None

    def take_in(self, report: Report, awaited: Sequence[str]) -> None:
        """Takes in a report. The attempt is that of the newest revision at first, or of one that is
        awaited by its name."""
        self.names |= {revision.name for revision in report.revisions.values()}
        if self.newest is None or report.newest.name in awaited:
            self.newest = report.newest.number


class Condition(Protocol):
    """A condition."""

    def outlook(self, report: Report, seen_revisions: SeenRevisions) -> Outlook:
        """Whether it holds by this report, or can come to hold."""


class ConditionError(ValueError):
    """A text that is no condition. The message says what is needed."""


def _no_revision(name: str) -> Outlook:
    return Outlook(False, f"no revision {name} exists")


def _at_rest(report: Report) -> str:
    """Why nothing moves any more, while no attempt runs."""
    return (
        f"the attempt of {report.newest.name} was aborted"
        if report.phase is Phase.ABORTED
        else "no attempt runs"
    )


@dataclasses.dataclass(frozen=True)
class PhaseIs:
    """The attempt that was the newest at the wait's begin is in this phase, or has ended in it."""

    phase: Phase

    def outlook(self, report: Report, seen_revisions: SeenRevisions) -> Outlook:
        if report.newest.number != seen_revisions.newest:
            return Outlook(
                False, f"{report.newest.name} took the place of the revision that it waits for"
            )
        if report.phase is self.phase:
            return HOLDS
        if not report.is_running:
            return Outlook(False, _at_rest(report))
        if self.phase in RUNNING and RUNNING.index(self.phase) < RUNNING.index(report.phase):
            return Outlook(
                False,
                f"the attempt of {report.newest.name} is past it, in the phase {report.phase}",
            )
        return MAY_COME


@dataclasses.dataclass(frozen=True)
class ServiceIs:
    """A service, the stable or the newest one, is the revision of this name."""

    service: str
    name: str

    def outlook(self, report: Report, seen_revisions: SeenRevisions) -> Outlook:
        if report.service(self.service).name == self.name:
            return HOLDS
        exists = report.named(self.name) is not None
        if self.service == "newest" and not exists and self.name not in seen_revisions.names:
            return MAY_COME  # the controller may deploy it by its plan
        if not exists:
            return _no_revision(self.name)
        if not report.is_running:
            return Outlook(False, _at_rest(report))
        reachable = {report.newest.name} | (
            {report.stable.name} if self.service in ("active", "preview") else set()
        )
        if self.name not in reachable:
            return Outlook(False, f"{report.newest.name} took the place of {self.name}")
        return MAY_COME


@dataclasses.dataclass(frozen=True)
class OpenAre:
    """The revision of this name has `count` open requests."""

    name: str
    count: int

    def outlook(self, report: Report, seen_revisions: SeenRevisions) -> Outlook:
        revision = report.named(self.name)
        if revision is None and self.name not in seen_revisions.names:
            return _no_revision(self.name)
        if (revision.open if revision else 0) == self.count:
            return HOLDS
        if revision is None or revision.desired == 0:
            return Outlook(False, f"{self.name} is scaled down")
        return MAY_COME


@dataclasses.dataclass(frozen=True)
class ScaledDown:
    """The revision of this name is scaled down, or was removed after that."""

    name: str

    def outlook(self, report: Report, seen_revisions: SeenRevisions) -> Outlook:
        revision = report.named(self.name)
        if revision is None:
            return HOLDS if self.name in seen_revisions.names else _no_revision(self.name)
        if revision.desired == 0:
            return HOLDS
        if revision.deadline is None and not report.is_running:
            return Outlook(False, f"no scale-down of {self.name} is due, and {_at_rest(report)}")
        return MAY_COME


@dataclasses.dataclass(frozen=True)
class Settled:
    """No attempt runs: the phase is steady or aborted."""

    def outlook(self, report: Report, _: SeenRevisions) -> Outlook:
        return MAY_COME if report.is_running else HOLDS


def read_condition(text: str) -> Condition:
    """The condition of a word. `ConditionError` if the word is not a condition."""
    if text == "settled":
        return Settled()
    key, sign, value = text.partition("=")
    if key == "phase" and sign:
        if value not in PHASES:
            near = "".join(
                f"; the nearest is {phase}" for phase in difflib.get_close_matches(value, PHASES, 1)
            )
            raise ConditionError(
                f"{text}: a phase is needed after phase=, one of {', '.join(PHASES)}{near}"
            )
        return PhaseIs(Phase(value))
    opened = re.fullmatch(r"open\((.*)\)", key)
    name = opened[1] if opened else value
    if not sign or not (opened or key in (*SERVICES, "scaled-down")):
        raise ConditionError(f"{text}: a condition is needed, one of {CONDITION_SYNTAX}")
    if not NAME.fullmatch(name):
        raise ConditionError(f"{text}: the name of a revision is needed, such as web-v2")
    if key == "scaled-down":
        return ScaledDown(name)
    if not opened:
        return ServiceIs(key, name)
    if not re.fullmatch(r"[0-9]{1,9}", value):
        raise ConditionError(f"{text}: a number of open requests is needed after open({name})=")
    return OpenAre(name, int(value))


class Conditions:
    """Conditions that are to hold at one time."""

    def __init__(self, texts: Sequence[str]) -> None:
        """`ConditionError` if a text is not a condition."""
        self.texts = list(texts)
        self.conditions = [read_condition(text) for text in texts]
        # whose deploy is awaited
        self.revisions = {each.name for each in self.conditions if isinstance(each, ServiceIs)}
        self.newest = [
            each.name
            for each in self.conditions
            if isinstance(each, ServiceIs) and each.service == "newest"
        ]
        self.seen_revisions = SeenRevisions()

    def outlook(self, report: Report, coming: str | None = None) -> Outlook:
        """Whether all hold by this report, which is later than those before; `never` tells of the
        first that can't come. Up to the deploy of a revision that a plan announces (`coming`)
        nothing holds, and everything may come; the attempt is its own.
        """
        if coming and coming not in self.newest:
            self.newest.append(coming)
        self.seen_revisions.take_in(report, self.newest)
        if coming:
            return MAY_COME
        outlooks = [condition.outlook(report, self.seen_revisions) for condition in self.conditions]
        # a deploy that is awaited changes what can come
        if not any(name not in self.seen_revisions.names for name in self.newest):
            for text, outlook in zip(self.texts, outlooks):
                if outlook.never:
                    return Outlook(
                        False, f"{text} cannot hold unless a line is sent: {outlook.never}"
                    )
        return HOLDS if all(outlook.holds for outlook in outlooks) else MAY_COME


def wrong_condition(
    conditions: Callable[[Sequence[str]], object]
) -> Callable[[argparse.Namespace], str]:
    """Which of the given texts is not one of these conditions, and why; empty if each is one."""

    def fault(options: argparse.Namespace) -> str:
        try:
            conditions(options.conditions)
        except ConditionError as wrong:
            return str(wrong)
        return ""

    return fault
