"""What `fleet wait` can wait for: conditions on a read of the fleet's keys, and whether one can
still hold unless another plan is put."""
import dataclasses
import difflib
from collections.abc import Sequence
from typing import Protocol

from bg_switch_tools.fleet.record.leader import votes_of
from bg_switch_tools.fleet.record.record import (
    ABORT,
    ABORTED,
    DEPLOYING,
    PLAN,
    PROMOTE,
    PROMOTING,
    READY,
    STAGES,
    SUCCESSFUL,
    Record,
    UnreadableError,
    View,
    plan_of_attempt,
)
from bg_switch_tools.fleet.record.status_text import attempt_title
from bg_switch_tools.fleet.store.store import Snapshot
from bg_switch_tools.switch.conditions import HOLDS, MAY_COME, ConditionError, Outlook
from bg_switch_tools.switch.json_values import NAME

# `ready`: it is deploying, and all members are ready
AWAITED_STAGES = (DEPLOYING, READY, *STAGES[1:])
STEPS = (DEPLOYING, READY, PROMOTING)  # in their order; each other stage ends an attempt
ENDS = {ABORT: ABORTED, PROMOTE: SUCCESSFUL}  # by the order: the stage in which it is carried out
CONDITION_SYNTAX = f"NAME=STAGE (a stage is one of {', '.join(AWAITED_STAGES)}), settled"


class FleetCondition(Protocol):
    """A condition."""

    def outlook(self, view: View) -> Outlook:
        """Whether it holds by this read, or can come to hold. `UnreadableError` if a key can't be
        read."""


def _not_begun(view: View) -> Outlook:
    """The outlook of a fleet without a record."""
    if view.key(PLAN) is None:
        return Outlook(False, "no plan was put")
    return MAY_COME if view.members else Outlook(False, "the fleet has no member")


def _are_ready(view: View, record: Record) -> bool:
    most = plan_of_attempt(view, record).max_missing
    return record.stage == DEPLOYING and votes_of(view, record).are_enough(most)


@dataclasses.dataclass(frozen=True)
class StageIs:
    """The attempt of the plan that stands is that of the revision of this name, and is in this
    stage. A revision that is the stable one of the fleet was successful, even if the plan deploys
    another one by now."""

    name: str
    stage: str

    def outlook(self, view: View) -> Outlook:
        record, plan_id = view.record, view.changed(PLAN)
        plan = view.standing_plan if record else view.plan
        if plan and plan.last.name != self.name:
            # another plan can have been put between two reads
            was = (
                self.stage == SUCCESSFUL
                and record is not None
                and record.fleet_stable.name == self.name
            )
            return HOLDS if was else Outlook(False, f"plan {plan_id} deploys {plan.last.name}")
        if record is None:
            return _not_begun(view)
        if plan is None:  # the attempt goes on by the plan that it began with
            return self._outlook(view, record) if record.revision.name == self.name else MAY_COME
        return self._outlook(view, record) if record.id == plan_id else MAY_COME

    def _outlook(self, view: View, record: Record) -> Outlook:
        """The outlook by the attempt of the revision."""
        if self.stage == record.stage or self.stage == READY and _are_ready(view, record):
            return HOLDS
        if not record.is_running:
            reason = f", {record.reason}" if record.reason else ""
            return Outlook(False, f"{attempt_title(record)} is over: {record.stage}{reason}")
        if self.stage in STEPS and STEPS.index(self.stage) < STEPS.index(record.stage):
            return Outlook(False, f"{attempt_title(record)} is past it: {record.stage}")
        return MAY_COME


@dataclasses.dataclass(frozen=True)
class Settled:
    """The attempt of the plan that stands is over, and all members follow it; as many may be away
    as the plan allows."""

    def outlook(self, view: View) -> Outlook:
        record = view.record
        plan = view.standing_plan if record else view.plan
        if record is None:
            return _not_begun(view)
        if plan is None:
            return MAY_COME
        reports = [view.machine(host) for host in view.members]
        follow = all(report.follows(record) for report in reports if report)
        is_over = not record.is_running and record.id == view.changed(PLAN)
        return HOLDS if is_over and follow and reports.count(None) <= plan.max_missing else MAY_COME


def read_condition(text: str) -> FleetCondition:
    """The condition of a word. `ConditionError` if the word is not a condition."""
    if text == "settled":
        return Settled()
    name, sign, stage = text.partition("=")
    if not sign:
        raise ConditionError(f"{text}: a condition is needed, one of {CONDITION_SYNTAX}")
    if not NAME.fullmatch(name):
        raise ConditionError(
            f"{text}: the name of a revision is needed before the =, such as web-v2"
        )
    if stage not in AWAITED_STAGES:
        near = difflib.get_close_matches(stage, AWAITED_STAGES, 1, 0.0)[0]
        raise ConditionError(
            f"{text}: a stage is needed after the =, one of {', '.join(AWAITED_STAGES)}; the nearest is {near}"
        )
    return StageIs(name, stage)


class Conditions(Protocol):
    """What a wait is for, by the words of a person."""

    texts: list[str]

    def outlook(self, snapshot: Snapshot) -> Outlook:
        """Whether all holds by this read; `never` tells why it can't come."""


class OrderIsCarriedOut:
    """The attempt that a person gave an order for has ended as the order asks: an abort has aborted
    it, and after a promote it was successful."""

    def __init__(self, order: str, attempt: int) -> None:
        self.texts = [f"attempt {attempt}={ENDS[order]}"]
        self.end = ENDS[order]
        self.attempt = attempt

    def outlook(self, snapshot: Snapshot) -> Outlook:
        try:
            record = View(snapshot).record
        except UnreadableError as reason:
            return Outlook(False, str(reason))
        if record is None or record.id != self.attempt:
            now = f"{attempt_title(record)} is {record.stage}" if record else "there is no attempt"
            return self._never(f"how it has ended is not known: {now}")
        if record.is_running:
            return MAY_COME
        if record.stage == self.end:
            return HOLDS
        why = f", {record.reason}" if record.reason else ""
        return self._never(f"{attempt_title(record)} has ended otherwise: {record.stage}{why}")

    def _never(self, why: str) -> Outlook:
        return Outlook(False, f"{self.texts[0]} cannot come any more: {why}")


class FleetConditions:
    """Conditions that are to hold at one time."""

    def __init__(self, texts: Sequence[str]) -> None:
        """`ConditionError` if a text is not a condition."""
        self.texts = list(texts)
        self.conditions = [read_condition(text) for text in texts]

    def outlook(self, snapshot: Snapshot) -> Outlook:
        """Whether all hold by this read; `never` tells of the first that can't come."""
        view = View(snapshot)
        try:
            outlooks = [condition.outlook(view) for condition in self.conditions]
        except UnreadableError as reason:
            return Outlook(False, str(reason))
        for text, outlook in zip(self.texts, outlooks):
            if outlook.never:
                return Outlook(
                    False, f"{text} cannot hold unless another plan is put: {outlook.never}"
                )
        return HOLDS if all(outlook.holds for outlook in outlooks) else MAY_COME
