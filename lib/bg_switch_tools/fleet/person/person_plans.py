"""Plans that a person puts: a new one, the same one again, and one that takes an earlier revision
again."""
import json
from typing import NamedTuple

from bg_switch_tools.controller.edits.plan_edit import with_last
from bg_switch_tools.controller.plan.plan_reader import LARGEST, PlanError
from bg_switch_tools.controller.plan.plan_text import value_of
from bg_switch_tools.fleet.person.person import Person, RefusedError, tell
from bg_switch_tools.fleet.person.plan_change import plan_effect, plan_problems
from bg_switch_tools.fleet.person.undo_target import revision_to_undo_to
from bg_switch_tools.fleet.plan.fleet_file import FleetFile
from bg_switch_tools.fleet.plan.fleet_plan import (
    FleetPlan,
    machine_plan,
    missing_analyses,
    read_fleet_plan,
)
from bg_switch_tools.fleet.record.record import (
    ABORTED,
    ATTEMPT,
    LEADER,
    PLAN,
    Record,
    UnreadableError,
    View,
)
from bg_switch_tools.fleet.record.status_text import NOT_BEGUN, attempt_title
from bg_switch_tools.fleet.store.store import Compare
from bg_switch_tools.switch.json_values import decoded

MOVED_ON = "the plan or the attempt has changed since it was read; nothing was changed, and `status` shows how it stands"


class UnreadableFileError(Exception):
    """A file can't be read. The text says why."""


class GivenPlan(NamedTuple):
    """A plan, and the text that the store is given: JSON, so that no machine needs a library for
    YAML."""

    text: str
    plan: FleetPlan


def given_plan(text: str) -> GivenPlan:
    """The plan of a text. `PlanError` with all of its problems if it is not a plan."""
    plan = read_fleet_plan(text)
    try:
        decoded(text.encode())
    except ValueError:
        text = json.dumps(value_of(text.encode()), indent=2)
    return GivenPlan(text, plan)


def read_plan_file(path: str) -> GivenPlan:
    """The plan of a file. `PlanError` if it is not a plan, and `UnreadableFileError` if the file
    can't be read."""
    try:
        with open(path, "rb") as file:
            text = file.read(LARGEST + 1)
    except OSError as error:
        raise UnreadableFileError(f"{path} can't be read: {error.strerror}") from None
    try:
        return given_plan(text.decode())
    except UnicodeDecodeError:
        raise PlanError(["it is not text in UTF-8"]) from None


def judge_here(plan: FleetPlan, file: FleetFile) -> None:
    """Judges a plan by the fleet file of a machine; that of a person has nothing to judge by.
    `PlanError` if they contradict one another."""
    if file.machine is None:
        return
    problems = [
        f"analyses: {file.host} has no command for {name}"
        for name in missing_analyses(plan, file.machine)
    ]
    try:
        machine_plan(plan, file.machine)
    except PlanError as wrong:
        problems += wrong.problems
    if problems:
        raise PlanError(problems)


def check(path: str, file: FleetFile) -> str:
    """Judges the plan of a file alone, without the store, and says what it deploys. `PlanError` if
    it is not a plan."""
    plan = read_plan_file(path).plan
    judge_here(plan, file)
    return f"{path} is a plan of a fleet: it deploys {plan.last.name}"


def _plan_before(view: View) -> FleetPlan | None:
    """The plan that stands; None if no plan was put, or if it is wrong, which it tells."""
    try:
        return view.plan
    except UnreadableError as reason:
        tell(f"the plan that stands is replaced, since it can't be used: {reason}")
        return None


def _unchanged(plan: FleetPlan, record: Record | None, plan_id: int) -> str:
    """What is said of a plan that stands already. `RefusedError` if its attempt was aborted, since
    nothing would come of it."""
    if record is None or record.id != plan_id:
        return (
            f"nothing is changed: this plan stands already, and waits for a leader (plan {plan_id})"
        )
    if record.stage == ABORTED:
        raise RefusedError(
            f"nothing is changed: this plan stands already, and {attempt_title(record)} was aborted; `retry` begins it again"
        )
    return f"nothing is changed: this plan stands already, and {attempt_title(record)} is {record.stage}"


class Putting(NamedTuple):
    """Puts a plan in place of the one that was read. `compared` are the keys that must not have
    changed since."""

    person: Person
    view: View
    compared: tuple[str, ...] = (PLAN,)

    def put(self, text: str, effect: str) -> str:
        """Asks, puts, and says which plan it is and what comes of it. `RefusedError` if a compared
        key has changed."""
        self.person.agree(f"{effect}. Put this plan?")
        compares = [Compare(name, "changed", self.view.changed(name)) for name in self.compared]
        plan_id = self.person.store.write(compares, {PLAN: text})
        if plan_id is None:
            raise RefusedError(MOVED_ON)
        for lack in self._lacks():
            tell(lack)
        return f"plan {plan_id}: {effect}"

    def _lacks(self) -> list[str]:
        """What the fleet needs before anything comes of the plan."""
        found = (
            [] if self.view.members else ["the fleet has no member yet: `members add` adds some"]
        )
        return found + (
            [] if self.view.key(LEADER) else ["no agent leads now: the plan waits until one does"]
        )


def put_plan(person: Person, path: str, file: FleetFile) -> str:
    """Puts the plan of a file, if it can follow the one that stands, and says what comes of it.
    `PlanError` if it can't; `RefusedError` if another plan was put since the read."""
    new_plan = read_plan_file(path)
    judge_here(new_plan.plan, file)
    view = View(person.store.read())
    record, before = view.record, _plan_before(view)
    if before == new_plan.plan:
        return _unchanged(new_plan.plan, record, view.changed(PLAN))
    if problems := plan_problems(before, new_plan.plan, record):
        raise PlanError(problems)
    return Putting(person, view).put(new_plan.text, plan_effect(before, new_plan.plan, record))


def _needed(view: View) -> tuple[FleetPlan, Record]:
    """The plan and the record of a fleet that has begun. `RefusedError` if there is no plan or no
    record."""
    plan, record = view.plan, view.record
    if plan is None or record is None:
        raise RefusedError("no plan was put" if plan is None else NOT_BEGUN)
    return plan, record


def retry(person: Person) -> str:
    """Puts the plan that stands again, so that its attempt, which was aborted, begins again.
    `RefusedError` if it was not."""
    view = View(person.store.read())
    plan, record = _needed(view)
    if view.changed(PLAN) != record.id:
        raise RefusedError(
            f"plan {view.changed(PLAN)} waits for a leader: it deploys {plan.last.name}"
        )
    if record.stage != ABORTED:
        raise RefusedError(
            f"{attempt_title(record)} is {record.stage}: only an attempt that was aborted begins again"
        )
    text = view.snapshot.keys[PLAN].value
    return Putting(person, view, (PLAN, ATTEMPT)).put(text, plan_effect(plan, plan, record))


def undo(person: Person, to: str | None) -> str:
    """Puts the plan that stands with the revision last that was stable before the newest one, or
    the one of this name. `RefusedError` if that is not known, or changes nothing."""
    view = View(person.store.read())
    plan, record = _needed(view)
    is_waiting = view.changed(PLAN) != record.id
    target = revision_to_undo_to(plan, record, is_waiting, to)
    if target.name == plan.last.name:
        raise RefusedError(
            f"nothing is changed: {target.name} is the last revision of the plan already"
        )
    value = with_last(value_of(view.snapshot.keys[PLAN].value.encode()), target.name, target.ports)
    try:
        new_plan = given_plan(json.dumps(value, indent=2))
    except PlanError as wrong:
        raise RefusedError(f"with {target.name} last it would be no plan: {wrong}") from None
    if problems := plan_problems(plan, new_plan.plan, record):
        raise RefusedError(f"with {target.name} last the plan can't follow: {'; '.join(problems)}")
    done = Putting(person, view, (PLAN, ATTEMPT)).put(
        new_plan.text, plan_effect(plan, new_plan.plan, record)
    )
    tell(
        f"the file of your plan still names {plan.last.name} last: put it again only after an edit"
    )
    return done
