"""Orders of a person for the attempt that they have seen: `promote` and `abort`, and how the
attempt ends."""
from typing import NamedTuple

from bg_switch_tools.fleet.person.person import Person, RefusedError, tell
from bg_switch_tools.fleet.record.leader import votes_of
from bg_switch_tools.fleet.record.record import (
    ABORT,
    ABORTED,
    ATTEMPT,
    LEADER,
    ORDER,
    PLAN,
    PROMOTE,
    PROMOTING,
    PersonOrder,
    Record,
    View,
    plan_of_attempt,
)
from bg_switch_tools.fleet.record.status_text import NOT_BEGUN, attempt_title, plain
from bg_switch_tools.fleet.store.store import Compare

TRIES = 5  # of an abort, until it is refused, if the record moves at the same time
MOVED_ON = "the attempt, its plan or its order has changed since it was read; nothing was changed, and `status` shows how it stands"


def _over(view: View, record: Record) -> str:
    """Why an attempt that is over takes no order."""
    how = "was aborted" if record.stage == ABORTED else f"is {record.stage}"
    if view.other_plan:
        return f"{attempt_title(record)} {how} already, and plan {view.changed(PLAN)} waits for a leader; `undo` takes the plan back"
    hint = (
        "`retry` begins it again"
        if record.stage == ABORTED
        else "`undo` takes the revision before it again"
    )
    return f"{attempt_title(record)} {how} already; {hint}"


def _unready(view: View, record: Record) -> str:
    """Why an attempt that runs can't be promoted now; empty if it can."""
    if record.stage == PROMOTING:
        return f"{attempt_title(record)} is promoting already"
    if view.other_plan:
        return f"another plan was put, by which {attempt_title(record)} is aborted"
    votes = votes_of(view, record)
    if votes.are_enough(plan_of_attempt(view, record).max_missing):
        return ""
    late = ", ".join((*votes.awaited, *votes.missing)) or "there is no member"
    return f"{attempt_title(record)} can't be promoted yet, since not all members are ready: {late}"


def order_fault(view: View, order: str, attempt: int | None) -> str:
    """Why an order is refused by this read; empty if it can be put. `attempt` is the id of the
    attempt that the person has seen; None stands for the one of this read. `UnreadableError` if the
    record can't be read."""
    record, standing = view.record, view.order
    if record is None:
        return NOT_BEGUN
    if attempt is not None and attempt != record.id:
        return f"attempt {attempt} is not that of the fleet now: {attempt_title(record)} is {record.stage}"
    if not record.is_running:
        return _over(view, record)
    # an abort may take the place of a promote, since nothing else could hold that back
    if standing and standing.attempt == record.id and (standing.order, order) != (PROMOTE, ABORT):
        return f"the order {standing.order} for {attempt_title(record)}, by {plain(standing.by)}, stands already; no leader has answered it"
    return _unready(view, record) if order == PROMOTE else ""


class Ordered(NamedTuple):
    """An order that was put: what is said of it, and the attempt that it is for."""

    sentence: str
    attempt: int


def _replaced(view: View, record: Record) -> str:
    """What is told of the order that an abort replaces; empty if there is no such order."""
    standing = view.order
    if standing is None or standing.attempt != record.id:
        return ""
    return f"it takes the place of {plain(standing.title)}"


def give_order(person: Person, order: str, attempt: int | None) -> Ordered:
    """Puts an order. `RefusedError` if it makes no sense, or if the attempt has moved on since it
    was read. An abort is tried again then, for the attempt of the first read: it makes sense as
    long as that one runs."""
    is_agreed = False
    for _ in range(TRIES if order == ABORT else 1):
        view = View(person.store.read())
        record, fault = view.record, order_fault(view, order, attempt)
        if fault or record is None:
            raise RefusedError(fault)
        attempt = record.id
        if not is_agreed:
            person.agree(f"{order} {attempt_title(record)}, which is {record.stage}?")
            is_agreed = True
        compares = [Compare(name, "changed", view.changed(name)) for name in (ATTEMPT, PLAN, ORDER)]
        text = PersonOrder(order, record.id, person.name).text()
        if person.store.write(compares, {ORDER: text}) is None:
            continue
        if replaced := _replaced(view, record):
            tell(replaced)
        if view.key(LEADER) is None:
            tell("no agent leads now: the order stands until one does")
        return Ordered(f"{order} is ordered for {attempt_title(record)}", record.id)
    raise RefusedError(MOVED_ON)
