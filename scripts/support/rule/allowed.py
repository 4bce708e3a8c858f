"""Which entries a history allows next."""
from collections.abc import Callable

from support.rule.attempts import attempt, has, is_running, moment, needs_pause, newest, passed_at
from support.rule.entries import Deploy, Enter, Entry, Leave, Outcome, StepWord, Verdict
from support.rule.history import History
from support.rule.refusals import control_refusal, enter_refusal
from support.rule.requests import held_by, numbers, open_at, port_of
from support.rule.revisions import available, deployed_number
from support.rule.scale_down import is_due, old_revisions
from support.rule.selections import selection


def may_be_ready(history: History) -> bool:
    enough = history.opening.strategy.preview_replicas
    return (
        is_running(history)
        and not has(history, "ready")
        and available(history, newest(history)) >= enough
    )


def may_resume(history: History) -> bool:
    if not has(history, "ready") or has(history, "resumed"):
        return False
    if has(history, "promote_full"):
        return True
    strategy, at = history.opening.strategy, passed_at(history)
    if at is None:
        return False
    has_waited = strategy.auto and moment(history) >= at + strategy.seconds
    return not needs_pause(strategy) or has(history, "promote") or has_waited


def may_switch(history: History) -> bool:
    return (
        has(history, "resumed")
        and not has(history, "switched")
        and available(history, newest(history)) == history.opening.strategy.replicas
    )


def may_promote(history: History) -> bool:
    success = Verdict("verdict", "post", "successful")
    has_passed = any(placed.entry == success for placed in attempt(history))
    return has(history, "switched") and (
        not history.opening.strategy.post or has_passed or has(history, "promote_full")
    )


def may_scale_down(history: History, revision: int) -> bool:
    return is_due(history, revision) and not open_at(history, revision)


def may_remove(history: History, revision: int) -> bool:
    old = old_revisions(history)
    return len(old) > history.opening.strategy.history_limit and revision == old[0]


def may_come(history: History, outcome: Outcome) -> bool:
    if outcome.word == "scaled_down":
        return may_scale_down(history, outcome.revision)
    if outcome.word == "removed":
        return may_remove(history, outcome.revision)
    steps: dict[StepWord, Callable[[History], bool]] = {
        "ready": may_be_ready,
        "resumed": may_resume,
        "switched": may_switch,
        "promoted": may_promote,
    }
    return outcome.revision == newest(history) and steps[outcome.word](history)


def may_enter(history: History, asked: Enter) -> bool:
    return (
        enter_refusal(history, asked.seat, asked.service) is None
        and selection(history, asked.service) == asked.revision
        and all(asked.number > number for number in numbers(history))
        and port_of(history, asked.revision, asked.number) == asked.port
    )


def may_leave(history: History, asked: Leave) -> bool:
    request = held_by(history, asked.seat)
    return request is not None and (request.number, request.revision) == (
        asked.number,
        asked.revision,
    )


def is_allowed(history: History, entry: Entry) -> bool:
    match entry:
        case Enter():
            return may_enter(history, entry)
        case Leave():
            return may_leave(history, entry)
        case Outcome():
            return may_come(history, entry)
        case Deploy() if entry.revision != deployed_number(history, entry.name):
            return False
    return control_refusal(history, entry) is None
