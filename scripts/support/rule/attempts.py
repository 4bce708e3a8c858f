"""Attempts: their bounds, what happened in the running one, and the phase."""
from collections.abc import Iterator
from typing import Literal, TypeAlias

from support.rule.entries import CommandWord, Entry, StepWord, Verdict
from support.rule.history import History, PlacedEntry
from support.rule.strategy import Strategy


def is_halt(entry: Entry) -> bool:
    """Whether the entry is an abort, or a verdict that is failed or error."""
    if entry.word == "verdict":
        return entry.result in ("failed", "error")
    return entry.word == "abort"


def is_attempt_bound(entry: Entry) -> bool:
    """Whether the entry begins or ends an attempt."""
    return entry.word in ("deploy", "retry", "promoted") or is_halt(entry)


def moment(history: History) -> int:
    return next((e.moment for e in reversed(history.entries) if e.word == "tick"), 0)


def stable(history: History) -> int:
    return next((e.revision for e in reversed(history.entries) if e.word == "promoted"), 1)


def newest(history: History) -> int:
    return next((e.revision for e in reversed(history.entries) if e.word == "deploy"), 1)


def newest_bound(history: History) -> PlacedEntry | None:
    """The entry with which the last attempt began or ended."""
    return next((placed for placed in history.backwards() if is_attempt_bound(placed.entry)), None)


def is_running(history: History) -> bool:
    bound = newest_bound(history)
    if bound is None:
        return False
    entry = bound.entry
    return entry.word == "retry" or (
        entry.word == "deploy" and entry.revision != stable(bound.before)
    )


def is_halted(history: History) -> bool:
    bound = newest_bound(history)
    return bound is not None and is_halt(bound.entry)


def attempt(history: History) -> Iterator[PlacedEntry]:
    """The entries of the running attempt, after its begin; empty if no attempt runs."""
    bound = newest_bound(history)
    if bound is None or not is_running(history):
        return iter(())
    return history.since(bound.place + 1)


def has(history: History, word: CommandWord | StepWord) -> bool:
    """Whether the running attempt has an entry with this word."""
    return any(placed.entry.word == word for placed in attempt(history))


def passed_at(history: History) -> int | None:
    """The moment at which the running attempt passed: at its first Ready, or at the first success
    after one."""
    pre = history.opening.strategy.pre
    success = Verdict("verdict", "pre", "successful")
    for entry, before, _ in attempt(history):
        if not pre and entry.word == "ready":
            return moment(before)
        if pre and entry == success and has(before, "ready"):
            return moment(before)
    return None


def needs_pause(strategy: Strategy) -> bool:
    return not strategy.auto or strategy.seconds > 0


Phase: TypeAlias = Literal[
    "steady", "scaling", "preAnalysis", "paused", "sizing", "postAnalysis", "aborted"
]


def phase(history: History) -> Phase | None:
    """The phase; None if an outcome is due."""
    strategy = history.opening.strategy
    if is_halted(history):
        return "aborted"
    if not is_running(history):
        return "steady"
    if not has(history, "ready"):
        return "scaling"
    if not has(history, "resumed"):
        if strategy.pre and passed_at(history) is None:
            return "preAnalysis"
        return "paused" if passed_at(history) is not None and needs_pause(strategy) else None
    if not has(history, "switched"):
        return "sizing"
    return "postAnalysis" if strategy.post else None
