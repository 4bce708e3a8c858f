"""The outcomes that come after an event, and whether a history is legal and settled."""


from support.rule.allowed import is_allowed, may_come
from support.rule.attempts import newest
from support.rule.entries import CLEANUPS, STEPS, Entry, Outcome
from support.rule.history import History
from support.rule.requests import given, numbers
from support.rule.revisions import revisions


def first_outcome(history: History) -> Outcome | None:
    """The first outcome that is allowed."""
    steps = [Outcome(word, newest(history)) for word in STEPS]
    cleanups = [Outcome(word, r) for word in CLEANUPS for r in revisions(history)]
    return next((outcome for outcome in steps + cleanups if may_come(history, outcome)), None)


def settled(history: History) -> History:
    """The history with the outcomes that come then."""
    while outcome := first_outcome(history):
        history = history.with_entry(outcome)
    return history


def step(history: History, event: Entry) -> History:
    """The history with an allowed event, and with the outcomes that come then."""
    return settled(history.with_entry(event))


def fault(history: History) -> str | None:
    """Why the history isn't legal and settled; None if it is."""
    for entry, before, _ in history.since(0):
        if not is_allowed(before, entry):
            return entry.word
    if not all(1 <= number <= given(history) for number in numbers(history)):
        return "numbers"
    outcome = first_outcome(history)
    return None if outcome is None else f"pending {outcome.word}"
