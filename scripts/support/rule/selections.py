"""The revisions that the services select."""


from support.rule.attempts import is_halt, is_running, newest, stable
from support.rule.entries import Service
from support.rule.history import History


def preview(history: History) -> int:
    return newest(history) if is_running(history) else stable(history)


def active(history: History) -> int:
    for entry, before, _ in history.backwards():
        if entry.word == "switched":
            return entry.revision
        if is_halt(entry) or (entry.word == "deploy" and entry.revision == stable(before)):
            return stable(before)
    return 1


def selected(history: History) -> set[int]:
    return {active(history), preview(history), stable(history)}


def selection(history: History, service: Service) -> int | None:
    """The revision that a service selects; None if the service is not set."""
    if service == "active":
        return active(history)
    return preview(history) if history.opening.strategy.has_preview else None
