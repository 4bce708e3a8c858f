"""Requests: their numbers, their seats and their ports."""


from support.rule.entries import Enter, Entry
from support.rule.history import History
from support.rule.revisions import available, template


def numbers(history: History) -> list[int]:
    return [e.number for e in history.entries if e.word == "enter" or e.word == "leave"]


def given(history: History) -> int:
    """How many request numbers were given."""
    return sum(entry.word == "enter" for entry in history.entries)


def open_requests(history: History) -> list[Enter]:
    """The requests that entered and have not left."""

    def has_left(number: int, after: tuple[Entry, ...]) -> bool:
        return any(e.word == "leave" and e.number == number for e in after)

    return [
        entry
        for place, entry in enumerate(history.entries)
        if entry.word == "enter" and not has_left(entry.number, history.entries[place + 1 :])
    ]


def open_at(history: History, revision: int) -> list[Enter]:
    return [request for request in open_requests(history) if request.revision == revision]


def held_by(history: History, seat: int) -> Enter | None:
    """The open request of a seat."""
    return next((request for request in open_requests(history) if request.seat == seat), None)


def port_of(history: History, revision: int, number: int) -> str:
    """The port that the request of this number gets at a revision with available endpoints."""
    return template(history, revision).ports[number % available(history, revision)]
