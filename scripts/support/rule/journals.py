"""What a journal keeps of a history, and the book that a start resumes from it."""
from support.rule.history import History
from support.rule.steps import settled


def journaled(history: History) -> History:
    """The history without its requests, as a journal has it. Outcomes that came with the end of a
    request stay."""
    kept = tuple(
        entry for entry in history.entries if entry.word != "enter" and entry.word != "leave"
    )
    return history._replace(entries=kept)


def resumed(kept: History) -> History:
    """The history of the book that is resumed from what a journal keeps: no request is open any
    more, so what drained is scaled down."""
    return settled(journaled(kept))
