"""A journal of a switch that stands in for it: what it keeps, and what a start finds after a
crash."""
from support.rule.history import History
from support.rule.journals import journaled, resumed


class FakeJournal:
    """A journal that takes each order, or fails for a while. It keeps the history as of the latest
    order that it was given, without requests. `keeps_doubted` says whether a crash leaves the order
    in doubt."""

    def __init__(self) -> None:
        self.kept: History | None = None  # before a book was opened
        self.doubted: History | None = None  # with the one order that it may keep or not
        self.fails = self.keeps_doubted = False

    def is_ready(self) -> bool:
        """Whether it keeps each order that was carried out: one that it lacks is appended first."""
        if not self.fails and self.doubted is not None:
            self.kept, self.doubted = self.doubted, None
        return self.doubted is None

    def append(self, history: History) -> bool:
        """Takes the entries of an order, by the history with them. Gives whether it keeps them."""
        if self.fails:
            self.doubted = journaled(history)
        else:
            self.kept = journaled(history)
        return not self.fails

    def crash(self) -> History | None:
        """The history of the book that a start resumes after a crash; None if no book was opened."""
        if self.keeps_doubted and self.doubted is not None:
            self.kept = self.doubted
        self.doubted = None
        return None if self.kept is None else resumed(self.kept)
