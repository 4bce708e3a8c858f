"""A history: an opening, and the entries after it."""
from collections.abc import Iterator
from typing import NamedTuple

from support.rule.entries import Entry, Template
from support.rule.strategy import Strategy

SEATS = 4


class Opening(NamedTuple):
    """With what a history begins."""

    strategy: Strategy
    template: Template  # of revision 1
    seats: int = SEATS


class History(NamedTuple):
    """An opening, and the entries after it, oldest first."""

    opening: Opening
    entries: tuple[Entry, ...] = ()

    def until(self, place: int) -> "History":
        """The history before the entry at this place."""
        return self._replace(entries=self.entries[:place])

    def since(self, place: int) -> "Iterator[PlacedEntry]":
        """The entries from this place on, oldest first."""
        return map(self._placed, range(place, len(self.entries)))

    def backwards(self) -> "Iterator[PlacedEntry]":
        """The entries, newest first."""
        return map(self._placed, reversed(range(len(self.entries))))

    def _placed(self, place: int) -> "PlacedEntry":
        return PlacedEntry(self.entries[place], self.until(place), place)

    def with_entry(self, entry: Entry) -> "History":
        return self._replace(entries=(*self.entries, entry))


class PlacedEntry(NamedTuple):
    """An entry, the history before it, and its place."""

    entry: Entry
    before: History
    place: int

    def after(self) -> History:
        return self.before.with_entry(self.entry)
