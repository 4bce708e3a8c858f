"""The pairs of items that share a run of lines."""
from collections import defaultdict
from collections.abc import Iterable, Iterator, Mapping
from dataclasses import dataclass
from typing import NamedTuple

from copied.code_lines import code_lines
from copied.items import item_finder
from copied.runs import Least, Line, Run, runs


class Item(NamedTuple):
    """An item of a file. As text, its path and its name."""

    path: str
    name: str

    def __str__(self) -> str:
        return f"{self.path} {self.name}"


# Two items, the first one first.
ItemPair = tuple[Item, Item]


@dataclass(frozen=True)
class Copy:
    """Two items and the longest run that stands in both."""

    items: ItemPair
    run: Run

    def __str__(self) -> str:
        places = " ".join(map(_span, zip(*self.run.lines)))
        return f"{places} {self.run.tokens()} tokens: {self.items[0]} ~ {self.items[1]}"


def copies(sources: Mapping[str, str], least: Least) -> list[Copy]:
    """The pairs of items of these sources that share a run, those with the most tokens first."""
    lines = {path: list(code_lines(path, text)) for path, text in sources.items()}
    finders = {path: item_finder(path, text) for path, text in sources.items()}

    def items_of(beside: tuple[Line, Line]) -> ItemPair:
        one, other = sorted(Item(it.path, finders[it.path](it.code.number)) for it in beside)
        return one, other

    found: dict[ItemPair, Run] = {}
    for run in sorted(runs(lines, least), key=Run.tokens, reverse=True):
        shares = defaultdict(list)
        for beside in run.lines:
            shares[items_of(beside)].append(beside)
        for items in _named(shares, least):
            found.setdefault(items, run)
    return [Copy(items, run) for items, run in found.items()]


def _named(shares: Mapping[ItemPair, list[tuple[Line, Line]]], least: Least) -> Iterator[ItemPair]:
    """The items after which a run is named: those of which it has enough lines, so that no item
    hides behind another one; and if it has enough of none, the items of which it has the most.
    """
    runs_of = {items: Run(lines) for items, lines in shares.items()}
    long = [it for it in runs_of if least.is_reached(len(runs_of[it].lines), runs_of[it].tokens())]
    yield from long or [max(runs_of, key=lambda it: runs_of[it].tokens())]


def _span(lines: Iterable[Line]) -> str:
    first, *_, last = lines
    return f"{first.path}:{first.code.number}-{last.code.number}"
