"""The list of the pairs that are accepted, each with a reason.

A line `= REASON` begins the groups that have this reason. A group has one item a line, the path of its
file and its name; all items but the first one are indented. A group accepts each pair of its
items. An item that shares a run with itself, in two places of it, is listed twice.
"""
from collections.abc import Collection, Iterator
from dataclasses import dataclass, field
from itertools import combinations

from copied.pairs import Copy, Item, ItemPair


class ListError(Exception):
    """The list cannot be read."""


@dataclass
class Group:
    """Items that are alike, from this line of the list on."""

    line: int
    items: list[Item] = field(default_factory=list)

    def pairs(self) -> set[ItemPair]:
        """Each two of the items."""
        return {_in_order(one, other) for one, other in combinations(self.items, 2)}

    def parted(self, found: Collection[ItemPair]) -> list[Item]:
        """The items that no chain of the pairs found leads to from the first item."""
        reached, rest = self.items[:1], self.items[1:]
        for item in reached:  # (and what the loop adds)
            near = [it for it in rest if _in_order(item, it) in found]
            reached += near
            rest = [it for it in rest if it not in near]
        return rest


def groups_in(text: str) -> list[Group]:
    """The groups of a list, in their order."""
    groups: list[Group] = []
    has_reason = is_in_group = False
    for number, line in enumerate(text.splitlines(), 1):
        if line.startswith("="):
            has_reason, is_in_group = bool(line.strip("= ")), False
        elif line.strip() and not line.startswith("#"):
            if not has_reason:
                raise ListError(f"line {number}: no line `= REASON` stands above")
            if not line.startswith(" "):
                groups.append(Group(number))
                is_in_group = True
            if not is_in_group:
                raise ListError(f"line {number}: the first item of a group is not indented")
            groups[-1].items.append(_item(line, number))
    _judge(groups)
    return groups


def _judge(groups: Collection[Group]) -> None:
    """Refuses groups of which one has no pair, or which have a pair in common."""
    seen: set[ItemPair] = set()
    for group in groups:
        if len(group.items) < 2:
            raise ListError(f"line {group.line}: a group has at least two items")
        if not seen.isdisjoint(group.pairs()):
            raise ListError(f"line {group.line}: a group above has a pair of this one")
        seen |= group.pairs()


def faults(copies: Collection[Copy], groups: Collection[Group], list_name: str) -> Iterator[str]:
    """A line for each copy that no group accepts, and for each item that is no longer a copy."""
    accepted = {pair for group in groups for pair in group.pairs()}
    for copy in copies:
        if copy.items not in accepted:
            yield f"{copy}: write it once, or list both items in {list_name} with a reason"
    found = {copy.items for copy in copies}
    for group in groups:
        for item in group.parted(found):
            yield f"{list_name}:{group.line}: {item}: it is not like the rest of its group: take it off the list"


def _item(line: str, number: int) -> Item:
    path, blank, name = line.strip().partition(" ")
    if not blank:
        raise ListError(f"line {number}: a path and a name are wanted, and not {line.strip()!r}")
    return Item(path, name)


def _in_order(one: Item, other: Item) -> ItemPair:
    return (one, other) if one <= other else (other, one)
