"""The crates of the repository, as crates.txt lists them."""
import re
from collections.abc import Iterable, Mapping
from dataclasses import dataclass


@dataclass(frozen=True)
class Crate:
    """A line of crates.txt: the crates of the repository and the libraries of the kit that a crate
    names."""

    below: list[str]
    of_kit: list[str]
    may_wait: int


def crates_in(text: str) -> dict[str, Crate]:
    """The crates of a crates.txt, in its order."""
    lines = [re.fullmatch(r"(\w+)([^:#]*):(.*)", line) for line in text.splitlines()]
    found = {line[1]: (line[2], line[3].split()) for line in lines if line}
    crates = {}
    for name, (options, named) in found.items():
        count = re.search(r"\bmay_wait=(\d+)", options)
        below, of_kit = ([it for it in named if (it in found) is ours] for ours in (True, False))
        crates[name] = Crate(below, of_kit, int(count[1]) if count else 0)
    return crates


def all_below(crates: Mapping[str, Crate], name: str) -> list[str]:
    """Every crate on which a crate stands, lowest first."""
    found: list[str] = []
    for it in crates[name].below:
        found += [lower for lower in (*all_below(crates, it), it) if lower not in found]
    return found


def all_above(crates: Mapping[str, Crate], names: Iterable[str]) -> list[str]:
    """These crates and every crate that stands on one of them, in the order of crates.txt."""
    given = set(names)
    return [it for it in crates if it in given or given.intersection(all_below(crates, it))]
