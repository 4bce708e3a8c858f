"""A figure of the switch beside those of its peers, and its limit."""
from collections.abc import Mapping, Sequence
from typing import NamedTuple

from support.peers.configurations import SWITCH


class Limit(NamedTuple):
    """The greatest value that passes, and why it is that."""

    most: float
    why: str = ""

    def __str__(self) -> str:
        return f"at most {self.most:,.4g}{f' ({self.why})' if self.why else ''}"


class Comparison(NamedTuple):
    """What was measured, and its value for each proxy. `limit` is for the switch: None if it cannot
    be said, since the peer that gives it was not measured."""

    name: str
    values: Mapping[str, float]
    limit: Limit | None

    @property
    def is_judged(self) -> bool:
        return SWITCH in self.values and self.limit is not None

    @property
    def holds(self) -> bool:
        """Whether the switch keeps the limit; what is not judged does."""
        if SWITCH not in self.values or self.limit is None:
            return True
        return self.values[SWITCH] <= self.limit.most

    def __str__(self) -> str:
        own = [SWITCH] if SWITCH in self.values else []
        peers = [name for name in self.values if name != SWITCH]
        values = ", ".join(f"{name} {self.values[name]:,.4g}" for name in (*own, *peers))
        limit = "no limit" if self.limit is None else str(self.limit)
        judged = "not judged" if not self.is_judged else "ok" if self.holds else "FAILED"
        return f"{self.name}: {values}; {limit}: {judged}"


def times_of(values: Mapping[str, float], peer: str, times: float) -> Limit | None:
    """A limit by the value of one peer; None if that was not measured."""
    return Limit(times * values[peer], f"{times:g} times {peer}'s") if peer in values else None


def of_better_peer(values: Mapping[str, float]) -> Limit | None:
    """The least value of a peer; None if no peer was measured."""
    peers = [value for name, value in values.items() if name != SWITCH]
    return Limit(min(peers), "the better peer's") if peers else None


def percentile(values: Sequence[float], part: float) -> float:
    """The value that this part of the values does not exceed. There is a value."""
    return sorted(values)[min(len(values) - 1, int(len(values) * part))]
