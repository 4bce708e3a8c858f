"""Whether the switch is as good as the better of its peers, by the limits of a bench."""
from collections.abc import Iterator, Mapping, Sequence
from typing import NamedTuple

from support.peers.configurations import SWITCH
from support.peers.figures import Figures, Subject, over


class Limits(NamedTuple):
    """The limits of the ratios. Up to `most_few_clients` clients are few."""

    most_few_clients: int
    least_requests_of_few: float
    least_requests_of_many: float
    most_p99: float
    most_processor_time: float
    most_processor_time_of_more: float
    most_errors: float

    def least_requests(self, clients: int) -> float:
        is_few = clients <= self.most_few_clients
        return self.least_requests_of_few if is_few else self.least_requests_of_many


class Verdict(NamedTuple):
    """A ratio and its limit, which is a least one or a greatest one."""

    name: str
    value: float
    limit: float
    is_least: bool = False

    @property
    def holds(self) -> bool:
        return self.value >= self.limit if self.is_least else self.value <= self.limit

    def __str__(self) -> str:
        kind = "least" if self.is_least else "most"
        missed = "" if self.holds else "\n  MISSED"
        return f"ratio of {self.name}: {self.value:.4f}, at {kind} {self.limit:g}{missed}"


class Peers(NamedTuple):
    """The peers that a switch is compared with, and what the better one and the cheaper one are
    called."""

    figures: Sequence[Figures]
    better: str = "the better peer's"
    cheaper: str = "the cheaper peer's"


# Those that forward as many requests at a time as the switch.
AS_MANY = "that of a peer with as many at a time"


def limit_of(subject: Subject) -> str:
    """The number of requests at a time that the name of a proxy ends with, if it has one."""
    return subject.proxy.partition(" ")[2].rpartition(" ")[2]


def beside_peers(subject: Subject, own: Figures, found: Peers, limits: Limits) -> Iterator[Verdict]:
    """The switch beside the peer that is best in each figure. There is a peer."""
    peers = found.figures
    yield Verdict(
        f"requests a second to {found.better}, {subject}",
        over(own.rate, max(peer.rate for peer in peers)),
        limits.least_requests(subject.clients),
        is_least=True,
    )
    yield Verdict(
        f"p99 to {found.better}, {subject}",
        over(own.p99, min(peer.p99 for peer in peers)),
        limits.most_p99,
    )
    yield Verdict(
        f"processor time of a request to {found.cheaper}, {subject}",
        over(own.microseconds, min(peer.microseconds for peer in peers)),
        limits.most_processor_time,
    )


def verdicts(found: Mapping[Subject, Figures], limits: Limits) -> Iterator[Verdict]:
    """All verdicts on medians: the switch beside the peers of the same mode, clients and endpoint,
    beside those of them that forward as many requests at a time, and beside itself with the
    smallest number of requests at a time, which comes first in them."""
    for subject, own in found.items():
        if not subject.proxy.startswith(SWITCH):
            continue
        beside = {one: figures for one, figures in found.items() if one[1:] == subject[1:]}
        peers = {one: each for one, each in beside.items() if not one.proxy.startswith(SWITCH)}
        unlimited = [each for one, each in peers.items() if not limit_of(one)]
        as_many = [each for one, each in peers.items() if limit_of(one) == limit_of(subject)]
        for compared in (Peers(unlimited), Peers(as_many, AS_MANY, AS_MANY)):
            if compared.figures:
                yield from beside_peers(subject, own, compared, limits)
        first = next(one for one in beside if one.proxy.startswith(SWITCH))
        if first != subject:
            yield Verdict(
                f"processor time of a request to that with {first.proxy}, {subject}",
                over(own.microseconds, beside[first].microseconds),
                limits.most_processor_time_of_more,
            )
        yield Verdict(
            f"errors to requests, {subject}", over(own.errors, own.requests), limits.most_errors
        )
