"""Access logs that no switch wrote: entries by a seed, and a file that grows."""
import pathlib
import random
from collections.abc import Iterator, Sequence
from typing import NamedTuple

from bg_switch_tools.switch.access_log import LogEntry, written

SEED = 46
BEGIN = 1_790_000_000.0  # seconds from 1970
ANSWERED = LogEntry(BEGIN, "active", 1, 1, 9101, "GET", "/", 200, "answered", None, 78, 5, 4.0, 3.0)
# What else can become of a connection, by the reason.
REFUSALS = (
    ("no_endpoint", 503, None),
    ("no_preview", 503, None),
    ("history_full", 503, None),
    ("connect_failed", 502, 1),
    ("response_timeout", 502, 1),
    ("response_malformed", 502, 1),
    ("response_too_large", 502, 1),
    ("given_up", 503, 1),
    ("client_gone", 499, 1),
    ("head", 400, None),
    ("body", 413, None),
    ("memory", 503, None),
)
# Why a response can be cut off, of which its client got a part.
CUTS = (
    "connect_failed",
    "response_timeout",
    "response_malformed",
    "response_too_large",
    "given_up",
    "head",
    "body",
    "memory",
)


class Part(NamedTuple):
    """Requests of a revision: their number, the share of errors, and the mean of the duration in
    milliseconds."""

    revision: int
    requests: int
    errors: float = 0.0
    milliseconds: float = 5.0


def entries(
    parts: Sequence[Part], begin: float = BEGIN, seconds: float = 60.0, seed: int = SEED
) -> Iterator[LogEntry]:
    """The entries of these parts, which follow each other; all of them together take `seconds`
    seconds."""
    chance, count, number = random.Random(seed), sum(part.requests for part in parts), 0
    for part in parts:
        for _ in range(part.requests):
            number += 1
            status = 500 if chance.random() < part.errors else 200
            duration = round(chance.expovariate(1 / part.milliseconds) + 0.2, 3)
            yield ANSWERED._replace(
                time=round(begin + seconds * number / count, 3),
                revision=part.revision,
                request=number,
                port=9000 + 100 * part.revision + chance.choice((1, 2)),
                target=f"/{number}",
                status=status,
                duration_ms=duration,
                upstream_ms=round(duration * 0.9, 3),
            )


def refused(reason: str, number: int = 1) -> LogEntry:
    """An entry of a request that the switch refused for this reason."""
    status, revision = next(
        (status, revision) for name, status, revision in REFUSALS if name == reason
    )
    return ANSWERED._replace(
        status=status,
        end="refused",
        reason=reason,
        revision=revision,
        request=number if revision else None,
        port=None,
        upstream_ms=None,
    )


def cut_off(reason: str) -> LogEntry:
    """An entry of a request whose response was cut off for this reason, after 40 bytes."""
    return refused(reason)._replace(
        end="cut", revision=1, request=1, port=9101, response_bytes=40, upstream_ms=3.0
    )


class GrowingLog:
    """A file to which lines are added as the switch adds them. It can be renamed, and is then begun
    anew."""

    def __init__(self, path: pathlib.Path) -> None:
        self.path = path
        path.touch()

    def add(self, told: Sequence[LogEntry] | Iterator[LogEntry]) -> None:
        self.add_bytes(b"".join(map(written, told)))

    def add_bytes(self, told: bytes) -> None:
        with open(self.path, "ab") as file:
            file.write(told)

    def rename(self) -> pathlib.Path:
        """Renames the file, as logrotate does. Gives its new path."""
        moved = self.path.with_suffix(".1")
        self.path.rename(moved)
        return moved
