"""Where two readers disagree about a message of the corpus."""
import enum
from collections.abc import Iterable, Mapping, Sequence
from typing import NamedTuple

from support.smuggling.messages import Message
from support.smuggling.readings import Read, Reader, Reading, case_of

# With how many requests behind it a message is sent: in twos and in threes.
COUNTS = (1, 2)


class Kind(enum.IntEnum):
    """How far two readings differ."""

    ALIKE = 0
    # one refuses what the other takes, or reads no further
    STOPS = 1
    # both find the same ends, but another method or target of the message
    NAMES = 2
    ENDS = 3


SENTENCES = {
    Kind.ALIKE: "read alike",
    Kind.STOPS: "some refuse or stop",
    Kind.NAMES: "another target or method",
    Kind.ENDS: "different ends",
}


def kind_of(one: Reading, other: Reading) -> Kind:
    """How far two readings of the same bytes differ. What a server refuses may be any request."""
    shorter, longer = sorted((one, other), key=lambda reading: len(reading.items))
    kind = Kind.ALIKE if one == other else Kind.STOPS
    for place, (item, its) in enumerate(zip(shorter.items, longer.items)):
        if item == its or not (isinstance(item, Read) and isinstance(its, Read)):
            continue
        if place > 0 or item.body != its.body:
            return Kind.ENDS
        kind = Kind.NAMES
    rest = longer.items[len(shorter.items) :]
    if shorter.waits and any(isinstance(item, Read) for item in rest):
        return Kind.ENDS
    return kind


def widest(readings: Iterable[Reading]) -> Kind:
    """The widest difference of two of these readings."""
    each = list(dict.fromkeys(readings))
    return max(
        (kind_of(one, other) for place, one in enumerate(each) for other in each[:place]),
        default=Kind.ALIKE,
    )


class Compared(NamedTuple):
    """How far readers differ about a message, and which reads it in which way, in that of its
    connections where they differ most."""

    message: Message
    kind: Kind
    readings: Mapping[str, Reading]

    def __str__(self) -> str:
        groups = dict[Reading, list[str]]()
        for name, reading in self.readings.items():
            groups.setdefault(reading, []).append(name)
        told = "; ".join(f"{', '.join(names)}: {reading}" for reading, names in groups.items())
        return f"{self.message.name} ({self.message.source}): {told}"

    def names_that_differ(self) -> list[str]:
        """The readers that do not read the message as most do."""
        readings = list(self.readings.values())
        usual = max(readings, key=readings.count)
        return [name for name, reading in self.readings.items() if reading != usual]


def compared(message: Message, connections: Sequence[Mapping[str, Reading]]) -> Compared:
    """A message by what readers have made of each of its connections."""
    kinds = [widest(readings.values()) for readings in connections]
    kind = max(kinds)
    # the longest connection tells the most
    return Compared(
        message, kind, [readings for readings, its in zip(connections, kinds) if its is kind][-1]
    )


def readings_of(reader: Reader, message: Message, number: int) -> list[Reading]:
    """What a reader makes of a message with one request behind it, and with two."""
    cases = [case_of(message.text, number, count) for count in COUNTS]
    return [reader.read(case.stream, case.last) for case in cases]


def table_of(all_compared: Sequence[Compared]) -> list[str]:
    """A row for each section: its source, how many of its messages differ in which way, and the
    readers that do not read all of them as most do."""
    sections = dict[str, list[Compared]]()
    for each in all_compared:
        sections.setdefault(each.message.section, []).append(each)
    titles = ["section", "messages", *SENTENCES.values(), "readers that differ"]
    rows = [f"| {' | '.join(titles)} |", "|---" * len(titles) + "|"]
    for name, members in sections.items():
        counts = [str(sum(each.kind is kind for each in members)) for kind in Kind]
        differ = sorted({name for each in members for name in each.names_that_differ()})
        cells = [name, str(len(members)), *counts, " ".join(differ)]
        rows.append(f"| {' | '.join(cells)} |")
    return rows
