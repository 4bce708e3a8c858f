"""The replies of a switch, as values. They are read and printed here alone.

docs/LINES.md has each of them. Of a report, the reply is the first line; `reports` reads it whole.
"""
import abc
import dataclasses
import re
from collections.abc import Mapping
from typing import ClassVar

from bg_switch_tools.switch.meanings import FAULTS, HINTS, REFUSALS, UNSAVED

NUMBER = re.compile(r"0|[1-9][0-9]{0,19}")  # as the switch writes one
NAME = re.compile(r"[A-Za-z]+")
LONGEST_TOLD = 60  # characters of a text that is no reply, in the message


class ReplyError(ValueError):
    """A text that is no reply of a switch."""


class Reply(abc.ABC):
    """A reply. Its text is what the switch has sent."""

    word: ClassVar[str]  # the first one
    was_carried_out: ClassVar[bool] = True  # the line that it is the reply to

    @abc.abstractmethod
    def __str__(self) -> str:
        """The text."""

    @property
    def meaning(self) -> str | None:
        """What a refusal, a fault or `unsaved` means, and a hint if there is one; None for any other
        reply."""
        return None

    def with_meaning(self) -> str:
        """The text, and after it what it means."""
        return f"{self}: {self.meaning}" if self.meaning else str(self)


@dataclasses.dataclass(frozen=True)
class _WithNumber(Reply):
    number: int

    def __str__(self) -> str:
        return f"{self.word} {self.number}"


class Done(_WithNumber):
    """The line was carried out, and the switch then took this number of steps by itself."""

    word = "ok"


class Unsaved(_WithNumber):
    """The line was carried out with this number of steps after it, as with `Done`, but the journal of
    the switch is not known to keep it: a crash may undo it."""

    word = "unsaved"

    @property
    def meaning(self) -> str:
        return UNSAVED


class Compacted(_WithNumber):
    """This number of entries of the history was dropped."""

    word = "compacted"


class ReportBegin(_WithNumber):
    """The first line of a report: its moment."""

    word = "moment"


@dataclasses.dataclass(frozen=True)
class _WithName(Reply):
    """Nothing has changed, for the reason of this name."""

    name: str
    was_carried_out = False
    sentences: ClassVar[Mapping[str, str]]  # by the name

    def __str__(self) -> str:
        return f"{self.word} {self.name}"

    @property
    def meaning(self) -> str | None:
        sentence = self.sentences.get(self.name)
        return f"{sentence}; {HINTS[self.name]}" if sentence and self.name in HINTS else sentence


class Refused(_WithName):
    """The line is well formed, and the switch refuses it now."""

    word = "refused"
    sentences = REFUSALS


class Fault(_WithName):
    """The line is not well formed, or the allocation for it failed."""

    word = "fault"
    sentences = FAULTS


# The replies that a tool decides by.
BAD_PORTS = Refused("BadPorts")
JOURNAL_FAILED = Refused("JournalFailed")
NOT_ALLOWED = Refused("NotAllowed")  # no line of this user is taken
SAME_TEMPLATE = Refused("SameTemplate")
TOO_LATE = Refused("TooLate")
UNKNOWN_WORD = Fault("UnknownWord")

NUMBERED: Mapping[str, type[_WithNumber]] = {
    kind.word: kind for kind in (Done, Unsaved, Compacted, ReportBegin)
}
NAMED: Mapping[str, type[_WithName]] = {kind.word: kind for kind in (Refused, Fault)}


def read_reply(text: str) -> Reply:
    """The reply of the first line of one. `ReplyError` if it is not a reply."""
    word, _, rest = text.partition(" ")
    if word in NUMBERED and NUMBER.fullmatch(rest):
        return NUMBERED[word](int(rest))
    if word in NAMED and NAME.fullmatch(rest):
        return NAMED[word](rest)
    raise ReplyError(f"{text[:LONGEST_TOLD]!r} is no reply of a switch")


def reply_in(text: str) -> Reply | None:
    """The same; None if it is not a reply."""
    try:
        return read_reply(text)
    except ReplyError:
        return None


def with_meaning(text: str) -> str:
    """A line of a reply as it came, and after it what it means if that is told."""
    reply = reply_in(text)
    return reply.with_meaning() if reply else text


def as_json(line: object, reply: Reply) -> dict[str, object]:
    """An object of JSON: a line, its reply, whether it was carried out, and what that means."""
    return {
        "line": str(line),
        "reply": str(reply),
        "carried_out": reply.was_carried_out,
        "meaning": reply.meaning,
    }
