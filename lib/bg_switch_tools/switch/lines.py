"""The lines that an operator can send, as values, and what the tools say of each. They are read and
printed here alone.

docs/LINES.md has each of them at length. `enter` and `leave` are lines of a script, which no tool sends.
"""
import abc
import dataclasses
import enum
from collections.abc import Mapping, Sequence
from typing import ClassVar, Self, TypeVar

from bg_switch_tools.switch.line_help import LineHelp
from bg_switch_tools.switch.meanings import FAULTS

LONGEST_LINE = 4096  # bytes
LONGEST_NUMBER = 20  # digits
PRINTABLE = range(0x20, 0x7F)
Choice = TypeVar("Choice", bound=enum.StrEnum)


class LineError(ValueError):
    """A text that is no line. `fault` names what is wrong, as the switch names it."""

    def __init__(self, fault: str) -> None:
        super().__init__(FAULTS[fault])
        self.fault = fault


class AnalysisKind(enum.StrEnum):
    """Which analysis of an attempt: the one before the switch, or the one after it."""

    PRE = "pre"
    POST = "post"


class VerdictResult(enum.StrEnum):
    """What an analysis comes to."""

    SUCCESSFUL = "successful"
    FAILED = "failed"
    ERROR = "error"


class Line(abc.ABC):
    """A line. Its text is what the switch reads."""

    word: ClassVar[str]  # the first one
    helps: ClassVar[tuple[LineHelp, ...]]  # one for each of its forms

    @abc.abstractmethod
    def arguments(self) -> Sequence[object]:
        """What follows the first word."""

    @classmethod
    @abc.abstractmethod
    def read(cls, words: Sequence[str]) -> Self:
        """The line of the words that follow the first one. `LineError` if they are wrong."""

    def __str__(self) -> str:
        return " ".join(map(str, (self.word, *self.arguments())))

    def encoded(self) -> bytes:
        """As it is sent, without its end."""
        return str(self).encode("utf-8", "surrogateescape")


class Event(Line):
    """A line that gives an event: it may have a time limit."""


def _check_count(is_right: bool) -> None:
    if not is_right:
        raise LineError("WrongCount")


def _number(word: str) -> int:
    """A number. Whether it is too large for its place, the switch alone says."""
    if not (word.isdigit() and len(word) <= LONGEST_NUMBER):
        raise LineError("BadNumber")
    return int(word)


def _one_of(choices: type[Choice], word: str) -> Choice:
    if word not in tuple(choices):
        raise LineError("BadWord")
    return choices(word)


@dataclasses.dataclass(frozen=True)
class _WithRevision(Line):
    """A line with a revision: its name, and a port for each replica. Two are equal if they also have
    one class, as all dataclasses are."""

    name: str
    ports: tuple[int, ...]

    def arguments(self) -> Sequence[object]:
        return (self.name, *self.ports)

    @classmethod
    def read(cls, words: Sequence[str]) -> Self:
        _check_count(len(words) >= 2)
        return cls(words[0], tuple(map(_number, words[1:])))


@dataclasses.dataclass(frozen=True)
class _WordAlone(Line):
    """A line of one word."""

    def arguments(self) -> Sequence[object]:
        return ()

    @classmethod
    def read(cls, words: Sequence[str]) -> Self:
        _check_count(not words)
        return cls()


class Open(_WithRevision):
    """Opens the book with revision 1."""

    word = "open"
    helps = (
        LineHelp(
            "open NAME PORT..",
            "opens the book with revision 1, which has one port for each replica",
            "open web-v1 9101 9102",
        ),
    )


@dataclasses.dataclass(frozen=True)
class Available(Event):
    """`count` endpoints of the revision of this number can take requests."""

    revision: int
    count: int
    word = "available"
    helps = (
        LineHelp(
            "available R N",
            "says that N endpoints of revision R can take requests: the first N, or the first N that are not down",
            "available 2 2",
        ),
    )

    def arguments(self) -> Sequence[object]:
        return (self.revision, self.count)

    @classmethod
    def read(cls, words: Sequence[str]) -> Self:
        _check_count(len(words) == 2)
        return cls(_number(words[0]), _number(words[1]))


class Deploy(_WithRevision, Event):
    """Deploys a new revision, or the one of this name again."""

    word = "deploy"
    helps = (
        LineHelp(
            "deploy NAME PORT..",
            "deploys a new revision, or the one of this name again (undo)",
            "deploy web-v2 9201 9202",
        ),
    )


@dataclasses.dataclass(frozen=True)
class Tick(Event):
    """The time is `moment` seconds from the start."""

    moment: int
    word = "tick"
    helps = (LineHelp("tick M", "says that the time is M seconds from the start", "tick 30"),)

    def arguments(self) -> Sequence[object]:
        return (self.moment,)

    @classmethod
    def read(cls, words: Sequence[str]) -> Self:
        _check_count(len(words) == 1)
        return cls(_number(words[0]))


@dataclasses.dataclass(frozen=True)
class Verdict(Event):
    """An analysis has come to this result."""

    analysis: AnalysisKind
    result: VerdictResult
    word = "verdict"
    helps = (
        LineHelp(
            "verdict pre RESULT",
            "ends the analysis before the switch: successful, failed or error",
            "verdict pre successful",
        ),
        LineHelp(
            "verdict post RESULT",
            "ends the analysis after the switch: successful, failed or error",
            "verdict post failed",
        ),
    )

    def arguments(self) -> Sequence[object]:
        return (self.analysis, self.result)

    @classmethod
    def read(cls, words: Sequence[str]) -> Self:
        _check_count(len(words) == 2)
        return cls(_one_of(AnalysisKind, words[0]), _one_of(VerdictResult, words[1]))


@dataclasses.dataclass(frozen=True)
class Promote(Event):
    """Ends the pause; in full, all analyses and pauses of the attempt."""

    is_full: bool = False
    word = "promote"
    helps = (
        LineHelp("promote", "ends the pause of the attempt", "promote"),
        LineHelp("promote full", "skips the analyses and pauses of the attempt", "promote full"),
    )
    FULL: ClassVar[str] = "full"

    def arguments(self) -> Sequence[object]:
        return (self.FULL,) if self.is_full else ()

    @classmethod
    def read(cls, words: Sequence[str]) -> Self:
        _check_count(len(words) <= 1)
        if list(words) not in ([], [cls.FULL]):
            raise LineError("BadWord")
        return cls(bool(words))


class Abort(_WordAlone, Event):
    """Ends the attempt."""

    word = "abort"
    helps = (
        LineHelp(
            "abort", "ends the attempt: both services select the stable revision again", "abort"
        ),
    )


class Retry(_WordAlone, Event):
    """Begins the attempt of the newest revision again."""

    word = "retry"
    helps = (LineHelp("retry", "begins the attempt of the newest revision again", "retry"),)


@dataclasses.dataclass(frozen=True)
class Before(Line):
    """A line with a time limit: milliseconds of the boot clock."""

    milliseconds: int
    event: Event
    word = "before"
    helps = (
        LineHelp(
            "before MILLISECONDS LINE",
            "carries out LINE, which gives an event, if the boot clock is below MILLISECONDS",
            "before 81234567 promote",
        ),
    )

    def arguments(self) -> Sequence[object]:
        return (self.milliseconds, self.event)

    @classmethod
    def read(cls, words: Sequence[str]) -> Self:
        _check_count(len(words) >= 2)
        milliseconds = _number(words[0])
        event = None if words[1] == cls.word else _read(words[1:])
        if not isinstance(event, Event):
            raise LineError("BadWord")
        return cls(milliseconds, event)


@dataclasses.dataclass(frozen=True)
class Down(Line):
    """All ports that are down now."""

    ports: tuple[int, ...]
    word = "down"
    helps = (
        LineHelp(
            "down PORT..",
            "names all ports that are down now, in place of those before; without a port, none is down",
            "down 9101",
        ),
    )

    def arguments(self) -> Sequence[object]:
        return self.ports

    @classmethod
    def read(cls, words: Sequence[str]) -> Self:
        return cls(tuple(map(_number, words)))


class AskReport(_WordAlone):
    """Asks for the state."""

    word = "report"
    helps = (LineHelp("report", "shows the state", "report"),)


class Compact(_WordAlone):
    """Drops the entries of closed requests from the history."""

    word = "compact"
    helps = (
        LineHelp("compact", "drops the entries of closed requests from the history", "compact"),
    )


class Quit(_WordAlone):
    """Shuts the switch down."""

    word = "quit"
    helps = (LineHelp("quit", "shuts the switch down: no operator is answered any more", "quit"),)


KINDS: tuple[type[Line], ...] = (
    *(Open, Deploy, Available, Tick, Verdict, Promote, Abort, Retry),
    *(Before, Down, AskReport, Compact, Quit),
)
BY_WORD: Mapping[str, type[Line]] = {kind.word: kind for kind in KINDS}
LINE_WORDS = tuple(BY_WORD)
LINES = tuple(each for kind in KINDS for each in kind.helps)
EVENT_WORDS = tuple(kind.word for kind in KINDS if issubclass(kind, Event))


def words_of(text: bytes) -> list[bytes]:
    """The words of a text, as the switch splits it: spaces alone part words, and a CR at the end
    does not count."""
    return [word for word in text.removesuffix(b"\r").split(b" ") if word]


def _read(words: Sequence[str]) -> Line:
    if not words:
        raise LineError("Empty")
    if words[0] not in BY_WORD:
        raise LineError("UnknownWord")
    return BY_WORD[words[0]].read(words[1:])


def read_line(text: bytes) -> Line:
    """The line of a text without its LF, as the switch reads it. `LineError` if it is not a
    line."""
    if len(text.removesuffix(b"\r")) > LONGEST_LINE:
        raise LineError("TooLong")
    if not all(byte in PRINTABLE for byte in text.removesuffix(b"\r")):
        raise LineError("NotAscii")
    return _read([word.decode("ascii") for word in words_of(text)])


def line_in(text: bytes) -> Line | None:
    """The same; None if it is not a line."""
    try:
        return read_line(text)
    except LineError:
        return None


def without_time_limit(line: Line) -> Line:
    """The line that a line `before` carries out; any other line as it is."""
    return line.event if isinstance(line, Before) else line


def is_report(text: bytes) -> bool:
    """Whether a text is the line `report`. Its words tell, so nothing else of a line is read."""
    return words_of(text) == [AskReport.word.encode("ascii")]


def is_quit(text: bytes) -> bool:
    """Whether a text is the line `quit`."""
    return words_of(text) == [Quit.word.encode("ascii")]


def in_time(milliseconds: int, text: bytes) -> bytes:
    """What a person wrote, with a time limit if it begins as an event does. What is wrong with it,
    the switch says."""
    words = words_of(text)
    if not words or words[0].decode("latin-1") not in EVENT_WORDS:
        return text
    return f"{Before.word} {milliseconds} ".encode("ascii") + text
