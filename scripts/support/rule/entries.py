"""The entries of a history: what an operator reports or asks for, the requests, and the outcomes.

Each begins with its word, as it stands on a line of a history.
"""
from typing import Literal, NamedTuple, TypeAlias, TypeVar

Analysis: TypeAlias = Literal["pre", "post"]
Result: TypeAlias = Literal["successful", "failed", "error"]
Service: TypeAlias = Literal["active", "preview"]
CommandWord: TypeAlias = Literal["promote", "promote_full", "abort", "retry"]
StepWord: TypeAlias = Literal["ready", "resumed", "switched", "promoted"]
CleanupWord: TypeAlias = Literal["scaled_down", "removed"]

ANALYSES: tuple[Analysis, ...] = ("pre", "post")
RESULTS: tuple[Result, ...] = ("successful", "failed", "error")
SERVICES: tuple[Service, ...] = ("active", "preview")
COMMANDS: tuple[CommandWord, ...] = ("promote", "promote_full", "abort", "retry")
STEPS: tuple[StepWord, ...] = ("ready", "resumed", "switched", "promoted")
CLEANUPS: tuple[CleanupWord, ...] = ("scaled_down", "removed")

Word = TypeVar("Word", bound=str)


def one_of(known: tuple[Word, ...], word: str) -> Word:
    """The known word that is written so; there must be one."""
    return known[known.index(word)]


class Template(NamedTuple):
    """What a revision is deployed with."""

    name: str
    ports: tuple[str, ...]


class Tick(NamedTuple):
    word: Literal["tick"]
    moment: int


class Deploy(NamedTuple):
    word: Literal["deploy"]
    revision: int
    name: str
    ports: tuple[str, ...]


class Available(NamedTuple):
    word: Literal["available"]
    revision: int
    size: int


class Verdict(NamedTuple):
    word: Literal["verdict"]
    analysis: Analysis
    result: Result


class Command(NamedTuple):
    word: CommandWord


class Enter(NamedTuple):
    word: Literal["enter"]
    seat: int
    service: Service
    number: int
    revision: int
    port: str


class Leave(NamedTuple):
    word: Literal["leave"]
    seat: int
    number: int
    revision: int


class Outcome(NamedTuple):
    word: StepWord | CleanupWord
    revision: int


# An entry that a line of an operator asks for.
Control: TypeAlias = Tick | Deploy | Available | Verdict | Command
Entry: TypeAlias = Control | Enter | Leave | Outcome
