"""A book that works by the rule: what the switch has to reply to lines, and what it has to report."""
import functools
from typing import NamedTuple

from support.rule.attempts import moment, newest, phase, stable
from support.rule.entries import (
    ANALYSES,
    COMMANDS,
    RESULTS,
    SERVICES,
    Available,
    Command,
    Control,
    Deploy,
    Enter,
    Entry,
    Leave,
    Service,
    Template,
    Tick,
    Verdict,
    one_of,
)
from support.rule.history import SEATS, History, Opening
from support.rule.refusals import control_refusal, enter_refusal, leave_refusal, opening_refusal
from support.rule.requests import given, held_by, open_at, port_of
from support.rule.revisions import available, deployed_number, desired, revisions, template
from support.rule.scale_down import deadline, is_draining, is_past_limit
from support.rule.selections import active, preview, selection
from support.rule.steps import step
from support.rule.strategy import Strategy

CONTROL_WORDS = ("tick", "deploy", "available", "verdict", "promote", "abort", "retry")
WORDS = ("open", "report", "enter", "leave", *CONTROL_WORDS)


class RevisionState(NamedTuple):
    """What a report says of a revision, and its ports."""

    number: int
    name: str
    ports: tuple[str, ...]
    desired: int
    available: int
    open: int
    deadline: int | None
    is_draining: bool
    is_past_limit: bool

    def line(self) -> str:
        """Its line of a report."""
        words = [
            f"revision {self.number} {self.name} desired {self.desired}",
            f"available {self.available} open {self.open}",
            f"deadline {'none' if self.deadline is None else self.deadline}",
        ]
        words += ["draining"] * self.is_draining + ["cut"] * self.is_past_limit
        return " ".join(words)


def revision_state(history: History, revision: int) -> RevisionState:
    name, ports = template(history, revision)
    return RevisionState(
        number=revision,
        name=name,
        ports=ports,
        desired=desired(history, revision),
        available=available(history, revision),
        open=len(open_at(history, revision)),
        deadline=deadline(history, revision),
        is_draining=is_draining(history, revision),
        is_past_limit=is_past_limit(history, revision),
    )


@functools.lru_cache(maxsize=16)  # a book is asked for them far more often than it changes
def revision_states(history: History) -> tuple[RevisionState, ...]:
    """The existing revisions, ascending by number."""
    return tuple(revision_state(history, revision) for revision in revisions(history))


def report(history: History) -> list[str]:
    """The lines of a report."""
    return [
        f"moment {moment(history)}",
        f"phase {phase(history)}",
        f"active {active(history)}",
        f"preview {preview(history)}",
        f"stable {stable(history)}",
        f"newest {newest(history)}",
        *(state.line() for state in revision_states(history)),
        "end",
    ]


def control_of(history: History, words: list[str]) -> Control | None:
    """The entry that the words of a line ask for, allowed or not; None if their count is wrong."""
    match words:
        case ["tick", seconds]:
            return Tick("tick", int(seconds))
        case ["deploy", name, *ports]:
            return Deploy("deploy", deployed_number(history, name), name, tuple(ports))
        case ["available", revision, size]:
            return Available("available", int(revision), int(size))
        case ["verdict", analysis, result]:
            return Verdict("verdict", one_of(ANALYSES, analysis), one_of(RESULTS, result))
        case ["promote", "full"]:
            return Command("promote_full")
        case ["promote" | "abort" | "retry" as word]:
            return Command(one_of(COMMANDS, word))
    return None


class RuleBook:
    """The book of a strategy. The lines that it is told are well formed."""

    def __init__(self, strategy: Strategy, seats: int = SEATS) -> None:
        self.strategy = strategy
        self.seats = seats
        self.history: History | None = None  # before a book is open

    def reply(self, line: str) -> list[str]:
        """The reply to `open`, an event, a request or `report`."""
        words = line.split()
        if not words or words[0] not in WORDS:
            return ["fault UnknownWord" if words else "fault Empty"]
        if words[0] == "open":
            return self._open(Template(words[1], tuple(words[2:])))
        if self.history is None:
            return ["refused NotOpen"]
        match words:
            case ["report"]:
                return report(self.history)
            case ["enter", seat, service]:
                return self._enter(self.history, int(seat), one_of(SERVICES, service))
            case ["leave", seat]:
                return self._leave(self.history, int(seat))
        control = control_of(self.history, words)
        return ["fault WrongCount"] if control is None else self._control(self.history, control)

    def _open(self, first: Template) -> list[str]:
        opening = Opening(self.strategy, first, self.seats)
        refusal = opening_refusal(opening) if self.history is None else "AlreadyOpen"
        if refusal is not None:
            return [f"refused {refusal}"]
        self.history = History(opening)
        return ["ok 0"]

    def _control(self, history: History, control: Control) -> list[str]:
        refusal = control_refusal(history, control)
        if refusal is not None:
            return [f"refused {refusal}"]
        return [f"ok {self._take(history, control)}"]

    def _enter(self, history: History, seat: int, service: Service) -> list[str]:
        refusal, revision = enter_refusal(history, seat, service), selection(history, service)
        if refusal is not None or revision is None:
            return [f"refused {refusal}"]
        number = given(history) + 1
        port = port_of(history, revision, number)
        self._take(history, Enter("enter", seat, service, number, revision, port))
        return [f"entered {number} revision {revision} port {port}"]

    def _leave(self, history: History, seat: int) -> list[str]:
        refusal, request = leave_refusal(history, seat), held_by(history, seat)
        if refusal is not None or request is None:
            return [f"refused {refusal}"]
        self._take(history, Leave("leave", seat, request.number, request.revision))
        return [f"left {request.number} revision {request.revision}"]

    def _take(self, history: History, event: Entry) -> int:
        """Takes an allowed event, and gives how many outcomes came then."""
        self.history = step(history, event)
        return len(self.history.entries) - len(history.entries) - 1
