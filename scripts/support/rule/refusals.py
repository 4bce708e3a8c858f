"""What a line is refused with: the first refusal that applies, in the order of docs/LINES.md."""
import re

from support.rule.attempts import has, is_halted, is_running, moment, newest, phase
from support.rule.entries import (
    Available,
    Command,
    CommandWord,
    Control,
    Deploy,
    Service,
    Template,
    Tick,
    Verdict,
)
from support.rule.history import History, Opening
from support.rule.requests import held_by
from support.rule.revisions import available, desired, namesake, revisions, template
from support.rule.selections import selection
from support.rule.strategy import Strategy

MOST_REVISIONS = 64
LATEST_MOMENT = 2**53


def first_that_holds(*refusals: tuple[str, bool]) -> str | None:
    return next((name for name, holds in refusals if holds), None)


def is_label(name: str) -> bool:
    return re.fullmatch(r"[a-z0-9]([-a-z0-9]{0,61}[a-z0-9])?", name) is not None


def are_ports(strategy: Strategy, ports: tuple[str, ...]) -> bool:
    return len(ports) == strategy.replicas == len(set(ports)) and all(
        1 <= int(port) <= 65535 for port in ports
    )


def opening_refusal(opening: Opening) -> str | None:
    return first_that_holds(
        ("BadName", not is_label(opening.template.name)),
        ("BadPorts", not are_ports(opening.strategy, opening.template.ports)),
    )


def deploy_refusal(history: History, new: Template) -> str | None:
    found = namesake(history, new.name)
    return first_that_holds(
        ("BadName", not is_label(new.name)),
        ("BadPorts", not are_ports(history.opening.strategy, new.ports)),
        ("SameTemplate", template(history, newest(history)) == new),
        ("PortsDiffer", found is not None and template(history, found).ports != new.ports),
        ("TooManyRevisions", found is None and len(revisions(history)) >= MOST_REVISIONS),
    )


def command_refusal(history: History, word: CommandWord) -> str | None:
    runs, was_halted = is_running(history), is_halted(history)
    refusals: dict[CommandWord, tuple[tuple[str, bool], ...]] = {
        "promote": (("Aborted", was_halted), ("NotPaused", phase(history) != "paused")),
        "promote_full": (
            ("Aborted", was_halted),
            ("NothingToPromote", not runs),
            ("AlreadyFull", has(history, "promote_full")),
        ),
        "abort": (("AlreadyAborted", was_halted), ("NothingToAbort", not runs)),
        "retry": (("NotAborted", not was_halted),),
    }
    return first_that_holds(*refusals[word])


def control_refusal(history: History, control: Control) -> str | None:
    """What the line that asks for this entry is refused with."""
    match control:
        case Tick():
            return first_that_holds(
                ("MomentTooLarge", control.moment > LATEST_MOMENT),
                ("MomentBack", control.moment < moment(history)),
            )
        case Deploy():
            return deploy_refusal(history, Template(control.name, control.ports))
        case Available():
            return first_that_holds(
                ("NoSuchRevision", control.revision not in revisions(history)),
                ("MoreThanDesired", control.size > desired(history, control.revision)),
            )
        case Verdict():
            is_awaited = phase(history) == f"{control.analysis}Analysis"
            return first_that_holds(("NoAnalysis", not is_awaited))
        case Command():
            return command_refusal(history, control.word)


def enter_refusal(history: History, seat: int, service: Service) -> str | None:
    revision = selection(history, service)
    return first_that_holds(
        ("NoSuchSeat", seat >= history.opening.seats),
        ("SeatBusy", held_by(history, seat) is not None),
        ("NoPreview", revision is None),
        ("NoEndpoints", revision is not None and available(history, revision) == 0),
    )


def leave_refusal(history: History, seat: int) -> str | None:
    return first_that_holds(
        ("NoSuchSeat", seat >= history.opening.seats),
        ("SeatIdle", held_by(history, seat) is None),
    )
