"""The switches that a plan named before, at other control ports or sockets: their requests may still
be open after an upgrade."""
import time

from bg_switch_tools.controller.history.memory import Memory
from bg_switch_tools.switch.connection import UnreachableError, ask_report
from bg_switch_tools.switch.control import Control, connected
from bg_switch_tools.switch.reports import Report, ReportError

PAUSE = 2.0  # seconds between two looks
SELECTING = ("active", "preview", "stable")  # what can send requests to a revision
CONNECT, ANSWER = 0.3, 1.0  # seconds within which a switch takes a connection, and answers


def needed_names(report: Report) -> list[str]:
    """The revisions whose endpoints a report needs: those that a service selects, that are sized,
    or that have requests open. An aborted revision is the newest one, and no service selects it."""
    selected = [report.selected[service] for service in SELECTING]
    return [
        revision.name
        for number, revision in report.revisions.items()
        if revision.desired or revision.open or number in selected
    ]


def is_gone(control: Control) -> bool:
    """Whether nothing listens there any more."""
    try:
        connected(control, CONNECT).close()
    except (ConnectionRefusedError, FileNotFoundError):
        return True
    except OSError:
        pass
    return False


def _names_at(control: Control) -> set[str] | None:
    """The revisions that a switch needs; None if it does not answer."""
    try:
        report = ask_report(control, ANSWER)
    except UnreachableError:
        return None
    except ReportError:
        return set()
    return set(needed_names(report)) if report else set()


class FormerSwitches:
    """Asks them which revisions they still need, until nothing listens there."""

    def __init__(self, memory: Memory) -> None:
        self.memory = memory
        self.next = 0.0
        self.needed: set[str] | None = None

    def add(self, control: Control) -> None:
        """The plan names another control port or socket in place of this one."""
        self.memory.set_former((*self.memory.state.former, control))
        self.next = 0.0

    def names(self, control: Control) -> set[str] | None:
        """The names of the revisions that are needed there; None if one of the switches does not
        tell, so that any may be. `control` is what the plan names now."""
        if not self.memory.state.former:
            return set()
        if time.monotonic() >= self.next:
            self.next = time.monotonic() + PAUSE
            self.memory.set_former(
                tuple(
                    former
                    for former in self.memory.state.former
                    if former != control and not is_gone(former)
                )
            )
            names_of_each = [_names_at(former) for former in self.memory.state.former]
            self.needed = (
                None
                if None in names_of_each
                else {name for names in names_of_each if names for name in names}
            )
        return self.needed
