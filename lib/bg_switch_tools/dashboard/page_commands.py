"""The commands of the page's buttons, which are sent only if the newest revision is the one that
the page showed."""
from collections.abc import Mapping
from typing import NamedTuple

from bg_switch_tools.dashboard.steps import COMMANDS
from bg_switch_tools.switch.connection import Connection, sent
from bg_switch_tools.switch.control import Control
from bg_switch_tools.switch.json_values import Judge, decoded
from bg_switch_tools.switch.lines import Line
from bg_switch_tools.switch.replies import Reply

# By what a page calls them.
PAGE_COMMANDS: Mapping[str, Line] = {str(line): line for line in COMMANDS}
MOST_REVISIONS = 1 << 53
WAIT = 5.0  # seconds for the switch to answer


class PageCommandError(ValueError):
    """A text that is not a command. The message says why."""


class NewestChangedError(Exception):
    """The newest revision is another one than the page showed."""


class PageCommand(NamedTuple):
    """A command, and the number of the newest revision that it was meant for."""

    line: Line
    revision: int


def read_page_command(text: bytes) -> PageCommand:
    """The command of a JSON body: `{"order": "promote", "revision": 2}`."""
    judge = Judge()
    try:
        json_value = decoded(text)
    except ValueError:
        raise PageCommandError("it is not JSON") from None
    members = judge.members(json_value, "the command", ("order", "revision"), ("order", "revision"))
    name = str(members.get("order"))
    if name not in PAGE_COMMANDS:
        judge.note("order", f"it must be one of {', '.join(PAGE_COMMANDS)}")
    number = judge.member(
        members,
        "revision",
        "",
        lambda value, at: judge.whole_number(value, at, 1, MOST_REVISIONS),
        0,
    )
    if judge.problems:
        raise PageCommandError("; ".join(judge.problems))
    return PageCommand(PAGE_COMMANDS[name], number)


def send_page_command(control: Control, command: PageCommand) -> Reply:
    """Sends a command, and gives its reply. `UnreachableError` if the switch gives no answer."""
    with Connection(control, WAIT) as connection:
        report = connection.ask_report()
        if report is None or report.newest.number != command.revision:
            newest = report.newest.title() if report else "none"
            raise NewestChangedError(f"the newest revision is {newest} by now: nothing was sent")
        return connection.read(sent(connection, command.line.encoded(), WAIT)[0])
