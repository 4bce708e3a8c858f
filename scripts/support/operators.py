"""An operator, who keeps one connection to the control port or the control socket and is answered
line by line."""
from bg_switch_tools.switch.connection import Connection
from bg_switch_tools.switch.control import Control
from bg_switch_tools.switch.reports import Report, read_report

from support.checks import check

# How long an operator waits for an answer, in seconds.
LONGEST = 120


class Operator(Connection):
    """A connection to the control port or the control socket of a switch."""

    def __init__(self, control: Control) -> None:
        super().__init__(control, LONGEST)

    def check(self, line: str, expected: str) -> None:
        check(line, self.answer_to(line), expected)

    def report(self) -> str:
        """The lines of a report, each with its end."""
        self.allow(LONGEST)
        return "".join(f"{line}\n" for line in self.answer(b"report"))

    def state(self) -> Report:
        """What a report says. The book is open."""
        report = read_report(self.report().splitlines())
        assert report is not None
        return report

    def revisions(self) -> list[str]:
        """The lines of a report that tell of a revision."""
        return [line for line in self.report().splitlines() if line.startswith("revision ")]

    def open_requests(self) -> list[int]:
        """How many requests of each revision are open."""
        return [revision.open for revision in self.state().revisions.values()]

    def send_quit(self) -> None:
        """Sends `quit`, which has no reply, and waits for nothing."""
        self.allow(LONGEST)
        self.send(b"quit")
