"""A switch with a book of its own, as far as the tools need one: one connection after the other, no
traffic. What the book replies is what the rule says."""
import pathlib
import threading
from collections.abc import Sequence

from bg_switch_tools.switch.before import WORD, boot_clock
from bg_switch_tools.switch.connection import NEVER_IN_TIME
from bg_switch_tools.switch.replies import JOURNAL_FAILED, Done, Unsaved, read_reply
from support.rule import attempts, selections
from support.rule.book import RevisionState, RuleBook, revision_states
from support.rule.entries import Entry
from support.rule.history import History
from support.rule.strategy import Strategy
from tests.before_line import EVENTS, Clock, answer_before
from tests.fake_journal import FakeJournal
from tests.fake_port import ENDS, FakePort

REPLICAS = 2
# By which tools learn how a switch stands.
QUESTIONS = ("report", str(NEVER_IN_TIME))


def overtakes(event: Entry, last: Entry) -> bool:
    """Whether an event leaves no trace of the entry before it: a later moment, or another size of
    the same revision."""
    if event.word == "available" and last.word == "available":
        return event.revision == last.revision
    return event.word == "tick" and last.word == "tick"


class FakeBook(RuleBook):
    """A strategy with two replicas, and with those steps that are given: an analysis before (`pre`),
    a pause (`pause`), an analysis after (`post`). Old and aborted revisions have the same delay."""

    def __init__(self, *steps: str, delay: int = 30, journal: FakeJournal | None = None) -> None:
        """With a journal, the book is the one that a start resumes from it."""
        super().__init__(
            Strategy(
                replicas=REPLICAS,
                preview_replicas=REPLICAS,
                has_preview=True,
                auto="pause" not in steps,
                pre="pre" in steps,
                post="post" in steps,
                delay=delay,
                abort_delay=delay,
            )
        )
        self.journal = journal
        if journal is not None:
            self.history = journal.crash()
        # what the line `down` has named; None for a switch that does not know the line
        self.down: list[str] | None = None
        self.clock: Clock = boot_clock  # by which a line `before` is judged
        self.knows_before = True
        # by the first word: what a test wants each line of it to be refused with
        self.refusals: dict[str, str] = {}
        # held while a line is answered, since tests send lines beside the control port
        self._turn = threading.RLock()

    def answer(self, line: str) -> Sequence[str] | None:
        """The reply to a line; `ENDS` for `quit`."""
        with self._turn:
            return ENDS if line == "quit" else self._answer(line.split(), line)

    def _answer(self, words: list[str], line: str) -> Sequence[str] | None:
        word = words[0] if words else ""
        if self.journal is not None and not self._may_carry_out(self.journal, word):
            return [str(JOURNAL_FAILED)]
        if word == WORD and self.knows_before:
            return answer_before(line, self.history is not None, self.clock, self.answer)
        if word in self.refusals and (word == "open" or self.history is not None):
            return [f"refused {self.refusals[word]}"]
        if word == "down" and self.down is not None:
            return [self._down(words[1:])]
        reply = self.reply(line)
        return self._journaled(reply) if word in ("open", *EVENTS) else reply

    def _may_carry_out(self, journal: FakeJournal, word: str) -> bool:
        """Whether the journal keeps all that was carried out before. An opening that it can't keep is
        refused as well."""
        if self.history is None:
            return word != "open" or not journal.fails
        return word not in (WORD, *EVENTS) or journal.is_ready()

    def _journaled(self, reply: list[str]) -> list[str]:
        """The reply to an order, after the journal was given its entries."""
        done = read_reply(reply[0])
        if self.journal is None or self.history is None or not isinstance(done, Done):
            return reply
        return reply if self.journal.append(self.history) else [str(Unsaved(done.number))]

    def _down(self, ports: list[str]) -> str:
        if not all(port.isdecimal() and int(port) < 65536 for port in ports):
            return "fault BadNumber"
        if self.history is None:
            return "refused NotOpen"
        numbers = {int(port) for port in ports}
        if 0 in numbers or len(numbers) < len(ports):
            return "refused BadPorts"
        self.down = ports
        return f"ok {len(ports)}"

    def _take(self, history: History, event: Entry) -> int:
        """Forgets an entry that the next one overtakes, since the rule looks through all entries."""
        entries = history.entries
        if entries and overtakes(event, entries[-1]):
            history = history.until(len(entries) - 1)
        return super()._take(history, event)

    @property
    def moment(self) -> int:
        return 0 if self.history is None else attempts.moment(self.history)

    @property
    def phase(self) -> str:
        """The phase; empty before a book is open."""
        return "" if self.history is None else str(attempts.phase(self.history))

    @property
    def active(self) -> int:
        return 1 if self.history is None else selections.active(self.history)

    @property
    def stable(self) -> int:
        return 1 if self.history is None else attempts.stable(self.history)

    @property
    def newest(self) -> int:
        return 1 if self.history is None else attempts.newest(self.history)

    @property
    def revisions(self) -> dict[int, RevisionState]:
        """The revisions of the book by their numbers; none before it is open."""
        states = () if self.history is None else revision_states(self.history)
        return {state.number: state for state in states}


class FakeSwitch:
    """A switch at a control port, or with `path` at a control socket. It can be killed, after which
    its book is gone, and started again. With a journal, its book is then as the journal has it."""

    def __init__(
        self,
        *steps: str,
        delay: int = 30,
        knows_down: bool = False,
        path: str = "",
        journal: FakeJournal | None = None,
    ) -> None:
        self.steps = steps
        self.delay = delay
        self.knows_down = knows_down
        self.journal = journal
        self.lines: list[str] = []
        self.port = 0
        self.path = path
        self.start()

    def start(self, *lines: str) -> None:
        """Starts it; these lines have been carried out when it listens."""
        self.book = FakeBook(*self.steps, delay=self.delay, journal=self.journal)
        self.book.down = [] if self.knows_down else None
        for line in lines:
            self.book.answer(line)
        if self.path:
            pathlib.Path(self.path).unlink(missing_ok=True)
        self.control = FakePort(self.book.answer, self.port, self.lines, self.path)
        self.port = self.control.port

    def kill(self) -> None:
        self.control.close()

    def sent_lines(self) -> list[str]:
        """The lines that it was sent, but for questions, ticks and the ports that are down."""
        return [
            line
            for line in list(self.lines)
            if line not in QUESTIONS and line.split(" ")[0] not in ("tick", "down")
        ]
