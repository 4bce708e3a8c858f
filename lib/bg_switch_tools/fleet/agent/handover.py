"""What the threads of an agent hand to one another: reads of the store to the rounds at the switch,
and reports back."""
import threading

from bg_switch_tools.fleet.agent.agent import Read


class Handover:
    """A read is followed by a round that has taken it in, and then by what the machine reports
    after that round.

    So a store that is silent holds up no round, and an agent whose rounds hang no longer keeps its
    lease.
    """

    def __init__(self) -> None:
        self._condition = threading.Condition()
        self._reads = list[Read]()
        # counts of reads: that were put, that were taken, that a round was done with
        self._put = self._taken = self._done = 0
        self._rounds = 0  # that are over
        self._text: str | None = None
        self._has_ended = False

    def end(self) -> None:
        """Ends all waits, now and later."""
        with self._condition:
            self._has_ended = True
            self._condition.notify_all()

    # ---- the thread of the store ----

    def put(self, read: Read) -> None:
        with self._condition:
            self._reads.append(read)
            self._put += 1
            self._condition.notify_all()

    def await_text(self) -> str | None:
        """Waits until a round was done with all reads that were put. Gives what the machine reports
        after it: None if it reports nothing, or if the agent ends."""
        with self._condition:
            put = self._put
            self._condition.wait_for(lambda: self._done >= put or self._has_ended)
            return None if self._has_ended else self._text

    @property
    def rounds(self) -> int:
        """How many rounds are over."""
        with self._condition:
            return self._rounds

    def await_round(self, rounds: int) -> None:
        """Waits until more than `rounds` rounds are over, or the agent ends."""
        with self._condition:
            self._condition.wait_for(lambda: self._rounds > rounds or self._has_ended)

    # ---- the thread of the rounds ----

    def await_reads(self, seconds: float) -> list[Read]:
        """Waits until a read was put, but for at most `seconds` seconds. Gives those that were not
        taken yet, the oldest first."""
        with self._condition:
            self._condition.wait_for(lambda: self._reads or self._has_ended, seconds)
            reads, self._reads = self._reads, []
            self._taken += len(reads)
            return reads

    def finish(self, text: str | None) -> bool:
        """A round is over, with all reads that were taken. Gives whether the machine reports
        something else than before, and nobody waits for it."""
        with self._condition:
            is_news = text != self._text and self._done == self._put
            self._text, self._done = text, self._taken
            self._rounds += 1
            self._condition.notify_all()
            return is_news
