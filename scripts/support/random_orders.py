"""Orders at random to a running switch, beside its clients."""
import contextlib
import random
import threading
from collections.abc import Callable, Mapping, Sequence

from bg_switch_tools.switch.connection import Connection, UnreachableError

from support.checks import check
from support.switch import Switch

PAUSE = 0.02  # seconds between two orders at least
STEPS = ("promote", "promote full", "abort", "retry", "verdict pre successful")
MOST_TICKS = 3  # by less than this the moment grows with a tick
LONGEST = 0.5  # seconds for which a switch that is gone is waited for
VERDICTS = tuple(
    f"verdict {kind} {result}"
    for kind in ("pre", "post")
    for result in ("successful", "failed", "error")
)


def deploys_of(revisions: Mapping[str, Sequence[int]]) -> list[str]:
    """The lines that deploy these revisions, by their names, with their ports."""
    return [f"deploy {name} {' '.join(map(str, ports))}" for name, ports in revisions.items()]


class RandomOrders:
    """Orders for two revisions, whose endpoints have these ports. None takes the last endpoint for
    long."""

    def __init__(
        self, switch: Switch, first: Sequence[int], second: Sequence[int], seed: int
    ) -> None:
        self.switch = switch
        self.chance = random.Random(seed)
        ups = (f"available 1 {len(first)}", f"available 2 {len(second)}")
        self.lines = [
            *STEPS,
            *ups,
            *ups,
            *deploys_of({"one": first, "two": second}),
            "available 1 0",
            "tick",
            "report",
            "compact",
        ]
        self.moment = 1
        self.given = 0

    def play(self, over: threading.Event, may_have_given: Callable[[], int]) -> None:
        """Gives orders until this is over, and no more of them than `may_have_given` says."""
        while not over.wait(PAUSE):
            if self.given <= may_have_given():
                self.give()

    def give(self) -> None:
        self.given += 1
        line = self.chance.choice(self.lines)
        if line == "tick":
            self.moment += self.chance.randrange(MOST_TICKS)
            line = f"tick {self.moment}"
        self.switch.answer_to(line)


class OrdersOverKills:
    """Orders to a control port whose switch may be killed and started again. Nobody but a controller
    ticks, or says which endpoints are available."""

    def __init__(self, control: int, revisions: Mapping[str, Sequence[int]], seed: int) -> None:
        self.control = control
        self.chance = random.Random(seed)
        self.lines = [*STEPS, *STEPS, *VERDICTS, *deploys_of(revisions)]

    def play(self, over: threading.Event) -> None:
        """Gives orders until this is over."""
        while not over.wait(self.chance.uniform(0, 2 * PAUSE)):
            with contextlib.suppress(UnreachableError, OSError):
                with Connection(self.control, LONGEST) as connection:
                    self.give(connection, over)

    def give(self, connection: Connection, over: threading.Event) -> None:
        """Gives some orders over one connection."""
        for _ in range(self.chance.randrange(1, 6)):
            reply = connection.answer_to(self.chance.choice(self.lines))
            check("a reply", reply.split()[0] in ("ok", "refused"), True)
            if over.wait(self.chance.uniform(0, 2 * PAUSE)):
                return
