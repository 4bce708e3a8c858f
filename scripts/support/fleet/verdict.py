"""What a random drill comes to: its figures, whether its mix had what it has to have, and the
verdict of the rules."""
import collections
from collections.abc import Iterator, Mapping
from typing import NamedTuple

from support.fleet.random_drill import (
    ABORT,
    AIMED_ABORT,
    BAD_AFTER,
    BAD_BEFORE,
    GOOD,
    PROMOTE,
    RETRY,
    SPOIL,
    UNDO,
    Outcome,
)
from support.fleet.random_faults import (
    AGENT_KILLED,
    AGENT_STOPPED,
    CLOCK_STEPPED,
    COMPACTED,
    LINK_CUT,
    MACHINE_STEPPED,
    MAJORITY_KILLED,
    MEMBER_KILLED,
    SWITCH_DELAYED,
    SWITCH_KILLED,
)
from support.fleet.rules import RULES, Broken, Run, broken_rules, figures

MOST_SHOWN = 10  # of the ways in which a rule is broken
LEAST_ATTEMPTS = 20  # with fewer, the mix of a drill is not judged
LEAST_PROMOTED = 1 / 3  # of the attempts that were begun
# By the name of a row: the counts that stand in it.
ROWS: Mapping[str, tuple[str, ...]] = {
    "agents killed / stopped and woken": (AGENT_KILLED, AGENT_STOPPED),
    "links to etcd cut / members killed / majorities killed": (
        LINK_CUT,
        MEMBER_KILLED,
        MAJORITY_KILLED,
    ),
    "switches killed / delayed": (SWITCH_KILLED, SWITCH_DELAYED),
    "wall clocks stepped: of agents / of the machine": (CLOCK_STEPPED, MACHINE_STEPPED),
    "compactions while a link is cut": (COMPACTED,),
    "plans good / bad before / bad after": (GOOD, BAD_BEFORE, BAD_AFTER),
    "ordered: promotes / aborts / aborts aimed at promoting / retries / undos": (
        PROMOTE,
        ABORT,
        AIMED_ABORT,
        RETRY,
        UNDO,
    ),
    "plans spoiled": (SPOIL,),
}


class Mix(NamedTuple):
    """How the attempts of a drill went: how many had each stage, and how many promotes of agents
    met an abort on its way."""

    begun: int
    promoted: int
    met_abort: int

    def faults(self) -> list[str]:
        """What the drill does not show, since too few attempts came to it."""
        if self.begun < LEAST_ATTEMPTS:
            return [
                f"{self.begun} attempts are too few to judge the mix: {LEAST_ATTEMPTS} are needed"
            ]
        found = []
        if self.promoted < LEAST_PROMOTED * self.begun:
            found.append(
                f"{self.promoted} of {self.begun} attempts were promoted, which is below a third"
            )
        if not self.met_abort:
            found.append("no promote met an abort on its way")
        return found


def mix_of(run: Run) -> Mix:
    stages = collections.Counter(write.stage for write in run.writes)
    return Mix(stages["deploying"], stages["promoting"], len(run.late_promotes()))


def table(outcome: Outcome) -> Iterator[str]:
    """The figures, a row of a table for each."""
    rows = {
        name: " / ".join(str(outcome.counts[what]) for what in counted)
        for name, counted in ROWS.items()
    }
    rows["settled after the last fault"] = (
        "no" if outcome.settled is None else f"{outcome.settled:.1f} s"
    )
    for name, figure in {**rows, **figures(outcome.recording)}.items():
        yield f"| {name} | {figure} |"


def verdict(outcome: Outcome) -> tuple[list[str], bool]:
    """The lines of the verdict, and whether all rules hold, no program has failed, the fleet has
    settled, and the mix had what it has to have."""
    broken, mix = broken_rules(outcome.recording), mix_of(Run(outcome.recording)).faults()
    lines = [line for number in range(1, len(RULES) + 1) for line in rule_lines(number, broken)]
    lines += [f"FAILED {failure}" for failure in outcome.failures] or ["no program has failed"]
    lines += [f"mix: {fault}" for fault in mix] or [
        "mix: a third of the attempts were promoted, and some promotes met an abort on its way"
    ]
    return lines, not broken and not mix and not outcome.failures and outcome.settled is not None


def rule_lines(number: int, broken: list[Broken]) -> Iterator[str]:
    found = [text for rule, text in broken if rule == number]
    yield f"rule {number}: {f'BROKEN, {len(found)} times' if found else 'holds'}"
    yield from (f"    {text}" for text in found[:MOST_SHOWN])
