#!/usr/bin/env python3
"""A drill of the line `before`, by hand: a running switch is stopped and continued at random, while
lines `before` with a time limit some milliseconds ahead come over several connections. None may be
carried out late, and none refused in time.

usage: scripts/before_drill.py [--lines N] [--seed S] [--rounds R]     the drill, and what the line costs
       scripts/before_drill.py --fault NAME [--lines N] [--seed S]     a switch with a planted fault; `all` is each one

A line was late for certain if the switch was stopped from before it was sent until after its limit,
or if its limit had passed when it was sent. Of a line that was on its way when the stop began nobody
knows that. Then the drill sends orders with a time limit and without one in turn, R rounds of each
(0: none), and prints how many the switch takes in a second.

Exit status: 0 if no line was carried out late or refused in time, and orders with a time limit are at
least 0.98 times as many a second; for a planted fault, if its verdict has found it; else 1. 2 if the
words are wrong. BG_SWITCH_PROGRAM names another program than bin/bg_switch.
"""
import argparse
import contextlib
import subprocess
import sys
from collections.abc import Iterator
from typing import NamedTuple

from support import PROGRAM, processes
from support.checks import check
from support.late_lines import LateLines, Outcome, ratio_of_orders
from support.line_proxy import PLANTED, LineProxy
from support.messages import BY_HAND
from support.operators import Operator
from support.reserved import reserved
from support.switch import LISTENING, words_of_serve

LINES, ROUNDS, ORDERS = 4_000, 31, 2_000
LEAST_RATIO = 0.98
LONGEST = 600.0  # seconds for which a switch runs
PORTS = range(10_000, 14_000)  # below those that the system gives to connections by itself
MOST_SHOWN = 10
ROLLOUT = BY_HAND.replace('"replicas": 1', '"replicas": 2')


class RunningSwitch(NamedTuple):
    """A switch: its process, and its control port."""

    process: int
    control: int


@contextlib.contextmanager
def open_switch() -> Iterator[RunningSwitch]:
    """A switch whose first revision has two endpoints that are up."""
    active, preview, control = (reserved(PORTS) for _ in range(3))
    words = [PROGRAM, *words_of_serve(active, control, preview, 2, None)]
    pipe = subprocess.PIPE
    with subprocess.Popen(words, stdin=pipe, stdout=pipe, text=True) as process:
        processes.limit(process, LONGEST)
        try:
            assert process.stdin is not None and process.stdout is not None
            with process.stdin:
                process.stdin.write(ROLLOUT)
            check("listening", process.stdout.readline(), LISTENING)
            with contextlib.closing(Operator(control)) as operator:
                operator.check("open one 1 2", "ok 0")
                operator.check("available 1 2", "ok 0")
            yield RunningSwitch(process.pid, control)
        finally:
            processes.stop(process)


def play_at(process: int, port: int, lines: int, seed: int) -> Outcome:
    """A drill at a control port, or at a proxy before it."""
    drill = LateLines(process, port, seed)
    try:
        return drill.play(lines)
    finally:
        drill.close()


def play(lines: int, seed: int, fault: str = "") -> Outcome:
    """A drill at a switch, or at one with a planted fault."""
    with open_switch() as switch:
        if not fault:
            return play_at(switch.process, switch.control, lines, seed)
        proxy = LineProxy(switch.control, PLANTED[fault].changes)
        try:
            return play_at(switch.process, proxy.port, lines, seed)
        finally:
            proxy.end()


def is_fault_found(name: str, lines: int, seed: int) -> bool:
    verdict = PLANTED[name].verdict
    found = [fault for fault in play(lines, seed, name).faults if fault.startswith(verdict)]
    print(f"{name}: {'FOUND' if found else 'NOT FOUND'} as {verdict!r}, {len(found)} times")
    print("\n".join(f"    {fault}" for fault in found[:1]))
    return bool(found)


def is_cost_small(rounds: int) -> bool:
    """Whether orders with a time limit are nearly as many a second as without one. 0 rounds say
    nothing."""
    if not rounds:
        return True
    with open_switch() as switch, contextlib.closing(Operator(switch.control)) as operator:
        plain, in_time, ratio = ratio_of_orders(operator, rounds, ORDERS)
    print(f"orders a second: {plain:,.0f} without a time limit, {in_time:,.0f} with one")
    print(f"ratio of orders with a time limit: {ratio:.3f}, at least {LEAST_RATIO}")
    return ratio >= LEAST_RATIO


def is_kept(lines: int, seed: int) -> bool:
    """Whether no line was carried out late or refused in time."""
    outcome = play(lines, seed)
    print("\n".join(outcome.table()))
    for fault in outcome.faults[:MOST_SHOWN]:
        print(f"FAILED {fault}")
    print(f"before_drill: {len(outcome.faults)} faults")
    return not outcome.faults


def main() -> int:
    usage = (__doc__ or "").split("usage: ")[1].split("\n\n")[0]
    parser = argparse.ArgumentParser(prog="before_drill.py", usage=usage)
    parser.add_argument("--lines", type=int, default=LINES)
    parser.add_argument("--seed", type=int, default=1)
    parser.add_argument("--rounds", type=int, default=ROUNDS)
    parser.add_argument("--fault", choices=[*PLANTED, "all"])
    given = parser.parse_args()
    if given.fault:
        names = PLANTED if given.fault == "all" else (given.fault,)
        return 0 if all([is_fault_found(name, given.lines, given.seed) for name in names]) else 1
    return 0 if all([is_kept(given.lines, given.seed), is_cost_small(given.rounds)]) else 1


if __name__ == "__main__":
    sys.exit(main())
