#!/usr/bin/env python3
"""A drill of a fleet of three machines, by hand: faults at random, or agents with a planted fault.

usage: scripts/fleet_drill.py --seed N --seconds S [--machine-clock] [--folder FOLDER]    faults, plans and persons at random for so many seconds
       scripts/fleet_drill.py --fault NAME [--folder FOLDER]                              agents with a planted fault, and without it; `all` is each one

It needs the built program, etcd, HAProxy and nginx. Where root may, the machines are network
namespaces, and a machine that is cut off takes its member of etcd with it; else they are ports of
this one. Several drills may run side by side. What was recorded stays in the folder: without one, in
a new one below /tmp.

The wall clock of an agent is stepped inside its process. With --machine-clock the wall clock of this
machine is stepped too, as root alone may: all that runs on it sees that, so do it where nothing else
matters. It is set right at the end; who kills the drill has to do that.

At the end it prints the figures, and for each rule whether it holds. Exit status: 0 if all rules
hold, the fleet has settled, at least a third of the attempts were promoted, and a promote met an
abort on its way; for a planted fault, if its rule has found it, and agents without it break no
rule; else 1. 2 if the words are wrong or a program is missing.
"""
import argparse
import pathlib
import sys
import tempfile

from support.fleet.lab import missing_programs
from support.fleet.planted import PLANTED, broken_by
from support.fleet.random_drill import random_drill
from support.fleet.verdict import table, verdict

LEAST_SECONDS, MOST_SECONDS = 10, 86400


def play_random(folder: pathlib.Path, seed: int, seconds: float, steps_machine_clock: bool) -> bool:
    outcome = random_drill(folder, seed, seconds, steps_machine_clock)
    print(f"\n| seed {seed}, {seconds:g} seconds of faults | |\n|---|---|")
    print("\n".join(table(outcome)))
    lines, holds = verdict(outcome)
    print("\n".join(lines))
    return holds


def play_planted(folder: pathlib.Path, name: str) -> bool:
    """Whether a planted fault is found by its rule, and agents without it break none."""
    planted = PLANTED[name]
    without = broken_by(folder / f"{name}-without", name, False)
    broken = broken_by(folder / f"{name}-planted", name, True)
    for rule, text in without:
        print(f"{name}: agents without it break rule {rule}: {text}")
    rules = ", ".join(str(rule) for rule in sorted({rule for rule, _ in broken})) or "none"
    is_found = planted.is_found(broken)
    print(
        f"{name}: {'FOUND' if is_found else 'NOT FOUND'} by rule {planted.rule}; rules that are broken: {rules}"
    )
    for rule in sorted({rule for rule, _ in broken}):
        print(f"    rule {rule}: {next(text for number, text in broken if number == rule)}")
    return is_found and not without


def main() -> int:
    parser = argparse.ArgumentParser(
        prog="fleet_drill.py", usage=(__doc__ or "").split("usage: ")[1].split("\n\n")[0]
    )
    parser.add_argument("--seed", type=int)
    parser.add_argument("--seconds", type=float)
    parser.add_argument("--fault", choices=[*PLANTED, "all"])
    parser.add_argument("--machine-clock", action="store_true")
    parser.add_argument("--folder", type=pathlib.Path)
    given = parser.parse_args()
    is_random = (
        given.seed is not None
        and given.seconds is not None
        and LEAST_SECONDS <= given.seconds <= MOST_SECONDS
    )
    if is_random == (given.fault is not None):
        parser.error(f"give --seed and --seconds, {LEAST_SECONDS} to {MOST_SECONDS}, or --fault")
    if missing := missing_programs():
        print(
            f"fleet_drill: {' and '.join(missing)} can't be found here: apt-get install etcd-server haproxy nginx",
            file=sys.stderr,
        )
        return 2
    folder: pathlib.Path = (
        given.folder or pathlib.Path(tempfile.mkdtemp(prefix="bg_fleet_"))
    ).absolute()
    if is_random:
        has_passed = play_random(folder, given.seed, given.seconds, given.machine_clock)
    else:
        has_passed = all(
            [
                play_planted(folder, name)
                for name in (PLANTED if given.fault == "all" else (given.fault,))
            ]
        )
    print(f"what was recorded is in {folder}")
    return 0 if has_passed else 1


if __name__ == "__main__":
    sys.exit(main())
