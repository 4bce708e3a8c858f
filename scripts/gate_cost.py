#!/usr/bin/env python3
"""Runs the gate, passes on what it prints, and prints at its end what each crate cost.

usage: scripts/gate_cost.py COMMAND [WORD..]        as `make test` does: scripts/gate_cost.py rt ci

The exit status is that of the command. The unit is the processor time of bg_openlist's proof in the
same run, since no figure in seconds holds on two machines. `rt ci` prints no times, so the
processor time of each process that it starts for a crate is read from /proc until the process ends.
Work on a crate is its proof, its tests or a must-fail edit:

    tests   the command has the word --test
    edits   the process runs outside the crate's folder, since an edit is tried on a copy
    proof   all else

The longest chain is about the least time that the gate takes, however many processors it has: a
crate's proof and its tests wait for the proofs of the crates below, and its longest edit for both.

What it can't see: a process that ends within the PERIOD in which it begins, and what a process uses
after it was last looked at; both are in the sum of all processes, which the system counts. Which of
the compilers' and linkers' time is
whose: it is in that sum too. How much longer a processor second is while others use the same core
or memory. A crate that an earlier run has kept costs nothing, and where bg_openlist is kept there
is no unit.

It also compares how many functions may wait: `may-wait=` on the last line of a proof with
`may_wait=` of crates.txt, and names each crate where they differ. Of a kept crate the gate prints
no such line.
"""
import os
import pathlib
import re
import resource
import subprocess
import sys
import threading
from collections.abc import Iterable, Iterator, Mapping, Sequence
from dataclasses import dataclass, field
from typing import NamedTuple, TextIO

from crate_list import Crate, crates_in

UNIT = "bg_openlist"
PERIOD = 0.25
TICKS = os.sysconf("SC_CLK_TCK")
PROOF, TESTS, EDITS = "proof", "tests", "edits"
KINDS = (PROOF, TESTS, EDITS)


class Work(NamedTuple):
    """What a process is for."""

    crate: str
    kind: str


class ProcessTime(NamedTuple):
    """A process as /proc shows it: when it began tells it from a later one of the same number."""

    number: int
    parent: int
    began: int
    seconds: float


@dataclass
class Costs:
    """The processor seconds of each process that worked on a crate."""

    of: dict[Work, list[float]] = field(default_factory=dict)

    def add(self, work: Work, seconds: float) -> None:
        self.of.setdefault(work, []).append(seconds)

    def total(self, crate: str, kind: str) -> float:
        return sum(self.of.get(Work(crate, kind), []))

    def longest(self, crate: str, kind: str) -> float:
        return max(self.of.get(Work(crate, kind), []), default=0.0)

    def sum(self) -> float:
        return sum(sum(each) for each in self.of.values())


def work_of(words: Sequence[str], folder: str) -> Work | None:
    """What a process with these words does, which runs in this folder; None if it checks no
    crate."""
    if not words or os.path.basename(words[0]) != "rattle" or "--crate-name" not in words[:-1]:
        return None
    crate = words[words.index("--crate-name") + 1]
    if "--test" in words:
        return Work(crate, TESTS)
    return Work(crate, PROOF if folder.endswith(f"/crates/{crate}") else EDITS)


def processes() -> Iterator[ProcessTime]:
    """All processes."""
    for each in os.listdir("/proc"):
        if each.isdigit():
            try:
                with open(f"/proc/{each}/stat", encoding="utf-8", errors="replace") as file:
                    # (a name in brackets may hold spaces)
                    parts = file.read().rpartition(")")[2].split()
            except OSError:
                continue
            yield ProcessTime(
                int(each), int(parts[1]), int(parts[19]), (int(parts[11]) + int(parts[12])) / TICKS
            )


def below(root: int, every: Iterable[ProcessTime]) -> Iterator[ProcessTime]:
    """The processes that a process has begun, and those that these have."""
    children: dict[int, list[ProcessTime]] = {}
    for each in every:
        children.setdefault(each.parent, []).append(each)
    left = [root]
    while left:
        found = children.get(left.pop(), [])
        yield from found
        left.extend(each.number for each in found)


def work_at(number: int) -> Work | None:
    """What the process of this number does."""
    try:
        words = (
            pathlib.Path(f"/proc/{number}/cmdline")
            .read_bytes()
            .decode(errors="replace")
            .split("\0")
        )
        return work_of(words, os.readlink(f"/proc/{number}/cwd"))
    except OSError:
        return None


class Sampler(threading.Thread):
    """Looks at the processes that a command has begun, until it is stopped."""

    def __init__(self, root: int) -> None:
        super().__init__(daemon=True)
        self.root = root
        self.seconds: dict[tuple[int, int], tuple[Work, float]] = {}
        self.is_over = threading.Event()

    def run(self) -> None:
        while not self.is_over.wait(PERIOD):
            for each in below(self.root, processes()):
                key = each.number, each.began
                # (a process takes its words only once it has begun another program)
                work = self.seconds[key][0] if key in self.seconds else work_at(each.number)
                if work:
                    self.seconds[key] = work, each.seconds

    def costs(self) -> Costs:
        costs = Costs()
        for work, seconds in self.seconds.values():
            costs.add(work, seconds)
        return costs


def longest_chain(crates: Mapping[str, Crate], costs: Costs) -> tuple[float, list[str]]:
    """The longest time for which one thing waits for another, and the crates of that chain, lowest
    first."""
    proved: dict[str, tuple[float, list[str]]] = {}

    def proof_of(name: str) -> tuple[float, list[str]]:
        if name not in proved:
            nothing: tuple[float, list[str]] = (0.0, [])
            before = max((proof_of(it) for it in crates[name].below), default=nothing)
            proved[name] = before[0] + costs.total(name, PROOF), [*before[1], name]
        return proved[name]

    def end_of(name: str) -> tuple[float, list[str]]:
        end, chain = proof_of(name)
        tested = end - costs.total(name, PROOF) + costs.total(name, TESTS)
        return max(end, tested) + costs.longest(name, EDITS), chain

    return max((end_of(name) for name in crates), default=(0.0, []))


def table(crates: Mapping[str, Crate], costs: Costs, unit: float) -> Iterator[str]:
    """A line for each crate that cost something, in units."""
    yield f"gate_cost: {'crate':28}{''.join(f'{kind:>8}' for kind in KINDS)}"
    for name in crates:
        each = [costs.total(name, kind) / unit for kind in KINDS]
        if any(each):
            yield f"gate_cost: {name:28}{''.join(f'{cost:8.2f}' for cost in each)}"


def last_line(crates: Mapping[str, Crate], costs: Costs, every: float) -> str:
    """The sum and the longest chain. `every` is what all processes took, in processor seconds."""
    unit = costs.total(UNIT, PROOF)
    if not unit:
        return f"gate_cost: {every:.0f} processor seconds; {UNIT} wasn't proved in this run, so there is no unit"
    length, chain = longest_chain(crates, costs)
    return (
        f"gate_cost: {every / unit:.1f} units of {unit:.1f} processor seconds ({UNIT}'s proof), {costs.sum() / unit:.1f} of them "
        f"seen by crate; the longest chain is {length / unit:.1f}: {' '.join(chain)}"
    )


def counted(lines: Iterable[str]) -> dict[str, int]:
    """How many functions may wait, by the last line of each proof that the gate prints."""
    counts, name = {}, ""
    for line in lines:
        if line.startswith("== "):
            name = line[3:].strip()
        elif line.startswith("logic=proved") and re.fullmatch(r"\w+", name):
            count = re.search(r" may-wait=(\d+)", line)
            counts[name] = int(count[1]) if count else 0
    return counts


def miscounted(crates: Mapping[str, Crate], counts: Mapping[str, int]) -> Iterator[str]:
    """A line for each crate of which crates.txt has another number."""
    for name, count in counts.items():
        if name in crates and crates[name].may_wait != count:
            yield f"gate_cost: crates.txt has may_wait={crates[name].may_wait} of {name}, and its proof counts {count}"


def run(command: Sequence[str], out: TextIO) -> tuple[int, list[str], Costs, float]:
    """Runs a command: its status, what it printed, what was seen of its processes, and what all of
    them took."""
    before = resource.getrusage(resource.RUSAGE_CHILDREN)
    # (what Python prints into a pipe comes late, else)
    environment = {**os.environ, "PYTHONUNBUFFERED": "1"}
    lines = []
    with subprocess.Popen(
        command, stdout=subprocess.PIPE, text=True, errors="replace", env=environment
    ) as started:
        sampler = Sampler(started.pid)
        sampler.start()
        assert started.stdout is not None
        for line in started.stdout:
            print(line, end="", file=out, flush=True)
            lines.append(line)
        status = started.wait()
    sampler.is_over.set()
    sampler.join()
    after = resource.getrusage(resource.RUSAGE_CHILDREN)
    return (
        status,
        lines,
        sampler.costs(),
        after.ru_utime + after.ru_stime - before.ru_utime - before.ru_stime,
    )


def main() -> int:
    if len(sys.argv) < 2:
        print(__doc__, file=sys.stderr)
        return 2
    crates = crates_in(pathlib.Path("crates.txt").read_text(encoding="utf-8"))
    status, lines, costs, every = run(sys.argv[1:], sys.stdout)
    unit = costs.total(UNIT, PROOF)
    for line in [
        *miscounted(crates, counted(lines)),
        *(table(crates, costs, unit) if unit else []),
    ]:
        print(line)
    print(last_line(crates, costs, every))
    return status if status >= 0 else 128 - status


if __name__ == "__main__":
    sys.exit(main())
