#!/usr/bin/env python3
"""Runs benches, and compares the ratios that they print with those of bench/baseline.json.

usage: bench/compare.py BENCH..              fails where a bench fails, or a ratio is more than 20 per cent worse
       bench/compare.py --write BENCH..      writes the ratios of these benches into bench/baseline.json

A bench prints a ratio as a line `ratio of NAME: VALUE`. A lower value is better, unless the line
ends in `, at least LIMIT`. `, at most LIMIT` may follow too. The bench itself judges its limits, by
its exit status.

A bench of which a ratio is worse runs once more, since other work of the machine disturbs it; the
better value of the two runs counts. A bench that lacks a program says `nothing was measured`, and
is not compared. Ratios of one machine hold about on another one. Times do not, so the file has
none.
"""
import json
import os
import pathlib
import re
import subprocess
import sys
from collections.abc import Mapping, Sequence
from typing import NamedTuple

TOP = pathlib.Path(__file__).resolve().parents[1]
BASELINE = TOP / "bench" / "baseline.json"
MOST_WORSE = 0.2
RATIO = re.compile(
    r"ratio of (?P<name>.+): (?P<value>\d+(?:\.\d+)?)(?:, at (?P<limit>most|least) \d+(?:\.\d+)?)?"
)
NOT_MEASURED = "nothing was measured"


class Ratio(NamedTuple):
    """A ratio, and whether a higher one is better."""

    value: float
    higher_is_better: bool

    def worse_by(self, before: float) -> float:
        """The part of the value before by which this one is worse; below 0 if it is better."""
        change = self.value / before - 1
        return -change if self.higher_is_better else change

    def better_of(self, other: "Ratio") -> "Ratio":
        return (max if self.higher_is_better else min)(self, other)


class Result(NamedTuple):
    """What a run of a bench has given."""

    status: int
    ratios: dict[str, Ratio]
    is_measured: bool


Baseline = dict[str, dict[str, float]]


def ratios_of(printed: str) -> dict[str, Ratio]:
    found = (RATIO.fullmatch(line.strip()) for line in printed.splitlines())
    return {
        one["name"]: Ratio(float(one["value"]), one["limit"] == "least") for one in found if one
    }


def run(bench: str) -> Result:
    """Runs a bench, and passes on what it prints."""
    lines = []
    with subprocess.Popen([bench], cwd=TOP, stdout=subprocess.PIPE, text=True) as process:
        for line in process.stdout or ():
            print(line, end="", flush=True)
            lines.append(line)
    printed = "".join(lines)
    return Result(process.returncode, ratios_of(printed), NOT_MEASURED not in printed)


def worse(ratios: Mapping[str, Ratio], before: Mapping[str, float]) -> list[str]:
    """The names of the ratios that are too much worse."""
    return [
        name
        for name in before
        if name in ratios and ratios[name].worse_by(before[name]) > MOST_WORSE
    ]


def faults(result: Result, before: Mapping[str, float]) -> list[str]:
    """What is wrong with the result of a bench."""
    told = [f"it ended with status {result.status}"] if result.status else []
    if not result.is_measured:
        return told
    told += [
        f"{name}: {result.ratios[name].value:.2f}, and {before[name]:.2f} before"
        for name in worse(result.ratios, before)
    ]
    told += [
        f"{name}: it was not printed, and is in the baseline"
        for name in before
        if name not in result.ratios
    ]
    told += [
        f"{name}: it is not in the baseline; bench/compare.py --write adds it"
        for name in result.ratios
        if name not in before
    ]
    return told


def compare(bench: str, before: Mapping[str, float]) -> bool:
    """Whether a bench passes, at once or with the better ratios of two runs."""
    result = run(bench)
    if worse(result.ratios, before) and not result.status:
        print(f"{bench}: a ratio is worse, so it runs once more")
        again = run(bench)
        better = {
            name: ratio.better_of(again.ratios.get(name, ratio))
            for name, ratio in result.ratios.items()
        }
        result = Result(again.status, better, again.is_measured)
    told = faults(result, before)
    for fault in told:
        print(f"{bench}: FAILED: {fault}")
    return not told


def read() -> Baseline:
    baseline: Baseline = json.loads(BASELINE.read_text(encoding="utf-8"))
    return baseline


def write(benches: Sequence[str]) -> bool:
    """Takes the ratios of these benches for the baseline. Those of a bench that fails or measures
    nothing stay."""
    baseline, has_passed = read(), True
    for bench in benches:
        print(bench, flush=True)
        result = run(bench)
        if result.status:
            has_passed = False
        elif result.is_measured:
            baseline[bench] = {name: ratio.value for name, ratio in result.ratios.items()}
    BASELINE.write_text(json.dumps(baseline, indent=2, sort_keys=True) + "\n", encoding="utf-8")
    return has_passed


def main(words: Sequence[str]) -> int:
    is_write = words[:1] == ["--write"]
    benches = [os.path.normpath(bench) for bench in (words[1:] if is_write else words)]
    if not benches or any(bench.startswith("-") for bench in benches):
        print(__doc__, file=sys.stderr)
        return 2
    if is_write:
        return 0 if write(benches) else 1
    baseline, failed = read(), []
    for bench in benches:
        print(bench, flush=True)
        if not compare(bench, baseline.get(bench, {})):
            failed.append(bench)
    if failed:
        print(f"bench: failed: {', '.join(failed)}")
    return 1 if failed else 0


if __name__ == "__main__":
    sys.exit(main(sys.argv[1:]))
