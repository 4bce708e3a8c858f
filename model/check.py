#!/usr/bin/env python3
"""Checks model/fleet.pml with spin: that the rules hold, and that each planted fault is found by
the rule that it breaks.

usage: model/check.py small|all|NAME..

`small` is what the gate runs. `all` has the large configurations too. A NAME is one check of
either.

Each check prints a line: its name, what came of it, the stored states, and the seconds of the
search. The exit status is 1 if a rule does not hold where it must, if a planted fault is not found,
if another rule than the named one finds it, or if a search does not end within its limits. Where
spin or a C compiler is not installed, a line says so, and the status is 0.
"""
import dataclasses
import os
import pathlib
import re
import shutil
import signal
import subprocess
import sys
import tempfile
import time
from collections.abc import Iterator, Sequence

MODEL = pathlib.Path(__file__).resolve().parent / "fleet.pml"
COMPILERS = ("cc", "gcc", "clang")
LONGEST = 900  # seconds for one search
MOST_MEMORY = 6000  # MiB for one search
DEPTH = 200_000  # steps; a search that needs more does not count as complete
HOLDS = "holds"


@dataclasses.dataclass(frozen=True)
class Check:
    """A search of the model.

    `bounds` are macros without their -D, in one text. `rule` is the rule that a planted fault
    breaks, e.g. "rule 1"; None if all must hold. `formula` names a formula of linear temporal
    logic, without which the assertions are checked. `where` is a part of the assertion that a
    planted fault violates."""

    name: str
    bounds: str
    rule: str | None = None
    where: str = ""
    formula: str = ""

    @property
    def macros(self) -> list[str]:
        """The options of spin."""
        return [
            f"-D{macro}"
            for macro in [*self.bounds.split(), *([self.formula] if self.formula else [])]
        ]


FORMULAS = {"LTL_4": "rule 4", "LTL_6": "rule 6", "LTL_8": "rule 8", "LTL_MISSING": "missing"}
NONE = "CRASHES=0 CUTS=0 EXPIRIES=0 FAILURES=0 ABORTS=0"
ONE = f"NM=2 PLANS=1 {NONE}"
TWO = f"NM=2 PLANS=2 {NONE}"


def bounded(bounds: str, **counts: int) -> str:
    """These bounds with some of them replaced."""
    told = dict(each.partition("=")[::2] for each in bounds.split())
    told.update({name: str(count) for name, count in counts.items()})
    return " ".join(f"{name}={count}" if count else name for name, count in told.items())


PLANTED = (
    Check("majority-ready", f"{ONE} MAJORITY_READY", "rule 1", "+1"),
    Check("alone-without-etcd", f"{bounded(ONE, CUTS=1)} ALONE", "rule 1", "promoted[att[i]]"),
    Check(
        "promote-without-id",
        f"{bounded(TWO, REMOVALS=1)} NO_ID RULE=1",
        "rule 1",
        "promoted[att[i]]",
    ),
    Check(
        "report-not-compared", f"{bounded(ONE, CRASHES=1)} NO_REPORT_COMPARE RULE=1", "rule 1", "+1"
    ),
    Check(
        "members-not-compared",
        f"{bounded(ONE, ADDITIONS=1)} NO_MEMBERS_COMPARE RULE=1",
        "rule 1",
        "+1",
    ),
    Check(
        "missing-not-counted",
        f"{bounded(ONE, NM=3, CUTS=2, MAX_MISSING=1)} MISSING_UNCOUNTED RULE=1",
        "rule 1",
        "+1",
    ),
    Check(
        "order-of-another-attempt",
        f"{bounded(TWO, BY_HAND=1)} ANY_ORDER",
        "rule 1",
        "ordered[seen_id]",
    ),
    Check("old-reads", f"{bounded(ONE, ABORTS=1)} OLD_READS", "rule 2", "late[att[i]]"),
    Check(
        "line-without-time-limit",
        f"{bounded(ONE, ABORTS=1)} NO_TIME_LIMIT",
        "rule 2",
        "late[att[i]]",
    ),
    Check("lagging-reads", f"{bounded(ONE, ABORTS=1)} LAGGING_READS", "rule 2", "late[att[i]]"),
    Check(
        "nothing-compared",
        f"{bounded(TWO, EXPIRIES=1, ABORTS=1)} NO_LEADER_COMPARE NO_ATTEMPT_COMPARE RULE=2",
        "rule 2",
        "aborted[seen_id]",
    ),
    Check(
        "leader-not-compared",
        f"{bounded(TWO, EXPIRIES=1)} NO_LEADER_COMPARE",
        "rule 3",
        "last_writer",
    ),
    Check("plan-not-compared", f"{TWO} NO_PLAN_COMPARE", "rule 3", "plan==seen_id"),
    Check(
        "no-catch-up", f"{bounded(TWO, CRASHES=1, CUTS=1)} NO_CATCH_UP", "rule 4", formula="LTL_4"
    ),
    Check("acts-on-changes", f"{bounded(TWO, CRASHES=1, CUTS=1)} EDGES", "rule 4", formula="LTL_4"),
    Check(
        "waits-for-the-missing",
        f"{bounded(ONE, NM=3, CUTS=1)} NEVER_MENDS",
        "missing",
        formula="LTL_MISSING",
    ),
    Check("majority-passed", f"{ONE} MAJORITY_PASSED", "rule 6", "+2"),
    Check(
        "back-needs-etcd",
        f"{bounded(ONE, CUTS=1, FAILURES=1)} NEVER_MENDS HELD_BACK",
        "rule 6",
        formula="LTL_6",
    ),
    Check(
        "order-not-compared",
        f"{bounded(ONE, ABORTS=1)} NO_ORDER_COMPARE",
        "rule 7",
        "abort_order!=seen_id",
    ),
    Check(
        "plan-first",
        f"{bounded(ONE, ABORTS=1, SPOILS=1)} PLAN_FIRST",
        "rule 8",
        formula="LTL_8",
    ),
    Check("strict-rule-2", f"{bounded(ONE, ABORTS=1)} STRICT", "rule 2", "aborted[att[i]]"),
)
SMALL = (
    Check("small-one-plan", "NM=2 PLANS=1"),
    Check("small-two-plans", "NM=2 PLANS=2 CRASHES=0"),
    Check("small-crash", "NM=2 PLANS=2 CUTS=0 ABORTS=0"),
    Check("small-members", "NM=2 PLANS=1 CUTS=0 EXPIRIES=0 REMOVALS=1 ADDITIONS=1"),
    Check("small-missing", "NM=2 PLANS=1 CRASHES=0 MAX_MISSING=1"),
    Check("small-by-hand", f"{bounded(TWO, EXPIRIES=1, FAILURES=1, ABORTS=1)} BY_HAND=1"),
    Check("small-three", "NM=3 PLANS=1 CUTS=0 ABORTS=0 EXPIRIES=0"),
    Check("small-agree", "NM=2 PLANS=2 CUTS=0 ABORTS=0 FAILURES=0", formula="LTL_4"),
    Check(
        "small-agree-members",
        f"{bounded(ONE, CRASHES=1, EXPIRIES=1, REMOVALS=1, ADDITIONS=1)}",
        formula="LTL_4",
    ),
    Check(
        "small-agree-missing",
        f"{bounded(ONE, CUTS=1, EXPIRIES=1, FAILURES=1, MAX_MISSING=1)}",
        formula="LTL_4",
    ),
    Check(
        "small-missing-for-ever",
        f"{bounded(ONE, NM=3, CUTS=1, MAX_MISSING=1)} NEVER_MENDS",
        formula="LTL_MISSING",
    ),
    Check("small-plan-spoiled", "NM=2 PLANS=2 CRASHES=0 CUTS=0 FAILURES=0 EXPIRIES=0 SPOILS=1"),
    Check(
        "small-plan-spoiled-ends",
        f"{bounded(ONE, CUTS=1, FAILURES=1, ABORTS=1, SPOILS=1)} NEVER_MENDS",
        formula="LTL_8",
    ),
    Check("small-back", f"{bounded(ONE, CUTS=2, FAILURES=1)} NEVER_MENDS", formula="LTL_6"),
)
LARGE = (
    Check("two-machines", "NM=2"),
    Check("two-machines-by-hand", "NM=2 CRASHES=0 BY_HAND=1"),
    Check("two-machines-members", "NM=2 PLANS=1 REMOVALS=1 ADDITIONS=1"),
    Check("two-machines-members-two-plans", "NM=2 CRASHES=0 CUTS=0 REMOVALS=1 ADDITIONS=1"),
    Check("two-machines-missing", "NM=2 PLANS=1 MAX_MISSING=1"),
    Check("two-machines-missing-two-plans", "NM=2 CRASHES=0 ABORTS=0 MAX_MISSING=1"),
    Check("three-machines-crash", "NM=3 CUTS=0 ABORTS=0"),
    Check("three-machines-cut", "NM=3 CRASHES=0 ABORTS=0"),
    Check("three-machines-one-plan", "NM=3 PLANS=1 CRASHES=0"),
    Check(
        "three-machines-members",
        "NM=3 PLANS=1 CRASHES=0 EXPIRIES=0 ABORTS=0 REMOVALS=1 ADDITIONS=1",
    ),
    Check("three-machines-missing", "NM=3 PLANS=1 CRASHES=0 EXPIRIES=0 ABORTS=0 MAX_MISSING=1"),
    Check("two-machines-plan-spoiled", "NM=2 CRASHES=0 CUTS=0 SPOILS=1"),
    Check(
        "two-machines-plan-spoiled-ends",
        "NM=2 PLANS=1 CRASHES=0 SPOILS=1 NEVER_MENDS",
        formula="LTL_8",
    ),
    Check("leader-not-compared-rule-2", "NM=2 CRASHES=0 NO_LEADER_COMPARE RULE=2"),
    Check("agree-two-machines-crash", "NM=2 CUTS=0", formula="LTL_4"),
    Check("agree-two-machines-cut", "NM=2 CRASHES=0", formula="LTL_4"),
    Check("agree-two-machines-by-hand", "NM=2 CRASHES=0 CUTS=0 BY_HAND=1", formula="LTL_4"),
    Check("agree-two-machines-missing", "NM=2 PLANS=1 CRASHES=0 MAX_MISSING=1", formula="LTL_4"),
    Check("agree-three-machines-one-plan", "NM=3 PLANS=1 ABORTS=0 CUTS=0", formula="LTL_4"),
    Check("agree-three-machines-cut", "NM=3 CRASHES=0 ABORTS=0 EXPIRIES=0", formula="LTL_4"),
    Check("agree-three-machines-crash", "NM=3 CUTS=0 ABORTS=0 EXPIRIES=0", formula="LTL_4"),
    Check(
        "agree-three-machines-members",
        f"{bounded(ONE, NM=3, CUTS=1, REMOVALS=1, ADDITIONS=1)}",
        formula="LTL_4",
    ),
    Check(
        "back-three-machines",
        f"{bounded(ONE, NM=3, CUTS=3, FAILURES=2)} NEVER_MENDS",
        formula="LTL_6",
    ),
)
SETS = {"small": (*SMALL, *PLANTED), "all": (*SMALL, *LARGE, *PLANTED)}


@dataclasses.dataclass(frozen=True)
class Outcome:
    """What a search came to: `found` is HOLDS, a rule, or why there is no answer; `text` is spin's
    line of an error."""

    found: str
    text: str = ""
    states: int = 0
    seconds: float = 0.0


class SearchError(Exception):
    """A program that was needed for a search has failed."""


def outcome_of(printed: str, formula: str, status: int = 0) -> Outcome:
    """Reads what the search has printed. A search that did not end is no answer, with whatever it
    has found so far."""
    errors = re.search(r"^State-vector .* errors: (\d+)$", printed, re.M)
    stored = re.search(r"^ *([\d.e+]+) states, stored", printed, re.M)
    states = int(float(stored[1])) if stored else 0
    told = re.search(r"^pan:\d+: (.*)$", printed, re.M)
    text = told[1] if told else ""
    if not errors or status:
        return Outcome(f"no answer, status {status}", text, states)
    if "max search depth too small" in printed:
        return Outcome("no answer, the search is deeper than its limit", text, states)
    if errors[1] == "0":
        if "Search not completed" in printed:
            return Outcome("no answer, the search was not completed", text, states)
        return Outcome(HOLDS, "", states)
    if text.startswith("acceptance cycle") and formula:
        return Outcome(FORMULAS[formula], text, states)
    asserted = re.match(r"assertion violated .*\(\(\d!=0\)&&\(\d!=(\d)\)\)", text)
    return Outcome(f"rule {asserted[1]}" if asserted else "another error", text, states)


def is_expected(check: Check, outcome: Outcome) -> bool:
    """Whether a search came to what its check names."""
    return outcome.found == (check.rule or HOLDS) and check.where in outcome.text.replace(" ", "")


def step(words: Sequence[str], folder: str, longest: float) -> "subprocess.CompletedProcess[str]":
    """Runs a program in a folder. Raises `SearchError` if it does not end within `longest` seconds.
    What it has started ends with it."""
    with subprocess.Popen(
        words,
        cwd=folder,
        stdout=subprocess.PIPE,
        stderr=subprocess.PIPE,
        text=True,
        start_new_session=True,
    ) as process:
        try:
            printed, told = process.communicate(timeout=longest)
        except BaseException as error:
            os.killpg(process.pid, signal.SIGKILL)
            process.communicate()
            if isinstance(error, subprocess.TimeoutExpired):
                raise SearchError(f"{words[0]} has not ended after {longest:g} seconds") from None
            raise
    return subprocess.CompletedProcess(words, process.returncode, printed, told)


def search(
    check: Check, compiler: str, model: pathlib.Path = MODEL, longest: float = LONGEST
) -> Outcome:
    """Runs spin, the compiler, and the search that they make, each for at most `longest`
    seconds."""
    with tempfile.TemporaryDirectory() as folder:
        # a planted fault is found in less time than an optimizing compiler takes
        options = ["-O0" if check.rule else "-O1", *([] if check.formula else ["-DSAFETY"])]
        try:
            for words in (
                ["spin", "-a", *check.macros, str(model)],
                [
                    compiler,
                    "-w",
                    *options,
                    "-DCOLLAPSE",
                    f"-DMEMLIM={MOST_MEMORY}",
                    "-o",
                    "pan",
                    "pan.c",
                ],
            ):
                done = step(words, folder, longest)
                if done.returncode:
                    raise SearchError(f"{words[0]}: {(done.stdout + done.stderr).strip()}")
            begun = time.monotonic()
            done = step(
                ["./pan", "-a" if check.formula else "-E", f"-m{DEPTH}", "-w22"], folder, longest
            )
        except SearchError as failed:
            return Outcome(f"no answer, {failed}")
        return dataclasses.replace(
            outcome_of(done.stdout, check.formula, done.returncode),
            seconds=time.monotonic() - begun,
        )


def line_of(check: Check, outcome: Outcome) -> str:
    """The line of a check."""
    is_broken = outcome.found.startswith("rule ") or outcome.found in FORMULAS.values()
    found = f"{outcome.found} is broken" if is_broken else outcome.found
    told = f"{check.name:<32} {found:<18} {outcome.states:>12,} states {outcome.seconds:>7.1f} s"
    if is_expected(check, outcome):
        return told
    wanted = f"{check.rule} is broken" if check.rule else HOLDS
    return f"{told}\n    FAILED: expected: {wanted}{' at ' + check.where if check.where else ''}; spin: {outcome.text or 'no error'}"


def chosen(words: Sequence[str]) -> Iterator[Check]:
    """The checks that these words name. Raises KeyError with the word that names none."""
    known = {check.name: check for check in SETS["all"]}
    for word in words:
        if word in SETS:
            yield from SETS[word]
        else:
            yield known[word]


def main(words: Sequence[str]) -> int:
    try:
        checks = list(chosen(words))
    except KeyError as unknown:
        names = ", ".join(["small", "all", *(each.name for each in SETS["all"])])
        print(f"no check has the name {unknown.args[0]}; names: {names}", file=sys.stderr)
        return 2
    if not checks:
        print(__doc__, file=sys.stderr)
        return 2
    compiler = next((name for name in COMPILERS if shutil.which(name)), None)
    if not shutil.which("spin") or compiler is None:
        print(
            f"the model is not checked, since {'a C compiler' if shutil.which('spin') else 'spin'} is not installed"
        )
        return 0
    failed = 0
    for check in checks:
        outcome = search(check, compiler)
        failed += not is_expected(check, outcome)
        print(line_of(check, outcome), flush=True)
    print(f"model: {len(checks) - failed} of {len(checks)} checks as expected")
    return 1 if failed else 0


if __name__ == "__main__":
    sys.exit(main(sys.argv[1:]))
