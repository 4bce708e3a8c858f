#!/usr/bin/env python3
"""Proves, tests and tries with its edits what differs from a commit, and the crates above it. It is
not the gate.

usage: scripts/quick.py [COMMIT]        `make quick`; without a commit, from where the branch left main

A crate differs where a file of its folder or its line of crates.txt does. Each such crate, and each
that stands on one, is proved over what earlier checks kept, lowest first; then their tests run, and
their must-fail edits are tried. What is not built below them is proved first, so the first run in a
clone takes as long as `make build`.
"""
import pathlib
import re
import subprocess
import sys
from collections.abc import Iterator, Mapping, Sequence
from dataclasses import dataclass

from crate_list import Crate, all_above, all_below, crates_in

TOP = pathlib.Path(__file__).resolve().parents[1]


@dataclass(frozen=True)
class Step:
    """A command, and the folder in which it runs."""

    folder: pathlib.Path
    words: tuple[str, ...]


def said_by_git(*words: str) -> str:
    return subprocess.run(
        ["git", *words], cwd=TOP, capture_output=True, text=True, check=True
    ).stdout


def changed_files(commit: str) -> list[str]:
    """The files that differ from a commit, and those that git doesn't know yet."""
    return (
        said_by_git("diff", "--name-only", commit)
        + said_by_git("ls-files", "--others", "--exclude-standard")
    ).splitlines()


def changed_crates(
    files: Sequence[str], now: Mapping[str, Crate], before: Mapping[str, Crate]
) -> list[str]:
    """The crates that differ."""
    folders = {it.split("/")[1] for it in files if re.match(r"crates/\w+/", it)}
    return [name for name, crate in now.items() if name in folders or before.get(name) != crate]


def has_tests(folder: pathlib.Path) -> bool:
    return any("#[test]" in it.read_text(encoding="utf-8") for it in (folder / "src").rglob("*.rt"))


def steps_for(
    top: pathlib.Path, crates: Mapping[str, Crate], changed: Sequence[str]
) -> Iterator[Step]:
    """What is done for these crates and those above them, in order."""
    affected = all_above(crates, changed)
    folders = {it: top / "crates" / it for it in crates}
    below = {lower for it in affected for lower in all_below(crates, it)}
    for name in crates:
        if name in below:
            yield Step(folders[name], ("rt", "lib"))
        elif name in affected:
            yield Step(folders[name], ("rt", "check"))
    for name in affected:
        if has_tests(folders[name]):
            yield Step(folders[name], ("rt", "test"))
    for name in affected:
        if any(folders[name].glob("must-fail/*.edit")):
            yield Step(top, ("rt", "must-fail", name))
    if edited := [it for it in affected if any(folders[it].glob("wrong-bodies/*.edit"))]:
        yield Step(top, ("scripts/try_edits.py", *edited))


def main() -> int:
    if len(sys.argv) > 2:
        print(__doc__, file=sys.stderr)
        return 2
    commit = (
        sys.argv[1] if len(sys.argv) == 2 else said_by_git("merge-base", "HEAD", "main").strip()
    )
    now, before = crates_in((TOP / "crates.txt").read_text(encoding="utf-8")), crates_in(
        said_by_git("show", f"{commit}:crates.txt")
    )
    changed = changed_crates(changed_files(commit), now, before)
    for step in steps_for(TOP, now, changed):
        print(f"quick: {step.folder.relative_to(TOP)}: {' '.join(step.words)}", flush=True)
        if status := subprocess.run(step.words, cwd=step.folder, check=False).returncode:
            print(f"quick: {' '.join(step.words)} ended with status {status}")
            return 1
    print(
        f"quick: passed, from {commit[:12]}: {', '.join(all_above(now, changed)) or 'no crate differs'}. This is not the gate: `make test` is"
    )
    return 0


if __name__ == "__main__":
    sys.exit(main())
