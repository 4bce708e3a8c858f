#!/usr/bin/env python3
"""Tries the must-fail edits crates/NAME/wrong-bodies/*.edit, and fails if the prover accepts
one.

usage: scripts/try_edits.py [--alone] [NAME..]        the edits of all crates, or of these

It checks copies of the crates over the libraries that `rt ci` or `rt lib` has built. A proof reads
the contracts of the functions that a body calls, and not their bodies. So one check judges the
edits of many functions: a round, in which no two edits are in one function. Such a check asks for
the edited functions alone, and the rounds of a crate share what is proved.

An edit is refused if a function that it changes is not proved and the prover names a place of
that very function: a line of its text, or of a proof file of its own. That a callee is not proved
is no such reason, and neither is a proof file that names what the edit took away. An edit for which
no such reason is told is tried alone, and then, if its functions are not proved, alone with the
whole crate. One that is proved fails this script, and so does one that can't be read, applied or
compiled.

With --alone each edit is tried alone with the whole crate, as `rt must-fail` does. What was refused
is kept in out/tried-edits, under the sum of all that the verdict rests on, and is not tried again.

RT_JOBS says how many crates are tried side by side; else there is one for each processor.
"""
import argparse
import concurrent.futures
import os
import pathlib
import subprocess
import sys
import tempfile
from collections.abc import Iterable, Iterator, Sequence
from dataclasses import dataclass

from crate_list import all_below, crates_in
from edits.crate import PARTS, EditedCrate, Repository
from edits.edit import Edit, EditError
from edits.kept import Kept, sum_of
from edits.verdicts import Verdict

TOP = pathlib.Path(__file__).resolve().parents[1]
FOLDER = "wrong-bodies"
KEPT = "out/tried-edits"


@dataclass(frozen=True)
class Tried:
    """An edit, by its file, and the verdict on it."""

    path: pathlib.Path
    verdict: Verdict
    is_kept: bool = False

    def __str__(self) -> str:
        crate, said = (
            self.path.parents[1].name,
            "refused" if self.verdict.is_refused else "NOT REFUSED",
        )
        return f"{crate}/{self.path.name}: {said}{' by an earlier run' * self.is_kept}: {self.verdict.reason}"


def repository_at(top: pathlib.Path) -> Repository:
    """The repository at this folder, with the kit whose `rt` is on the PATH."""
    said = subprocess.run(["rt", "doc"], capture_output=True, text=True, check=True).stdout
    return Repository(
        top,
        pathlib.Path(said.strip()).parent,
        crates_in((top / "crates.txt").read_text(encoding="utf-8")),
    )


def edits_of(repository: Repository, name: str) -> list[pathlib.Path]:
    return sorted((repository.folder(name) / FOLDER).glob("*.edit"))


def is_built(repository: Repository, name: str) -> bool:
    """Whether the library of a crate stands as its files are now.

    `rt lib` leaves a stamp, and builds a library anew if its files have changed. `rt ci` leaves
    none; the folder of a library that it has put there is newer than the files.
    """
    library = repository.library(name)
    if (library.parent / "stamp").exists():
        return (
            subprocess.run(
                ["rt", "lib", "--jobs", "1"],
                cwd=repository.folder(name),
                capture_output=True,
                check=False,
            ).returncode
            == 0
        )
    files = [it for part in PARTS for it in (repository.folder(name) / part).rglob("*")]
    return library.is_dir() and library.stat().st_mtime >= max(it.stat().st_mtime for it in files)


def try_crate(repository: Repository, name: str, kept: Kept, is_alone: bool) -> Iterator[Tried]:
    """The verdict on each edit of a crate."""
    total, left = sum_of(repository, name), {}
    for path in edits_of(repository, name):
        if reason := kept.reason(total, path):
            yield Tried(path, Verdict(True, reason), is_kept=True)
            continue
        try:
            edit = Edit.read(path)
            edit.apply(repository.folder(name), {})
            left[edit] = path
        except EditError as fault:
            yield Tried(path, Verdict(False, f"bad edit: {fault}"))
    with tempfile.TemporaryDirectory(prefix="try-edits-kept-") as room:
        crate = EditedCrate(repository, name, pathlib.Path(room))
        for edit, verdict in crate.try_each_alone(left) if is_alone else crate.try_all(left):
            if verdict.is_refused:
                kept.keep(total, left[edit], verdict.reason)
            yield Tried(left[edit], verdict)


def try_crates(
    repository: Repository, names: Iterable[str], kept: Kept, is_alone: bool, at_once: int
) -> Iterator[Tried]:
    """The verdict on each edit of these crates, of which some are tried side by side."""
    with concurrent.futures.ThreadPoolExecutor(at_once) as pool:
        for found in pool.map(
            lambda name: list(try_crate(repository, name, kept, is_alone)), names
        ):
            yield from found


def main(words: Sequence[str], top: pathlib.Path = TOP) -> int:
    arguments = argparse.ArgumentParser(
        description="Tries the must-fail edits in crates/NAME/wrong-bodies."
    )
    arguments.add_argument(
        "--alone", action="store_true", help="try each edit alone with the whole crate"
    )
    arguments.add_argument(
        "names", nargs="*", metavar="NAME", help="a crate; without one, all crates"
    )
    given = arguments.parse_args(words)
    repository = repository_at(top)
    if unknown := [it for it in given.names if it not in repository.crates]:
        print(f"try_edits: crates.txt has no {unknown[0]}", file=sys.stderr)
        return 2
    names = [it for it in given.names or repository.crates if edits_of(repository, it)]
    for below in dict.fromkeys(lower for it in names for lower in all_below(repository.crates, it)):
        if not is_built(repository, below):
            print(
                f"try_edits: {below} is not built as it stands: run `rt ci` first, or `rt lib` in its folder",
                file=sys.stderr,
            )
            return 2
    passed = failed = 0
    kept = Kept(top / KEPT)
    at_once = int(os.environ.get("RT_JOBS", "") or len(os.sched_getaffinity(0)))
    for tried in try_crates(repository, names, kept, given.alone, at_once):
        print(tried, flush=True)
        passed, failed = passed + tried.verdict.is_refused, failed + (not tried.verdict.is_refused)
    print(f"try_edits: {passed} passed, {failed} failed")
    return 1 if failed else 0


if __name__ == "__main__":
    sys.exit(main(sys.argv[1:]))
