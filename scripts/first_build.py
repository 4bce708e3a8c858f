#!/usr/bin/env python3
"""Proves and builds the libraries that a program stands on, in a clone where they are not built
yet.

usage: scripts/first_build.py [CRATE]        of bg_switch, if none is named; `make build` begins with it

`rt` locks a crate and all crates below it while it works, and `rt all` takes crates in the order of
how many stand below each, so a long chain of crates begins late. Here each library is proved in a
copy of the repository, which has the libraries below by hard links, and of those that can begin the
one with most text in the chain above it is taken first.

A crate with a folder out/ is left to `rt all check`, which keeps up what was built once. A second
first build in the same clone waits for the first one, whose copies it would replace.
"""
import contextlib
import fcntl
import os
import pathlib
import shutil
import subprocess
import sys
from collections.abc import Callable, Iterator, Mapping
from concurrent.futures import FIRST_COMPLETED, Future, ThreadPoolExecutor, wait

from crate_list import Crate, all_below, crates_in

TOP = pathlib.Path(__file__).resolve().parents[1]
# A check needs up to 5 GB of memory, and a machine for this has 24.
MOST_CHECKS = 4
SOURCES = ("src", "specs", "proofs")


def size_of(crate: pathlib.Path) -> int:
    """The bytes of a crate's sources and proofs, by which its cost is estimated."""
    return sum(
        file.stat().st_size
        for part in SOURCES
        for file in (crate / part).rglob("*")
        if file.is_file()
    )


def chains_above(crates: Mapping[str, Crate], costs: Mapping[str, int]) -> dict[str, int]:
    """For each crate with a cost: its own, and those of the dearest chain of crates that stand on
    it."""
    chains: dict[str, int] = {}
    for name in reversed(list(crates)):
        if name in costs:
            above = (chains[it] for it in chains if name in crates[it].below)
            chains[name] = costs[name] + max(above, default=0)
    return chains


def built_in_order(
    crates: Mapping[str, Crate],
    chains: Mapping[str, int],
    at_once: int,
    build: Callable[[str], bool],
) -> bool:
    """Builds each crate that has a chain, after those below it, the longest chain first. After a
    failure it begins no other one."""
    left, running, is_well = set(chains), dict[Future[bool], str](), True
    with ThreadPoolExecutor(at_once) as pool:
        while left and is_well or running:
            unfinished = left | set(running.values())
            ready = [
                it for it in crates if it in left and not unfinished.intersection(crates[it].below)
            ]
            ready.sort(key=chains.__getitem__, reverse=True)
            for name in ready[: at_once - len(running)] if is_well else ():
                left.remove(name)
                running[pool.submit(build, name)] = name
            for done in wait(running, return_when=FIRST_COMPLETED).done:
                is_well &= done.result()
                del running[done]
    return is_well


def link_or_copy(one: str, other: str) -> None:
    """Gives a file of a library, or of kept proofs, a second name: rt removes such a file before it
    makes it anew."""
    if "/out/rlib/" in one or one.endswith(".oantt"):
        os.link(one, other)
    else:
        shutil.copy2(one, other)


def copied(
    name: str, crates: Mapping[str, Crate], top: pathlib.Path, room: pathlib.Path
) -> pathlib.Path:
    """The crate's folder in a copy of the repository, which has the sources of all crates and the
    libraries below this one."""
    copy = room / name
    shutil.rmtree(copy, ignore_errors=True)
    copy.mkdir(parents=True)
    for file in ("crates.txt", "HANDLES"):
        shutil.copy2(top / file, copy / file)
    below = all_below(crates, name)
    for it in crates:
        for part in (*SOURCES, *(("out/rlib",) if it in below else ())):
            if (top / "crates" / it / part).is_dir():
                shutil.copytree(
                    top / "crates" / it / part,
                    copy / "crates" / it / part,
                    copy_function=link_or_copy,
                )
    return copy / "crates" / name


def build_library(
    name: str, crates: Mapping[str, Crate], top: pathlib.Path, room: pathlib.Path
) -> bool:
    """Proves and builds a library in a copy, and links what was made to its own folder. The copy
    stays: rt in another checkout begins with what was kept where a check ran."""
    folder = copied(name, crates, top, room)
    made = subprocess.run(
        ["rt", "lib", "--jobs", "1"],
        cwd=folder,
        stdout=subprocess.PIPE,
        stderr=subprocess.STDOUT,
        text=True,
        check=False,
    )
    print(f"== {name}\n{made.stdout}", end="", flush=True)
    if not made.returncode:
        shutil.copytree(folder / "out", top / "crates" / name / "out", copy_function=link_or_copy)
    return not made.returncode


@contextlib.contextmanager
def alone(room: pathlib.Path) -> Iterator[None]:
    """No other first build has its copies in this room, until the block ends. The system ends the
    lock with the process, also if it is killed."""
    room.mkdir(parents=True, exist_ok=True)
    with open(room / "lock", "w", encoding="ascii") as lock:
        fcntl.flock(lock, fcntl.LOCK_EX)
        yield


def main() -> int:
    if len(sys.argv) > 2:
        print(__doc__, file=sys.stderr)
        return 2
    room = TOP / "out/first-build"
    with alone(room):
        return build_missing(sys.argv[1] if len(sys.argv) == 2 else "bg_switch", room)


def build_missing(program: str, room: pathlib.Path) -> int:
    """Builds the libraries of a program that have no folder out/. Gives the exit status."""
    crates = crates_in((TOP / "crates.txt").read_text(encoding="utf-8"))
    missing = [
        it for it in all_below(crates, program) if not (TOP / "crates" / it / "out").exists()
    ]
    chains = chains_above(crates, {it: size_of(TOP / "crates" / it) for it in (*missing, program)})
    del chains[program]
    at_once = min(len(os.sched_getaffinity(0)), MOST_CHECKS)
    return (
        0
        if built_in_order(crates, chains, at_once, lambda it: build_library(it, crates, TOP, room))
        else 1
    )


if __name__ == "__main__":
    sys.exit(main())
