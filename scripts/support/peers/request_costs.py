"""What a request costs the switch on each machine alike: its system calls, and the instructions of
the program itself.

A run counts all of a switch from its start to its end, with clients that each send a request before
any answer is read. Two runs with different numbers of requests differ by what the further requests
cost.
"""
import contextlib
import pathlib
import re
import shutil
from collections.abc import Callable, Sequence
from typing import NamedTuple

from support import PROGRAM
from support.peers import MeasurementError
from support.peers.configurations import Mode, Place
from support.peers.proxies import client_of, is_well_answered, running_switch

REQUESTS = (200, 1_200)  # of each client
CLIENTS = (1, 64)
CONCURRENCY = ("--concurrency", str(max(CLIENTS)))
COUNTED = "counted"  # the file that a tool writes
TOTALS = re.compile(r"^(?:summary|totals): (\d+)$", re.M)


def calls_in(summary: str) -> int:
    """All system calls of a summary of `strace -c`. `MeasurementError` if it has none."""
    rows = (line.split() for line in summary.splitlines())
    calls = [
        int(cells[3])
        for cells in rows
        if len(cells) >= 5 and cells[3].isdigit() and cells[-1] != "total"
    ]
    if not calls:
        raise MeasurementError("strace has counted no system call")
    return sum(calls)


def instructions_in(profile: str) -> int:
    """All instructions of a profile of callgrind. `MeasurementError` if it has no sum."""
    found = TOTALS.search(profile)
    if not found:
        raise MeasurementError("callgrind has written no sum")
    return int(found[1])


class Tool(NamedTuple):
    """A program that runs another one and counts: its words, and how its file is read."""

    words: tuple[str, ...]
    count_in: Callable[[str], int]


STRACE = Tool(("strace", "-f", "-c", "-o", COUNTED), calls_in)
CALLGRIND = Tool(
    ("valgrind", "--tool=callgrind", f"--callgrind-out-file={COUNTED}"), instructions_in
)


def program_file() -> str:
    """The program itself, if `bin/bg_switch` of a repository launches it. The launcher has built
    it."""
    file = pathlib.Path(shutil.which(PROGRAM) or PROGRAM).resolve()
    built = file.parent.parent / "crates" / "bg_switch" / "out" / "bg_switch"
    is_launcher = file.read_bytes().startswith(b"#!") and built.exists()
    return str(built if is_launcher else file)


def ask(port: int, clients: int, count: int, mode: Mode) -> None:
    """Clients that send `count` requests each, one after the other."""
    with contextlib.ExitStack() as stack:
        ones = [stack.enter_context(contextlib.closing(client_of(port))) for _ in range(clients)]
        for number in range(count):
            for one in ones:
                one.request("GET", "/")
            if not all([is_well_answered(one, mode) for one in ones]):
                raise MeasurementError(
                    f"request {number} was not answered in the mode {mode.value}"
                )


class Run(NamedTuple):
    """What is counted: a mode of the switch with its flags, and the number of clients."""

    mode: Mode
    flags: Sequence[str]
    clients: int


def counted(tool: Tool, place: Place, run: Run, requests: int) -> int:
    """What a tool counts while each client gets answers to `requests` requests."""
    words = [*tool.words, program_file()]
    with running_switch(words, place, (*CONCURRENCY, *run.flags)) as switch:
        ask(place.port, run.clients, requests, run.mode)
        switch.quit()
    return tool.count_in((place.folder / COUNTED).read_text(encoding="utf-8"))


def between(counts: Sequence[int], clients: int) -> float:
    """The cost of a request, by the counts of the two runs with so many clients."""
    few, many = counts
    return (many - few) / (clients * (REQUESTS[1] - REQUESTS[0]))


def cost_of_request(tool: Tool, place: Place, run: Run) -> float:
    """What a request costs in a run."""
    counts = [counted(tool, place, run, requests) for requests in REQUESTS]
    return between(counts, run.clients)
