"""The processor time of all threads of a proxy."""
import contextlib
import pathlib
from collections.abc import Iterator, Mapping

from support.peers import MeasurementError

PROCESSES = pathlib.Path("/proc")


def parents() -> Iterator[tuple[int, int]]:
    """Each process that runs, with the one that has started it."""
    for folder in PROCESSES.iterdir():
        if folder.name.isdecimal():
            with contextlib.suppress(OSError):
                # the name of the program, in brackets, may have spaces and brackets
                told = (folder / "stat").read_text(encoding="utf-8", errors="replace")
                yield int(folder.name), int(told.rpartition(")")[2].split()[1])


def family(process: int) -> set[int]:
    """A process, and those that it or one of these has started."""
    all_parents = dict(parents())
    found = {process}
    while more := {one for one, parent in all_parents.items() if parent in found} - found:
        found |= more
    return found


def threads_of(process: int) -> list[pathlib.Path]:
    """The folders of the threads of a process; none once it has ended."""
    with contextlib.suppress(OSError):
        return list((PROCESSES / str(process) / "task").iterdir())
    return []


def thread_times(process: int) -> dict[int, int]:
    """For how many nanoseconds each thread of a family has run, by the number of the thread.
    `MeasurementError` if none runs."""
    times = {}
    for thread in (one for member in family(process) for one in threads_of(member)):
        with contextlib.suppress(OSError):
            told = (thread / "schedstat").read_text(encoding="ascii")
            times[int(thread.name)] = int(told.split()[0])
    if not times:
        raise MeasurementError(f"the process {process} has ended")
    return times


def microseconds_between(before: Mapping[int, int], after: Mapping[int, int]) -> float:
    """For how long the threads that run now have run since. A thread that is new counts from its
    start; one that has ended does not count."""
    return sum(spent - before.get(thread, 0) for thread, spent in after.items()) / 1000
