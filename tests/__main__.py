"""Runs all tests, a process for each class, several at once, since they mostly wait: python3 -m
tests

The modules are imported once, and the process of a class is a copy of this one. So no class meets
variables of the environment, handlers of signals or threads of another. What a class has started
ends with it."""
import contextlib
import dataclasses
import faulthandler
import gc
import itertools
import multiprocessing
import os
import pathlib
import signal
import sys
import tempfile
import time
import unittest
from collections.abc import Iterator
from multiprocessing.connection import Connection, wait
from multiprocessing.context import ForkProcess
from typing import IO

from support.pace import widened

AT_ONCE = 10
LONGEST = 300.0  # seconds for one class, on a machine that is free
LOOK = 0.5  # seconds between two looks at the clock
TELLING = 1.0  # seconds for what a class tells that has taken too long
FORK = multiprocessing.get_context("fork")


def tests_of(suite: unittest.TestSuite) -> Iterator[unittest.TestCase]:
    """The tests of a suite, in their order."""
    for one in suite:
        if isinstance(one, unittest.TestSuite):
            yield from tests_of(one)
        else:
            yield one


def class_of(test: unittest.TestCase) -> str:
    return f"{type(test).__module__}.{type(test).__qualname__}"


def classes(suite: unittest.TestSuite) -> dict[str, unittest.TestSuite]:
    """The tests of each class of a suite, by the name of the class."""
    grouped = itertools.groupby(sorted(tests_of(suite), key=class_of), class_of)
    return {name: unittest.TestSuite(tests) for name, tests in grouped}


def run_class(tests: unittest.TestSuite, told: int, outcome: Connection) -> None:
    """Runs the tests of a class in the process of the class, which gets a session of its own."""
    os.setsid()
    signal.signal(signal.SIGTERM, signal.SIG_DFL)
    for stream in (sys.stdout, sys.stderr):
        os.dup2(told, stream.fileno())
    faulthandler.register(signal.SIGUSR1)
    result = unittest.TextTestRunner().run(tests)
    outcome.send((result.testsRun, result.wasSuccessful()))


def started_by(process: int) -> list[int]:
    """The processes that a process has started and that still run, and those that these have
    started."""
    found = []
    for path in pathlib.Path(f"/proc/{process}/task").glob("*/children"):
        with contextlib.suppress(OSError):
            for child in map(int, path.read_text(encoding="ascii").split()):
                found += [child, *started_by(child)]
    return found


@dataclasses.dataclass
class ClassRun:
    """The run of a class. What it tells goes to a file, since a process that it has left behind
    would keep a pipe open."""

    name: str
    process: ForkProcess
    told: IO[bytes]
    outcome: Connection
    begun: float

    def has_ended(self) -> bool:
        """Whether it has ended. One that has taken too long is ended."""
        if (
            self.process.is_alive()
            and time.monotonic() > self.begun + LONGEST
            and time.monotonic() > self.begun + (longest := widened(LONGEST))
        ):
            os.kill(self.process.pid or 0, signal.SIGUSR1)
            self.process.join(TELLING)
            self.end()
            self.told.write(f"{self.name} has not ended after {longest:.0f} seconds\n".encode())
        return not self.process.is_alive()

    def end(self) -> None:
        """Ends its process, and all that this has started."""
        assert self.process.pid
        for process in (*started_by(self.process.pid), self.process.pid):
            with contextlib.suppress(ProcessLookupError):
                os.kill(process, signal.SIGKILL)
        self.process.join()

    def result(self) -> "Result":
        """What came of a class that has ended."""
        with contextlib.suppress(ProcessLookupError):
            os.killpg(self.process.pid or 0, signal.SIGKILL)
        self.told.seek(0)
        try:
            count, has_passed = self.outcome.recv() if self.outcome.poll() else (0, False)
        except EOFError:
            count, has_passed = 0, False
        return Result(
            count,
            has_passed and self.process.exitcode == 0,
            self.told.read().decode(errors="replace"),
        )


@dataclasses.dataclass
class Result:
    """How many tests of a class were run, whether all have passed, and what they have told."""

    count: int
    has_passed: bool
    told: str


def start(name: str, tests: unittest.TestSuite) -> ClassRun:
    told = tempfile.TemporaryFile()
    outcome, of_class = FORK.Pipe(duplex=False)
    process = FORK.Process(target=run_class, args=(tests, told.fileno(), of_class))
    process.start()
    of_class.close()
    return ClassRun(name, process, told, outcome, time.monotonic())


def results(suites: dict[str, unittest.TestSuite]) -> Iterator[tuple[str, Result]]:
    """Runs the classes, and gives what came of each as soon as it has ended."""
    left = list(suites.items())
    running: list[ClassRun] = []
    try:
        while left or running:
            while left and len(running) < AT_ONCE:
                running.append(start(*left.pop(0)))
            wait([run.process.sentinel for run in running], LOOK)
            ended = [run for run in running if run.has_ended()]
            running = [run for run in running if run not in ended]
            yield from ((run.name, run.result()) for run in ended)
    finally:
        for run in running:
            run.end()


def main(folder: str = "tests", top: str = ".") -> int:
    signal.signal(signal.SIGTERM, signal.default_int_handler)
    suites = classes(unittest.defaultTestLoader.discover(folder, top_level_dir=top))
    gc.freeze()
    count, failed = 0, 0
    for name, result in results(suites):
        count += result.count
        if not result.has_passed:
            failed += 1
            print(f"{name}:\n{result.told}", flush=True)
    print(f"tests of the tools: {count} in {len(suites)} classes, of which {failed} failed")
    return 1 if failed or not suites else 0


if __name__ == "__main__":
    sys.exit(main())
