"""What the tests of whole tools share: endpoints, plans, and runs of bin/controller and
bin/operator before a fake switch."""
import contextlib
import io
import os
import pathlib
import signal
import socket
import subprocess
import sys
import threading
import time
import unittest
from collections.abc import Callable, Iterator, Sequence
from unittest import mock

from support import checks, endpoints
from support.clients import send_in_pieces
from support.messages import response
from support.plans import Plan
from support.processes import Run, run_to_end
from tests.fake_port import free_port
from tests.fake_journal import FakeJournal
from tests.fake_switch import FakeSwitch

TOP = pathlib.Path(__file__).resolve().parents[1]
# other tools can be tried in their place
TOOLS = pathlib.Path(os.environ.get("BG_SWITCH_TOOLS", str(TOP / "bin")))
WAIT = 120.0  # seconds for which anything is awaited, on a busy machine too


def comes(holds: Callable[[], object], longest: float = WAIT) -> bool:
    """Whether this holds within `longest` seconds."""
    return checks.comes(holds, longest)


class Endpoint(endpoints.Endpoint):
    """Answers each connection with a response in pieces, with a pause between them."""

    def __init__(self) -> None:
        self.pieces: Sequence[bytes] = [response(b"ok")]
        self.pause = 0.0
        # a test that stops it may start it again
        super().__init__(self.give, free_port())

    def give(self, _: endpoints.Request, connection: socket.socket) -> None:
        send_in_pieces(connection, self.pieces, self.pause)

    def trickle(self) -> None:
        """From now on it sends a byte of its response every half second."""
        whole = response(b"x" * 9999)
        self.pieces, self.pause = [bytes([byte]) for byte in whole], 0.5


def plan_of(folder: str, control: int) -> Plan:
    """A plan whose probes are fast. None takes too long on a slow machine: an endpoint that is down
    refuses its connection."""
    return Plan(folder, control, health={"interval": 0.1, "timeout": WAIT, "failures": 2})


class ControllerRun:
    """A running bin/controller, whose log is read as it comes."""

    def __init__(
        self, words: Sequence[str], program: Sequence[str] = (str(TOOLS / "controller"),)
    ) -> None:
        self.log: list[str] = []
        self.told = ""
        self.process = subprocess.Popen(
            [*program, *words],
            stdin=subprocess.DEVNULL,
            stdout=subprocess.PIPE,
            stderr=subprocess.PIPE,
            text=True,
        )
        self.thread = threading.Thread(target=self._read, daemon=True)
        self.thread.start()

    def _read(self) -> None:
        assert self.process.stdout is not None
        for line in self.process.stdout:
            self.log.append(line.rstrip("\n"))

    def says(self, *words: str, longest: float = WAIT) -> bool:
        """Whether a line of the log that has all of these words comes in time."""
        return comes(lambda: self.count(*words) > 0, longest)

    def count(self, *words: str) -> int:
        return sum(all(word in line for word in words) for line in list(self.log))

    def signal(self, number: int) -> tuple[int | None, float]:
        """Sends a signal. Gives the status, None if it doesn't end, and after how many seconds it
        came."""
        begun = time.monotonic()
        self.process.send_signal(number)
        try:
            status: int | None = self.process.wait(WAIT)
        except subprocess.TimeoutExpired:
            status = None
        return status, time.monotonic() - begun

    def kill(self) -> None:
        """Ends it as a crash does."""
        self.process.kill()
        self.process.wait(WAIT)

    def end(self) -> Run:
        """Ends it, and gives what it has told."""
        if self.process.poll() is None:
            self.process.send_signal(signal.SIGTERM)
        return self.wait()

    def wait(self) -> Run:
        """Waits for its end."""
        assert self.process.stderr is not None and self.process.stdout is not None
        try:
            self.process.wait(WAIT)
        except subprocess.TimeoutExpired:
            self.kill()
        self.thread.join(WAIT)
        if not self.process.stderr.closed:
            self.told = self.process.stderr.read()
            self.process.stderr.close()
            self.process.stdout.close()
        return Run("\n".join(self.log), self.told, self.process.returncode)


@contextlib.contextmanager
def controlling(plan: Plan, *words: str) -> Iterator[ControllerRun]:
    """A run of bin/controller, which is ended whatever happens."""
    run = ControllerRun([*words, plan.path])
    try:
        yield run
    finally:
        run.kill()
        run.wait()


def with_fast_clock(factor: int, path: str, *words: str) -> list[str]:
    """The words of a run of a Python program whose monotonic clock goes `factor` times faster."""
    code = (
        "import sys, time, runpy; real = time.monotonic; "
        f"time.monotonic = lambda: real() * {factor}; sys.argv = {[path, *words]!r}; "
        f"runpy.run_path({path!r}, run_name='__main__')"
    )
    return [sys.executable, "-B", "-c", code]


def run_in_process(
    main: Callable[[Sequence[str]], int], *words: str, lines: str = "", **variables: str
) -> Run:
    """A run of a tool in this process, with these lines as its standard input. No variable of the
    tools is set but for these."""
    printed, told = io.StringIO(), io.StringIO()
    others = {name: value for name, value in os.environ.items() if not name.startswith("BG_")}
    with contextlib.redirect_stdout(printed), contextlib.redirect_stderr(told), mock.patch(
        "sys.stdin", io.TextIOWrapper(io.BytesIO(lines.encode()))
    ), mock.patch.dict(os.environ, {**others, **variables}, clear=True):
        try:
            status = main(words)
        except SystemExit as ended:
            status = int(str(ended.code))
    return Run(printed.getvalue(), told.getvalue(), status)


class WithBook(unittest.TestCase):
    """A switch whose book is open with web-v1."""

    journal: FakeJournal | None = None

    def setUp(self) -> None:
        self.switch = FakeSwitch("pause", journal=self.journal)
        self.addCleanup(self.switch.kill)
        self.by_hand("open web-v1 1 2", "available 1 2")

    def by_hand(self, *lines: str) -> None:
        for line in lines:
            self.switch.book.answer(line)


class WithJournal(WithBook):
    """The same with a journal, which fails once a test wants it."""

    def setUp(self) -> None:
        self.failing = self.journal = FakeJournal()
        super().setUp()


def operator(port: int, *words: str, lines: str = "") -> Run:
    """A run of bin/operator."""
    return run_to_end([str(TOOLS / "operator"), str(port), *words], lines, WAIT)
