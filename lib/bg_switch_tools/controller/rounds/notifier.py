"""Tells a command of each event, beside the rollout, which waits for none of them."""
import contextlib
import json
import os
import queue
import signal
import subprocess
import threading
import time
from collections.abc import Mapping

from bg_switch_tools.controller.log import Log
from bg_switch_tools.controller.plan.plan import Commands
from bg_switch_tools.controller.process_groups import LOOK, TO_STDERR

MOST_AT_ONCE = 4
MOST_PENDING = 256  # events; a later one is dropped
GRACE = 2.0  # seconds between SIGTERM and SIGKILL
MINUTE = 60.0  # seconds between two lines of the log that tell of failures
LAST_WAIT = 0.5  # seconds that the events that wait have when the controller ends
LAST_JOIN = 0.2  # seconds after that for the threads


class Notifier:
    """Runs the plan's command `notify` for each event: a line of the log as an object of JSON, on
    standard input."""

    def __init__(self, folder: str, log: Log, commands: Commands) -> None:
        self.folder = folder
        self.log = log
        self.commands = commands
        self.events: "queue.Queue[bytes | None]" = queue.Queue(MOST_PENDING)  # None ends a thread
        self.lock = threading.Lock()
        self.failures, self.next_told, self.number = 0, 0.0, 0
        self.is_ending = False  # whether no further command may be run
        self.processes: set["subprocess.Popen[bytes]"] = set()
        self.threads: list[threading.Thread] = []

    def take(self, event: Mapping[str, object]) -> None:
        """Takes an event, and returns at once. `number` counts the events, since a later one can be
        told before."""
        if not self.commands.notify:
            return
        while len(self.threads) < MOST_AT_ONCE:
            self.threads.append(threading.Thread(target=self._work, daemon=True))
            self.threads[-1].start()
        self.number += 1
        try:
            self.events.put_nowait(
                (json.dumps({"number": self.number, **event}) + "\n").encode("ascii")
            )
        except queue.Full:
            self._fail("too many events wait")

    def _work(self) -> None:
        while (event := self.events.get()) is not None:
            try:
                self._run(event)
            except (OSError, ValueError) as error:
                self._fail(f"it can't be run: {error}")
            self.events.task_done()

    def _run(self, event: bytes) -> None:
        """Runs the command for an event, up to its end or the timeout."""
        timeout = self.commands.timeout
        with self.lock:
            if self.is_ending:
                return
            process = subprocess.Popen(
                self.commands.notify,
                cwd=self.folder,
                stdin=subprocess.PIPE,
                stdout=TO_STDERR,
                start_new_session=True,
            )
            self.processes.add(process)
        try:
            process.communicate(event, timeout)
        except subprocess.TimeoutExpired:
            self._end(process)
            self._fail(f"it has not ended after {timeout:g} seconds")
            return
        finally:
            with self.lock:
                self.processes.discard(process)
        if process.returncode != 0:
            self._fail(f"its exit status is {process.returncode}")

    @staticmethod
    def _end(process: "subprocess.Popen[bytes]") -> None:
        """Ends a command that took too long, with what it has started. It is reaped last, so that
        its number stays its own."""
        for number, seconds in ((signal.SIGTERM, GRACE), (signal.SIGKILL, 0.0)):
            with contextlib.suppress(ProcessLookupError, PermissionError):
                os.killpg(process.pid, number)
            deadline = time.monotonic() + seconds
            while time.monotonic() < deadline and not os.waitid(
                os.P_PID, process.pid, os.WEXITED | os.WNOHANG | os.WNOWAIT
            ):
                time.sleep(LOOK)
        process.wait()
        if process.stdin:
            with contextlib.suppress(OSError):
                process.stdin.close()

    def _fail(self, why: str) -> None:
        """Tells of failures at most once a minute. The line itself is no event."""
        with self.lock:
            self.failures += 1
            count, is_due = self.failures, time.monotonic() >= self.next_told
            if is_due:
                self.failures, self.next_told = 0, time.monotonic() + MINUTE
        if is_due:
            self.log.say_beside(
                "command", f"notify has failed, {count} times since it was told: {why}"
            )

    def end(self) -> None:
        """Leaves the events that wait a moment, and ends the commands that still run then."""
        deadline = time.monotonic() + LAST_WAIT
        while self.events.unfinished_tasks and time.monotonic() < deadline:
            time.sleep(LOOK)
        with self.lock:
            self.is_ending = True
            for process in self.processes:
                with contextlib.suppress(ProcessLookupError, PermissionError):
                    os.killpg(process.pid, signal.SIGKILL)
        self._end_threads()

    def _end_threads(self) -> None:
        """Drops the events that still wait, and waits for the threads for a moment."""
        with contextlib.suppress(queue.Empty):
            while True:
                self.events.get_nowait()
        for _ in self.threads:
            self.events.put(None)
        deadline = time.monotonic() + LAST_JOIN
        for thread in self.threads:
            thread.join(max(deadline - time.monotonic(), 0))
