"""The programs of a drill: each is started, killed, stopped, woken, and ended with the drill."""
import contextlib
import json
import os
import pathlib
import signal
import subprocess
import threading
from collections.abc import Sequence
from typing import IO

from support import TOP, processes
from support.moments import moment

LONGEST = 10  # seconds that a program has to end by itself
# What of the drill runs in processes of its own finds this package and that of the tools.
PATHS = {
    "PYTHONPATH": os.pathsep.join((str(TOP / "scripts"), str(TOP / "lib"), str(TOP))),
    "PYTHONDONTWRITEBYTECODE": "1",
}


class Programs:
    """Programs by their names. What each prints is kept in a file of the folder."""

    def __init__(self, folder: pathlib.Path) -> None:
        self.folder = folder
        self.running: dict[str, subprocess.Popen[bytes]] = {}
        self.stopped: set[str] = set()
        # what has ended by itself, with its status, before it was killed
        self.ended: list[str] = []

    def start(
        self,
        name: str,
        words: Sequence[str],
        *,
        output: str = "",
        given: bytes = b"",
        is_timed: bool = False,
    ) -> None:
        """Starts a program with this standard input. Its output goes to a file, `NAME.log` if none
        is named; with `is_timed`, each line as an object of JSON with the moment at which it came.
        `ValueError` if one of this name runs.
        """
        if name in self.running:
            raise ValueError(f"{name} runs already")
        with contextlib.ExitStack() as stack:
            out = stack.enter_context(open(self.folder / (output or f"{name}.log"), "ab"))
            told = stack.enter_context(open(self.folder / f"{name}.err", "ab"))
            process = subprocess.Popen(
                words,
                stdin=subprocess.PIPE,
                stdout=subprocess.PIPE if is_timed else out,
                stderr=told,
                cwd=self.folder,
                env={**os.environ, **PATHS},
                start_new_session=True,
            )
            if process.stdin:
                with contextlib.suppress(BrokenPipeError), process.stdin:
                    process.stdin.write(given)
        self.running[name] = process
        if is_timed and process.stdout:
            threading.Thread(
                target=self._keep_lines, args=(process.stdout, output or f"{name}.log"), daemon=True
            ).start()

    def _keep_lines(self, out: IO[bytes], name: str) -> None:
        with open(self.folder / name, "a", encoding="utf-8") as file, out:
            for line in out:
                file.write(
                    json.dumps(
                        {
                            "moment": moment(),
                            "line": line.decode("utf-8", "replace").rstrip("\n"),
                        }
                    )
                    + "\n"
                )
                file.flush()

    def is_running(self, name: str) -> bool:
        return name in self.running and self.running[name].poll() is None

    def kill(self, name: str) -> None:
        """Ends a program and what it has started as a crash does. Does nothing if it does not
        run."""
        if self._is_there(name):
            self._remove(name)

    def _is_there(self, name: str) -> bool:
        """Whether a program was started and not ended since. It is noted if it has ended by
        itself."""
        process = self.running.get(name)
        if process and process.poll() is not None:
            self.ended.append(f"{name}: status {process.returncode}")
        return process is not None

    def _remove(self, name: str) -> int:
        process = self.running.pop(name)
        self.stopped.discard(name)
        with contextlib.suppress(ProcessLookupError):
            os.killpg(process.pid, signal.SIGKILL)
        return process.wait(LONGEST)

    def failures(self) -> list[str]:
        """What has ended by itself, and what has told of an exception that nobody expected: a line
        each. A drill has none."""
        found = [
            f"{name}: status {process.returncode}"
            for name, process in self.running.items()
            if process.poll() is not None
        ]
        told = [
            path.name
            for path in sorted(self.folder.glob("*.err"))
            if b"Traceback" in path.read_bytes()
        ]
        return [*self.ended, *found, *(f"{name} has a traceback" for name in told)]

    def stop(self, name: str) -> None:
        """Stops a program as by SIGSTOP, until `wake`."""
        processes.pause(self.running[name].pid)
        self.stopped.add(name)

    def wake(self, name: str) -> None:
        if name in self.stopped and name in self.running:
            self.running[name].send_signal(signal.SIGCONT)
        self.stopped.discard(name)

    def end(self, name: str, number: int = signal.SIGTERM) -> int | None:
        """Ends a program by a signal, and kills it if that takes too long. Gives its status; None
        if it did not run."""
        self.wake(name)
        if not self._is_there(name):
            return None
        process = self.running[name]
        process.send_signal(number)
        with contextlib.suppress(subprocess.TimeoutExpired):
            process.wait(LONGEST)
        return self._remove(name)

    def end_all(self, first: Sequence[str] = ()) -> None:
        """Ends all programs: those that are named first, and the others at once."""
        for name in [*first, *self.running]:
            if name in first:
                self.end(name)
            else:
                self.kill(name)
