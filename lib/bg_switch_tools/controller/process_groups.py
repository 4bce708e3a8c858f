"""Commands that run in a session of their own, so that they end together with what they have
started (setsid(2), kill(2))."""
import contextlib
import dataclasses
import os
import signal
import subprocess
import threading
import time
from collections.abc import Mapping, Sequence

TO_STDERR = (
    2  # the descriptor that a command prints to, since the log alone stands on standard output
)
LOOK = 0.02  # seconds between two looks at whether a group has ended
# places in /proc/PID/stat behind the name of the program (proc(5): fields 6 and 22)
SESSION, START_TIME = (3, 19)


@dataclasses.dataclass(frozen=True)
class ProcessId:
    """A process by its number, and its start in clock ticks since the system's: a number is given
    again, the two are not."""

    pid: int
    start: int


def _stat(pid: int) -> list[str] | None:
    """The fields of /proc/PID/stat from the state on, or None if the process is not there, or has
    ended."""
    try:
        with open(f"/proc/{pid}/stat", "rb") as file:
            fields = file.read().rpartition(b")")[2].decode("ascii", "replace").split()
    except OSError:
        return None
    return None if len(fields) <= START_TIME or fields[0] in "ZX" else fields


def identity(pid: int) -> ProcessId | None:
    """The process of this number, if one runs."""
    fields = _stat(pid)
    return None if fields is None else ProcessId(pid, int(fields[START_TIME]))


def members(session: int) -> list[int]:
    """The processes of a session that have not ended."""
    pids = [int(name) for name in os.listdir("/proc") if name.isdigit()]
    return [pid for pid in pids if (fields := _stat(pid)) and fields[SESSION] == str(session)]


def is_running(process: ProcessId) -> bool:
    """Whether the process itself runs."""
    return identity(process.pid) == process


def has_members(process: ProcessId) -> bool:
    """Whether the leader of a session, or a process that it has left behind, runs. A number stands
    for the session for as long as a member of it runs, so another process that has the number tells
    that the session is over.
    """
    found = identity(process.pid)
    return found == process if found else bool(members(process.pid))


def _signal(group: int, number: int) -> None:
    with contextlib.suppress(ProcessLookupError, PermissionError):
        os.killpg(group, number)


def end_session(process: ProcessId, grace: float) -> None:
    """Sends SIGTERM to a session, and after `grace` seconds SIGKILL to what is left of it. Returns
    once that is sent."""
    if not has_members(process):
        return
    _signal(process.pid, signal.SIGTERM)
    deadline = time.monotonic() + grace
    while members(process.pid) and time.monotonic() < deadline:
        time.sleep(LOOK)
    if members(process.pid):
        _signal(process.pid, signal.SIGKILL)


def begin_end(process: ProcessId, grace: float) -> threading.Thread:
    """The same in a thread, which has ended once the session has."""
    thread = threading.Thread(target=end_session, args=(process, grace), daemon=True)
    thread.start()
    return thread


class Group:
    """A command that runs as the leader of a session. Its number stays its own up to `reap` or the
    end of `stop`."""

    def __init__(
        self,
        command: Sequence[str],
        folder: str,
        variables: Mapping[str, str],
        output: int = TO_STDERR,
    ) -> None:
        """Starts it in a folder; it prints to this descriptor. `OSError` or `ValueError` if it
        can't be run."""
        self.process = subprocess.Popen(
            command,
            cwd=folder,
            env={**os.environ, **variables},
            stdin=subprocess.DEVNULL,
            stdout=output,
            stderr=output,
            start_new_session=True,
        )
        fields = _stat(self.process.pid)
        self.id = ProcessId(self.process.pid, int(fields[START_TIME]) if fields else 0)

    def status(self) -> int | None:
        """The exit status, the signal below 0, or None while the command runs. The process is not
        reaped."""
        if self.process.returncode is not None:
            return self.process.returncode
        ended = os.waitid(os.P_PID, self.process.pid, os.WEXITED | os.WNOHANG | os.WNOWAIT)
        if ended is None:
            return None
        return ended.si_status if ended.si_code == os.CLD_EXITED else -ended.si_status

    def reap(self) -> None:
        """Lets the number of a command that has ended go. What it has left behind goes on."""
        self.process.wait()

    def stop(self, grace: float) -> threading.Thread:
        """Ends the command and what it has started: SIGTERM, and after `grace` seconds SIGKILL. The
        thread ends with them."""
        thread = threading.Thread(target=self._stop, args=(grace,), daemon=True)
        thread.start()
        return thread

    def _stop(self, grace: float) -> None:
        _signal(self.process.pid, signal.SIGTERM)
        deadline = time.monotonic() + grace
        while members(self.process.pid) and time.monotonic() < deadline:
            time.sleep(LOOK)
        _signal(self.process.pid, signal.SIGKILL)
        self.reap()
