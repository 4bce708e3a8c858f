"""The file of a history: lines of JSON that are only ever added, and a bound."""
import os

from bg_switch_tools.controller.history.attempts import Attempts, Event, read_event
from bg_switch_tools.controller.state.state_file import SUFFIX

HISTORY, OLDER = ".history", ".1"
MOST_BYTES = 1 << 20  # of one file, some 8,000 events; with the older one at most twice as much


class HistoryFile:
    """`PLAN.state.history`. A file that would grow above `MOST_BYTES` becomes
    `PLAN.state.history.1`, in the place of the one before. So the latest `MOST_BYTES` are always
    kept."""

    def __init__(self, plan_path: str) -> None:
        self.path = plan_path + SUFFIX + HISTORY
        self.older = self.path + OLDER

    def append(self, event: Event) -> None:
        """Adds an event. `OSError` if the file can't be written."""
        line = event.line()
        descriptor = self._opened(len(line) + 1)
        try:
            whole = line if self._ends_in_line(descriptor) else b"\n" + line
            os.write(descriptor, whole)
            os.fsync(descriptor)
        finally:
            os.close(descriptor)

    def _opened(self, more: int) -> int:
        """The file, opened to add `more` bytes."""
        try:
            if os.stat(self.path).st_size + more > MOST_BYTES:
                os.replace(self.path, self.older)
        except FileNotFoundError:
            pass
        return os.open(self.path, os.O_RDWR | os.O_APPEND | os.O_CREAT | os.O_CLOEXEC, 0o644)

    @staticmethod
    def _ends_in_line(descriptor: int) -> bool:
        """Whether the last line is whole: a full disk or a crash may have cut it."""
        size = os.fstat(descriptor).st_size
        return size == 0 or os.pread(descriptor, 1, size - 1) == b"\n"

    def read(self) -> tuple[Attempts, int]:
        """The attempts, and how many lines can't be read. `OSError` if a file can't be read."""
        attempts, unreadable = Attempts(), 0
        for line in (line for path in (self.older, self.path) for line in self._lines(path)):
            event = read_event(line)
            if event:
                attempts.take(event)
            else:
                unreadable += 1
        return attempts, unreadable

    @staticmethod
    def _lines(path: str) -> list[bytes]:
        try:
            with open(path, "rb") as file:
                return [line for line in file.read(MOST_BYTES).split(b"\n") if line]
        except FileNotFoundError:
            return []
