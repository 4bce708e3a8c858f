"""The lock of a plan's edits: two at a time would lose one of them."""
import fcntl
import os
import time
from types import TracebackType

from bg_switch_tools.controller.state.state_file import SUFFIX

LOCK = ".edit.lock"
LONGEST = 10.0  # seconds for which the edit before is waited for
PAUSE = 0.05  # seconds between two tries


class EditInProgressError(OSError):
    """Another edit has not ended in time."""


class EditLock:
    """Holds the lock (flock(2)) of `PLAN.state.edit.lock` in a `with` block. The system lets it go
    when the process ends."""

    def __init__(self, plan_path: str, longest: float = LONGEST) -> None:
        self.path = plan_path + SUFFIX + LOCK
        self.longest = longest
        self.descriptor = -1

    def __enter__(self) -> None:
        """Waits for the lock. `EditInProgressError` after `longest` seconds; `OSError` if the
        folder takes no file."""
        # a lock needs no right to write
        self.descriptor = os.open(self.path, os.O_RDONLY | os.O_CREAT | os.O_CLOEXEC, 0o644)
        deadline = time.monotonic() + self.longest
        while not self._is_taken():
            if time.monotonic() >= deadline:
                self._release()
                raise EditInProgressError(
                    0, f"another edit has had the lock {self.path} for {self.longest:g} seconds"
                )
            time.sleep(PAUSE)

    def _is_taken(self) -> bool:
        try:
            fcntl.flock(self.descriptor, fcntl.LOCK_EX | fcntl.LOCK_NB)
        except BlockingIOError:
            return False
        return True

    def _release(self) -> None:
        os.close(self.descriptor)
        self.descriptor = -1

    def __exit__(
        self,
        kind: type[BaseException] | None,
        error: BaseException | None,
        trace: TracebackType | None,
    ) -> None:
        self._release()
