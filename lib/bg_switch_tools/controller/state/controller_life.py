"""Whether a controller runs a plan: by its lock, and by the time at which it has last touched the
file of the lock."""
import enum
import fcntl
import os
import time
from typing import NamedTuple

from bg_switch_tools.controller.state.state_file import LOCK, SUFFIX

STALE = (
    30.0  # seconds without a touch after which a controller hangs: the longest round takes eleven
)


class Life(enum.Enum):
    UP = "up"
    HANGS = "hangs"
    DOWN = "down"
    UNKNOWN = "unknown"


class ControllerLife(NamedTuple):
    """How a controller lives. `text` says what is wrong; empty if nothing is."""

    life: Life
    text: str = ""

    @property
    def is_wrong(self) -> bool:
        """Whether it is known that no controller acts."""
        return self.life in (Life.DOWN, Life.HANGS)


def _is_locked(descriptor: int) -> bool:
    """Whether a controller has the lock. A controller that starts just then waits for the lock of
    this look."""
    try:
        fcntl.flock(descriptor, fcntl.LOCK_SH | fcntl.LOCK_NB)
    except BlockingIOError:
        return True
    fcntl.flock(descriptor, fcntl.LOCK_UN)
    return False


def life_of(plan_path: str) -> ControllerLife:
    """How the controller of a plan lives."""
    down = ControllerLife(Life.DOWN, f"no controller runs the plan {plan_path}")
    path = plan_path + SUFFIX + LOCK
    try:
        descriptor = os.open(path, os.O_RDONLY | os.O_CLOEXEC)
    except FileNotFoundError:
        return down
    except OSError as error:
        return ControllerLife(
            Life.UNKNOWN,
            f"whether a controller runs is not known: {path} can't be read: {error.strerror}",
        )
    try:
        if not _is_locked(descriptor):
            return down
        age = time.time() - os.fstat(descriptor).st_mtime
    finally:
        os.close(descriptor)
    if abs(age) < STALE:
        return ControllerLife(Life.UP)
    return ControllerLife(
        Life.HANGS,
        f"the controller of the plan {plan_path} hangs: its last round was {age:.0f} seconds ago",
    )
