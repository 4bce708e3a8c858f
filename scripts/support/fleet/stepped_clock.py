"""A wall clock that a drill steps, by a file with the seconds by which it is off."""
import contextlib
import pathlib
import time
from collections.abc import Callable


def clock_file(folder: pathlib.Path, host: str) -> pathlib.Path:
    """The file of a host; without it the clock is right."""
    return folder / f"clock-{host}"


def stepped(path: pathlib.Path, clock: Callable[[], float] = time.time) -> Callable[[], float]:
    """A clock that is off by the seconds of a file, as long as there is one."""

    def now() -> float:
        with contextlib.suppress(OSError, ValueError):
            return clock() + float(path.read_text(encoding="ascii"))
        return clock()

    return now
