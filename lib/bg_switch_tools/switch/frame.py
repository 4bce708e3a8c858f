"""The frame in which the main function of each tool runs: what prevents a run is told in a sentence,
and each end has its exit status."""
import contextlib
import dataclasses
import os
import signal
import sys
import time
from collections.abc import Callable, Mapping
from types import FrameType

REFUSED = 1  # the exit status if the input or the output fails
INTERRUPTED = 130  # that after ctrl-C, as a shell has it
LOOK = 0.05  # seconds between two looks at whether a signal has come


@dataclasses.dataclass(frozen=True)
class End:
    """How a run ends that an exception prevents: its exit status, and what is told of the
    exception, which is its text by default."""

    status: int
    text: Callable[[Exception], str] = str


def list_of(title: str, problems: list[str]) -> str:
    """A title, and below it a line for each problem."""
    return "\n".join([title, *(f"  {problem}" for problem in problems)])


@dataclasses.dataclass(frozen=True)
class Frame:
    """The frame of a tool. What it tells on standard error begins with its name. `ends` has each
    exception that may prevent a run. Ctrl-C ends the line that is being written, unless the output
    has nothing but whole lines."""

    tool: str
    ends: Mapping[type[Exception], End] = dataclasses.field(default_factory=dict)
    has_whole_lines: bool = False

    def tell(self, text: str) -> None:
        """Writes a line to standard error."""
        print(f"{self.tool}: {text}", file=sys.stderr, flush=True)

    def run(self, command: Callable[[], int]) -> int:
        """Runs, and gives the exit status."""
        try:
            status = command()
            sys.stdout.flush()
            return status
        except tuple(self.ends) as reason:
            end = next(end for kind, end in self.ends.items() if isinstance(reason, kind))
            self.tell(end.text(reason))
            return end.status
        except KeyboardInterrupt:
            if not self.has_whole_lines:
                print()
            return INTERRUPTED
        except OSError as error:
            self._tell_failure(error)
            return REFUSED

    def _tell_failure(self, error: OSError) -> None:
        """Tells which file fails. An output that nobody reads any more is no news; what is left of
        it is dropped."""
        if error.filename is not None:
            self.tell(f"{error.filename}: {error.strerror}")
            return
        if not isinstance(error, BrokenPipeError):
            self.tell(f"the input or the output fails: {error.strerror}")
        with contextlib.suppress(OSError):  # an output that is no file
            os.dup2(os.open(os.devnull, os.O_WRONLY), sys.stdout.fileno())


class Signals:
    """Notes SIGTERM and ctrl-C from now on, in place of their usual effect."""

    def __init__(self) -> None:
        self.numbers: list[int] = []
        for number in (signal.SIGTERM, signal.SIGINT):
            signal.signal(number, self._note)

    def _note(self, number: int, _: FrameType | None) -> None:
        self.numbers.append(number)

    def wait_while(self, goes_on: Callable[[], bool]) -> None:
        """Waits for a signal, as long as this goes on."""
        while goes_on() and not self.numbers:
            time.sleep(LOOK)
