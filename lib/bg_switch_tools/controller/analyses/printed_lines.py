"""What a command prints: it goes on to standard error, and the last lines are kept."""
import collections
import contextlib
import itertools
import os
import threading
import time

from bg_switch_tools.controller.process_groups import TO_STDERR
from bg_switch_tools.controller.state.analysis_results import LONGEST_LINE, MOST_LINES

PIECE = 1 << 16  # bytes of one read, and of a line that is not cut
MOST_LOOKED_AT = 64  # lines of a piece
BREAK = 0.02  # seconds after a whole piece: a command that prints without end leaves the processor to others


def shown(line: bytes) -> str:
    """A line as it is kept: the part that stands last if it was written over, in printable
    characters, and not at any length."""
    parts = [part for part in line.split(b"\r") if part.strip()]
    text = parts[-1][: 4 * LONGEST_LINE].decode("utf-8", "replace") if parts else ""
    return "".join(each if each.isprintable() else " " for each in text).strip()[:LONGEST_LINE]


def last_shown(text: bytes) -> list[str]:
    """The last lines of a text that show something, as they are kept. Not all of its lines are
    looked at: a command may print much."""
    lines = text.rsplit(b"\n", MOST_LOOKED_AT)[-MOST_LOOKED_AT:]
    shown_lines = filter(None, map(shown, reversed(lines)))
    return [*itertools.islice(shown_lines, MOST_LINES)][::-1]


class PrintedLines:
    """Reads a pipe in a thread, up to its end. `prefix` stands before each line on standard error;
    without one, what is printed goes on as it comes."""

    def __init__(self, descriptor: int, prefix: str = "") -> None:
        """Takes the pipe over."""
        self.descriptor = descriptor
        self.prefix = prefix.encode("ascii")
        self.lock = threading.Lock()  # of `kept`
        self.kept: "collections.deque[str]" = collections.deque(maxlen=MOST_LINES)
        self.rest = b""  # a line whose end has not come yet
        self.thread = threading.Thread(target=self._read, daemon=True)
        self.thread.start()

    def last(self) -> tuple[str, ...]:
        with self.lock:
            return tuple(self.kept)

    def settle(self, seconds: float) -> None:
        """Waits until all is read, at most so long: what the command has left behind may hold the
        pipe open."""
        self.thread.join(seconds)

    def _read(self) -> None:
        try:
            while piece := os.read(self.descriptor, PIECE):
                self._take(piece)
                time.sleep(BREAK * len(piece) / PIECE)
            if self.rest:
                self._take(b"\n" if self.prefix else b"", is_end=True)
        finally:
            os.close(self.descriptor)

    def _take(self, piece: bytes, is_end: bool = False) -> None:
        """Takes in what comes next. A line that is longer than a piece counts as several."""
        text, end, self.rest = (self.rest + piece).rpartition(b"\n")
        if self.rest and (is_end or len(self.rest) >= PIECE):
            text, end, self.rest = text + end + self.rest, b"\n", b""
        if end and (last_lines := last_shown(text)):
            with self.lock:
                self.kept.extend(last_lines)
        if not self.prefix:
            self._pass_on(piece)
        elif end:
            self._pass_on(self.prefix + text.replace(b"\n", b"\n" + self.prefix) + b"\n")

    @staticmethod
    def _pass_on(text: bytes) -> None:
        """Writes it to standard error; if nobody takes it, the command goes on all the same."""
        with contextlib.suppress(OSError):
            while text:
                text = text[os.write(TO_STDERR, text) :]
