"""The controller's log: a line of text, or an object of JSON, for each thing that happens."""
import contextlib
import json
import threading
import time
from collections.abc import Callable, Mapping
from typing import TextIO

from bg_switch_tools.switch.lines import Line
from bg_switch_tools.switch.replies import Reply, as_json
from bg_switch_tools.switch.reports import Revision


def local_time(seconds: float | None = None) -> str:
    """The local time with its zone, as ISO 8601 has it: 2026-11-25T18:03:12+01:00. It is that of a
    Unix time, or of now."""
    text = time.strftime("%Y-%m-%dT%H:%M:%S%z", time.localtime(seconds))
    return f"{text[:-2]}:{text[-2:]}"


class Log:
    """Writes the log. `moment` is the moment of the latest report, which each line is given; None
    before the first one."""

    def __init__(self, out: TextIO, as_json: bool) -> None:
        self.out = out
        self.as_json = as_json
        self.moment: int | None = None
        self.lock = threading.Lock()  # of `out`
        self.telling = threading.Lock()  # of `tell`, since several threads of an agent write lines
        # is given each line as an object
        self.tell: Callable[[dict[str, object]], None] | None = None

    def say(self, event: str, text: str) -> None:
        """Writes a line. `event` is its kind, which only JSON shows: plan, switch, state, change,
        analysis, outage, command, fleet, leader, end."""
        self._write(event, text, {})

    def say_result(self, text: str, members: Mapping[str, object]) -> None:
        """Writes the result of an analysis; `members` are what only JSON shows of it."""
        self._write("analysis", text, members)

    def say_reply(self, line: Line, reply: Reply) -> None:
        """Writes an operator's line and its reply."""
        self._write("order", f"{line} => {reply.with_meaning()}", as_json(line, reply))

    def say_beside(self, event: str, text: str) -> None:
        """Writes a line that `tell` is not given. Any thread may call this."""
        self._print(self._object(event, text, {}))

    def _object(self, event: str, text: str, members: Mapping[str, object]) -> dict[str, object]:
        return {
            "time": local_time(),
            "moment": self.moment,
            "event": event,
            "text": text,
            **members,
        }

    def _write(self, event: str, text: str, members: Mapping[str, object]) -> None:
        whole = self._object(event, text, members)
        self._print(whole)
        if self.tell:
            with self.telling:
                self.tell(whole)

    def _print(self, whole: dict[str, object]) -> None:
        moment = "" if whole["moment"] is None else f"moment {whole['moment']}: "
        text = json.dumps(whole) if self.as_json else f"{whole['time']} {moment}{whole['text']}"
        # a log that nobody takes any more ends no controller
        with contextlib.suppress(OSError, ValueError), self.lock:
            print(text, file=self.out, flush=True)


class OncePerRevision:
    """What is told of a revision, and told once. What a revision is told by is its number, so a new
    book begins anew."""

    def __init__(self, log: Log) -> None:
        self.log = log
        self.written: set[tuple[str, int]] = set()

    def say(self, kind: str, revision: Revision, text: str, event: str = "plan") -> None:
        """Writes that this holds of a revision, unless a line of this kind was written for it
        already."""
        if (kind, revision.number) not in self.written:
            self.written.add((kind, revision.number))
            self.log.say(event, f"{revision.title()} {text}")

    def has_said(self, kind: str, revision: Revision) -> bool:
        return (kind, revision.number) in self.written

    def forget(self, kind: str, revision: Revision) -> None:
        """A line of this kind is written for the revision again the next time."""
        self.written.discard((kind, revision.number))

    def clear(self) -> None:
        self.written.clear()
