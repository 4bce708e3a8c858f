"""The access log of a switch: its lines, read into values, and a reader that follows its file.

A line is an object of JSON for each request that ended (docs/DASHBOARD.md has its members), or
`{"time": .., "lost": N}` if N lines could not be written before it.
"""
import datetime
import functools
import json
import operator
import os
import stat
import time
from collections.abc import Callable, Mapping, Sequence
from typing import BinaryIO, NamedTuple

ENDS = ("answered", "refused", "cut", "closed", "read_failed", "write_failed")
CLIENT_SERVICES = ("active", "preview")
LONGEST_LINE = 65536  # bytes; a target is cut at 1,024 before it is escaped
PIECE = 1 << 22  # bytes that are read at a time
READ_ON_SECONDS = 10.0  # seconds for which a file is read on after another one has taken its place
SERVER_ERROR = 500
NO_ENDPOINT = "no_endpoint"  # the reason of a 503 whose service had no available endpoint
CLIENT_GONE = "client_gone"  # the reason of a request whose client had gone before its answer: 499
MOST_TIMES = (
    4096  # texts of times whose seconds are remembered: many lines end within one millisecond
)
# no number of the switch is as large, and each up to it can be counted and written as a float
GREATEST = 1 << 64

TEXT, COUNT, NUMBER, FLAG, NOTHING = (str,), (int,), (int, float), (bool,), type(None)
# The members of a line, each with the types that it can have.
MEMBERS: Mapping[str, tuple[type, ...]] = {
    "service": TEXT,
    "revision": (*COUNT, NOTHING),
    "request": (*COUNT, NOTHING),
    "port": (*COUNT, NOTHING),
    "method": (*TEXT, NOTHING),
    "target": (*TEXT, NOTHING),
    "status": (*COUNT, NOTHING),
    "end": TEXT,
    "reason": (*TEXT, NOTHING),
    "request_bytes": (*COUNT, NOTHING),
    "response_bytes": (*COUNT, NOTHING),
    "duration_ms": NUMBER,
    "upstream_ms": (*NUMBER, NOTHING),
}
# Members that a line need not have.
OPTIONAL: Mapping[str, tuple[type, ...]] = {
    "slot_port": (*COUNT, NOTHING),
    "tries": (*COUNT, NOTHING),
    "idle_connections": (*COUNT, NOTHING),
    "connection_request": (*COUNT, NOTHING),
    "upstream_reused": (*FLAG, NOTHING),
    "request_id": (*TEXT, NOTHING),
    "tunnel": (*TEXT, NOTHING),
}
TYPES = {**MEMBERS, **OPTIONAL}
NUMBERS = frozenset(NUMBER)
REQUIRED = operator.itemgetter(*MEMBERS)


class LogEntryError(ValueError):
    """A line that is not one of an access log."""


class LogEntry(NamedTuple):
    """A request that ended. `time` counts seconds from 1970; `revision` and `request` are numbers
    of the switch; `slot_port` is the port of the request's slot if the endpoint at another one,
    `port`, was dialled; `tries` counts its connects; `idle_connections` counts connections that
    ended before it without having sent a byte, which are no requests. If connections are kept,
    `connection_request` is its number among the requests of its connection, from 1 on, and
    `upstream_reused` whether the connection to its endpoint had carried a request before.
    `request_id` is the id that the endpoint was told. `tunnel` is how the tunnel ended that the
    request became, if it became one.
    """

    time: float
    service: str
    revision: int | None
    request: int | None
    port: int | None
    method: str | None
    target: str | None
    status: int | None
    end: str
    reason: str | None
    request_bytes: int | None
    response_bytes: int | None
    duration_ms: float
    upstream_ms: float | None
    slot_port: int | None = None
    tries: int | None = None
    idle_connections: int | None = None
    connection_request: int | None = None
    upstream_reused: bool | None = None
    request_id: str | None = None
    tunnel: str | None = None

    @property
    def answer_ms(self) -> float | None:
        """How long the answer took: of a tunnel, which may last for days, until its head; None if that
        was never written."""
        return self.duration_ms if self.tunnel is None else self.upstream_ms

    @property
    def is_error(self) -> bool:
        """Whether the client got a status from 500 on, or no answer. A response that was cut off has
        the status of the refusal that its client would have got before. A client that had gone
        before its answer is no error."""
        return self.status is None or self.status >= SERVER_ERROR

    @property
    def has_client_gone(self) -> bool:
        """Whether its client had gone before its answer."""
        return self.reason == CLIENT_GONE

    @property
    def is_without_endpoint(self) -> bool:
        """Whether it was refused since the revision that its service selects had no available
        endpoint: it names none."""
        return self.revision is None and self.reason == NO_ENDPOINT

    @property
    def is_on_kept_connection(self) -> bool:
        """Whether the connection of its client had carried a request before."""
        return (self.connection_request or 0) > 1

    @property
    def begun(self) -> float:
        """When the connection was accepted, in seconds from 1970; of a later request of a
        connection, when its first byte came."""
        return self.time - self.duration_ms / 1000


class LostLines(NamedTuple):
    """How many lines could not be written. The time is None if the switch had none."""

    time: float | None
    lost: int


def seconds_of(value: object) -> float:
    """The seconds from 1970 of a time as RFC 3339 has it."""
    if not isinstance(value, str):
        raise LogEntryError("its time is not a text")
    return _seconds_of_text(value)


@functools.lru_cache(MOST_TIMES)
def _seconds_of_text(text: str) -> float:
    try:
        read = datetime.datetime.fromisoformat(text)
    except ValueError:
        raise LogEntryError("its time is not as in RFC 3339") from None
    if read.tzinfo is None:
        raise LogEntryError("its time has no zone")
    return read.timestamp()


def time_text(seconds: float) -> str:
    """A time as the log has it: 2026-11-25T18:03:12.042Z."""
    read = datetime.datetime.fromtimestamp(seconds, datetime.timezone.utc)
    return read.isoformat(timespec="milliseconds").removesuffix("+00:00") + "Z"


def _refuse(name: str) -> object:
    raise ValueError(f"{name} is not a JSON value")


DECODER = json.JSONDecoder(parse_constant=_refuse)  # `json.loads` would make one for each line
WHITESPACE = b" \t\r\n"  # of JSON


def _fault(members: Mapping[str, object]) -> str:
    """What is wrong with the members of a line; empty if nothing is."""
    for name, types in TYPES.items():
        value = members.get(name)
        if type(value) not in types or (name in MEMBERS and name not in members):
            return f"its {name} is not one that a line can have"
        if isinstance(value, (int, float)) and not 0 <= value < GREATEST:
            return f"its {name} is below 0, or too large"
    return ""


@functools.lru_cache
def _numbers_of(types: tuple[type, ...]) -> Callable[[Sequence[object]], tuple[float, ...]] | None:
    """What takes the numbers out of the values of members that have these types; None if one can't
    have its type. `bool` is not the type of a member, though it is an `int`."""
    if not all(each in known for each, known in zip(types, TYPES.values())):
        return None
    places = [place for place, each in enumerate(types) if each in NUMBERS]
    # the first one twice, since of a single place it would give no tuple
    return operator.itemgetter(places[0], *places)


def _values(members: Mapping[str, object]) -> tuple[object, ...]:
    """The values of the members of a line. `LogEntryError` if one is missing or wrong: what
    `_fault` says, found in less time."""
    try:
        values = (*REQUIRED(members), *map(members.get, OPTIONAL))
    except KeyError:
        raise LogEntryError(_fault(members)) from None
    take = _numbers_of(tuple(map(type, values)))
    if take is None or min(numbers := take(values)) < 0 or max(numbers) >= GREATEST:
        raise LogEntryError(_fault(members))
    return values


def _object(line: bytes) -> dict[str, object]:
    """The object of a line."""
    try:
        text = line.strip(WHITESPACE).decode()
        members, end = DECODER.raw_decode(text)
    except (ValueError, RecursionError):
        raise LogEntryError("it is not JSON") from None
    if end != len(text) or not isinstance(members, dict):
        raise LogEntryError("it is not an object")
    return members


def read_line(line: bytes) -> LogEntry | LostLines:
    """The values of a line, without its end. `LogEntryError` if it is not a line of an access log;
    further members are passed over."""
    members = _object(line)
    lost = members.get("lost")
    if type(lost) is int and 0 <= lost < GREATEST:
        return LostLines(None if members.get("time") is None else seconds_of(members["time"]), lost)
    entry = LogEntry._make((seconds_of(members.get("time")), *_values(members)))
    if entry.service not in CLIENT_SERVICES or entry.end not in ENDS:
        raise LogEntryError("its service or end is not one that a line can have")
    return entry


def written(entry: LogEntry) -> bytes:
    """The line of an entry, with its end, as the switch writes it."""
    members = {
        name: value
        for name, value in entry._asdict().items()
        if value is not None or name not in OPTIONAL
    }
    return (json.dumps({**members, "time": time_text(entry.time)}) + "\n").encode("ascii")


class Batch(NamedTuple):
    """What was read: entries, how many lines the switch could not write, and how many could not be
    read."""

    entries: list[LogEntry]
    lost: int
    unreadable: int


def read_lines(lines: list[bytes], unreadable: int = 0) -> Batch:
    """The values of lines."""
    entries, lost = [], 0
    for line in lines:
        try:
            read = read_line(line)
        except LogEntryError:
            unreadable += 1
            continue
        if isinstance(read, LogEntry):
            entries.append(read)
        else:
            lost += read.lost
    return Batch(entries, lost, unreadable)


class OpenLog:
    """A file of the log, read from a place on."""

    def __init__(self, file: BinaryIO, place: int) -> None:
        self.file = file
        self.identity = identity(os.fstat(file.fileno()))
        self.place = place
        self.part = b""  # of a line whose end has not come
        self.unreadable = 0
        self.has_more = (
            False  # whether the last look gave a whole piece, so that more is likely to be there
        )
        self.replaced_at: float | None = None

    def begin_before(self) -> None:
        """Goes back to the begin of the line that the place stands in."""
        start = max(self.place - LONGEST_LINE, 0)
        before = os.pread(self.file.fileno(), self.place - start, start)
        self.place = start + before.rfind(b"\n") + 1

    def lines(self) -> list[bytes]:
        """The whole lines that have come, of one piece at most; empty if no more are there now."""
        if os.fstat(self.file.fileno()).st_size < self.place:
            self.place, self.part = 0, b""  # the file was cut
        piece = os.pread(self.file.fileno(), PIECE, self.place)
        self.place += len(piece)
        self.has_more = len(piece) == PIECE
        *lines, self.part = (self.part + piece).split(b"\n")
        if len(self.part) > LONGEST_LINE:
            self.part, self.unreadable = b"", self.unreadable + 1
        return lines

    def take_unreadable(self) -> int:
        """How many lines were too long since this was asked last."""
        count, self.unreadable = self.unreadable, 0
        return count


def identity(status: os.stat_result) -> tuple[int, int]:
    return status.st_dev, status.st_ino


class Follower:
    """Follows the log at a path: a file that was renamed is read on for a while beside the one that
    has taken its place."""

    def __init__(self, path: str, backlog: int = 0) -> None:
        """Reads from the end of the file on, or from `backlog` bytes before it. If nothing is read,
        `fault` says why."""
        self.path = path
        self.files: list[OpenLog] = []
        self.fault = ""
        self.begun_at = 0  # the size of the file when it was opened first
        self.is_behind = False  # whether what comes next stood in the file before it was followed
        self._open(backlog)

    def _open(self, backlog: int | None) -> None:
        """Opens the file that is at the path now; from its begin on if no backlog is given."""
        try:
            found = os.stat(self.path)
            if not stat.S_ISREG(found.st_mode):
                self.fault = "it is not a regular file"
                return
            if self.files and self.files[-1].identity == identity(found):
                self.files[-1].replaced_at, self.fault = None, ""
                return
            opened = OpenLog(open(self.path, "rb", buffering=0), 0)
        except OSError as error:
            self.fault = error.strerror or "it can't be read"
            return
        self.fault = ""
        if backlog is not None:
            self.begun_at = os.fstat(opened.file.fileno()).st_size
            opened.place = max(self.begun_at - backlog, 0)
            opened.begin_before()
            self.is_behind = opened.place < self.begun_at
        for earlier in self.files:
            earlier.replaced_at = earlier.replaced_at or time.monotonic()
        self.files.append(opened)

    @property
    def has_more(self) -> bool:
        """Whether more is likely to be there than was read the last time."""
        return any(file.has_more for file in self.files)

    def _close_earlier(self) -> int:
        """Closes files that were replaced a while ago. Gives how many of them end within a line."""
        now, cut = time.monotonic(), 0
        for earlier in self.files[:-1]:
            if earlier.replaced_at is not None and now >= earlier.replaced_at + READ_ON_SECONDS:
                cut += bool(earlier.part)
                earlier.file.close()
                self.files.remove(earlier)
        return cut

    def read(self) -> Batch:
        """What has come since the last time, up to a piece of each file."""
        self._open(None)
        lines, unreadable, before = [], 0, self.files[0].place if self.files else 0
        for file in self.files:
            try:
                lines += file.lines()
            except OSError as error:
                self.fault = error.strerror or "it can't be read"
            unreadable += file.take_unreadable()
        # a file that was cut, or another one that has taken its place, has nothing from before
        self.is_behind = (
            self.is_behind and len(self.files) == 1 and before < self.files[0].place < self.begun_at
        )
        return read_lines(lines, unreadable + self._close_earlier())

    def close(self) -> None:
        while self.files:
            self.files.pop().file.close()
