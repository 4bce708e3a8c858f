"""What the switch writes to an endpoint for messages of the corpus, and whether every reader reads
it alike."""
import contextlib
import enum
import pathlib
import queue
import re
import socket
import subprocess
import threading
from collections.abc import Iterable, Iterator, Sequence
from typing import NamedTuple

from support import TOP, clients, processes
from support import PROGRAM
from support.endpoints import BACKLOG, END_OF_HEAD, LONGEST
from support.messages import ROLLOUT, response
from support.operators import Operator
from support.reserved import HOST, reserved
from support.smuggling.comparing import COUNTS
from support.smuggling.differences import Request, may_differ
from support.smuggling.messages import Message
from support.smuggling.readings import Case, Read, Reader, Reading, case_of, items_in, shortened
from support.smuggling.servers import PORTS
from support.switch import LISTENING, words_of_serve

# How long an endpoint is given to tell what was written to it, in seconds.
LONGEST_RECORD = 20
FORWARDED = 200
# A reader that waits is asked again, with this many times the patience, before that is a failure.
PATIENCE = 10.0
CLOSE = b"Connection: close\r\n"
TOKEN = re.compile(rb"[!#$%&'*+.^_`|~0-9A-Za-z-]+")
LENGTH = re.compile(rb"(?i)\r\ncontent-length: *(\d+)")


def is_built(program: str = PROGRAM) -> bool:
    """Whether a program is there. `bin/bg_switch` would build the program first, which takes
    long."""
    wrapper, built = TOP / "bin" / "bg_switch", TOP / "crates" / "bg_switch" / "out" / "bg_switch"
    return (built if pathlib.Path(program) == wrapper else pathlib.Path(program)).exists()


class Recorder:
    """An endpoint that keeps all bytes of each connection, from its first to its end: in one text, or
    in one for each request that leaves its connection open. Bytes behind a request that came before
    its answer are in its text, and others in the next one."""

    def __init__(self) -> None:
        self.texts = queue.Queue[bytes]()
        self.listener = socket.create_server((HOST, 0), backlog=BACKLOG)
        self.port: int = self.listener.getsockname()[1]
        threading.Thread(target=self.accept, daemon=True).start()

    def accept(self) -> None:
        with contextlib.suppress(OSError):
            while True:
                connection = self.listener.accept()[0]
                threading.Thread(target=self.serve, args=(connection,), daemon=True).start()

    def serve(self, connection: socket.socket) -> None:
        """Answers once a request has come by its length, and reads on to the end."""
        text = b""
        with connection, contextlib.suppress(OSError):
            connection.settimeout(LONGEST)
            while text := self.received_whole(connection):
                if asks_to_close(text):
                    connection.sendall(response(b""))
                    connection.shutdown(socket.SHUT_WR)
                    text += clients.received(connection)
                    break
                # before its answer, so that it is there as soon as a client has that
                self.texts.put(text)
                connection.sendall(response(b""))
        if text:
            self.texts.put(text)

    def received_whole(self, connection: socket.socket) -> bytes:
        """What comes until a request is whole by its length, or the connection ends."""
        text = b""
        while not is_whole(text) and (piece := connection.recv(65536)):
            text += piece
        return text


def asks_to_close(text: bytes) -> bool:
    """Whether a text says in its head that its connection is to be closed, or is no whole request."""
    return not is_whole(text) or b"\r\n" + CLOSE in text.partition(END_OF_HEAD)[0] + b"\r\n"


def is_whole(text: bytes) -> bool:
    """Whether a request has its head and as many bytes behind it as its first length says."""
    before, end, body = text.partition(END_OF_HEAD)
    length = LENGTH.search(before)
    return bool(end) and len(body) >= (int(length[1]) if length else 0)


class Answered(NamedTuple):
    """What the switch has made of a connection: the statuses that it answered, and the texts that
    it wrote to the endpoint."""

    statuses: tuple[int, ...]
    texts: tuple[bytes, ...]

    def is_answered(self, keeps: bool = False) -> bool:
        """Whether the endpoint's answers are all that the client got, one for each text. If
        connections are kept, a refusal of what is behind them may follow."""
        answers, rest = self.statuses[: len(self.texts)], self.statuses[len(self.texts) :]
        is_rest_right = FORWARDED not in rest and len(rest) <= 1 if keeps else not rest
        return answers == (FORWARDED,) * len(self.texts) and is_rest_right

    def __str__(self) -> str:
        return "forwards" if self.texts else ", ".join(map(str, self.statuses)) or "closes"


class Switch:
    """A running switch before a recorder, with one connection after the other."""

    def __init__(
        self, recorder: Recorder, program: Sequence[str], flags: Sequence[str] = ()
    ) -> None:
        self.recorder = recorder
        self.active, control, preview = (reserved(PORTS) for _ in range(3))
        given = ("--concurrency", "8", *flags)
        words = words_of_serve(self.active, control, preview, 1, None, given)
        self.process = subprocess.Popen(
            [*program, *words], stdin=subprocess.PIPE, stdout=subprocess.PIPE, text=True, cwd=TOP
        )
        processes.limit(self.process)
        try:
            self.open(control)
        except BaseException:
            self.end()
            raise

    def open(self, control: int) -> None:
        """Gives the program its strategy and its endpoint. One that refuses them is an error."""
        assert self.process.stdin and self.process.stdout
        with self.process.stdin:
            self.process.stdin.write(ROLLOUT)
        if self.process.stdout.readline() != LISTENING:
            raise RuntimeError("the switch does not listen")
        with contextlib.closing(Operator(control)) as operator:
            for line in (f"open one {self.recorder.port}", "available 1 1"):
                if operator.answer_to(line) != "ok 0":
                    raise RuntimeError(f"the switch refuses `{line}`")

    def answered(self, stream: bytes) -> Answered:
        """What it makes of a connection. A client that ends its input is answered all the same."""
        answers = clients.asked(self.active, stream) or b""
        statuses = tuple(item for item in items_in(answers) if isinstance(item, int))
        texts = [
            self.recorder.texts.get(timeout=LONGEST_RECORD)
            for _ in range(statuses.count(FORWARDED))
        ]
        with contextlib.suppress(queue.Empty):
            while True:
                texts.append(self.recorder.texts.get_nowait())
        return Answered(statuses, tuple(texts))

    def end(self) -> None:
        processes.end(self.process)
        assert self.process.stdout
        self.process.stdout.close()


@contextlib.contextmanager
def switch(program: Sequence[str] = (PROGRAM,), flags: Sequence[str] = ()) -> Iterator[Switch]:
    """A switch with these flags, until the end of the block: by default the built program."""
    one = Switch(Recorder(), program, flags)
    try:
        yield one
    finally:
        one.end()


class Forwarded(NamedTuple):
    """A text that the switch wrote, and the first message for which it did."""

    message: Message
    text: bytes


def streams_of(message: Message, number: int) -> list[bytes]:
    """A message alone, and with requests behind it."""
    return [message.text, *(case_of(message.text, number, count).stream for count in COUNTS)]


class MalformedTextError(Exception):
    """Why a text is not one request with an end that every reader finds."""


def strictly_read(text: bytes) -> Request:
    """The request that a text is, by the strictest reading. All else is `MalformedTextError`."""
    before, end, body = text.partition(END_OF_HEAD)
    line, *lines = before.split(b"\r\n")
    words = line.split(b" ")
    if not end or len(words) != 3 or words[2] != b"HTTP/1.1":
        raise MalformedTextError("it has no request line of three words, or no end of its head")
    if any(byte in before.replace(b"\r\n", b"") for byte in b"\r\n\0"):
        raise MalformedTextError("its head has CR, LF or NUL that ends no line")
    fields = tuple(map(field_of, lines))
    request = Request(Read(words[0], words[1], body), fields)
    if request.values(b"transfer-encoding"):
        raise MalformedTextError("it has a Transfer-Encoding")
    lengths = request.values(b"content-length")
    if lengths != [b"%d" % len(body)] and (lengths or body):
        raise MalformedTextError(f"its body has {len(body)} bytes, and its lengths are {lengths}")
    return request


def field_of(line: bytes) -> tuple[bytes, bytes]:
    name, colon, value = line.partition(b":")
    if not colon or not TOKEN.fullmatch(name):
        raise MalformedTextError(f"{line!r} is no field")
    return name, value.strip(b" \t")


def kept_alive(text: bytes) -> bytes:
    """A text without the field by which the switch asks for the end of the connection, so that a
    reader looks at the next request."""
    before, end, body = text.partition(END_OF_HEAD)
    lines = (before + b"\r\n").replace(b"\r\n" + CLOSE, b"\r\n")
    return lines.removesuffix(b"\r\n") + end + body


class Verdict(enum.Enum):
    """How a reader reads a text of the switch and the request behind it."""

    ALIKE = "read alike by all"
    DOCUMENTED = "read as docs/HTTP.md says"
    FAILED = "FAILED"


class Judged(NamedTuple):
    """A reader's reading of a text. `why` is empty if all is as it should be."""

    forwarded: Forwarded
    verdict: Verdict
    why: str = ""


def worst_of(verdicts: Iterable[Verdict]) -> Verdict:
    """The worst of some verdicts."""
    its = set(verdicts)
    return next(one for one in reversed(Verdict) if one in its)


def verdict_of(reading: Reading, expected: Sequence[Read], is_documented: bool) -> Verdict:
    """A reading must be the request, and the one behind it if there is one. If the page says that
    the reader differs about such requests, it may refuse the request, or read another method or
    target, but not find another end of it."""
    first, *behind = expected
    if reading == Reading(tuple(expected)):
        return Verdict.ALIKE
    if not is_documented or reading.waits or not reading.items:
        return Verdict.FAILED
    its, *rest = reading.items
    is_refused = isinstance(its, int) and rest in ([], behind)
    is_renamed = isinstance(its, Read) and its.body == first.body and rest == behind
    return Verdict.DOCUMENTED if is_refused or is_renamed else Verdict.FAILED


def judged(forwarded: Forwarded, reader: Reader, number: int) -> Judged:
    """How a reader reads a text of the switch: with a request behind it, before which it does not
    ask for the end of the connection, and alone if it does."""
    text = forwarded.text
    try:
        request = strictly_read(text)
    except MalformedTextError as error:
        return Judged(forwarded, Verdict.FAILED, str(error))
    its = Read(*map(shortened, request.read))
    case = case_of(kept_alive(text), number, 1)
    cases = [(case, [its, Read(b"GET", case.last, b"")])]
    if kept_alive(text) != text:
        cases.append((Case(text, (its.target,)), [its]))
    verdicts = dict[Verdict, str]()
    for case, expected in cases:
        verdict, reading = patiently(reader, case, expected, may_differ(request, reader.name))
        verdicts.setdefault(verdict, f"{reader.name} reads {reading}")
    worst = worst_of(verdicts)
    return Judged(forwarded, worst, "" if worst is Verdict.ALIKE else verdicts[worst])


def patiently(
    reader: Reader, case: Case, expected: Sequence[Read], is_documented: bool
) -> tuple[Verdict, Reading]:
    """A verdict and the reading on which it rests. A reader that fails is asked again, with more
    patience, since a busy machine may be the cause."""
    for patience in (1.0, PATIENCE):
        reading = reader.read(case.stream, case.last, patience)
        verdict = verdict_of(reading, expected, is_documented)
        if verdict is not Verdict.FAILED:
            break
    return verdict, reading
