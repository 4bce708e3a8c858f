"""A running `bin/bg_switch serve`."""
import contextlib
import os
import socket
import subprocess
import threading
from collections.abc import Callable, Iterator, Mapping, Sequence
from typing import NamedTuple

from bg_switch_tools.switch.control import Control

from support import PROGRAM, clients, processes
from support.checks import check, comes, fail
from support.endpoints import Endpoint, by_target
from support.messages import BY_HAND, ROLLOUT
from support.operators import Operator
from support.ports import free_ports

TIMEOUT_VARIABLE = "BG_SWITCH_PATIENCE_SECONDS"
LISTENING = "listening\n"
# The usual limit of a system, which holds whatever the script itself may have. The program raises
# its soft limit to the hard one.
USUAL_DESCRIPTORS = 1024


def run_to_end(
    rollout: str,
    active: int,
    control: int | None,
    preview: int | None = None,
    *,
    flags: Sequence[str] = (),
) -> processes.Run:
    """A run of `serve` that ends by itself, since it can't begin to serve."""
    words = [PROGRAM, *words_of_serve(active, control, preview, 1, 1), *flags]
    return processes.run_to_end(words, rollout)


def words_of_serve(
    active: int,
    control: int | None,
    preview: int | None,
    workers: int,
    count: int | None,
    instead_of_workers: Sequence[str] = (),
) -> list[str]:
    """The words of a `serve`; without a count it serves for ever."""
    return [
        "serve",
        "--active",
        str(active),
        *([] if control is None else ["--control", str(control)]),
        *(instead_of_workers or ("--workers", str(workers))),
        *([] if preview is None else ["--preview", str(preview)]),
        *(["--forever"] if count is None else ["--count", str(count)]),
    ]


class EndedSwitch(NamedTuple):
    """What a switch has printed since it listened, and its status."""

    printed: str
    status: int


class Switch:
    """A running `serve`, whose connections are counted, and whose standard error is kept.

    With a `count` each port takes exactly this number of connections for each of its `workers`, and
    `end` takes all that the checks have left over; without one it serves for ever. It may have
    `descriptors` descriptors, `prepare` is called in its process before it starts, and it has these
    flags beside its other words, and these variables of the environment beside those of the script.
    With a `path` it takes lines at this control socket, in the place of the control port. `ports` are
    its active port, its preview port and its control port; without them, free ones.
    """

    def __init__(
        self,
        rollout: str = ROLLOUT,
        *,
        workers: int = 1,
        count: int | None = None,
        preview: bool = True,
        timeout: int | str | None = None,
        descriptors: int | tuple[int, int] = USUAL_DESCRIPTORS,
        instead_of_workers: Sequence[str] = (),
        flags: Sequence[str] = (),
        prepare: Callable[[], object] = lambda: None,
        variables: Mapping[str, str] | None = None,
        path: str = "",
        ports: Sequence[int] = (),
    ) -> None:
        self.active, self.preview, self.control = ports or free_ports(3)
        self.path = path
        self.left = {
            self.active: workers * (count or 0),
            self.preview: count or 0 if preview else 0,
        }
        self.lock = threading.Lock()
        words = [
            PROGRAM,
            *words_of_serve(
                self.active,
                None if path else self.control,
                self.preview if preview else None,
                workers,
                count,
                instead_of_workers,
            ),
            *(["--control-socket", path] if path else []),
            *flags,
        ]
        environment = {
            name: value for name, value in os.environ.items() if name != TIMEOUT_VARIABLE
        }
        environment.update(variables or {})
        if timeout is not None:
            environment[TIMEOUT_VARIABLE] = str(timeout)

        def before() -> None:
            soft, hard = (
                descriptors if isinstance(descriptors, tuple) else (descriptors, descriptors)
            )
            processes.limit_descriptors(soft, hard)
            prepare()

        self.process = subprocess.Popen(
            words,
            stdin=subprocess.PIPE,
            stdout=subprocess.PIPE,
            stderr=subprocess.PIPE,
            text=True,
            env=environment,
            preexec_fn=before,
        )
        processes.limit(self.process)
        self.told: list[str] = []
        self.teller = threading.Thread(target=self.keep_standard_error, daemon=True)
        self.teller.start()
        self.first = self.start(rollout)

    def keep_standard_error(self) -> None:
        assert self.process.stderr is not None
        for line in self.process.stderr:
            self.told.append(line.rstrip("\n"))

    def start(self, rollout: str) -> str:
        """Gives the program its strategy, and the first line that it prints."""
        assert self.process.stdin is not None and self.process.stdout is not None
        with contextlib.suppress(BrokenPipeError), self.process.stdin:
            self.process.stdin.write(rollout)
        return self.process.stdout.readline()

    def tells(self, *words: str) -> bool:
        """Whether a line that has each of these words comes on standard error, at a time that comes
        soon."""
        return comes(lambda: self.count_told(*words) > 0)

    def count_told(self, *words: str) -> int:
        """How many lines with each of these words have come on standard error."""
        return sum(all(word in line for word in words) for line in list(self.told))

    def count_descriptors(self) -> int:
        """How many descriptors the program has open. Each connection that it has taken is one."""
        return len(processes.descriptors(self.process.pid))

    def has_loops(self, count: int) -> bool:
        """Whether `count` event loops of the client ports have begun, at a time that comes soon.
        Each has an epoll set, and so have the operators' connections."""
        return comes(lambda: len(processes.epoll_sets(self.process.pid)) == count + 1)

    @property
    def place(self) -> Control:
        """Where lines are sent: at the control socket if there is one."""
        return self.path or self.control

    def operator(self) -> Operator:
        return Operator(self.place)

    def answer_to(self, line: str) -> str:
        """The reply to a line that has a connection of its own."""
        with contextlib.closing(self.operator()) as operator:
            return operator.answer_to(line)

    def open_requests(self) -> list[int]:
        """How many requests of each revision are open."""
        with contextlib.closing(self.operator()) as operator:
            return operator.open_requests()

    def take(self, port: int, count: int = 1) -> None:
        """`count` of the connections of the port are used."""
        with self.lock:
            self.left[port] -= count

    def connect(self, port: int) -> socket.socket:
        self.take(port)
        return clients.connect(port)

    def raw(self, port: int, text: bytes, *later: bytes) -> bytes | None:
        """What a client is answered that sends these bytes, and others later: see
        `clients.answer_of`."""
        self.take(port)
        return clients.asked(port, text, *later)

    def timed(self, *pieces: bytes, pause: float = 0.0) -> clients.Timed:
        """What a client of the active port is answered, and how long that took: see
        `clients.timed`."""
        self.take(self.active)
        return clients.timed(self.active, pieces, pause)

    def get(
        self,
        port: int,
        path: str = "/",
        method: str = "GET",
        body: clients.Body = None,
        fields: dict[str, str] | None = None,
    ) -> tuple[int, bytes] | None:
        """The status and the body that Python's own client is answered: see `clients.get`."""
        self.take(port)
        return clients.get(port, path, method, body, fields)

    def wait(self) -> EndedSwitch:
        """Waits for the end by itself, for a while; the status is the signal's if it doesn't
        come."""
        assert self.process.stdout is not None
        with self.process.stdout:
            printed = self.process.stdout.read()
        status = self.process.wait(processes.LONGEST)
        self.teller.join(processes.LONGEST)
        return EndedSwitch(printed, status)

    def end(self) -> EndedSwitch:
        """Takes the connections that are left, and waits for the end."""
        for port, count in self.left.items():
            for _ in range(count):
                clients.connect(port).close()
        return self.wait()

    def check_end(self, name: str, calls: int) -> None:
        """A check that the program ends by itself, with `calls` calls after its last report, and
        status 0."""
        ended = self.end()
        check(name, (ended.printed.splitlines()[-2:], ended.status), (["end", f"calls {calls}"], 0))

    def check_end_after(self, operator: Operator, name: str, calls: int) -> None:
        """The same, once this operator has ordered `quit`."""
        operator.send_quit()
        self.check_end(name, calls)
        operator.close()

    def stop(self) -> None:
        """Ends the program at once. That it had ended by itself is a failed check."""
        if self.process.poll() is not None:
            fail("a switch that serves", f"it ended with {self.process.returncode}: {self.told}")
        self.kill()

    def kill(self) -> None:
        """Ends the program at once, if it hasn't ended by itself."""
        processes.stop(self.process)
        assert self.process.stdout is not None
        self.process.stdout.close()


def opened(
    endpoint: int,
    rollout: str = ROLLOUT,
    *,
    workers: int = 1,
    count: int | None = None,
    preview: bool = True,
    timeout: int | str | None = None,
    descriptors: int = USUAL_DESCRIPTORS,
    flags: Sequence[str] = (),
    prepare: Callable[[], object] = lambda: None,
) -> tuple[Switch, Operator]:
    """A switch that listens, whose first revision has this endpoint, and its operator."""
    switch = Switch(
        rollout,
        workers=workers,
        count=count,
        preview=preview,
        timeout=timeout,
        descriptors=descriptors,
        flags=flags,
        prepare=prepare,
    )
    check("listening", switch.first, LISTENING)
    operator = switch.operator()
    operator.check(f"open one {endpoint}", "ok 0")
    operator.check("available 1 1", "ok 0")
    return switch, operator


@contextlib.contextmanager
def serving(
    endpoint: int,
    rollout: str = ROLLOUT,
    *,
    workers: int = 1,
    timeout: int | str | None = None,
    descriptors: int = USUAL_DESCRIPTORS,
    flags: Sequence[str] = (),
) -> Iterator[Switch]:
    """The same, for ever, and with no operator: it is ended at the end of the block."""
    switch, operator = opened(
        endpoint, rollout, workers=workers, timeout=timeout, descriptors=descriptors, flags=flags
    )
    operator.close()
    try:
        yield switch
    finally:
        switch.stop()


class LaterEnd:
    """A client that says nothing, of a switch of its own whose timeout is longer: what has the
    shorter timeout, and began at the same moment, has ended before this client is, however busy the
    machine is."""

    def __init__(self, timeout: int) -> None:
        self.seconds = 0.0
        self.thread = threading.Thread(target=self.wait, args=(timeout,), daemon=True)
        self.thread.start()

    def wait(self, timeout: int) -> None:
        with serving(Endpoint(by_target(b"late")).port, timeout=timeout) as switch:
            self.seconds = clients.timed(switch.active, []).seconds

    def is_after(self, seconds: float) -> bool:
        """Whether the client was ended after more than `seconds` seconds."""
        self.thread.join()
        return seconds < self.seconds


@contextlib.contextmanager
def book(
    *,
    is_open: bool = True,
    rollout: str = BY_HAND,
    variables: Mapping[str, str] | None = None,
    path: str = "",
    flags: Sequence[str] = (),
) -> Iterator[Switch]:
    """A switch with these variables of the environment and these flags, whose book is open, or
    isn't. With a `path` it takes lines at this control socket."""
    switch = Switch(rollout, workers=2, variables=variables, path=path, flags=flags)
    check("listening", switch.first, LISTENING)
    if is_open:
        check("open", switch.answer_to(f"open one {Endpoint(by_target(b'one')).port}"), "ok 0")
    try:
        yield switch
    finally:
        switch.stop()
