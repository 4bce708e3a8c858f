"""The end of a running `serve`: `quit` with `--forever` is a graceful shutdown, and with `--count`
it ends the operators' side alone. And what a switch tells on standard error: too few threads,
accepts that fail, ports whose connections are used up."""
import contextlib
import pathlib
import resource
import signal
import socket
import time
from collections import Counter
from collections.abc import Iterator
from functools import partial

from support import TOP, checks, faults, processes
from support.checks import check, check_soon, comes
from support.clients import SMALL_BUFFER, connect, dripping, polite, received, timed
from support.endpoints import Endpoint, Held, by_target, held_at
from support.messages import ROLLOUT, answer, request
from support.operators import Operator
from support.ports import connections_at, is_open, is_refused, unread_at
from support.stderr_lines import (
    accepts_fail,
    check_told_once,
    fewer_event_loops,
    no_event_loop,
    told,
    used_up,
)
from support.switch import LISTENING, EndedSwitch, Switch, opened

# How long, in seconds, it takes at most until the ports are closed, and until the program has ended
# once nothing is open. If a shutdown waited for what it needn't, that would be for the timeout or
# the sixty seconds of a shutdown.
SOON = 5.0
# So long that it ends nothing on a busy machine: some hundred clients must all be silent at once, and
# endpoints are silent until all that a part needs has come.
TIMEOUT = 600
BIG = b"x" * 4000000
# The stack of each thread if only few threads are to be had: what the system lends beside that
# number of stacks is less than one.
STACK = 512 << 20
# Below a stack, and above what the C library reserves for the heaps of threads.
SPARE = 400 << 20
ONE_LOOP, FOUR_LOOPS = ("--threads", "1"), ("--threads", "4")
REPORT = """moment 0
phase steady
active 1
preview 1
stable 1
newest 1
revision 1 one desired 1 available 1 open 0 deadline none
end
"""


def check_ended(name: str, ended: EndedSwitch, calls: int) -> None:
    check(
        f"{name}: the report, the calls and the status",
        (ended.printed, ended.status),
        (f"{REPORT}calls {calls}\n", 0),
    )


def check_ports_closed(name: str, switch: Switch) -> None:
    """Checks that all ports are refused soon."""
    start = time.monotonic()
    for port in (switch.active, switch.preview, switch.control):
        check(f"{name}: a port is refused", is_refused(port), True)
    check_soon(f"{name}: until the ports are refused", time.monotonic() - start, SOON)


def check_ends_soon(name: str, switch: Switch, calls: int, most: float = SOON) -> None:
    start = time.monotonic()
    check_ended(name, switch.wait(), calls)
    check_soon(f"{name}: until the program has ended", time.monotonic() - start, most)


class EndlessSwitch:
    """A switch that serves for ever, an operator, and connections in each state."""

    def __init__(self, stack: contextlib.ExitStack, workers: int) -> None:
        self.stack = stack
        self.held = Held(b"held")
        self.endpoint = Endpoint(held_at(b"/held", self.held, by_target(b"one")))
        self.switch, self.operator = opened(self.endpoint.port, workers=workers, timeout=TIMEOUT)

    def client(self, port: int, text: bytes) -> socket.socket:
        """A client that has sent this."""
        client = self.stack.enter_context(connect(port, SMALL_BUFFER))
        client.sendall(text)
        return client

    def hold(self, port: int, count: int) -> list[socket.socket]:
        """`count` more clients, whose requests wait at the endpoint."""
        before = self.held.pending
        pending = [self.client(port, request(b"/held")) for _ in range(count)]
        check("requests that wait at the endpoint", self.held.holds(before + count), True)
        return pending


def graceful() -> None:
    """Requests that are served, that arrive, and that wait for a seat are answered; pending answers
    are written."""
    with contextlib.ExitStack() as stack:
        endless = EndlessSwitch(stack, 3)
        switch = endless.switch
        silent = [endless.client(port, b"") for port in (switch.active, switch.preview)]
        arriving = [
            endless.client(port, request()[:-1]) for port in (switch.active, switch.preview)
        ]
        reader = endless.client(switch.active, request(b"/big"))
        check(
            "an answer is pending",
            comes(lambda: endless.endpoint.served == 1 and endless.operator.open_requests() == [0]),
            True,
        )
        served = [*endless.hold(switch.active, 2), *endless.hold(switch.preview, 1)]
        endless.operator.send_quit()
        check_ports_closed("a graceful shutdown", switch)
        start = time.monotonic()
        for client in silent:
            client.settimeout(SOON)
            with contextlib.suppress(TimeoutError):
                check("a client that has sent nothing is answered nothing", received(client), b"")
        check_soon("a client that has sent nothing is let go soon", time.monotonic() - start, SOON)
        for client in arriving:
            client.sendall(b"\n")
        check(
            "a request that is arriving at quit is answered", received(arriving[0]), answer(b"one")
        )
        check("the program waits for what is open", switch.process.poll(), None)
        check(
            "the pending answer of a slow reader at quit is written",
            received(reader) == answer(BIG),
            True,
        )
        endless.held.is_free.set()
        check(
            "requests that are served at quit are answered",
            [received(client) for client in served],
            [answer(b"held")] * 3,
        )
        check(
            "a request that waits for a seat at quit is answered",
            received(arriving[1]),
            answer(b"one"),
        )
        check_ends_soon("a graceful shutdown", switch, 12)


def waiting_for_a_seat() -> None:
    """No seat is free at quit: requests that were accepted before are answered."""
    with contextlib.ExitStack() as stack:
        endless = EndlessSwitch(stack, 1)
        switch = endless.switch
        arriving = [endless.client(switch.active, request()[:-1]) for _ in range(5)]
        check("they arrive", comes(lambda: connections_at(switch.active) == 5), True)
        check("they are read", comes(lambda: unread_at(switch.active) == 0), True)
        served = endless.hold(switch.active, 1)
        for client in arriving:
            client.sendall(b"\n")
        endless.operator.send_quit()
        check_ports_closed("a shutdown while no seat is free", switch)
        time.sleep(1.5)
        endless.held.is_free.set()
        check(
            "requests that wait for a seat at quit are answered",
            [received(client) for client in arriving],
            [answer(b"one")] * 5,
        )
        check("the request at the seat", received(served[0]), answer(b"held"))
        check_ends_soon("a shutdown while no seat is free", switch, 12)


def backlog_at_quit() -> None:
    """Requests that came whole while no seat was free, and wait in the system for an accept, are
    answered."""
    held = Held(b"held")
    switch, operator = opened(Endpoint(held).port, workers=2, timeout=TIMEOUT)
    clients = [connect(switch.active) for _ in range(2)]
    for client in clients:
        client.sendall(request())
    check("requests at both seats wait for their endpoint", held.holds(2), True)
    processes.pause(switch.process.pid)
    clients += [connect(switch.active) for _ in range(20)]
    for client in clients[2:]:
        client.sendall(request())
    operator.send_quit()
    switch.process.send_signal(signal.SIGCONT)
    check_ports_closed("a shutdown with clients in the backlog", switch)
    held.is_free.set()
    check(
        "requests in the backlog at quit",
        [received(client) for client in clients],
        [answer(b"held")] * 22,
    )
    check_ends_soon("a shutdown with clients in the backlog", switch, 44)


def silent_clients(switch: Switch, count: int) -> list[socket.socket]:
    """`count` clients that are connected, and have sent nothing."""
    silent = [connect(switch.active) for _ in range(count)]
    check(
        "silent clients are connected", comes(lambda: connections_at(switch.active) == count), True
    )
    return silent


def send_and_check(name: str, clients: list[socket.socket]) -> None:
    for client in clients:
        client.sendall(request())
    check_answered(name, clients)


def check_answered(name: str, clients: list[socket.socket]) -> None:
    check(
        name,
        Counter(received(client) for client in clients),
        Counter({answer(b"one"): len(clients)}),
    )


def sent_before_quit() -> None:
    """Silent clients that have sent whole requests before quit are all answered, though none was
    read by then."""
    for is_stopped in (False, True):
        switch, operator = opened(Endpoint(by_target(b"one")).port, workers=4, timeout=TIMEOUT)
        clients = silent_clients(switch, 100)
        if is_stopped:
            processes.pause(switch.process.pid)
        for client in clients:
            client.sendall(request())
        operator.send_quit()
        switch.process.send_signal(signal.SIGCONT)
        check_answered("whole requests that came before quit", clients)
        check_ends_soon("a shutdown with requests of silent clients", switch, 200)


def sent_within_the_grace() -> None:
    """A client that is silent at quit, and sends its request within the grace, is answered."""
    switch, operator = opened(
        Endpoint(by_target(b"one")).port,
        workers=4,
        timeout=TIMEOUT,
        flags=("--shutdown-grace", "60"),
    )
    clients = silent_clients(switch, 50)
    operator.send_quit()
    check_ports_closed("a shutdown with silent clients", switch)
    send_and_check("requests that come within the grace", clients)
    check_ends_soon("a shutdown with requests within the grace", switch, 100)


def silent_for_the_grace() -> None:
    """A client that stays silent is let go after the grace, and not before."""
    grace = 4
    switch, operator = opened(
        Endpoint(by_target(b"one")).port,
        workers=4,
        timeout=TIMEOUT,
        flags=("--shutdown-grace", str(grace)),
    )
    clients = silent_clients(switch, 50)
    start = time.monotonic()
    operator.send_quit()
    check("clients that stay silent", [received(client) for client in clients], [b""] * 50)
    seconds = time.monotonic() - start
    check("silent clients are let go after the grace", seconds >= grace, True)
    check_soon("silent clients are let go", seconds, grace + SOON)
    check_ends_soon("a shutdown after silent clients", switch, 0)


def unread_after_the_grace() -> None:
    """Before a silent connection is closed after the grace, it is read once: more requests than are
    read in a turn have come."""
    grace = 6
    switch, operator = opened(
        Endpoint(by_target(b"one")).port,
        workers=4,
        timeout=TIMEOUT,
        flags=("--shutdown-grace", str(grace)),
    )
    clients = silent_clients(switch, 200)
    start = time.monotonic()
    operator.send_quit()
    check_ports_closed("a shutdown before requests come", switch)
    processes.pause(switch.process.pid)
    for client in clients:
        client.sendall(request())
    time.sleep(max(start + grace + 1 - time.monotonic(), 0))
    switch.process.send_signal(signal.SIGCONT)
    check_answered("requests that come within the grace, and are read after it", clients)
    check_ends_soon("a shutdown with requests that are read late", switch, 400)


def watches_refused() -> None:
    """If the system refuses to watch connections of the backlog at quit, they are ended, and the
    shutdown with them."""
    held = Held(b"held")
    probe, operator = opened(Endpoint(held).port, flags=ONE_LOOP)
    check("both ports have an event loop", probe.has_loops(2), True)
    last = processes.descriptors(probe.process.pid)[-1]
    operator.close()
    probe.stop()
    # a client and its endpoint have the next descriptors
    switch, operator = opened(
        Endpoint(held).port,
        timeout=TIMEOUT,
        flags=ONE_LOOP,
        prepare=partial(faults.refuse_watches, last + 3),
    )
    check("both ports have one here, too", switch.has_loops(2), True)
    with connect(switch.active) as served:
        served.sendall(request())
        check("the request at the seat waits for its endpoint", held.holds(1), True)
        processes.pause(switch.process.pid)
        clients = [connect(switch.active) for _ in range(20)]
        # a client whose request has come whole is not watched before it is answered
        for client in clients:
            client.sendall(request()[:-1])
        operator.send_quit()
        switch.process.send_signal(signal.SIGCONT)
        check_ports_closed("a shutdown where watches are refused", switch)
        check(
            "clients that have to be watched are let go",
            comes(lambda: connections_at(switch.active) < 10),
            True,
        )
        for client in clients:
            with contextlib.suppress(OSError):
                client.sendall(b"\n")
        held.is_free.set()
        check("the request at the seat", received(served), answer(b"held"))
        ends = Counter(received(client) for client in clients)
    # a few get descriptors that were closed at the quit, and are watched
    check(
        "clients whose watches are refused",
        (ends[b""] > 10, ends[b""] + ends[answer(b"held")]),
        (True, 20),
    )
    check_ends_soon("a shutdown where watches are refused", switch, 2 + 2 * ends[answer(b"held")])


def quit_of_the_opener() -> None:
    """The connection on which the book was opened ends at its quit, though the shutdown waits for a
    request."""
    held = Held(b"held")
    endpoint, switch = Endpoint(held), Switch(timeout=TIMEOUT)
    with connect(switch.control) as opener, connect(switch.active) as client:
        opener.sendall(f"open one {endpoint.port}\navailable 1 1\n".encode())
        with opener.makefile("rb") as replies:
            check(
                "the replies to the opener",
                [replies.readline() for _ in range(2)],
                [b"ok 0\n", b"ok 0\n"],
            )
        client.sendall(request())
        check("a request is open", held.holds(1), True)
        opener.sendall(b"quit\n")
        start = time.monotonic()
        check("the opener after its quit", received(opener), b"")
        check_soon("the opener's connection ends", time.monotonic() - start, SOON)
        held.is_free.set()
        check("the request at the quit of the opener", received(client), answer(b"held"))
    check_ends_soon("a quit of the opener", switch, 2)


def pending_at_the_end() -> None:
    """At the timeout of a shutdown, requests that wait for a seat are dropped: one response's timeout
    later all is over."""
    timeout, held = 15, Held(b"held")
    switch, operator = opened(
        Endpoint(held).port, timeout=timeout, flags=("--shutdown-timeout", "3")
    )
    clients = [connect(switch.active) for _ in range(9)]
    for client in clients:
        client.sendall(request()[:-1])
    time.sleep(1)
    for client in clients:
        client.sendall(b"\n")
    time.sleep(1)
    operator.send_quit()
    start = time.monotonic()
    switch.wait()
    held.is_free.set()
    check_soon(
        "a shutdown with requests that wait for a seat",
        time.monotonic() - start,
        3 + timeout + SOON,
    )


def at_rest() -> None:
    """With nothing open a switch ends at once, by the operator's tool too."""
    switch, operator = opened(Endpoint(by_target(b"one")).port, workers=2)
    operator.close()
    check("answers before the shutdown", set(polite(switch.active, 3).answers), {answer(b"one")})
    with connect(switch.active), connect(switch.preview):
        run = processes.run_to_end(
            [str(TOP / "bin" / "operator"), str(switch.control), "shutdown", "--yes"]
        )
        check("the operator's tool", run, ("", "", 0))
        check_ends_soon("a shutdown at rest", switch, 6)


def before_open() -> None:
    """Before a book is open `quit` ends the program, which prints nothing."""
    switch = Switch(workers=2)
    check("listening", switch.first, LISTENING)
    with connect(switch.active), contextlib.closing(switch.operator()) as operator:
        operator.send_quit()
        check("quit before a book is open", switch.wait(), EndedSwitch("", 0))


def late_at_quit() -> None:
    """A request that isn't whole in time, and an endpoint that is silent, keep a shutdown for no
    longer than their time."""
    timeout, held = 4, Held(b"held")
    switch, operator = opened(Endpoint(held).port, workers=2, timeout=timeout)
    with connect(switch.active) as late, connect(switch.active) as pending:
        late.sendall(request()[:-1])
        pending.sendall(request())
        check("the endpoint is silent", held.holds(1), True)
        operator.send_quit()
        check("a late request at quit", received(late), b"")
        check("a silent endpoint at quit", received(pending)[:12], b"HTTP/1.1 502")
        check_ends_soon("a shutdown beside a late request", switch, 2, timeout + SOON)


def cut_after(seconds: int, flags: tuple[str, ...]) -> None:
    """A request that still arrives so many seconds after `quit` is cut, if its timeout is longer."""
    switch, operator = opened(Endpoint(by_target(b"one")).port, workers=2, timeout=300, flags=flags)
    with dripping(switch.active, 3, b"GET /"):
        time.sleep(1)
        start = time.monotonic()
        operator.send_quit()
        check_ends_soon("a shutdown beside requests that drip", switch, 0, seconds + SOON)
        check(
            f"requests that drip keep a shutdown for {seconds} seconds",
            time.monotonic() - start >= seconds,
            True,
        )


def cut_at_its_timeout() -> None:
    cut_after(7, ("--shutdown-timeout", "7"))


def cut_after_sixty_seconds() -> None:
    cut_after(60, ())


def counted() -> None:
    """With `--count`, `quit` ends the operators' side alone: clients are served until the
    connections are used up."""
    switch, operator = opened(Endpoint(by_target(b"one")).port, workers=2, count=10)
    check("answers before quit", set(polite(switch.active, 5).answers), {answer(b"one")})
    operator.send_quit()
    check("the control port is refused after quit", is_refused(switch.control), True)
    with connect(switch.active) as client:
        check("answers after quit", set(polite(switch.active, 14).answers), {answer(b"one")})
        check(
            "answers at the preview port after quit",
            set(polite(switch.preview, 10).answers),
            {answer(b"one")},
        )
        check("the port is closed with its last connection", is_refused(switch.active), True)
        check("the program waits for the last connection", switch.process.poll(), None)
        client.sendall(request())
        check("the last connection is answered", received(client), answer(b"one"))
        check_ends_soon("a run whose connections are used up", switch, 60)


def connections_used_up() -> None:
    """A port that is closed since its connections are used up is told once. The operators' side
    goes on."""
    switch, operator = opened(Endpoint(by_target(b"one")).port, workers=1, count=3)
    for name, port in (("active", switch.active), ("preview", switch.preview)):
        check(f"nothing is told of the {name} port before", told(switch, used_up(name)), [])
        check("answers", set(polite(port, 3).answers), {answer(b"one")})
        check_told_once(f"the connections of the {name} port are used up", switch, used_up(name))
    operator.check("tick 0", "ok 0")
    time.sleep(2.5)
    check("it is told once", len(switch.told), 2)
    operator.send_quit()
    check_ends_soon("a run whose ports are closed", switch, 12)


@contextlib.contextmanager
def few_threads(count: int) -> Iterator[tuple[Switch, Operator]]:
    """A switch with four event loops and one, which gets `count` threads beside the first."""

    def large_stacks() -> None:
        resource.setrlimit(
            resource.RLIMIT_STACK, (STACK, resource.getrlimit(resource.RLIMIT_STACK)[1])
        )

    switch = Switch(ROLLOUT, workers=4, prepare=large_stacks, timeout=TIMEOUT, flags=FOUR_LOOPS)
    check("listening", switch.first, LISTENING)
    lines = (
        pathlib.Path(f"/proc/{switch.process.pid}/status").read_text(encoding="ascii").splitlines()
    )
    size = next(int(line.split()[1]) for line in lines if line.startswith("VmSize:")) << 10
    most = size + count * STACK + SPARE
    resource.prlimit(switch.process.pid, resource.RLIMIT_AS, (most, resource.RLIM_INFINITY))
    operator = switch.operator()
    operator.check(f"open one {Endpoint(by_target(b'one')).port}", "ok 0")
    operator.check("available 1 1", "ok 0")
    yield switch, operator
    operator.send_quit()
    check_ended("a run with few threads", switch.wait(), 6 if count else 0)


def too_few_threads() -> None:
    """Fewer event loops than ordered are told once; those that have begun serve clients."""
    with few_threads(4) as (switch, _):
        check("answers of fewer loops", set(polite(switch.active, 3).answers), {answer(b"one")})
        check_told_once("fewer event loops are told", switch, fewer_event_loops("active"))
        begun, requested = map(int, told(switch, fewer_event_loops("active"))[0].groups())
        check("the numbers of event loops", (0 < begun < requested, requested), (True, 4))


def no_threads() -> None:
    """If no thread is to be had, that is told, and `quit` ends the program all the same."""
    with few_threads(0) as (switch, operator):
        for port in ("active", "preview"):
            check_told_once(
                f"no event loop at the {port} port is told", switch, no_event_loop(port)
            )
        operator.check("tick 0", "ok 0")


def accepts_that_fail() -> None:
    """Accepts that fail for want of descriptors are told once for each port, and tried again until
    they succeed."""
    switch, operator = opened(
        Endpoint(by_target(b"one")).port, workers=2, timeout=TIMEOUT, flags=FOUR_LOOPS
    )
    check("all event loops have begun", switch.has_loops(4 + 1), True)
    limit = processes.DescriptorLimit(switch.process.pid)
    limit.leave(0)
    clients = [connect(port) for port in (switch.active, switch.preview)]
    for name, client in zip(("active", "preview"), clients):
        client.sendall(request())
        check_told_once(
            f"accepts that fail at the {name} port are told", switch, accepts_fail(name)
        )
    time.sleep(2)
    operator.check("tick 0", "ok 0")
    check("each is told once", len(switch.told), 2)
    limit.lift()
    check(
        "clients are answered once there are descriptors",
        [received(client) for client in clients],
        [answer(b"one")] * 2,
    )
    check("clients that come later", timed(switch.active).answer, answer(b"one"))
    operator.send_quit()
    check_ends_soon("a run whose accepts have failed", switch, 6)


def nothing_to_tell() -> None:
    """A run without trouble tells nothing."""
    switch, operator = opened(Endpoint(by_target(b"one")).port, workers=7)
    check("answers", set(polite(switch.active, 20).answers), {answer(b"one")})
    time.sleep(5)
    check("the port is open", is_open(switch.active), True)
    operator.send_quit()
    check_ends_soon("a run without trouble", switch, 40)
    check("a run without trouble tells nothing", switch.told, [])


if __name__ == "__main__":
    checks.run(
        "live_shutdown",
        (
            graceful,
            waiting_for_a_seat,
            backlog_at_quit,
            sent_before_quit,
            sent_within_the_grace,
            silent_for_the_grace,
            unread_after_the_grace,
            watches_refused,
            quit_of_the_opener,
            at_rest,
            before_open,
            late_at_quit,
            cut_at_its_timeout,
            pending_at_the_end,
            counted,
            connections_used_up,
            too_few_threads,
            no_threads,
            accepts_that_fail,
            nothing_to_tell,
        ),
        6,
        by_hand=(cut_after_sixty_seconds,),
    )
