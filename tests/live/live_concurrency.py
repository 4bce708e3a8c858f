"""`bg_switch serve --concurrency` on loopback: hundreds of requests at a time, and event loops that
wait."""
import concurrent.futures
import contextlib
import os
import pathlib
import random
import re
import resource
import shutil
import signal
import socket
import subprocess
import threading
import time
from collections.abc import Callable, Iterator, Sequence
from typing import NamedTuple

from support import checks, clients, processes
from support.checks import check, check_soon, check_within, comes
from support.endpoints import Endpoint, Request
from support.messages import BAD_GATEWAY, BY_HAND, UNAVAILABLE, answer, request, response
from support.ports import connections_at, free_ports
from support.random_orders import RandomOrders
from support.processes import descriptors, resident_memory, threads
from support.switch import Switch

# How long a request may stay open whose client has gone, in seconds.
SOON = 10
# For how many seconds endpoints may be silent: a busy machine needs some until hundreds of requests
# have come.
TIMEOUT = 600
# A line of strace that begins a call of a thread.
CALL = re.compile(r"\[pid +(?P<thread>\d+)\] (?P<name>\w+)\(")
# For how long it is seen what the switch doesn't do, in seconds.
SEEN = 0.3
# For how many seconds a switch makes few calls that has nothing to do.
QUIET = 3
SINGLE_CLIENTS, STAYING = 20, 40
SEED = 52
EACH_ORDER = 10  # requests at least, for each order beside them
# The descriptors that a switch needs with a thousand requests at a time, by its soft and its hard
# limit.
MANY = (8192, 8192)
# The event loops of the active port in the parts that count threads, calls or memory, which would
# else depend on the machine.
LOOPS = 4
LOOPS_GIVEN = ("--threads", str(LOOPS))
# The most that the active port may have.
MOST_LOOPS = 64
# The threads of a switch without an access log beside those of its event loops: that of the operators.
OTHER_THREADS = 1
CPU_MAX = pathlib.Path("/sys/fs/cgroup/cpu.max")


class Gate:
    """An endpoint whose answers to `/held` wait until it is opened. It answers all others at
    once."""

    def __init__(self) -> None:
        self.opening = threading.Event()
        self.held = 0
        self.lock = threading.Lock()
        self.endpoint = Endpoint(self.answer)

    def answer(self, asked: Request, connection: socket.socket) -> None:
        if asked.target == b"/held":
            with self.lock:
                self.held += 1
            self.opening.wait(TIMEOUT)
        connection.sendall(response(b"ok"))


@contextlib.contextmanager
def held(port: int, count: int) -> Iterator[list[socket.socket]]:
    """`count` clients of the port whose requests the endpoint holds."""
    with contextlib.ExitStack() as stack:
        sockets = [stack.enter_context(clients.connect(port)) for _ in range(count)]
        for client in sockets:
            client.sendall(request(b"/held"))
        yield sockets


@contextlib.contextmanager
def serving(
    gate: Gate,
    descriptors: tuple[int, int],
    *words: str,
    preview: bool = True,
    prepare: Callable[[], object] = lambda: None,
) -> Iterator[Switch]:
    """A switch with these words in place of `--workers`, that serves the endpoint. `descriptors`
    are its soft and its hard limit. `prepare` is called in its process before it starts."""
    switch = Switch(
        BY_HAND,
        instead_of_workers=words,
        preview=preview,
        descriptors=descriptors,
        timeout=TIMEOUT,
        prepare=prepare,
    )
    try:
        check("opened", switch.answer_to(f"open one {gate.endpoint.port}"), "ok 0")
        check("available", switch.answer_to("available 1 1"), "ok 0")
        yield switch
    finally:
        switch.stop()


def hundreds_at_a_time() -> None:
    """300 requests are open at once, a further one is served beside them, and all are answered."""
    gate = Gate()
    with serving(gate, MANY, "--concurrency", "301") as switch, held(switch.active, 300) as pending:
        check("300 requests at the endpoint", comes(lambda: gate.held == 300), True)
        check("300 open requests", switch.open_requests(), [300])
        check("a request beside them", clients.asked(switch.active, request()), answer(b"ok"))
        gate.opening.set()
        check("their answers", {clients.received(client) for client in pending}, {answer(b"ok")})
        check("no open request", comes(lambda: switch.open_requests() == [0]), True)


def most_at_a_time() -> None:
    """As many requests as the words say are at the endpoint; a further one waits, and is answered
    after them."""
    for words, active, preview in (
        (("--concurrency=24",), 24, 3),
        (("--concurrency", "5"), 5, 1),
        (("--concurrency", "9", "--preview-concurrency", "4"), 9, 4),
        (("--workers", "3"), 3, 1),
        (("--workers", "3", "--preview-concurrency=2"), 3, 2),
    ):
        for is_preview, most in ((False, active), (True, preview)):
            with serving(gate := Gate(), MANY, *words) as switch:
                check_most_at_a_time(
                    gate,
                    switch.preview if is_preview else switch.active,
                    most,
                    f"{' '.join(words)} at the {'preview' if is_preview else 'active'} port",
                )


def check_most_at_a_time(gate: Gate, port: int, most: int, name: str) -> None:
    with held(port, most + 1) as pending:
        check(f"{name}: {most} at the endpoint", comes(lambda: gate.held == most), True)
        time.sleep(SEEN)
        check(f"{name}: no more than {most}", gate.held, most)
        gate.opening.set()
        check(
            f"{name}: answers",
            [clients.received(client) for client in pending],
            [answer(b"ok")] * (most + 1),
        )


def a_slow_route_beside_a_fast_one() -> None:
    """100 clients wait for a slow route; the requests of a fast one don't wait for them."""
    gate = Gate()
    with serving(gate, MANY, "--concurrency", "128") as switch, held(switch.active, 100) as pending:
        check("100 requests at the slow route", comes(lambda: gate.held == 100), True)
        began = time.monotonic()
        for _ in range(50):
            check("the fast route", clients.asked(switch.active, request()), answer(b"ok"))
        check_soon("50 requests of the fast route", time.monotonic() - began, 5)
        gate.opening.set()
        check("the slow route", {clients.received(client) for client in pending}, {answer(b"ok")})


class Call(NamedTuple):
    """A system call that a thread has begun."""

    moment: float
    thread: str
    name: str


class Trace:
    """The system calls of a process."""

    def __init__(self) -> None:
        self.calls: list[Call] = []

    def threads(self) -> int:
        return len({call.thread for call in list(self.calls)})

    def in_last(self, seconds: float) -> int:
        """How many calls were begun in the last seconds."""
        return sum(call.moment > time.monotonic() - seconds for call in list(self.calls))

    def named(self, name: str) -> int:
        """How many calls have this name."""
        return sum(call.name == name for call in list(self.calls))


@contextlib.contextmanager
def traced(process: int) -> Iterator[Trace]:
    """Traces a process. `strace` interrupts each thread as it begins, which makes it call again."""
    trace = Trace()
    with subprocess.Popen(
        ["strace", "-f", "-p", str(process)], stderr=subprocess.PIPE, text=True
    ) as strace:

        def read() -> None:
            for line in strace.stderr or ():
                if found := CALL.match(line):
                    trace.calls.append(Call(time.monotonic(), found["thread"], found["name"]))

        reader = threading.Thread(target=read)
        reader.start()
        # strace ends the line of a call that waits only when another thread calls
        check(
            "each thread is traced",
            comes(lambda: trace.threads() >= threads(process) - 1),
            True,
        )
        yield trace
        strace.send_signal(signal.SIGINT)
        reader.join()


def calls_of_idle_loops() -> None:
    """An idle switch for 1,000 requests at a time makes at most ten system calls a second, all
    threads together."""
    if shutil.which("strace") is None:
        print("live_concurrency: no strace, so the system calls of idle loops were not counted")
        return
    gate = Gate()
    with serving(gate, MANY, "--concurrency", "1000", *LOOPS_GIVEN) as switch:
        check("a request", clients.asked(switch.active, request()), answer(b"ok"))
        with traced(switch.process.pid) as trace:
            quiet = comes(lambda: trace.in_last(QUIET) <= 10 * QUIET)
            check("each thread waits again", quiet, True)
            time.sleep(6)
            idle = trace.in_last(6)
            check("calls of event loops are counted", idle > 0, True)
            check_within("system calls of a second", idle / 6, 10)
        check("a request after it", clients.asked(switch.active, request()), answer(b"ok"))


def accepts_of_single_clients() -> None:
    """A client that comes alone is accepted by one call, and no second one finds that none waits."""
    if shutil.which("strace") is None:
        print("live_concurrency: no strace, so the accepts of single clients were not counted")
        return
    with serving(Gate(), MANY, "--concurrency", "8", "--threads", "1", preview=False) as switch:
        with traced(switch.process.pid) as trace:
            for _ in range(SINGLE_CLIENTS):
                check("a request", clients.asked(switch.active, request()), answer(b"ok"))
        # (strace has told all calls now)
        check("the calls that accept them", trace.named("accept4"), SINGLE_CLIENTS)


def clients_that_stay() -> None:
    """Clients that come one after another, and stay, are spread over the event loops."""
    gate = Gate()
    with contextlib.ExitStack() as stack:
        switch = stack.enter_context(
            serving(gate, MANY, "--concurrency", str(STAYING), *LOOPS_GIVEN, preview=False)
        )
        check("each event loop waits", comes(lambda: all_wait(switch)), True)
        before = watched(switch)
        for count in range(1, STAYING + 1):
            stack.enter_context(held(switch.active, 1))
            check("a request at the endpoint", comes(lambda: gate.held == count), True)
        # the sockets of clients and of their requests, which are as many for each; the other set
        # is that of the operators
        counts = sorted(count - before[one] for one, count in watched(switch).items())[-LOOPS:]
        check_within(f"sockets of the event loops {counts}", counts[-1], 1.5 * counts[0])
        gate.opening.set()


def all_wait(switch: Switch) -> bool:
    """Whether each event loop has begun, and so have the operators: none of their epoll sets changes
    for a while."""
    begun = watched(switch)
    time.sleep(SEEN)
    return len(begun) == LOOPS + OTHER_THREADS and watched(switch) == begun


def watched(switch: Switch) -> dict[int, int]:
    """How many descriptors each epoll set of a switch watches."""
    process = switch.process.pid
    sets = processes.epoll_sets(process)
    return {one: len(processes.watched_by(process, one)) for one in sets}


def threads_and_memory() -> None:
    """There is a thread for each event loop and a few others, however many requests may be served
    at a time. While none is, each of them takes at most 64 KiB of memory."""
    gate = Gate()
    sizes = []
    for count in ("1", "1000"):
        with serving(gate, MANY, "--concurrency", count, *LOOPS_GIVEN, preview=False) as switch:
            process = switch.process.pid
            check("a request", clients.asked(switch.active, request()), answer(b"ok"))
            check("its threads", comes(lambda: threads(process) == LOOPS + OTHER_THREADS), True)
            sizes.append(resident_memory(process))
    check_within("KiB of a request at a time that is not there", (sizes[1] - sizes[0]) / 999, 64)


def number_of_loops() -> None:
    """The words say how many event loops the active port has, each in a thread of its own. Without
    them it has as many as the program has processors, but at most one for each four requests at a
    time, rounded up. The preview port has one."""
    own = sorted(os.sched_getaffinity(0))
    usual = min(len(own), quota(), MOST_LOOPS)
    check_loops(own, 1, 8, "--threads", "1")
    check_loops(own, 7, 8, "--threads=7")
    check_loops(own[:1], MOST_LOOPS, 8, "--threads", str(MOST_LOOPS))
    check_loops(own[:1], 1, 256)
    check_loops(own, usual, 256)
    check_loops(own, min(usual, 3), 11)
    check_loops(own, min(usual, 2), 5)
    check_loops(own, 1, 4)


def check_loops(processors: Sequence[int], loops: int, concurrency: int, *words: str) -> None:
    """Checks the number of threads of a switch with these words, which runs on these processors."""
    name = " ".join((f"{len(processors)} processors, concurrency {concurrency}", *words))
    with serving(
        Gate(),
        MANY,
        "--concurrency",
        str(concurrency),
        *words,
        prepare=lambda: os.sched_setaffinity(0, processors),
    ) as switch:
        expected, process = loops + 1 + OTHER_THREADS, switch.process.pid
        check(f"{name}: a request", clients.asked(switch.active, request()), answer(b"ok"))
        comes(lambda: threads(process) == expected)
        check(f"{name}: threads", threads(process), expected)


def quota() -> int:
    """How many processors a container leaves to its programs (`cpu.max` of cgroups)."""
    with contextlib.suppress(OSError, ValueError):
        limit, period = CPU_MAX.read_text(encoding="ascii").split()
        return max(int(limit) // int(period), 1)
    return MOST_LOOPS


def descriptors_of_many_requests() -> None:
    """The switch raises its soft limit of descriptors to the hard one, and says if that is too
    little."""
    gate = Gate()
    with serving(gate, (256, 4096), "--concurrency", "255") as switch:
        soft, _ = resource.prlimit(switch.process.pid, resource.RLIMIT_NOFILE)
        check("the soft limit", soft, 4096)
        check("no notice", switch.count_told("descriptors"), 0)
    with serving(gate, (256, 512), "--concurrency", "255") as switch:
        check("the notice", switch.tells("512", "descriptors"), True)
        check("a request", clients.asked(switch.active, request()), answer(b"ok"))


class Soak:
    """Clients of many kinds, operators and endpoints that crash, by a seed."""

    def __init__(self, requests: int, concurrency: int) -> None:
        self.rng = random.Random(SEED)
        self.requests = requests
        self.endpoints = [Endpoint(self.answer, port) for port in free_ports(2)]
        self.switch = Switch(
            BY_HAND,
            instead_of_workers=("--concurrency", str(concurrency)),
            descriptors=MANY,
            timeout=TIMEOUT,
        )
        self.begun = 0  # requests
        self.ends: dict[bytes | None, int] = {}
        self.lock = threading.Lock()
        self.over = threading.Event()

    @staticmethod
    def answer(asked: Request, connection: socket.socket) -> None:
        if asked.target == b"/late":
            time.sleep(0.05)
        if asked.target != b"/closes":
            connection.sendall(response(b"ok"))

    def client(self, kind: int) -> None:
        """One client: it gets its answer, closes early, sends a part, or resets."""
        with self.lock:
            self.begun += 1
        port = self.switch.preview if kind % 7 == 0 else self.switch.active
        target = (b"/", b"/late", b"/closes")[kind % 3]
        with contextlib.suppress(OSError), clients.connect(port) as client:
            text = request(target)
            if kind % 11 == 0:
                client.sendall(text[: kind % len(text)])
                return
            client.sendall(text)
            if kind % 13 == 0:
                clients.reset(client)
                return
            got = clients.received(client)
            with self.lock:
                self.ends[got] = self.ends.get(got, 0) + 1

    def operate(self) -> None:
        """Orders at random, none of which takes the last endpoint for long."""
        first, second = ((endpoint.port,) for endpoint in self.endpoints)
        orders = RandomOrders(self.switch, first, second, SEED + 1)
        # a slow machine does not make more orders of the same requests
        orders.play(self.over, lambda: self.begun // EACH_ORDER)

    def crash_endpoints(self) -> None:
        rng = random.Random(SEED + 2)
        while not self.over.wait(0.5):
            endpoint = rng.choice(self.endpoints)
            endpoint.stop()
            self.over.wait(0.1)
            endpoint.start()

    def run(self, at_once: int) -> None:
        first = self.endpoints[0].port
        check("opened", self.switch.answer_to(f"open one {first}"), "ok 0")
        check("available", self.switch.answer_to("available 1 1"), "ok 0")
        before = None
        with concurrent.futures.ThreadPoolExecutor(2) as helpers:
            helpers.submit(self.operate)
            helpers.submit(self.crash_endpoints)
            try:
                with concurrent.futures.ThreadPoolExecutor(at_once) as pool:
                    half = self.requests // 2
                    list(pool.map(self.client, (self.rng.randrange(1 << 20) for _ in range(half))))
                    before = self.footprint()
                    list(pool.map(self.client, (self.rng.randrange(1 << 20) for _ in range(half))))
            finally:
                self.over.set()
        check("what the switch told", self.switch.told, [])
        self.check_end(before)

    def has_no_client(self) -> bool:
        """Whether all connections of clients have ended, and all requests."""
        ports = self.switch.active, self.switch.preview
        return not any(map(connections_at, ports)) and not any(self.switch.open_requests())

    def footprint(self) -> tuple[int, int]:
        """The descriptors and the threads, once no client is there any more."""
        process = self.switch.process.pid
        check("no client is there", comes(self.has_no_client), True)
        counts = []
        for _ in range(50):
            time.sleep(0.02)
            counts.append(len(descriptors(process)))
        return min(counts), threads(process)

    def check_end(self, before: tuple[int, int] | None) -> None:
        check(
            "each answer is of a known kind",
            set(self.ends) - {answer(b"ok"), BAD_GATEWAY, UNAVAILABLE, b"", None},
            set(),
        )
        # a fifth of them, and fewer on a busy machine, whose endpoints are away for longer
        answered = self.ends.get(answer(b"ok"), 0)
        check("many answers are of endpoints", answered > self.requests // 30, True)
        check("no open request", comes(lambda: not any(self.switch.open_requests()), SOON), True)
        check("descriptors and threads", self.footprint(), before)
        with contextlib.closing(self.switch.operator()) as operator:
            operator.send_quit()
            ended = self.switch.wait()
        check("the status", ended.status, 0)
        opens = [
            line.split(" open ")[1].split()[0]
            for line in ended.printed.splitlines()
            if " open " in line
        ]
        check("open requests of the last report", set(opens), {"0"})
        calls = int(ended.printed.splitlines()[-1].removeprefix("calls "))
        check("calls come in pairs", calls % 2, 0)
        check(
            "at least the answered requests entered",
            calls // 2 >= self.ends.get(answer(b"ok"), 0),
            True,
        )


def requests_beside_crashes() -> None:
    """3,000 requests, 200 at a time, with random orders, endpoints that crash, and clients that
    go."""
    Soak(3_000, 200).run(64)


def three_hundred_thousand() -> None:
    """The same with 300,000 requests."""
    processes.LONGEST = checks.LONGEST_BY_HAND
    Soak(300_000, 200).run(256)


if __name__ == "__main__":
    checks.run(
        "live_concurrency",
        [
            hundreds_at_a_time,
            most_at_a_time,
            a_slow_route_beside_a_fast_one,
            calls_of_idle_loops,
            accepts_of_single_clients,
            clients_that_stay,
            threads_and_memory,
            number_of_loops,
            descriptors_of_many_requests,
            requests_beside_crashes,
        ],
        by_hand=[three_hundred_thousand],
    )
