"""The ports of clients of a running `serve`: requests that come slowly, answers that are taken
slowly, uploads, clients that have gone, more connections than a port keeps, and as many requests at
endpoints as may be there at a time."""
import contextlib
import select
import signal
import socket
import threading
import time
from collections import Counter
from collections.abc import Callable, Iterator
from functools import partial

from support import checks, clients, faults, processes
from support.checks import check, check_soon, comes
from support.clients import (
    SMALL_BUFFER,
    Crowd,
    at_once,
    connect,
    read_steadily,
    received,
    reset,
    timed,
)
from support.endpoints import Endpoint, Held, Request, by_target, held_at
from support.messages import (
    BAD_REQUEST,
    CONTINUE,
    HEAD_TOO_LARGE,
    LARGEST_BODY,
    NOT_IMPLEMENTED,
    TOO_LARGE,
    answer,
    head_of,
    request,
    response,
)
from support.ports import (
    HOST,
    connections_at,
    has_delivered,
    inodes_at,
    is_accepted,
    is_refused,
    unread_at,
)
from support.switch import LaterEnd, Switch, opened, serving

# How long, in seconds, a polite client waits at most beside slow ones. If one of them kept a seat
# that it needs, it would wait for the timeout of the switch or longer. That is so long that it ends
# nothing on a busy machine.
POLITE = 8.0
TIMEOUT = 600
ABORT_ON_CLOSE = "--abort-on-close"
# What a wait may take, in seconds, beyond its limit.
SLACK = 5.0
# How many clients read steadily at once, and how often they come at most.
READERS, ROUNDS_OF_READERS = 80, 3
BIG = b"x" * 4000000
# How often clients come at most until they are at several event loops.
ROUNDS_OF_CLIENTS = 10
FOUR_LOOPS = ("--threads", "4")
HEAD_OF_CHUNKS = b"POST / HTTP/1.1\r\nHost: x\r\nTransfer-Encoding: chunked\r\n\r\n"
MEGABYTE = 1 << 20


def check_polite(name: str, port: int, count: int, body: bytes, most: float = POLITE) -> None:
    """Checks that a client that asks so often is answered this body, and how long it waits at
    most."""
    waits = clients.polite(port, count, 0.05)
    check(f"polite clients beside {name}", set(waits.answers), {answer(body)})
    check_soon(f"the wait beside {name}", waits.longest, most)


def drips() -> None:
    """A hundred clients at once send a byte now and then."""
    endpoint = Endpoint(by_target(b"one"))
    firsts = {
        "a request line": b"GET /",
        "a field": request()[:-2] + b"A: ",
        "a body": head_of(100000),
        "a body in chunks": HEAD_OF_CHUNKS + b"ffff\r\n",
    }
    with serving(endpoint.port, workers=7, timeout=TIMEOUT) as switch:
        for what, first in firsts.items():
            with clients.dripping(switch.active, 100, first, 0.2), clients.dripping(
                switch.preview, 20, first, 0.2
            ):
                check_polite(f"clients that drip {what}", switch.active, 20, b"one")
                check_polite(
                    f"clients that drip {what} at the preview port", switch.preview, 5, b"one"
                )
        check("requests that dripped reach no endpoint", endpoint.served, 25 * len(firsts))


def in_pieces(text: bytes, size: int) -> list[bytes]:
    return [text[start : start + size] for start in range(0, len(text), size)]


def refusals() -> None:
    """A faulty request is answered as one that comes at once, even if it comes in pieces."""
    texts = {
        request().replace(b"Host: x\r\n", b""): BAD_REQUEST,
        head_of(1).replace(b"\r\n\r\n", b"\r\nTransfer-Encoding: chunked\r\n\r\n"): BAD_REQUEST,
        HEAD_OF_CHUNKS + b"x\r\n": BAD_REQUEST,
        head_of(LARGEST_BODY + 1): TOO_LARGE,
        HEAD_OF_CHUNKS + b"%x\r\n" % (LARGEST_BODY + 1): TOO_LARGE,
        b"GET / HTTP/1.1\r\n" + b"A: b\r\n" * 65 + b"\r\n": HEAD_TOO_LARGE,
        b"GET /" + b"a" * 16384: HEAD_TOO_LARGE,
        request(method=b"CONNECT"): NOT_IMPLEMENTED,
    }
    endpoint = Endpoint(by_target(b"one"))
    with serving(endpoint.port, workers=3) as switch:
        whole = at_once([partial(timed, switch.active, [text]) for text in texts])
        pieces = at_once(
            [
                partial(timed, switch.active, in_pieces(text, 1 + len(text) // 6), 0.1)
                for text in texts
            ]
        )
    check(
        "a faulty request that comes at once", [got.answer for got in whole], list(texts.values())
    )
    check(
        "a faulty request that comes in pieces",
        [got.answer for got in pieces],
        list(texts.values()),
    )
    check("faulty requests reach no endpoint", endpoint.served, 0)


def long_chunks() -> None:
    """A body within the limits whose chunks have long lines: it takes sixteen times as many bytes,
    more than are buffered."""
    body = bytes(range(256)) * 4096
    line = b"40;" + b"e" * 1000 + b"\r\n"
    chunks = b"".join(line + piece + b"\r\n" for piece in in_pieces(body, 64))
    with serving(Endpoint(by_target(b"one")).port, workers=2, timeout=TIMEOUT) as switch:
        got = timed(
            switch.active, [HEAD_OF_CHUNKS, *in_pieces(chunks + b"0\r\n\r\n", MEGABYTE)], 0.05
        ).answer
    check("a body of 16 MB on the wire", got == answer(b"one" + body), True)


class Counting:
    """Answers each request with its body, and counts the requests by their target."""

    def __init__(self) -> None:
        self.targets: Counter[bytes] = Counter()
        self.lock = threading.Lock()

    def __call__(self, asked: Request, connection: socket.socket) -> None:
        with self.lock:
            self.targets[asked.target] += 1
        connection.sendall(response(asked.body))


def sent_and_reset(port: int, text: bytes) -> bytes:
    """Sends this and resets the connection."""
    client = connect(port)
    client.sendall(text)
    time.sleep(0.05)
    reset(client)
    return b""


def answered(port: int, pieces: list[bytes], pause: float) -> bytes:
    """What a client is answered that sends these pieces."""
    return timed(port, pieces, pause).answer


def ended_early(port: int, text: bytes) -> bytes | None:
    """What a client is answered that sends this and ends its side; if its connection isn't ended,
    that is said."""
    with connect(port) as client:
        try:
            return clients.answer_of(client, text)
        except TimeoutError:
            return b"no end"


def served_once() -> None:
    """Each connection is given to one event loop once, whichever way its request comes: the endpoint
    counts the requests, and the run ends with the last connection."""
    counting = Counting()
    # requests in pieces have to be whole by then, on a busy machine too
    switch, operator = opened(Endpoint(counting).port, workers=6, count=50, timeout=15)
    port, calls, expected = switch.active, list[Callable[[], bytes | None]](), list[bytes]()
    for number in range(60):
        target, body = b"/%d" % number, b"%d" % number
        text = request(target, b"POST", body * 400, chunked=number % 2 == 0)
        cut = request(b"/cut", b"POST", body * 400)[:-1]
        calls += [
            partial(answered, port, [text], 0.0),
            partial(answered, port, in_pieces(text, 300), 0.02),
            partial(ended_early, port, cut),
            partial(sent_and_reset, port, cut),
            partial(answered, port, [cut[:40], cut[40:]], 0.02),
        ]
        expected += [answer(body * 400)] * 2 + [b""] * 3
    check("what each client of 300 is answered", at_once(calls) == expected, True)
    check(
        "each request is forwarded once",
        counting.targets,
        Counter({b"/%d" % number: 2 for number in range(60)}),
    )
    check("the port is closed with its last connection", is_refused(port), True)
    operator.send_quit()
    for _ in range(50):
        connect(switch.preview).close()
    check(
        "each connection is given to an event loop",
        comes(lambda: switch.process.poll() is not None),
        True,
    )
    switch.process.terminate()
    ended = switch.wait()
    check(
        "each connection is given to one event loop once",
        (ended.printed[-10:], ended.status),
        ("calls 240\n", 0),
    )


def late_requests() -> None:
    """A request that isn't whole in time is ended without an answer, and not before."""
    timeout = 5
    firsts = {
        "that is silent": b"",
        "in its head": b"GET / HTTP/1.1\r\nHo",
        "in its body": head_of(1000) + b"abc",
        "in its chunks": HEAD_OF_CHUNKS + b"ffff\r\nabc",
    }
    with serving(Endpoint(by_target(b"one")).port, workers=2, timeout=timeout) as switch:
        later = LaterEnd(3 * timeout)
        silent, dripped = at_once(
            [
                lambda: at_once(
                    [partial(timed, switch.active, [first]) for first in firsts.values()]
                ),
                lambda: at_once(
                    [
                        partial(timed, switch.active, [first, *[b"a"] * 500], 0.2)
                        for first in firsts.values()
                    ]
                ),
            ]
        )
        in_time = timed(switch.active, in_pieces(request(), 8), 0.3)
    for what, ends in (("that says no more", silent), ("that drips", dripped)):
        for where, end in zip(firsts, ends):
            check(f"a client {where} and {what} is answered nothing", end.answer, b"")
            check(f"a client {where} and {what} has its time", end.seconds > timeout - 1, True)
            check(
                f"a request past its time is ended ({where}, {what})",
                later.is_after(end.seconds),
                True,
            )
    check("a request that is whole in time", in_time.answer, answer(b"one"))


def continues() -> None:
    """`100 Continue` is written once if it is owed, and else not at all."""
    body, whole = b"b" * 1000, CONTINUE + answer(b"one" + b"b" * 1000)
    head = head_of(1000).replace(b"\r\n\r\n", b"\r\nExpect: 100-continue\r\n\r\n")
    chunked = HEAD_OF_CHUNKS.replace(b"\r\n\r\n", b"\r\nExpect: 100-continue\r\n\r\n")
    chunks = b"1f4\r\n" + b"b" * 500 + b"\r\n" + b"1f4\r\n" + b"b" * 500 + b"\r\n0\r\n\r\n"
    wide = b"".join(b"1;" + b"e" * 1000 + b"\r\nb\r\n" for _ in range(10000)) + b"0\r\n\r\n"
    cases: dict[str, tuple[list[bytes], bytes]] = {
        "before the body": ([head, body], whole),
        "before a body that comes with the head": ([head + body], whole),
        "before a body in pieces": ([head, *in_pieces(body, 300)], whole),
        "after a head in pieces": ([*in_pieces(head, 30), body], whole),
        "before chunks": ([chunked, chunks], whole),
        "before chunks that come with the head": ([chunked + chunks], whole),
        "before more chunks than are buffered": (
            [chunked, *in_pieces(wide, MEGABYTE)],
            CONTINUE + answer(b"one" + b"b" * 10000),
        ),
        "not before a body that is too large": ([head.replace(b"1000", b"1048577")], TOO_LARGE),
        "not where no body is to come": ([head.replace(b"1000", b"0")], answer(b"one")),
        "not in version 1.0": (
            [head.replace(b"HTTP/1.1", b"HTTP/1.0"), body],
            answer(b"one" + body),
        ),
    }
    with serving(Endpoint(by_target(b"one")).port, workers=2, timeout=TIMEOUT) as switch:
        got = at_once(
            [partial(answered, switch.active, pieces, 0.1) for pieces, _ in cases.values()]
        )
    for (what, (_, expected)), found in zip(cases.items(), got):
        check(
            f"100 Continue is written once: {what}",
            (found.count(CONTINUE), found == expected),
            (expected.count(CONTINUE), True),
        )


class LateReader:
    """A client that reads a little of its answer each second, and all the rest in the end. One that
    took nothing for too long would be let go."""

    def __init__(self, port: int) -> None:
        self.connection = connect(port, SMALL_BUFFER)
        self.connection.sendall(request(b"/big"))
        self.may_hurry = threading.Event()
        self.got = b""
        self.thread = threading.Thread(target=self.read, daemon=True)
        self.thread.start()

    def read(self) -> None:
        with self.connection, contextlib.suppress(OSError):
            while not self.may_hurry.wait(1.0):
                self.got += self.connection.recv(1024)
            self.got += received(self.connection)

    def rest(self) -> bytes:
        """The whole answer."""
        self.may_hurry.set()
        self.thread.join()
        return self.got


def slow_readers() -> None:
    """Forty clients read an answer of 4 MB at a kilobyte a second: they hold no seat, no request
    and no revision, and one that reads on gets all of its answer."""
    one, two = Endpoint(by_target(b"one")), Endpoint(by_target(b"two"))
    switch, operator = opened(one.port, workers=3, timeout=TIMEOUT)
    late = LateReader(switch.active)
    with clients.slow_readers(switch.active, 40, b"/big"):
        check("slow readers have reached the endpoint", comes(lambda: one.served == 41), True)
        start = time.monotonic()
        check("slow readers hold no request", comes(lambda: operator.open_requests() == [0]), True)
        check_soon(
            "the wait until no request of slow readers is open", time.monotonic() - start, POLITE
        )
        check_polite("clients that read slowly", switch.active, 20, b"one")
        operator.check(f"deploy two {two.port}", "ok 0")
        operator.check("available 2 1", "ok 4")
        operator.check("tick 30", "ok 1")
        check(
            "the revision of slow readers is scaled down",
            operator.revisions()[0],
            "revision 1 one desired 0 available 0 open 0 deadline none",
        )
        check_polite("slow readers of the revision before", switch.active, 5, b"two")
        check("a slow reader gets the whole of its answer", late.rest() == answer(BIG), True)
    operator.close()
    switch.stop()


def stalled_reader() -> None:
    """A client that takes nothing of its answer for 30 seconds is let go, and not before."""
    with serving(Endpoint(by_target(b"one")).port, workers=1, timeout=TIMEOUT) as switch:
        with connect(switch.active, SMALL_BUFFER) as client:
            start = time.monotonic()
            client.sendall(request(b"/big"))
            check(
                "the answer is pending",
                comes(lambda: switch.open_requests() == [0] and connections_at(switch.active) == 1),
                True,
            )
            check(
                "a client that takes nothing is let go",
                comes(lambda: connections_at(switch.active) == 0, 30 + SLACK),
                True,
            )
            check("a client that takes nothing has its time", time.monotonic() - start > 27, True)


def many_answers() -> None:
    """The answers that a port keeps are bounded: of more slow readers some are let go, and others
    are served."""
    endpoint, count = Endpoint(by_target(b"one")), 320
    with serving(endpoint.port, workers=7, timeout=TIMEOUT) as switch:
        with clients.slow_readers(switch.active, count, b"/big"):
            check(
                "all slow readers reach the endpoint", comes(lambda: endpoint.served == count), True
            )
            check_polite("more answers than a port keeps", switch.active, 10, b"one", 10.0)
            check(
                "some of the slow readers are let go",
                comes(lambda: connections_at(switch.active) < count - 20, 10),
                True,
            )


def steady_readers() -> None:
    """Clients that read fast enough get the whole of their answers, however many there are. A busy
    machine makes some of them silent: as many come as are needed until enough were steady."""
    steady = 0
    with serving(Endpoint(by_target(b"one")).port, workers=7, timeout=TIMEOUT) as switch:
        for _ in range(ROUNDS_OF_READERS):
            reads = at_once([partial(read_steadily, switch.active, b"/big")] * READERS)
            cut = [one for one in reads if one.bytes_read < len(answer(BIG)) and one.is_steady()]
            check("steady readers get the whole of their answers", cut, [])
            steady += sum(one.is_steady() for one in reads)
            if steady >= READERS // 2:
                break
    check("readers were steady", steady > 0, True)


def large_bodies() -> None:
    """The answer to a body that is too large arrives, even if the client sends all of the body
    first, and isn't reset."""
    mega = bytes(MEGABYTE)
    cases = {f"{count} MB at once": [head_of(count << 20) + mega * count] for count in (2, 4, 15)}
    cases["4 MB in pieces"] = [head_of(4 << 20), *in_pieces(mega * 4, 65536)]
    cases["6 MB in chunks"] = [
        HEAD_OF_CHUNKS + (b"%x\r\n" % MEGABYTE + mega + b"\r\n") * 6 + b"0\r\n\r\n"
    ]
    with serving(Endpoint(by_target(b"one")).port, workers=2) as switch:
        got = at_once([partial(clients.asked, switch.active, *pieces) for pieces in cases.values()])
    for what, found in zip(cases, got):
        check(f"413 arrives for {what}", found, TOO_LARGE)


def endless_bodies() -> None:
    """A client that was answered and sends on is passed over for ten seconds and up to 16 MiB, and
    keeps no seat."""
    with serving(Endpoint(by_target(b"one")).port, workers=1) as switch:
        with connect(switch.active) as client, contextlib.suppress(OSError):
            client.sendall(head_of(1 << 40))
            sent = 0
            while sent < 64 * MEGABYTE:
                sent += client.send(bytes(65536))
        check(
            "a client that sends without end is passed over up to a bound",
            sent < 64 * MEGABYTE,
            True,
        )
        start = time.monotonic()
        with connect(switch.active) as client:
            client.sendall(head_of(1 << 40))
            check("it is answered", client.recv(65536), TOO_LARGE)
            sender = threading.Thread(
                target=clients.send_in_pieces, args=(client, [b"a"] * 200, 0.1), daemon=True
            )
            sender.start()
            check_polite("a client that sends on after its answer", switch.active, 10, b"one")
            check(
                "a client that sends on is let go in the end",
                comes(lambda: connections_at(switch.active) == 0, 10 + SLACK),
                True,
            )
            check("it isn't let go before", time.monotonic() - start > 8, True)
            sender.join()


def uploads() -> None:
    """Sixty clients that upload 1 MB at once are all answered 200."""
    upload_at_once(60)


def two_thousand_uploads() -> None:
    upload_at_once(2000)


def upload_at_once(count: int) -> None:
    processes.limit_descriptors(16000)
    with serving(
        Endpoint(by_target(b"one")).port, workers=7, timeout=300, descriptors=8192
    ) as switch:
        got = at_once([partial(clients.upload, switch.active, LARGEST_BODY, 65536, 0.02)] * count)
    check(f"{count} uploads of 1 MB at once", clients.counted(got), {b"200": count})


def few_descriptors() -> None:
    """With `ulimit -n 30` it serves on beside silent and dripping clients."""
    with serving(
        Endpoint(by_target(b"one")).port, workers=1, timeout=TIMEOUT, descriptors=30
    ) as switch:
        with Crowd(switch.active, 12, b""), clients.dripping(switch.active, 4, b"GET /"):
            check_polite("silent clients and thirty descriptors", switch.active, 5, b"one", 20.0)
        check(
            "it has let go of them", comes(lambda: connections_at(switch.active) == 0, SLACK), True
        )
        check("a client once they have gone", clients.get(switch.active), (200, b"one"))


def full_port() -> None:
    """Of 1,130 clients a port keeps 1,024. Silent ones are let go when others come."""
    processes.limit_descriptors(16000)
    with serving(
        Endpoint(by_target(b"one")).port, workers=3, timeout=TIMEOUT, descriptors=4096
    ) as switch:
        with Crowd(switch.active, 1130, b""):
            check("a port that is full", comes(lambda: connections_at(switch.active) >= 1024), True)
            check_polite("more silent clients than a port keeps", switch.active, 10, b"one", 10.0)
            check(
                "connections that a port keeps",
                comes(lambda: connections_at(switch.active) < 1100),
                True,
            )


def filled(switch: Switch, uploads: list[socket.socket]) -> socket.socket:
    """Adds uploads until the port is full. Gives the first client that has to wait for an
    accept."""
    while True:
        client = connect(switch.active)
        if not comes(partial(is_accepted, client), 1.0):
            return client
        client.sendall(head_of(MEGABYTE).replace(b"/", b"/slow", 1) + b"x" * 4096)
        uploads.append(client)


def has_bytes(client: socket.socket) -> bool:
    """Whether something has come to a client, or its connection has ended."""
    return is_told(client, select.POLLIN)


def room_is_noticed() -> None:
    """A client that came while the port was full is accepted once there is room, whatever the
    others do."""

    for _ in range(4):
        held = Held(b"held")
        endpoint = Endpoint(held_at(b"/slow", held, by_target(b"one")))
        with serving(
            endpoint.port, workers=2, descriptors=64, timeout=TIMEOUT
        ) as switch, contextlib.ExitStack() as stack:
            uploads: list[socket.socket] = []
            stack.enter_context(going_on(uploads))
            late = filled(switch, uploads)
            for client in (*uploads, late):
                stack.enter_context(client)
            late.sendall(request())
            uploads[-1].sendall(b"x" * MEGABYTE)
            check("a client that waited for room", received(late), answer(b"one"))
            check(
                "a seat was free: the request at the other one still waits for its endpoint",
                (has_bytes(uploads[-1]), held.holds(1)),
                (False, True),
            )
            held.is_free.set()


def memory_of_pending_requests() -> None:
    """Requests that came whole and wait for a seat count: beyond the bound no further large
    request is read."""
    held = Held(b"held")
    with serving(Endpoint(held).port, timeout=TIMEOUT) as switch, contextlib.ExitStack() as stack:
        uploads = [stack.enter_context(connect(switch.active)) for _ in range(400)]
        for client in uploads:
            client.sendall(head_of(MEGABYTE))
        before = processes.resident_memory(switch.process.pid)
        stack.enter_context(connect(switch.active)).sendall(request())
        held.holds(1)
        for client in uploads:
            threading.Thread(target=send_all, args=(client, b"x" * MEGABYTE), daemon=True).start()
        time.sleep(10)
        grown = (processes.resident_memory(switch.process.pid) - before) >> 10
        check("MiB of requests, above 256", max(grown - 256, 0), 0)
        held.is_free.set()


def send_all(client: socket.socket, text: bytes) -> None:
    with contextlib.suppress(OSError):
        client.sendall(text)


def steady_clients() -> None:
    """Of more clients than a port keeps none is let go whose request goes on."""
    keep_steady(90, 100)


def many_steady_clients() -> None:
    keep_steady(1130, 4096)


def keep_steady(count: int, descriptors: int) -> None:
    processes.limit_descriptors(16000)
    with serving(
        Endpoint(by_target(b"one")).port, workers=3, timeout=TIMEOUT, descriptors=descriptors
    ) as switch:
        got = at_once([partial(clients.upload, switch.active, 40960, 8192, 0.5)] * count)
    check(
        f"{count} clients whose requests go on, with {descriptors} descriptors",
        clients.counted(got),
        {b"200": count},
    )


def ten_thousand_left_open() -> None:
    """Beside ten thousand connections that are left open a client is answered within a second."""
    processes.limit_descriptors(16000)
    with serving(
        Endpoint(by_target(b"one")).port, workers=3, timeout=300, descriptors=16000
    ) as switch:
        with Crowd(switch.active, 10000, b"GET / HTTP/1.1\r\n"):
            time.sleep(3)
            check_polite("ten thousand connections", switch.active, 50, b"one", 1.0)


@contextlib.contextmanager
def busy(switch: Switch, held: Held, count: int) -> Iterator[None]:
    """`count` requests, of which no more may be forwarded at a time, wait for an endpoint."""
    with contextlib.ExitStack() as stack:
        for _ in range(count):
            client = stack.enter_context(connect(switch.active))
            client.sendall(request(b"/held"))
        check("all seats wait for endpoints", held.holds(count), True)
        yield
        held.is_free.set()


def all_seats_taken() -> None:
    """While no seat is free, since endpoints are silent, a pending answer is written, a request is
    read, and one is ended at its time."""
    held, timeout = Held(b"held"), 24
    endpoint = Endpoint(held_at(b"/held", held, by_target(b"one")))
    with serving(
        endpoint.port, workers=2, timeout=timeout
    ) as switch, contextlib.ExitStack() as stack:
        reader, late, expecting = (
            stack.enter_context(connect(switch.active, SMALL_BUFFER)) for _ in range(3)
        )
        reader.sendall(request(b"/big"))
        late.sendall(b"GET / HT")
        expecting.sendall(head_of(3)[:-2])
        check(
            "the answer of the reader is pending",
            comes(lambda: endpoint.served == 1 and switch.open_requests() == [0]),
            True,
        )
        time.sleep(timeout / 3)
        with busy(switch, held, 2):
            whole = received(reader) == answer(BIG)
            check(
                "a pending answer is written while no seat is free",
                (whole, held.closed),
                (True, 0),
            )
            expecting.sendall(b"Expect: 100-continue\r\n\r\n")
            check(
                "a request is read while no seat is free",
                (expecting.recv(100), held.closed),
                (CONTINUE, 0),
            )
            expecting.sendall(b"abc")
            check("a late request is answered nothing while no seat is free", received(late), b"")
            check("no seat was free meanwhile", (held.pending, held.closed), (2, 0))
        check("the request that was read meanwhile", received(expecting), answer(b"oneabc"))


def connected_to_loops(switch: Switch, least: int) -> list[socket.socket]:
    """At least so many clients, which are not all at one event loop."""
    connected: list[socket.socket] = []
    for _ in range(ROUNDS_OF_CLIENTS):
        # all loops find clients then, and not one that has accepted each as it came
        processes.pause(switch.process.pid)
        connected += [connect(switch.active) for _ in range(least)]
        switch.process.send_signal(signal.SIGCONT)
        check("they are accepted", comes(partial(has_clients, switch, len(connected))), True)
        inodes = inodes_at(switch.active)
        if comes(lambda: processes.sets_that_watch(switch.process.pid, inodes) > 1, 1.0):
            break
    return connected


def has_clients(switch: Switch, count: int) -> bool:
    return connections_at(switch.active) == count


@contextlib.contextmanager
def requests_that_wait(switch: Switch, held: Held, least: int) -> Iterator[list[socket.socket]]:
    """At least so many clients of several event loops, whose requests have come whole one after the
    other, and wait for the one seat, whose request waits for its endpoint."""
    waiting = connected_to_loops(switch, least)
    inodes = inodes_at(switch.active)
    check(
        "they are at several event loops",
        processes.sets_that_watch(switch.process.pid, inodes) > 1,
        True,
    )
    for number, client in enumerate(waiting):
        client.sendall(request(b"/%d" % number)[:-1])
    check("they are read", comes(lambda: unread_at(switch.active) == 0), True)
    with connect_and_send(switch.active, request(b"/held")):
        check("the request at the seat waits for its endpoint", held.holds(1), True)
        for client in waiting:
            client.sendall(b"\n")
            check("a request waits for the seat", comes(partial(is_read, switch, client)), True)
        yield waiting
        for client in waiting:
            client.close()


def is_read(switch: Switch, client: socket.socket) -> bool:
    """Whether the switch has read all that a client has sent."""
    return has_delivered(client.getsockname()[1]) and unread_at(switch.active) == 0


def connect_and_send(port: int, text: bytes) -> socket.socket:
    client = connect(port)
    client.sendall(text)
    return client


def first_come_first_served() -> None:
    """The requests that wait for a seat get it in their order, whichever event loops they are at,
    and before those that came later."""
    held, order = Held(b"held"), list[bytes]()

    def note(asked: Request, connection: socket.socket) -> None:
        order.append(asked.target)
        connection.sendall(response(b"one"))

    with serving(
        Endpoint(held_at(b"/held", held, note)).port, workers=1, timeout=TIMEOUT, flags=FOUR_LOOPS
    ) as switch:
        with requests_that_wait(switch, held, 8) as waiting:
            later = [connect_and_send(switch.active, request(b"/later")) for _ in range(5)]
            held.is_free.set()
            check(
                "all are answered",
                [received(client) for client in (*waiting, *later)],
                [answer(b"one")] * (len(waiting) + 5),
            )
    check(
        "the order of the requests",
        order,
        [b"/%d" % number for number in range(len(waiting))] + [b"/later"] * 5,
    )


def missed_signal() -> None:
    """A request that waits is served though no event loop has seen the signal for it."""
    signals: list[int] = []  # of which the first switch loses none
    for _ in range(2):
        held = Held(b"held")
        switch, operator = opened(
            Endpoint(held_at(b"/held", held, by_target(b"one"))).port,
            timeout=TIMEOUT,
            flags=FOUR_LOOPS,
            prepare=partial(faults.refuse_posts, signals),
        )
        operator.close()
        with requests_that_wait(switch, held, 8) as waiting:
            held.is_free.set()
            check(
                f"requests that wait, of {len(signals)} signals lost",
                [received(client) for client in waiting],
                [answer(b"one")] * len(waiting),
            )
        posts = processes.posts(switch.process.pid)
        check(f"signals are posted, of {len(signals)} lost", posts > 0, not signals)
        signals = list(processes.signals(switch.process.pid))
        switch.stop()


def leave_by(way: Callable[[socket.socket], None], *flags: str) -> None:
    """Clients that have gone in this way keep no seat."""
    held = Held(b"held")
    endpoint = Endpoint(held_at(b"/held", held, by_target(b"one")))
    with serving(endpoint.port, workers=2, timeout=TIMEOUT, flags=flags) as switch:
        for number in range(2, 7, 2):
            gone = [connect(switch.active) for _ in range(2)]
            for client in gone:
                client.sendall(request(b"/held", b"POST", b"body"))
            check("requests of clients that go", comes(lambda: held.pending == number), True)
            for client in gone:
                way(client)
            start = time.monotonic()
            check(
                "a polite client after clients that have gone",
                timed(switch.active).answer,
                answer(b"one"),
            )
            check_soon("a client that has gone frees its seat", time.monotonic() - start, POLITE)
            check(
                "the endpoint of a client that has gone sees its connection closed",
                comes(lambda: held.closed == number, POLITE),
                True,
            )
        check(
            "no request of clients that have gone is open",
            comes(lambda: switch.open_requests() == [0], SLACK),
            True,
        )


def clients_that_close() -> None:
    leave_by(socket.socket.close, ABORT_ON_CLOSE)


def clients_that_end_their_input() -> None:
    leave_by(end_input, ABORT_ON_CLOSE)


def end_input(client: socket.socket) -> None:
    client.shutdown(socket.SHUT_WR)


def clients_that_reset() -> None:
    leave_by(reset)


def half_closed_client() -> None:
    """A client that only shut its writing side is answered."""
    held = Held(b"held")
    with serving(Endpoint(held).port, workers=1, timeout=TIMEOUT) as switch:
        with connect(switch.active) as client:
            client.sendall(request())
            client.shutdown(socket.SHUT_WR)
            check("the request of a client that shut its writing side", held.holds(1), True)
            time.sleep(4)
            check("a client that shut its writing side hasn't gone", held.closed, 0)
            held.is_free.set()
            check(
                "a client that shut its writing side is answered", received(client), answer(b"held")
            )


def dual_stack(port: int) -> socket.socket:
    """A connection of a socket for both IPv6 and IPv4, as Java's usually are."""
    client = socket.socket(socket.AF_INET6)
    client.setsockopt(socket.IPPROTO_IPV6, socket.IPV6_V6ONLY, 0)
    client.settimeout(clients.LONGEST)
    client.connect((f"::ffff:{HOST}", port))
    return client


def dual_stack_clients() -> None:
    """A client with a socket for both IPv6 and IPv4 that shut its writing side is answered, and one
    that resets has gone."""
    held = Held(b"held")
    with serving(Endpoint(held).port, workers=2, timeout=TIMEOUT) as switch:
        with dual_stack(switch.active) as client, dual_stack(switch.active) as other:
            for one in (client, other):
                one.sendall(request())
                one.shutdown(socket.SHUT_WR)
            check("requests of clients of both kinds", held.holds(2), True)
            time.sleep(4)
            check("a client of both kinds that shut its writing side hasn't gone", held.closed, 0)
            reset(other)
            check(
                "a client of both kinds that resets has gone", comes(lambda: held.closed == 1), True
            )
            held.is_free.set()
            check(
                "a client of both kinds that shut its writing side is answered",
                received(client),
                answer(b"held"),
            )


def stuck_uploads() -> None:
    """Clients that send all but the last byte of a megabyte shut out no other upload."""
    with serving(
        Endpoint(by_target(b"one")).port, workers=3, timeout=TIMEOUT
    ) as switch, contextlib.ExitStack() as stack:
        stuck = [stack.enter_context(connect(switch.active)) for _ in range(140)]
        for client in stuck:
            threading.Thread(
                target=send_all, args=(client, head_of(MEGABYTE) + bytes(MEGABYTE - 1)), daemon=True
            ).start()
        time.sleep(3)
        start = time.monotonic()
        got = at_once([partial(clients.upload, switch.active, 300000, 65536, 0.0)] * 5)
        check("uploads beside stuck ones", clients.counted(got), {b"200": 5})
        check_soon("uploads beside stuck ones", time.monotonic() - start, POLITE)


def paused_uploads() -> None:
    """Uploads that are paused because others wait for a seat are ended at their time."""
    held, timeout = Held(b"held"), 20
    sent = list[socket.socket]()

    def send(client: socket.socket) -> None:
        with contextlib.suppress(OSError):
            client.sendall(bytes(MEGABYTE))
            sent.append(client)

    with serving(Endpoint(held).port, timeout=timeout) as switch, contextlib.ExitStack() as stack:
        uploads = [stack.enter_context(connect(switch.active)) for _ in range(300)]
        for client in uploads:
            client.setsockopt(socket.SOL_SOCKET, socket.SO_SNDBUF, SMALL_BUFFER)
            client.sendall(head_of(MEGABYTE))
        check("all are accepted", comes(lambda: connections_at(switch.active) >= 300), True)
        stack.enter_context(connect(switch.active)).sendall(request())
        check("the request at the seat waits for its endpoint", held.holds(1), True)
        for client in uploads:
            threading.Thread(target=send, args=(client,), daemon=True).start()
        time.sleep(timeout / 2)
        paused = [client for client in uploads if client not in sent]
        check("some uploads are paused", len(paused) > 0, True)
        check("paused uploads are not ended before their time", any(map(has_ended, paused)), False)
        time.sleep(timeout * 3 / 2)
        stuck = [client for client in paused if client not in sent]
        check("some uploads stay paused", len(stuck) > 0, True)
        check("paused uploads are ended at their time", all(map(has_ended, stuck)), True)
        held.is_free.set()


def has_ended(client: socket.socket) -> bool:
    """Whether the switch has ended its side of a connection."""
    return is_told(client, select.POLLRDHUP)


def is_told(client: socket.socket, event: int) -> bool:
    """Whether the system tells this event of a connection now."""
    poll = select.poll()
    poll.register(client, event)
    return poll.poll(0) != []


@contextlib.contextmanager
def going_on(uploads: list[socket.socket]) -> Iterator[None]:
    """Each of these uploads makes some progress meanwhile."""
    ended = threading.Event()

    def go_on() -> None:
        while not ended.wait(0.3):
            for client in list(uploads):
                with contextlib.suppress(OSError):
                    client.sendall(b"x" * 4096)

    threading.Thread(target=go_on, daemon=True).start()
    try:
        yield
    finally:
        ended.set()


def gone_while_answered() -> None:
    """An endpoint that answers slowly is let go too, once its client has gone."""
    ended = threading.Event()

    def drip(_: Request, connection: socket.socket) -> None:
        clients.send_in_pieces(connection, [response(bytes(1000))[:-1000], *[b"x"] * 900], 0.1)
        ended.set()

    endpoint = Endpoint(drip)
    with serving(endpoint.port, workers=1, timeout=TIMEOUT) as switch:
        client = connect(switch.active)
        client.sendall(request())
        check("the endpoint answers slowly", comes(lambda: endpoint.served == 1), True)
        time.sleep(0.5)
        reset(client)
        start = time.monotonic()
        check("an endpoint that answers slowly is let go", ended.wait(clients.LONGEST), True)
        check_soon(
            "an endpoint that answers slowly sees that its client has gone",
            time.monotonic() - start,
            2 + SLACK,
        )


if __name__ == "__main__":
    checks.run(
        "live_clients",
        (
            stalled_reader,
            drips,
            refusals,
            long_chunks,
            served_once,
            late_requests,
            continues,
            slow_readers,
            many_answers,
            steady_readers,
            large_bodies,
            endless_bodies,
            uploads,
            few_descriptors,
            full_port,
            room_is_noticed,
            memory_of_pending_requests,
            steady_clients,
            all_seats_taken,
            first_come_first_served,
            missed_signal,
            clients_that_close,
            clients_that_end_their_input,
            clients_that_reset,
            half_closed_client,
            dual_stack_clients,
            stuck_uploads,
            paused_uploads,
            gone_while_answered,
        ),
        4,
        by_hand=(two_thousand_uploads, many_steady_clients, ten_thousand_left_open),
    )
