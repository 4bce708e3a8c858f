"""The event loop of bg_event_loop on loopback: `bg_tests_event_loop` has a book of four seats, and of
one endpoint or two. Connections of both sides are kept for further requests, or carry one request
each. A request is dialled at the endpoint of its slot, or also at the other one. The access log has
a line for each request.
"""
import contextlib
import os
import pathlib
import re
import signal
import socket
import subprocess
import tempfile
import time
from collections.abc import Iterator, Sequence
from functools import partial

from support import TOP, checks, processes
from support.checks import check, comes
from support.clients import asked, at_once, connect, received, reset, timed
from support.endpoints import Endpoint, by_target, full_backlog, reset_at_once
from support.kept import (
    CLOSES_AFTERWARDS,
    DIES,
    HOLDS,
    HOST_FIELD,
    LARGE,
    ONE_READ,
    RESETS,
    SENDS_LATER,
    SENDS_MORE,
    SENDS_MORE_UNREAD,
    SENDS_MUCH,
    TO_THE_END,
    KeptClient,
    KeptEndpoint,
    echo,
    is_last,
    last,
)
from support.messages import BAD_GATEWAY, BAD_REQUEST, CONTINUE, answer, request, response
from support.ports import connections_at, free_port, is_refused, unread_at
from support.switch import LISTENING

# isort: split; `support` tells where the tools' package is
from bg_switch_tools.switch.access_log import LogEntry, read_lines

# Another program can be tried by hand in its place.
PROGRAM = os.environ.get(
    "BG_TESTS_EVENT_LOOP",
    str(TOP / "crates" / "bg_tests_event_loop" / "out" / "bg_tests_event_loop"),
)
SEATS = 4  # of the program's book
CLOSE, KEEP = "close", "keep"
MODES = CLOSE, KEEP
EMPTY, PAGES = "empty", "pages"  # the bodies of refusals
SLOT, REDISPATCH = "slot", "redispatch"  # where a request is dialled
LOOP_ITSELF = 0  # in the place of an endpoint's port: that of the loop
NOBODY = 9  # a port at which no endpoint is
# Orders: another revision takes the place of the first one, which is scaled down; the first endpoint
# is down; none is.
TAKE_PLACE, FIRST_IS_DOWN, NONE_IS_DOWN = "s", "d", "u"
# For how many seconds a port is asked last whose dial has failed, and how often that is tried: a busy
# machine may need longer for a few requests.
MARKED, MARK_ROUNDS = 1.0, 10
SHARE = SEATS // 2  # of the requests, which one of two endpoints has while the other one is free
ENTERED = re.compile(r"entered (\d+)\n")
ACCEPTS_HTML = b"Accept: text/html\r\n"
PAGE = b"<!DOCTYPE html>\n<title>502 Bad Gateway</title>\n<h1>502 Bad Gateway</h1>\n"
WATCHED = 2.0  # seconds for which the loop's processor time is watched while no descriptor is free
MOST_BUSY = 0.5  # of these that the processor may be busy
HTTP = b"HTTP/1.1 200 OK\r\n"
# Clients whose uploads, of which a part has come, make a round of the loop long. A round has at most
# 256 events.
BUSY = 200
UPLOAD = (
    b"POST /upload HTTP/1.1\r\nHost: x\r\nTransfer-Encoding: chunked\r\n\r\n"
    + b"1\r\na\r\n" * 5_000
)
ROUNDS = 10  # that are tried


class EventLoop:
    """A running `bg_tests_event_loop`, and its endpoint."""

    def __init__(
        self,
        mode: str,
        refusals: str = EMPTY,
        other: int | None = None,
        dials: str = REDISPATCH,
        later: int = NOBODY,
        log: str = os.devnull,
    ) -> None:
        """The book has the endpoint here, and one at the port `other` if it is not None. The first
        request is that of the other endpoint, and then they take turns. `later` is the port of the
        revision that may take the place of the first one; `log` is the file of the access log.
        """
        self.endpoint = KeptEndpoint()
        self.port = free_port()
        ports = [self.endpoint.port] + ([] if other is None else [other or self.port])
        self.process = subprocess.Popen(
            [PROGRAM, str(self.port), mode, refusals, dials, log, str(later), *map(str, ports)],
            stdin=subprocess.PIPE,
            stdout=subprocess.PIPE,
            text=True,
        )
        processes.limit(self.process)
        assert self.process.stdout is not None
        check("listening", self.process.stdout.readline(), LISTENING)

    def begin_shutdown(self) -> None:
        assert self.process.stdin is not None
        self.process.stdin.close()

    def check_end(self, name: str) -> int:
        """Checks that the program ends by itself with status 0, having printed how many requests
        entered, and nothing else. Returns this number."""
        assert self.process.stdout is not None
        with self.process.stdout:
            printed = self.process.stdout.read()
        found = ENTERED.fullmatch(printed)
        check(name, (found is not None, self.process.wait(processes.LONGEST)), (True, 0))
        return int(found[1]) if found else 0

    def order(self, order: str) -> None:
        assert self.process.stdin is not None
        self.process.stdin.write(order)
        self.process.stdin.flush()

    def pause(self) -> None:
        processes.pause(self.process.pid)

    def go_on(self) -> None:
        os.kill(self.process.pid, signal.SIGCONT)

    def count_descriptors(self) -> int:
        return len(processes.descriptors(self.process.pid))

    def has_read(self, clients: int) -> bool:
        """Whether it has accepted `clients` clients that are still there, and read all that they
        have sent, at a time that comes soon."""
        return comes(lambda: connections_at(self.port) == clients and unread_at(self.port) == 0)

    def once(self, text: bytes) -> bytes:
        """What a client is answered that says that this is its last request."""
        return timed(self.port, [last(text)]).answer

    def answers(self, count: int = 6) -> list[bytes]:
        """What so many clients are answered, one after the other."""
        return [self.once(request()) for _ in range(count)]


@contextlib.contextmanager
def running(
    mode: str,
    refusals: str = EMPTY,
    other: int | None = None,
    dials: str = REDISPATCH,
    later: int = NOBODY,
) -> Iterator[EventLoop]:
    """An event loop, whose shutdown begins at the end."""
    event_loop = EventLoop(mode, refusals, other, dials, later)
    try:
        yield event_loop
    finally:
        event_loop.begin_shutdown()
        event_loop.endpoint.held.is_free.set()
    event_loop.check_end(f"{mode}: a shutdown ends the program")


def single_requests() -> None:
    """Clients that send one request each, in both modes."""
    for mode in MODES:
        with running(mode) as event_loop:
            check(f"{mode}: a request", event_loop.once(request(b"/one")), answer(echo(b"/one")))
            check(
                f"{mode}: a body",
                event_loop.once(request(b"/body", b"POST", b"abc")),
                answer(echo(b"/body", b"abc")),
            )
            check(
                f"{mode}: a body in chunks",
                event_loop.once(request(b"/body", b"POST", b"abc", chunked=True)),
                answer(echo(b"/body", b"abc")),
            )
            check(
                f"{mode}: a refusal", timed(event_loop.port, [b"BAD\r\n\r\n"]).answer, BAD_REQUEST
            )
            check(
                f"{mode}: a response up to the end of the connection",
                event_loop.once(request(TO_THE_END)),
                answer(b"all"),
            )
            check(
                f"{mode}: a large response",
                event_loop.once(request(SENDS_MUCH)),
                answer(b"x" * LARGE),
            )
            check(f"{mode}: an endpoint that resets", event_loop.once(request(RESETS)), BAD_GATEWAY)
            check(
                f"{mode}: a client that has ended its side",
                asked(event_loop.port, request(b"/half")),
                (answer if mode == CLOSE else response)(echo(b"/half")),
            )


def continues() -> None:
    """A client waits for 100 Continue before it sends its body."""
    for mode in MODES:
        with running(mode) as event_loop, connect(event_loop.port) as client:
            text = last(request(b"/asks", b"POST", b"body"))
            head = text.removesuffix(b"body").replace(
                HOST_FIELD, HOST_FIELD + b"Expect: 100-continue\r\n", 1
            )
            client.sendall(head)
            check(f"{mode}: 100 Continue", client.recv(len(CONTINUE), socket.MSG_WAITALL), CONTINUE)
            client.sendall(b"body")
            check(
                f"{mode}: the answer after 100 Continue",
                received(client),
                answer(echo(b"/asks", b"body")),
            )


def one_request_each() -> None:
    """Without kept connections, each client gets one answer, and each request has a connection of
    its own to the endpoint."""
    with running(CLOSE) as event_loop:
        for number in range(3):
            target = b"/%d" % number
            check(
                f"the only answer, {number}",
                timed(event_loop.port, [request(target)]).answer,
                answer(echo(target)),
            )
        check("connections to the endpoint", event_loop.endpoint.connections, 3)
        check(
            "each request says that it is the last one",
            [is_last(one) for one in event_loop.endpoint.requests],
            [True] * 3,
        )


def several_requests() -> None:
    """Requests of a kept connection are answered in their order, over one connection to the
    endpoint."""
    with running(KEEP) as event_loop, KeptClient(event_loop.port) as client:
        for number in range(3):
            target = b"/%d" % number
            check(
                f"a kept connection, {number}",
                client.answer_to(request(target)),
                response(echo(target)),
            )
        check("one connection to the endpoint", event_loop.endpoint.connections, 1)
        targets = [b"/pipelined/%d" % number for number in range(20)]
        client.send(b"".join(map(request, targets)))
        check(
            "pipelined requests",
            [client.answer() for _ in targets],
            [response(echo(target)) for target in targets],
        )
        check("still one connection to the endpoint", event_loop.endpoint.connections, 1)
        check("the last request", client.answer_to(last(request(b"/last"))), answer(echo(b"/last")))
        check("the connection ends after the last request", client.rest(), b"")


def bodies_like_requests() -> None:
    """A body that looks like a request is a body."""
    with running(KEEP) as event_loop, KeptClient(event_loop.port) as client:
        body = request(b"/hidden")
        client.send(request(b"/body", b"POST", body) + request(b"/after"))
        check("a body that looks like a request", client.answer(), response(echo(b"/body", body)))
        check("the request behind it", client.answer(), response(echo(b"/after")))
        check(
            "no hidden request reaches the endpoint",
            event_loop.endpoint.targets(),
            [b"/body", b"/after"],
        )


def closed_while_kept() -> None:
    """A connection that the endpoint has closed while it was kept carries no request."""
    with running(KEEP) as event_loop, KeptClient(event_loop.port) as client:
        check("the first response", client.answer_to(request(b"/one")), response(echo(b"/one")))
        descriptors = event_loop.count_descriptors()
        check(
            "a response before the close",
            client.answer_to(request(CLOSES_AFTERWARDS)),
            response(CLOSES_AFTERWARDS),
        )
        check(
            "the loop closes the connection, too",
            comes(lambda: event_loop.count_descriptors() < descriptors),
            True,
        )
        # a POST is not sent again, so it is answered only if it has a connection of its own
        check(
            "a request after the close",
            client.answer_to(request(b"/next", b"POST", b"")),
            response(echo(b"/next")),
        )
        check("connections to the endpoint", event_loop.endpoint.connections, 2)


def sent_again() -> None:
    """A request that a kept connection loses is sent again if it is a GET, and not if it is a
    POST."""
    with running(KEEP) as event_loop, KeptClient(event_loop.port) as client:
        endpoint = event_loop.endpoint
        check("a response before a lost GET", client.answer_to(request(DIES)), response(DIES))
        check("a GET is sent again", client.answer_to(request(b"/get")), response(echo(b"/get")))
        check("it came twice", endpoint.targets().count(b"/get"), 2)
        check("a response before a lost POST", client.answer_to(request(DIES)), response(DIES))
        check(
            "a POST is not sent again",
            client.answer_to(request(b"/post", b"POST", b"")),
            BAD_GATEWAY,
        )
        check("it came once", endpoint.targets().count(b"/post"), 1)


def unasked_bytes() -> None:
    """Bytes behind a response, which nobody asked for, reach nobody."""
    for target, whole in (
        (SENDS_MORE, response(SENDS_MORE)),
        (SENDS_MORE_UNREAD, ONE_READ),
    ):
        with running(KEEP) as event_loop, KeptClient(event_loop.port) as client:
            name = target.decode()
            check(f"{name}: the response", client.answer_to(request(target)), whole)
            check_clean(f"{name}: the answers after it", client)


def check_clean(name: str, client: KeptClient) -> None:
    """Checks that each of several requests gets its own answer."""
    targets = [b"/clean/%d" % number for number in range(3)]
    check(
        name,
        [client.answer_to(request(target)) for target in targets],
        [response(echo(target)) for target in targets],
    )


def unasked_bytes_later() -> None:
    """A kept connection on which bytes come that nobody asked for is closed."""
    with running(KEEP) as event_loop, KeptClient(event_loop.port) as client:
        check(
            "the response before unasked bytes",
            client.answer_to(request(SENDS_LATER)),
            response(SENDS_LATER),
        )
        descriptors = event_loop.count_descriptors()
        event_loop.endpoint.may_send_later.set()
        check(
            "unasked bytes close a kept connection",
            comes(lambda: event_loop.count_descriptors() < descriptors),
            True,
        )
        check_clean("the answers after unasked bytes", client)


def unasked_bytes_in_a_round() -> None:
    """A kept connection on which unasked bytes come in the very round in which it would be used again
    carries no request, whether one request enters or several."""
    for others in (0, 2):
        answers = (answer_after_unasked_bytes(others) for _ in range(ROUNDS))
        check(
            f"an answer after unasked bytes of the same round, with {others} other requests",
            next((one for one in answers if one is not None), None),
            response(echo(b"/next")),
        )


def answer_after_unasked_bytes(others: int) -> bytes | None:
    """What a client is answered if unasked bytes come on the kept connection to the endpoint after the
    events of a round were taken, and before its request enters with so many others behind it; None if
    the round was too short."""
    with running(KEEP) as event_loop, contextlib.ExitStack() as stack:
        client, refused = (stack.enter_context(KeptClient(event_loop.port)) for _ in range(2))
        behind = [stack.enter_context(KeptClient(event_loop.port)) for _ in range(others)]
        busy = [stack.enter_context(connect(event_loop.port)) for _ in range(BUSY)]
        check("before a round", client.answer_to(request(SENDS_LATER)), response(SENDS_LATER))
        check("all clients are accepted", event_loop.has_read(2 + others + BUSY), True)
        event_loop.pause()
        # the events of one round, in their order
        refused.send(b"BAD\r\n\r\n")
        client.send(request(b"/next"))
        for other in behind:
            other.send(request(b"/behind"))
        for one in busy:
            one.sendall(UPLOAD)
        event_loop.go_on()
        check("a round has begun", refused.answer(), BAD_REQUEST)
        event_loop.pause()
        # a request enters only after all that came is read
        is_in_time = unread_at(event_loop.port) > 0
        event_loop.endpoint.may_send_later.set()
        check("unasked bytes come", event_loop.endpoint.has_sent_later(), True)
        event_loop.go_on()
        answered = client.answer()
        for other in behind:
            check("a request behind it", other.answer(), response(echo(b"/behind")))
    return answered if is_in_time else None


def fault_behind_a_request() -> None:
    """A fault behind a good request is refused after the answer, and ends the connection."""
    with running(KEEP) as event_loop, KeptClient(event_loop.port) as client:
        client.send(request(b"/good") + b"BAD\r\n\r\n")
        check("the good request is answered", client.answer(), response(echo(b"/good")))
        check("the fault is refused", client.rest(), BAD_REQUEST)


def resets_inside() -> None:
    """Clients reset their connections while their requests are inside, or wait for a seat. Their
    seats are free again afterwards."""
    for mode in MODES:
        with running(mode) as event_loop:
            held = event_loop.endpoint.held
            clients = [connect(event_loop.port) for _ in range(3 * SEATS)]
            for client in clients:
                client.sendall(request(HOLDS))
            check(f"{mode}: all seats are taken", held.holds(SEATS), True)
            check(f"{mode}: all requests are read", event_loop.has_read(3 * SEATS), True)
            for client in clients:
                reset(client)
            check(
                f"{mode}: the requests end with their clients",
                comes(lambda: held.pending == held.closed),
                True,
            )
            targets = [b"/after/%d" % number for number in range(SEATS)]
            check(
                f"{mode}: the seats are free again",
                all_at_once(event_loop, targets),
                [answer(echo(target)) for target in targets],
            )


def all_at_once(event_loop: EventLoop, targets: Sequence[bytes]) -> list[bytes]:
    """What clients are answered that come at once."""
    return at_once([partial(event_loop.once, request(target)) for target in targets])


def many_clients() -> None:
    """Forty clients at once wait until seats are free, and are answered then."""
    for mode in MODES:
        with running(mode) as event_loop:
            endpoint = event_loop.endpoint
            first = [connect(event_loop.port) for _ in range(SEATS)]
            for client in first:
                client.sendall(last(request(HOLDS)))
            check(f"{mode}: all seats are taken", endpoint.held.holds(SEATS), True)
            targets = [b"/many/%d" % number for number in range(40)]
            later = [connect(event_loop.port) for _ in targets]
            for client, target in zip(later, targets):
                client.sendall(last(request(target)))
            check(f"{mode}: all requests are read", event_loop.has_read(SEATS + len(targets)), True)
            check(f"{mode}: the others wait", endpoint.targets(), [HOLDS] * SEATS)
            endpoint.held.is_free.set()
            check(
                f"{mode}: held requests are answered",
                [received(client) for client in first],
                [answer(b"held")] * SEATS,
            )
            check(
                f"{mode}: the others are answered",
                [received(client) for client in later],
                [answer(echo(target)) for target in targets],
            )


def graceful_shutdown() -> None:
    """A shutdown closes idle connections, and answers the request at hand and one whose head has
    begun to come. Then the program ends."""
    event_loop = EventLoop(KEEP)
    held = event_loop.endpoint.held
    with contextlib.ExitStack() as stack:
        idle, at_hand, partial_head = (
            stack.enter_context(KeptClient(event_loop.port)) for _ in range(3)
        )
        check("before a shutdown", idle.answer_to(request(b"/idle")), response(echo(b"/idle")))
        at_hand.send(request(HOLDS))
        check("a request is at hand", held.holds(1), True)
        text = request(b"/partial")
        partial_head.send(text[:-6])
        check("half a head is read", event_loop.has_read(3), True)
        event_loop.begin_shutdown()
        check("a shutdown closes idle connections", idle.rest(), b"")
        check("a shutdown closes the listener", is_refused(event_loop.port), True)
        partial_head.send(text[-6:])
        check("half a request is answered", partial_head.rest(), answer(echo(b"/partial")))
        check("the program goes on for the request at hand", event_loop.process.poll(), None)
        held.is_free.set()
        check("the request at hand is answered", at_hand.rest(), answer(b"held"))
    entered = event_loop.check_end("a graceful shutdown")
    check("the requests that entered before a shutdown and in it", entered, 3)


def entered_requests() -> None:
    """The seats count each request that entered, and no other one."""
    for mode in MODES:
        event_loop = EventLoop(mode)
        check(f"{mode}: a request that enters", event_loop.once(request()), answer(echo(b"/")))
        check(f"{mode}: one that fails", event_loop.once(request(RESETS)), BAD_GATEWAY)
        check(f"{mode}: no request", timed(event_loop.port, [b"BAD\r\n\r\n"]).answer, BAD_REQUEST)
        gone = connect(event_loop.port)
        gone.sendall(request(HOLDS))
        check(f"{mode}: one is held", event_loop.endpoint.held.holds(1), True)
        reset(gone)
        event_loop.begin_shutdown()
        entered = event_loop.check_end(f"{mode}: the end after four requests")
        check(f"{mode}: three requests entered", entered, 3)


def told(entry: LogEntry) -> tuple[object, ...]:
    return entry.status, entry.end, entry.reason, entry.method, entry.target


def logged() -> None:
    """The access log has a line for each request of a connection, and counts the connections that
    have sent nothing."""
    for mode in MODES:
        with tempfile.TemporaryDirectory() as folder:
            path = pathlib.Path(folder) / "log"
            event_loop = EventLoop(mode, log=str(path))
            with KeptClient(event_loop.port) as client:
                client.send(request(b"/one") + last(request(b"/two")))
                check(f"{mode}: answers that are logged", client.rest().startswith(HTTP), True)
            timed(event_loop.port, [b"GET /no-host HTTP/1.1\r\n\r\n"])
            timed(event_loop.port, [b"BAD\r\n\r\n"])
            event_loop.once(request(RESETS))
            with connect(event_loop.port) as cut:
                cut.sendall(b"GET /cut")
            with connect(event_loop.port):
                pass
            gone = connect(event_loop.port)
            gone.sendall(request(HOLDS))
            check(f"{mode}: a request is held", event_loop.endpoint.held.holds(1), True)
            reset(gone)
            check(
                f"{mode}: all have left", comes(lambda: not connections_at(event_loop.port)), True
            )
            event_loop.begin_shutdown()
            event_loop.check_end(f"{mode}: the end of a logged run")
            batch = read_lines(path.read_bytes().splitlines())
            check(f"{mode}: lines that can't be read", (batch.unreadable, batch.lost), (0, 0))
            two = [] if mode == CLOSE else [(200, "answered", None, "GET", "/two")]
            check(
                f"{mode}: the lines of the log",
                sorted(map(told, batch.entries), key=repr),
                sorted(
                    [
                        (200, "answered", None, "GET", "/one"),
                        *two,
                        (400, "refused", "head", "GET", "/no-host"),
                        (400, "refused", "head", None, None),
                        (502, "refused", "connect_failed", "GET", RESETS.decode()),
                        (None, "closed", None, None, None),
                        (499, "refused", "client_gone", "GET", HOLDS.decode()),
                    ],
                    key=repr,
                ),
            )
            by_target = {entry.target: entry for entry in batch.entries}
            one, held = by_target["/one"], by_target[HOLDS.decode()]
            check(
                f"{mode}: the numbers of the requests that entered, their revision and port",
                [(e.request, e.revision, e.port) for e in (one, held)],
                [
                    (1, 1, event_loop.endpoint.port),
                    (3 if mode == CLOSE else 4, 1, event_loop.endpoint.port),
                ],
            )
            check(f"{mode}: the bytes of an answer", one.response_bytes, len(client_answer(mode)))


def client_answer(mode: str) -> bytes:
    """What the client of the request /one gets."""
    return answer(echo(b"/one")) if mode == CLOSE else response(echo(b"/one"))


def pages() -> None:
    """With pages, a refusal has the page that its request accepts; a HEAD gets its head alone."""
    with running(CLOSE, PAGES) as event_loop:
        browser = request(RESETS).replace(HOST_FIELD, HOST_FIELD + ACCEPTS_HTML, 1)
        head = browser.replace(b"GET", b"HEAD", 1)
        html = page_head(b"502 Bad Gateway", b"text/html", len(PAGE))
        text = b"502 Bad Gateway\n"
        check("a browser gets a page", event_loop.once(browser), html + PAGE)
        check("a HEAD gets the head of the page", event_loop.once(head), html)
        check(
            "another client gets a text",
            event_loop.once(request(RESETS)),
            page_head(b"502 Bad Gateway", b"text/plain", len(text)) + text,
        )
        fault = b"400 Bad Request\n"
        check(
            "what is no request gets a text",
            timed(event_loop.port, [b"BAD\r\n" + ACCEPTS_HTML + b"\r\n"]).answer,
            page_head(b"400 Bad Request", b"text/plain", len(fault)) + fault,
        )


def page_head(status: bytes, kind: bytes, length: int) -> bytes:
    """The head of a refusal with a page of this media type."""
    return (
        b"HTTP/1.1 %s\r\nContent-Type: %s; charset=utf-8\r\nContent-Length: %d\r\n"
        b"Connection: close\r\n\r\n" % (status, kind, length)
    )


def dialled_elsewhere() -> None:
    """A request whose endpoint cannot be dialled goes to another one, whatever its method. If there
    is none, or it cannot be dialled either, the answer is 502."""
    for mode in MODES:
        for method, body in ((b"GET", b""), (b"POST", b"abc")):
            with running(mode, other=free_port()) as event_loop:
                check(
                    f"{mode}: a {method!r} elsewhere",
                    event_loop.once(request(b"/", method, body or None)),
                    answer(echo(b"/", body)),
                )
                check(f"{mode}: it came once", event_loop.endpoint.targets(), [b"/"])
        with running(mode) as event_loop:
            event_loop.endpoint.stop()
            check(f"{mode}: no other endpoint", event_loop.once(request()), BAD_GATEWAY)


def late_dials() -> None:
    """A dial that hangs is given up after five seconds, and the request goes to another endpoint."""
    with full_backlog() as port, running(CLOSE, other=port) as event_loop:
        answered = timed(event_loop.port, [last(request(b"/late"))])
        check("a request whose dial hangs", answered.answer, answer(echo(b"/late")))
        check("it came after the timeout of the dial", 4.5 < answered.seconds < 20, True)


# The answers of the endpoint here, and of another one.
HERE, THERE = answer(echo(b"/")), answer(b"two")


def slots() -> None:
    """While both endpoints are well, each request goes to that of its slot. The requests of one that
    is stopped go to the other one if they may."""
    for dials, stopped in ((SLOT, BAD_GATEWAY), (REDISPATCH, HERE)):
        other = Endpoint(by_target(b"two"))
        with running(CLOSE, other=other.port, dials=dials) as event_loop:
            check(f"{dials}: both are well", event_loop.answers(), [THERE, HERE] * 3)
            other.stop()
            check(f"{dials}: one is stopped", event_loop.answers(), [stopped, HERE] * 3)


def both_stopped() -> None:
    """With both endpoints stopped each answer is 502. One that comes back is asked at once."""
    other = Endpoint(by_target(b"two"), free_port())
    with running(CLOSE, other=other.port) as event_loop:
        event_loop.endpoint.stop()
        other.stop()
        check("both are stopped", event_loop.answers(), [BAD_GATEWAY] * 6)
        other.start()
        check("one that comes back, although both are marked", event_loop.answers(), [THERE] * 6)


def resets_at_one_endpoint() -> None:
    """A request of which an endpoint has got a byte goes to no other one."""
    other = Endpoint(reset_at_once)
    with running(CLOSE, other=other.port) as event_loop:
        got = [event_loop.once(request(RESETS)) for _ in range(4)]
        check("requests that are reset", got, [BAD_GATEWAY] * 4)
        served = len(event_loop.endpoint.targets()) + other.served
        check("each went to one endpoint", served, 4)


def marks() -> None:
    """A port whose dial failed is asked after the others for a second, and then again."""
    other = Endpoint(by_target(b"two"), free_port())
    with running(CLOSE, other=other.port) as event_loop:
        for _ in range(MARK_ROUNDS):
            other.stop()
            check("a dial that fails is repeated elsewhere", event_loop.answers(2), [HERE] * 2)
            begun = time.monotonic()
            other.start()
            got = event_loop.answers(4)
            is_in_time = time.monotonic() < begun + MARKED / 2
            if is_in_time:
                check("a marked endpoint is not asked", got, [HERE] * 4)
            time.sleep(1.2 * MARKED)
            got = event_loop.answers(2)
            check("an endpoint whose mark has ended is asked", got, [THERE, HERE])
            if is_in_time:
                break


def down() -> None:
    """An endpoint that is down by an order gets no request while another one takes them."""
    other = Endpoint(by_target(b"two"))
    with running(CLOSE, other=other.port) as event_loop:
        event_loop.order(FIRST_IS_DOWN)
        check("one is down", comes(lambda: event_loop.answers(4) == [THERE] * 4), True)
        event_loop.order(NONE_IS_DOWN)
        check("none is down", comes(lambda: event_loop.answers(4) == [THERE, HERE] * 2), True)


def share() -> None:
    """An endpoint that holds its requests has its share of them, and the other one gets the rest."""
    other = Endpoint(by_target(b"two"))
    with running(CLOSE, other=other.port) as event_loop, contextlib.ExitStack() as stack:
        held = event_loop.endpoint.held
        clients = []
        for count in range(1, 9):
            clients.append(stack.enter_context(connect(event_loop.port)))
            clients[-1].sendall(request(HOLDS))
            comes(lambda count=count: held.pending + other.served == count)  # type: ignore[misc]
        check("the share of one of two", (held.pending, other.served), (SHARE, 8 - SHARE))
        held.is_free.set()
        got = [received(client) for client in clients]
        check("each is answered", got.count(THERE) + got.count(answer(b"held")), 8)


def own_port() -> None:
    """A request whose endpoint is the loop itself is not sent there: it is answered 502, or goes to
    another endpoint."""
    for dials, got in ((SLOT, BAD_GATEWAY), (REDISPATCH, HERE)):
        event_loop = EventLoop(CLOSE, other=LOOP_ITSELF, dials=dials)
        check(f"{dials}: the loop's own port", event_loop.answers(4), [got, HERE] * 2)
        event_loop.begin_shutdown()
        entered = event_loop.check_end(f"{dials}: the end after requests to the loop's own port")
        check(f"{dials}: no request came back", entered, 4)


def no_descriptors() -> None:
    """While no descriptor is free, clients wait, and the loop does not spin. They are served once one
    is free."""
    with running(CLOSE) as event_loop:
        check("before no descriptor is free", event_loop.once(request()), answer(echo(b"/")))
        limit = processes.DescriptorLimit(event_loop.process.pid)
        limit.leave(0)
        with connect(event_loop.port) as client:
            client.sendall(last(request(b"/waits")))
            before = processes.processor_seconds(event_loop.process.pid)
            time.sleep(WATCHED)
            busy = processes.processor_seconds(event_loop.process.pid) - before
            check("the loop does not spin", busy < MOST_BUSY * WATCHED, True)
            limit.lift()
            check("the client is served later", received(client), answer(echo(b"/waits")))


def scaled_down() -> None:
    """Idle connections to endpoints whose revision is scaled down are closed. Their clients stay."""
    later = Endpoint(by_target(b"two"))
    with running(KEEP, dials=SLOT, later=later.port) as event_loop, KeptClient(
        event_loop.port
    ) as client:
        check("before a scale-down", client.answer_to(request(b"/one")), response(echo(b"/one")))
        descriptors = event_loop.count_descriptors()
        event_loop.order(TAKE_PLACE)
        check(
            "a scale-down closes the idle connection",
            comes(lambda: event_loop.count_descriptors() < descriptors),
            True,
        )
        check("the client stays", client.answer_to(request(b"/two")), response(b"two"))
        check("the endpoint before gets no more", event_loop.endpoint.connections, 1)


def wrong_words() -> None:
    """Words that are wrong end the program with status 1."""
    good = ["0", KEEP, EMPTY, SLOT, os.devnull, "9", "9"]
    none: list[str] = []
    for words in (
        none,
        good[:-1],
        [*good, "9", "9"],
        ["-1", *good[1:]],
        ["0", "sometimes", *good[2:]],
        ["0", KEEP, "some", *good[3:]],
        ["0", KEEP, EMPTY, "elsewhere", *good[4:]],
        ["0", KEEP, EMPTY, SLOT, os.devnull, "-1", "9"],
        [*good, "65536"],
    ):
        run = processes.run_to_end([PROGRAM, *words])
        check(f"the words {words}", (run.printed, run.status), ("", 1))


if __name__ == "__main__":
    checks.run(
        "live_event_loop",
        (
            single_requests,
            continues,
            one_request_each,
            several_requests,
            bodies_like_requests,
            closed_while_kept,
            sent_again,
            unasked_bytes,
            unasked_bytes_later,
            unasked_bytes_in_a_round,
            fault_behind_a_request,
            resets_inside,
            many_clients,
            entered_requests,
            logged,
            pages,
            dialled_elsewhere,
            late_dials,
            slots,
            both_stopped,
            resets_at_one_endpoint,
            marks,
            down,
            share,
            own_port,
            no_descriptors,
            scaled_down,
            graceful_shutdown,
            wrong_words,
        ),
        4,
    )
