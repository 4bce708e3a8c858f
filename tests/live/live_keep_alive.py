"""`bg_switch serve --keep-alive` on loopback: connections of clients and to endpoints carry several
requests. Which are kept and which are not, how long, and what they never hold up: a seat, a drain, a
full port, a shutdown. And that without the flag nothing differs from one request a connection."""
import contextlib
import pathlib
import select
import signal
import tempfile
import time
from collections import Counter
from collections.abc import Iterator, Sequence
from typing import NamedTuple

from support import checks, processes
from support.access_logs import entries_of
from support.checks import check, check_soon, check_within, comes
from support.clients import asked, reset, timed
from support.endpoints import BROKEN, WHOLE, Endpoint, by_target
from support.kept import (
    CLOSES_AFTERWARDS,
    DIES,
    DIES_BY_RESET,
    HOLDS,
    HOST_FIELD,
    LARGE,
    ONE_READ,
    SAYS_CLOSE,
    SENDS_LATER,
    SENDS_MORE,
    SENDS_MORE_UNREAD,
    SENDS_MUCH,
    TO_THE_END,
    VERSION_0,
    KeptClient,
    KeptEndpoint,
    echo,
    is_last,
    last,
)
from support.messages import (
    BAD_GATEWAY,
    BAD_REQUEST,
    CONTINUE,
    NO_PREVIEW,
    TOO_LARGE,
    UNAVAILABLE,
    answer,
    head_of,
    request,
    response,
)
from support.operators import Operator
from support.ports import connections_at, has_closed_all, is_refused, unread_at
from support.switch import LISTENING, USUAL_DESCRIPTORS, LaterEnd, Switch
from support.traffic import ACCESS_LOG

# isort: split; `support` tells where the tools' package is
from bg_switch_tools.switch.access_log import LogEntry

KEEP_ALIVE = "--keep-alive"
# So long that it ends nothing on a busy machine, in seconds: the timeout of messages, and that of idle
# connections of both sides, if a part does not wait for it.
TIMEOUT, NEVER = 600, 3600
SHORT = 2  # the timeout of idle connections of a part that waits for it
LONGER = 4 * SHORT  # that of a client with which it is compared
# How much earlier it may be by rounding, in seconds.
ROUNDED = 0.1
SEEN = 0.5  # seconds for which it is seen what the switch does not do
SOON = 3.0  # seconds within which it does what it does at once, or at its next look
ROUNDS = 5  # that are tried where a busy machine may be too slow
TWO = NO_PREVIEW.replace('{"spec": {', '{"spec": {"replicas": 2, ')
FEW = 128  # descriptors of a switch whose port is full soon
GRACE = 60  # seconds for which a shutdown keeps silent clients
IDLE = 100  # clients that are idle while the processor time is watched
WATCHED, MOST_BUSY = 2.0, 0.5  # for how many seconds, and the most of it
SLACK = 2.0  # milliseconds by which a rounded time may be off
MANY = 4096  # descriptors of one that has room
# Clients whose uploads make a round of a loop long, which has at most 256 events.
BUSY = 200
UPLOAD = b"POST / HTTP/1.1\r\nHost: x\r\nTransfer-Encoding: chunked\r\n\r\n" + b"1\r\na\r\n" * 5_000
PAUSE = 1.5  # seconds between two requests of a connection that is logged


class Scene(NamedTuple):
    """A switch, its operator, and the endpoint of its first revision."""

    switch: Switch
    operator: Operator
    endpoint: KeptEndpoint

    def client(self) -> KeptClient:
        return KeptClient(self.switch.active)

    def carry_out(self, *lines: str) -> None:
        for line in lines:
            check(line, self.operator.answer_to(line).split()[0], "ok")


def keep(
    *, client: int = NEVER, endpoint: int = NEVER, requests: int | None = None, loops: int = 1
) -> tuple[str, ...]:
    """The flags that keep connections, with these timeouts of idle ones, with so many requests of a
    connection, and with so many event loops."""
    return (
        KEEP_ALIVE,
        *("--keep-alive-timeout", str(client)),
        *("--endpoint-keep-alive-timeout", str(endpoint)),
        *(() if requests is None else ("--keep-alive-requests", str(requests))),
        *("--threads", str(loops)),
    )


@contextlib.contextmanager
def serving(
    flags: Sequence[str],
    *,
    rollout: str = NO_PREVIEW,
    concurrency: int = 8,
    others: Sequence[int] = (),
    descriptors: int = USUAL_DESCRIPTORS,
    log: pathlib.Path | None = None,
    ends: bool = False,
) -> Iterator[Scene]:
    """A switch with these flags, so many requests at a time, further endpoints of its first
    revision, and an access log. `ends` tells that it may end by itself."""
    endpoint = KeptEndpoint()
    switch = Switch(
        rollout,
        preview=False,
        timeout=TIMEOUT,
        descriptors=descriptors,
        instead_of_workers=("--concurrency", str(concurrency)),
        flags=flags,
        variables={} if log is None else {ACCESS_LOG: str(log)},
    )
    try:
        check("listening", switch.first, LISTENING)
        with contextlib.closing(switch.operator()) as operator:
            scene = Scene(switch, operator, endpoint)
            ports = [endpoint.port, *others]
            scene.carry_out(f"open one {' '.join(map(str, ports))}", f"available 1 {len(ports)}")
            yield scene
    finally:
        endpoint.held.is_free.set()
        if ends:
            switch.kill()
        else:
            switch.stop()


def shown(text: bytes) -> str:
    return text[:60].decode("ascii", errors="replace")


def in_order() -> None:
    """Requests of one connection are answered in their order, however their bytes come, over one
    connection to the endpoint."""
    with serving(keep()) as scene, scene.client() as client:
        hidden = request(b"/hidden")
        texts = [
            (request(b"/one"), echo(b"/one")),
            (request(b"/body", b"POST", b"abc"), echo(b"/body", b"abc")),
            (request(b"/chunks", b"POST", b"abc", chunked=True), echo(b"/chunks", b"abc")),
            (request(b"/like-a-request", b"POST", hidden), echo(b"/like-a-request", hidden)),
            (request(b"/head", b"HEAD"), b""),
            (request(SENDS_MUCH), b"x" * LARGE),
            (request(b"/empty", b"PUT", b""), echo(b"/empty")),
        ]
        expected = [response(body) for _, body in texts]
        expected[4] = response(echo(b"/head")).removesuffix(echo(b"/head"))
        check("one after the other", [client.answer_to(text) for text, _ in texts], expected)
        is_head = [text.startswith(b"HEAD") for text, _ in texts]
        client.send(b"".join(text for text, _ in texts))
        check("pipelined", [client.answer(one) for one in is_head], expected)
        for length in (1, 7, 61):
            whole = b"".join(text for text, _ in texts)
            for start in range(0, len(whole), length):
                client.send(whole[start : start + length])
            check(f"in pieces of {length}", [client.answer(one) for one in is_head], expected)
        many = [b"/%d" % number for number in range(100)]
        client.send(b"".join(map(request, many)))
        check(
            "a hundred that are pipelined",
            [client.answer() for _ in many],
            [response(echo(target)) for target in many],
        )
        targets = [text.split(b" ")[1] for text, _ in texts]
        check("the endpoint gets them in order", scene.endpoint.targets(), [*targets * 5, *many])
        check("one connection to the endpoint", scene.endpoint.connections, 1)
        check("none says that it is the last", any(map(is_last, scene.endpoint.requests)), False)
        check("the last one", client.answer_to(last(request(b"/z"))), answer(echo(b"/z")))
        check("the connection ends after it", client.rest(), b"")


def one_at_a_time() -> None:
    """A pipelined request reaches the endpoint only once the one before it was answered."""
    with serving(keep()) as scene, scene.client() as client:
        client.send(request(HOLDS) + request(b"/behind"))
        check("the first one is held", scene.endpoint.held.holds(1), True)
        time.sleep(SEEN)
        check("the one behind it waits", scene.endpoint.targets(), [HOLDS])
        check("one request is open", scene.operator.open_requests(), [1])
        scene.endpoint.held.is_free.set()
        got = [client.answer() for _ in range(2)]
        check("both are answered", got, [response(b"held"), response(echo(b"/behind"))])


def continues() -> None:
    """A later request of a connection gets 100 Continue, too."""
    with serving(keep()) as scene, scene.client() as client:
        text = request(b"/asks", b"POST", b"body")
        head = text.removesuffix(b"body").replace(
            HOST_FIELD, HOST_FIELD + b"Expect: 100-continue\r\n", 1
        )
        for number in range(2):
            client.send(head)
            check(f"100 Continue, {number}", client.answer(), CONTINUE)
            client.send(b"body")
            check(f"after it, {number}", client.answer(), response(echo(b"/asks", b"body")))


def half_closed() -> None:
    """A client that has ended its input gets the answers to what it has sent, and an idle one leaves
    at once."""
    with serving(keep()) as scene:
        with scene.client() as client:
            targets = [b"/%d" % number for number in range(5)]
            client.send(b"".join(map(request, targets)))
            client.end()
            expected = [response(echo(target)) for target in targets]
            check(
                "answers after the end of the input", [client.answer() for _ in targets], expected
            )
            check("then the connection ends", client.rest(), b"")
        with scene.client() as client:
            check("before the end of the input", client.answer_to(request()), response(echo(b"/")))
            client.end()
            check("an idle client that ends its input", client.rest(), b"")
        check("both have left", comes(lambda: not connections_at(scene.switch.active)), True)


def last_requests() -> None:
    """What makes a request the last one of its connection. Its answer says so, and nothing behind it
    is read as a request."""
    plain = request(b"/last")
    close = answer(echo(b"/last"))
    cases = [
        (last(plain), close),
        (plain.replace(HOST_FIELD, HOST_FIELD + b"Connection: CLOSE\r\n"), close),
        (plain.replace(HOST_FIELD, HOST_FIELD + b"connection: keep-alive,close\r\n"), close),
        (plain.replace(HOST_FIELD, HOST_FIELD + b"Connection: x\r\nConnection: close\r\n"), close),
        (plain.replace(b"HTTP/1.1", b"HTTP/1.0"), close),
        (last(plain).replace(b"HTTP/1.1", b"HTTP/1.0").replace(b"close", b"keep-alive"), close),
        (b"BAD\r\n\r\n", BAD_REQUEST),
        (plain.replace(HOST_FIELD, b""), BAD_REQUEST),
        (head_of(2_000_000), TOO_LARGE),
    ]
    with serving(keep()) as scene:
        for text, expected in cases:
            with scene.client() as client:
                check("a first one is kept", client.answer_to(request()), response(echo(b"/")))
                client.send(text + request(b"/behind"))
                check(f"the last one: {shown(text)}", client.rest(), expected)
        check("nothing behind it", b"/behind" in scene.endpoint.targets(), False)
        for name in (b"keep-alive", b"Close-Not", b"x"):
            with scene.client() as client:
                text = last(plain).replace(b": close", b": " + name)
                got = [client.answer_to(text), client.answer_to(plain)]
                check(f"Connection: {name!r} is kept", got, [response(echo(b"/last"))] * 2)


def most_requests() -> None:
    """A connection carries as many requests as the flag says."""
    for most, sent in ((1, 2), (3, 5)):
        with serving(keep(requests=most)) as scene, scene.client() as client:
            targets = [b"/%d" % number for number in range(sent)]
            client.send(b"".join(map(request, targets)))
            kept = b"".join(response(echo(target)) for target in targets[: most - 1])
            check(f"at most {most}", client.rest(), kept + answer(echo(targets[most - 1])))
            check("no more of them reach the endpoint", scene.endpoint.targets(), targets[:most])


def idle_clients() -> None:
    """A client that is idle for too long is let go: after the timeout, and not for ever."""
    later = LaterEnd(LONGER)
    with serving(keep(client=SHORT)) as scene, scene.client() as client:
        check("before it is idle", client.answer_to(request()), response(echo(b"/")))
        start = time.monotonic()
        check("an idle client", client.rest(), b"")
        seconds = time.monotonic() - start
        check("it is kept up to the timeout", seconds >= SHORT - ROUNDED, True)
        check("it is not kept for long after it", later.is_after(seconds), True)
        check("its endpoint is kept", scene.endpoint.open, 1)


def begun_is_not_idle() -> None:
    """A request that has begun has the timeout of a request, also if it comes slowly."""
    with serving(keep(client=1)) as scene, scene.client() as client:
        check("before a slow one", client.answer_to(request()), response(echo(b"/")))
        text = request(b"/slow")
        client.send(text[:9])
        time.sleep(3)
        client.send(text[9:])
        check("one that comes slowly", client.answer(), response(echo(b"/slow")))


def requests_renew_the_timeout() -> None:
    """The timeout of an idle client begins anew with each answer."""
    timeout = 3
    for _ in range(ROUNDS):
        with serving(keep(client=timeout)) as scene, scene.client() as client:
            got, longest, before = [], 0.0, time.monotonic()
            for _ in range(6):
                got.append(client.answer_to(request()) if longest < timeout - 1 else b"late")
                longest = max(longest, time.monotonic() - before)
                before = time.monotonic()
                time.sleep(1)
        if longest < timeout - 1:
            check("requests over more than the timeout", got, [response(echo(b"/"))] * 6)
            return
    checks.fail("requests over more than the timeout", "the machine was too slow for them")


def idle_endpoints() -> None:
    """A connection to an endpoint that is idle for too long is closed, and its client stays."""
    later = LaterEnd(LONGER)
    with serving(keep(endpoint=SHORT)) as scene, scene.client() as client:
        check("before it is idle", client.answer_to(request()), response(echo(b"/")))
        start = time.monotonic()
        check("it is kept at first", scene.endpoint.open, 1)
        check("an idle connection", comes(lambda: scene.endpoint.open == 0), True)
        seconds = time.monotonic() - start
        check("it is kept up to the timeout", seconds >= SHORT - ROUNDED, True)
        check("it is not kept for long after it", later.is_after(seconds), True)
        text = request(b"/next", b"POST", b"")
        check("its client stays", client.answer_to(text), response(echo(b"/next")))
        check("on a new connection", scene.endpoint.connections, 2)


def reused() -> None:
    """Connections to the endpoint carry the requests of all clients of a loop; there are as many as
    requests were inside at a time."""
    with serving(keep()) as scene:
        got = [timed(scene.switch.active, [last(request())]).answer for _ in range(5)]
        check("five clients", got, [answer(echo(b"/"))] * 5)
        check("one connection", (scene.endpoint.connections, scene.endpoint.open), (1, 1))
        with contextlib.ExitStack() as stack:
            clients = [stack.enter_context(scene.client()) for _ in range(3)]
            for client in clients:
                client.send(request(HOLDS))
            check("three at a time", scene.endpoint.held.holds(3), True)
            scene.endpoint.held.is_free.set()
            check("answers", [client.answer() for client in clients], [response(b"held")] * 3)
            for _ in range(3):
                got = [client.answer_to(request()) for client in clients]
                check("later answers", got, [response(echo(b"/"))] * 3)
        check("three connections", (scene.endpoint.connections, scene.endpoint.open), (3, 3))
    with serving(keep(loops=4)) as scene:
        got = [timed(scene.switch.active, [last(request())]).answer for _ in range(40)]
        check("forty clients of four loops", got, [answer(echo(b"/"))] * 40)
        check_within("connections of four loops", scene.endpoint.connections, 4)


def not_reused() -> None:
    """After these responses the connection carries no further request. What its endpoint says of the
    connection does not reach the client, whose own stays."""
    with serving(keep()) as scene, scene.client() as client:
        check("the first one", client.answer_to(request()), response(echo(b"/")))
        for target, expected in (
            (TO_THE_END, response(b"all")),
            (SAYS_CLOSE, response(SAYS_CLOSE)),
            (VERSION_0, response(VERSION_0)),
            (CLOSES_AFTERWARDS, response(CLOSES_AFTERWARDS)),
            (SENDS_MORE, response(SENDS_MORE)),
            (SENDS_MORE_UNREAD, ONE_READ),
        ):
            before = scene.endpoint.connections
            name = target.decode()
            check(name, client.answer_to(request(target)), expected)
            if target == CLOSES_AFTERWARDS:
                # a request that overtakes the close of its endpoint is lost with the connection
                check("its endpoint has closed", comes(lambda: scene.endpoint.open == 0), True)
            # a POST is not sent again, so it is answered only if it has a connection of its own
            text = request(b"/next", b"POST", b"abc")
            check(f"after {name}", client.answer_to(text), response(echo(b"/next", b"abc")))
            check(f"{name}: connections", scene.endpoint.connections, before + 1)
        check("the others are closed", comes(lambda: scene.endpoint.open == 1), True)


def unasked_bytes() -> None:
    """Bytes that an endpoint sends on an idle connection close it, and reach nobody."""
    with serving(keep()) as scene, scene.client() as client:
        check("before them", client.answer_to(request(SENDS_LATER)), response(SENDS_LATER))
        check("the connection is kept", scene.endpoint.open, 1)
        scene.endpoint.may_send_later.set()
        check("they come", scene.endpoint.has_sent_later(), True)
        check("they close it", comes(lambda: scene.endpoint.open == 0), True)
        targets = [b"/%d" % number for number in range(3)]
        got = [client.answer_to(request(target)) for target in targets]
        check("the answers after them", got, [response(echo(target)) for target in targets])


def stale() -> None:
    """A kept connection is lost with a request on it: the request is sent again if its method is
    idempotent, and only then."""
    for dies in (DIES, DIES_BY_RESET):
        with serving(keep()) as scene:
            for method, body, is_repeated in (
                (b"GET", None, True),
                (b"PUT", b"abc", True),
                (b"DELETE", None, True),
                (b"POST", b"abc", False),
                (b"POST", b"", False),
                (b"PATCH", b"abc", False),
                (b"get", None, False),
            ):
                target = b"/%s-%d" % (method, len(body or b""))
                name = f"{dies.decode()}: {target.decode()}"
                with scene.client() as client:
                    check(f"{name}: before it", client.answer_to(request(dies)), response(dies))
                    connections = scene.endpoint.connections
                    got = client.answer_to(request(target, method, body))
                expected = response(echo(target, body or b"")) if is_repeated else BAD_GATEWAY
                check(name, got, expected)
                came = scene.endpoint.targets().count(target)
                check(f"{name}: it comes so often", came, 1 + is_repeated)
                opened = scene.endpoint.connections - connections
                check(f"{name}: new connections", opened, int(is_repeated))
            # a request leaves once its answer was written
            is_over = comes(lambda: scene.operator.open_requests() == [0])
            check("no request is open", is_over, True)


def stale_marks_none() -> None:
    """An endpoint that has closed a kept connection, with a request on it or without, is not marked:
    it keeps its turns."""
    for loses, is_answered in (
        (request(b"/lost"), True),
        (request(b"/lost", b"POST", b"abc"), False),
    ):
        other = KeptEndpoint()
        with serving((*keep(), "--redispatch"), rollout=TWO, others=[other.port]) as scene:
            endpoints = (scene.endpoint, other)

            def ask(text: bytes) -> tuple[bytes, int]:
                """What a request is answered, and which endpoint has got it."""
                before = [len(each.targets()) for each in endpoints]
                got = timed(scene.switch.active, [last(text)]).answer
                counts = [len(each.targets()) - count for each, count in zip(endpoints, before)]
                return got, counts.index(max(counts))

            check("both have a connection", {ask(request())[1] for _ in range(2)}, {0, 1})
            got, first = ask(request(DIES))
            check("the one whose connection dies", got, answer(DIES))
            check("the other one has its turn", ask(request()), (answer(echo(b"/")), 1 - first))
            got, place = ask(loses)
            expected = answer(echo(b"/lost")) if is_answered else BAD_GATEWAY
            check("the request that is lost", (got, place), (expected, first))
            turns = [ask(request())[1] for _ in range(6)]
            check("both keep their turns", turns, [1 - first, first] * 3)


def closed_while_idle() -> None:
    """A connection that its endpoint closes while it is idle is closed at once, and the next request
    has another one."""
    with serving(keep()) as scene:
        process = scene.switch.process.pid
        sockets = processes.sockets(process)  # of its ports and of the operator
        with scene.client() as client:
            check("a response before it", client.answer_to(request()), response(echo(b"/")))
            check("a client and an endpoint", processes.sockets(process) - sockets, 2)
            text = request(CLOSES_AFTERWARDS)
            got = client.answer_to(text)
            check("a response before the close", got, response(CLOSES_AFTERWARDS))
            is_closed = comes(lambda: processes.sockets(process) - sockets == 1)
            check("the switch closes the connection, too", is_closed, True)
            text = request(b"/next", b"POST", b"abc")
            check("the next request", client.answer_to(text), response(echo(b"/next", b"abc")))


def no_seat() -> None:
    """Idle clients, and clients of whose next request a part has come, hold no seat."""
    for loops in (1, 4):
        with serving(keep(loops=loops), concurrency=1) as scene, contextlib.ExitStack() as stack:
            for number in range(8):
                client = stack.enter_context(scene.client())
                got = client.answer_to(request(b"/%d" % number))
                check(f"{loops} loops: client {number}", got, response(echo(b"/%d" % number)))
                if number % 2:
                    client.send(request(b"/part")[:9])
            got = timed(scene.switch.active, [last(request(b"/new"))]).answer
            check(f"{loops} loops: a new client", got, answer(echo(b"/new")))


def scaled_down() -> None:
    """An idle client and an idle connection to an endpoint keep no revision: it is scaled down at
    its deadline, and its connections are closed about a second later. Its clients go on at the
    other one."""
    other = KeptEndpoint()
    with serving(keep()) as scene, scene.client() as client:
        check("before", client.answer_to(request(b"/one")), response(echo(b"/one")))
        scene.carry_out(f"deploy two {other.port}", "available 2 1", "tick 29")
        time.sleep(SEEN + 0.5)  # the switch looks twice a second
        check("before the deadline it is kept", scene.endpoint.open, 1)
        scene.carry_out("tick 30")
        start = time.monotonic()
        check("it is scaled down at once", scene.operator.revisions()[0].split()[4], "0")
        check("its idle connection is closed", comes(lambda: scene.endpoint.open == 0), True)
        check_soon("until it is closed", time.monotonic() - start, SOON)
        check("its client stays", client.answer_to(request(b"/two")), response(echo(b"/two")))
        check("at the other revision", other.targets(), [b"/two"])
        check("its own endpoint gets no more", scene.endpoint.targets(), [b"/one"])


def drains() -> None:
    """A request that is open holds its revision, as it does without the flag. Its connection is not
    kept once the revision is scaled down."""
    other = KeptEndpoint()
    with serving(keep()) as scene, scene.client() as client:
        client.send(request(HOLDS))
        check("a request is open", scene.endpoint.held.holds(1), True)
        scene.carry_out(f"deploy two {other.port}", "available 2 1", "tick 30")
        check("it drains", scene.operator.revisions()[0].split()[-1], "draining")
        scene.endpoint.held.is_free.set()
        check("it is answered", client.answer(), response(b"held"))
        is_down = comes(lambda: scene.operator.revisions()[0].split()[4] == "0")
        check("then it is scaled down", is_down, True)
        check("and its connection is closed", comes(lambda: scene.endpoint.open == 0), True)
        check("its client stays", client.answer_to(request(b"/two")), response(echo(b"/two")))


def full_port() -> None:
    """A full port closes the client that is idle for the longest time, and no other one."""
    with serving(keep(), descriptors=FEW) as scene, contextlib.ExitStack() as stack:
        arriving = stack.enter_context(scene.client())
        arriving.send(request(b"/part")[:9])
        check("a part is read", comes(lambda: unread_at(scene.switch.active) == 0), True)
        clients: list[KeptClient] = []
        for number in range(FEW):
            clients.append(stack.enter_context(scene.client()))
            check(
                f"client {number} of a full port",
                clients[-1].answer_to(request()),
                response(echo(b"/")),
            )
            time.sleep(0.005)  # so that each has its own moment
            if number == 2:
                check(
                    "the first one asks again",
                    clients[0].answer_to(request())[:12],
                    b"HTTP/1.1 200",
                )
        order = [clients[1], clients[2], clients[0], *clients[3:]]
        closed = [has_ended(client) for client in order]
        count = closed.count(True)
        check("some are closed", 0 < count < FEW, True)
        check("those that are idle for the longest time", closed, sorted(closed, reverse=True))
        got = [client.answer_to(request()) for client in order[count:]]
        check("the others are served", got, [response(echo(b"/"))] * len(got))
        arriving.send(request(b"/part")[9:])
        check("one that is not idle stays", arriving.answer(), response(echo(b"/part")))


def has_ended(client: KeptClient) -> bool:
    """Whether the connection of an idle client has ended."""
    return bool(select.select([client.connection], [], [], 0)[0])


def idle_costs_nothing() -> None:
    """Idle connections cost no processor time."""
    with serving(keep(loops=4)) as scene, contextlib.ExitStack() as stack:
        clients = [stack.enter_context(scene.client()) for _ in range(IDLE)]
        got = {client.answer_to(request()) for client in clients}
        check("clients that are idle then", got, {response(echo(b"/"))})
        before = processes.processor_seconds(scene.switch.process.pid)
        time.sleep(WATCHED)
        busy = processes.processor_seconds(scene.switch.process.pid) - before
        check_within("seconds of processor time of idle connections", busy, MOST_BUSY)
        got = {client.answer_to(request()) for client in clients}
        check("they are served later", got, {response(echo(b"/"))})


def resets() -> None:
    """Kept clients go by a reset while a request is inside, while one waits, or while they are idle:
    nothing of them is left."""
    with serving(keep(), concurrency=2) as scene:
        # of its ports and of the operator
        sockets = processes.sockets(scene.switch.process.pid)
        clients = [scene.client() for _ in range(6)]
        first = {client.answer_to(request()) for client in clients}
        check("clients that are kept", first, {response(echo(b"/"))})
        for client in clients[:4]:
            client.send(request(HOLDS))
        check("both seats are taken", scene.endpoint.held.holds(2), True)
        check("all is read", comes(lambda: unread_at(scene.switch.active) == 0), True)
        for client in clients:
            client.input.close()
            reset(client.connection)
        is_closed = comes(lambda: scene.operator.open_requests() == [0])
        check("no request is open", is_closed, True)
        check("no client is there", comes(lambda: not connections_at(scene.switch.active)), True)
        scene.endpoint.held.is_free.set()
        got = [timed(scene.switch.active, [last(request())]).answer for _ in range(4)]
        check("the seats are free", got, [answer(echo(b"/"))] * 4)
        # at most as many connections to endpoints are kept as there are seats
        left = processes.sockets(scene.switch.process.pid) - sockets
        check_within("sockets that are left", left, 2)


def graceful_shutdown() -> None:
    """From a shutdown on each answer says that it is the last one. Idle connections of both sides are
    closed at once; what has begun is answered."""
    flags = (*keep(loops=4), "--shutdown-grace", str(GRACE))
    with serving(flags, ends=True) as scene, contextlib.ExitStack() as stack:
        idle = [stack.enter_context(scene.client()) for _ in range(8)]
        held, part, silent = (stack.enter_context(scene.client()) for _ in range(3))
        got = {client.answer_to(request()) for client in idle}
        check("clients that are idle then", got, {response(echo(b"/"))})
        check("a kept one", held.answer_to(request()), response(echo(b"/")))
        held.send(request(HOLDS) + request(b"/behind"))
        check("a kept one, too", part.answer_to(request()), response(echo(b"/")))
        part.send(request(b"/part")[:9])
        check("a request is held", scene.endpoint.held.holds(1), True)
        check("all is read", comes(lambda: unread_at(scene.switch.active) == 0), True)
        start = time.monotonic()
        scene.operator.send_quit()
        check("idle clients", [client.rest() for client in idle], [b""] * 8)
        check_soon("idle clients are let go at once", time.monotonic() - start, SOON)
        check("a new one is refused", is_refused(scene.switch.active), True)
        only_one = comes(lambda: scene.endpoint.open == 1)
        check("idle connections to the endpoint are closed", only_one, True)
        part.send(request(b"/part")[9:])
        check("one of which a part had come", part.rest(), answer(echo(b"/part")))
        silent.send(request(b"/first"))
        check("the first one of a silent client", silent.rest(), answer(echo(b"/first")))
        scene.endpoint.held.is_free.set()
        check("the one that was held", held.rest(), answer(b"held"))
        ended = scene.switch.wait()
        check("the status", ended.status, 0)
        lines = ended.printed.splitlines()
        opens = {line.split(" open ")[1].split()[0] for line in lines if " open " in line}
        calls = 2 * len(scene.endpoint.targets())
        check("open 0, and the calls", (opens, lines[-1]), ({"0"}, f"calls {calls}"))
        check("the one behind is not forwarded", b"/behind" in scene.endpoint.targets(), False)


@contextlib.contextmanager
def stopped(scene: Scene) -> Iterator[None]:
    """The program is stopped in this block: it reads nothing of what comes meanwhile."""
    processes.pause(scene.switch.process.pid)
    try:
        yield
    finally:
        scene.switch.process.send_signal(signal.SIGCONT)


def sent_before_quit() -> None:
    """A request that has come on an idle connection before a shutdown is answered, though the loop
    has not read it by then: it is busy with uploads."""
    for _ in range(ROUNDS):
        with serving(keep(), ends=True, descriptors=MANY) as scene, contextlib.ExitStack() as stack:
            clients = [stack.enter_context(scene.client()) for _ in range(20)]
            got = {client.answer_to(request()) for client in clients}
            check("clients that are idle before they ask", got, {response(echo(b"/"))})
            first, *busy = (stack.enter_context(scene.client()) for _ in range(1 + BUSY))
            count = len(clients) + 1 + BUSY
            are_there = comes(lambda: connections_at(scene.switch.active) == count)
            check("all are accepted", are_there, True)
            with stopped(scene):
                first.send(b"BAD\r\n\r\n")
                for client in busy:
                    client.send(UPLOAD)
            # the round of the loop that reads the uploads has begun
            check("a fault of its round", first.answer(), BAD_REQUEST)
            for client in clients:
                client.send(request(b"/late", b"POST", b"abc"))
            scene.operator.send_quit()
            answers = Counter(client.rest() for client in clients)
            check("requests before quit", answers, {answer(echo(b"/late", b"abc")): len(clients)})


def sent_before_the_timeout() -> None:
    """A request that has come on an idle connection before its timeout is answered, though it was
    not read by then."""
    with serving(keep(client=SHORT)) as scene, scene.client() as client:
        check("before it is idle", client.answer_to(request()), response(echo(b"/")))
        with stopped(scene):
            client.send(request(b"/late", b"POST", b"abc"))
            time.sleep(SHORT + 1)
        check("a request in time", client.answer(), response(echo(b"/late", b"abc")))


def sent_before_room_is_made() -> None:
    """A client whose request has come is not idle: a full port makes room by another one."""
    with serving(keep(), descriptors=FEW) as scene, contextlib.ExitStack() as stack:
        clients: list[KeptClient] = []
        while not any(map(has_ended, clients)):
            clients.append(stack.enter_context(scene.client()))
            first = clients[-1].answer_to(request())
            check("a client of a port that becomes full", first, response(echo(b"/")))
            time.sleep(0.005)  # so that each has its own moment
        oldest = clients[1]
        with stopped(scene):
            oldest.send(request(b"/late", b"POST", b"abc"))
            new = [stack.enter_context(scene.client()) for _ in range(2)]
            for client in new:
                client.send(request(b"/new"))
        check("the oldest one", oldest.answer(), response(echo(b"/late", b"abc")))
        got = [client.answer() for client in new]
        check("the new ones", got, [response(echo(b"/new"))] * 2)


def counted() -> None:
    """`--count` counts connections, each of which carries several requests, also once the port is
    closed."""
    endpoint = KeptEndpoint()
    switch = Switch(NO_PREVIEW, count=2, preview=False, timeout=TIMEOUT, flags=keep())
    check("listening", switch.first, LISTENING)
    operator = switch.operator()
    operator.check(f"open one {endpoint.port}", "ok 0")
    operator.check("available 1 1", "ok 0")
    switch.take(switch.active, 2)
    with KeptClient(switch.active) as first, KeptClient(switch.active) as second:
        for number in range(3):
            text = request(b"/%d" % number)
            got = [client.answer_to(text) for client in (first, second)]
            check(f"answers, {number}", got, [response(echo(b"/%d" % number))] * 2)
        check("the port is closed", is_refused(switch.active), True)
        check("the program waits for them", switch.process.poll(), None)
    switch.check_end_after(operator, "the end of two kept connections", 12)


def preview_port() -> None:
    """The preview port keeps connections, too."""
    endpoint = KeptEndpoint()
    switch = Switch(timeout=TIMEOUT, flags=keep())
    try:
        with contextlib.closing(switch.operator()) as operator:
            operator.check(f"open one {endpoint.port}", "ok 0")
            operator.check("available 1 1", "ok 0")
        with KeptClient(switch.preview) as client:
            for number in range(3):
                got = client.answer_to(request(b"/%d" % number))
                check(f"a preview, {number}", got, response(echo(b"/%d" % number)))
        check("one connection to its endpoint", endpoint.connections, 1)
    finally:
        switch.stop()


def place_of(entry: LogEntry) -> tuple[object, ...]:
    return entry.target, entry.status, entry.connection_request, entry.upstream_reused


def logged() -> None:
    """A line tells the number of its request on its connection, and whether the connection to its
    endpoint had carried one before. A later request begins with its first byte."""
    with tempfile.TemporaryDirectory() as folder:
        log = pathlib.Path(folder) / "log"
        with serving(keep(), log=log) as scene:
            with scene.client() as client:
                check("the first one", client.answer_to(request(b"/1")), response(echo(b"/1")))
                time.sleep(PAUSE)
                sent = time.time()
                check("after a pause", client.answer_to(request(b"/2")), response(echo(b"/2")))
                took = 1000 * (time.time() - sent)
                check("before a stale one", client.answer_to(request(DIES)), response(DIES))
                check("a stale one", client.answer_to(request(b"/4")), response(echo(b"/4")))
                client.send(b"BAD\r\n\r\n")
                check("a fault", client.rest(), BAD_REQUEST)
            entries_of(log, 5)
            got = timed(scene.switch.active, [last(request(b"/other"))]).answer
            check("another client", got, answer(echo(b"/other")))
            entries_of(log, 6)
            with scene.client() as client:
                check("one of two", client.answer_to(request(b"/a")), response(echo(b"/a")))
                client.send(b"GET /cut")
            entries_of(log, 8)
            with scene.client() as client:
                check("a kept one", client.answer_to(request(b"/kept")), response(echo(b"/kept")))
            entries_of(log, 9)
            is_alone = comes(lambda: not connections_at(scene.switch.active))
            check("it has left, and no line tells of it", is_alone, True)
            scene.carry_out("available 1 0")
            got = timed(scene.switch.active).answer
            check("no endpoint", got, UNAVAILABLE)
            entries = entries_of(log, 10)
        check(
            "the places of requests",
            list(map(place_of, entries)),
            [
                ("/1", 200, 1, False),
                ("/2", 200, 2, True),
                (DIES.decode(), 200, 3, True),
                ("/4", 200, 4, False),
                (None, 400, 5, None),
                ("/other", 200, 1, True),
                ("/a", 200, 1, True),
                (None, None, 2, None),
                ("/kept", 200, 1, True),
                ("/", 503, 1, None),
            ],
        )
        check("a kept one has sent something", {one.idle_connections for one in entries}, {None})
        second = entries[1]
        check("a later one begins with its first byte", second.duration_ms <= took + SLACK, True)
        check("and not before", second.begun >= sent - SLACK / 1000, True)
        requests = [one.request for one in entries if one.request is not None]
        check("the numbers of requests that entered", requests, list(range(1, len(requests) + 1)))
        size = len(request(b"/2"))
        check("the bytes of a later one", second.request_bytes, size)


SAME = [
    request(b"/plain"),
    request(b"/body", b"POST", b"abc"),
    request(b"/body", b"POST", b"abc", chunked=True),
    request(b"/head", b"HEAD"),
    *[request(target) for target in (*BROKEN, *WHOLE)],
    b"BAD\r\n\r\n",
    b"GET / HTTP/1.1\r\n\r\n",
    head_of(2_000_000),
    request(b"/version").replace(b"HTTP/1.1", b"HTTP/1.0"),
]


def without_the_flag() -> None:
    """Without the flag each connection carries one request, as before: each answer says so, and so
    does each request to the endpoint. The log has no new member."""
    for flags in ((), keep()[1:], ("--keep-alive-requests", "5")):
        with tempfile.TemporaryDirectory() as folder:
            log = pathlib.Path(folder) / "log"
            with serving(flags, log=log) as scene:
                for number in range(3):
                    text = request(b"/%d" % number) + request(b"/behind")
                    got = timed(scene.switch.active, [text]).answer
                    check("the only answer", got, answer(echo(b"/%d" % number)))
                check("a refusal", asked(scene.switch.active, b"BAD\r\n\r\n"), BAD_REQUEST)
                check("a connection for each", scene.endpoint.connections, 3)
                check("none is kept", comes(lambda: scene.endpoint.open == 0), True)
                lasts = [is_last(one) for one in scene.endpoint.requests]
                check("each says that it is the last", lasts, [True] * 3)
                entries_of(log, 4)
            text = log.read_bytes()
            members = [name for name in (b"connection_request", b"upstream_reused") if name in text]
            check("members of the log", members, [])


def answers_to_last(flags: Sequence[str]) -> list[bytes]:
    """What each request of `SAME` is answered that says that it is the last one of its connection.
    Its endpoint closes each connection after its response."""
    with serving(flags) as scene:
        endpoint = Endpoint(by_target(b"one"))
        scene.carry_out(f"deploy two {endpoint.port}", "available 2 1")
        got = []
        for text in SAME:
            got.append(timed(scene.switch.active, [last(text)]).answer)
            # the next request must not overtake the close of its endpoint
            check("it has closed", comes(lambda: has_closed_all(endpoint.port)), True)
        return got


def same_answers() -> None:
    """The answer to the last request of a connection has the same bytes with the flag and without
    it, whatever the endpoint does."""
    for text, without, with_flag in zip(SAME, answers_to_last(()), answers_to_last(keep())):
        check(f"it is answered: {shown(text)}", without.startswith(b"HTTP/1.1 "), True)
        check(f"the same answer: {shown(text)}", with_flag, without)


if __name__ == "__main__":
    checks.run(
        "live_keep_alive",
        (
            in_order,
            one_at_a_time,
            continues,
            half_closed,
            last_requests,
            most_requests,
            idle_clients,
            begun_is_not_idle,
            requests_renew_the_timeout,
            idle_endpoints,
            reused,
            not_reused,
            unasked_bytes,
            stale,
            stale_marks_none,
            closed_while_idle,
            no_seat,
            scaled_down,
            drains,
            full_port,
            idle_costs_nothing,
            resets,
            graceful_shutdown,
            sent_before_quit,
            sent_before_the_timeout,
            sent_before_room_is_made,
            counted,
            preview_port,
            logged,
            without_the_flag,
            same_answers,
        ),
        4,
    )
