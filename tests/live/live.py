"""`bg_switch serve` on loopback through a rollout: what clients, operators and endpoints get, and
the last report.

The ports take exactly K connections for each worker. What the checks leave over of them, the end of
a switch takes.
"""
import collections
import concurrent.futures
import contextlib
import shutil
import socket
import subprocess

from support import checks, clients
from support.checks import check, comes
from support.endpoints import Answer, Endpoint, Request, by_target
from support.messages import (
    BAD_REQUEST,
    BY_HAND,
    CONTINUE,
    HEAD_TOO_LARGE,
    LARGEST_BODY,
    NO_PREVIEW,
    NOT_IMPLEMENTED,
    TOO_LARGE,
    UNAVAILABLE,
    answer,
    head_of,
    request,
    response,
)
from support.operators import Operator
from support.ports import free_port
from support.switch import LISTENING, Switch, opened

LARGE = bytes(range(256)) * 4096
Got = tuple[int, bytes] | None


class Session:
    """A switch with two endpoints, and how many requests have entered."""

    def __init__(self) -> None:
        self.one, self.two = (Endpoint(by_target(name)) for name in (b"one", b"two"))
        self.switch = Switch(BY_HAND, workers=4, count=120)
        self.active, self.preview = self.switch.active, self.switch.preview
        self.entered = 0

    def get(
        self,
        path: str = "/",
        port: int | None = None,
        method: str = "GET",
        body: clients.Body = None,
        fields: dict[str, str] | None = None,
    ) -> Got:
        """What a client is answered whose request enters, at the active port if no other is
        given."""
        self.entered += 1
        return self.switch.get(self.active if port is None else port, path, method, body, fields)

    def raw(self, text: bytes) -> bytes | None:
        """The same of these bytes, at the active port."""
        self.entered += 1
        return self.switch.raw(self.active, text)


def before_the_book(switch: Switch) -> None:
    with contextlib.closing(switch.operator()) as operator:
        operator.check("tick 1", "refused NotOpen")
        operator.check("enter 0 active", "refused NotHere")
        operator.check("leave 0", "refused NotHere")
        operator.check("jump", "fault UnknownWord")
        operator.check("open V1 1", "refused BadName")
        operator.check("tick 2", "refused NotOpen")
        # a connection that ends in the middle of a line
        operator.socket.sendall(b"open web")


def opening(session: Session) -> None:
    switch = session.switch
    with contextlib.closing(switch.operator()) as operator:
        operator.check(f"open one {session.one.port}", "ok 0")
        check("no endpoint", switch.raw(switch.active, request()), UNAVAILABLE)
        operator.check("available 1 1", "ok 0")
        operator.check("enter 0 active", "refused NotHere")
        operator.check("open one 1", "refused AlreadyOpen")
        carried_messages(session)
        fields_and_bytes(session)
        refused_messages(switch)


def carried_messages(session: Session) -> None:
    """Requests of Python's own client, and of curl if it is there."""
    check("GET", session.get(), (200, b"one"))
    check("HEAD", session.get(method="HEAD"), (200, b""))
    check(
        "POST of 1 MiB by length",
        session.get(method="POST", body=LARGE) == (200, b"one" + LARGE),
        True,
    )
    pieces = (LARGE[start : start + 65536] for start in range(0, len(LARGE), 65536))
    chunked = session.get(method="POST", body=pieces, fields={"Transfer-Encoding": "chunked"})
    check("POST of 1 MiB by chunks", chunked == (200, b"one" + LARGE), True)
    check("a response in chunks", session.get("/chunks") == (200, b"c" * 300000), True)
    check("an endpoint that closes in its head", session.get("/head"), (502, b""))
    check("an endpoint that closes in its body", session.get("/cut"), (502, b""))
    if shutil.which("curl"):
        session.entered += 1
        session.switch.take(session.active)
        words = ["curl", "-s", "-i", f"http://127.0.0.1:{session.active}/"]
        got = subprocess.run(
            words, capture_output=True, timeout=clients.LONGEST, check=False
        ).stdout
        check(
            "curl",
            (got.startswith(b"HTTP/1.1 200 OK\r\n"), got.endswith(b"\r\n\r\none")),
            (True, True),
        )
    else:
        check("GET once more", session.get(), (200, b"one"))


def fields_and_bytes(session: Session) -> None:
    """Which fields go on, and requests byte for byte."""
    got = session.get(
        "/all-fields", fields={"Connection": "keep-alive, X-Drop", "X-Drop": "1", "X-Keep": "2"}
    )
    fields = got[1].decode().split("\n") if got else []
    check(
        "fields that go on",
        sorted(line for line in fields if not line.startswith("Host")),
        ["Accept-Encoding: identity", "Connection: close", "Via: 1.1 bg-switch", "X-Keep: 2"],
    )
    expecting = b"POST / HTTP/1.1\r\nHost: x\r\nExpect: 100-continue\r\nContent-Length: 2\r\n\r\nhi"
    check("an expectation", session.raw(expecting), CONTINUE + answer(b"onehi"))
    check("bytes after a request", session.raw(request() * 200), answer(b"one"))


def refused_messages(switch: Switch) -> None:
    """Messages that are refused, and don't enter."""
    two_lengths = (
        b"GET / HTTP/1.1\r\nHost: x\r\nContent-Length: 1\r\nTransfer-Encoding: chunked\r\n\r\n"
    )
    large = head_of(LARGEST_BODY + 1)
    check("no Host", switch.raw(switch.active, b"GET / HTTP/1.1\r\n\r\n"), BAD_REQUEST)
    check("two lengths", switch.raw(switch.active, two_lengths), BAD_REQUEST)
    check("too large", switch.raw(switch.active, large, *[b"x" * 60000] * 10), TOO_LARGE)
    check(
        "a large head",
        switch.raw(switch.active, b"GET / HTTP/1.1\r\n" + b"A: b\r\n" * 65 + b"\r\n"),
        HEAD_TOO_LARGE,
    )
    check("CONNECT", switch.raw(switch.active, request(method=b"CONNECT")), NOT_IMPLEMENTED)
    check("a client that closes early", switch.raw(switch.active, b"GET / HT"), b"")


def switch_under_load(session: Session, operator: Operator) -> None:
    """200 requests in parallel while a revision takes over."""
    operator.check(f"deploy two {session.two.port}", "ok 0")
    operator.check("available 2 1", "ok 1")
    check("preview", session.get(port=session.preview), (200, b"two"))
    check("active before the switch", session.get(), (200, b"one"))
    served = session.one.served
    with concurrent.futures.ThreadPoolExecutor(20) as pool:
        gets = [pool.submit(session.switch.get, session.active, "/slow") for _ in range(100)]
        check("requests are under way", comes(lambda: session.one.served > served), True)
        operator.check("promote", "ok 3")
        gets += [pool.submit(session.switch.get, session.active) for _ in range(100)]
        counts = collections.Counter(get.result() for get in gets)
    session.entered += 200
    check(
        "each request of 200 is answered whole",
        sum(counts[200, body] for body in (b"one", b"two")),
        200,
    )
    check(
        "both revisions have answered",
        (counts[200, b"one"] > 0, counts[200, b"two"] >= 100),
        (True, True),
    )
    check("active after the switch", session.get(), (200, b"two"))


def abort_of_a_third(session: Session, operator: Operator) -> None:
    """A revision whose endpoint doesn't listen."""
    operator.check("tick 30", "ok 1")
    operator.check(f"deploy three {free_port()}", "ok 0")
    operator.check("available 3 1", "ok 1")
    check("no endpoint listens", session.get(port=session.preview), (502, b""))
    operator.check("abort", "ok 0")
    check("active after the abort", session.get(), (200, b"two"))


def check_last_report(session: Session, operator: Operator) -> None:
    # a request leaves after its client was answered
    check("all requests have left", comes(lambda: not any(operator.open_requests())), True)
    told = operator.report()
    operator.send_quit()
    ended = session.switch.end()
    check("status", ended.status, 0)
    check("the operator's report", ended.printed.startswith(told) and told != "", True)
    check(
        "the last report",
        ended.printed,
        f"""moment 30
phase aborted
active 2
preview 2
stable 2
newest 3
revision 1 one desired 0 available 0 open 0 deadline none
revision 2 two desired 1 available 1 open 0 deadline none
revision 3 three desired 1 available 1 open 0 deadline 60
end
calls {2 * session.entered}
""",
    )


def whole_rollout() -> None:
    """From before the book to the last report, by several operators in turn."""
    session = Session()
    check("listening", session.switch.first, LISTENING)
    before_the_book(session.switch)
    opening(session)
    with contextlib.closing(session.switch.operator()) as between:
        between.check("leave 0", "refused NotHere")
    with contextlib.closing(session.switch.operator()) as second:
        second.check("open one 1", "refused AlreadyOpen")
        switch_under_load(session, second)
        abort_of_a_third(session, second)
        check_last_report(session, second)


def buffering_heads(heads: list[bytes]) -> Answer:
    """Answers `ok`, and keeps the head of each request as it came."""

    def give(got: Request, connection: socket.socket) -> None:
        heads.append(got.head)
        connection.sendall(response(b"ok"))

    return give


def byte_for_byte() -> None:
    """Two clients in turn, and what goes to their endpoint."""
    heads: list[bytes] = []
    switch, operator = opened(
        Endpoint(buffering_heads(heads)).port, NO_PREVIEW, count=2, preview=False
    )
    for _ in range(2):
        check(
            "an answer",
            switch.raw(switch.active, b"GET /a HTTP/1.1\r\nHost: web\r\nA: b\r\n\r\n"),
            answer(b"ok"),
        )
    switch.check_end_after(operator, "calls of two requests", 4)
    check(
        "what went to the backend",
        heads,
        [b"GET /a HTTP/1.1\r\nHost: web\r\nA: b\r\nVia: 1.1 bg-switch\r\nConnection: close\r\n\r\n"]
        * 2,
    )


def without_preview() -> None:
    """A preview port without a preview service."""
    switch, operator = opened(Endpoint(by_target(b"one")).port, NO_PREVIEW, count=3)
    check("no preview service", switch.raw(switch.preview, request()), UNAVAILABLE)
    check("GET", switch.get(switch.active), (200, b"one"))
    switch.check_end_after(operator, "the last report's end", 2)


if __name__ == "__main__":
    checks.run("live", [whole_rollout, byte_for_byte, without_preview], at_once=3)
