"""`bg_switch serve --error-pages` on loopback: which page each answer of the switch itself has, and
that without the flag none has a body."""
import contextlib
from collections.abc import Iterator

from support import checks
from support.checks import check
from support.endpoints import Endpoint, in_pieces
from support.messages import (
    BAD_GATEWAY,
    BAD_REQUEST,
    HEAD_TOO_LARGE,
    LARGEST_BODY,
    NOT_IMPLEMENTED,
    TOO_LARGE,
    UNAVAILABLE,
    answer,
    response,
)
from support.switch import LISTENING, Switch, serving

ERROR_PAGES = "--error-pages"
BROWSER = b"Accept: text/html,application/xhtml+xml,application/xml;q=0.9,*/*;q=0.8\r\n"
CURL = b"Accept: */*\r\n"
TEXT, HTML = b"text/plain", b"text/html"
# Requests that are refused: the name of each, its status and reason, and what is sent before the
# client's own fields and after them.
REFUSED = (
    ("a malformed field", b"400 Bad Request", b"GET / HTTP/1.1\r\nHost: x\r\n", b"A : b\r\n\r\n"),
    ("no Host", b"400 Bad Request", b"GET / HTTP/1.1\r\n", b"\r\n"),
    (
        "a body that is too large",
        b"413 Content Too Large",
        b"POST / HTTP/1.1\r\nHost: x\r\nContent-Length: %d\r\n" % (LARGEST_BODY + 1),
        b"\r\n",
    ),
    (
        "a head that is too large",
        b"431 Request Header Fields Too Large",
        b"GET / HTTP/1.1\r\nHost: x\r\n",
        b"A: %s\r\n\r\n" % (b"a" * 20000),
    ),
    (
        "a coding that is unknown",
        b"501 Not Implemented",
        b"POST / HTTP/1.1\r\nHost: x\r\nTransfer-Encoding: gzip, chunked\r\n",
        b"\r\n",
    ),
)
FIXED = {
    b"400 Bad Request": BAD_REQUEST,
    b"413 Content Too Large": TOO_LARGE,
    b"431 Request Header Fields Too Large": HEAD_TOO_LARGE,
    b"501 Not Implemented": NOT_IMPLEMENTED,
}
# What a client accepts, and the page that it gets.
ACCEPTED = (
    ("nothing is said", b"", TEXT),
    ("a browser", BROWSER, HTML),
    ("curl", CURL, TEXT),
    ("capital letters", b"ACCEPT: TEXT/HTML\r\n", HTML),
    ("a parameter", b"Accept: text/html;level=1\r\n", HTML),
    ("the second element", b"Accept: application/json, text/html\r\n", HTML),
    ("the second field", b"Accept: application/json\r\nAccept: text/html\r\n", HTML),
    ("a small weight", b"Accept: text/html;q=0.001\r\n", HTML),
    ("a weight of zero", b"Accept: text/html;q=0\r\n", TEXT),
    ("a weight of zero with digits", b"Accept: text/html ; Q=0.000, */*\r\n", TEXT),
    ("another type of text", b"Accept: text/plain\r\n", TEXT),
    ("a longer name", b"Accept: text/html5, xtext/html\r\n", TEXT),
    ("a range of types", b"Accept: text/*\r\n", TEXT),
    ("another field", b"X-Accept: text/html\r\n", TEXT),
)


def body_of(kind: bytes, title: bytes) -> bytes:
    """The page of a status and its reason."""
    if kind == TEXT:
        return title + b"\n"
    return b"<!DOCTYPE html>\n<title>%s</title>\n<h1>%s</h1>\n" % (title, title)


def page(kind: bytes, title: bytes, to_head: bool = False) -> bytes:
    """The whole answer with a page; to HEAD without the page itself."""
    body = body_of(kind, title)
    return (
        b"HTTP/1.1 %s\r\nContent-Type: %s; charset=utf-8\r\nContent-Length: %d\r\nConnection: close\r\n\r\n%s"
        % (title, kind, len(body), b"" if to_head else body)
    )


def get(fields: bytes, method: bytes = b"GET") -> bytes:
    return b"%s / HTTP/1.1\r\nHost: x\r\n%s\r\n" % (method, fields)


@contextlib.contextmanager
def paged(endpoint: int) -> Iterator[Switch]:
    """A switch with the flag, whose active revision has this endpoint, and without a preview."""
    with serving(endpoint, flags=(ERROR_PAGES,)) as switch:
        yield switch


def stopped_endpoint() -> int:
    """The port of an endpoint that cannot be connected to."""
    endpoint = Endpoint(in_pieces([response(b"ok")]))
    endpoint.stop()
    return endpoint.port


def without_the_flag() -> None:
    """Each refusal has its fixed bytes, whatever the client accepts."""
    with serving(stopped_endpoint()) as switch:
        for name, title, front, end in REFUSED:
            check(
                f"{name}, without the flag",
                switch.raw(switch.active, front + BROWSER + end),
                FIXED[title],
            )
        check("502 without the flag", switch.raw(switch.active, get(BROWSER)), BAD_GATEWAY)


def without_an_endpoint(flags: tuple[str, ...], expected: bytes) -> None:
    """A switch whose active revision has no available endpoint answers 503."""
    switch = Switch(flags=flags)
    try:
        check("listening", switch.first, LISTENING)
        with contextlib.closing(switch.operator()) as operator:
            operator.check("open one 9001", "ok 0")
            check(
                f"503 without an endpoint, with {flags}",
                switch.raw(switch.active, get(BROWSER)),
                expected,
            )
    finally:
        switch.stop()


def unavailable() -> None:
    without_an_endpoint((), UNAVAILABLE)
    without_an_endpoint((ERROR_PAGES,), page(HTML, b"503 Service Unavailable"))


def requests_that_are_refused() -> None:
    """Of a head that is refused nothing is used, so its page is a text."""
    with paged(stopped_endpoint()) as switch:
        for name, title, front, end in REFUSED:
            check(name, switch.raw(switch.active, front + BROWSER + end), page(TEXT, title))


def by_what_is_accepted() -> None:
    """The page of a 502, by what the client accepts."""
    title = b"502 Bad Gateway"
    with paged(stopped_endpoint()) as switch:
        for name, fields, kind in ACCEPTED:
            check(f"the page: {name}", switch.raw(switch.active, get(fields)), page(kind, title))
            check(
                f"the page of HEAD: {name}",
                switch.raw(switch.active, get(fields, b"HEAD")),
                page(kind, title, to_head=True),
            )
        check(
            "a client of Python reads the page",
            switch.get(switch.active, fields={"Accept": "text/html"}),
            (502, body_of(HTML, title)),
        )


def what_is_no_refusal() -> None:
    """An endpoint's answer, also an error, is passed on as it is; its broken one is a 502."""
    error = b"HTTP/1.1 500 Internal Server Error\r\nContent-Length: 2\r\n\r\nno"
    passed = (
        b"HTTP/1.1 500 Internal Server Error\r\nContent-Length: 2\r\nConnection: close\r\n\r\nno"
    )
    for name, given, expected in (
        ("a good answer", response(b"ok"), answer(b"ok")),
        ("an error of the endpoint", error, passed),
        ("a broken answer", b"HTTP/1.1 2000 OK\r\n\r\n", page(HTML, b"502 Bad Gateway")),
    ):
        with paged(Endpoint(in_pieces([given])).port) as switch:
            check(name, switch.raw(switch.active, get(BROWSER)), expected)


if __name__ == "__main__":
    checks.run(
        "live_error_pages",
        [
            without_the_flag,
            unavailable,
            requests_that_are_refused,
            by_what_is_accepted,
            what_is_no_refusal,
        ],
        at_once=5,
    )
