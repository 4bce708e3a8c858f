"""How servers differ about requests that the switch forwards, without another end of them: the
table of docs/HTTP.md, "Whether servers read alike what is forwarded"."""
import re
from collections.abc import Callable
from typing import NamedTuple

from support.smuggling.readings import Read

# The methods that every server takes.
USUAL_METHODS = (b"GET", b"HEAD", b"POST", b"PUT", b"DELETE", b"PATCH", b"OPTIONS")
# The longest line, and the longest name of a field, that every server takes.
LONGEST_LINE, LONGEST_NAME = 4094, 255
ABSOLUTE = re.compile(rb"[A-Za-z][A-Za-z0-9+.-]*://")
HOST_AND_PORT = re.compile(rb"(?:[A-Za-z0-9.-]+|\[[0-9a-fA-F:.]+\])(?::\d{1,5})?")
# A path without dot segments and empty ones, whose bytes are those that RFC 3986 section 3.3 gives
# a path, with a query; neither has a byte that is percent-encoded.
NORMAL = re.compile(
    rb"(?![^?]*//)(?!(?:[^?]*/)?\.\.?(?:[/?]|$))/[A-Za-z0-9._~!$&'()*+,;=:@/-]*(?:\?[A-Za-z0-9._~!$&'()*+,;=:@/?-]*)?"
)


class Request(NamedTuple):
    """A request with its fields, by the strictest reading."""

    read: Read
    fields: tuple[tuple[bytes, bytes], ...]

    def values(self, name: bytes) -> list[bytes]:
        return [value for each, value in self.fields if each.lower() == name]


class Difference(NamedTuple):
    """A row of the table: its first cell, the servers that differ, and the requests."""

    row: str
    servers: tuple[str, ...]
    concerns: Callable[[Request], bool]


def is_absolute(request: Request) -> bool:
    return bool(ABSOLUTE.match(request.read.target))


def lacks_slash(request: Request) -> bool:
    return not request.read.target.startswith(b"/") and not is_absolute(request)


def has_fragment(request: Request) -> bool:
    return b"#" in request.read.target


def is_not_ascii(request: Request) -> bool:
    return not request.read.target.isascii()


def is_not_normal(request: Request) -> bool:
    """Whether none of the rows above concerns the target, and some servers write it otherwise."""
    others = (is_absolute, lacks_slash, has_fragment, is_not_ascii)
    return not NORMAL.fullmatch(request.read.target) and not any(row(request) for row in others)


def has_odd_host(request: Request) -> bool:
    return not all(HOST_AND_PORT.fullmatch(value) for value in request.values(b"host"))


def has_odd_method(request: Request) -> bool:
    return request.read.method not in USUAL_METHODS


def has_expectation(request: Request) -> bool:
    return bool(request.values(b"expect"))


def has_long_line(request: Request) -> bool:
    lengths = [len(name) + len(value) + 2 for name, value in request.fields]
    line = len(request.read.method) + len(request.read.target) + len("  HTTP/1.1")
    return (
        max([line, *lengths]) > LONGEST_LINE
        or max(len(name) for name, _ in request.fields) > LONGEST_NAME
    )


def has_unexpected_body(request: Request) -> bool:
    return bool(request.read.body) and request.read.method in (b"GET", b"HEAD")


def lacks_length(request: Request) -> bool:
    return request.read.method == b"POST" and not request.values(b"content-length")


DIFFERENCES = (
    Difference(
        "a target in absolute form", ("nginx", "apache2", "haproxy", "lighttpd"), is_absolute
    ),
    Difference(
        "a target that does not begin with `/`",
        ("nginx", "apache2", "haproxy", "lighttpd", "node"),
        lacks_slash,
    ),
    Difference(
        "a target with `#`",
        ("apache2", "haproxy", "lighttpd"),
        has_fragment,
    ),
    Difference("a target with bytes above 127", ("haproxy", "lighttpd", "node"), is_not_ascii),
    Difference(
        "a path or a query in another spelling", ("nginx", "apache2", "lighttpd"), is_not_normal
    ),
    Difference("a Host that is no host and port", ("nginx", "apache2", "lighttpd"), has_odd_host),
    Difference(
        "a method that few servers know",
        ("nginx", "apache2", "lighttpd", "gunicorn", "node"),
        has_odd_method,
    ),
    Difference(
        "an Expect",
        ("apache2", "node"),
        has_expectation,
    ),
    Difference(
        "a line of more than 4,094 bytes, or a name of more than 255",
        ("nginx", "apache2", "haproxy", "lighttpd", "gunicorn"),
        has_long_line,
    ),
    Difference("GET or HEAD with a body", ("lighttpd",), has_unexpected_body),
    Difference("POST without a length", ("lighttpd",), lacks_length),
)


def may_differ(request: Request, server: str) -> bool:
    """Whether a row of the table says that a server differs about such a request."""
    return any(
        server in difference.servers and difference.concerns(request) for difference in DIFFERENCES
    )
