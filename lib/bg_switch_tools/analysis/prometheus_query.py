"""Instant queries of a Prometheus server
(https://prometheus.io/docs/prometheus/latest/querying/api/#instant-queries)."""
import contextlib
import http.client
import json
import socket
import threading
import urllib.parse
from collections.abc import Iterator
from typing import NamedTuple

PATH = "/api/v1/query"
WAIT = 10.0  # seconds for an answer
LARGEST = 1 << 20  # bytes of an answer
MOST_VALUES = 1000
LONGEST_REASON = 200  # characters of a reason that are repeated
CONNECTIONS = {"http": http.client.HTTPConnection, "https": http.client.HTTPSConnection}


class QueryError(Exception):
    """A query has no values. The text says why."""


class Server(NamedTuple):
    """Where a Prometheus server answers: `path` stands before that of the API, and may be empty."""

    scheme: str
    host: str
    port: int | None
    path: str


def server_of(url: str) -> Server:
    """The server at a URL such as `http://127.0.0.1:9090`. `ValueError` if it is not such a URL."""
    parts = urllib.parse.urlsplit(url)
    if (
        parts.scheme not in CONNECTIONS
        or not parts.hostname
        or parts.username is not None
        or parts.query
        or parts.fragment
    ):
        raise ValueError(f"a URL is expected, such as http://127.0.0.1:9090, and not {url!r}")
    if not url.isascii() or not url.isprintable() or " " in url:
        raise ValueError(f"{url!r} has characters that a URL does not have")
    return Server(parts.scheme, parts.hostname, parts.port, parts.path.rstrip("/"))


@contextlib.contextmanager
def _cut_after(connection: http.client.HTTPConnection, wait: float) -> Iterator[threading.Event]:
    """Connects, and cuts the connection after `wait` seconds, even if its peer sends a byte now and
    then. The event says whether it was cut."""
    was_cut = threading.Event()
    connection.connect()
    # which the connection gives away with the head of an answer
    connected: socket.socket = connection.sock

    def cut() -> None:
        was_cut.set()
        with contextlib.suppress(OSError):
            connected.shutdown(socket.SHUT_RDWR)

    timer = threading.Timer(wait, cut)
    timer.daemon = True
    timer.start()
    try:
        yield was_cut
    finally:
        timer.cancel()


def _answer(server: Server, query: str, wait: float) -> tuple[int, bytes]:
    """The status and the body of the answer to a query. `QueryError` if none comes."""
    body = urllib.parse.urlencode({"query": query, "timeout": f"{wait:g}s"})
    headers = {
        "Content-Type": "application/x-www-form-urlencoded",
        "Accept": "application/json",
        "Connection": "close",
    }
    with contextlib.closing(
        CONNECTIONS[server.scheme](server.host, server.port, timeout=wait)
    ) as connection:
        try:
            with _cut_after(connection, wait) as was_cut:
                connection.request("POST", server.path + PATH, body, headers)
                answer = connection.getresponse()
                content = answer.read(LARGEST + 1)
        except (OSError, http.client.HTTPException, ValueError) as error:
            reason = getattr(error, "strerror", None) or str(error) or type(error).__name__
            raise QueryError(f"{server.host} gives no answer: {reason}") from None
    if was_cut.is_set():
        raise QueryError(f"{server.host} gives no whole answer within {wait:g} seconds")
    if len(content) > LARGEST:
        raise QueryError(f"the answer has more than {LARGEST} bytes")
    return answer.status, content


def query_values(server: Server, query: str, wait: float = WAIT) -> list[float]:
    """The values of an instant query: those of a vector, or the one of a scalar; they can be
    infinite or not a number. Empty if the result is empty. `QueryError` if the server gives no
    result within `wait` seconds.
    """
    status, body = _answer(server, query, wait)
    try:
        answer = json.loads(body)
    except (ValueError, RecursionError):
        raise QueryError(f"the answer, with status {status}, is not JSON") from None
    if not isinstance(answer, dict) or answer.get("status") != "success":
        reason = answer.get("error") if isinstance(answer, dict) else None
        raise QueryError(
            f"the query is refused with status {status}: {str(reason)[:LONGEST_REASON]}"
        )
    return _values(answer.get("data"))


def _values(data: object) -> list[float]:
    """The values of the member `data`."""
    kind, result = (
        (data.get("resultType"), data.get("result")) if isinstance(data, dict) else (None, None)
    )
    if kind == "scalar":
        return [_value(result)]
    if kind != "vector" or not isinstance(result, list):
        raise QueryError(
            f"the result is neither a vector nor a scalar, but {str(kind)[:LONGEST_REASON]}"
        )
    if len(result) > MOST_VALUES:
        raise QueryError(f"the result has more than {MOST_VALUES} values")
    return [_value(each.get("value") if isinstance(each, dict) else None) for each in result]


def _value(sample: object) -> float:
    """The value of a sample: a list of its time and its value, which is a text."""
    if isinstance(sample, list) and len(sample) == 2 and isinstance(sample[1], str):
        with contextlib.suppress(ValueError):
            return float(sample[1])
    raise QueryError("a sample of the result is malformed")
