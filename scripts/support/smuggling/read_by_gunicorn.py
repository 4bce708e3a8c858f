"""An application of gunicorn that answers each request with what it has read, as
`support.smuggling.readings` reads it. gunicorn imports this file alone."""
from collections.abc import Callable
from typing import Any

LONGEST_TOLD = 512
OK, INPUT_HAS_ENDED = "200 OK", "499 The Input Has Ended"


def shortened(text: bytes) -> bytes:
    return text if len(text) <= LONGEST_TOLD else text[:LONGEST_TOLD] + b"..%d" % len(text)


def body_of(environment: dict[str, Any]) -> bytes | None:
    """The body; None if the input ends before it. A malformed one fails, as in other
    applications."""
    try:
        body: bytes = environment["wsgi.input"].read()
    except Exception as error:
        if type(error).__name__ == "NoMoreData":
            return None
        raise
    length = environment.get("CONTENT_LENGTH")
    is_chunked = "HTTP_TRANSFER_ENCODING" in environment
    return None if length and not is_chunked and len(body) < int(length) else body


def application(
    environment: dict[str, Any], start: Callable[[str, list[tuple[str, str]]], object]
) -> list[bytes]:
    body = body_of(environment)
    if body is None:
        start(INPUT_HAS_ENDED, [("Content-Length", "0")])
        return []
    method: str = environment["REQUEST_METHOD"]
    target: str = environment["RAW_URI"]
    parts = (method.encode("latin-1"), target.encode("latin-1"), body)
    word = ".".join(shortened(part).hex() for part in parts)
    line = f"READ {word}\n".encode()
    start(OK, [("X-Read", word), ("Content-Length", str(len(line)))])
    return [] if method == "HEAD" else [line]
