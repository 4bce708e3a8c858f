"""Requests as clients send them, and what the switch answers."""
ROLLOUT = '{"spec": {"strategy": {"blueGreen": {"activeService": "web", "previewService": "web-preview"}}}}'
BY_HAND = """{"spec": {"replicas": 1, "strategy": {"blueGreen": {"activeService": "web",
"previewService": "web-preview", "autoPromotionEnabled": false}}}}"""
NO_PREVIEW = '{"spec": {"strategy": {"blueGreen": {"activeService": "web"}}}}'
LARGEST_BODY = 1048576


def request(
    target: bytes = b"/", method: bytes = b"GET", body: bytes | None = None, chunked: bool = False
) -> bytes:
    """A request, whose body comes by length or as one chunk."""
    head = b"%s %s HTTP/1.1\r\nHost: x\r\n" % (method, target)
    if body is None:
        return head + b"\r\n"
    if chunked:
        return head + b"Transfer-Encoding: chunked\r\n\r\n%x\r\n%s\r\n0\r\n\r\n" % (len(body), body)
    return head + b"Content-Length: %d\r\n\r\n%s" % (len(body), body)


def head_of(length: int, method: bytes = b"POST") -> bytes:
    """The head of a request whose body has `length` bytes."""
    return b"%s / HTTP/1.1\r\nHost: x\r\nContent-Length: %d\r\n\r\n" % (method, length)


def response(body: bytes) -> bytes:
    """A response as an endpoint sends it."""
    return b"HTTP/1.1 200 OK\r\nContent-Length: %d\r\n\r\n%s" % (len(body), body)


def answer(body: bytes) -> bytes:
    """A response as a client gets it."""
    return b"HTTP/1.1 200 OK\r\nContent-Length: %d\r\nConnection: close\r\n\r\n%s" % (
        len(body),
        body,
    )


def data_of_chunks(text: bytes) -> tuple[bytes, bytes | None]:
    """The data of a body in chunks, as far as it came, and what follows its last chunk, `None` if
    the last chunk is missing. A chunk may be cut at any byte."""
    data, at = bytearray(), 0
    while (end := text.find(b"\r\n", at)) >= 0:
        size = int(text[at:end], 16)
        if size == 0:
            return bytes(data), text[end + 4 :]
        data += text[end + 2 : end + 2 + size]
        at = end + 2 + size + 2
    return bytes(data), None


def refusal(status: bytes) -> bytes:
    """What a client gets that the switch itself answers."""
    return b"HTTP/1.1 %s\r\nContent-Length: 0\r\nConnection: close\r\n\r\n" % status


CONTINUE = b"HTTP/1.1 100 Continue\r\n\r\n"
BAD_REQUEST = refusal(b"400 Bad Request")
TOO_LARGE = refusal(b"413 Content Too Large")
HEAD_TOO_LARGE = refusal(b"431 Request Header Fields Too Large")
NOT_IMPLEMENTED = refusal(b"501 Not Implemented")
BAD_GATEWAY = refusal(b"502 Bad Gateway")
UNAVAILABLE = refusal(b"503 Service Unavailable")
