"""`bg_switch serve --stream` on loopback: uploads that are refused, answered early, or cut by a client
or an endpoint, what both get then, and what the access log says."""
import contextlib
import http.client
import socket
from collections.abc import Callable, Mapping

from support import checks
from support.checks import check
from support.clients import connect, reset
from support.messages import BAD_GATEWAY, BAD_REQUEST, NO_PREVIEW, TOO_LARGE, UNAVAILABLE
from support.ports import free_port
from support.upload_endpoint import EARLY, EARLY_ANSWER, EARLY_UNREAD, ECHOES, ENDS, PAGE, PART
from support.upload_endpoint import RESETS
from support.uploads import BODY, CHUNKED, MEBIBYTE, Delivered, by_length, chunks, head, in_chunks
from support.uploads import Uploading, rest_of, taken, uploading, whole

REDISPATCH = "--redispatch"
TWO = NO_PREVIEW.replace('{"strategy"', '{"replicas": 2, "strategy"')
MOST = 200_000  # bytes of a body by --max-request-body
LEAST_MOST = 65_536
FIRST = 300_000  # bytes of a body that a client sends before it goes
# The early answer of the endpoint as a client gets it.
AT_CLIENT = EARLY_ANSWER.replace(b"\r\n\r\n", b"\r\nConnection: close\r\n\r\n", 1)
# How a client leaves.
LEAVE: Mapping[bytes, Callable[[socket.socket], object]] = {
    b"close": socket.socket.close,
    b"reset": reset,
    b"input": lambda client: client.shutdown(socket.SHUT_WR),
}
# What a body in chunks goes on with that is malformed: lines of sizes, the end of a chunk, trailers.
MALFORMED = (
    b"zz\r\n",
    b"-1\r\n",
    b"\r\n",
    b"4 \nabcd\r\n",
    b"4\r\nabcdef\r\n",
    b"0\r\nno colon\r\n\r\n",
    b"0\r\n: no name\r\n\r\n",
)


def other_endpoints() -> None:
    """An upload goes to another endpoint if its own refuses the connection; without one it is
    answered 502, and 503 if none is available."""
    body = BODY[: 2 * MEBIBYTE]
    with uploading(REDISPATCH, rollout=TWO, ports=[free_port()]) as found:
        for number in range(4):
            target = b"/%d" % number
            text = (by_length(target, body), in_chunks(target, body, 5000))[number // 2]
            check(f"upload {number}", found.sends(text), whole(target, body))
        check("a second connect", 2 in [one.tries for one in found.entries(4)], True)
        found.endpoint.stop()
        check("none takes it", found.sends(by_length(b"/none", body)).text, BAD_GATEWAY)
        check("the answer", found.switch.answer_to("available 1 0").split()[0], "ok")
        check("none is available", found.sends(by_length(b"/none", body)).text, UNAVAILABLE)
        lines = [(one.status, one.reason) for one in found.entries(6)[4:]]
        check("their lines", lines, [(502, "connect_failed"), (503, "no_endpoint")])


def early_answers() -> None:
    """An endpoint that answers before it has read the body: the client gets the whole answer,
    whether or not it sends on, and no byte of the answer is lost if the endpoint leaves then."""
    for target in (EARLY, EARLY_UNREAD):
        for number, text in enumerate(
            (
                by_length(target + b"?0", BODY),
                in_chunks(target + b"?1", BODY, 20_000),
                by_length(target + b"?2", BODY)[:200_000],
                in_chunks(target + b"?3", BODY, 20_000)[:200_000],
            )
        ):
            with uploading() as found:
                name = f"{target.decode()} {number}"
                check(name, found.sends(text).text, AT_CLIENT)
                found.endpoint.may_go.set()
                upload = found.endpoint.at(target + b"?%d" % number)
                check(f"{name}: the endpoint is left", upload.has_ended(), True)
                (line,) = found.entries(1)
                check(f"{name}: its line", (line.status, line.end), (401, "answered"))
                check(f"{name}: its bytes", 0 < (line.request_bytes or 0) <= len(text), True)
                check(f"{name}: those of the answer", line.response_bytes, len(AT_CLIENT))


def sent_whole() -> None:
    """A client that reads nothing before it has sent all of its body gets an early answer, too, and a
    refusal: what it sends meanwhile is dropped."""
    with uploading("--max-request-body", str(len(BODY))) as found:
        for name, text, expected in (
            ("an early answer", by_length(EARLY, BODY), AT_CLIENT),
            ("the same to chunks", in_chunks(EARLY, BODY, 20_000), AT_CLIENT),
            ("an endpoint that leaves", by_length(RESETS, BODY), BAD_GATEWAY),
            ("too large a length", by_length(b"/large", BODY + b"x"), TOO_LARGE),
            ("too many chunks", in_chunks(b"/chunks", BODY + BODY, 20_000), TOO_LARGE),
        ):
            with connect(found.switch.active) as client:
                client.sendall(text)
                check(f"{name}, read late", rest_of(client), Delivered(expected, False))


def both_at_once() -> None:
    """A response is passed on as it comes while the body still comes."""
    body = BODY[:200_000]
    for target, text in (
        (ECHOES + b"?length", by_length(ECHOES + b"?length", body)),
        (ECHOES + b"?chunks", in_chunks(ECHOES + b"?chunks", body, 1000)),
    ):
        name = target.decode()
        with uploading() as found, connect(found.switch.active) as client:
            client.sendall(text[:100_000])
            response = http.client.HTTPResponse(client)
            response.begin()
            check(f"{name}: the first half", response.read(90_000) == body[:90_000], True)
            check(f"{name}: the request is not whole", found.endpoint.at(target).is_whole, False)
            client.sendall(text[100_000:])
            check(f"{name}: the rest", response.read() == body[90_000:], True)
            check(f"{name}: the end of the connection", rest_of(client), Delivered(b"", False))
            check(f"{name}: it came whole", found.endpoint.at(target).is_whole, True)


def endpoints_that_leave() -> None:
    """An endpoint that leaves without an answer: 502. One that leaves within its answer: the client's
    connection is reset."""
    with uploading() as found:
        for target in (RESETS, ENDS):
            for number, text in enumerate(
                (by_length(target + b"?0", BODY), in_chunks(target + b"?1", BODY, 8000))
            ):
                name = f"{target.decode()} {number}"
                check(name, found.sends(text), Delivered(BAD_GATEWAY, False))
                sent = found.endpoint.all_at(target + b"?%d" % number)
                check(f"{name}: it is sent once", len(sent), 1)
                check(f"{name}: its connection ends", sent[0].has_ended(), True)
        lines = found.entries(4)
        check("their statuses", [one.status for one in lines], [502] * 4)
        check("their reasons", all(one.reason for one in lines), True)
        half = AT_CLIENT[: -len(PAGE) // 2]
        with connect(found.switch.active) as client:
            client.sendall(by_length(PART, BODY)[:FIRST])
            check("a part of an answer", taken(client, len(half)), half)
            found.endpoint.may_go.set()
            check("then a reset", rest_of(client), Delivered(b"", True))
        line = found.entries(5)[4]
        told = line.status, line.end, line.response_bytes
        check("its line", told, (502, "cut", len(half)))


def clients_that_go() -> None:
    """A client that closes or resets its connection, or ends its input, before its body is whole: the
    endpoint's connection is closed, and no end of the body comes."""
    partly = BODY[:FIRST]
    with uploading() as found:
        counts = {}
        for end, leave in LEAVE.items():
            for target, text in (
                (b"/length-%s" % end, by_length(b"/length-%s" % end, partly, length=len(BODY))),
                (b"/chunks-%s" % end, head(b"/chunks-%s" % end, CHUNKED) + chunks(partly, 3000)),
            ):
                name = target.decode()
                with connect(found.switch.active) as client:
                    client.sendall(text)
                    upload = found.endpoint.at(target)
                    check(f"{name}: all that came is passed on", upload.has(FIRST), True)
                    check(f"{name}: its connection is there", upload.end, "")
                    leave(client)
                    found.check_cut(name, target)
                    check(f"{name}: nothing more came", upload.count, FIRST)
                counts[name] = len(text)
        lines = found.entries(len(counts))
        check("bytes that came", {one.target: one.request_bytes for one in lines}, counts)
        check("none is answered", 200 in [one.status for one in lines], False)
        check("a line for each", len(lines), len(counts))


def sent_in_two(found: Uploading, target: bytes, body: bytes, size: int, then: bytes) -> Delivered:
    """What comes to a client that sends this body in chunks, and more once all of it was passed on."""
    with connect(found.switch.active) as client:
        client.sendall(head(target, CHUNKED) + chunks(body, size))
        check(f"{target!r}: it is passed on", found.endpoint.at(target).has(len(body)), True)
        with contextlib.suppress(OSError):
            client.sendall(then)
        return rest_of(client)


def malformed() -> None:
    """Chunks that become malformed: the endpoint gets no end of the body, and the client 400, or a
    response that is cut."""
    body = BODY[:100_000]
    with uploading() as found:
        for number, bad in enumerate(MALFORMED):
            target = b"/%d" % number
            got = sent_in_two(found, target, body, 1000, bad)
            check(f"{bad!r}", got, Delivered(BAD_REQUEST, False))
            found.check_cut(f"{bad!r}", target)
        lines = [(one.status, one.reason) for one in found.entries(len(MALFORMED))]
        check("their lines", lines, [(400, "head")] * len(MALFORMED))
    with uploading() as found, connect(found.switch.active) as client:
        client.sendall(head(ECHOES, CHUNKED) + chunks(body, 1000))
        response = http.client.HTTPResponse(client)
        response.begin()
        check("a part of a response", response.read(len(body)) == body, True)
        client.sendall(b"zz\r\n")
        is_cut = False
        try:
            response.read()
        except (http.client.IncompleteRead, ConnectionResetError):
            is_cut = True
        check("it is cut", is_cut, True)
        found.check_cut("a malformed chunk behind it", ECHOES)
        (line,) = found.entries(1)
        check("its line", (line.status, line.end, line.reason), (400, "cut", "head"))


def most_body() -> None:
    """--max-request-body: a length above it is answered 413 before an endpoint is dialled; chunks that
    come to more are cut and answered 413."""
    with uploading("--max-request-body", str(MOST)) as found:
        for length in (MOST + 1, 5 * MEBIBYTE, 1 << 50):
            text = by_length(b"/large", BODY[:FIRST], length=length)
            check(f"a length of {length}", found.sends(text), Delivered(TOO_LARGE, False))
        check("no endpoint is dialled", found.endpoint.connections, 0)
        sized = head(b"/size", CHUNKED) + b"%x\r\n" % (1 << 50) + BODY[: MOST + 1]
        check("a chunk of 2^50", found.sends(sized), Delivered(TOO_LARGE, False))
        check("none is whole", [one for one in found.endpoint.uploads if one.is_whole], [])
        body = BODY[:MOST]
        check("a length of as many", found.sends(by_length(b"/most", body)), whole(b"/most", body))
        body = BODY[: MOST // 2]
        text = in_chunks(b"/chunks", body, 1000)
        check("chunks of fewer", found.sends(text), whole(b"/chunks", body))
        for size in (1000, 150_000):
            target, further = b"/by-%d" % size, chunks(BODY[: 2 * MOST], size)
            got = sent_in_two(found, target, BODY[:150_000], size, further)
            check(f"more in chunks of {size}", got, Delivered(TOO_LARGE, False))
            found.check_cut(f"more in chunks of {size}", target)
        lines = [one for one in found.entries(8) if one.status != 200]
        check("their lines", [(one.status, one.reason) for one in lines], [(413, "body")] * 6)
    with uploading("--max-request-body", str(LEAST_MOST)) as found:
        body = BODY[:LEAST_MOST]
        check("the least", found.sends(by_length(b"/a", body)), whole(b"/a", body))
        refused = found.sends(by_length(b"/b", BODY[: LEAST_MOST + 1])).text
        check("a byte more", (refused, found.endpoint.connections), (TOO_LARGE, 1))


if __name__ == "__main__":
    checks.run(
        "live_cut_uploads",
        (
            other_endpoints,
            early_answers,
            sent_whole,
            both_at_once,
            endpoints_that_leave,
            clients_that_go,
            malformed,
            most_body,
        ),
        at_once=4,
    )
