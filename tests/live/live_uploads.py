"""`bg_switch serve --stream` on loopback: large requests are passed on as they come. Which of them, in
which framings, which seats they hold, and what the access log says."""
import contextlib
import random
import time
from concurrent.futures import ThreadPoolExecutor
from functools import partial

from support import checks
from support.checks import check
from support.clients import at_once, connect
from support.endpoints import AROUND_DATA
from support.kept import KeptClient
from support.messages import BAD_GATEWAY, CONTINUE, LARGEST_BODY, NO_PREVIEW, TOO_LARGE, answer
from support.messages import data_of_chunks, request
from support.ports import free_ports
from support.switch import run_to_end
from support.upload_endpoint import ECHOES, LENGTH, ONE_CHUNK, TO_THE_END, Upload, told
from support.uploads import BODY, CHUNKED, LAST_CHUNK, MEBIBYTE, STREAM, Delivered, Uploading
from support.uploads import by_length, chunks, head, in_chunks, rest_of, split, taken, uploading
from support.uploads import whole

KEEP_ALIVE = "--keep-alive"
# The most bytes of the body of a response.
MAX_RESPONSE, MOST = "--max-response-body", 100_000
BUFFER, DEFAULT_BUFFER, LARGEST_BUFFER = 16_384, 65_536, 1_048_576
EXPECT = b"Expect: 100-continue"
QUIET = 0.5  # seconds in which what may not happen would have happened
MANY = 50


def framing_of(upload: Upload) -> tuple[bytes | None, ...]:
    """How the endpoint was told the end of a body, and what else depends on the connection."""
    names = (b"Content-Length", b"Transfer-Encoding", b"Connection", b"Expect", b"Trailer")
    return tuple(upload.value(name) for name in names)


def heads() -> None:
    """The head that an endpoint gets: the framing of the client's body, the end of the connection,
    and no expectation."""
    # more than a switch reads at once, so that it is not whole when it exceeds the buffer
    body = BODY[:MEBIBYTE]
    by_count = (b"1048576", None, b"close", None, None)
    by_chunks = (None, b"chunked", b"close", None, None)
    for flags in ((), (KEEP_ALIVE,)):
        with uploading(*flags) as found:
            for target, text, framing in (
                (b"/length", by_length(b"/length", body), by_count),
                (b"/old", by_length(b"/old", body, version=b"1.0"), by_count),
                (b"/chunks", in_chunks(b"/chunks", body, 1000), by_chunks),
                (b"/kept", by_length(b"/kept", body, b"Connection: keep-alive"), by_count),
                (b"/hop", in_chunks(b"/hop", body, 900, b"Connection: X-A", b"X-A: 1"), by_chunks),
            ):
                name = f"{target.decode()} {' '.join(flags)}"
                check(name, found.sends(text), whole(target, body))
                upload = found.endpoint.at(target)
                check(f"{name}: its framing", framing_of(upload), framing)
                check(f"{name}: a field of its connection", upload.value(b"X-A"), None)
            check(
                "a whole head",
                found.endpoint.at(b"/length").head,
                b"POST /length HTTP/1.1\r\nHost: x\r\nVia: 1.1 bg-switch\r\n"
                b"Content-Length: 1048576\r\nConnection: close\r\n\r\n",
            )


def framings() -> None:
    """Bodies of many lengths and framings come whole, are answered, and have a line each, which
    counts all bytes of the request as they came."""
    trailers = b"0;last\r\nX-Sum: 1\r\nX-Other: 2\r\n\r\n"
    small, large = BODY[:100_000], BODY
    cases: list[tuple[bytes, bytes, bytes]] = [
        (b"/70000", by_length(b"/70000", BODY[:70_000]), BODY[:70_000]),
        (b"/1M", by_length(b"/1M", BODY[:MEBIBYTE]), BODY[:MEBIBYTE]),
        (b"/1M1", by_length(b"/1M1", BODY[: MEBIBYTE + 1]), BODY[: MEBIBYTE + 1]),
        (b"/5M", by_length(b"/5M", large), large),
        (b"/old", by_length(b"/old", large, version=b"1.0"), large),
        (b"/by-1", in_chunks(b"/by-1", small, 1), small),
        (b"/by-17", in_chunks(b"/by-17", small, 17), small),
        (b"/by-1000", in_chunks(b"/by-1000", large, 1000), large),
        (b"/by-64K", in_chunks(b"/by-64K", large, 65_536), large),
        (b"/by-1M", in_chunks(b"/by-1M", large, MEBIBYTE), large),
        (b"/by-1M1", in_chunks(b"/by-1M1", large, MEBIBYTE + 1), large),
        (b"/by-5M", in_chunks(b"/by-5M", large, len(large)), large),
        (b"/trailers", in_chunks(b"/trailers", small, 500, end=trailers), small),
        (
            b"/extensions",
            head(b"/extensions", CHUNKED) + chunks(small, 300, b';a="b"') + LAST_CHUNK,
            small,
        ),
        # small ones are as without the flag
        (b"/none", by_length(b"/none", b""), b""),
        (b"/small", by_length(b"/small", small[:10]), small[:10]),
        (b"/small-chunks", in_chunks(b"/small-chunks", small[:10], 3), small[:10]),
    ]
    with uploading() as found:
        for target, text, body in cases:
            check(target.decode(), found.sends(text), whole(target, body))
            upload = found.endpoint.at(target)
            check(f"{target.decode()}: its connection ends", upload.has_ended(), True)
        check("requests", len(found.endpoint.uploads), len(cases))
        check("connections", found.endpoint.connections, len(cases))
        got = [
            (one.method, one.target, one.status, one.end, one.reason)
            for one in found.entries(len(cases))
        ]
        answered = [("POST", case[0].decode(), 200, "answered", None) for case in cases]
        check("their lines", got, answered)
        check(
            "bytes of the requests",
            [one.request_bytes for one in found.entries(len(cases))],
            [len(case[1]) for case in cases],
        )
        check(
            "bytes of the responses",
            [one.response_bytes for one in found.entries(len(cases))],
            [len(whole(case[0], case[2]).text) for case in cases],
        )


def boundaries() -> None:
    """Requests of as many bytes as the buffer has, and of a few more and fewer, whose bytes come one
    by one there, or around the lines of chunks."""
    for buffer in (BUFFER, DEFAULT_BUFFER, LARGEST_BUFFER):
        flags = () if buffer == DEFAULT_BUFFER else ("--buffer", str(buffer))
        with uploading(*flags) as found:
            for size in (buffer - 1, buffer, buffer + 1, buffer + 2):
                target = b"/%d" % size
                length = size - len(by_length(target, BODY[: size - 100])) + size - 100
                text = by_length(target, BODY[:length])
                check(f"bytes of {target.decode()}", len(text), size)
                got = found.sends(*split(text, buffer), pause=0.002)
                check(f"{size} bytes at {buffer}", got, whole(target, BODY[:length]))
                target = b"/chunks-%d" % size
                text = in_chunks(target, BODY[:size], 1000)
                got = found.sends(*split(text, buffer, 20), pause=0.002)
                check(f"{size} bytes in chunks at {buffer}", got, whole(target, BODY[:size]))
    with uploading("--buffer", str(BUFFER)) as found:
        text = in_chunks(b"/end", BODY[:20_000], 10_000)
        got = found.sends(*split(text, len(text) - 10, 10), pause=0.002)
        check("the end byte by byte", got, whole(b"/end", BODY[:20_000]))
        text = in_chunks(b"/lines", BODY[:17_000], 10)
        pieces = [text[:BUFFER], *(text[i : i + 1] for i in range(BUFFER, BUFFER + 300))]
        got = found.sends(*pieces, text[BUFFER + 300 :], pause=0.002)
        check("lines of chunks byte by byte", got, whole(b"/lines", BODY[:17_000]))


def is_held(found: Uploading, connections: int) -> bool:
    """Whether no request has entered, and the endpoint has no further connection, after a while."""
    time.sleep(QUIET)
    return found.switch.open_requests() == [0] and found.endpoint.connections == connections


def entering() -> None:
    """A request enters with the first byte beyond the buffer, or at once if it says that it is above
    1 MiB; what came of it is passed on before the rest comes."""
    body = BODY[:30_000]
    sized = b"%x\r\n" % (LARGEST_BODY + 1) + BODY[:10]
    cases: tuple[tuple[str, bytes, bytes, int], ...] = (
        ("a length", by_length(b"/length", body), b"/length", BUFFER),
        ("chunks", in_chunks(b"/chunks", body, 1000), b"/chunks", BUFFER),
        ("1 MiB", by_length(b"/1M", BODY[:LARGEST_BODY]), b"/1M", BUFFER),
        ("a chunk of 1 MiB", in_chunks(b"/c", BODY[:LARGEST_BODY], LARGEST_BODY), b"/c", BUFFER),
    )
    with uploading("--buffer", str(BUFFER)) as found:
        for name, text, target, held in cases:
            before = found.endpoint.connections
            with connect(found.switch.active) as client:
                client.sendall(text[:held])
                check(f"{name}: as many bytes as the buffer", is_held(found, before), True)
                client.sendall(text[held : held + 1])
                check(f"{name}: it enters", found.has_open(1), True)
                check(
                    f"{name}: what came is passed on", found.endpoint.at(target).has(16_000), True
                )
                check(f"{name}: it is not whole", found.endpoint.at(target).is_whole, False)
                client.sendall(text[held + 1 :])
                check(f"{name}: the answer", rest_of(client).text[9:12], b"200")
        for name, first, target in (
            ("above 1 MiB", by_length(b"/above", b"", length=LARGEST_BODY + 1), b"/above"),
            ("a chunk above 1 MiB", head(b"/chunk", CHUNKED) + sized, b"/chunk"),
        ):
            with connect(found.switch.active) as client:
                client.sendall(first)
                check(f"{name}: it enters", found.has_open(1), True)
                check(f"{name}: its head comes", found.endpoint.at(target).end, "")
            found.check_cut(name, target)


def seats() -> None:
    """A small request holds no seat while it comes, and an upload holds one until its answer:
    others wait for it, and an upload that waits is not dialled."""
    with uploading("--buffer", str(BUFFER), concurrency=1) as found:
        small = by_length(b"/small", BODY[:1000])
        with contextlib.ExitStack() as stack:
            slow = [stack.enter_context(connect(found.switch.active)) for _ in range(3)]
            for client in slow:
                client.sendall(small[:-1])
            check("three small ones hold no seat", is_held(found, 0), True)
            check("another one", found.sends(request(b"/now")), whole(b"/now", b""))
            for client in slow:
                client.sendall(small[-1:])
                check("a small one", rest_of(client), whole(b"/small", BODY[:1000]))
        text, later = by_length(b"/upload", BODY[:100_000]), by_length(b"/later", BODY)
        with connect(found.switch.active) as client, ThreadPoolExecutor(1) as pool:
            client.sendall(text[:-1])
            check("the upload has its seat", found.endpoint.at(b"/upload").has(99_999), True)
            second, before = pool.submit(found.sends, later), found.endpoint.connections
            time.sleep(QUIET)
            check("a second one waits", found.endpoint.connections, before)
            client.sendall(text[-1:])
            check("the first one", rest_of(client), whole(b"/upload", BODY[:100_000]))
            check("then the second one", second.result(), whole(b"/later", BODY))


def expectations() -> None:
    """Who expects 100 Continue gets it once, before it sends the body; the endpoint is not told of
    it. A client of HTTP/1.0, and one whose body is too large, gets none."""
    body = BODY[: 2 * MEBIBYTE]
    with uploading("--max-request-body", str(3 * MEBIBYTE)) as found:
        for name, target, text in (
            ("2 MiB", b"/2M", by_length(b"/2M", body, EXPECT)),
            ("100 kB", b"/100k", by_length(b"/100k", body[:100_000], EXPECT)),
            ("chunks", b"/chunks", in_chunks(b"/chunks", body, 9000, EXPECT)),
            ("10 bytes", b"/10", by_length(b"/10", body[:10], EXPECT)),
        ):
            first = text.index(b"\r\n\r\n") + 4
            with connect(found.switch.active) as client:
                client.sendall(text[:first])
                check(f"{name}: 100 Continue", taken(client, len(CONTINUE)), CONTINUE)
                client.sendall(text[first:])
                sent = body[: {b"/100k": 100_000, b"/10": 10}.get(target, len(body))]
                check(f"{name}: the answer", rest_of(client), whole(target, sent))
            check(f"{name}: Expect", found.endpoint.at(target).value(b"Expect"), None)
        got = found.sends(by_length(b"/at-once", body, EXPECT)).text
        check("a client that does not wait", got, CONTINUE + whole(b"/at-once", body).text)
        got = found.sends(by_length(b"/old", body, EXPECT, version=b"1.0")).text
        check("HTTP/1.0", got, whole(b"/old", body).text)
        check("it expects nothing", found.endpoint.at(b"/old").value(b"Expect"), None)
        before = found.endpoint.connections
        got = found.sends(by_length(b"/large", b"", EXPECT, length=3 * MEBIBYTE + 1)).text
        check("too large a body", (got, found.endpoint.connections), (TOO_LARGE, before))


def kept() -> None:
    """An upload behind small requests of its connection, alone and in one piece with them: it has a
    new connection to the endpoint, and both end after it. Nothing behind its body is a request."""
    body = BODY[:MEBIBYTE]
    uploads = (by_length(b"/upload", body), in_chunks(b"/upload", body, 7000))
    for text in uploads:
        with uploading(KEEP_ALIVE) as found:
            with KeptClient(found.switch.active) as client:
                for target in (b"/first", b"/second"):
                    got = client.answer_to(request(target))
                    check(target.decode(), got.endswith(told(target, b"")), True)
                check("the upload", client.answer_to(text), whole(b"/upload", body).text)
                check("the end of its connection", client.rest(), b"")
            upload = found.endpoint.at(b"/upload")
            before = [one.connection for one in found.endpoint.uploads if one is not upload]
            check("a new connection", upload.connection in before, False)
            check("it ends", upload.has_ended(), True)
            with KeptClient(found.switch.active) as client:
                client.send(request(b"/third") + text.replace(b"/upload", b"/next", 1))
                got = client.answer()
                check("a request before it", got.endswith(told(b"/third", b"")), True)
                check("the upload behind it", client.answer(), whole(b"/next", body).text)
                check("then the end", client.rest(), b"")
            for behind in (request(b"/behind"), b"rubbish" * 1000):
                sent = text.replace(b"/upload", b"/last", 1) + behind
                check("bytes behind an upload", found.sends(sent), whole(b"/last", body))
            with KeptClient(found.switch.active) as client:
                client.answer_to(request(b"/end"))
            targets = {one.target for one in found.endpoint.uploads}
            check("no request behind an upload", b"/behind" in targets, False)
            used = [one.connection for one in found.endpoint.uploads]
            alone = [used.count(one.connection) for one in found.endpoint.all_at(b"/last")]
            check("connections of uploads are used once", alone, [1, 1])


def many() -> None:
    """Fifty uploads of 1 MiB at once, in all framings: each comes as it was sent."""
    texts = []
    for number in range(MANY):
        target, body = b"/%d" % number, random.Random(number).randbytes(MEBIBYTE)
        size = (0, 700, 65_536, MEBIBYTE)[number % 4]
        text = in_chunks(target, body, size) if size else by_length(target, body)
        texts.append((text, whole(target, body)))
    with uploading() as found:
        got = at_once([partial(found.sends, text) for text, _ in texts])
        wrong = [number for number in range(MANY) if got[number] != texts[number][1]]
        check("uploads with a wrong answer", wrong, [])
        lines = found.entries(MANY)
        check("lines", (len(lines), {one.status for one in lines}), (MANY, {200}))
        counts = sorted(one.request_bytes or 0 for one in lines)
        check("bytes of the requests", counts, sorted(len(text) for text, _ in texts))


def without_the_flag() -> None:
    """Without --stream a request is held until it is whole, and a body above 1 MiB gets 413."""
    body = BODY[:LARGEST_BODY]
    with uploading(streams=False) as found:
        text = by_length(b"/held", body)
        with connect(found.switch.active) as client:
            client.sendall(text[:-1])
            check("all but a byte", is_held(found, 0), True)
            client.sendall(text[-1:])
            check("1 MiB", rest_of(client), whole(b"/held", body))
        check("its length", found.endpoint.at(b"/held").value(b"Content-Length"), b"1048576")
        before = found.endpoint.connections
        for text in (
            by_length(b"/large", BODY[: LARGEST_BODY + 1]),
            in_chunks(b"/large", BODY[: LARGEST_BODY + 1], 65_536),
        ):
            check("a byte more", found.sends(text).text, TOO_LARGE)
        check("no endpoint got one", found.endpoint.connections, before)


def responses_at_the_limit() -> None:
    """--max-response-body: a response to an upload comes whole if its body has as many bytes, with the
    lines of its chunk."""
    body = BODY[:MEBIBYTE]
    with uploading(MAX_RESPONSE, str(MOST)) as found:
        target = b"%s?%d" % (LENGTH, MOST)
        got = found.sends(by_length(target, body))
        check("a length of as many", got, Delivered(answer(bytes(MOST)), False))
        for kind, size in ((ONE_CHUNK, MOST - AROUND_DATA), (TO_THE_END, MOST)):
            target = b"%s?%d" % (kind, MOST)
            for text in (by_length(target, body), in_chunks(target, body, 1000)):
                got = found.sends(text)
                data, left = data_of_chunks(got.text.partition(b"\r\n\r\n")[2])
                check(f"{kind.decode()}: as many", (data, left), (bytes(size), b""))
                check(f"{kind.decode()}: no reset", got.is_reset, False)
            got = found.sends(by_length(target, body, version=b"1.0"))
            data = got.text.partition(b"\r\n\r\n")[2]
            check(f"{kind.decode()}: to HTTP/1.0", (data, got.is_reset), (bytes(size), False))
        check("their statuses", {one.status for one in found.entries(7)}, {200})


def responses_above_the_limit() -> None:
    """--max-response-body: if a response to an upload has a greater length, the client gets 502 and no
    byte of it. If it turns out to be larger, it is cut, and the client's connection is reset."""
    body = BODY[:MEBIBYTE]
    with uploading(MAX_RESPONSE, str(MOST)) as found:
        target = b"%s?%d" % (LENGTH, MOST + 1)
        for version in (b"1.1", b"1.0"):
            got = found.sends(by_length(target, body, version=version))
            check("a greater length", got, Delivered(BAD_GATEWAY, False))
        targets = [b"%s?%d" % (kind, MOST + 1) for kind in (ONE_CHUNK, TO_THE_END)]
        targets += [b"%s?%d" % (kind, 3 * MOST) for kind in (ONE_CHUNK, TO_THE_END)]
        for target in targets:
            for version in (b"1.1", b"1.0"):
                got = found.sends(by_length(target, body, version=version))
                check_part(f"{target.decode()} to {version.decode()}", got, bytes(3 * MOST))
        # one that begins before the request is whole
        text = in_chunks(ECHOES, BODY, 1000)
        check_part("one that comes early", found.sends(text), BODY)
        found.check_cut("the request beside it", ECHOES)
        count = 2 + 2 * len(targets) + 1
        ends = ["refused"] * 2 + ["cut"] * (count - 2)
        lines = [(one.status, one.end, one.reason) for one in found.entries(count)]
        check("their lines", lines, [(502, end, "response_too_large") for end in ends])
        ended = [upload.has_ended() for upload in found.endpoint.uploads]
        check("their connections end", ended, [True] * count)
        check("and are used once", found.endpoint.connections, count)
        small = by_length(b"/small", BODY[:1000])
        check("a small one later", found.sends(small), whole(b"/small", BODY[:1000]))


def check_part(name: str, got: Delivered, body: bytes) -> None:
    """A check that a reset ended a response to a client, and that it got a part of this body, which is
    above the limit, or nothing: a reset may overtake bytes."""
    head_of_it, _, data = got.text.partition(b"\r\n\r\n")
    if CHUNKED in head_of_it:
        data, left = data_of_chunks(data)
        check(f"{name}: no last chunk", left, None)
    check(f"{name}: a part of the body", body.startswith(data) and len(data) <= MOST, True)
    check(f"{name}: a reset", got.is_reset, True)


def wrong_words() -> None:
    """A buffer has 16,384 to 1,048,576 bytes, and a limit of bodies 65,536 to 1,099,511,627,776."""
    for words in (
        ("--buffer", "16383"),
        ("--buffer", "1048577"),
        ("--buffer", "x"),
        ("--max-request-body", "x"),
        (MAX_RESPONSE, "x"),
        (MAX_RESPONSE, "65535"),
        (MAX_RESPONSE, "1099511627777"),
    ):
        run = run_to_end(NO_PREVIEW, *free_ports(2), flags=(STREAM, *words))
        check(" ".join(words), (run.status, run.printed), (2, ""))
        check(f"{' '.join(words)}: it is named", words[0] in run.told, True)


if __name__ == "__main__":
    checks.run(
        "live_uploads",
        (
            boundaries,
            entering,
            framings,
            many,
            heads,
            seats,
            expectations,
            kept,
            responses_at_the_limit,
            responses_above_the_limit,
            without_the_flag,
            wrong_words,
        ),
        at_once=4,
    )
