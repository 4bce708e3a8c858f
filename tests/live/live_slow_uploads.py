"""`bg_switch serve --stream` on loopback: uploads that last. What the switch holds of them before slow
endpoints, how slow and silent peers end, and what a drain and a shutdown do with them."""
import contextlib
import socket
import threading
import time
import zlib
from collections.abc import Iterator

from support import checks
from support.checks import check, check_soon, check_within, comes
from support.clients import connect, polite, timed
from support.kept import KeptClient
from support.messages import BAD_GATEWAY, UNAVAILABLE, answer, request
from support.operators import Operator
from support.processes import greatest_memory
from support.upload_endpoint import SILENT, SLOW, STALLS, UploadEndpoint, text_of, told
from support.uploads import BODY, CHUNKED, LAST_CHUNK, MEBIBYTE, Delivered, Uploading, by_length
from support.uploads import chunks, head
from support.uploads import in_chunks, rest_of, uploading, whole

DRAINS = """{"spec": {"strategy": {"blueGreen": {"activeService": "web", "scaleDownDelaySeconds": 5,
"drainLimitSeconds": 10}}}}"""
SILENCE = 4  # seconds after which a silent peer is left
# The same beside a client that sends a byte a second, and how many it sends.
LONGER_SILENCE, BYTES = 6, 9
SOON, AT_ONCE = 5.0, 1.0  # seconds
SHUTDOWN = 3  # seconds that a shutdown waits
# What a switch may take beside what it has, in KiB, while uploads of any length are passed on.
MEMORY = 16 << 10
SIZE = 256 * MEBIBYTE
BLOCK = BODY[:MEBIBYTE]
STALLED = SLOW_CLIENTS = 20
STEPS, STEP = 60, 0.1  # what a slow client sends, a piece each, and the seconds between them
QUIET = 0.5  # seconds in which what may not happen would have happened


class Sender:
    """A client that sends a large body in blocks, in a thread, as far as it is taken. `sent` counts its
    bytes."""

    def __init__(self, port: int, target: bytes, size: int, is_in_chunks: bool) -> None:
        self.client = connect(port)
        self.sent = self.checksum = 0
        framing = CHUNKED if is_in_chunks else b"Content-Length: %d" % size
        self.client.sendall(head(target, framing))
        self.thread = threading.Thread(target=self.send, args=(size, is_in_chunks), daemon=True)
        self.thread.start()

    def send(self, size: int, is_in_chunks: bool) -> None:
        with contextlib.suppress(OSError):
            while self.sent < size:
                self.client.sendall(chunks(BLOCK, len(BLOCK)) if is_in_chunks else BLOCK)
                self.sent += len(BLOCK)
                self.checksum = zlib.crc32(BLOCK, self.checksum)
            if is_in_chunks:
                self.client.sendall(LAST_CHUNK)

    def stands_still(self) -> bool:
        before = self.sent
        time.sleep(QUIET)
        return self.sent == before

    def answer(self) -> Delivered:
        """What it is answered, after all was sent."""
        got = rest_of(self.client)
        self.thread.join()
        self.client.close()
        return got


def check_others(name: str, found: Uploading) -> None:
    """A check that ordinary requests are answered, and none of them late."""
    waits = polite(found.switch.active, 5)
    check(f"{name}: other requests", set(waits.answers), {answer(told(b"/", b""))})
    check_soon(f"{name}: the longest wait of another one", waits.longest, AT_ONCE)


@contextlib.contextmanager
def within_memory(name: str, found: Uploading) -> Iterator[None]:
    """A check that the switch takes little more in the block than before it."""
    before = greatest_memory(found.switch.process.pid)
    yield
    check_within(f"KiB for {name}", greatest_memory(found.switch.process.pid) - before, MEMORY)


def slow_endpoint() -> None:
    """An endpoint that reads slowly gets 256 MiB, and the switch holds little of it."""
    for is_in_chunks in (False, True):
        name = "chunks" if is_in_chunks else "a length"
        with uploading() as found, within_memory(name, found):
            sender = Sender(found.switch.active, SLOW, SIZE, is_in_chunks)
            got = sender.answer()
            expected = answer(text_of(SLOW, SIZE, sender.checksum))
            check(f"256 MiB by {name}", got, Delivered(expected, False))
            (line,) = found.entries(1)
            check(f"{name}: bytes that came", (line.request_bytes or 0) > SIZE, True)


def stalled_endpoints() -> None:
    """Endpoints that take nothing: the switch reads no more of their clients, whatever these send,
    holds little for each, and serves the others."""
    with uploading("--threads", "1") as found, within_memory("stalled uploads", found):
        senders = [
            Sender(found.switch.active, STALLS + b"?%d" % number, SIZE, number % 2 == 1)
            for number in range(STALLED)
        ]
        check("all have entered", found.has_open(STALLED), True)
        for sender in senders:
            check("a client waits", comes(sender.stands_still), True)
            check("it is not taken whole", sender.sent < SIZE, True)
        check_others("beside stalled uploads", found)
        for sender in senders:
            sender.client.shutdown(socket.SHUT_RDWR)
            sender.client.close()
        found.endpoint.may_go.set()
        check("they end", comes(lambda: found.endpoint.open == 0), True)


def waiting_uploads() -> None:
    """Uploads that wait for a seat are read no further than the buffer: the switch holds little of
    each, and each is passed on whole in the end."""
    with uploading(concurrency=1) as found, within_memory("uploads that wait", found):
        with connect(found.switch.active) as first:
            first.sendall(by_length(b"/first", BODY)[:-1])
            check("the first one", found.endpoint.at(b"/first").has(len(BODY) - 1), True)
            senders = [
                Sender(found.switch.active, b"/%d" % number, 16 * MEBIBYTE, number % 2 == 1)
                for number in range(5)
            ]
            time.sleep(QUIET)
            check("no other is dialled", found.endpoint.connections, 1)
            check("nor taken whole", all(one.sent < 16 * MEBIBYTE for one in senders), True)
            first.sendall(BODY[-1:])
            check("its answer", rest_of(first), whole(b"/first", BODY))
        for number, sender in enumerate(senders):
            got = sender.answer().text
            expected = answer(text_of(b"/%d" % number, 16 * MEBIBYTE, sender.checksum))
            check("one that waited", got, expected)


def slow_clients() -> None:
    """Twenty uploads that come slowly beside other requests, on one thread: the others are not late,
    and each slow one comes whole."""
    pieces = [BODY[start : start + 3000] for start in range(0, 3000 * STEPS, 3000)]
    body = b"".join(pieces)
    with uploading("--threads", "1", "--buffer", "16384") as found:
        with contextlib.ExitStack() as stack:
            slow = []
            for number in range(SLOW_CLIENTS):
                client = stack.enter_context(connect(found.switch.active))
                target, is_in_chunks = b"/slow-%d" % number, number % 2 == 1
                framing = CHUNKED if is_in_chunks else b"Content-Length: %d" % len(body)
                client.sendall(head(target, framing))
                slow.append((client, target, is_in_chunks))
            others = threading.Thread(target=check_others, args=("beside slow ones", found))
            for number, piece in enumerate(pieces):
                if number == STEPS // 2:
                    check("all have entered", found.has_open(SLOW_CLIENTS), True)
                    others.start()
                for client, _, is_in_chunks in slow:
                    client.sendall(chunks(piece, 100) if is_in_chunks else piece)
                time.sleep(STEP)
            for client, target, is_in_chunks in slow:
                client.sendall(LAST_CHUNK if is_in_chunks else b"")
                check("a slow one", rest_of(client), whole(target, body))
            others.join()


def byte_by_byte() -> None:
    """A client that sends a byte a second, for longer than the time of silence: each byte is passed on
    at once, the client is not ended, and others are not late."""
    body = BODY[:100_000]
    first = len(body) - BYTES
    for target, is_in_chunks in ((b"/length", False), (b"/chunks", True)):
        name = target.decode()
        framing = CHUNKED if is_in_chunks else b"Content-Length: %d" % len(body)
        with uploading("--silence", str(LONGER_SILENCE), "--threads", "1") as found:
            with connect(found.switch.active) as client:
                text = chunks(body[:first], 1000) if is_in_chunks else body[:first]
                client.sendall(head(target, framing) + text)
                upload = found.endpoint.at(target)
                for number in range(first, len(body)):
                    check(f"{name}: what came is passed on", upload.has(number), True)
                    check(f"{name}: and no more", upload.count, number)
                    check_others(name, found)
                    time.sleep(1)
                    byte = body[number : number + 1]
                    client.sendall(chunks(byte, 1) if is_in_chunks else byte)
                client.sendall(LAST_CHUNK if is_in_chunks else b"")
                check(name, rest_of(client), whole(target, body))


def silent_clients() -> None:
    """A client that is silent within its body is disconnected without an answer after --silence
    seconds, and its endpoint gets no end of the body."""
    for target, text in (
        (b"/length", by_length(b"/length", BODY)[:200_000]),
        (b"/chunks", in_chunks(b"/chunks", BODY, 2000)[:200_000]),
    ):
        with uploading("--silence", str(SILENCE)) as found:
            got = timed(found.switch.active, [text])
            name = target.decode()
            check(f"{name}: what it is answered", got.answer, b"")
            check(f"{name}: not before", got.seconds >= SILENCE - 1, True)
            check_soon(f"{name}: until it is left", got.seconds, SILENCE + SOON)
            found.check_cut(name, target)
            (line,) = found.entries(1)
            check(f"{name}: it is not answered", line.status in (200, 502), False)
            check(f"{name}: bytes that came", line.request_bytes, 200_000)


def silent_endpoints() -> None:
    """An endpoint that takes nothing, or answers nothing, is left after --silence seconds: 502."""
    for target in (SILENT, STALLS):
        for query, is_in_chunks in ((b"?length", False), (b"?chunks", True)):
            name = (target + query).decode()
            with uploading("--silence", str(SILENCE)) as found:
                begun = time.monotonic()
                sender = Sender(found.switch.active, target + query, 64 * MEBIBYTE, is_in_chunks)
                got, seconds = rest_of(sender.client), time.monotonic() - begun
                check(name, got.text, BAD_GATEWAY)
                check(f"{name}: not before", seconds >= SILENCE - 1, True)
                check_soon(f"{name}: until it is left", seconds, SILENCE + 2 * SOON)
                sender.client.close()
                found.endpoint.may_go.set()
                check(
                    f"{name}: its connection ends",
                    found.endpoint.at(target + query).has_ended(),
                    True,
                )
                (line,) = found.entries(1)
                check(f"{name}: its line", (line.status, line.reason), (502, "response_timeout"))


def deploy_another(operator: Operator, other: UploadEndpoint) -> None:
    """A second revision takes the traffic of the first one, whose delay passes."""
    for line, reply in (
        (f"deploy two {other.port}", "ok 0"),
        ("available 2 1", "ok 4"),
        ("tick 14", "ok 0"),
    ):
        check(f"{line.split()[0]} beside an upload", operator.answer_to(line), reply)


def drained() -> None:
    """A draining revision waits for an upload, which ends well; or up to `drainLimitSeconds`, and then
    its endpoint gets no end of the body."""
    for is_in_time in (True, False):
        with uploading(rollout=DRAINS) as found:
            other, text = UploadEndpoint(), by_length(b"/upload", BODY)
            with contextlib.closing(found.switch.operator()) as operator:
                with connect(found.switch.active) as client:
                    client.sendall(text[:200_000])
                    upload = found.endpoint.at(b"/upload")
                    deploy_another(operator, other)
                    client.sendall(text[200_000:-1])
                    check("it is passed on in a drain", upload.has(len(BODY) - 1), True)
                    check("it drains", operator.open_requests()[0], 1)
                    if is_in_time:
                        client.sendall(text[-1:])
                        check("its answer", rest_of(client), whole(b"/upload", BODY))
                    else:
                        check("the tick to the limit", operator.answer_to("tick 15"), "ok 0")
                        check("its refusal", rest_of(client).text, UNAVAILABLE)
                        found.check_cut("an upload that is given up", b"/upload")
                check("it has left", found.has_open(0), True)
            (line,) = found.entries(1)
            expected = (200, None) if is_in_time else (503, "given_up")
            check("its line", (line.status, line.reason), expected)
            check("the other revision got none", other.connections, 0)
            other.stop()


def shut_down() -> None:
    """A shutdown waits for an upload, which ends well; or for --shutdown-timeout seconds, and then its
    endpoint gets no end of the body. The switch ends with status 0."""
    for is_in_time in (True, False):
        with uploading("--shutdown-timeout", str(SHUTDOWN), ends=True) as found:
            text = in_chunks(b"/upload", BODY, 5000)
            with connect(found.switch.active) as client:
                client.sendall(text[:200_000])
                upload = found.endpoint.at(b"/upload")
                operator, begun = found.switch.operator(), time.monotonic()
                operator.send_quit()
                client.sendall(text[200_000:-7])
                check("it is passed on in a shutdown", upload.has(len(BODY) - 5000), True)
                if is_in_time:
                    client.sendall(text[-7:])
                    check("its answer", rest_of(client), whole(b"/upload", BODY))
                else:
                    check("it is not answered", rest_of(client).text[9:12] == b"200", False)
                    check("not before the time", time.monotonic() - begun >= SHUTDOWN - 0.5, True)
                    found.check_cut("an upload that is cut", b"/upload")
            check("the status of the switch", found.switch.wait().status, 0)
            check_soon("its end", time.monotonic() - begun, SHUTDOWN + SOON)
            operator.close()


def beside_kept_ones() -> None:
    """Requests on kept connections go on beside an upload of a client that is silent."""
    with uploading("--keep-alive", "--threads", "1") as found:
        with connect(found.switch.active) as client, KeptClient(found.switch.active) as other:
            client.sendall(by_length(b"/upload", BODY)[:-1])
            check("an upload", found.endpoint.at(b"/upload").has(len(BODY) - 1), True)
            for number in range(100):
                target = b"/%d" % number
                got = other.answer_to(request(target))
                check("a request", got.endswith(told(target, b"")), True)
            used = {one.connection for one in found.endpoint.uploads if one.target != b"/upload"}
            check("connections for the others", len(used), 1)
            client.sendall(BODY[-1:])
            check("the upload", rest_of(client), whole(b"/upload", BODY))


if __name__ == "__main__":
    checks.run(
        "live_slow_uploads",
        (
            slow_endpoint,
            byte_by_byte,
            silent_endpoints,
            silent_clients,
            stalled_endpoints,
            slow_clients,
            waiting_uploads,
            shut_down,
            drained,
            beside_kept_ones,
        ),
        at_once=4,
    )
