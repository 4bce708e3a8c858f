"""`bg_switch serve --upgrade` on loopback: which requests become tunnels, what passes through them,
and how they end."""
import contextlib
import hashlib
import pathlib
import select
import socket
import tempfile
import threading
import time
from collections.abc import Callable, Iterator, Mapping, Sequence

from support import checks
from support.access_logs import entries_of
from support.checks import check, check_soon, comes
from support.clients import asked, connect, received, reset
from support.endpoints import LONGEST, Endpoint, Request
from support.kept import KeptClient
from support.messages import BAD_GATEWAY, BY_HAND, request, response
from support.ports import HOST, free_ports, unread_at
from support.switch import Switch
from support.traffic import ACCESS_LOG, prepared_log

# isort: split; `support` tells where the tools' package is
from bg_switch_tools.switch.access_log import LogEntry

UPGRADE, KEEP_ALIVE, STREAM = "--upgrade", "--keep-alive", "--stream"
FORWARDED = "--forwarded"
END = b"\r\n\r\n"
ASKS = request(b"/chat").replace(
    b"Host: x\r\n", b"Host: x\r\nConnection: keep-alive, Upgrade\r\nUpgrade: websocket\r\n"
)
ACCEPTS = b"HTTP/1.1 101 Switching Protocols\r\nUpgrade: websocket\r\nConnection: Upgrade\r\n\r\n"
ACCEPTED = b"HTTP/1.1 101 Switching Protocols\r\nUpgrade: websocket\r\nConnection: upgrade\r\n\r\n"
# What the endpoint does at these targets. It accepts an upgrade at all others, and sends back what
# comes, until the input ends.
TO_OTHER, REFUSES, WAITS, RESETS = b"/to-other", b"/refuses", b"/waits", b"/resets"
FLOODS, SPEAKS_FIRST, HOLDS = b"/floods", b"/speaks-first", b"/holds"
LISTENS, STALLS = b"/listens", b"/stalls"
ENDS_AND_RESETS, ENDS_AND_READS = b"/ends-and-resets", b"/ends-and-reads"
PLAIN = b"/plain"
MEBIBYTE = 1 << 20
SILENCE = SHUTDOWN = 3  # seconds
SOON = 2.5  # for how many seconds more a tunnel may be open
LAST_WORDS = b"last words"
DELAYED = """{"spec": {"strategy": {"blueGreen": {"activeService": "web", "scaleDownDelaySeconds": 5}}}}"""
LIMITED = DELAYED.replace("5}", '5, "drainLimitSeconds": 10}')


class Peer(Endpoint):
    """An endpoint that accepts upgrades. It keeps what came of each request, what came before it
    accepted, and how many inputs ended, bytes came late and connections were reset. What waits goes
    on once `may_go` is set."""

    def __init__(self) -> None:
        self.requests: list[Request] = []
        self.early = b""
        self.ended = self.late = self.resets = 0
        self.may_go = threading.Event()
        super().__init__(self.answer_by_target)

    def answer_by_target(self, asked_for: Request, connection: socket.socket) -> None:
        with self.lock:
            self.requests.append(asked_for)
        if asked_for.target in RESPONSES:
            connection.sendall(RESPONSES[asked_for.target])
        else:
            ACTS.get(asked_for.target, Peer.send_back)(self, connection)

    def wait(self) -> None:
        self.may_go.wait(LONGEST)

    def send_back(self, connection: socket.socket) -> None:
        """Accepts the upgrade, sends back what comes, and says a last word after the end of the
        input."""
        connection.sendall(ACCEPTS)
        while piece := connection.recv(65536):
            connection.sendall(piece)
        connection.sendall(LAST_WORDS)

    def accept_late(self, connection: socket.socket) -> None:
        connection.settimeout(0.5)
        with contextlib.suppress(TimeoutError):
            self.early = connection.recv(1)
        connection.settimeout(LONGEST)
        self.send_back(connection)

    def hold(self, connection: socket.socket) -> None:
        self.wait()
        self.send_back(connection)

    def reset(self, connection: socket.socket) -> None:
        connection.sendall(ACCEPTS)
        connection.recv(1)
        reset(connection)

    def flood(self, connection: socket.socket) -> None:
        connection.sendall(ACCEPTS)
        with contextlib.suppress(OSError):
            while True:
                connection.sendall(bytes(MEBIBYTE))

    def speak_first(self, connection: socket.socket) -> None:
        connection.sendall(ACCEPTS + b"welcome")
        connection.recv(1)

    def listen(self, connection: socket.socket) -> None:
        """Reads to the end of the input, and says nothing, until a reset."""
        connection.sendall(ACCEPTS)
        while connection.recv(65536):
            pass
        with self.lock:
            self.ended += 1
        self.note_reset_of(connection)

    def stall(self, connection: socket.socket) -> None:
        """Reads nothing until a reset."""
        connection.sendall(ACCEPTS)
        self.note_reset_of(connection)

    def end_and_reset(self, connection: socket.socket) -> None:
        """Ends its side at once, and resets the connection later."""
        connection.sendall(ACCEPTS)
        connection.shutdown(socket.SHUT_WR)
        self.wait()
        reset(connection)

    def end_and_read(self, connection: socket.socket) -> None:
        """Ends its side at once, and reads to the end of the input later."""
        connection.sendall(ACCEPTS)
        connection.shutdown(socket.SHUT_WR)
        self.wait()
        while piece := connection.recv(65536):
            with self.lock:
                self.late += len(piece)

    def note_reset_of(self, connection: socket.socket) -> None:
        """Waits until a connection is reset, and reads nothing of it."""
        if is_over(connection, LONGEST):
            with self.lock:
                self.resets += 1


RESPONSES: Mapping[bytes, bytes] = {
    TO_OTHER: ACCEPTS.replace(b"websocket", b"h2c"),
    REFUSES: response(b"no upgrade"),
    PLAIN: response(b"plain"),
}
ACTS: Mapping[bytes, Callable[[Peer, socket.socket], None]] = {
    WAITS: Peer.accept_late,
    HOLDS: Peer.hold,
    RESETS: Peer.reset,
    FLOODS: Peer.flood,
    SPEAKS_FIRST: Peer.speak_first,
    LISTENS: Peer.listen,
    STALLS: Peer.stall,
    ENDS_AND_RESETS: Peer.end_and_reset,
    ENDS_AND_READS: Peer.end_and_read,
}


def is_over(connection: socket.socket, seconds: float) -> bool:
    """Whether a connection, of which a side is open, is over within so many seconds, as by a
    reset."""
    poll = select.poll()
    poll.register(connection, 0)
    return bool(poll.poll(1000 * seconds))


class Tunnels:
    """A switch before such an endpoint, and the file of its access log."""

    def __init__(self, switch: Switch, peer: Peer, log: pathlib.Path) -> None:
        self.switch, self.peer, self.log = switch, peer, log

    def open(self, target: bytes = b"/chat", behind: bytes = b"") -> socket.socket:
        """A client's connection after it was told that its upgrade is accepted."""
        client = connect(self.switch.active)
        client.settimeout(LONGEST)
        client.sendall(ASKS.replace(b"/chat", target, 1) + behind)
        check(f"{target.decode()}: the head", taken(client, len(ACCEPTED)), ACCEPTED)
        return client

    def entries(self, count: int) -> list[LogEntry]:
        """The entries of the log, once there are `count` of them."""
        return entries_of(self.log, count)


@contextlib.contextmanager
def tunnels(*flags: str, rollout: str = BY_HAND, concurrency: int = 8) -> Iterator[Tunnels]:
    """A switch with these flags, whose live revision has such an endpoint."""
    with tempfile.TemporaryDirectory() as folder:
        log, peer = pathlib.Path(folder) / "log", Peer()
        switch = Switch(
            rollout,
            instead_of_workers=("--concurrency", str(concurrency)),
            flags=flags,
            ports=free_ports(3),
            variables=prepared_log(log) | {ACCESS_LOG: str(log)},
            descriptors=8192,
        )
        try:
            for line in (f"open one {peer.port}", "available 1 1"):
                check(line, switch.answer_to(line).partition(" ")[0], "ok")
            yield Tunnels(switch, peer, log)
        finally:
            peer.may_go.set()
            if switch.process.poll() is None:
                switch.stop()
            peer.stop()


def taken(client: socket.socket, count: int) -> bytes:
    """So many bytes, or fewer if the connection ends before."""
    bytes_taken = b""
    while len(bytes_taken) < count:
        piece = client.recv(count - len(bytes_taken))
        if not piece:
            break
        bytes_taken += piece
    return bytes_taken


def is_reset(client: socket.socket) -> bool:
    """Whether the connection ends by a reset, once what came is read."""
    try:
        while client.recv(65536):
            pass
    except ConnectionResetError:
        return True
    return False


def accepted() -> None:
    """An upgrade that is accepted: both heads, bytes both ways, both ends one after the other, and
    the log."""
    for flags in (
        (UPGRADE,),
        (UPGRADE, FORWARDED),
        (UPGRADE, STREAM, KEEP_ALIVE),
        (UPGRADE, STREAM, KEEP_ALIVE, FORWARDED),
    ):
        name = " ".join(flags)
        with tunnels(*flags) as pair:
            with pair.open() as client:
                last = pair.peer.requests[-1]
                check(f"{name}: Upgrade", last.value(b"Upgrade"), b"websocket")
                check(f"{name}: Connection", last.value(b"Connection"), b"upgrade")
                check(f"{name}: it is open", pair.switch.open_requests(), [1])
                client.sendall(b"ping")
                check(f"{name}: what comes back", taken(client, 4), b"ping")
                client.shutdown(socket.SHUT_WR)
                check(f"{name}: what comes after the end", received(client), LAST_WORDS)
            (entry,) = pair.entries(1)
            check(
                f"{name}: the log",
                (entry.status, entry.end, entry.reason, entry.tunnel),
                (101, "answered", None, "whole"),
            )
            check(
                f"{name}: bytes both ways",
                (entry.request_bytes, entry.response_bytes),
                (len(ASKS) + 4, len(ACCEPTED) + 4 + len(LAST_WORDS)),
            )
            check(f"{name}: none is open", comes(lambda: pair.switch.open_requests() == [0]), True)


def origins() -> None:
    """With --forwarded, an upgrade tells its endpoint where it comes from, too, and no Connection field
    of its client takes that away."""
    hostile = ASKS.replace(b"keep-alive, Upgrade", b"upgrade, X-Forwarded-For, X-Request-Id, X-A")
    hostile = hostile.removesuffix(b"\r\n") + b"X-Forwarded-For: 192.0.2.1\r\nX-A: 1\r\n\r\n"
    with tunnels(UPGRADE, FORWARDED, KEEP_ALIVE) as pair:
        for text in (ASKS, hostile):
            with connect(pair.switch.active) as client:
                client.sendall(text)
                check("the head", taken(client, len(ACCEPTED)), ACCEPTED)
            fields = pair.peer.requests[-1].fields
            named = {name.lower(): value for name, value in fields}
            check("no field stands twice", len(fields), len(named))
            check("Upgrade", named[b"upgrade"], b"websocket")
            check("Connection", named[b"connection"], b"upgrade")
            check("X-Forwarded-For", named[b"x-forwarded-for"], HOST.encode())
            check("X-Request-Id", len(named[b"x-request-id"]), 32)
            check("a field of the client's connection", named.get(b"x-a"), None)
        with KeptClient(pair.switch.active) as client:
            client.answer_to(ASKS.replace(b"/chat", REFUSES, 1))
            client.answer_to(request(PLAIN))
        last = pair.peer.requests[-1]
        check("another request", (last.target, last.value(b"Upgrade")), (PLAIN, None))
        check("it tells the same", last.value(b"X-Forwarded-For"), HOST.encode())
    with tunnels(STREAM, FORWARDED) as pair:
        check("without --upgrade", asked(pair.switch.active, ASKS), BAD_GATEWAY)
        last = pair.peer.requests[-1]
        check("its Upgrade", last.value(b"Upgrade"), None)
        check("its Connection", last.value(b"Connection"), b"close")
        check("its X-Forwarded-For", last.value(b"X-Forwarded-For"), HOST.encode())


def behind_both_heads() -> None:
    """What the client sends behind its request reaches the endpoint, but not before the 101; and
    what the endpoint sends behind the 101 reaches the client."""
    with tunnels(UPGRADE) as pair:
        with pair.open(WAITS, b"early") as client:
            check("nothing before the 101", pair.peer.early, b"")
            check("it comes after it", taken(client, 5), b"early")
        with pair.open(SPEAKS_FIRST) as client:
            check("what the endpoint says first", taken(client, 7), b"welcome")


def not_accepted() -> None:
    """An endpoint that answers otherwise: an ordinary response, after which the client's connection
    goes on; a 101 to another protocol, or to who did not ask, is no response."""
    with tunnels(UPGRADE, KEEP_ALIVE) as pair:
        with KeptClient(pair.switch.active) as client:
            answer = client.answer_to(ASKS.replace(b"/chat", REFUSES, 1))
            check("an ordinary response", answer.partition(END)[2], b"no upgrade")
            check(
                "the next request",
                client.answer_to(request(PLAIN)).partition(END)[2],
                b"plain",
            )
        check(
            "another protocol",
            asked(pair.switch.active, ASKS.replace(b"/chat", TO_OTHER, 1)),
            BAD_GATEWAY,
        )
        check("who did not ask", asked(pair.switch.active, request()), BAD_GATEWAY)
        for name, text in (
            ("without Connection", ASKS.replace(b"keep-alive, Upgrade", b"keep-alive")),
            ("version 1.0", ASKS.replace(b"HTTP/1.1", b"HTTP/1.0")),
            ("with a body", ASKS.replace(b"Host: x", b"Host: x\r\nContent-Length: 0")),
        ):
            check(f"{name}: the 101", (asked(pair.switch.active, text) or b"")[9:12], b"502")
            check(f"{name}: Upgrade", pair.peer.requests[-1].value(b"Upgrade"), None)
        check("no tunnel", [one.tunnel for one in pair.entries(7)], [None] * 7)


def without_the_flag() -> None:
    """Without the flag an upgrade is not passed on, and a 101 is no response."""
    with tunnels(STREAM) as pair:
        check("the 101", asked(pair.switch.active, ASKS), BAD_GATEWAY)
        check("Upgrade", pair.peer.requests[-1].value(b"Upgrade"), None)


def much_both_ways() -> None:
    """A tunnel passes 64 MiB each way at the same time, in order, and whole."""
    with tunnels(UPGRADE) as pair, pair.open() as client:
        block = bytes(range(256)) * 4096
        sent, came = hashlib.sha256(), hashlib.sha256()

        def send() -> None:
            for number in range(64):
                piece = number.to_bytes(4, "big") + block
                sent.update(piece)
                client.sendall(piece)
            client.shutdown(socket.SHUT_WR)

        sender = threading.Thread(target=send)
        sender.start()
        count, tail = 0, b""
        while piece := client.recv(1 << 18):
            count += len(piece)
            tail += piece
            came.update(tail[: -len(LAST_WORDS)])
            tail = tail[-len(LAST_WORDS) :]
        sender.join()
        check("bytes", count, 64 * (4 + len(block)) + len(LAST_WORDS))
        check("the same ones", (came.hexdigest(), tail), (sent.hexdigest(), LAST_WORDS))


def takes_nothing() -> None:
    """While a client takes nothing, its endpoint is read no further than a window: others are
    served, and the memory stays."""
    with tunnels(UPGRADE) as pair:
        status = pathlib.Path(f"/proc/{pair.switch.process.pid}/status")

        def resident() -> int:
            return next(
                int(line.split()[1])
                for line in status.read_text("ascii").splitlines()
                if line.startswith("VmRSS")
            )

        asked(pair.switch.active, request(PLAIN))
        before = resident()
        with pair.open(FLOODS), pair.open() as other:
            time.sleep(1)
            other.sendall(b"ping")
            check("another tunnel", taken(other, 4), b"ping")
            check(
                "another request",
                (asked(pair.switch.active, request(PLAIN)) or b"").partition(END)[2],
                b"plain",
            )
            check("KiB that it takes", resident() - before < 2048, True)


def silence() -> None:
    """A tunnel on which no byte passes for --silence seconds is reset on both sides; one byte of
    either peer renews the time."""
    with tunnels(UPGRADE, "--silence", str(SILENCE)) as pair:
        with pair.open() as client:
            began = last = time.monotonic()
            while last < began + 1.5 * SILENCE:
                time.sleep(SILENCE / 4)
                last = time.monotonic()
                client.sendall(b"p")
                check("a byte", taken(client, 1), b"p")
            check("then it is reset", is_reset(client), True)
            check("not before the time", time.monotonic() - last > SILENCE - 0.1, True)
            check_soon("its reset", time.monotonic() - last, SILENCE + SOON)
        check("the log", [one.tunnel for one in pair.entries(1)], ["silent"])


def resets() -> None:
    """A reset of either peer is a reset for the other one."""
    with tunnels(UPGRADE) as pair:
        with pair.open(RESETS) as client:
            client.sendall(b"x")
            check("the client sees the reset of its endpoint", is_reset(client), True)
        client = pair.open()
        client.sendall(b"ping")
        check("a tunnel", taken(client, 4), b"ping")
        reset(client)
        check(
            "the log",
            [one.tunnel for one in pair.entries(2)],
            ["endpoint_failed", "client_failed"],
        )
        check("none is open", comes(lambda: pair.switch.open_requests() == [0]), True)


def resets_beside_silence() -> None:
    """A reset of one peer is one for the other at once, also if no byte passes: that of a client or of
    an endpoint that has ended its input, and of a client whose bytes wait."""
    with tunnels(UPGRADE, "--silence", "3600") as pair:
        peer = pair.peer
        client = pair.open(LISTENS)
        client.sendall(b"ping")
        client.shutdown(socket.SHUT_WR)
        check("the end of its input", comes(lambda: peer.ended == 1), True)
        reset(client)
        check("a client that has ended its input", comes(lambda: peer.resets == 1), True)
        client = pair.open(STALLS)
        client.settimeout(1)
        with contextlib.suppress(TimeoutError):
            client.sendall(bytes(64 * MEBIBYTE))
        reset(client)
        check("a client whose bytes wait", comes(lambda: peer.resets == 2), True)
        with pair.open(ENDS_AND_RESETS) as client:
            check("the end of the endpoint's input", client.recv(1), b"")
            peer.may_go.set()
            check("an endpoint that has ended its input", comes(lambda: is_over(client, 0)), True)
        ends = ["client_failed", "client_failed", "endpoint_failed"]
        check("the log", [one.tunnel for one in pair.entries(3)], ends)
        check("none is open", comes(lambda: pair.switch.open_requests() == [0]), True)


def ends_beside_bytes_that_wait() -> None:
    """A client that has ended its input, and was told the end of its endpoint's, is not taken for one
    that is reset: all that it sent reaches its endpoint, however late that reads it."""
    with tunnels(UPGRADE) as pair, pair.open(ENDS_AND_READS) as client:
        check("the end of the endpoint's input", client.recv(1), b"")
        sent, active = 0, pair.switch.active
        # until bytes wait at the switch that it does not read
        while not (unread_at(active) and not comes(lambda: unread_at(active) == 0, 0.5)):
            sent += client.send(bytes(16_384))
        client.shutdown(socket.SHUT_WR)
        time.sleep(0.5)
        check("it is open", pair.switch.open_requests(), [1])
        pair.peer.may_go.set()
        check("all of it comes", comes(lambda: pair.peer.late == sent), True)
        check("the log", [one.tunnel for one in pair.entries(1)], ["whole"])


def deploy_another(pair: Tunnels, peer: Peer) -> None:
    """A second revision takes the traffic of the first one, whose delay passes."""
    for line, reply in (
        (f"deploy two {peer.port}", "ok 0"),
        ("available 2 1", "ok 4"),
        ("tick 14", "ok 0"),
    ):
        check(line.split(" ", maxsplit=1)[0], pair.switch.answer_to(line), reply)


def drains() -> None:
    """A revision with an open tunnel is not scaled down before the tunnel ends, or before the limit
    of its drain gives it up."""
    other = Peer()
    with tunnels(UPGRADE, rollout=DELAYED) as pair:
        with pair.open() as client:
            deploy_another(pair, other)
            check("it is open", pair.switch.open_requests()[0], 1)
            client.sendall(b"ping")
            check("and passes on", taken(client, 4), b"ping")
            client.shutdown(socket.SHUT_WR)
            received(client)
        check("then it has left", comes(lambda: pair.switch.open_requests()[0] == 0), True)
        check("how it ended", [one.tunnel for one in pair.entries(1)], ["whole"])
    with tunnels(UPGRADE, rollout=LIMITED) as pair:
        with pair.open() as client:
            deploy_another(pair, other)
            client.sendall(b"ping")
            check("it drains", taken(client, 4), b"ping")
            check("the tick to the limit", pair.switch.answer_to("tick 15"), "ok 0")
            check("it is given up", is_reset(client), True)
        check("the log", [one.tunnel for one in pair.entries(1)], ["given_up"])
        check("none is open", comes(lambda: pair.switch.open_requests()[0] == 0), True)
    other.stop()


def shutdown() -> None:
    """A graceful shutdown ends tunnels after its time, and the program ends."""
    with tunnels(UPGRADE, "--shutdown-timeout", str(SHUTDOWN)) as pair:
        with pair.open() as client:
            operator, began = pair.switch.operator(), time.monotonic()
            operator.send_quit()
            time.sleep(0.5)
            client.sendall(b"ping")
            check("it passes on", taken(client, 4), b"ping")
            check("then it is ended", is_reset(client), True)
            check("not before the time", time.monotonic() - began > SHUTDOWN - 0.1, True)
            check_soon("its end", time.monotonic() - began, SHUTDOWN + SOON)
        check("the end", pair.switch.wait().status, 0)
        operator.close()
        check("the log", [one.tunnel for one in pair.entries(1)], ["given_up"])


def goes_meanwhile() -> None:
    """A client that goes before its endpoint accepts the upgrade is no tunnel, and nothing stays
    open."""
    with tunnels(UPGRADE, "--abort-on-close") as pair:
        client = connect(pair.switch.active)
        client.sendall(ASKS.replace(b"/chat", HOLDS, 1))
        check("it is open", comes(lambda: pair.switch.open_requests() == [1]), True)
        client.close()
        check("it ends", comes(lambda: pair.switch.open_requests() == [0]), True)
        check("the log", [(one.status, one.tunnel) for one in pair.entries(1)], [(499, None)])


def many() -> None:
    """Four hundred silent tunnels, of which half have one side ended: other requests are served at
    once, and each tunnel passes on at the end."""
    with tunnels(UPGRADE, KEEP_ALIVE, concurrency=500) as pair:
        with contextlib.ExitStack() as stack:
            clients = [stack.enter_context(pair.open()) for _ in range(400)]
            for client in clients[::2]:
                client.sendall(b"half")
                client.shutdown(socket.SHUT_WR)
            check(
                "half of them",
                {received(client) for client in clients[::2]},
                {b"half" + LAST_WORDS},
            )
            worst = max(latencies(pair.switch.active, 200))
            check_soon("the longest wait of another request", worst, 1)
            for client in clients[1::2]:
                client.sendall(b"ping")
            check("the others", {taken(client, 4) for client in clients[1::2]}, {b"ping"})
        check("none is open", comes(lambda: pair.switch.open_requests() == [0]), True)
        ends = [one.tunnel for one in pair.entries(600) if one.tunnel is not None]
        check("tunnels in the log", len(ends), 400)
        check("how they ended", set(ends) <= {"whole", "client_failed", "endpoint_failed"}, True)


def latencies(port: int, count: int) -> Sequence[float]:
    """How many seconds each of so many requests took."""
    seconds = []
    with KeptClient(port) as client:
        for _ in range(count):
            began = time.monotonic()
            client.answer_to(request(PLAIN))
            seconds.append(time.monotonic() - began)
    return seconds


if __name__ == "__main__":
    checks.run(
        "live_upgrade",
        (
            accepted,
            origins,
            behind_both_heads,
            not_accepted,
            without_the_flag,
            much_both_ways,
            takes_nothing,
            silence,
            resets,
            resets_beside_silence,
            ends_beside_bytes_that_wait,
            drains,
            shutdown,
            goes_meanwhile,
            many,
        ),
    )
