"""`bg_switch serve` on loopback under attack: clients and endpoints that are slow, silent, broken
or hostile beside polite clients, and operators that vanish.

Each switch takes exactly as many connections as a part makes, or the part's end takes the rest.
"""
import concurrent.futures
import contextlib
import signal
import socket
import threading
import time
from collections.abc import Callable

from support import checks, clients, processes
from support.checks import check, check_soon, check_within, comes
from support.endpoints import BROKEN, SILENT, Endpoint, Held, by_target
from support.messages import (
    BAD_GATEWAY,
    BAD_REQUEST,
    BY_HAND,
    HEAD_TOO_LARGE,
    answer,
    head_of,
    request,
)
from support.ports import unread_at
from support.switch import LaterEnd, Switch, opened, serving

# How long, in seconds, a message may take in the parts that wait for the timeout; and if others have to
# be answered within it, on a busy machine too.
TIMEOUT, LONGER_TIMEOUT = 2, 8
DRIPS = 60  # bytes that a client sends which drips: more than there is time for
LONGEST_HEAD = 16384
ONE = answer(b"one")


def drip_again(port: int, text: bytes, rounds: int) -> list[clients.Timed]:
    """What a client is answered that sends this and then a byte every second, again and again."""
    return [clients.dripped(port, [text, *[b"a"] * DRIPS], 1) for _ in range(rounds)]


def dripping_clients() -> None:
    """Seven clients that send a byte every second, as many as requests may be served at a time,
    beside polite ones at both ports."""
    switch, operator = opened(Endpoint(by_target(b"one")).port, workers=7, count=4, timeout=TIMEOUT)
    texts = [
        b"GET /",
        b"GET / HTTP/1.1\r\nA: ",
        b"POST / HTTP/1.1\r\nHost: x\r\nContent-Length: 1000\r\n\r\n",
    ]
    with concurrent.futures.ThreadPoolExecutor(9) as pool:
        drips = [
            pool.submit(drip_again, switch.active, texts[number % 3], 3) for number in range(7)
        ]
        active = pool.submit(clients.polite, switch.active, 3)
        preview = pool.submit(clients.polite, switch.preview, 4)
    dripped = [one for rounds in drips for one in rounds.result()]
    check("clients that drip", [one.answer for one in dripped], [b""] * 3 * 7)
    check("polite clients beside them", active.result().answers, [ONE] * 3)
    check_within(
        "they wait no longer than for a dripping one",
        active.result().longest,
        max(one.seconds for one in dripped),
    )
    check("polite clients at the other port", preview.result().answers, [ONE] * 4)
    switch.take(switch.active, 24)
    switch.take(switch.preview, 4)
    switch.check_end_after(operator, "the end after clients that drip", 14)


def clients_that_close() -> None:
    """Clients that end, or reset, at each byte of a request, each before a polite one."""
    texts = [request(b"/", b"POST", b"body"), request(b"/", b"POST", b"body", chunked=True)]
    cuts = sum(map(len, texts))
    switch, operator = opened(Endpoint(by_target(b"one")).port, workers=3, count=cuts)
    answers, after = set(), set()
    for text in texts:
        for length in range(len(text)):
            client = clients.connect(switch.active)
            client.sendall(text[:length])
            clients.reset(client)
            answers.add(clients.asked(switch.active, text[:length]))
            after.add(clients.asked(switch.active, text))
    check("clients that cut a request", answers, {b""})
    check("polite clients after each", after, {answer(b"onebody")})
    switch.take(switch.active, 3 * cuts)
    switch.check_end_after(operator, "the end after clients that cut", 2 * cuts)


def hostile_endpoints() -> None:
    """Endpoints that close, hang or send rubbish, beside polite clients."""
    switch, operator = opened(
        Endpoint(by_target(b"one")).port, workers=3, count=30, timeout=LONGER_TIMEOUT
    )
    targets = [*BROKEN, *SILENT]
    with concurrent.futures.ThreadPoolExecutor(len(targets) + 2) as pool:
        hostile = {
            target: pool.submit(clients.asked, switch.active, request(target)) for target in targets
        }
        active = pool.submit(clients.polite, switch.active, 20)
        preview = pool.submit(clients.polite, switch.preview, 20)
    for target, got in hostile.items():
        check(f"the endpoint of {target.decode()}", got.result(), BAD_GATEWAY)
    check("polite clients beside hostile endpoints", active.result().answers, [ONE] * 20)
    check("polite clients at the other port", preview.result().answers, [ONE] * 20)
    switch.take(switch.active, len(targets) + 20)
    switch.take(switch.preview, 20)
    switch.check_end_after(operator, "the end after hostile endpoints", 2 * (len(targets) + 40))


def silent_peers() -> None:
    """A client and an endpoint that say nothing, or nothing more, are given up at the timeout. A
    head without an end is refused as soon as it is as long as one may be."""
    timeout = 4
    switch, operator = opened(Endpoint(by_target(b"one")).port, workers=5, count=1, timeout=timeout)
    endless = b"GET /" + b"a" * (LONGEST_HEAD - 5)
    silent = [b"", b"GET / HT", request(b"/hangs"), request(b"/halts")]
    switch.take(switch.active, 5)
    later = LaterEnd(3 * timeout)
    with concurrent.futures.ThreadPoolExecutor(5) as pool:
        refused, *ends = pool.map(
            lambda text: clients.timed(switch.active, [text]), [endless, *silent]
        )
    is_soon = refused.seconds < min(end.seconds for end in ends)
    check("a head without an end", (refused.answer, is_soon), (HEAD_TOO_LARGE, True))
    check("silent peers", [end.answer for end in ends], [b"", b"", BAD_GATEWAY, BAD_GATEWAY])
    check(
        "they are given up in time",
        [timeout - 0.5 <= end.seconds and later.is_after(end.seconds) for end in ends],
        [True] * 4,
    )
    switch.check_end_after(operator, "the end after silent peers", 4)


def is_reset_when_it_sends(client: socket.socket) -> bool:
    """Whether a connection is reset whose client sends more, with pauses."""
    try:
        for _ in range(2):
            time.sleep(0.15)
            client.sendall(b"more")
        client.settimeout(0.1)
        return client.recv(1) != b""
    except ConnectionError:
        return True


def clients_that_send_on() -> None:
    """A client whose bytes were left unread may send for a while after its answer, and isn't
    reset."""
    held = Held(b"ok")
    switch, operator = opened(Endpoint(held).port, workers=2, count=1)
    with switch.connect(switch.active) as client:
        client.sendall(request())
        check("a request is held", held.holds(1), True)
        client.sendall(b"more")
        held.is_free.set()
        got = clients.received(client)
        check(
            "a client that sends on after its answer",
            (got, is_reset_when_it_sends(client)),
            (answer(b"ok"), False),
        )
    with switch.connect(switch.active) as client:
        client.sendall(b"GET / HTTP/1.1\r\n\r\n")
        client.sendall(b"more")
        got = clients.received(client)
        check(
            "a client that sends on after a refusal",
            (got, is_reset_when_it_sends(client)),
            (BAD_REQUEST, False),
        )
    switch.check_end_after(operator, "the end after clients that send on", 2)


def half_closed_clients() -> None:
    """Clients that end their input while they wait for an endpoint cost no more than others: the
    program asks the system about each, and reads no list of all sockets."""
    held = Held(b"held")
    with serving(Endpoint(held).port, timeout=40, workers=7) as switch:
        waiting = [clients.connect(switch.active) for _ in range(7)]
        for client in waiting:
            client.sendall(request())
        check("requests of clients that end their input", held.holds(7), True)
        before = processes.bytes_read(switch.process.pid)
        for client in waiting:
            client.shutdown(socket.SHUT_WR)
        time.sleep(4)
        check_within(
            "bytes that it reads meanwhile", processes.bytes_read(switch.process.pid) - before, 1000
        )
        held.is_free.set()
        check(
            "clients that have ended their input",
            [clients.received(client) for client in waiting],
            [answer(b"held")] * 7,
        )


def sends_whole(upload: socket.socket, rest: bytes) -> bool:
    """Sends the rest of an upload and ends its input; whether the switch had not closed it."""
    try:
        upload.sendall(rest)
        upload.shutdown(socket.SHUT_WR)
    except OSError:
        return False
    return True


def half_closed_uploads() -> None:
    """While the port pauses, no byte of a paused request is read, though its client has sent all of
    it and ended its input."""
    processes.limit_descriptors(16000)
    held, count = Held(b"held"), 1020
    whole = request(b"/", b"POST", bytes(130000))
    with serving(
        Endpoint(held).port, workers=7, timeout=60, descriptors=4096
    ) as switch, contextlib.ExitStack() as stack:
        uploads = [stack.enter_context(clients.connect(switch.active)) for _ in range(count)]
        for upload in uploads:
            upload.sendall(whole[:62000])
        check("all uploads are begun", comes(lambda: unread_at(switch.active) == 0), True)
        # on a busy machine these may stand still for so long that the port closes some, and reads
        # others then
        closed = [upload for upload in uploads if not sends_whole(upload, whole[62000:])]
        time.sleep(4)
        check("bytes stay unread", unread_at(switch.active) > 1 << 20 or len(closed) > 0, True)
        held.is_free.set()


def drip_uploads(uploads: list[socket.socket], has_ended: threading.Event) -> None:
    """Sends two kilobytes of each upload every second."""
    while not has_ended.wait(1):
        for upload in uploads:
            with contextlib.suppress(OSError):
                upload.send(bytes(2048))


def uploads_beside_drips() -> None:
    """Eight uploads that drip are the oldest, and 960 more have sent as much as the port keeps,
    with bytes that it does not read. They hold up an honest upload for no more than two seconds."""
    processes.limit_descriptors(16000)
    has_ended = threading.Event()
    with serving(
        Endpoint(by_target(b"one")).port, workers=7, timeout=60, descriptors=4096
    ) as switch, contextlib.ExitStack() as stack:
        uploads = [stack.enter_context(clients.connect(switch.active)) for _ in range(968)]
        for number, upload in enumerate(uploads):
            upload.sendall(head_of(1 << 20) + bytes(33000 if number < 8 else 68000))
        check("all uploads are begun", comes(lambda: unread_at(switch.active) == 0), True)
        for upload in uploads[8:]:
            upload.setblocking(False)
            with contextlib.suppress(OSError):
                upload.send(bytes(30000))
        threading.Thread(target=drip_uploads, args=(uploads[:8], has_ended), daemon=True).start()
        for what in ("at once", "later"):
            with concurrent.futures.ThreadPoolExecutor(20) as pool:
                honest = list(
                    pool.map(
                        lambda _: clients.timed(switch.active, [head_of(200000) + bytes(200000)]),
                        range(20),
                    )
                )
            check(
                f"honest uploads {what}",
                clients.counted(one.answer for one in honest),
                {b"200": 20},
            )
            check_soon(f"honest uploads {what}", max(one.seconds for one in honest), 2.0)
            time.sleep(2)
        has_ended.set()


def vanishing_operator(how: str, leave: Callable[[socket.socket], None]) -> None:
    """An operator opens the book and is gone before its reply; the next one is answered."""
    switch = Switch(BY_HAND, count=1)
    # the program finds the line and its end at once
    processes.pause(switch.process.pid)
    gone = clients.connect(switch.control)
    gone.sendall(b"open one %d\n" % Endpoint(by_target(b"one")).port)
    leave(gone)
    switch.process.send_signal(signal.SIGCONT)
    operator = switch.operator()
    check(
        f"the next after an operator that {how}",
        operator.answer_to("open two 1"),
        "refused AlreadyOpen",
    )
    operator.check("available 1 1", "ok 0")
    check(f"a client after an operator that {how}", switch.get(switch.active), (200, b"one"))
    switch.check_end_after(operator, f"the end after an operator that {how}", 2)


def operators_that_end() -> None:
    vanishing_operator("ends", socket.socket.close)


def operators_that_reset() -> None:
    vanishing_operator("resets", clients.reset)


if __name__ == "__main__":
    checks.run(
        "live_attack",
        [
            dripping_clients,
            clients_that_close,
            hostile_endpoints,
            silent_peers,
            clients_that_send_on,
            half_closed_clients,
            half_closed_uploads,
            uploads_beside_drips,
            operators_that_end,
            operators_that_reset,
        ],
        at_once=7,
    )
