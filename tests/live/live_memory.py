"""The memory of `bg_switch serve`: of uploads that come at once, and of messages of mixed sizes. It
stays within its bounds only if the C library gives freed memory back, by the variables that
bin/bg_switch sets: without them these parts fail. And responses that are not taken: they make room
for other clients at once. By hand: the table of docs/OPERATING.md, and the most that the switch of
examples/production can take."""
import concurrent.futures
import contextlib
import os
import random
import re
import selectors
import socket
import threading
import time
from collections.abc import Iterator
from functools import partial

from support import TOP, checks, clients
from support.checks import check, check_beside, check_within, comes
from support.endpoints import Endpoint, EndpointProcess, Held, Request, by_target, held_at
from support.messages import BY_HAND, LARGEST_BODY, answer, request, response
from support.pace import is_busy
from support.ports import free_port
from support.processes import greatest_memory, limit_descriptors, resident_memory, threads
from support.switch import LISTENING, Switch

UNIT = TOP / "examples" / "production" / "bg-switch.service"
DESCRIPTORS = (8192, 8192)
# The timeouts of the switch would only end what the machine is too busy for.
TIMEOUT = 3600
# In MiB: the most that the requests at a client port count, by docs/LIMITS.md; the most memory
# while they come; and what is kept `SOON` seconds after the last one.
BOUND = 128
MOST_OF_UPLOADS, MOST_KEPT, SOON = BOUND * 3 // 2, 64, 10
# Of `UPLOADS` uploads at least `ANSWERED` are answered: the switch may drop a client that is too
# slow on a busy machine.
UPLOADS, ANSWERED = 1000, 900
# The concurrency of the unit, and clients that send and get messages of mixed sizes, `EXCHANGES`
# each.
CONCURRENCY, CLIENTS, EXCHANGES = 255, 40, 25
SEED = 64
LARGEST_RESPONSE = 4194304
# For how many seconds the responses go to clients that read nothing.
DRAINED = 20
# So many clients take nothing of the largest response, which together are more than a port keeps.
# Their segments are small, so that the system takes some of a response in a first write and less
# in a second one: such a client is slow only after two seconds. `POLITE` clients ask at once beside
# them, and wait for `PROMPT` seconds at most.
TAKING_NOTHING, SMALL_SEGMENT = 300, 1460
POLITE, PROMPT = 10, 0.25
BY_CONCURRENCY = (10, 32, 200, 1000)


@contextlib.contextmanager
def serving(endpoint: int, concurrency: int) -> Iterator[Switch]:
    """A switch that serves the endpoint, with so many requests of the active port at a time."""
    switch = Switch(
        BY_HAND,
        instead_of_workers=("--concurrency", str(concurrency)),
        descriptors=DESCRIPTORS,
        timeout=TIMEOUT,
    )
    try:
        check("listening", switch.first, LISTENING)
        check("opened", switch.answer_to(f"open one {endpoint}"), "ok 0")
        check("available", switch.answer_to("available 1 1"), "ok 0")
        yield switch
    finally:
        switch.stop()


def resident(switch: Switch) -> float:
    """The memory of a switch in MiB."""
    return resident_memory(switch.process.pid) / 1024


def peak(switch: Switch) -> float:
    """The most memory that a switch has had since its start, in MiB."""
    return greatest_memory(switch.process.pid) / 1024


def kept(switch: Switch) -> float:
    """The memory of a switch in MiB, a while after its last request."""
    check("no request is open", comes(lambda: switch.open_requests() == [0]), True)
    comes(lambda: resident(switch) <= MOST_KEPT, SOON)
    return resident(switch)


class Upload:
    """A client that sends the largest request, as its socket takes it."""

    WHOLE = request(method=b"POST", body=bytes(LARGEST_BODY))

    def __init__(self, port: int) -> None:
        self.left = memoryview(self.WHOLE)
        self.connection = clients.connect(port)
        self.connection.setblocking(False)
        self.send_on()

    def send_on(self) -> bool:
        """Sends what the socket takes now. Gives whether more is left to send to a switch that has
        not dropped the client."""
        try:
            self.left = self.left[self.connection.send(self.left) :]
        except BlockingIOError:
            pass
        except OSError:
            return False
        return len(self.left) > 0

    def received(self) -> bytes:
        self.connection.settimeout(clients.LONGEST)
        return clients.received(self.connection)


def upload_at_once(port: int, count: int) -> list[bytes]:
    """What `count` clients are answered that upload side by side, in one thread."""
    with contextlib.ExitStack() as stack, selectors.DefaultSelector() as selector:
        uploads = [Upload(port) for _ in range(count)]
        for upload in uploads:
            stack.enter_context(upload.connection)
            selector.register(upload.connection, selectors.EVENT_WRITE, upload)
        while selector.get_map():
            for key, _ in selector.select():
                if not key.data.send_on():
                    selector.unregister(key.fileobj)
        answers = [upload.received() for upload in uploads]
    return answers


def answer_ok(_: Request, connection: socket.socket) -> None:
    connection.sendall(response(b"ok"))


def uploads_at_once() -> None:
    """1,000 clients upload a mebibyte each at once. The memory of the switch stays near the bound
    of the port, and is given back. A body was freed before: the C library would then put the next
    ones among the small blocks."""
    limit_descriptors(16000)
    with serving(Endpoint(answer_ok).port, 64) as switch:
        check("the first upload", upload_at_once(switch.active, 1), [answer(b"ok")])
        answers = upload_at_once(switch.active, UPLOADS)
        # if the clients are not run for a while, the switch drops some that stand still
        check(
            "uploads that were answered",
            answers.count(answer(b"ok")) >= ANSWERED or is_busy(),
            True,
        )
        check_within(f"MiB of {UPLOADS} uploads of 1 MiB at once", peak(switch), MOST_OF_UPLOADS)
        check_within(f"MiB that are kept after {UPLOADS} uploads", kept(switch), MOST_KEPT)


def status_of_one(port: int, rng: random.Random) -> int:
    """The status of a request of any kind, which has a small or a large message; 0 if there is no
    whole answer."""
    # as likely from 1 KiB to 2 KiB as from 512 KiB to 1 MiB
    body = bytes(int(LARGEST_BODY ** rng.random()))
    pieces = (body[start : start + 10000] for start in range(0, len(body), 10000))
    target, given = rng.choice((("/big", None), ("/chunks", None), ("/", body), ("/", pieces)))
    got = clients.get(port, target, "GET" if given is None else "POST", given)
    return got[0] if got else 0


def exchanges(port: int, seed: int, count: int) -> list[int]:
    rng = random.Random(seed)
    return [status_of_one(port, rng) for _ in range(count)]


def soak(port: int, at_once: int, each: int) -> None:
    """`at_once` clients send `each` requests each, one after the other, with messages of mixed
    sizes."""
    with concurrent.futures.ThreadPoolExecutor(at_once) as pool:
        done = [pool.submit(exchanges, port, SEED + number, each) for number in range(at_once)]
        check(
            "the answers to messages of mixed sizes",
            {status for one in done for status in one.result()},
            {200},
        )


def mixed_sizes() -> None:
    """After messages of all sizes, by many clients, the memory is given back; and the unit's limit
    is far above what was taken."""
    with serving(EndpointProcess("one", free_port()).port, CONCURRENCY) as switch:
        soak(switch.active, CLIENTS, EXCHANGES)
        check_within(
            "MiB of messages of mixed sizes, beside a quarter of the limit of the unit",
            peak(switch),
            memory_of_unit() / 4,
        )
        check_within("MiB that are kept after messages of mixed sizes", kept(switch), MOST_KEPT)


def memory_of_unit() -> int:
    """The limit on the memory of the unit in MiB."""
    found = re.search(r"^MemoryMax=(\d+)G$", UNIT.read_text(encoding="ascii"), re.M)
    assert found
    return int(found[1]) << 10


class Stalling:
    """Reads each request whole, sends all but the last byte of the largest response, and sends that
    one only once it is let go."""

    WHOLE = memoryview(response(bytes(LARGEST_RESPONSE)))

    def __init__(self) -> None:
        self.is_free = threading.Event()
        self.lock = threading.Lock()
        self.pending = 0

    def __call__(self, _: Request, connection: socket.socket) -> None:
        connection.sendall(self.WHOLE[:-1])
        with self.lock:
            self.pending += 1
        self.is_free.wait()
        connection.sendall(self.WHOLE[-1:])


def ask_at_once(port: int) -> list[clients.Timed]:
    """What polite clients are answered that ask at once."""
    return clients.at_once([partial(clients.timed, port)] * POLITE)


def responses_not_taken() -> None:
    """Clients take nothing of responses that are more than a port keeps. Others are answered as
    promptly as elsewhere, and one that reads on gets the whole of its response."""
    limit_descriptors(16000)
    stalling = Stalling()
    endpoint = Endpoint(held_at(b"/largest", stalling, answer_ok))
    with serving(endpoint.port, TAKING_NOTHING + 1 + POLITE) as switch, serving(
        Endpoint(answer_ok).port, POLITE
    ) as other, concurrent.futures.ThreadPoolExecutor(1) as reader, clients.Crowd(
        switch.active, TAKING_NOTHING, request(b"/largest"), clients.SMALL_BUFFER, SMALL_SEGMENT
    ):
        steady = reader.submit(clients.read_steadily, switch.active, b"/largest")
        check(
            "all large responses are pending",
            comes(lambda: stalling.pending == TAKING_NOTHING + 1),
            True,
        )
        elsewhere = ask_at_once(other.active)
        stalling.is_free.set()
        check("all large responses have come", comes(lambda: switch.open_requests() == [0]), True)
        beside = ask_at_once(switch.active)
        elsewhere += ask_at_once(other.active)
        # they come again and again, also while slow clients are dropped
        beside += [clients.timed(switch.active) for _ in range(POLITE)]
        check(
            "polite clients beside responses that are not taken",
            {one.answer for one in beside + elsewhere},
            {answer(b"ok")},
        )
        check_beside(
            "the wait beside responses that are not taken",
            [one.seconds for one in beside[:POLITE]],
            [one.seconds for one in elsewhere],
            PROMPT,
        )
        read = steady.result()
        check(
            "a client that reads on beside them gets the whole of its response",
            read.bytes_read == len(answer(bytes(LARGEST_RESPONSE))) or not read.is_steady(),
            True,
        )


def table() -> None:
    """The memory of docs/OPERATING.md, by the requests at a time."""
    limit_descriptors(16000)
    print(
        "requests at a time, and MiB: idle, all there with small messages, at most in a soak of mixed sizes, kept after it"
    )
    for concurrency in BY_CONCURRENCY:
        held = Held(b"held")
        with serving(
            Endpoint(held_at(b"/held", held, by_target(b"one"))).port, concurrency
        ) as switch:
            loops = len(os.sched_getaffinity(0)) + 1
            check("its threads", comes(lambda: threads(switch.process.pid) > loops), True)
            idle = resident(switch)
            with contextlib.ExitStack() as stack:
                for _ in range(concurrency):
                    stack.enter_context(clients.connect(switch.active)).sendall(request(b"/held"))
                check("as many requests as may be are there", held.holds(concurrency), True)
                busy = resident(switch)
                held.is_free.set()
            soak(switch.active, min(2 * concurrency, 100), 20)
            after = kept(switch)
            print(
                f"{concurrency}: {idle:.1f}, {busy:.1f}, {peak(switch):.1f}, {after:.1f}",
                flush=True,
            )


def most_of_the_unit() -> None:
    """With the concurrency of the unit, as many requests as may be are the largest with the largest
    responses, as many uploads come as there is room for, and then the responses go to clients that
    read nothing: the memory stays below the limit of the unit.
    """
    limit_descriptors(16000)
    stalling = Stalling()
    with serving(Endpoint(stalling).port, CONCURRENCY) as switch, contextlib.ExitStack() as stack:
        uploads = []
        for port in (switch.active, switch.preview):
            for _ in range(1000):
                client = stack.enter_context(clients.connect(port, clients.SMALL_BUFFER))
                uploads.append(
                    threading.Thread(
                        target=clients.send_in_pieces, args=(client, [Upload.WHOLE], 0), daemon=True
                    )
                )
        for upload in uploads:
            upload.start()
        check(
            "as many requests as may be are there",
            comes(lambda: stalling.pending >= CONCURRENCY + CONCURRENCY // 8),
            True,
        )
        print(
            f"MiB while all of them have the largest messages: {resident(switch):.0f}", flush=True
        )
        stalling.is_free.set()
        time.sleep(DRAINED)
        print(
            f"MiB at the end, and at most: {resident(switch):.0f}, {peak(switch):.0f}", flush=True
        )
        check_within("MiB at most, beside the limit of the unit", peak(switch), memory_of_unit())


if __name__ == "__main__":
    checks.run(
        "live_memory",
        [uploads_at_once, mixed_sizes, responses_not_taken],
        by_hand=[table, most_of_the_unit],
    )
