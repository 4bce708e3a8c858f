"""Clients at a graceful stop of a proxy: those that have sent a whole request, and those whose event
loop has connected and sends a moment later."""
import asyncio
import contextlib
import os
import signal
from collections.abc import Awaitable, Callable, Iterator, Mapping, Sequence
from typing import NamedTuple

from support import PROGRAM
from support.messages import request
from support.operators import Operator
from support.peers.configurations import Mode, Place
from support.peers.loop_clients import all_connected, all_received, connected, received, send
from support.peers.loop_clients import status_of, unanswered
from support.peers.proxies import peer, running_switch
from support.peers.reading_endpoint import LATER

SIGNALS = {"nginx": signal.SIGQUIT, "haproxy": signal.SIGUSR1}
CONCURRENCY = ("--concurrency", "64")
THREADS = 2
ROUNDS = 8
CLIENTS = 100  # that have sent whole requests, in each round
BEFORE = CLIENTS // 2  # of these, those that have sent them `EARLIER` seconds before the stop
EARLIER = 0.03
LATER_SECONDS = 0.1  # after which the endpoint answers these
SETTLING = 0.2  # seconds in which a proxy has accepted connections
LOOPS = 300  # clients with event loops
UNTIL_STOP = 0.4  # seconds for which these run before the stop

Stop = Callable[[], None]


class Lost(NamedTuple):
    """How many clients were connected, and how many of them were not answered."""

    clients: int
    unanswered: int

    def __str__(self) -> str:
        return f"{self.unanswered} of {self.clients:,} without an answer"


@contextlib.contextmanager
def stoppable(name: str, place: Place) -> Iterator[Stop]:
    """A proxy that runs, and what stops it gracefully."""
    if name in SIGNALS:
        with peer(name, place, Mode.NONE, THREADS) as proxy:
            yield lambda: os.kill(proxy.process, SIGNALS[name])
        return
    with running_switch([PROGRAM], place, CONCURRENCY) as running:
        with contextlib.closing(Operator(running.control)) as operator:
            yield operator.send_quit


async def whole_requests(port: int, stop: Stop) -> Lost:
    """Clients that are connected and silent send whole requests: some a moment before the stop, and
    the others in the instant of it, one after the other and then the stop."""
    clients = await all_connected(port, CLIENTS)
    await asyncio.sleep(SETTLING)
    for client in clients[:BEFORE]:
        send(client, request(LATER))
    await asyncio.sleep(EARLIER)
    for client in clients[BEFORE:]:
        send(client, request(LATER))
    stop()
    return Lost(CLIENTS, unanswered(await all_received(clients)))


async def ask_on(port: int, statuses: list[str]) -> None:
    """A client that connects, sends its request at a later turn of its loop, and does so again once
    it has its answer, until no connection comes any more."""
    with contextlib.suppress(OSError):
        while True:
            client = await connected(port)
            await asyncio.sleep(0)
            send(client, request())
            statuses.append(status_of(await received(client)))


async def event_loops(port: int, stop: Stop) -> Lost:
    """Clients with event loops that never pause, and a stop while they run."""
    statuses = list[str]()
    clients = [asyncio.create_task(ask_on(port, statuses)) for _ in range(LOOPS)]
    await asyncio.sleep(UNTIL_STOP)
    stop()
    await asyncio.gather(*clients)
    return Lost(len(statuses), unanswered(statuses))


KINDS: Mapping[str, Callable[[int, Stop], Awaitable[Lost]]] = {
    "whole requests": whole_requests,
    "event loops": event_loops,
}


async def run(kind: str, port: int, stop: Stop) -> Lost:
    return await KINDS[kind](port, stop)


def measured(name: str, kind: str, place: Place) -> Lost:
    """A stop of a proxy under clients of a kind."""
    with stoppable(name, place) as stop:
        return asyncio.run(run(kind, place.port, stop))


def sum_of(lost: Sequence[Lost]) -> Lost:
    return Lost(sum(one.clients for one in lost), sum(one.unanswered for one in lost))
