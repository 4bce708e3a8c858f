"""Clients that have sent a whole request and ended their input, before an endpoint that takes long:
what the proxy costs meanwhile, and how long a quick client waits."""
import asyncio
import contextlib
import socket
import time
from typing import NamedTuple

from support.messages import request
from support.peers import MeasurementError
from support.peers.comparisons import percentile
from support.peers.configurations import SWITCH
from support.peers.loop_clients import all_connected, all_received, connected, received, status_of
from support.peers.loop_clients import ANSWERED, send, unanswered
from support.peers.processor_time import microseconds_between, thread_times
from support.peers.proxies import Proxy
from support.peers.reading_endpoint import LATER

CLIENTS = 1000
CONCURRENCY = 1023  # of the switch: all requests are inside at a time
SECONDS = 12.0  # after which the endpoint answers
# From when on the time is measured, so that all requests are inside, and how long before the answers
# it ends, in seconds.
SETTLING, BEFORE_ANSWERS = 1.0, 1.0
PAUSE = 0.01  # seconds between two requests of the quick client


class HalfClosed(NamedTuple):
    """How many of the clients got no answer, the processor time in milliseconds, and the 99th
    percentile of a quick client's wait in milliseconds."""

    unanswered: int
    milliseconds: float
    p99: float

    def __str__(self) -> str:
        return (
            f"{self.milliseconds:.1f} ms of processors, p99 of a quick client {self.p99:.2f} ms, "
            f"{self.unanswered} of {CLIENTS} without an answer"
        )


async def quick_waits(port: int, end: float) -> list[float]:
    """How many milliseconds a client waits that asks again and again until a moment.
    `MeasurementError` if one of its requests is not answered."""
    waits = []
    while time.monotonic() < end:
        begun = time.monotonic()
        client = await connected(port)
        send(client, request())
        status = status_of(await received(client))
        if status != ANSWERED:
            raise MeasurementError(f"a quick client was answered {status}")
        waits.append(1000 * (time.monotonic() - begun))
        await asyncio.sleep(PAUSE)
    return waits


def end_input(client: socket.socket) -> None:
    with contextlib.suppress(OSError):
        client.shutdown(socket.SHUT_WR)


async def measured(proxy: Proxy) -> HalfClosed:
    """The clients at a proxy. `MeasurementError` if the switch leaves one without an answer: it
    may then cost less than one that answers all."""
    begun = time.monotonic()
    clients = await all_connected(proxy.port, CLIENTS)
    for client in clients:
        send(client, request(LATER))
    await asyncio.sleep(SETTLING)
    before = thread_times(proxy.process)
    for client in clients:
        end_input(client)
    waits = await quick_waits(proxy.port, begun + SECONDS - BEFORE_ANSWERS)
    spent = microseconds_between(before, thread_times(proxy.process))
    lost = unanswered(await all_received(clients))
    found = HalfClosed(lost, spent / 1000, percentile(waits, 0.99))
    if lost and proxy.name.startswith(SWITCH):
        raise MeasurementError(f"{proxy.name}, half-closed clients: {found}")
    return found
