"""Uploads that drip, so many that the switch pauses uploads, and honest ones beside them."""
import asyncio
import socket
import time
from collections.abc import Sequence
from typing import NamedTuple

from support.messages import head_of
from support.peers import MeasurementError
from support.peers.configurations import SWITCH
from support.peers.loop_clients import ANSWERED, all_connected, connected, received, send
from support.peers.loop_clients import send_all, status_of
from support.peers.proxies import Proxy
from support.ports import connections_at, unread_at

# The clients that drip. The first ones are those that the switch reads while uploads pause.
CLIENTS, OLDEST = 1000, 8
LENGTH = 1 << 20  # of the body that each announces
# What they send at first, what the others send then, and what each sends every second, in bytes. All
# together is more than the port of the switch buffers.
FIRST_OF_OLDEST, FIRST, SECOND, DRIP = 33_000, 62_000, 36_000, 2048
PAUSED = 1 << 20  # bytes that are unread while uploads pause
LONGEST_FILL = 1.0  # seconds until so many are unread
HONEST, HONEST_LENGTH = 20, 200_000
UPLOAD = memoryview(head_of(HONEST_LENGTH) + bytes(HONEST_LENGTH))
WAVES = 2  # of honest uploads
PAUSE = 2.0  # seconds between them


class Waits(NamedTuple):
    """The longest wait of an honest upload in seconds, how many were not answered, how many bytes
    of those that drip the proxy had not read when each wave began (the least), and how many of
    those that drip it has closed."""

    longest: float
    unanswered: int
    unread: int
    closed: int

    def __str__(self) -> str:
        return (
            f"the longest wait of an honest upload {self.longest:.2f} s, {self.unanswered} without "
            f"an answer; {self.unread >> 10:,} KiB unread before, {self.closed} that drip closed"
        )


async def honest(port: int) -> tuple[str, float]:
    """What an honest upload is answered, and after how many seconds."""
    begun = time.monotonic()
    client = await connected(port)
    await send_all(client, UPLOAD)
    return status_of(await received(client)), time.monotonic() - begun


async def drip_on(clients: Sequence[socket.socket]) -> None:
    """Each sends a little every second; one whose socket takes nothing sends nothing."""
    while True:
        await asyncio.sleep(1)
        for client in clients:
            send(client, bytes(DRIP))


async def fill(port: int, clients: list[socket.socket]) -> int:
    """Further clients that drip come, until there are `CLIENTS` of them again; they send so much
    that the port of the switch pauses. Gives how many bytes are unread once many are, or after a
    while."""
    oldest = 0 if clients else OLDEST
    further = await all_connected(port, CLIENTS - connections_at(port))
    clients += further
    for number, client in enumerate(further):
        size = FIRST_OF_OLDEST if number < oldest else FIRST
        await send_all(client, memoryview(head_of(LENGTH) + bytes(size)))
    for client in further[oldest:]:
        send(client, bytes(SECOND))
    end = time.monotonic() + LONGEST_FILL
    while unread_at(port) < PAUSED and time.monotonic() < end:
        await asyncio.sleep(0.02)
    return unread_at(port)


async def measured(proxy: Proxy) -> Waits:
    """Honest uploads at a proxy beside those that drip. `MeasurementError` if the switch reads all
    that these send, since it does not pause then."""
    clients, unread = list[socket.socket](), list[int]()
    dripping = asyncio.create_task(drip_on(clients))
    found = list[tuple[str, float]]()
    for wave in range(WAVES):
        await asyncio.sleep(PAUSE if wave else 0)
        unread.append(await fill(proxy.port, clients))
        found += await asyncio.gather(*(honest(proxy.port) for _ in range(HONEST)))
    # a proxy may still have a connection of an honest one
    closed = max(0, len(clients) - connections_at(proxy.port))
    dripping.cancel()
    for client in clients:
        client.close()
    lost = sum(status != ANSWERED for status, _ in found)
    waits = Waits(max(seconds for _, seconds in found), lost, min(unread), closed)
    if waits.unread < PAUSED and proxy.name.startswith(SWITCH):
        raise MeasurementError(f"{proxy.name} has not paused uploads: {waits}")
    return waits
