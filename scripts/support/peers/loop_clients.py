"""Clients that one event loop serves: thousands of connections at a time, in one thread."""
import asyncio
import contextlib
import socket
from collections.abc import Sequence

from support.ports import HOST

# How many seconds a client waits for anything, until it counts as not answered.
LONGEST = 60.0
NOTHING = "nothing"
ANSWERED = "200"
STATUS = slice(9, 12)
BODY = b"\r\n\r\nok"


async def connected(port: int) -> socket.socket:
    """A connection to a port. `OSError` if none comes."""
    client = socket.socket()
    client.setblocking(False)
    try:
        await asyncio.get_running_loop().sock_connect(client, (HOST, port))
    except BaseException:
        client.close()
        raise
    return client


async def all_connected(port: int, count: int) -> list[socket.socket]:
    """So many connections, one after the other."""
    return [await connected(port) for _ in range(count)]


def send(client: socket.socket, data: bytes) -> int:
    """Sends what the socket takes now. Gives how many bytes it took; none if the connection has
    ended."""
    with contextlib.suppress(OSError):
        return client.send(data)
    return 0


async def send_all(client: socket.socket, data: memoryview) -> bool:
    """Sends all of it; whether the peer has taken it."""
    with contextlib.suppress(OSError, TimeoutError):
        async with asyncio.timeout(LONGEST):
            await asyncio.get_running_loop().sock_sendall(client, data)
        return True
    return False


async def received(client: socket.socket) -> bytes:
    """What comes until the connection ends, and closes it. A reset is an end, and so is a wait that
    takes too long."""
    got = bytearray()
    with contextlib.suppress(OSError, TimeoutError):
        async with asyncio.timeout(LONGEST):
            while piece := await asyncio.get_running_loop().sock_recv(client, 65536):
                got += piece
    client.close()
    return bytes(got)


async def all_received(clients: Sequence[socket.socket]) -> list[str]:
    """What each of these was answered: see `status_of`."""
    return [status_of(one) for one in await asyncio.gather(*map(received, clients))]


def status_of(answer: bytes) -> str:
    """The status of an answer; `NOTHING` if it is not whole."""
    status = answer[STATUS].decode("ascii", "replace")
    is_whole = answer.endswith(BODY) if status == ANSWERED else b"\r\n\r\n" in answer
    return status if is_whole else NOTHING


def unanswered(statuses: Sequence[str]) -> int:
    """How many clients were not answered well."""
    return sum(status != ANSWERED for status in statuses)
