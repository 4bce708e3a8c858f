"""The endpoints of a machine: python3 -m support.fleet.endpoints NAME=PORT.. Each answers with its
revision's name."""
import asyncio
import contextlib
import sys
from collections.abc import Awaitable, Callable

HOST, LONGEST = "127.0.0.1", 10.0  # seconds
Serve = Callable[[asyncio.StreamReader, asyncio.StreamWriter], Awaitable[None]]


def served(name: str) -> Serve:
    async def serve(reader: asyncio.StreamReader, writer: asyncio.StreamWriter) -> None:
        body = f"{name}\n".encode()
        with contextlib.suppress(OSError, asyncio.IncompleteReadError, asyncio.TimeoutError):
            await asyncio.wait_for(reader.readuntil(b"\r\n\r\n"), LONGEST)
            writer.write(
                f"HTTP/1.1 200 OK\r\nContent-Length: {len(body)}\r\nConnection: close\r\n\r\n".encode()
                + body
            )
            await writer.drain()
        writer.close()

    return serve


async def main(words: list[str]) -> None:
    for word in words:
        name, _, port = word.partition("=")
        await asyncio.start_server(served(name), HOST, int(port), backlog=200)
    await asyncio.Event().wait()


if __name__ == "__main__":
    asyncio.run(main(sys.argv[1:]))
