"""An endpoint that reads each request whole, with its body, and answers it at once, or after a while
if its target says so. It serves thousands of connections at a time.

As a program: `reading_endpoint.py PORT SECONDS` listens at the port, and answers the target `/later`
after so many seconds.
"""
import asyncio
import sys

HOST = "127.0.0.1"
LATER = b"/later"
BACKLOG = 4096
END_OF_HEAD = b"\r\n\r\n"
LENGTH = b"content-length"
ANSWER = b"HTTP/1.1 200 OK\r\nContent-Length: 2\r\nConnection: close\r\n\r\nok"


def length_of_body(head: bytes) -> int:
    """How many bytes follow a head, by its field."""
    fields = (line.partition(b":") for line in head.split(b"\r\n")[1:])
    return next((int(value) for name, _, value in fields if name.lower() == LENGTH), 0)


def is_later(head: bytes) -> bool:
    """Whether the request of this head is answered after a while."""
    return head.split(b" ", 2)[1] == LATER


class Served(asyncio.Protocol):
    """A connection: its head as far as it has come, and how many bytes of its body are to come."""

    def __init__(self, seconds: float) -> None:
        self.seconds = seconds
        self.head = b""
        self.left: int | None = None
        self.transport: asyncio.WriteTransport | None = None

    def connection_made(self, transport: asyncio.BaseTransport) -> None:
        assert isinstance(transport, asyncio.WriteTransport)
        self.transport = transport

    def data_received(self, data: bytes) -> None:
        if self.left is None:
            self.head += data
            head, end, behind = self.head.partition(END_OF_HEAD)
            if not end:
                return
            self.head, self.left, data = head, length_of_body(head), behind
        self.left -= len(data)
        if self.left == 0:
            wait = self.seconds if is_later(self.head) else 0
            asyncio.get_running_loop().call_later(wait, self.answer)

    def eof_received(self) -> bool:
        """The end of what the peer sends ends a connection whose request is not whole."""
        return self.left == 0

    def answer(self) -> None:
        if self.transport and not self.transport.is_closing():
            self.transport.write(ANSWER)
            self.transport.close()


async def serve(port: int, seconds: float) -> None:
    loop = asyncio.get_running_loop()
    server = await loop.create_server(lambda: Served(seconds), HOST, port, backlog=BACKLOG)
    await server.serve_forever()


if __name__ == "__main__":
    asyncio.run(serve(int(sys.argv[1]), float(sys.argv[2])))
