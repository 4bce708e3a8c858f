"""An endpoint that drops the bodies of requests as they come, and answers each once it was whole. The
system drops the bytes (MSG_TRUNC, tcp(7)), so a body costs the endpoint no copy.

As a program: `python3 -m support.peers.upload_sink PORT` listens at the port.
"""
import contextlib
import socket
import sys
import threading

from support.endpoints import read_head
from support.ports import HOST

BACKLOG = 4096
LENGTH = b"content-length"
ANSWER = b"HTTP/1.1 200 OK\r\nContent-Length: 2\r\nConnection: close\r\n\r\nok"
# As many bytes are dropped at once at most. Nothing is written there.
NOWHERE = bytearray(1 << 22)


def length_of(head: bytes) -> int:
    """How many bytes follow a head, by its field."""
    fields = (line.partition(b":") for line in head.split(b"\r\n")[1:])
    return next((int(value) for name, _, value in fields if name.lower() == LENGTH), 0)


def drop(connection: socket.socket, count: int) -> None:
    """Drops so many bytes. `EOFError` if the connection ends before."""
    while count > 0:
        dropped = connection.recv_into(NOWHERE, min(count, len(NOWHERE)), socket.MSG_TRUNC)
        if not dropped:
            raise EOFError
        count -= dropped


def drop_request(connection: socket.socket) -> None:
    """Drops a request. `EOFError` if the connection ends before it is whole."""
    read = read_head(connection)
    if read is None:
        raise EOFError
    head, behind = read
    drop(connection, length_of(head) - len(behind))


def serve(connection: socket.socket) -> None:
    """Answers one request, if it comes whole."""
    with connection, contextlib.suppress(EOFError, OSError):
        drop_request(connection)
        connection.sendall(ANSWER)


def serve_all(listener: socket.socket) -> None:
    """Serves each connection in a thread of its own, until the listener is closed."""
    with contextlib.suppress(OSError):
        while True:
            threading.Thread(target=serve, args=(listener.accept()[0],), daemon=True).start()


if __name__ == "__main__":
    serve_all(socket.create_server((HOST, int(sys.argv[1])), backlog=BACKLOG))
