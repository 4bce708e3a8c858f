"""Clients that send large bodies as fast as a peer takes them. The bodies are pages of a file in
memory, so they cost a client no copy."""
import concurrent.futures
import os
import socket
import time

from support.peers import MeasurementError
from support.ports import HOST

LONGEST = 120.0  # seconds for which a client waits
PIECE = 16 << 20  # bytes that a client hands to the system at once
MEBIBYTE = 1 << 20
ANSWERED, END = b"HTTP/1.1 200 ", b"\r\n\r\nok"


def answer_of(client: socket.socket) -> bytes:
    """What a client is answered, up to the end of an answer of the sink, or of the connection."""
    answer = bytearray()
    while not answer.endswith(END) and (piece := client.recv(65536)):
        answer += piece
    return bytes(answer)


def send_body(port: int, size: int) -> None:
    """A client that sends a request with a body of so many bytes. `MeasurementError` if its answer
    is not that of the sink, `OSError` if its connection fails."""
    with socket.create_connection((HOST, port), timeout=LONGEST) as client, open(
        os.memfd_create("body"), "rb"
    ) as body:
        os.truncate(body.fileno(), PIECE)
        client.sendall(b"POST / HTTP/1.1\r\nHost: x\r\nContent-Length: %d\r\n\r\n" % size)
        left = size
        while left:
            left -= client.sendfile(body, 0, min(left, PIECE))
        answer = answer_of(client)
    if not answer.startswith(ANSWERED) or not answer.endswith(END):
        raise MeasurementError(f"an upload is answered {answer!r}")


def rate(port: int, uploads: int, mebibytes: int) -> float:
    """How many MiB a second are taken of so many uploads at a time, of so many MiB each."""
    begun = time.monotonic()
    with concurrent.futures.ThreadPoolExecutor(uploads) as pool:
        list(pool.map(send_body, [port] * uploads, [mebibytes * MEBIBYTE] * uploads))
    return uploads * mebibytes / (time.monotonic() - begun)
