"""A stand-in for the switch, with the words of `bg_switch serve`: the book of `FakeBook`, and
requests that are passed on one by one.

python3 -m tests.stand_in_switch serve --active PORT --control PORT --preview PORT .."""
import contextlib
import socket
import sys
import threading

from tests.fake_port import SharedPort
from tests.fake_switch import FakeBook

HOST, LONGEST = "127.0.0.1", 10.0  # seconds
NOBODY = b"HTTP/1.1 503 Nobody\r\nContent-Length: 0\r\nConnection: close\r\n\r\n"


class Service:
    """A port whose requests go to the first endpoint of the revision that a service selects."""

    def __init__(self, book: FakeBook, port: int, is_preview: bool) -> None:
        self.book = book
        self.is_preview = is_preview
        self.listener = socket.create_server((HOST, port), backlog=100)
        threading.Thread(target=self.accept, daemon=True).start()

    def accept(self) -> None:
        while True:
            threading.Thread(
                target=self.serve, args=(self.listener.accept()[0],), daemon=True
            ).start()

    def selected(self) -> int | None:
        """The port of an endpoint."""
        number = self.book.newest if self.is_preview else self.book.active
        revision = self.book.revisions.get(number)
        return int(revision.ports[0]) if revision and revision.available else None

    def serve(self, client: socket.socket) -> None:
        with client, contextlib.suppress(OSError):
            client.settimeout(LONGEST)
            head = b""
            while b"\r\n\r\n" not in head:
                piece = client.recv(65536)
                if not piece:
                    return
                head += piece
            port = self.selected()
            if port is None:
                client.sendall(NOBODY)
                return
            with socket.create_connection((HOST, port), timeout=LONGEST) as endpoint:
                endpoint.sendall(head)
                while answer := endpoint.recv(65536):
                    client.sendall(answer)


def port_of(words: list[str], name: str) -> int:
    return int(words[words.index(name) + 1])


def main(words: list[str]) -> None:
    sys.stdin.read()
    book = FakeBook("pre", "pause", "post")
    SharedPort(book.answer, port_of(words, "--control"))
    services = [
        Service(book, port_of(words, name), name == "--preview")
        for name in ("--active", "--preview")
    ]
    print("listening", flush=True)
    threading.Event().wait()
    del services


if __name__ == "__main__":
    main(sys.argv[1:])
