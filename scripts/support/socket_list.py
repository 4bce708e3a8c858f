"""A list of sockets that a switch reads in the place of the system's, so that its rows can say what
no kernel here writes."""
import contextlib
import ctypes
import os
import pathlib
import subprocess
import tempfile
import threading
from collections.abc import Callable, Iterator

from support.ports import LOCAL, TABLE
from support.users import SYSTEM

# The flags of unshare(2) and mount(2).
OWN_MOUNTS, BIND, ALL_BELOW, PRIVATE = 0x20000, 0x1000, 0x4000, 0x40000
Change = Callable[[str], str]


class SocketList:
    """Gives each read of /proc/net/tcp what the system's list has, and the next reads what these
    changes make of it."""

    def __init__(self, folder: pathlib.Path) -> None:
        self.folder, self.pipe = folder, folder / "tcp"
        self.changes: list[Change] = []
        self.has_ended = False
        (folder / "tcp6").touch()
        os.mkfifo(self.pipe)
        self.thread = threading.Thread(target=self.serve, daemon=True)
        self.thread.start()

    def serve(self) -> None:
        while True:
            # this waits for a reader, and the next one gets a pipe of its own
            with open(self.pipe, "w", encoding="ascii") as reader, contextlib.suppress(
                BrokenPipeError
            ):
                if self.has_ended:
                    return
                os.mkfifo(self.folder / "next")
                (self.folder / "next").replace(self.pipe)
                change = self.changes.pop(0) if self.changes else unchanged
                reader.write(change(TABLE.read_text(encoding="ascii")))

    def put_in_place(self) -> None:
        """Lets this process alone read this list. It has to have the right to mount."""
        for status in (
            SYSTEM.unshare(OWN_MOUNTS),
            mounted(b"none", b"/", ALL_BELOW | PRIVATE),
            mounted(os.fsencode(self.folder), b"/proc/self/net", BIND),
        ):
            if status != 0:
                raise OSError(ctypes.get_errno(), "a list of sockets can't be put in place")

    def is_allowed(self) -> bool:
        """Whether this process may put it in place."""
        try:
            return (
                subprocess.run(["true"], preexec_fn=self.put_in_place, check=False).returncode == 0
            )
        except subprocess.SubprocessError:
            return False

    def end(self) -> None:
        self.has_ended = True
        last = os.open(self.pipe, os.O_RDONLY | os.O_NONBLOCK)
        self.thread.join()
        os.close(last)


def unchanged(text: str) -> str:
    return text


def mounted(source: bytes, target: bytes, flags: int) -> int:
    return int(SYSTEM.mount(source, target, None, flags, None))


@contextlib.contextmanager
def socket_list() -> Iterator[SocketList]:
    with tempfile.TemporaryDirectory() as folder:
        sockets = SocketList(pathlib.Path(folder))
        try:
            yield sockets
        finally:
            sockets.end()


def with_fields(port: int, fields: dict[int, str]) -> Change:
    """Has these columns of the row of a socket at this port say this."""

    def changed(row: str) -> str:
        words = row.split()
        if not words[LOCAL].endswith(f":{port:04X}"):
            return row
        return " ".join(fields.get(place, word) for place, word in enumerate(words))

    return lambda text: "".join(f"{changed(row)}\n" for row in text.splitlines())
