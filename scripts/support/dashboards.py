"""A running bin/dashboard, and endpoints of a revision that answers some requests with 500."""
import contextlib
import itertools
import socket
import subprocess
import time
from collections.abc import Iterator

from support import TOP, processes
from support.checks import comes
from support.endpoints import Answer, Request
from support.ports import HOST, is_open

DASHBOARD = str(TOP / "bin" / "dashboard")
PYTHON = "/usr/bin/python3"
WAIT = 10  # seconds for its end


def missing() -> str:
    """Why no dashboard can be had here; empty if one can."""
    with contextlib.suppress(OSError):
        if (
            subprocess.run(
                [PYTHON, "-c", "import aiohttp, prometheus_client"],
                capture_output=True,
                check=False,
            ).returncode
            == 0
        ):
            return ""
    return f"{PYTHON} has not python3-aiohttp and python3-prometheus-client"


@contextlib.contextmanager
def running(listen: int, *words: str) -> Iterator[str]:
    """A dashboard of what these words name, which is ended whatever happens. Gives the address of
    its page."""
    process = subprocess.Popen(
        [DASHBOARD, *words, "--listen", str(listen)], stdout=subprocess.DEVNULL
    )
    try:
        if not comes(lambda: is_open(listen)):
            raise TimeoutError("the dashboard does not listen")
        yield f"http://{HOST}:{listen}/"
    finally:
        processes.end(process, WAIT)


def showing(control: int, listen: int, *words: str) -> contextlib.AbstractContextManager[str]:
    """A dashboard of a switch."""
    return running(listen, str(control), *words)


def failing(name: bytes, each: int, pause: float = 0.0) -> Answer:
    """Answers with the name of the revision, every `each`-th request with 500; with 0 none but
    those whose target says so."""
    numbers = itertools.count(1)

    def answer(request: Request, connection: socket.socket) -> None:
        time.sleep(pause)
        is_bad = b"fail" in request.target or (each > 0 and next(numbers) % each == 0)
        status = b"500 Internal Server Error" if is_bad else b"200 OK"
        connection.sendall(
            b"HTTP/1.1 %s\r\nContent-Length: %d\r\n\r\n%s" % (status, len(name), name)
        )

    return answer
