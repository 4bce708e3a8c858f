"""Servers for analyses by Prometheus: one that answers queries as a test wants, a page of metrics,
and a real Prometheus."""
import contextlib
import http.client
import http.server
import json
import pathlib
import subprocess
import threading
import time
import urllib.parse
from collections.abc import Callable, Iterator, Sequence
from types import TracebackType

from support import processes
from tests.fake_port import free_port
from tests.tool_runs import WAIT, comes

HOST = "127.0.0.1"
# the status and the body for a query, or for a path that is read
Answer = Callable[[str], tuple[int, bytes]]


def vector(*values: str) -> bytes:
    """The answer to a query whose result is a vector of these values."""
    result = [
        {"metric": {"place": str(place)}, "value": [1795629792.042, value]}
        for place, value in enumerate(values)
    ]
    return json.dumps(
        {"status": "success", "data": {"resultType": "vector", "result": result}}
    ).encode()


def refused(reason: str) -> bytes:
    return json.dumps({"status": "error", "errorType": "bad_data", "error": reason}).encode()


class FakePrometheus:
    """Answers each POST by what a function gives for its query, and each GET by what it gives for
    its path. `asked` are the paths and queries, in turn."""

    def __init__(self, answer: Answer, pause: float = 0.0) -> None:
        """With a pause it sends one byte of a body after the other, and pauses between them."""
        fake, self.asked = self, list[tuple[str, str]]()

        class Handler(http.server.BaseHTTPRequestHandler):
            """Answers a request."""

            def do_POST(self) -> None:
                fields = urllib.parse.parse_qs(
                    self.rfile.read(int(self.headers["Content-Length"])).decode()
                )
                fake.asked.append((self.path, fields["query"][0]))
                self.give(*answer(fields["query"][0]))

            def do_GET(self) -> None:
                self.give(*answer(self.path))

            def give(self, status: int, body: bytes) -> None:
                self.send_response(status)
                self.send_header("Content-Type", "text/plain; version=0.0.4")
                self.send_header("Content-Length", str(len(body)))
                self.end_headers()
                with contextlib.suppress(OSError):
                    for piece in (
                        [body]
                        if not pause
                        else [body[place : place + 1] for place in range(len(body))]
                    ):
                        self.wfile.write(piece)
                        time.sleep(pause)

            def log_message(self, format: str, *args: object) -> None:
                """Tells nothing."""

        self.server = http.server.ThreadingHTTPServer((HOST, free_port()), Handler)
        self.server.daemon_threads = True
        self.port: int = self.server.server_port
        self.url = f"http://{HOST}:{self.port}"
        self.thread = threading.Thread(target=self.server.serve_forever, daemon=True)
        self.thread.start()

    def __enter__(self) -> "FakePrometheus":
        return self

    def __exit__(
        self,
        kind: type[BaseException] | None,
        error: BaseException | None,
        trace: TracebackType | None,
    ) -> None:
        self.server.shutdown()
        self.server.server_close()


def _is_ready(port: int) -> bool:
    connection = http.client.HTTPConnection(HOST, port, timeout=2)
    try:
        connection.request("GET", "/-/ready")
        return connection.getresponse().status == 200
    except OSError:
        return False
    finally:
        connection.close()


@contextlib.contextmanager
def real_prometheus(program: str, folder: pathlib.Path, targets: Sequence[int]) -> Iterator[str]:
    """A real Prometheus that scrapes these ports each second. Gives its URL."""
    port, config = free_port(), folder / "prometheus.yml"
    jobs = [
        {
            "job_name": "bg_switch",
            "scrape_interval": "1s",
            "static_configs": [{"targets": [f"{HOST}:{each}" for each in targets]}],
        }
    ]
    config.write_text(json.dumps({"scrape_configs": jobs}), encoding="ascii")  # JSON is YAML
    words = [
        program,
        f"--config.file={config}",
        f"--storage.tsdb.path={folder / 'data'}",
        f"--web.listen-address={HOST}:{port}",
        "--log.level=error",
    ]
    process = subprocess.Popen(
        words, stdout=subprocess.DEVNULL, stderr=subprocess.DEVNULL, cwd=folder
    )
    try:
        if not comes(lambda: _is_ready(port)):
            raise TimeoutError("prometheus is not ready")
        yield f"http://{HOST}:{port}"
    finally:
        processes.end(process, WAIT)
