"""Runs of bin/dashboard, and requests to it over HTTP."""
import contextlib
import http.client
import json
import pathlib
import shutil
import signal
import subprocess
import tempfile
import unittest
from collections.abc import Iterator, Sequence
from typing import NamedTuple

from tests.fake_port import free_port
from tests.tool_runs import WAIT, comes

PYTHON = "/usr/bin/python3"
LIBRARIES = "import aiohttp, prometheus_client"
MISSING = "python3-aiohttp and python3-prometheus-client are not installed: apt-get install them to run this test"
HAS_LIBRARIES = (
    shutil.which(PYTHON) is not None
    and subprocess.run([PYTHON, "-c", LIBRARIES], capture_output=True, check=False).returncode == 0
)


class Answer(NamedTuple):
    """What a request was answered."""

    status: int
    headers: dict[str, str]
    body: str

    def told(self) -> dict[str, object]:
        value = json.loads(self.body)
        assert isinstance(value, dict)
        return value


class WithDashboard(unittest.TestCase):
    """A folder, and a dashboard that a test starts."""

    def setUp(self) -> None:
        if not HAS_LIBRARIES:
            self.skipTest(MISSING)
        folder = tempfile.TemporaryDirectory()
        self.addCleanup(folder.cleanup)
        self.folder = pathlib.Path(folder.name)
        self.port = free_port()

    def begin(self, words: Sequence[str], path: str, text: str) -> None:
        """Starts a program with these words, and waits until this path has this text."""
        self.process = subprocess.Popen(
            words, stdout=subprocess.PIPE, stderr=subprocess.PIPE, text=True
        )
        self.addCleanup(self.end)
        self.assertTrue(comes(lambda: self.has(path, text)))

    def end(self) -> tuple[int, str]:
        """Ends the dashboard. Gives its status and what it told on standard error."""
        self.process.send_signal(signal.SIGTERM)
        told = ""
        with contextlib.suppress(ValueError):  # it was ended before
            told = self.process.communicate(timeout=WAIT)[1]
        return self.process.returncode, told

    def has(self, path: str, text: str) -> bool:
        try:
            return text in self.get(path).body
        except OSError:
            return False

    def get(
        self, path: str, method: str = "GET", body: str | None = None, **headers: str
    ) -> Answer:
        connection = http.client.HTTPConnection("127.0.0.1", self.port, timeout=WAIT)
        try:
            connection.request(
                method,
                path,
                body,
                {name.replace("_", "-"): value for name, value in headers.items()},
            )
            answer = connection.getresponse()
            return Answer(answer.status, dict(answer.getheaders()), answer.read().decode())
        finally:
            connection.close()

    @contextlib.contextmanager
    def events(
        self, path: str = "/api/events"
    ) -> Iterator[Iterator[tuple[str, dict[str, object]]]]:
        """The events of a stream, as they come."""
        connection = http.client.HTTPConnection("127.0.0.1", self.port, timeout=WAIT)
        try:
            connection.request("GET", path)
            answer = connection.getresponse()
            self.assertEqual(
                (answer.status, answer.getheader("Content-Type")),
                (200, "text/event-stream; charset=utf-8"),
            )

            def each() -> Iterator[tuple[str, dict[str, object]]]:
                while line := answer.readline().decode():
                    data = answer.readline().decode()
                    self.assertEqual(answer.readline(), b"\n")
                    yield line.removeprefix("event: ").strip(), json.loads(
                        data.removeprefix("data: ")
                    )

            yield each()
        finally:
            connection.close()
