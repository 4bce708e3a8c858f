"""Clients that ask a service at a fixed rate, while its switch may be killed and started again."""
import threading
import time
from collections.abc import Sequence
from typing import NamedTuple

from support import clients


class Outage(NamedTuple):
    """When a switch was killed, and when the next one listened, by the monotonic clock."""

    begun: float
    ended: float


class FailedRequest(NamedTuple):
    """When a request was begun and given up, and what it was answered, if anything."""

    begun: float
    ended: float
    answer: tuple[int, bytes] | None

    def is_explained_by(self, outage: Outage) -> bool:
        """Whether it was open when the switch was killed, or refused while there was none."""
        return self.begun <= outage.ended and self.ended >= outage.begun


class SteadyClients:
    """Clients that send `rate` requests a second together, as far as their answers come in time.
    What is not answered 200 is kept."""

    def __init__(self, port: int, rate: float, count: int) -> None:
        self.port = port
        self.pause = count / rate  # seconds from one request of a client to its next one
        self.lock = threading.Lock()
        self.answered = 0
        self.failed: list[FailedRequest] = []
        self.is_over = threading.Event()
        self.threads = [
            threading.Thread(target=self._ask, args=(number / rate,), daemon=True)
            for number in range(count)
        ]
        for thread in self.threads:
            thread.start()

    def _ask(self, first: float) -> None:
        due = time.monotonic() + first
        while not self.is_over.wait(max(due - time.monotonic(), 0)):
            begun = time.monotonic()
            answer = clients.get(self.port)
            due = max(due + self.pause, begun)
            self._note(FailedRequest(begun, time.monotonic(), answer))

    def _note(self, ended: FailedRequest) -> None:
        with self.lock:
            if ended.answer is not None and ended.answer[0] == 200:
                self.answered += 1
            else:
                self.failed.append(ended)

    def end(self) -> None:
        self.is_over.set()
        for thread in self.threads:
            thread.join()

    def unexplained(self, outages: Sequence[Outage]) -> list[FailedRequest]:
        """The requests that failed, and were neither open at a kill nor refused after it."""
        return [each for each in self.failed if not any(map(each.is_explained_by, outages))]
