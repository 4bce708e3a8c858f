"""Clients that ask a service without pause, and count which revision answered."""
import collections
import pathlib
import threading
import time
from typing import NamedTuple

from support.clients import get

OWN_ANSWERS = (502, 503)  # statuses that no revision here answers: they come from the switch
ACCESS_LOG = "BG_SWITCH_ACCESS_LOG"


class AnsweredRequest(NamedTuple):
    """A request, and what it was answered: the revision names itself first in each body."""

    target: str
    status: int | None
    revision: str
    begun: float
    seconds: float


def ask(port: int, target: str = "/") -> AnsweredRequest:
    """Asks once."""
    begun, start = time.time(), time.monotonic()
    answer = get(port, target)
    seconds = time.monotonic() - start
    if answer is None:
        return AnsweredRequest(target, None, "", begun, seconds)
    revision = answer[1].decode() if answer[0] not in OWN_ANSWERS else ""
    return AnsweredRequest(target, answer[0], revision, begun, seconds)


class Traffic:
    """Clients that ask without pause. `failed` counts requests that failed by the switch itself.
    Answers are counted in parts, by when the request began: one that is open as a part ends may be
    answered late."""

    def __init__(self, port: int, clients: int, pause: float) -> None:
        self.port = port
        self.pause = pause
        self.answered: collections.Counter[str] = collections.Counter()
        # statuses from 500 on that a revision answered
        self.errors: collections.Counter[str] = collections.Counter()
        self.failed = 0
        self.parts = 0
        self.lock = threading.Lock()
        self.ended = threading.Event()
        self.clients = [threading.Thread(target=self.ask, daemon=True) for _ in range(clients)]

    def start(self) -> None:
        """Starts the clients, if they haven't started yet."""
        for client in self.clients:
            if client.ident is None:
                client.start()

    def ask(self) -> None:
        while not self.ended.wait(self.pause):
            part = self.parts
            asked = ask(self.port)
            with self.lock:
                self.failed += not asked.revision
                if part == self.parts:
                    self.answered[asked.revision] += bool(asked.revision)
                self.errors[asked.revision] += asked.status is not None and asked.status >= 500

    def part(self) -> collections.Counter[str]:
        """What was answered of the requests that began since the last part."""
        with self.lock:
            self.parts += 1
            answered, self.answered = self.answered, collections.Counter()
        return answered

    def end(self) -> None:
        self.ended.set()
        for client in self.clients:
            client.join()


def prepared_log(path: pathlib.Path) -> dict[str, str]:
    """The variables by which a switch that is then started has its log in this file, which is there
    at once."""
    path.touch()
    return {ACCESS_LOG: str(path)}
