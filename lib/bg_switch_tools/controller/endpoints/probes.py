"""Which endpoints are up. An event loop begins and ends the probes, so that no endpoint delays
another's."""
import asyncio
import contextlib
import errno
import http.client
import threading
import time
from collections.abc import Collection, Iterable, Sequence

from bg_switch_tools.controller.endpoints.probe_request import status_of
from bg_switch_tools.controller.plan.plan import Health
from bg_switch_tools.switch.control import HOST

# If the system refuses the controller itself a descriptor or memory, a probe says nothing of its
# endpoint.
OWN_FAULTS = (errno.EMFILE, errno.ENFILE, errno.ENOBUFS, errno.ENOMEM)
END = 1.0  # seconds within which the probes that run are cut


async def is_up(port: int, health: Health, address: str = HOST) -> bool | None:
    """Whether an endpoint answers whole, with a status from 200 to 399, within the limit; None if
    no probe could be made."""
    try:
        return 200 <= await status_of(port, health, address) < 400
    except OSError as error:
        return None if error.errno in OWN_FAULTS else False
    except (http.client.HTTPException, ValueError):
        return False
    except RuntimeError:
        return None  # the system has no thread left, or the controller ends


class Probes:
    """Probes the endpoints that `watch` names, each every `interval` seconds, up to `stop`."""

    def __init__(self) -> None:
        self.health, self.address = Health(), HOST
        self.failed: dict[int, int] = {}  # by port: failures in a row, once a probe has ended
        # by port: when the first of the failures in a row was seen
        self.failing_since: dict[int, float] = {}
        # by port: how often what was known of it was forgotten
        self.generation: dict[int, int] = {}
        self.tasks: dict[int, asyncio.Task[None]] = {}
        self.watched: frozenset[int] = frozenset()
        self.loop = asyncio.new_event_loop()
        self.thread = threading.Thread(target=self._run, daemon=True)
        self.thread.start()

    def _run(self) -> None:
        self.loop.run_forever()
        self.loop.close()

    def stop(self) -> None:
        """Ends the probes, and cuts those that run. Any thread may call this."""
        with contextlib.suppress(RuntimeError):  # they have ended before
            self.loop.call_soon_threadsafe(self._end)
        self.thread.join(END)

    def _end(self) -> None:
        self._set(frozenset())
        self.loop.call_soon(self.loop.stop)  # after the tasks, which are cancelled by then

    def watch(self, ports: Collection[int], health: Health, address: str = HOST) -> None:
        """Probes the endpoints at these ports of an address from now on, and no others. Any thread
        may call this."""
        self.health, self.address = health, address
        if frozenset(ports) != self.watched:
            self.watched = frozenset(ports)
            with contextlib.suppress(RuntimeError):  # the probes have ended
                self.loop.call_soon_threadsafe(self._set, self.watched)

    def _set(self, ports: frozenset[int]) -> None:
        for port in set(self.tasks) - ports:
            self.tasks.pop(port).cancel()
            self.failed.pop(port, None)
            self.failing_since.pop(port, None)
        for port in ports - set(self.tasks):
            self.tasks[port] = self.loop.create_task(self._probe(port))

    async def _probe(self, port: int) -> None:
        while True:
            begun, generation = self.loop.time(), self.generation.get(port)
            up = await is_up(port, self.health, self.address)
            if generation == self.generation.get(port):
                self._take_in(port, up)
            await asyncio.sleep(begun + self.health.interval - self.loop.time())

    def _take_in(self, port: int, up: bool | None) -> None:
        """The first probe alone decides; later on an endpoint is down after `health.failures`
        failures in a row."""
        if up is True:
            self.failed[port] = 0
            self.failing_since.pop(port, None)
        elif up is False:
            self.failing_since.setdefault(port, time.monotonic())
            self.failed[port] = self.failed.get(port, self.health.failures) + 1

    def forget(self, port: int) -> None:
        """What is known of an endpoint holds no longer, since a command starts or stops it: its
        next probe decides alone."""
        self.generation[port] = self.generation.get(port, 0) + 1
        self.failed.pop(port, None)

    def is_down(self, port: int) -> bool | None:
        """Whether an endpoint is down; None if it was not probed yet."""
        failed = self.failed.get(port)
        return None if failed is None else failed >= self.health.failures

    def _downs(self, ports: Iterable[int]) -> list[bool] | None:
        """Whether each of these endpoints is down, or None if one was not probed yet."""
        downs = [self.is_down(port) for port in ports]
        return None if None in downs else [down is True for down in downs]

    def first_up(self, ports: Iterable[int]) -> int | None:
        """How many of the first of these endpoints are up, or None if one was not probed yet."""
        downs = self._downs(ports)
        return None if downs is None else [*downs, True].index(True)

    def count_up(self, ports: Iterable[int]) -> int | None:
        """How many of these endpoints are up, or None if one was not probed yet."""
        downs = self._downs(ports)
        return None if downs is None else downs.count(False)

    def outage(self, ports: Sequence[int]) -> float:
        """For how many seconds no probe of these endpoints has succeeded, if all of them are down;
        else 0. The seconds count from the first failed probe of the endpoint that failed last."""
        since = [self.failing_since.get(port) for port in ports]
        if not ports or None in since or not all(self.is_down(port) for port in ports):
            return 0.0
        return time.monotonic() - max(moment for moment in since if moment is not None)
