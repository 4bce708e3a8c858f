"""Uploads that come at once: the greatest resident memory of a proxy, and what it keeps a while
after them."""
import asyncio
import pathlib
import re
import time
from collections.abc import Mapping
from typing import NamedTuple

from support import TOP, processes
from support.messages import LARGEST_BODY, request
from support.peers import MeasurementError
from support.peers.loop_clients import ANSWERED, all_connected, received, send_all, status_of
from support.peers.processor_time import family
from support.peers.proxies import Proxy

UPLOADS = 1000
# A proxy may drop a few clients that a busy machine does not run. With fewer answers than these the
# memory says nothing.
LEAST_ANSWERED = 900
AFTER = 10.0  # seconds after the last answer
UNIT = TOP / "examples" / "production" / "bg-switch.service"
VARIABLE = re.compile(r"^Environment=(MALLOC_\w+)=(.*)$", re.M)
WHOLE = memoryview(request(method=b"POST", body=bytes(LARGEST_BODY)))


class Memory(NamedTuple):
    """How many uploads were answered, and in how many seconds; the greatest resident memory, and
    that of `AFTER` seconds later, in MiB."""

    answered: int
    seconds: float
    peak: float
    kept: float

    def __str__(self) -> str:
        return (
            f"at most {self.peak:.1f} MiB, {self.kept:.1f} MiB {AFTER:g} s after, "
            f"{self.answered} of {UPLOADS} answered in {self.seconds:.1f} s"
        )


def variables_of_unit(unit: pathlib.Path = UNIT) -> Mapping[str, str]:
    """The variables of the C library that the unit of the switch sets."""
    return dict(VARIABLE.findall(unit.read_text(encoding="ascii")))


def memory(process: int, kind: str) -> float:
    """A kind of memory of a process and those that it has started, in MiB, by the system's name of
    it. What they share counts for each."""
    return sum(processes.memory_of(member, kind) for member in family(process)) / 1024


async def uploaded(port: int, count: int) -> int:
    """How many of so many uploads are answered that are sent side by side, once all are
    connected."""
    clients = await all_connected(port, count)
    await asyncio.gather(*(send_all(client, WHOLE) for client in clients))
    answers = await asyncio.gather(*map(received, clients))
    return sum(status_of(answer) == ANSWERED for answer in answers)


async def measured(proxy: Proxy) -> Memory:
    """The uploads at a proxy, after a first one, since the C library keeps freed memory otherwise
    once a body was freed. `MeasurementError` if too few are answered."""
    await uploaded(proxy.port, 1)
    begun = time.monotonic()
    answered = await uploaded(proxy.port, UPLOADS)
    seconds = time.monotonic() - begun
    await asyncio.sleep(AFTER)
    peak, kept = (memory(proxy.process, kind) for kind in ("VmHWM", "VmRSS"))
    found = Memory(answered, seconds, peak, kept)
    if answered < LEAST_ANSWERED:
        raise MeasurementError(f"{proxy.name}, uploads at once: {found}")
    return found
