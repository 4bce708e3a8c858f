"""Looks that follow each other for as long as the server runs, and what is told of one that
failed."""
import asyncio
import contextlib
import traceback
from collections.abc import AsyncIterator, Callable, Coroutine
from typing import Any, Protocol

from aiohttp import web

LONGEST_FAULT = 300  # characters of an exception that are told


class TakesFaults(Protocol):
    """What keeps why the last look failed."""

    def take_fault(self, fault: str) -> bool:
        """Takes in what has ended a look. Gives whether that is new."""


def while_it_runs(
    work: Callable[[], Coroutine[Any, Any, None]]
) -> Callable[[web.Application], AsyncIterator[None]]:
    """What an application does for as long as it runs: this work."""

    async def run(_: web.Application) -> AsyncIterator[None]:
        task = asyncio.create_task(work())
        yield
        task.cancel()
        with contextlib.suppress(asyncio.CancelledError):
            await task

    return run


def take_fault(board: TakesFaults, error: Exception, tell: Callable[[], None]) -> None:
    """Takes in what has ended a look: the page says it, and standard error, once for each series of
    the same."""
    if board.take_fault(f"{type(error).__name__}: {error}"[:LONGEST_FAULT]):
        traceback.print_exception(error)
    with contextlib.suppress(Exception):
        tell()
