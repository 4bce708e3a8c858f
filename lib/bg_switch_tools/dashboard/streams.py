"""Streams of server-sent events, by which pages that are open are told what is new."""
import asyncio
import json
from collections.abc import Callable, Mapping

from aiohttp import web

from bg_switch_tools.dashboard import guard
from bg_switch_tools.dashboard.web_pages import refusal

MOST_PENDING = 100  # updates that a listener may be behind
MOST_LISTENERS = 64  # of one page


def event(name: str, data: Mapping[str, object]) -> bytes:
    """An event of a stream, as browsers read it."""
    return f"event: {name}\ndata: {json.dumps(data)}\n\n".encode("ascii")


class Listeners:
    """The streams of a page that are open."""

    def __init__(self) -> None:
        self._open: dict[asyncio.Queue[bytes], asyncio.Transport | None] = {}

    def __len__(self) -> int:
        return len(self._open)

    def tell(self, update: Mapping[str, object]) -> None:
        """Tells what is new to all who listen."""
        message = event("update", update)
        for listener, transport in list(self._open.items()):
            if not listener.full():
                listener.put_nowait(message)
                continue
            del self._open[listener]  # it reads too slowly: its connection ends, and it begins anew
            if transport is not None:
                transport.abort()

    async def serve(
        self, request: web.Request, whole: Callable[[], Mapping[str, object]]
    ) -> web.StreamResponse:
        """A stream: all that is known, and then each update."""
        if len(self._open) >= MOST_LISTENERS:
            return refusal(503, "too many pages are open")
        stream = web.StreamResponse(
            headers={**guard.HEADERS, "Content-Type": "text/event-stream; charset=utf-8"}
        )
        listener: asyncio.Queue[bytes] = asyncio.Queue(MOST_PENDING)
        await stream.prepare(request)
        self._open[listener] = request.transport
        try:
            await stream.write(event("state", whole()))
            while listener in self._open:
                await stream.write(await listener.get())
        except ConnectionError:
            pass
        finally:
            self._open.pop(listener, None)
        return stream
