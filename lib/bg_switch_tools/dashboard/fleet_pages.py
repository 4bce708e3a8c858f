"""The page of a fleet: one read of its keys after the other, and what all who look at it are told
by it."""
import asyncio
import concurrent.futures
import threading

from aiohttp import web

from bg_switch_tools.dashboard import fleet_json
from bg_switch_tools.dashboard.fleet_board import FleetBoard
from bg_switch_tools.dashboard.looks import take_fault, while_it_runs
from bg_switch_tools.dashboard.streams import Listeners
from bg_switch_tools.dashboard.web_pages import FLEET, SWITCH, html_answer, page
from bg_switch_tools.fleet.store.store import Snapshot, Store, StoreError

PAUSE = 1.0  # seconds between two reads, and between two updates while a read takes longer


class FleetPages:
    """Reads the keys again and again, whoever looks, and answers requests by what was read. So
    nobody who looks costs a read."""

    def __init__(self, board: FleetBoard, store: Store, has_switch: bool) -> None:
        self.board = board
        self.store = store
        self.has_switch = has_switch
        self.page = page("fleet.html", other=SWITCH if has_switch else None)
        self.listeners = Listeners()

    def add_to(self, application: web.Application) -> None:
        router = application.router
        router.add_get(FLEET.address, self.show_page)
        router.add_get("/api/fleet", self.show_state)
        router.add_get("/api/fleet/events", self.show_events, allow_head=False)
        if not self.has_switch:
            router.add_get(SWITCH.address, self.show_page)
        application.cleanup_ctx.append(while_it_runs(self.look_always))

    async def look_always(self) -> None:
        """Looks again and again, whatever happens."""
        while True:
            try:
                await self.look()
            # none is expected; without the reads that follow, the page would show what is long past
            except Exception as error:
                take_fault(self.board, error, self.tell)
            await asyncio.sleep(PAUSE)

    async def look(self) -> None:
        """Takes in what one read gives, and tells it to all who listen."""
        try:
            self.board.take_read(await self.read())
        except StoreError as fault:
            self.board.take_silence(str(fault))
        self.board.take_fault("")
        self.tell()

    async def read(self) -> Snapshot:
        """One read. While it lasts, all who listen are told that the dashboard is there.
        `StoreError` as the store has it."""
        reading = asyncio.wrap_future(self._begin_read())
        try:
            while not (await asyncio.wait({reading}, timeout=PAUSE))[0]:
                self.tell()
            return reading.result()
        finally:
            reading.cancel()

    def _begin_read(self) -> "concurrent.futures.Future[Snapshot]":
        """Begins a read, in a thread that does not hold up the end of the dashboard."""
        found: concurrent.futures.Future[Snapshot] = concurrent.futures.Future()
        found.set_running_or_notify_cancel()

        def read() -> None:
            try:
                found.set_result(self.store.read())
            except Exception as error:  # whoever waits for the read takes it
                found.set_exception(error)

        threading.Thread(target=read, daemon=True).start()
        return found

    def tell(self) -> None:
        self.listeners.tell(fleet_json.update(self.board))

    async def show_page(self, _: web.Request) -> web.Response:
        return html_answer(self.page)

    async def show_state(self, _: web.Request) -> web.Response:
        return web.json_response(fleet_json.whole(self.board))

    async def show_events(self, request: web.Request) -> web.StreamResponse:
        return await self.listeners.serve(request, lambda: fleet_json.whole(self.board))
