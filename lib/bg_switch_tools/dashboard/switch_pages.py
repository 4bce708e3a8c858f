"""The page of a switch: one look at it and at its log after the other, and the commands of the
page's buttons."""
import asyncio
import contextlib
import secrets
import time

from aiohttp import web

from bg_switch_tools.controller.state.analysis_results import ResultsFile
from bg_switch_tools.dashboard import guard
from bg_switch_tools.dashboard.board import Board
from bg_switch_tools.dashboard.local_controller import LocalController
from bg_switch_tools.dashboard.looks import take_fault, while_it_runs
from bg_switch_tools.dashboard.page_commands import (
    NewestChangedError,
    PageCommandError,
    read_page_command,
    send_page_command,
)
from bg_switch_tools.dashboard.streams import Listeners
from bg_switch_tools.dashboard.web_pages import FLEET, SWITCH, html_answer, page, refusal
from bg_switch_tools.switch.access_log import Batch, Follower
from bg_switch_tools.switch.connection import UnreachableError, ask_report, ask_state
from bg_switch_tools.switch.replies import as_json
from bg_switch_tools.switch.reports import Report, ReportError

PAUSE = 0.5  # seconds between two reports
JOURNAL_PAUSE = 5.0  # seconds between two questions for a journal that fails
SOON = 0.01  # seconds, while more of the log is there than was read
ANSWER = 1.5  # seconds for the switch to answer
BACKLOG = 1 << 25  # bytes of the log that are read when the dashboard begins


class SwitchPages:
    """Looks at the switch and at its log again and again, and answers requests by what was seen."""

    def __init__(self, board: Board, has_fleet: bool = False) -> None:
        self.board = board
        self.follower = Follower(board.log_path, BACKLOG) if board.log_path else None
        self.controller = LocalController(board.plan) if board.plan else None
        self.results = ResultsFile(board.results_of) if board.results_of else None
        self.token = secrets.token_urlsafe(32)
        self.page = page(
            "index.html", "" if board.is_read_only else self.token, FLEET if has_fleet else None
        )
        self.listeners = Listeners()
        self.soon = asyncio.Event()
        self.journal_from = 0.0  # the time from which on the switch is asked for its journal

    def add_to(self, application: web.Application) -> None:
        router = application.router
        router.add_get(SWITCH.address, self.show_page)
        router.add_get("/api/state", self.show_state)
        router.add_get("/api/events", self.show_events, allow_head=False)
        router.add_post("/api/order", self.command)
        application.cleanup_ctx.append(while_it_runs(self.look_always))

    async def look_always(self) -> None:
        """Looks again and again, whatever happens."""
        while True:
            try:
                is_counted = not (self.follower and self.follower.is_behind)
                found = await asyncio.to_thread(self.look)
                if self.controller:
                    self.board.take_controller(await asyncio.to_thread(self.controller.look))
                if self.results:
                    self.board.results = await asyncio.to_thread(self.results.read)
                self.take(*found, is_counted)
            # none is expected; without the looks that follow, the page would show what is long past
            except Exception as error:
                take_fault(self.board, error, self.tell)
            with contextlib.suppress(TimeoutError):
                await asyncio.wait_for(
                    self.soon.wait(), SOON if self.follower and self.follower.has_more else PAUSE
                )
            self.soon.clear()

    def look(self) -> tuple[Batch | None, tuple[Report | None, bool | None] | str]:
        """What has come into the log, and the report with whether the journal of the switch lacks an
        order, or why there is none. The log is read first: each revision that it names is in the
        report."""
        batch = self.follower.read() if self.follower else None
        try:
            return batch, self._ask_state()
        except (UnreachableError, ReportError) as reason:
            return batch, str(reason)

    def _ask_state(self) -> tuple[Report | None, bool | None]:
        """The report, and whether the journal lacks an order. To ask that has the switch try its disk
        again, so it is not asked in each look then."""
        if time.monotonic() < self.journal_from:
            return ask_report(self.board.control, ANSWER), None
        report, lacks_order = ask_state(self.board.control, ANSWER)
        if lacks_order is not False:
            self.journal_from = time.monotonic() + JOURNAL_PAUSE
        return report, lacks_order

    def take(
        self,
        batch: Batch | None,
        answer: tuple[Report | None, bool | None] | str,
        is_counted: bool,
    ) -> None:
        """Takes in what was seen, and tells it to all who listen."""
        if isinstance(answer, str):
            self.board.take_silence(answer)
        else:
            self.board.take_report(*answer)
        if batch and self.follower:
            self.board.take_batch(batch, self.follower.fault, is_counted)
        self.board.take_fault("")
        self.tell()

    def tell(self) -> None:
        """Tells what is new to all who listen."""
        self.listeners.tell(self.board.update())

    async def show_page(self, _: web.Request) -> web.Response:
        return html_answer(self.page)

    async def show_state(self, _: web.Request) -> web.Response:
        return web.json_response(self.board.state())

    async def show_events(self, request: web.Request) -> web.StreamResponse:
        return await self.listeners.serve(request, self.board.state)

    async def command(self, request: web.Request) -> web.Response:
        """Sends a command of the page."""
        if self.board.is_read_only:
            return refusal(403, "the dashboard was started with --read-only")
        if not request.headers.getall("Origin", []):
            return refusal(403, "the request does not say from which site it comes")
        if not guard.is_token(request.headers.get("X-Token", ""), self.token):
            return refusal(
                403, "the request does not have the token of this dashboard: load the page again"
            )
        try:
            command = read_page_command(await request.read())
        except PageCommandError as wrong:
            return refusal(400, str(wrong))
        try:
            reply = await asyncio.to_thread(send_page_command, self.board.control, command)
        except NewestChangedError as moved:
            return refusal(409, str(moved))
        except (UnreachableError, ReportError) as reason:
            return refusal(503, str(reason))
        self.board.note_line(command.line, reply)
        self.tell()  # at once: a page that is opened later finds the command in its state, and not in an update as well
        self.soon.set()
        return web.json_response(as_json(command.line, reply))
