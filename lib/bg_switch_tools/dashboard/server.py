"""The web server of the dashboard, on 127.0.0.1 alone."""
import logging
import socket

from aiohttp import http_exceptions, web
from prometheus_client import CONTENT_TYPE_LATEST, CollectorRegistry, generate_latest

from bg_switch_tools.dashboard import metrics
from bg_switch_tools.dashboard.board import Board
from bg_switch_tools.dashboard.fleet_agent import LocalAgent
from bg_switch_tools.dashboard.fleet_board import FleetBoard
from bg_switch_tools.dashboard.fleet_metrics import FleetCollector
from bg_switch_tools.dashboard.fleet_pages import FleetPages
from bg_switch_tools.dashboard.switch_pages import SwitchPages
from bg_switch_tools.dashboard.web_pages import PageFiles, guarded
from bg_switch_tools.fleet.plan.fleet_file import FleetFile
from bg_switch_tools.fleet.store.etcd import EtcdStore
from bg_switch_tools.switch.control import HOST

LARGEST_COMMAND = 4096  # bytes
LAST_SECOND = 1  # second for requests and streams to end after a signal


class MetricsPage:
    """The metrics of what the dashboard shows."""

    def __init__(
        self, switch: SwitchPages | None, fleet: FleetPages | None, agent: LocalAgent | None
    ) -> None:
        self.registry = CollectorRegistry(auto_describe=False)
        if switch:
            self.registry.register(metrics.Collector(switch.board))  # type: ignore[arg-type]
        if fleet:
            self.registry.register(FleetCollector(fleet.board, agent))  # type: ignore[arg-type]

    async def show(self, _: web.Request) -> web.Response:
        """The metrics in Prometheus's text format."""
        return web.Response(
            body=generate_latest(self.registry), headers={"Content-Type": CONTENT_TYPE_LATEST}
        )


def application(
    switch: SwitchPages | None, fleet: FleetPages | None, agent: LocalAgent | None = None
) -> web.Application:
    """All that the dashboard serves: the pages of a switch, of a fleet, or of both, and metrics of
    these and of an agent."""
    web_application = web.Application(middlewares=[guarded], client_max_size=LARGEST_COMMAND)
    for pages in (switch, fleet):
        if pages:
            pages.add_to(web_application)
    web_application.router.add_get("/metrics", MetricsPage(switch, fleet, agent).show)
    web_application.router.add_get("/{name}", PageFiles().show)
    return web_application


def is_not_malformed(record: logging.LogRecord) -> bool:
    """Whether this is no request that is malformed, of which each peer can send any number."""
    return not (
        record.exc_info and isinstance(record.exc_info[1], http_exceptions.HttpProcessingError)
    )


def run(board: Board | None, file: FleetFile | None, agent: LocalAgent | None, listen: int) -> None:
    """Serves until SIGTERM or ctrl-C. `OSError` if the port cannot be used."""

    async def prepared_application() -> web.Application:
        switch = SwitchPages(board, file is not None) if board else None
        fleet = (
            FleetPages(FleetBoard(file.fleet), EtcdStore(file.etcd, file.fleet), board is not None)
            if file
            else None
        )
        shown = application(switch, fleet, agent)

        async def tell(_: web.Application) -> None:
            print(f"dashboard: http://{HOST}:{listen}/", flush=True)

        shown.on_startup.append(tell)
        return shown

    logging.getLogger("aiohttp.server").addFilter(is_not_malformed)
    # aiohttp would tell a port that cannot be used with a trace
    with socket.create_server((HOST, listen)) as listener:
        web.run_app(
            prepared_application(),
            sock=listener,
            print=lambda *_: None,
            access_log=None,
            shutdown_timeout=LAST_SECOND,
        )
