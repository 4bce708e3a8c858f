"""What the pages of the dashboard share: their files, refusals, and the guard of each request."""
import html
import importlib.resources
from collections.abc import Awaitable, Callable
from typing import NamedTuple

from aiohttp import web

from bg_switch_tools.dashboard import guard

FILES = {
    "dashboard.css": "text/css",
    "fleet.css": "text/css",
    "icon.svg": "image/svg+xml",
    **dict.fromkeys(
        ("dashboard.js", "fleet.js", "charts.js", "parts.js", "frame.js"), "text/javascript"
    ),
}
Handler = Callable[[web.Request], Awaitable[web.StreamResponse]]


class Link(NamedTuple):
    """A page of the dashboard, as the other one links to it."""

    address: str
    title: str


SWITCH, FLEET = Link("/", "the switch"), Link("/fleet", "the fleet")


def page_file(name: str) -> str:
    """A file of the pages, also if the tools are one file."""
    return (importlib.resources.files("bg_switch_tools.dashboard") / "page" / name).read_text(
        encoding="utf-8"
    )


def page(name: str, token: str = "", other: Link | None = None) -> str:
    """A page, with the token of its commands (empty: it has none), and with a link to the other
    page, if there is one."""
    link = f'<a href="{html.escape(other.address)}">{html.escape(other.title)}</a>' if other else ""
    return page_file(name).replace("{{token}}", html.escape(token)).replace("{{other}}", link)


def html_answer(text: str) -> web.Response:
    return web.Response(text=text, content_type="text/html", charset="utf-8")


def refusal(status: int, why: str) -> web.Response:
    return web.json_response({"fault": why}, status=status)


@web.middleware
async def guarded(request: web.Request, handler: Handler) -> web.StreamResponse:
    """Refuses what comes by another name or from another site, and gives each answer its fields."""
    fault = guard.fault_of(request.headers.getall("Host", []), request.headers.getall("Origin", []))
    if fault:
        answer: web.StreamResponse = refusal(403, fault)
    else:
        try:
            answer = await handler(request)
        except web.HTTPException as refused:
            answer = refusal(refused.status, refused.reason)
    if not answer.prepared:
        answer.headers.update(guard.HEADERS)
    return answer


class PageFiles:
    """The files that the pages name."""

    def __init__(self) -> None:
        self.files = {name: page_file(name) for name in FILES}

    async def show(self, request: web.Request) -> web.Response:
        name = request.match_info["name"]
        if name not in self.files:
            return refusal(404, "there is no such page")
        return web.Response(text=self.files[name], content_type=FILES[name], charset="utf-8")
