"""The dashboard's server in this process, whose looks are given by hand: python3 -m
tests.streams_of_a_server PORT

Prints what is left of a stream whose client reads nothing, where a page that is opened after an
order finds it, and what the server says of looks that end by a fault which nobody expects."""
import asyncio
import contextlib
import io
import json
import socket
import sys
from unittest import mock

from aiohttp import ClientSession, web

from bg_switch_tools.dashboard import switch_pages
from bg_switch_tools.dashboard.board import Board
from bg_switch_tools.dashboard.server import application
from bg_switch_tools.dashboard.switch_pages import SwitchPages
from tests.fake_switch import FakeSwitch

GREATEST_WAIT = 10.0  # seconds
PAUSED = ("open web-v1 1 2", "available 1 2", "deploy web-v2 3 4", "available 2 2")


async def read_nothing(looked_at: SwitchPages, port: int) -> socket.socket:
    """A stream whose client reads nothing is ended, once it is too far behind. Gives the client's
    end."""
    while looked_at.listeners:  # the page of before has gone, which its next update shows
        looked_at.take(None, (None, False), False)
        await asyncio.sleep(0.01)
    client = socket.create_connection(("127.0.0.1", port))
    client.sendall(b"GET /api/events HTTP/1.1\r\nHost: localhost\r\n\r\n")
    while not looked_at.listeners:
        await asyncio.sleep(0.01)
    while looked_at.listeners:
        looked_at.board.say("change", "x" * 100000)
        looked_at.take(None, (None, False), False)
        await asyncio.sleep(0.001)
    return client


async def send_command(looked_at: SwitchPages, port: int) -> str:
    """A page is opened after an order: it finds it in its state, or in the update that follows."""
    address = f"http://localhost:{port}"
    async with ClientSession() as session:
        told = await session.post(
            f"{address}/api/order",
            data='{"order": "promote", "revision": 2}',
            headers={"Origin": address, "X-Token": looked_at.token},
        )
        assert told.status == 200, await told.text()
        stream = await session.get(f"{address}/api/events")
        seen = []
        for _ in range(2):
            await stream.content.readline()
            event = json.loads((await stream.content.readline()).removeprefix(b"data: "))
            seen.append(sum(each["kind"] == "order" for each in event["happened"]))
            await stream.content.readline()
            looked_at.take(None, (None, False), False)
    return f"orders in the state and the update: {seen[0]}, {seen[1]}"


async def look_on(control: int) -> str:
    """The first looks end by a fault, of which none ends the looks that follow."""
    looked_at, faults = SwitchPages(Board(control, "", False)), [
        ValueError("planted"),
        ValueError("planted"),
        KeyError("planted"),
    ]

    def look() -> tuple[None, tuple[None, bool]]:
        if faults:
            raise faults.pop()
        return None, (None, False)

    traces = io.StringIO()
    with mock.patch.object(looked_at, "look", look), mock.patch.object(
        switch_pages, "PAUSE", 0.01
    ), contextlib.redirect_stderr(traces):
        task = asyncio.create_task(looked_at.look_always())
        while not any(
            "looks at the switch again" in each["text"] for each in looked_at.board.happened
        ):
            await asyncio.sleep(0.01)
        task.cancel()
    said = [each["text"] for each in looked_at.board.happened if each["kind"] == "fault"]
    return f"faults {looked_at.board.own_faults}, said {len(said)}, traces {traces.getvalue().count('Traceback')}: {said[0]}"


async def main(port: int) -> None:
    switch = FakeSwitch("pause")
    for line in PAUSED:
        switch.book.answer(line)
    looked_at = SwitchPages(Board(switch.port, "", False))
    with mock.patch.object(looked_at, "look_always", lambda: asyncio.sleep(GREATEST_WAIT)):
        runner = web.AppRunner(application(looked_at, None), access_log=None)
        await runner.setup()
    await web.TCPSite(runner, "127.0.0.1", port).start()
    print(await asyncio.wait_for(send_command(looked_at, port), GREATEST_WAIT))
    with await asyncio.wait_for(read_nothing(looked_at, port), GREATEST_WAIT):
        await asyncio.sleep(0.5)
        assert runner.server is not None
        print(f"streams {len(looked_at.listeners)}, connections {len(runner.server.connections)}")
    print(await asyncio.wait_for(look_on(switch.port), GREATEST_WAIT))


if __name__ == "__main__":
    asyncio.run(main(int(sys.argv[1])))
    sys.exit(0)
