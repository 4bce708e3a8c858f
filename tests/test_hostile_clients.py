"""bench/hostile_clients.py: its clients and its endpoint, its comparisons and its words. No test runs
one of the proxies."""
import asyncio
import contextlib
import io
import os
import pathlib
import socket
import unittest
from collections.abc import AsyncIterator, Iterator, Mapping, Sequence
from unittest import mock

from support.messages import LARGEST_BODY, head_of, request
from support.peers import MeasurementError, drips, half_closed, loop_clients, reading_endpoint
from support.peers import stops, uploads_at_once
from support.peers.comparisons import Comparison, Limit, of_better_peer, percentile, times_of
from support.peers.configurations import Mode
from support.peers.proxies import Proxy
from support.peers.reading_endpoint import LATER
from tests.test_allocator_variables import VARIABLES
from tests.test_beside_peers import module_of

BENCH = module_of("bench/hostile_clients.py")
OWN, PEER, OTHER = "bg_switch", "haproxy", "nginx"
SECONDS = 0.3  # after which the endpoint of a test answers `/later`


class Comparisons(unittest.TestCase):
    def one(self, limit: Limit | None, **values: float) -> Comparison:
        return Comparison("waits in s", values, limit)

    def test_a_line_has_each_value_the_limit_and_the_verdict(self) -> None:
        for own, verdict in ((1.5, "ok"), (1.51, "FAILED")):
            found = self.one(Limit(1.5), nginx=0.25, bg_switch=own, haproxy=1200)
            self.assertEqual(
                str(found),
                f"waits in s: bg_switch {own:g}, nginx 0.25, haproxy 1,200; at most 1.5: {verdict}",
            )
            self.assertEqual((found.holds, found.is_judged), (verdict == "ok", True))

    def test_what_is_not_judged_holds(self) -> None:
        for found in (self.one(Limit(1), nginx=9), self.one(None, bg_switch=9)):
            self.assertEqual((found.holds, found.is_judged), (True, False))
            self.assertTrue(str(found).endswith(": not judged"), str(found))

    def test_a_limit_by_one_peer(self) -> None:
        found = times_of({OWN: 1, PEER: 10, OTHER: 2}, PEER, 1.5)
        self.assertEqual(str(found), "at most 15 (1.5 times haproxy's)")
        self.assertIsNone(times_of({OWN: 1, OTHER: 2}, PEER, 1.5))

    def test_a_limit_by_the_better_peer(self) -> None:
        found = of_better_peer({OWN: 0, PEER: 10, OTHER: 2})
        self.assertEqual(str(found), "at most 2 (the better peer's)")
        self.assertIsNone(of_better_peer({OWN: 1}))

    def test_a_percentile(self) -> None:
        self.assertEqual(percentile([*range(100, 0, -1)], 0.99), 100)
        self.assertEqual(percentile([*range(200, 0, -1)], 0.99), 199)
        self.assertEqual(percentile([7], 0.99), 7)


class Statuses(unittest.TestCase):
    def test_an_answer_that_is_cut_is_none(self) -> None:
        whole = reading_endpoint.ANSWER
        for answer, expected in (
            (whole, "200"),
            (whole[:-1], "nothing"),
            (b"HTTP/1.1 200 OK\r\n\r\n", "nothing"),
            (b"", "nothing"),
            (b"HTTP/1.1 502 Bad Gateway\r\nContent-Length: 0\r\n\r\n", "502"),
            (b"HTTP/1.1 502 Bad", "nothing"),
        ):
            with self.subTest(answer):
                self.assertEqual(loop_clients.status_of(answer), expected)

    def test_any_other_status_counts_as_no_answer(self) -> None:
        self.assertEqual(loop_clients.unanswered(["200", "nothing", "502", "200"]), 2)

    def test_sums_of_stops(self) -> None:
        found = stops.sum_of([stops.Lost(1000, 1), stops.Lost(1234, 0)])
        self.assertEqual(str(found), "1 of 2,234 without an answer")


class Endpoint:
    """An endpoint in the loop of a test, which stands for a proxy, too."""

    def __init__(self, seconds: float = SECONDS) -> None:
        self.seconds = seconds
        self.connections = list[reading_endpoint.Served]()

    def connection(self) -> reading_endpoint.Served:
        self.connections.append(reading_endpoint.Served(self.seconds))
        return self.connections[-1]

    async def start(self) -> None:
        loop = asyncio.get_running_loop()
        self.server = await loop.create_server(self.connection, "127.0.0.1", 0)
        self.port: int = self.server.sockets[0].getsockname()[1]
        self.proxy = Proxy(OTHER, Mode.NONE, self.port, os.getpid())

    def stop_well(self) -> None:
        """Connections go on."""
        self.server.close()

    def stop_badly(self) -> None:
        """Connections end."""
        self.server.close()
        for one in self.connections:
            if one.transport:
                one.transport.abort()


@contextlib.asynccontextmanager
async def served(seconds: float = SECONDS) -> AsyncIterator[Endpoint]:
    endpoint = Endpoint(seconds)
    await endpoint.start()
    yield endpoint
    endpoint.stop_badly()
    await asyncio.sleep(0)


class Clients(unittest.IsolatedAsyncioTestCase):
    """The clients of one event loop, at the endpoint itself."""

    async def answered(self, *pieces: bytes, is_ended: bool = False) -> tuple[str, float]:
        """The status of what comes for these pieces, and after how many seconds."""
        async with served() as endpoint:
            client = await loop_clients.connected(endpoint.port)
            for piece in pieces:
                await loop_clients.send_all(client, memoryview(piece))
                await asyncio.sleep(0.02)
            if is_ended:
                half_closed.end_input(client)
            loop = asyncio.get_running_loop()
            begun = loop.time()
            got = await loop_clients.received(client)
            return loop_clients.status_of(got), loop.time() - begun

    async def test_a_client_that_has_ended_its_input_is_answered_later(self) -> None:
        status, seconds = await self.answered(request(LATER), is_ended=True)
        self.assertEqual((status, seconds > SECONDS / 2), ("200", True))

    async def test_a_body_is_read_whole(self) -> None:
        for pieces in (
            [head_of(3) + b"abc"],
            [head_of(3)[:9], head_of(3)[9:], b"a", b"bc"],
            [head_of(LARGEST_BODY) + bytes(LARGEST_BODY)],
        ):
            self.assertEqual((await self.answered(*pieces))[0], "200")

    async def test_a_port_that_is_closed(self) -> None:
        with socket.create_server(("127.0.0.1", 0)) as listener:
            port = listener.getsockname()[1]
        with self.assertRaises(OSError):
            await loop_clients.connected(port)
        statuses = list[str]()
        await stops.ask_on(port, statuses)
        self.assertEqual(statuses, [])

    async def test_clients_that_are_reset_are_not_answered(self) -> None:
        with socket.create_server(("127.0.0.1", 0)) as listener:
            clients = await loop_clients.all_connected(listener.getsockname()[1], 3)
            self.assertEqual(loop_clients.send(clients[0], request()), len(request()))
        self.assertEqual(await loop_clients.all_received(clients), ["nothing"] * 3)


class Parts(unittest.IsolatedAsyncioTestCase):
    """Each part at an endpoint in the place of a proxy, with few clients."""

    async def lost(self, kind: str, name: str) -> stops.Lost:
        """A stop of an endpoint by one of its methods."""
        few = mock.patch.multiple(stops, CLIENTS=10, BEFORE=5, LOOPS=5)
        async with served() as endpoint:
            with few:
                return await stops.KINDS[kind](endpoint.port, getattr(endpoint, name))

    async def test_requests_at_a_stop(self) -> None:
        self.assertEqual(await self.lost("whole requests", "stop_well"), stops.Lost(10, 0))
        self.assertEqual(await self.lost("whole requests", "stop_badly"), stops.Lost(10, 10))

    async def test_event_loops_at_a_stop(self) -> None:
        for name in ("stop_well", "stop_badly"):
            found = await self.lost("event loops", name)
            # each of the five loops has more than one client, however busy the machine is
            self.assertGreater(found.clients, 5)
            self.assertLessEqual(found.unanswered, 5)

    async def test_clients_that_have_ended_their_input(self) -> None:
        seconds = 2.5
        few = mock.patch.multiple(half_closed, CLIENTS=10, SECONDS=seconds, SETTLING=0.1)
        ended = mock.patch.object(reading_endpoint.Served, "eof_received", return_value=True)
        async with served(seconds) as endpoint:
            with few, ended as seen:
                found = await half_closed.measured(endpoint.proxy)
        self.assertEqual((found.unanswered, seen.call_count), (0, 10))
        self.assertTrue(found.milliseconds > 0 and found.p99 > 0, found)

    async def test_a_switch_that_answers_not_all_is_not_measured(self) -> None:
        few = mock.patch.multiple(half_closed, CLIENTS=3, SECONDS=1.2, SETTLING=0.0)
        async with served(0.5) as endpoint:
            with few, mock.patch.object(half_closed, "unanswered", lambda _: 1):
                with self.assertRaises(MeasurementError):
                    await half_closed.measured(endpoint.proxy._replace(name=f"{OWN} --keep-alive"))

    async def test_uploads(self) -> None:
        few = mock.patch.multiple(uploads_at_once, UPLOADS=5, LEAST_ANSWERED=5, AFTER=0.0)
        async with served() as endpoint:
            with few:
                found = await uploads_at_once.measured(endpoint.proxy)
                self.assertEqual(found.answered, 5)
                self.assertGreaterEqual(found.peak, found.kept)
            with few, mock.patch.object(uploads_at_once, "LEAST_ANSWERED", 6):
                with self.assertRaises(MeasurementError):
                    await uploads_at_once.measured(endpoint.proxy)

    async def test_honest_uploads(self) -> None:
        few = mock.patch.multiple(drips, CLIENTS=10, HONEST=3, PAUSE=0.1)
        async with served() as endpoint:
            with few:
                found = await drips.measured(endpoint.proxy)
                self.assertEqual((found.unanswered, found.unread, found.closed), (0, 0, 0))
                self.assertGreater(found.longest, 0)
                with self.assertRaises(MeasurementError):
                    await drips.measured(endpoint.proxy._replace(name=OWN))


class Words(unittest.TestCase):
    def test_without_words(self) -> None:
        asked = BENCH.asked_for([])
        self.assertEqual((asked.rounds, asked.threads), (3, 2))
        self.assertEqual(asked.parts, ["half-closed", "stop", "uploads", "drips"])
        self.assertEqual(asked.proxies, [OTHER, PEER, OWN])

    def test_wrong_words(self) -> None:
        for words in (["--rounds", "0"], ["--parts", "stops"], ["--proxies", "apache"], ["more"]):
            with self.subTest(words):
                told = io.StringIO()
                with self.assertRaises(SystemExit) as ended, contextlib.redirect_stderr(told):
                    BENCH.asked_for(words)
                self.assertEqual(ended.exception.code, 2)
                self.assertIn("usage: bench/hostile_clients.py", told.getvalue())

    def test_a_program_that_is_missing(self) -> None:
        printed = io.StringIO()
        with mock.patch.object(BENCH.shutil, "which", lambda _: None):
            with contextlib.redirect_stdout(printed):
                self.assertEqual(BENCH.main(["--proxies", "nginx,bg_switch"]), 0)
        self.assertEqual(printed.getvalue(), "hostile_clients needs nginx: nothing was measured\n")

    def test_the_variables_are_those_of_the_unit(self) -> None:
        self.assertEqual(uploads_at_once.variables_of_unit(), VARIABLES)


class Bench(unittest.TestCase):
    """The whole bench, over measurements that a test makes up."""

    def kept(
        self, found: Sequence[Mapping[str, float]], error: Exception | None = None
    ) -> tuple[bool, str]:
        def part(_: object) -> Iterator[Comparison]:
            for values in found:
                yield Comparison("what", values, Limit(1.0))

        def faulty(_: object) -> Iterator[Comparison]:
            if error:
                raise error
            yield from ()

        printed, parts = io.StringIO(), {"half-closed": part, "drips": faulty}
        with mock.patch.dict(BENCH.PARTS, parts), contextlib.redirect_stdout(printed):
            try:
                asked = BENCH.asked_for(["--parts", "half-closed,drips"])
                return BENCH.is_kept(asked, pathlib.Path("/")), printed.getvalue()
            except MeasurementError:
                return False, printed.getvalue()

    def test_each_limit_is_to_be_kept(self) -> None:
        for found, expected in (
            ([{OWN: 1.0, PEER: 9.0}], True),
            ([{OWN: 1.1, PEER: 9.0}], False),
            ([{OWN: 1.0}, {OWN: 1.1}], False),
            ([{PEER: 9.0}], True),
        ):
            with self.subTest(found):
                is_kept, printed = self.kept(found)
                self.assertEqual((is_kept, "FAILED" in printed), (expected, not expected))
                self.assertEqual(printed.count("\nwhat: "), len(found))
                self.assertEqual("nothing was judged" in printed, OWN not in found[0])

    def test_what_was_measured_before_a_fault_is_printed(self) -> None:
        is_kept, printed = self.kept([{OWN: 1.0}], MeasurementError("a proxy has ended"))
        self.assertFalse(is_kept)
        self.assertIn("what: bg_switch 1; at most 1: ok\n", printed)

    def test_the_rounds_of_half_closed_clients(self) -> None:
        """The median of the processor time decides, and the least wait."""
        run = BENCH.Run(BENCH.asked_for([]), pathlib.Path("/"))
        figures = {OWN: [(30, 9), (10, 2), (20, 7)], PEER: [(10, 1), (90, 5), (14, 3)]}
        found = {
            name: [half_closed.HalfClosed(0, *each) for each in ones]
            for name, ones in figures.items()
        }
        with mock.patch.object(run, "rounds", lambda *_: found):
            time, wait = run.half_closed()
        self.assertEqual(time.values, {OWN: 20, PEER: 14})
        self.assertEqual(wait.values, {OWN: 2, PEER: 1})
        self.assertEqual((time.holds, wait.holds), (True, False))

    def test_each_round_begins_with_the_next_proxy(self) -> None:
        run = BENCH.Run(BENCH.asked_for([]), pathlib.Path("/"))
        names = [OTHER, PEER, OWN]
        for number in range(4):
            first = number % 3
            self.assertEqual(run.in_turn(number), names[first:] + names[:first])


if __name__ == "__main__":
    unittest.main()
