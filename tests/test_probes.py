"""Probes of endpoints."""
import asyncio
import os
import socket
import subprocess
import sys
import time
import unittest
from unittest import mock

from bg_switch_tools.controller.endpoints.probes import Probes, is_up
from bg_switch_tools.controller.plan.plan import Health
from support import endpoints
from support.messages import response
from support.pace import is_within
from support.ports import IPV6, has_ipv6
from tests.fake_port import free_port
from tests.tool_runs import TOP, WAIT, Endpoint, comes

HEALTH = Health("/", 0.05, 0.6, 2)


def answered(*pieces: bytes, pause: float = 0.0) -> bool | None:
    """What a probe says of an endpoint that answers so."""
    endpoint = Endpoint()
    endpoint.pieces, endpoint.pause = pieces, pause
    try:
        return asyncio.run(is_up(endpoint.port, HEALTH))
    finally:
        endpoint.stop()


class Answers(unittest.TestCase):
    def test_good_ones(self) -> None:
        for whole in (
            b"HTTP/1.1 200 OK\r\nContent-Length: 2\r\n\r\nok",
            b"HTTP/1.0 204 No Content\r\n\r\n",
            b"HTTP/1.1 399 x\r\n\r\nto the end",
            b"HTTP/1.1 100 Continue\r\n\r\nHTTP/1.1 200 OK\r\nContent-Length: 0\r\n\r\n",
            b"HTTP/1.1 200 OK\r\nTransfer-Encoding: chunked\r\n\r\n3;x=y\r\nabc\r\n0\r\n\r\n",
            b"HTTP/1.1 304 Not Modified\r\nContent-Length: 7\r\n\r\n",
            b"HTTP/1.1 200\r\ncontent-length: 0\r\n\r\n",
        ):
            with self.subTest(response=whole):
                self.assertIs(answered(whole), True)
                self.assertIs(answered(whole[:20], whole[20:], pause=0.05), True)

    def test_interim_responses(self) -> None:
        hints = b"HTTP/1.1 103 Early Hints\r\nLink: </a>\r\n\r\n"
        self.assertIs(
            answered(
                b"HTTP/1.1 100 Continue\r\n\r\n"
                + hints
                + hints
                + b"HTTP/1.1 200 OK\r\nContent-Length: 0\r\n\r\n"
            ),
            True,
        )
        self.assertIs(answered(hints), False)

    def test_what_the_switch_answers_502_for(self) -> None:
        for field in (
            b"Transfer-Encoding: gzip, chunked",
            b"Transfer-Encoding: gzip",
            b"Content-Length: -1",
            b"Content-Length: 1, 1",
        ):
            with self.subTest(field=field):
                self.assertIs(
                    answered(b"HTTP/1.1 200 OK\r\n" + field + b"\r\n\r\n1\r\nx\r\n0\r\n\r\n"), False
                )

    def test_the_request(self) -> None:
        seen: list[endpoints.Request] = []

        def answer(request: endpoints.Request, connection: socket.socket) -> None:
            seen.append(request)
            connection.sendall(response(b"ok"))

        endpoint = endpoints.Endpoint(answer)
        self.addCleanup(endpoint.stop)
        self.assertIs(asyncio.run(is_up(endpoint.port, Health("/health?a=b", 1, 5, 2))), True)
        self.assertEqual(
            seen[0].head,
            b"GET /health?a=b HTTP/1.1\r\nHost: 127.0.0.1:%d\r\nUser-Agent: bg-switch-controller\r\n"
            b"Accept: */*\r\nConnection: close\r\n\r\n" % endpoint.port,
        )

    def test_bad_ones(self) -> None:
        for whole in (
            b"HTTP/1.1 500 x\r\nContent-Length: 0\r\n\r\n",
            b"HTTP/1.1 400 x\r\n\r\n",
            b"",
            b"SSH-2.0-x\r\n\r\n",
            b"HTTP/1.1 200 OK\r\nContent-Length: 9\r\n\r\nok",
            b"HTTP/1.1 200 OK\r\nContent-Length: x\r\n\r\nok",
            b"HTTP/1.1 200 OK\r\nTransfer-Encoding: chunked\r\n\r\n3\r\nabc\r\n",
            b"HTTP/1.1 200 OK\r\n",
            b"HTTP/1.1 200 OK\r\nTransfer-Encoding: chunked\r\n\r\nx\r\n",
            b"x" * 200000,
            b"HTTP/1.1 x OK\r\n\r\n",
        ):
            with self.subTest(response=whole[:40]):
                self.assertIs(answered(whole), False)

    def test_a_head_without_end(self) -> None:
        """Its fields are not kept up to the limit of time."""
        fields = [b"f%d: x\r\n" % number for number in range(100)]
        endpoint, begun = Endpoint(), time.monotonic()
        self.addCleanup(endpoint.stop)
        endpoint.pieces, endpoint.pause = (
            b"HTTP/1.1 200 OK\r\n" + b"".join(fields),
            b"more",
        ), 2 * WAIT
        self.assertIs(asyncio.run(is_up(endpoint.port, Health("/", 1, WAIT, 2))), False)
        seconds = time.monotonic() - begun
        self.assertTrue(is_within(seconds, 5), seconds)
        self.assertIs(
            answered(b"HTTP/1.1 200 OK\r\n" + b"".join(fields[:63]) + b"Content-Length: 0\r\n\r\n"),
            True,
        )

    def test_nothing_listens(self) -> None:
        self.assertIs(asyncio.run(is_up(free_port(), HEALTH)), False)

    def test_the_address_of_the_endpoint(self) -> None:
        for address in ("127.0.0.2", *([IPV6] if has_ipv6() else [])):
            endpoint = endpoints.Endpoint(endpoints.by_target(b"ok"), free_port(), address)
            try:
                ups = [
                    asyncio.run(is_up(endpoint.port, HEALTH, at)) for at in (address, "127.0.0.1")
                ]
            finally:
                endpoint.stop()
            self.assertEqual(ups, [True, False])

    def test_the_limit_is_for_the_whole(self) -> None:
        begun = time.monotonic()
        head = b"HTTP/1.1 200 OK\r\nContent-Length: 0\r\nX: %s\r\n\r\n" % (b"x" * 300)
        self.assertIs(answered(*[bytes([byte]) for byte in head], pause=0.2), False)
        seconds = time.monotonic() - begun
        self.assertTrue(is_within(seconds, 3), seconds)


class Together(unittest.TestCase):
    def probes(self) -> Probes:
        made = Probes()
        self.addCleanup(made.stop)
        return made

    def test_no_endpoint_delays_another(self) -> None:
        hanging = [Endpoint() for _ in range(40)]
        for endpoint in hanging:
            endpoint.trickle()
            self.addCleanup(endpoint.stop)
        good = Endpoint()
        self.addCleanup(good.stop)
        probes = self.probes()
        probes.watch(
            [good.port, *(endpoint.port for endpoint in hanging)], Health("/", 0.05, 60, 2)
        )
        self.assertTrue(comes(lambda: probes.first_up([good.port]) == 1, 5))
        self.assertIsNone(probes.first_up([good.port, hanging[0].port]))
        good.stop()
        self.assertTrue(comes(lambda: probes.first_up([good.port]) == 0, 5))

    def test_the_end_cuts_the_probes_that_run(self) -> None:
        """No thread waits for an endpoint any more, so nothing holds up the end of the process."""
        code = (
            "import sys, time; from tests.tool_runs import Endpoint; from bg_switch_tools.controller.endpoints.probes import Probes; "
            "from bg_switch_tools.controller.plan.plan import Health; endpoint = Endpoint(); endpoint.trickle(); probes = Probes(); "
            "probes.watch([endpoint.port], Health('/', 1, 600, 2)); time.sleep(0.3); probes.stop()"
        )
        begun = time.monotonic()
        subprocess.run(
            [sys.executable, "-B", "-c", code],
            cwd=TOP,
            check=True,
            timeout=WAIT,
            env={**os.environ, "PYTHONPATH": f"{TOP}/lib:{TOP}/scripts"},
        )
        seconds = time.monotonic() - begun
        self.assertTrue(is_within(seconds, 5), seconds)

    def test_failures_in_a_row(self) -> None:
        first, second = Endpoint(), Endpoint()
        probes = self.probes()
        ports = [first.port, second.port]
        self.assertIsNone(probes.first_up(ports))
        probes.watch(ports, HEALTH)
        self.assertTrue(comes(lambda: probes.first_up(ports) == 2))
        second.stop()
        self.assertTrue(comes(lambda: probes.first_up(ports) == 1))
        first.stop()
        self.assertTrue(comes(lambda: probes.first_up(ports) == 0))
        for endpoint in (first, second):
            endpoint.start()
            self.addCleanup(endpoint.stop)
        self.assertTrue(comes(lambda: probes.first_up(ports) == 2))
        probes.watch(ports[:1], HEALTH)
        self.assertTrue(comes(lambda: probes.first_up(ports) is None))

    def test_one_failure_of_two_is_none(self) -> None:
        probes = self.probes()
        for up, expected in (
            (True, 1),
            (False, 1),
            (False, 0),
            (True, 1),
            (None, 1),
            (False, 1),
            (True, 1),
            (False, 1),
        ):
            probes._take_in(7, up)
            self.assertEqual(probes.first_up([7]), expected)

    def test_those_that_are_up_are_counted_wherever_they_stand(self) -> None:
        probes = self.probes()
        for port, up in ((1, False), (2, True), (3, True), (4, False)):
            probes._take_in(port, up)
        self.assertEqual(
            (probes.first_up([1, 2, 3, 4]), probes.count_up([1, 2, 3, 4]), probes.count_up([2, 3])),
            (0, 2, 2),
        )
        self.assertEqual(
            [probes.is_down(port) for port in range(1, 6)], [True, False, False, True, None]
        )
        self.assertIsNone(probes.count_up([2, 5]))

    def test_an_outage_counts_from_the_first_failure_of_the_last_endpoint(self) -> None:
        probes = self.probes()
        with mock.patch("bg_switch_tools.controller.endpoints.probes.time.monotonic") as clock:
            for now, port, up in (
                (10.0, 1, True),
                (10.0, 2, True),
                (11.0, 1, False),
                (13.0, 1, False),
                (14.0, 2, False),
            ):
                clock.return_value = now
                probes._take_in(port, up)
                self.assertEqual(probes.outage([1, 2]), 0.0)
            clock.return_value = 16.0
            probes._take_in(2, False)
            self.assertEqual(
                (probes.outage([1, 2]), probes.outage([1]), probes.outage([])), (2.0, 5.0, 0.0)
            )
            probes._take_in(1, True)
            self.assertEqual((probes.outage([1, 2]), probes.outage([2])), (0.0, 2.0))

    def test_what_was_asked_before_it_was_forgotten_says_nothing(self) -> None:
        """The endpoint answers a probe, and is stopped before the answer has come."""
        probes, endpoint = self.probes(), Endpoint()
        self.addCleanup(endpoint.stop)
        endpoint.pieces, endpoint.pause = (
            b"HTTP/1.1 200 OK\r\nContent-Length: 2\r\n\r\n",
            b"ok",
        ), 0.5
        probes.watch([endpoint.port], Health("/", 60, 5, 2))
        time.sleep(0.2)
        probes.forget(endpoint.port)
        time.sleep(0.8)
        self.assertIsNone(probes.is_down(endpoint.port))


if __name__ == "__main__":
    unittest.main()
