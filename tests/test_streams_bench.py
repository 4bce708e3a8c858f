"""bench/streams.py: its limits, how long events were on their way, its endpoint and its clients of
uploads, and its words. No test runs one of the proxies."""
import contextlib
import io
import os
import selectors
import socket
import threading
import time
import unittest

from support.clients import connect, received
from support.peers import MeasurementError, upload_clients, upload_sink
from support.peers.configurations import Mode, Place
from support.peers.proxies import Proxy
from support.ports import HOST
from tests.test_beside_peers import module_of
from tests.tool_runs import TOP

BENCH = module_of("bench/streams.py")
OWN = "bg_switch --concurrency 64"


class Verdicts(unittest.TestCase):
    def judged(
        self, kind: object, own: tuple[float, float], peer: tuple[float, float]
    ) -> list[bool]:
        """Whether the value and the memory of the switch keep their limits beside a peer."""
        found = {
            "nginx": BENCH.Figures(peer[0], 0.0, peer[1]),
            "haproxy": BENCH.Figures(peer[0] / 2, 0.0, peer[1] / 2),
            OWN: BENCH.Figures(own[0], 0.0, own[1]),
        }
        return [holds for _, holds in BENCH.verdicts(kind, found)]

    def test_a_rate_is_compared_with_the_greater_one(self) -> None:
        self.assertEqual(self.judged(BENCH.DOWNLOADS, (90, 10), (100, 10)), [True, True])
        self.assertEqual(self.judged(BENCH.DOWNLOADS, (89, 11), (100, 10)), [False, False])

    def test_a_delay_is_compared_with_the_smaller_one(self) -> None:
        self.assertEqual(self.judged(BENCH.STREAMS, (5.5, 10), (10, 10)), [True, True])
        self.assertEqual(self.judged(BENCH.STREAMS, (5.6, 10), (10, 10)), [False, True])

    def test_the_memory_of_uploads_is_compared_with_the_smaller_one(self) -> None:
        self.assertEqual(self.judged(BENCH.UPLOADS, (90, 5), (100, 10)), [True, True])
        self.assertEqual(self.judged(BENCH.UPLOADS, (89, 6), (100, 10)), [False, False])

    def test_medians(self) -> None:
        rounds = [BENCH.Figures(*each) for each in ((3, 1, 9), (1, 2, 8), (2, 3, 7))]
        self.assertEqual(BENCH.medians(rounds), (2, 2, 8))


class Events(unittest.TestCase):
    def test_delays(self) -> None:
        """A moment of an event counts, and neither the sizes of chunks nor a head."""
        sender, client = socket.socketpair()
        with sender, client, selectors.DefaultSelector() as selector:
            client.setblocking(False)
            selector.register(client, selectors.EVENT_READ)
            event = b"%.6f\n" % (time.monotonic() - 5)
            sender.sendall(b"HTTP/1.1 200 OK\r\n\r\n" + b"%x\r\n%s\r\n" % (len(event), event))
            delays: list[float] = []
            BENCH.drain(selector, delays, 1)
        self.assertEqual(len(delays), 1)
        self.assertGreaterEqual(delays[0], 5)
        self.assertLess(delays[0], 60)


class Uploads(unittest.TestCase):
    """The sink, in a thread, and clients without a proxy before it."""

    def setUp(self) -> None:
        listener = socket.create_server((HOST, 0))
        self.port = listener.getsockname()[1]
        threading.Thread(target=upload_sink.serve_all, args=(listener,), daemon=True).start()
        # a close alone would not wake the thread that accepts
        self.addCleanup(listener.close)
        self.addCleanup(listener.shutdown, socket.SHUT_RDWR)

    def test_a_body_is_answered_once_it_is_whole(self) -> None:
        with connect(self.port) as client:
            client.sendall(b"POST / HTTP/1.1\r\ncontent-length: 10\r\n\r\n123456789")
            client.settimeout(0.2)
            self.assertRaises(TimeoutError, client.recv, 1)
            client.settimeout(None)
            client.sendall(b"0")
            self.assertEqual(received(client), upload_sink.ANSWER)

    def test_a_body_that_ends_early_is_not_answered(self) -> None:
        with connect(self.port) as client:
            client.sendall(b"POST / HTTP/1.1\r\nContent-Length: 10\r\n\r\n123456789")
            client.shutdown(socket.SHUT_WR)
            self.assertEqual(received(client), b"")

    def test_a_request_without_a_body(self) -> None:
        with connect(self.port) as client:
            client.sendall(b"GET / HTTP/1.1\r\nHost: x\r\n\r\n")
            self.assertEqual(received(client), upload_sink.ANSWER)

    def test_clients(self) -> None:
        """They send as much as they say, in more than one piece."""
        upload_clients.send_body(self.port, upload_clients.PIECE + 1)
        self.assertGreater(upload_clients.rate(self.port, 2, 3), 0)

    def test_an_upload_that_is_refused_is_named(self) -> None:
        """Whoever answers otherwise than the sink is no endpoint, and the bench says so."""
        listener = socket.create_server((HOST, 0))
        self.addCleanup(listener.close)

        def refuse() -> None:
            client = listener.accept()[0]
            with client:
                upload_sink.drop_request(client)
                client.sendall(b"HTTP/1.1 413 Content Too Large\r\nContent-Length: 0\r\n\r\n")

        threading.Thread(target=refuse, daemon=True).start()
        with self.assertRaisesRegex(MeasurementError, "413"):
            upload_clients.send_body(listener.getsockname()[1], 1000)

    def test_a_failed_upload_names_its_proxy(self) -> None:
        with socket.create_server((HOST, 0)) as listener:
            port = listener.getsockname()[1]
        asked = BENCH.asked_for(["--mebibytes", "1"])
        proxy = Proxy("haproxy", Mode.NONE, port, os.getpid())
        with self.assertRaisesRegex(MeasurementError, "haproxy"):
            BENCH.uploaded(proxy, asked)


class Configurations(unittest.TestCase):
    def test_nginx_buffers_in_memory_alone(self) -> None:
        text = BENCH.nginx(Place(1, 2, TOP), Mode.NONE, 4)
        self.assertEqual(text.count(BENCH.BUFFERS), 1)

    def test_nginx_passes_bodies_on_as_they_come(self) -> None:
        text = BENCH.nginx(Place(1, 2, TOP), Mode.NONE, 4)
        self.assertEqual(text.count(BENCH.UNBUFFERED), 1)
        self.assertIn("proxy_http_version 1.1;", text)

    def test_words(self) -> None:
        asked = BENCH.asked_for(["--streams", "7"])
        self.assertEqual((asked.streams, asked.rounds, asked.mebibytes), (7, 5, 1024))
        self.assertEqual((asked.uploads, asked.only), (2, ["downloads", "streams", "uploads"]))
        self.assertEqual(BENCH.asked_for(["--only", "uploads"]).only, ["uploads"])
        with contextlib.redirect_stderr(io.StringIO()), self.assertRaises(SystemExit):
            BENCH.asked_for(["--rounds", "0"])


if __name__ == "__main__":
    unittest.main()
