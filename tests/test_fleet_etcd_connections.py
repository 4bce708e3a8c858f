"""Which calls of the store share a connection, and what becomes of one that ends, hangs, or is
watched at."""
import contextlib
import socket
import ssl
import threading
import unittest
from collections.abc import Callable
from unittest import mock

from bg_switch_tools.fleet.store.etcd import EtcdStore
from bg_switch_tools.fleet.store.etcd_gateway import Gateway, Way
from bg_switch_tools.fleet.store.timed_post import KeptConnections, PostConnection
from support.clients import received
from support.endpoints import read_request
from support.pace import is_within
from tests.fake_etcd import CHUNKED, CREATED, Answer, FakeEtcd, chunk, key, keys, sending
from tests.store_checks import fault_of, seconds_of, store_at
from tests.tool_runs import comes

LONG = 30.0  # seconds of a wait that ends before
LATER = 1.5  # seconds by which a call may end later
GOOD = keys(key("/bg-switch/web/a", "1"))


class PersistentEtcd(FakeEtcd):
    """Takes one call after the other over a connection. `connections` are all that were made."""

    def __init__(self, **answers: Answer) -> None:
        self.connections = list[socket.socket]()
        super().__init__(**answers)

    def serve(self, connection: socket.socket) -> None:
        self.connections.append(connection)
        with connection, contextlib.suppress(OSError):
            while request := read_request(connection):
                self.answer(request, connection)
                if request.value(b"Connection") == b"close":
                    return

    def end_all(self) -> None:
        """Ends all connections, as etcd does that is started again."""
        for connection in self.connections:
            with contextlib.suppress(OSError):
                connection.shutdown(socket.SHUT_RDWR)


def held(connection: socket.socket) -> None:
    """Takes a watch, and tells of nothing."""
    connection.sendall(CHUNKED + chunk(CREATED))
    received(connection)


class States:
    """What a wait has told of its watch."""

    def __init__(self) -> None:
        self.told: list[str] = []
        self.cut: Callable[[], None] = lambda: None

    def begin(self, after: int, cut: Callable[[], None]) -> None:
        self.told.append(f"begin {after}")
        self.cut = cut

    def end(self) -> None:
        self.told.append("end")


class Case(unittest.TestCase):
    def server(self, **answers: Answer) -> PersistentEtcd:
        made = PersistentEtcd(**answers)
        self.addCleanup(made.stop)
        return made


class Kept(Case):
    def check_calls(self, store: EtcdStore) -> None:
        """Calls that may be sent twice."""
        store.read()
        store.grant(3)
        store.refresh(9)
        store.revoke(9)
        store.read()

    def test_calls_that_may_be_sent_twice_share_one(self) -> None:
        server = self.server()
        self.check_calls(store_at(server.endpoint))
        self.assertEqual((len(server.connections), len(server.asked)), (1, 5))

    def test_it_is_missed_where_none_is_kept(self) -> None:
        server = self.server()
        with mock.patch.object(KeptConnections, "take", lambda self, post: None):
            self.check_calls(store_at(server.endpoint))
        self.assertEqual(len(server.connections), 5)

    def test_a_write_has_its_own(self) -> None:
        """Else it could be sent just when the connection ends, and nobody would know whether it was
        carried out."""
        server = self.server()
        store = store_at(server.endpoint)
        store.read()
        store.write([], {"a": "1"})
        store.write([], {"a": "1"})
        self.assertEqual(len(server.connections), 3)
        store.refresh(9)
        self.assertEqual(len(server.connections), 3)

    def test_one_that_has_ended_is_not_used(self) -> None:
        server = self.server()
        store = store_at(server.endpoint)
        store.read()
        server.end_all()
        self.assertEqual(store.read().keys["a"].value, "1")
        self.assertEqual(len(server.connections), 2)

    def test_one_that_ends_when_a_call_is_sent(self) -> None:
        """The call is sent again."""
        server = self.server()
        store = store_at(server.endpoint)
        store.read()
        server.answers["/v3/kv/range"] = ended_once(server)
        self.assertEqual(store.read().keys["a"].value, "1")
        self.assertEqual(server.calls("/v3/kv/range"), 3)

    def test_it_is_missed_where_such_a_call_is_not_sent_again(self) -> None:
        sent = Gateway._sent_over

        def once(self: Gateway, connection: PostConnection, way: Way, post: object) -> object:
            way.limit.extend(type(way.limit)(0.0))
            return sent(self, connection, way, post)  # type: ignore[arg-type]

        server = self.server()
        store = store_at(server.endpoint)
        store.read()
        server.answers["/v3/kv/range"] = ended_once(server)
        with mock.patch.object(Gateway, "_sent_over", once):
            self.assertIn("no endpoint of etcd gives an answer", fault_of(store.read))

    def test_one_that_hangs_costs_one_call(self) -> None:
        server = self.server()
        store = store_at(server.endpoint, timeout=0.5)
        store.read()
        server.answers["/v3/kv/range"] = received  # type: ignore[assignment]
        self.assertIn("it gives no answer in time", fault_of(store.read))
        server.answers["/v3/kv/range"] = sending(GOOD)
        self.assertEqual(store.read().keys["a"].value, "1")
        self.assertEqual(len(server.connections), 2)

    def test_threads_do_not_share_one_at_a_time(self) -> None:
        server = self.server()
        store, given = store_at(server.endpoint, timeout=20.0), list[int]()
        threads = [
            threading.Thread(target=lambda: given.extend(store.read().revision for _ in range(40)))
            for _ in range(6)
        ]
        for thread in threads:
            thread.start()
        for thread in threads:
            thread.join()
        self.assertEqual(given, [7] * 240)
        self.assertLessEqual(len(server.connections), 6)

    def test_one_by_files_that_were_replaced_is_closed(self) -> None:
        gateway = store_at(self.server().endpoint)._gateway
        gateway.call("/v3/kv/range", {}, lambda answer: None)
        post = gateway._post(gateway.settings.endpoints[0], "/v3/kv/range", {})
        [kept] = gateway._kept._kept
        self.assertIsNone(gateway._kept.take(post._replace(context=ssl.create_default_context())))
        self.assertEqual((kept.socket.fileno(), gateway._kept._kept), (-1, []))

    def test_an_answer_that_ends_its_connection(self) -> None:
        closing = GOOD.replace(b"\r\n\r\n", b"\r\nConnection: close\r\n\r\n", 1)
        server = self.server(read=sending(closing))
        store = store_at(server.endpoint)
        store.read()
        store.read()
        self.assertEqual(len(server.connections), 2)


def ended_once(server: PersistentEtcd) -> Answer:
    """Ends the connection without an answer, and answers the next call."""

    def end(connection: socket.socket) -> None:
        server.answers["/v3/kv/range"] = sending(GOOD)
        connection.shutdown(socket.SHUT_RDWR)

    return end


class WatchedAt(Case):
    def waiting(self, store: EtcdStore, states: States) -> list[object]:
        """A thread that waits. What came of it is in the list then."""
        came = list[object]()

        def wait() -> None:
            try:
                came.append(store.wait(7, LONG, states))
            except Exception as fault:
                came.append(fault)

        thread = threading.Thread(target=wait, daemon=True)
        thread.start()
        self.addCleanup(states.cut)
        self.assertTrue(comes(lambda: states.told))
        return came

    def test_an_event(self) -> None:
        states = States()
        self.assertTrue(store_at(self.server().endpoint).wait(7, LONG, states))
        self.assertEqual(states.told, ["begin 7", "end"])

    def test_its_time_is_over(self) -> None:
        states = States()
        self.assertFalse(store_at(self.server(wait=held).endpoint).wait(7, 0.3, states))
        self.assertEqual(states.told, ["begin 7", "end"])

    def test_one_that_is_not_taken(self) -> None:
        states = States()
        store = store_at(self.server(wait=sending()).endpoint)
        fault_of(lambda: store.wait(7, LONG, states))
        self.assertEqual(states.told, ["end"])

    def test_a_cut_ends_it_at_once(self) -> None:
        server, states = self.server(wait=held), States()
        store = store_at(server.endpoint)
        came = self.waiting(store, states)
        states.cut()
        self.assertTrue(comes(lambda: came))
        self.assertEqual((came, states.told), ([False], ["begin 7", "end"]))
        store.read()
        self.assertEqual(server.calls("/v3/kv/range"), 1, "no endpoint was left")

    def test_a_call_that_fails_at_its_endpoint_ends_it(self) -> None:
        """The endpoint hangs, so the watch may hang too: the next one goes to another endpoint."""
        one, other = self.server(wait=held), self.server(wait=held)
        store, states = store_at(one.endpoint, other.endpoint, timeout=1.0), States()
        came = self.waiting(store, states)
        one.answers["/v3/lease/keepalive"] = received  # type: ignore[assignment]
        self.assertEqual(store.refresh(9), 3)
        self.assertTrue(comes(lambda: came))
        self.assertEqual((came, states.told), ([False], ["begin 7", "end"]))
        self.waiting(store, states)
        self.assertTrue(comes(lambda: other.calls("/v3/watch") == 1))

    def test_it_is_missed_where_the_watch_is_kept(self) -> None:
        one, other = self.server(wait=held), self.server()
        store, states = store_at(one.endpoint, other.endpoint, timeout=1.0), States()
        came = self.waiting(store, states)
        one.answers["/v3/lease/keepalive"] = received  # type: ignore[assignment]
        with mock.patch.object(PostConnection, "cut"):
            store.refresh(9)
            self.assertFalse(comes(lambda: came, 1.0))

    def test_a_fault_comes_at_once(self) -> None:
        states = States()
        store = store_at(self.server(wait=sending(CHUNKED + chunk(CREATED))).endpoint)
        seconds = seconds_of(lambda: fault_of(lambda: store.wait(7, LONG, states)))
        self.assertTrue(is_within(seconds, LATER), seconds)
        self.assertEqual(states.told, ["begin 7", "end"])


class Probes(unittest.TestCase):
    def test_a_connection_without_traffic_is_probed(self) -> None:
        server = PersistentEtcd()
        self.addCleanup(server.stop)
        gateway = store_at(server.endpoint)._gateway
        gateway.call("/v3/kv/range", {}, lambda answer: None)
        [kept] = gateway._kept._kept
        found = kept.socket
        self.assertEqual(found.getsockopt(socket.SOL_SOCKET, socket.SO_KEEPALIVE), 1)
        probes = [
            found.getsockopt(socket.IPPROTO_TCP, option)
            for option in (socket.TCP_KEEPIDLE, socket.TCP_KEEPINTVL, socket.TCP_KEEPCNT)
        ]
        self.assertLessEqual(probes[0] + probes[1] * probes[2], 20)


if __name__ == "__main__":
    unittest.main()
