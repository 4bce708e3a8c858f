"""The store of a fleet before servers that are slow, silent, malformed, or no etcd at all: each is
a fault, in time."""
import json
import socket
import threading
import time
import tracemalloc
import unittest
from collections.abc import Callable
from unittest import mock

from bg_switch_tools.fleet.store.etcd import EtcdStore
from bg_switch_tools.fleet.store.etcd_answers import signed_number
from bg_switch_tools.fleet.store.store import Compare
from bg_switch_tools.fleet.store.store_endpoints import Lookups, StoreEndpoint, store_endpoint_of
from bg_switch_tools.fleet.store.time_limit import TimeLimit
from bg_switch_tools.fleet.store.timed_post import LARGEST, NoAnswerError
from bg_switch_tools.switch.json_values import JsonObject
from support.clients import received, reset, send_in_pieces
from support.endpoints import full_backlog
from support.messages import response
from support.pace import is_within
from tests.fake_etcd import (
    CHUNKED,
    CREATED,
    RANGE,
    TRANSACTION,
    WATCH,
    Answer,
    FakeEtcd,
    chunk,
    header,
    key,
    keys,
    of_json,
    refused,
    sending,
)
from tests.real_etcd import port_that_refuses
from tests.store_checks import fault_of, seconds_of, store_at
from tests.tool_runs import comes

LIMIT = 1.2  # seconds of a call
LONG = 30.0  # seconds of a wait that ends before
ENDLESS = 60.0  # seconds for which a server sends what has no end
LATER = 1.5  # seconds by which a call may end later
GOOD = keys(key("/bg-switch/web/a", "1"))


def silent(connection: socket.socket) -> None:
    """Says nothing, and keeps the connection."""
    received(connection)


def trickling(given: bytes, pause: float = 0.1) -> Answer:
    """Sends one byte after the other: each read gets one in time."""

    def send(connection: socket.socket) -> None:
        send_in_pieces(connection, [bytes([byte]) for byte in given], pause)

    return send


def endless(first: bytes, piece: bytes) -> Answer:
    """Sends the same piece again and again, for longer than any call may take."""

    def send(connection: socket.socket) -> None:
        connection.sendall(first)
        end = time.monotonic() + ENDLESS
        while time.monotonic() < end:
            connection.sendall(piece)

    return send


def then(given: bytes, after: Answer) -> Answer:
    """Sends these bytes, and then what another answer sends."""

    def send(connection: socket.socket) -> None:
        connection.sendall(given)
        after(connection)

    return send


def half(given: bytes) -> bytes:
    return given[: -len(given) // 4]


def with_revision(revision: object) -> dict[str, object]:
    return {**dict[str, object](header()), "revision": revision}


# By its name: an answer to a read that takes too long, and what is said of it.
LATE: dict[str, tuple[Answer, str]] = {
    "silence": (silent, "it gives no answer in time"),
    "a head that trickles": (trickling(GOOD), "it gives no answer in time"),
    "a body that trickles": (then(GOOD[:-90], trickling(GOOD[-90:])), "it gives no answer in time"),
    "a head and silence": (then(GOOD[:60], silent), "it gives no answer in time"),
    "interim responses without an end": (
        endless(b"", b"HTTP/1.1 100 Continue\r\n\r\n"),
        "it gives no answer in time",
    ),
}
NUMBERS = "its answer has no number "
# By its name: an answer to a read that is wrong, and what is said of it.
WRONG: dict[str, tuple[Answer, str]] = {
    "no answer": (sending(), "it closes the connection without an answer"),
    "a reset": (reset, "it closes the connection without an answer"),
    "bytes that are not HTTP": (sending(bytes(3000)), "its answer is not HTTP"),
    "a body that is cut": (sending(half(GOOD)), "its answer is cut"),
    "a body that is cut, where the JSON is whole": (
        sending(GOOD.replace(b"Length: ", b"Length: 1")),
        "its answer is cut",
    ),
    "a chunk that is cut": (sending(CHUNKED + b"ff\r\n{"), "its answer is cut"),
    "chunks without an end": (sending(CHUNKED + chunk(b"{}")), "its answer is cut"),
    "a head that is cut": (
        sending(b"HTTP/1.1 200 OK\r\nContent-Len"),
        "its answer, with status 200, is not JSON",
    ),
    "a field that is too long": (
        endless(b"HTTP/1.1 200 OK\r\nA: ", b"a" * 65536),
        "its answer is not HTTP",
    ),
    "a body that is too large": (
        endless(b"HTTP/1.1 200 OK\r\nContent-Length: 9999999999\r\n\r\n", b" " * 65536),
        f"its answer has more than {LARGEST} bytes",
    ),
    "chunks that are too many": (
        endless(CHUNKED, chunk(b" " * 65536)),
        f"its answer has more than {LARGEST} bytes",
    ),
    "a web page": (
        sending(response(b"<html>welcome</html>")),
        "its answer, with status 200, is not JSON",
    ),
    "an error of a proxy": (
        sending(response(b"<html>bad</html>").replace(b"200 OK", b"502 Bad Gateway")),
        "its answer, with status 502, is not JSON",
    ),
    "JSON that is cut": (
        sending(response(b'{"header":')),
        "its answer, with status 200, is not JSON",
    ),
    "JSON that is deep": (
        sending(response(b"[" * 100000)),
        "its answer, with status 200, is not JSON",
    ),
    "a list": (sending(of_json([1])), "its answer, with status 200, is not an object"),
    "an empty object": (sending(of_json({})), "its answer names no cluster"),
    "a status that is no success": (
        sending(of_json({"header": header()}, b"202 OK")),
        "it answers with status 202, and not as etcd does",
    ),
    "a header that is a text": (
        sending(of_json({"header": "x"})),
        "its answer has no object header",
    ),
    "a revision that is no number": (
        sending(of_json({"header": with_revision("1x")})),
        NUMBERS + "revision",
    ),
    "a revision that is below 0": (
        sending(of_json({"header": with_revision("-1")})),
        NUMBERS + "revision",
    ),
    "a revision that is too long": (
        sending(of_json({"header": with_revision("9" * 6000)})),
        NUMBERS + "revision",
    ),
    "a revision that is an object": (
        sending(of_json({"header": with_revision({})})),
        NUMBERS + "revision",
    ),
    "fewer keys than are counted": (
        sending(of_json({"header": header(), "kvs": [], "count": "1"})),
        "its answer does not have all keys",
    ),
    "keys that are no list": (
        sending(of_json({"header": header(), "kvs": {}, "count": "0"})),
        "its answer does not have all keys",
    ),
    "a key that is no object": (
        sending(of_json({"header": header(), "kvs": ["a"], "count": "1"})),
        "its answer has a key that is not an object",
    ),
    "a key that is no text": (
        sending(of_json({"header": header(), "kvs": [{"key": 1}], "count": "1"})),
        "its answer has no text key",
    ),
    "a key that is not base 64": (
        sending(of_json({"header": header(), "kvs": [{"key": "?"}], "count": "1"})),
        "its answer has a key or a value that is not base 64",
    ),
    "a key that was not asked for": (
        sending(keys(key("/bg-switch/other/a"))),
        "its answer has a key that was not asked for",
    ),
    "an error without a code": (
        sending(of_json({"error": "no"}, b"500 No")),
        "it answers with status 500, and not as etcd does",
    ),
    "an error that is no text": (
        sending(of_json({"error": 5, "code": 1}, b"500 No")),
        "it answers with status 500, and not as etcd does",
    ),
    "a fault of one member": (
        sending(refused("etcdserver: request timed out", 14, b"503 No")),
        "etcd has a fault: etcdserver: request timed out",
    ),
    "a fault with control characters": (
        sending(refused("a\n\x1b[31mb", 14, b"503 No")),
        "etcd has a fault: a??[31mb",
    ),
}
# By its name: how an answer to a call refuses it for the whole cluster, and what is said.
REFUSED = {
    "full": (
        refused("etcdserver: mvcc: database space exceeded", 8, b"429 No"),
        "etcd is full: etcdserver: mvcc: database space exceeded; free its space, then disarm its alarm",
    ),
    "denied": (
        refused("etcdserver: permission denied", 7, b"403 No"),
        "etcd denies this to the user (none): etcdserver: permission denied",
    ),
    "no user": (
        refused("etcdserver: user name is empty", 3, b"400 No"),
        "etcd asks for a user and a password, and none are set",
    ),
    "a lease that is gone": (
        refused("etcdserver: requested lease not found", 5, b"404 No"),
        "etcd refuses this: etcdserver: requested lease not found",
    ),
}


class WithServers(unittest.TestCase):
    def server(self, **answers: Answer) -> FakeEtcd:
        made = FakeEtcd(**answers)
        self.addCleanup(made.stop)
        return made

    def in_time(self, call: Callable[[], object], limit: float = LIMIT) -> None:
        """The call ends within its time limit."""
        seconds = seconds_of(call)
        self.assertTrue(is_within(seconds, limit + LATER), seconds)


class SignedNumbers(unittest.TestCase):
    def test_each(self) -> None:
        for text, number in (("0", 0), ("7", 7), ("-1", -1), ("-120", -120)):
            self.assertEqual(signed_number(JsonObject([("TTL", text)]), "TTL"), number)
        self.assertEqual(signed_number(JsonObject([]), "TTL"), 0)

    def test_what_is_none(self) -> None:
        for value in ("", "-", "--1", "+1", "- 1", "1-", "x", 1, -1, None):
            with self.subTest(value), self.assertRaisesRegex(NoAnswerError, "has no number TTL"):
                signed_number(JsonObject([("TTL", value)]), "TTL")


class Good(WithServers):
    def test_every_call(self) -> None:
        server = self.server()
        store = store_at(server.endpoint)
        snapshot = store.read()
        self.assertEqual(
            (snapshot.revision, snapshot.cluster, snapshot.keys["a"].value), (7, "1001", "1")
        )
        self.assertEqual((store.write([], {"a": "1"}), store.grant(3), store.refresh(9)), (8, 9, 3))
        store.revoke(9)
        self.in_time(lambda: store.wait(7, 30))

    def test_what_a_write_asks_for(self) -> None:
        server = self.server()
        compares = [
            Compare("leader", "created", 0),
            Compare("a", "changed", 4),
            Compare("members/", "changed", 6),
        ]
        store_at(server.endpoint).write(compares, {"a": "1"}, ["b"], 9)
        [(path, message)] = server.asked
        self.assertEqual(path, TRANSACTION)
        self.assertEqual(
            message,
            {
                "compare": [
                    {
                        "key": "L2JnLXN3aXRjaC93ZWIvbGVhZGVy",
                        "target": "CREATE",
                        "result": "EQUAL",
                        "create_revision": "0",
                    },
                    {
                        "key": "L2JnLXN3aXRjaC93ZWIvYQ==",
                        "target": "MOD",
                        "result": "EQUAL",
                        "mod_revision": "4",
                    },
                    {
                        "key": "L2JnLXN3aXRjaC93ZWIvbWVtYmVycy8=",
                        "range_end": "L2JnLXN3aXRjaC93ZWIvbWVtYmVyczA=",
                        "target": "MOD",
                        "result": "LESS",
                        "mod_revision": "7",
                    },
                ],
                "success": [
                    {
                        "request_put": {
                            "key": "L2JnLXN3aXRjaC93ZWIvYQ==",
                            "value": "MQ==",
                            "lease": "9",
                        }
                    },
                    {"request_delete_range": {"key": "L2JnLXN3aXRjaC93ZWIvYg=="}},
                ],
            },
        )

    def test_what_a_read_asks_for(self) -> None:
        """All keys, by a read that is linearizable: etcd's `serializable` is not there."""
        server = self.server()
        store_at(server.endpoint).read()
        self.assertEqual(
            server.asked,
            [(RANGE, {"key": "L2JnLXN3aXRjaC93ZWIv", "range_end": "L2JnLXN3aXRjaC93ZWIw"})],
        )

    def test_threads_share_a_store(self) -> None:
        server = self.server()
        store, given = store_at(server.endpoint), list[int]()
        threads = [
            threading.Thread(target=lambda: given.extend(store.read().revision for _ in range(20)))
            for _ in range(8)
        ]
        for thread in threads:
            thread.start()
        for thread in threads:
            thread.join()
        self.assertEqual(given, [7] * 160)


class Late(WithServers):
    def test_a_call_ends_in_time(self) -> None:
        for name, (answer, told) in LATE.items():
            with self.subTest(name):
                server = self.server(read=answer)
                store = store_at(server.endpoint, timeout=LIMIT)
                self.in_time(
                    lambda: self.assertEqual(
                        fault_of(store.read),
                        "no endpoint of etcd gives an answer: " f"{server.endpoint}: {told}",
                    )
                )

    def test_each_call_has_the_limit(self) -> None:
        server = self.server(write=silent, grant=silent, refresh=silent, revoke=silent)
        store = store_at(server.endpoint, timeout=LIMIT)
        for call in (
            lambda: store.write([], {"a": "1"}),
            lambda: store.grant(3),
            lambda: store.refresh(9),
            lambda: store.revoke(9),
        ):
            self.in_time(lambda call=call: self.assertIn("it gives no answer in time", fault_of(call)))  # type: ignore[misc]

    def test_the_limit_is_that_of_all_endpoints_together(self) -> None:
        servers = [self.server(read=silent) for _ in range(3)]
        store = store_at(*(server.endpoint for server in servers), timeout=LIMIT)
        self.in_time(lambda: fault_of(store.read))
        self.assertEqual([server.calls(RANGE) for server in servers], [1, 1, 1])

    def test_an_endpoint_that_takes_no_connection(self) -> None:
        with full_backlog() as port:
            store = store_at(StoreEndpoint("127.0.0.1", port), timeout=LIMIT)
            self.in_time(lambda: self.assertIn("it gives no answer in time", fault_of(store.read)))

    def test_a_large_write_to_an_endpoint_that_does_not_read(self) -> None:
        with socket.create_server(("127.0.0.1", 0)) as listener:
            store = store_at(StoreEndpoint("127.0.0.1", listener.getsockname()[1]), timeout=LIMIT)
            self.in_time(
                lambda: self.assertIn(
                    "it gives no answer in time",
                    fault_of(lambda: store.write([], {"a": "x" * 30_000_000})),
                )
            )


class Wrong(WithServers):
    def test_each_is_a_fault(self) -> None:
        for name, (answer, told) in WRONG.items():
            with self.subTest(name):
                server = self.server(read=answer)
                self.assertEqual(
                    fault_of(store_at(server.endpoint).read),
                    f"no endpoint of etcd gives an answer: {server.endpoint}: {told}",
                )
                self.assertEqual(server.calls(RANGE), 1, "it is asked once")

    def test_the_next_endpoint_is_asked(self) -> None:
        for name, (answer, _) in (WRONG | LATE).items():
            with self.subTest(name):
                one, other = self.server(read=answer), self.server()
                store = store_at(one.endpoint, other.endpoint, timeout=2 * LIMIT)
                self.assertEqual(store.read().keys["a"].value, "1")
                store.read()
                self.assertEqual(
                    (one.calls(RANGE), other.calls(RANGE)),
                    (1, 2),
                    "the endpoint that answered is asked first",
                )

    def test_a_write_is_sent_once(self) -> None:
        """It may have been carried out. The write after it goes to the next endpoint."""
        for name, (answer, _) in (WRONG | LATE).items():
            if name.startswith(("a key", "keys", "fewer")):
                continue  # these are wrong answers to a read alone
            with self.subTest(name):
                one, other = self.server(write=answer), self.server()
                store = store_at(one.endpoint, other.endpoint, timeout=LIMIT)
                self.assertIn(
                    "; what was asked may have been done",
                    fault_of(lambda: store.write([], {"a": "1"})),
                )
                self.assertEqual((one.calls(TRANSACTION), other.calls(TRANSACTION)), (1, 0))
                self.assertEqual(store.write([], {"a": "1"}), 8)
                self.assertEqual((one.calls(TRANSACTION), other.calls(TRANSACTION)), (1, 1))

    def test_a_redirection_is_not_followed(self) -> None:
        for status in (
            b"301 Moved",
            b"302 Found",
            b"307 Temporary Redirect",
            b"308 Permanent Redirect",
        ):
            with self.subTest(status):
                target = self.server()
                place = b"http://127.0.0.1:%d%s" % (target.port, RANGE.encode())
                moved = b"HTTP/1.1 %s\r\nLocation: %s\r\nContent-Length: 2\r\n\r\n{}" % (
                    status,
                    place,
                )
                server = self.server(read=sending(moved))
                told = f"it answers with status {status[:3].decode()}, and not as etcd does"
                self.assertIn(told, fault_of(store_at(server.endpoint).read))
                self.assertEqual(target.asked, [])

    def test_a_huge_answer_takes_no_more_memory_than_the_limit(self) -> None:
        server = self.server(read=WRONG["chunks that are too many"][0])
        tracemalloc.start()
        self.addCleanup(tracemalloc.stop)
        fault_of(store_at(server.endpoint).read)
        self.assertLess(tracemalloc.get_traced_memory()[1], 4 * LARGEST)

    def test_what_the_cluster_refuses_is_asked_of_one_endpoint(self) -> None:
        for name, (answer, told) in REFUSED.items():
            with self.subTest(name):
                one, other = self.server(read=sending(answer), write=sending(answer)), self.server()
                store = store_at(one.endpoint, other.endpoint)
                self.assertEqual(fault_of(store.read), told)
                self.assertEqual(fault_of(lambda: store.write([], {"a": "1"})), told)
                self.assertEqual(other.asked, [])

    def test_errors_as_each_version_writes_them(self) -> None:
        told = "etcdserver: permission denied"
        for body in (
            {"error": told, "message": told, "code": 7},
            {"code": 7, "message": told, "details": []},
            {"error": {"grpc_code": 7, "http_code": 403, "message": told}},
            {"error": {"code": 7, "message": told}},
        ):
            with self.subTest(body):
                store = store_at(self.server(read=sending(of_json(body, b"403 No"))).endpoint)
                self.assertEqual(fault_of(store.read), REFUSED["denied"][1])

    def test_endpoints_of_two_clusters(self) -> None:
        """One cluster is kept as long as an endpoint of it answers."""
        one, other = self.server(), self.server(read=sending(keys(revision=2, cluster="2002")))
        store = store_at(one.endpoint, other.endpoint, timeout=LIMIT)
        store.read()
        one.answers[RANGE] = sending()
        self.assertIn("it answers for the cluster 2002, and not for 1001", fault_of(store.read))
        self.assertEqual(store.read().cluster, "2002")
        one.answers[RANGE] = sending(GOOD)
        self.assertEqual(store.read().cluster, "2002")

    def test_a_revision_that_goes_back(self) -> None:
        server = self.server()
        store = store_at(server.endpoint)
        store.read()
        server.answers[RANGE] = sending(keys(revision=6))
        self.assertEqual(
            fault_of(store.read),
            "etcd was restored from a backup: its revision was 7, and is 6 now",
        )
        self.assertEqual(store.read().revision, 6)


class Waits(WithServers):
    def assert_after(self, taken: float, seconds: float) -> None:
        """A wait ends after its seconds, and soon then."""
        self.assertGreaterEqual(taken, seconds)
        self.assertTrue(is_within(taken, seconds + LATER), taken)

    def wait(self, store: EtcdStore, seconds: float) -> float:
        return seconds_of(lambda: store.wait(7, seconds))

    def fault_soon(self, store: EtcdStore, told: str) -> None:
        """A wait raises its fault at once, and not after its seconds."""
        self.in_time(lambda: self.assertIn(told, fault_of(lambda: store.wait(7, LONG))))

    def test_a_watch_that_ends_at_once(self) -> None:
        for name, answer in (
            ("without a result", sending(CHUNKED + chunk(b""))),
            ("after its creation", sending(CHUNKED + chunk(CREATED))),
            ("with a whole body", sending(CHUNKED + chunk(CREATED) + chunk(b""))),
            ("no answer", sending()),
        ):
            with self.subTest(name):
                server = self.server(wait=answer)
                self.fault_soon(store_at(server.endpoint), f"{server.endpoint}: it")
                self.assertEqual(server.calls(WATCH), 1)

    def test_a_watch_that_is_refused(self) -> None:
        cancelled = json.dumps(
            {
                "result": {
                    "header": header(),
                    "created": True,
                    "canceled": True,
                    "cancel_reason": "no",
                }
            }
        ).encode()
        error = json.dumps(
            {"error": {"grpc_code": 14, "http_code": 503, "message": "etcdserver: no leader"}}
        ).encode()
        for body, told in (
            (cancelled, "it ends the watch: no"),
            (error, "etcd has a fault: etcdserver: no leader"),
            (b"[]\n", "is not an object"),
            (b'{"result":3}\n', "its answer has no object result"),
        ):
            with self.subTest(told):
                server = self.server(wait=sending(CHUNKED + chunk(body) + chunk(b"")))
                self.fault_soon(store_at(server.endpoint), told)

    def test_a_server_that_gives_nothing(self) -> None:
        server = self.server(wait=silent)
        self.fault_soon(store_at(server.endpoint, timeout=0.3), "it gives no answer in time")

    def test_silence_after_the_creation_is_no_fault(self) -> None:
        server = self.server(wait=then(CHUNKED + chunk(CREATED), silent))
        self.assert_after(self.wait(store_at(server.endpoint, timeout=0.4), 1.2), 1.2)

    def test_lines_without_events_do_not_wake(self) -> None:
        server = self.server(wait=endless(CHUNKED, chunk(CREATED)))
        self.assert_after(self.wait(store_at(server.endpoint), 0.8), 0.8)

    def test_a_line_that_is_too_long(self) -> None:
        server = self.server(wait=endless(CHUNKED, chunk(b" " * 65536)))
        self.fault_soon(
            store_at(server.endpoint), f"a line of its answer has more than {LARGEST} bytes"
        )

    def test_the_next_endpoint_wakes(self) -> None:
        for name, answer in (
            ("silence", silent),
            ("no answer", sending()),
            ("another cluster", sending(CHUNKED + chunk(CREATED.replace(b"1001", b"2002")))),
        ):
            with self.subTest(name):
                one, other = self.server(wait=answer), self.server()
                store = store_at(one.endpoint, other.endpoint, timeout=LIMIT)
                store.read()
                self.in_time(lambda store=store: store.wait(7, 30))  # type: ignore[misc]


class Places(WithServers):
    def test_endpoints(self) -> None:
        for text, endpoint in (
            ("10.0.0.1:2379", StoreEndpoint("10.0.0.1", 2379)),
            ("store-1.example:1", StoreEndpoint("store-1.example", 1)),
            ("[::1]:65535", StoreEndpoint("::1", 65535)),
        ):
            self.assertEqual(store_endpoint_of(text), endpoint)
            self.assertEqual(str(endpoint), text)
        for wrong in (
            "",
            "a",
            "a:",
            ":1",
            "a:0",
            "a:65536",
            "a:01",
            "a:1 ",
            " a:1",
            "http://a:1",
            "a/b:1",
            "::1:1",
            "[::1]",
            "[1.2.3.4]:1",
            "[:]:1",
            "a:1\n",
            "-a:1",
            "é:1",
            "a" * 254 + ":1",
            "a:999999",
        ):
            with self.subTest(wrong), self.assertRaises(ValueError):
                store_endpoint_of(wrong)

    def test_a_name_that_is_not_known(self) -> None:
        for host in ("absent.invalid", "a" * 64 + ".invalid", "a..b"):
            with self.subTest(host):
                self.assertIn(
                    f"{host}:1: its address is not found",
                    fault_of(store_at(StoreEndpoint(host, 1)).read),
                )

    def test_a_name_with_an_address_that_refuses(self) -> None:
        """`localhost` may have one of each kind; the server listens at that of IPv4 alone."""
        server = self.server()
        self.assertEqual(store_at(StoreEndpoint("localhost", server.port)).read().revision, 7)

    def test_a_lookup_that_hangs(self) -> None:
        """The call ends in time, and the lookups do not add up."""
        ends = threading.Event()
        before, lookups = threading.active_count(), Lookups()

        def hang(*_: object, **__: object) -> object:
            ends.wait(60)
            raise socket.gaierror(-3, "Temporary failure in name resolution")

        self.addCleanup(ends.set)
        with mock.patch.object(socket, "getaddrinfo", hang):
            for _ in range(5):
                begun = time.monotonic()
                with self.assertRaises(TimeoutError):
                    lookups.addresses(StoreEndpoint("slow.invalid", 1), TimeLimit(0.1))
                seconds = time.monotonic() - begun
                self.assertTrue(is_within(seconds, 0.1 + LATER), seconds)
            self.assertEqual(threading.active_count(), before + 1)
            ends.set()
            self.assertTrue(comes(lambda: threading.active_count() == before))
        self.assertTrue(lookups.addresses(StoreEndpoint("127.0.0.1", 1), TimeLimit(5)))

    def test_all_that_refuse(self) -> None:
        one, other = port_that_refuses(), port_that_refuses()
        self.assertEqual(
            fault_of(lambda: store_at(one).write([], {"a": "1"})),
            f"etcd gives no answer: {one}: Connection refused",
        )
        self.assertEqual(
            fault_of(store_at(one, other).read),
            f"no endpoint of etcd gives an answer: {one}: Connection refused; {other}: Connection refused",
        )


class Limits(unittest.TestCase):
    def test_a_limit_that_is_over(self) -> None:
        limit = TimeLimit(0.05)
        self.assertTrue(0 < limit.share(2).left() <= 0.025)
        time.sleep(0.06)
        self.assertEqual(limit.rest(), 0)
        with self.assertRaises(TimeoutError):
            limit.left()
        with self.assertRaises(TimeoutError):
            limit.share(2)
        limit.extend(TimeLimit(5))
        self.assertGreater(limit.left(), 4)


if __name__ == "__main__":
    unittest.main()
