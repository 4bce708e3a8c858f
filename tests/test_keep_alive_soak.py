"""The soak of kept connections: its clients find each kind of wrong answer, at an endpoint that stands
in for a switch, and its verdicts on the access log and on what endpoints have read."""
import contextlib
import random
import socket
import threading
import unittest
from collections.abc import Callable, Iterator, Sequence
from unittest import mock

import keep_alive_soak
from support import checks, clients
from support.endpoints import END_OF_HEAD
from support.messages import refusal, request
from support.ports import HOST
from support.soak import contents
from support.soak.contents import content_of, target_of
from support.soak.visits import (
    KEPT,
    KINDS,
    Asked,
    Got,
    Visit,
    Visited,
    WrongAnswerError,
    judge,
    plan,
    visited,
)
from tests.synthetic_log import ANSWERED

LAST = b"\r\nConnection: close\r\n\r\n"
BAD_GATEWAY = refusal(b"502 Bad Gateway")
# A fault of a switch: what it makes of the answers to the requests of a connection.
Fault = Callable[[list[bytes]], list[bytes]]


def answer_to(head: bytes) -> bytes:
    """The right answer of a switch to a request without a body."""
    method, target, _ = head.split(b" ", 2)
    content = content_of(method, target, b"")
    answer = b"HTTP/1.1 200 OK\r\nContent-Length: %d" % len(content)
    answer += LAST if b"Connection: close" in head else END_OF_HEAD
    return answer if method == b"HEAD" else answer + content


@contextlib.contextmanager
def stand_in(fault: Fault) -> Iterator[int]:
    """The port of a server that reads requests without bodies, and writes what the fault makes of
    their right answers once nothing more comes: text by text, or nothing for long in the place of an
    empty one."""

    def serve(connection: socket.socket) -> None:
        with connection, contextlib.suppress(OSError):
            connection.settimeout(0.3)
            came = b""
            with contextlib.suppress(TimeoutError):
                while piece := connection.recv(65536):
                    came += piece
            heads = [head for head in came.split(END_OF_HEAD) if head.count(b" ") > 1]
            for text in fault(list(map(answer_to, heads))):
                if not text:
                    threading.Event().wait(2)
                connection.sendall(text)

    def accept() -> None:
        with contextlib.suppress(OSError):
            while True:
                threading.Thread(target=serve, args=(listener.accept()[0],), daemon=True).start()

    with socket.create_server((HOST, 0)) as listener:
        threading.Thread(target=accept, daemon=True).start()
        yield listener.getsockname()[1]


class Visits(unittest.TestCase):
    def setUp(self) -> None:
        weights = {contents.PLAIN: 1}
        self.enterContext(mock.patch("support.soak.visits.WEIGHTS", weights))
        self.enterContext(mock.patch("support.soak.visits.METHODS", (b"GET", b"HEAD")))
        self.enterContext(mock.patch.object(clients, "LONGEST", 1))

    def visit(self, fault: Fault, kind: str = "single") -> Visited:
        with stand_in(fault) as port:
            return visited(Visit(port, kind, 0, 1, 5, 0.1))

    def test_a_right_answer(self) -> None:
        made = self.visit(lambda answers: answers)
        self.assertEqual((made.wrong, made.was_cut), ([], False))
        self.assertEqual([(one.place, one.status) for one in made.got], [(1, 200)])

    def test_a_refusal(self) -> None:
        made = self.visit(lambda _: [BAD_GATEWAY])
        self.assertEqual((made.wrong, [one.status for one in made.got]), ([], [502]))
        self.assertEqual(made.got[0].size, len(BAD_GATEWAY))

    def test_wrong_answers(self) -> None:
        other = answer_to(request(target_of(contents.PLAIN, 99)) + b"Connection: close")
        faults: dict[str, Fault] = {
            "that of another request": lambda _: [other],
            "a part of it": lambda answers: [answers[0][:-3]],
            "more behind it": lambda answers: [*answers, b"HTTP/1.1 200 OK\r\n\r\n"],
            "one that does not close": lambda answers: [answers[0].replace(LAST, END_OF_HEAD)],
            "a status of nobody": lambda answers: [answers[0].replace(b"200", b"201")],
            "a content under a refusal": lambda answers: [answers[0].replace(b"200 OK", b"502 X")],
            "none for too long": lambda _: [b""],
        }
        for name, fault in faults.items():
            with self.subTest(name), mock.patch("support.soak.visits.METHODS", (b"GET",)):
                self.assertEqual(len(self.visit(fault).wrong), 1)

    def test_a_connection_that_ends_without_an_answer(self) -> None:
        made = self.visit(lambda _: [])
        self.assertEqual((made.was_cut, made.wrong), (True, []))
        self.assertEqual([one.status for one in made.got], [None])

    def test_a_client_that_goes_is_not_cut(self) -> None:
        made = self.visit(lambda _: [], "single_reset")
        self.assertEqual((made.was_cut, [one.status for one in made.got]), (False, [None]))

    def test_answers_in_another_order(self) -> None:
        """Two answers change places on a connection whose requests are sent ahead."""
        with stand_in(lambda answers: [answers[1], answers[0]]) as port:
            made = visited(Visit(port, "half_closed", 0, 2, 5, 0.1))
        self.assertEqual(len(made.wrong), 1)

    def test_a_fault_behind_requests(self) -> None:
        """A connection on which the fault gets no 400 is wrong."""
        with stand_in(lambda answers: answers) as port:
            made = visited(Visit(port, "fault", 0, 2, 5, 0.1))
        self.assertEqual((made.faults, len(made.wrong)), (0, 1))


class Plans(unittest.TestCase):
    def test_half_of_the_requests_are_on_kept_connections(self) -> None:
        visits = plan(20_000, (1, 2), 7, 1.0)
        total = sum(visit.requests for visit in visits)
        kept = sum(visit.requests for visit in visits if visit.kind in KEPT)
        self.assertTrue(0.49 < kept / total < 0.51, kept / total)
        self.assertEqual({visit.kind for visit in visits}, set(KINDS))
        self.assertEqual({visit.port for visit in visits}, {1, 2})

    def test_each_request_has_a_number_of_its_own(self) -> None:
        at = 0
        for visit in plan(5_000, (1, 2), 8, 1.0):
            self.assertEqual(visit.first, at)
            at += visit.requests

    def test_a_seed_gives_a_plan(self) -> None:
        self.assertEqual(plan(500, (1, 2), 9, 1.0), plan(500, (1, 2), 9, 1.0))
        self.assertNotEqual(plan(500, (1, 2), 9, 1.0), plan(500, (1, 2), 10, 1.0))


class Verdicts(unittest.TestCase):
    def failed(self, judged: Callable[[], object]) -> int:
        """How many checks fail."""
        counts = checks.Counts()
        with mock.patch.object(checks, "COUNTS", counts), mock.patch("builtins.print"):
            judged()
        return counts.failed

    def test_a_line_says_what_its_client_has_seen(self) -> None:
        line = ANSWERED._replace(response_bytes=70, connection_request=2)
        got = Got(b"/plain/1", 2, 200, 70)
        cases: Sequence[tuple[Got, list[object], bool]] = (
            (got, [line], True),
            (got, [], False),
            (got, [line, line], False),
            (got, [line._replace(status=502)], False),
            (got, [line._replace(connection_request=1)], False),
            (got, [line._replace(connection_request=None)], False),
            (got, [line._replace(response_bytes=71)], False),
            (got._replace(status=None, size=0), [], True),
            (got._replace(status=None, size=0), [line], True),
            (got._replace(status=None, size=0), [line, line], False),
        )
        for one, lines, is_right in cases:
            self.assertIs(keep_alive_soak.is_logged(one, lines), is_right)  # type: ignore[arg-type]

    def test_lines_of_nobody(self) -> None:
        made = [Visited([Got(b"/plain/1", 1, 200, 70)], faults=1)]
        line = ANSWERED._replace(target="/plain/1", response_bytes=70, connection_request=1)
        fault = ANSWERED._replace(target=None, status=400)
        good = [line, fault]
        for entries, count in (
            (good, 0),
            ([*good, line._replace(target="/plain/2")], 1),
            ([line], 1),
            ([*good, fault], 1),
            ([*good, fault._replace(status=None)], 1),
            ([fault], 1),
        ):
            failed = self.failed(lambda: keep_alive_soak.check_lines(made, entries))
            self.assertEqual(failed, count, entries)

    def test_calls_of_the_requests_that_entered(self) -> None:
        entries = [ANSWERED._replace(request=number) for number in (2, 1, None, 3)]
        for given, calls, count in (
            (entries, 6, 0),
            (entries, 8, 1),
            (entries[1:], 6, 2),
            ([*entries, entries[0]], 8, 1),
        ):
            failed = self.failed(lambda: keep_alive_soak.check_entered(given, calls))
            self.assertEqual(failed, count, (given, calls))

    def test_what_endpoints_have_read(self) -> None:
        made = [Visited([Got(b"/plain/1", 1, 200, 70), Got(b"/plain/2", 2, 502, 70)])]
        for notes, count in (
            (b"GET /plain/1\n", 0),
            (b"GET /plain/1\nGET /plain/1\nPOST /plain/2\n", 0),
            (b"GET /plain/1\n" * 3, 1),
            (b"GET /plain/1\nPOST /plain/2\nPOST /plain/2\n", 1),
            (b"GET /plain/2\n", 1),
            (b"GET /plain/1\nMALFORMED not enough\n", 1),
        ):
            failed = self.failed(lambda: keep_alive_soak.check_notes(made, notes))
            self.assertEqual(failed, count, notes)

    def test_a_kind_without_a_content_gets_none(self) -> None:
        chance = random.Random(1)
        for kind in (contents.DIES, contents.PLAIN):
            target, body = target_of(kind, 3), chance.randbytes(9)
            content = content_of(b"POST", target, body)
            asked = Asked(1, b"POST", target, b"", content, kind in contents.WHOLE)
            head = b"HTTP/1.1 200 OK\r\nContent-Length: %d" % len(content)
            if kind == contents.PLAIN:
                judge(asked, 200, head, content)
            else:
                self.assertRaises(WrongAnswerError, judge, asked, 200, head, content)
            other = content_of(b"POST", target, chance.randbytes(9))
            self.assertRaises(WrongAnswerError, judge, asked, 200, head, other)


if __name__ == "__main__":
    unittest.main()
