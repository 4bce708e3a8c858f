"""scripts/read_alike.py finds texts of the switch that are ambiguous, or that a server reads
otherwise."""
import collections
import contextlib
import io
import socket
import sys
import unittest
from typing import NamedTuple

import read_alike
from support.messages import response
from support.reserved import HOST
from support.smuggling.differences import DIFFERENCES
from support.smuggling.forwarded import (
    CLOSE,
    Answered,
    Forwarded,
    Judged,
    Recorder,
    Verdict,
    is_whole,
    judged,
    kept_alive,
    strictly_read,
    switch,
    worst_of,
)
from support.smuggling.forwarded import MalformedTextError as MalformedTextError
from support.smuggling.messages import HIDDEN, chunks, head
from support.smuggling.readings import Read, Reading
from support.smuggling.servers import KINDS
from tests.stand_in_readers import BY_CODING, BY_LENGTH, GOOD, StandIn, named
from tests.tool_runs import TOP

ALIKE, DOCUMENTED, FAILED = Verdict.ALIKE, Verdict.DOCUMENTED, Verdict.FAILED


class Texts(unittest.TestCase):
    """What the switch wrote, as texts that the tests plant."""

    def judge(self, text: bytes, *readers: StandIn) -> tuple[list[Judged], str]:
        """How these readers read a text, and what the script prints of it."""
        message = named("length-value/plus")
        texts = [Forwarded(named("target/dots"), GOOD), Forwarded(message, text)]
        rows = read_alike.judge_all(readers, texts)
        with contextlib.redirect_stdout(io.StringIO()) as printed:
            counts = read_alike.tell_judged(rows, False)
        verdicts = [worst_of(each.verdict for each in row) for row in rows]
        self.assertEqual(counts, collections.Counter(verdicts))
        self.assertIs(verdicts[0], ALIKE)
        return rows[1], printed.getvalue()

    def test_a_text_that_all_read_alike(self) -> None:
        row, printed = self.judge(GOOD.replace(b"/m", b"/n"), BY_LENGTH, BY_CODING)
        self.assertEqual(([each.verdict for each in row], printed), ([ALIKE, ALIKE], ""))

    def test_a_text_that_a_reader_reads_differently_is_told_by_name(self) -> None:
        text = GOOD.replace(b"Host", b"Content_Length: 0\r\nHost", 1)
        row, printed = self.judge(text, BY_LENGTH, StandIn("joins", joins=b"_"))
        self.assertEqual([each.verdict for each in row], [ALIKE, FAILED])
        self.assertEqual(
            printed,
            f"FAILED: length-value/plus ({row[0].forwarded.message.source}): joins reads POST /m,"
            f" GET /smuggle, GET /second-1; bg_switch wrote {text!r}\n",
        )

    def test_a_text_that_is_ambiguous_is_told_by_name(self) -> None:
        """Even if both readers take the same end of it."""
        text = head(b"Content-Length: 51", b"Transfer-Encoding: chunked") + chunks()
        _, printed = self.judge(text, BY_CODING, BY_CODING._replace(name="b"))
        self.assertEqual(printed.count("FAILED: length-value/plus ("), 1)
        self.assertIn("it has a Transfer-Encoding; bg_switch wrote", printed)

    def test_a_reader_that_waits_is_asked_with_patience(self) -> None:
        class Slow(NamedTuple):
            name: str
            patiences: list[float]

            def read(self, stream: bytes, last: bytes, patience: float = 1.0) -> Reading:
                self.patiences.append(patience)
                return BY_LENGTH.read(stream, last) if patience > 1.0 else Reading((), True)

        slow = Slow("slow", [])
        self.assertIs(judged(Forwarded(named("target/dots"), GOOD), slow, 1).verdict, ALIKE)
        self.assertEqual(slow.patiences, [1.0, 10.0] * 2)

    def test_a_documented_difference_is_no_other_end(self) -> None:
        """lighttpd may refuse GET with a body; nginx may not, and lighttpd may not find another
        end."""
        text = GOOD.replace(b"POST", b"GET")
        none = ()
        for reader, verdict in (
            (StandIn("lighttpd", refuses=b"GET"), DOCUMENTED),
            (StandIn("nginx", refuses=b"GET"), FAILED),
            (StandIn("lighttpd", prefers=none), FAILED),
            (StandIn("lighttpd"), ALIKE),
        ):
            with self.subTest(reader):
                its = judged(Forwarded(named("length-value/plus"), text), reader, 1)
                self.assertIs(its.verdict, verdict)

    def test_which_requests_a_documented_difference_concerns(self) -> None:
        expected = {each.row: 1 for each in DIFFERENCES}
        for row, line, field in (
            ("a target in absolute form", b"GET http://web/m", b"X: a"),
            ("a target that does not begin with `/`", b"OPTIONS *", b"X: a"),
            ("a target with `#`", b"GET /m#f", b"X: a"),
            ("a target with bytes above 127", b"GET /\xc3\xa9", b"X: a"),
            ("a path or a query in another spelling", b"GET /a/../m", b"X: a"),
            ("a Host that is no host and port", b"GET /m", b"Host: a b"),
            ("a method that few servers know", b"get /m", b"X: a"),
            ("an Expect", b"GET /m", b"Expect: x"),
            (
                "a line of more than 4,094 bytes, or a name of more than 255",
                b"GET /m",
                b"X" * 256 + b": a",
            ),
            (
                "a line of more than 4,094 bytes, or a name of more than 255",
                b"GET /m",
                b"X: " + b"a" * 4094,
            ),
            ("POST without a length", b"POST /m", b"X: a"),
            ("GET or HEAD with a body", b"GET /m", b"Content-Length: 1"),
            ("", b"GET /m?x=/..//y", b"X: a"),
            ("", b"POST /m/.n;o", b"Content-Length: 0"),
            ("", b"OPTIONS /", b"Host: [::1]:80"),
        ):
            with self.subTest(line + field[:20]):
                body = b"a" * (row == "GET or HEAD with a body")
                request = strictly_read(head(field, line=line + b" HTTP/1.1") + body)
                rows = [each.row for each in DIFFERENCES if each.concerns(request)]
                self.assertEqual(rows, [row] if row else [])
                expected.pop(row, None)
        self.assertEqual(expected, {})

    def test_texts_that_are_no_request(self) -> None:
        good = strictly_read(GOOD)
        self.assertEqual(good.read, Read(b"POST", b"/m", HIDDEN))
        for wrong, right in (
            (b"HTTP/1.1\r\n", b"HTTP/1.0\r\n"),
            (b"POST /m", b"POST  /m"),
            (b"Host: web", b"Host : web"),
            (b"Host: web", b"Host: web\r\n b"),
            (b"Host: web", b"Host: web\rX: a"),
            (b"Host: web", b"Host: web\nX: a"),
            (b"Host: web", b"Host: web\0"),
            (b"Host: web", b": web"),
            (b"Host: web", b"Host"),
            (b"Content-Length: 36", b"Content-Length: 35"),
            (b"Content-Length: 36", b"Content-Length: 036"),
            (b"Content-Length: 36", b"Content-Length: 36\r\nContent-Length: 36"),
            (b"Content-Length: 36", b"X: a"),
            (b"Content-Length: 36", b"Transfer-Encoding: chunked"),
            (b"\r\n\r\n", b"\r\n"),
        ):
            with self.subTest(right), self.assertRaises(MalformedTextError):
                strictly_read(GOOD.replace(wrong, right))

    def test_only_the_field_that_ends_the_connection_is_left_out(self) -> None:
        self.assertEqual(kept_alive(GOOD), GOOD.replace(b"Connection: close\r\n", b"", 1))
        body = b"a\r\nConnection: close\r\n\r\n"
        text = b"POST / HTTP/1.1\r\nHost: web\r\nContent-Length: 23\r\n\r\n" + body
        self.assertEqual(kept_alive(text), text)

    def test_a_refused_request_that_is_forwarded_is_told(self) -> None:
        message = named("length-value/plus")
        answered = {message.name: [Answered((400,), ()), Answered((400,), (GOOD,))]}
        texts, wrong = read_alike.texts_of([message], answered)
        self.assertEqual(texts, [Forwarded(message, GOOD)])
        self.assertEqual(wrong, [f"length-value/plus: answered (400,), and forwarded {(GOOD,)!r}"])


# A program with the words of `serve` that forwards the bytes of a connection as they came.
FAULTY = """
import contextlib, socket, sys, threading
words = sys.argv[1:]
active, control = (socket.create_server(("127.0.0.1", int(words[words.index(name) + 1])))
    for name in ("--active", "--control"))
print("listening", flush=True)
operator = control.accept()[0].makefile("rw")
for _ in range(2):
    line = operator.readline().split()
    endpoint = int(line[2]) if line[0] == "open" else endpoint
    print("ok 0", file=operator, flush=True)
def passed(source, sink):
    with contextlib.suppress(OSError):
        while piece := source.recv(65536):
            sink.sendall(piece)
        sink.shutdown(socket.SHUT_WR)
while True:
    with active.accept()[0] as client, socket.create_connection(("127.0.0.1", endpoint)) as server:
        threading.Thread(target=passed, args=(client, server), daemon=True).start()
        passed(server, client)
"""


class Switches(unittest.TestCase):
    def test_a_switch_that_forwards_what_came_is_found(self) -> None:
        messages = [named("both-framings/cl.te-length-first"), named("target/query")]
        with switch((sys.executable, "-c", FAULTY)) as one:
            answered = read_alike.answers_of(one, messages)
        texts, wrong = read_alike.texts_of(messages, answered)
        self.assertEqual(wrong, [])
        self.assertEqual(texts[0].text, messages[0].text)
        with contextlib.redirect_stdout(io.StringIO()) as printed:
            read_alike.tell_judged(read_alike.judge_all([BY_LENGTH, BY_CODING], texts), False)
        self.assertIn("FAILED: both-framings/cl.te-length-first (RFC 9112", printed.getvalue())

    def test_a_switch_that_does_not_listen_is_an_error(self) -> None:
        with self.assertRaises(RuntimeError), switch((sys.executable, "-c", "")):
            pass

    def test_all_bytes_of_a_connection_are_recorded(self) -> None:
        recorder = Recorder()
        with socket.create_connection((HOST, recorder.port)) as connection:
            connection.sendall(GOOD)
            while connection.recv(4096):
                pass
            connection.sendall(b"more")
        self.assertEqual(recorder.texts.get(timeout=30), GOOD + b"more")

    def test_requests_of_a_kept_connection_are_recorded(self) -> None:
        """Each is a text, with what came behind it before its answer."""
        recorder, kept = Recorder(), GOOD.replace(CLOSE, b"")
        with socket.create_connection((HOST, recorder.port)) as connection:
            for text in (kept, kept + b"more", GOOD):
                connection.sendall(text)
                self.assertEqual(connection.recv(4096), response(b""))
        texts = [recorder.texts.get(timeout=30) for _ in range(3)]
        self.assertEqual(texts, [kept, kept + b"more", GOOD])

    def test_a_part_behind_kept_requests_is_recorded(self) -> None:
        recorder, kept = Recorder(), GOOD.replace(CLOSE, b"")
        with socket.create_connection((HOST, recorder.port)) as connection:
            connection.sendall(kept)
            self.assertEqual(connection.recv(4096), response(b""))
            connection.sendall(kept[:9])
        texts = [recorder.texts.get(timeout=30) for _ in range(2)]
        self.assertEqual(texts, [kept, kept[:9]])

    def test_whether_the_answers_are_those_of_the_endpoint(self) -> None:
        for statuses, count, is_plain, is_kept in (
            ((200,), 1, True, True),
            ((200, 200), 2, True, True),
            ((200, 400), 1, False, True),
            ((200,), 2, False, False),
            ((200, 200), 1, False, False),
            ((400, 200), 1, False, False),
            ((200, 400, 400), 1, False, False),
        ):
            answered = Answered(statuses, (GOOD,) * count)
            told = (answered.is_answered(), answered.is_answered(keeps=True))
            self.assertEqual(told, (is_plain, is_kept), statuses)

    def test_when_a_request_is_whole(self) -> None:
        self.assertEqual({is_whole(GOOD[:count]) for count in range(len(GOOD))}, {False})
        self.assertTrue(is_whole(GOOD))
        self.assertTrue(is_whole(b"GET / HTTP/1.1\r\n\r\n"))


class Page(unittest.TestCase):
    def test_the_table_of_the_page_has_the_differences(self) -> None:
        """Each row names what it concerns, and has a cell for each server that differs."""
        page = (TOP / "docs" / "HTTP.md").read_text(encoding="utf-8")
        part = page.split("## Whether servers read alike what is forwarded")[1].split("\n## ")[0]
        titles, _, *rows = [
            [cell.strip() for cell in line.strip("|").split(" | ")]
            for line in part.splitlines()
            if line.startswith("|")
        ]
        self.assertEqual(titles[1:], list(KINDS))
        found = {
            row: tuple(name for name, cell in zip(KINDS, cells) if cell) for row, *cells in rows
        }
        expected = {each.row: each.servers for each in DIFFERENCES}
        for row, servers in expected.items():
            with self.subTest(row):
                names = [name for name in found if name.startswith(row)]
                self.assertEqual([set(found[name]) for name in names], [set(servers)])
        self.assertEqual(len(found), len(expected))


if __name__ == "__main__":
    unittest.main()
