"""What scripts/read_alike.py sees of a connection: the requests that a server reads."""
import contextlib
import io
import shutil
import socket
import threading
import unittest
from collections.abc import Callable
from unittest import mock

from support.clients import received
from support.reserved import HOST
from support.smuggling import read_by_gunicorn
from support.smuggling.echo import Echo, MalformedRequestError, request_in
from support.smuggling.messages import HIDDEN, chunks, head
from support.smuggling.readings import (
    INPUT_HAS_ENDED,
    Read,
    Reading,
    answer_to,
    case_of,
    items_in,
    reading_at,
    reading_of_ended,
    shortened,
    told,
)
from support.smuggling.servers import running


def served(serve: Callable[[socket.socket], object]) -> int:
    """The port of a server that takes one connection."""
    listener = socket.create_server((HOST, 0))

    def accept() -> None:
        with listener, listener.accept()[0] as connection, contextlib.suppress(OSError):
            serve(connection)

    threading.Thread(target=accept, daemon=True).start()
    port: int = listener.getsockname()[1]
    return port


def answers_all(connection: socket.socket) -> None:
    """Answers the requests of a connection, up to one that asks for its end or is malformed."""
    with connection.makefile("rb") as stream:
        is_last = False
        while not is_last:
            begin = stream.peek(65536) if isinstance(stream, io.BufferedReader) else b""
            is_last = b"Connection: close" in begin.partition(b"\r\n\r\n")[0]
            try:
                connection.sendall(answer_to(request_in(stream, connection.sendall)))
            except MalformedRequestError:
                connection.sendall(b"HTTP/1.1 400 Bad Request\r\nContent-Length: 0\r\n\r\n")
                return


def answers_at_the_end(connection: socket.socket) -> None:
    """Answers the requests of a connection once its input has ended."""
    stream = io.BytesIO(received(connection))
    with contextlib.suppress(MalformedRequestError):
        while True:
            connection.sendall(answer_to(request_in(stream, connection.sendall)))


# How long a client waits for a server that ends its connection, and for one that does not.
LONG, SHORT = 30.0, 0.7


class Connections(unittest.TestCase):
    def test_what_servers_make_of_a_connection(self) -> None:
        m = Read(b"POST", b"/m", HIDDEN)
        second, third = (Read(b"GET", target, b"") for target in (b"/second-1", b"/third-1"))
        whole, cut = head(b"Content-Length: 36") + HIDDEN, head(b"Content-Length: 9999") + HIDDEN
        by_chunks = head(b"Transfer-Encoding: chunked") + chunks()
        refusal = b"HTTP/1.1 400 Bad Request\r\n\r\n"

        def is_silent(connection: socket.socket) -> None:
            threading.Event().wait(LONG)

        def refuses(connection: socket.socket) -> None:
            connection.sendall(refusal)
            is_silent(connection)

        for serve, text, quiet, reading in (
            (answers_all, whole, LONG, Reading((m, second, third))),
            (answers_all, by_chunks, LONG, Reading((m, second, third))),
            (answers_all, whole + b"x\r\n", LONG, Reading((m, 400))),
            (answers_all, cut, SHORT, Reading((), True)),
            (answers_at_the_end, whole, SHORT, Reading((m, second, third))),
            (is_silent, whole, SHORT, Reading((), True)),
            (refuses, whole, SHORT, Reading((400,))),
            (lambda peer: peer.recv(4096), whole, LONG, Reading(())),
        ):
            with self.subTest(reading):
                case = case_of(text, 1, 2)
                self.assertEqual(reading_at(served(serve), case.stream, case.last, quiet), reading)

    def test_a_client_that_ends_its_input_at_once(self) -> None:
        case = case_of(head(b"Content-Length: 36") + HIDDEN, 1, 1)
        m, second = Read(b"POST", b"/m", HIDDEN), Read(b"GET", case.last, b"")
        ended = b"HTTP/1.1 %d Ended\r\n\r\n" % INPUT_HAS_ENDED
        for serve, reading in (
            (answers_all, Reading((m, second))),
            (lambda peer: peer.sendall(answer_to(m) + ended), Reading((m,), True)),
        ):
            self.assertEqual(reading_of_ended(served(serve), case.stream, LONG), reading)

    def test_an_endpoint_tells_what_it_has_read(self) -> None:
        echo = Echo()
        for text in (
            head(b"Content-Length: 36") + HIDDEN,
            head(b"Transfer-Encoding: chunked") + chunks(),
        ):
            reading = reading_at(echo.port, text, b"/m", LONG)
            self.assertEqual(reading, Reading((Read(b"POST", b"/m", HIDDEN),)))

    def test_which_answers_count(self) -> None:
        read, of_head = Read(b"GET", b"/m", b"\0\xff"), Read(b"HEAD", b"/m", b"")
        simple = answer_to(read).partition(b"\r\n\r\n")[2]
        self.assertEqual(
            items_in(
                b"HTTP/1.1 100 Continue\r\n\r\n"
                + answer_to(of_head)
                + answer_to(read)
                + b"HTTP/1.1 404 Not Found\r\nContent-Length: 2\r\n\r\nno"
                + b"HTTP/1.1 101 Switching Protocols\r\n\r\n"
                + simple
            ),
            (of_head, read, 404, 101, read),
        )

    def test_what_is_long_is_told_by_its_beginning_and_length(self) -> None:
        long = Read(b"GET", b"/" + b"m" * 2000, b"a" * 3000)
        self.assertEqual(items_in(answer_to(long)), (Read(*map(shortened, long)),))
        self.assertTrue(shortened(long.body).endswith(b"aa..3000"))


class Applications(unittest.TestCase):
    """The applications of gunicorn and node tell what they read as the endpoint does."""

    def answer(self, body: object, length: str = "") -> tuple[str, dict[str, str], bytes]:
        answers = list[tuple[str, dict[str, str]]]()
        environment = {
            "REQUEST_METHOD": "POST",
            "RAW_URI": "/m\xe9",
            "wsgi.input": body,
            "CONTENT_LENGTH": length,
        }
        pieces = read_by_gunicorn.application(
            environment, lambda status, fields: answers.append((status, dict(fields)))
        )
        return *answers[0], b"".join(pieces)

    def test_the_application_of_gunicorn(self) -> None:
        for body in (b"hello", b"a" * 2000, b""):
            status, fields, told_body = self.answer(io.BytesIO(body), str(len(body)))
            word = told(Read(b"POST", b"/m\xe9", body))
            self.assertEqual((status, fields["X-Read"]), ("200 OK", word.decode()))
            self.assertEqual(told_body, b"READ " + word + b"\n")

    def test_its_input_may_end_early(self) -> None:
        cut = mock.Mock()
        cut.read.side_effect = type("NoMoreData", (Exception,), {})  # gunicorn's own name
        for body, length in ((io.BytesIO(b"hell"), "5"), (cut, "")):
            self.assertEqual(self.answer(body, length)[0].split()[0], str(INPUT_HAS_ENDED))
        cut.read.side_effect = ValueError
        self.assertRaises(ValueError, self.answer, cut)

    @unittest.skipUnless(shutil.which("node"), "node is not installed")
    def test_node_as_a_server(self) -> None:
        with running("node", 0, 0.3) as server:
            case = case_of(head(b"Content-Length: 36") + HIDDEN, 1, 2)
            reading = server.read(case.stream, case.last, 10.0)
            cut = case_of(head(b"Content-Length: 9999") + HIDDEN, 2, 2)
            self.assertEqual(server.read(cut.stream, cut.last), Reading((), True))
        behind = (Read(b"GET", target, b"") for target in case.followers)
        self.assertEqual(reading, Reading((Read(b"POST", b"/m", HIDDEN), *behind)))


if __name__ == "__main__":
    unittest.main()
