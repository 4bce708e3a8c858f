"""Lines that go to a control port or a control socket."""
import errno
import os
import socket
import tempfile
import threading
import time
import unittest
import unittest.mock
from collections.abc import Sequence

from bg_switch_tools.switch import connection
from bg_switch_tools.switch.connection import Connection, UnreachableError, ask, ask_report
from bg_switch_tools.switch.lines import Abort, Tick, words_of
from bg_switch_tools.switch.replies import Done
from bg_switch_tools.switch.reports import read_report
from support.pace import is_within
from tests.fake_port import ENDS, REPORT, FakePort, free_port


def usual(line: str) -> Sequence[str]:
    return REPORT if line == "report" else ["ok 0"]


class Words(unittest.TestCase):
    def test_spaces_alone_part_words(self) -> None:
        self.assertEqual(words_of(b"  tick   5 \r"), [b"tick", b"5"])
        self.assertEqual(words_of(b"tick\t5"), [b"tick\t5"])
        self.assertEqual(words_of(b""), [])


class Ask(unittest.TestCase):
    def test_a_line_is_sent_after_a_report(self) -> None:
        with FakePort(usual) as port:
            self.assertEqual(ask(port.port, b"tick 1", 5), ["ok 0"])
            self.assertEqual(port.lines, ["report", "tick 1"])

    def test_a_report_is_asked_once(self) -> None:
        with FakePort(usual) as port:
            self.assertEqual(ask(port.port, b" report ", 5), list(REPORT))
            self.assertEqual(port.lines, ["report"])

    def test_a_report_that_is_refused_has_one_line(self) -> None:
        with FakePort(lambda line: ["refused NotOpen"]) as port:
            self.assertEqual(ask(port.port, b"report", 5), ["refused NotOpen"])

    def test_quit_has_no_reply(self) -> None:
        with FakePort(lambda line: ENDS if line == "quit" else REPORT) as port:
            self.assertEqual(ask(port.port, b"quit", 5), [])
            self.assertEqual(port.lines, ["report", "quit"])

    def test_nothing_listens(self) -> None:
        with self.assertRaisesRegex(UnreachableError, "can't be reached"):
            ask(free_port(), b"report", 0.2)

    def test_a_switch_that_starts_is_waited_for(self) -> None:
        port = free_port()
        later: list[FakePort] = []
        timer = threading.Timer(0.3, lambda: later.append(FakePort(usual, port)))
        timer.start()
        self.assertEqual(ask(port, b"tick 1", 5), ["ok 0"])
        # the port answers before its thread has put it into the list
        timer.join()
        later[0].close()

    def test_a_port_that_gives_no_answer(self) -> None:
        with FakePort(usual) as port, Connection(port.port, 5) as holder:
            self.assertEqual(holder.answer(b"tick 1"), ["ok 0"])
            with self.assertRaisesRegex(UnreachableError, "gave no answer in time"):
                ask(port.port, b"tick 2", 0.2)
            holder.close()
            self.assertEqual(ask(port.port, b"tick 3", 5), ["ok 0"])
            self.assertNotIn("tick 2", port.lines)

    def test_no_reply_after_the_line_was_sent(self) -> None:
        with FakePort(lambda line: REPORT if line == "report" else ENDS) as port:
            with self.assertRaisesRegex(
                UnreachableError, "a report tells whether it was carried out"
            ):
                ask(port.port, b"promote", 5)

    def test_the_wait_is_for_the_whole_of_a_reply(self) -> None:
        def slowly(line: str) -> Sequence[str]:
            time.sleep(0.15)
            return ["ok 0"]

        with FakePort(slowly) as port, Connection(port.port, 0.4) as connection:
            with self.assertRaises(UnreachableError):
                connection.answers([b"tick 1"] * 6)

    def test_a_peer_that_is_no_switch(self) -> None:
        wrong_ones: list[list[str]] = [
            ["x" * 70000],
            ["HTTP/1.1 400 Bad Request"],
            ["moment 0"] * 200,
        ]
        for reply in wrong_ones:
            with FakePort(lambda line: reply) as port, self.assertRaisesRegex(
                UnreachableError, "is not a switch"
            ):
                ask(port.port, b"report", 5)


class Values(unittest.TestCase):
    """Lines and replies as values."""

    def test_each_line_has_its_reply(self) -> None:
        with FakePort(usual) as port, Connection(port.port, 5) as connection:
            self.assertEqual(connection.carry_out(Tick(1)), Done(0))
            self.assertEqual(connection.carry_out_all([Tick(2), Abort()]), [Done(0), Done(0)])
            self.assertEqual(port.lines, ["tick 1", "tick 2", "abort"])

    def test_a_report(self) -> None:
        with FakePort(usual) as port, Connection(port.port, 5) as connection:
            self.assertEqual(connection.ask_report(), read_report(REPORT))
        with FakePort(lambda line: ["refused NotOpen"]) as port:
            self.assertIsNone(ask_report(port.port, 5))

    def test_a_reply_that_is_none(self) -> None:
        for reply in ("", "done", "ok", "ok x", "refused", "HTTP/1.1 400 Bad Request"):
            with FakePort(lambda line: [reply]) as port, Connection(port.port, 5) as connection:
                with self.assertRaisesRegex(UnreachableError, "is not a switch"):
                    connection.carry_out(Tick(1))


class Sockets(unittest.TestCase):
    """Lines that go to a control socket."""

    def setUp(self) -> None:
        folder = tempfile.TemporaryDirectory()
        self.addCleanup(folder.cleanup)
        self.path = f"{folder.name}/control"

    def test_a_path_is_that_of_a_socket(self) -> None:
        with FakePort(usual, path=self.path) as port:
            self.assertEqual(ask(self.path, b"tick 1", 5), ["ok 0"])
            self.assertEqual(port.lines, ["report", "tick 1"])

    def test_what_messages_call_it(self) -> None:
        for reply, told in (
            (["refused NotAllowed"], f"the switch at socket {self.path} takes no lines"),
            (["x"], f"what answers at socket {self.path} is not a switch"),
        ):
            with FakePort(lambda line: reply, path=self.path) as port:
                with self.assertRaisesRegex(UnreachableError, told):
                    ask(port.control, b"report", 5)
            os.unlink(self.path)

    def test_no_socket_and_one_at_which_nobody_listens(self) -> None:
        with self.assertRaisesRegex(
            UnreachableError, f"^socket {self.path} can't be reached: No such"
        ):
            ask(self.path, b"report", 0.2)
        FakePort(usual, path=self.path).close()
        with self.assertRaisesRegex(
            UnreachableError, f"^socket {self.path} can't be reached: Conn"
        ):
            ask(self.path, b"report", 0.2)

    def test_a_switch_that_starts_is_waited_for(self) -> None:
        later: list[FakePort] = []
        timer = threading.Timer(0.3, lambda: later.append(FakePort(usual, path=self.path)))
        timer.start()
        self.assertEqual(ask(self.path, b"tick 1", 5), ["ok 0"])
        timer.join()
        later[0].close()

    def test_a_socket_that_this_user_may_not_open_is_told_at_once(self) -> None:
        refused = PermissionError(errno.EACCES, "Permission denied")
        with unittest.mock.patch.object(connection, "connected", side_effect=refused):
            start = time.monotonic()
            with self.assertRaisesRegex(
                UnreachableError, "can't be opened by this user: Permission"
            ):
                ask(self.path, b"report", 5)
            seconds = time.monotonic() - start
            self.assertTrue(is_within(seconds, 1), seconds)

    def test_a_socket_whose_backlog_is_full(self) -> None:
        with socket.create_server(self.path, family=socket.AF_UNIX, backlog=0):
            with socket.socket(socket.AF_UNIX) as first:
                first.connect(self.path)
                with self.assertRaisesRegex(UnreachableError, "others wait there already"):
                    ask(self.path, b"report", 0.3)


class Lines(unittest.TestCase):
    def test_several_lines_in_one_piece(self) -> None:
        with FakePort(usual) as port, Connection(port.port, 5) as connection:
            self.assertEqual(
                connection.answers([b"tick 1", b"report", b"tick 2"]),
                [["ok 0"], list(REPORT), ["ok 0"]],
            )

    def test_each_order_has_a_deadline_of_its_own(self) -> None:
        with FakePort(usual) as port, Connection(port.port, 2) as connection:
            for _ in range(3):
                self.assertEqual(connection.answer_to("tick 1"), "ok 0")
                time.sleep(0.9)

    def test_orders_of_this_user_are_not_taken(self) -> None:
        for line in ("report", "abort", "quit"):
            with FakePort(lambda line: ["refused NotAllowed"]) as port, self.assertRaisesRegex(
                UnreachableError, "no lines of this user"
            ):
                ask(port.port, line.encode("ascii"), 5)
        with FakePort(lambda line: ["refused NotAllowed"]) as port, Connection(
            port.port, 1
        ) as connection:
            with self.assertRaisesRegex(UnreachableError, "no lines of this user"):
                connection.quit()

    def test_the_switch_ends_the_connection(self) -> None:
        with FakePort(lambda line: ENDS) as port, Connection(port.port, 5) as connection:
            with self.assertRaisesRegex(UnreachableError, "ended the connection"):
                connection.answer_to("tick 1")


if __name__ == "__main__":
    unittest.main()
