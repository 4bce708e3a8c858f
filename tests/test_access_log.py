"""The access log: its lines, and a file that grows, is renamed, is cut, and ends within a line."""
import json
import pathlib
import tempfile
import unittest
from collections.abc import Callable
from unittest import mock

from bg_switch_tools.switch import access_log
from bg_switch_tools.switch.access_log import (
    Follower,
    LogEntry,
    LogEntryError,
    LostLines,
    read_line,
    time_text,
    written,
)
from tests.costs import processor_seconds_of, steps_of
from tests.synthetic_log import (
    ANSWERED,
    BEGIN,
    CUTS,
    REFUSALS,
    GrowingLog,
    Part,
    cut_off,
    entries,
    refused,
)

LINE = (
    b'{"time":"2026-11-25T18:03:12.042Z","service":"active","revision":2,"request":17,"port":9201,"method":"GET",'
    b'"target":"/a?\\u003cscript\\u003e","status":200,"end":"answered","reason":null,"request_bytes":78,"response_bytes":5,'
    b'"duration_ms":4.25,"upstream_ms":3}'
)

# What a member that a line need not have is tried with, and which of these none of them can be.
OPTIONAL_VALUES = (
    *(b"null", b"true", b"false", b"0", b"3", b"18446744073709551615", b"18446744073709551616"),
    *(b"-1", b"1.5", b"1e400", b'"3"', b'"true"', b"[]", b"{}"),
)
NEVER = (b"18446744073709551616", b"-1")
LINES_A_SECOND = 20_000


class Lines(unittest.TestCase):
    def test_every_value(self) -> None:
        expected = LogEntry(
            1795629792.042,
            "active",
            2,
            17,
            9201,
            "GET",
            "/a?<script>",
            200,
            "answered",
            None,
            78,
            5,
            4.25,
            3,
        )
        self.assertEqual(read_line(LINE), expected)
        self.assertEqual(
            read_line(b'{"time": "2026-11-25T19:03:12+01:00", "lost": 12}'),
            LostLines(1795629792.0, 12),
        )
        self.assertEqual(read_line(b'{"time": null, "lost": 12}'), LostLines(None, 12))

    def test_members_that_a_line_need_not_have(self) -> None:
        expected = read_line(LINE)
        assert isinstance(expected, LogEntry)
        self.assertEqual((expected.slot_port, expected.tries), (None, None))
        self.assertEqual(
            read_line(LINE[:-1] + b',"slot_port":9202,"tries":3}'),
            expected._replace(slot_port=9202, tries=3),
        )
        self.assertEqual(
            read_line(LINE[:-1] + b',"slot_port":null,"tries":1}'), expected._replace(tries=1)
        )
        self.assertEqual(
            read_line(LINE[:-1] + b',"idle_connections":4}'), expected._replace(idle_connections=4)
        )
        self.assertEqual((expected.connection_request, expected.upstream_reused), (None, None))
        for member, is_reused in ((b"true", True), (b"false", False)):
            kept = read_line(
                LINE[:-1] + b',"connection_request":3,"upstream_reused":' + member + b"}"
            )
            self.assertEqual(
                kept, expected._replace(connection_request=3, upstream_reused=is_reused)
            )
            # 1 == True, which no caller should depend on
            assert isinstance(kept, LogEntry)
            self.assertIs(kept.upstream_reused, is_reused)

    def test_each_member_that_a_line_need_not_have(self) -> None:
        """Its values are those of its types, and no others."""
        expected = read_line(LINE)
        assert isinstance(expected, LogEntry)
        for name, types in access_log.OPTIONAL.items():
            self.assertIsNone(getattr(expected, name))
            for text in OPTIONAL_VALUES:
                line = LINE[:-1] + b',"%b":%b}' % (name.encode(), text)
                value = json.loads(text)
                with self.subTest(name=name, value=text):
                    if type(value) in types and text not in NEVER:
                        read = read_line(line)
                        self.assertEqual(read, expected._replace(**{name: value}))
                        self.assertIs(type(getattr(read, name)), type(value))
                    else:
                        self.assertRaises(LogEntryError, read_line, line)

    def test_a_request_on_a_kept_connection(self) -> None:
        for number, is_kept in ((None, False), (1, False), (2, True), (1000, True)):
            entry = ANSWERED._replace(connection_request=number)
            self.assertIs(entry.is_on_kept_connection, is_kept, number)

    def test_how_long_an_answer_took(self) -> None:
        """A tunnel lasts for as long as its peers want: its answer is its head, if that was written."""
        self.assertEqual(ANSWERED.answer_ms, ANSWERED.duration_ms)
        tunnel = ANSWERED._replace(status=101, tunnel="whole", duration_ms=86_400_000.0)
        self.assertEqual(tunnel.answer_ms, ANSWERED.upstream_ms)
        self.assertIsNone(tunnel._replace(upstream_ms=None).answer_ms)

    def test_when_a_request_began(self) -> None:
        """Of a later request of a connection the duration counts from its first byte on."""
        for number in (None, 1, 2):
            entry = ANSWERED._replace(time=BEGIN + 9, duration_ms=2000.0, connection_request=number)
            self.assertEqual(entry.begun, BEGIN + 7, number)

    def test_a_refusal_without_an_endpoint(self) -> None:
        told = [reason for reason, *_ in REFUSALS if refused(reason).is_without_endpoint]
        self.assertEqual((told, ANSWERED.is_without_endpoint), (["no_endpoint"], False))

    def test_it_keeps_up_with_20000_lines_a_second(self) -> None:
        """To read a line costs no more than few times what its JSON costs, and a line costs no more
        beside others."""
        lines = [
            written(entry).rstrip(b"\n")
            for entry in entries([Part(1, LINES_A_SECOND // 2), Part(2, LINES_A_SECOND // 2, 0.01)])
        ]
        self.assertEqual(len(access_log.read_lines(lines).entries), LINES_A_SECOND)
        of_json = processor_seconds_of(lambda: [json.loads(line) for line in lines])
        self.assertLess(processor_seconds_of(lambda: access_log.read_lines(lines)), 4 * of_json)
        few = steps_of(lambda: access_log.read_lines(lines[:1000]))
        self.assertLess(steps_of(lambda: access_log.read_lines(lines[:2000])), 2.2 * few)

    def test_what_is_written_is_read(self) -> None:
        told = [
            ANSWERED,
            *(refused(reason) for reason, *_ in REFUSALS),
            *map(cut_off, CUTS),
            ANSWERED._replace(target='"\\\n\u2028<'),
            ANSWERED._replace(connection_request=1, upstream_reused=False),
            ANSWERED._replace(connection_request=2, upstream_reused=True),
            ANSWERED._replace(connection_request=3),
            ANSWERED._replace(
                status=None, end="closed", request_bytes=None, response_bytes=None, upstream_ms=None
            ),
            LogEntry(
                BEGIN,
                "active",
                None,
                None,
                None,
                None,
                None,
                None,
                "closed",
                None,
                None,
                None,
                0,
                None,
            ),
        ]
        self.assertEqual([read_line(written(entry)) for entry in told], told)
        self.assertEqual(time_text(1795629792.042), "2026-11-25T18:03:12.042Z")

    def test_errors(self) -> None:
        for status, is_error in (
            (200, False),
            (404, False),
            (499, False),
            (500, True),
            (503, True),
            (None, True),
        ):
            self.assertEqual(ANSWERED._replace(status=status).is_error, is_error, status)

    def test_a_client_that_has_gone(self) -> None:
        told = [reason for reason, *_ in REFUSALS if refused(reason).has_client_gone]
        self.assertEqual((told, refused("client_gone").is_error), (["client_gone"], False))
        self.assertEqual(
            (refused("given_up").has_client_gone, refused("given_up").is_error), (False, True)
        )

    def test_a_response_that_was_cut(self) -> None:
        """It is an error where a refusal for the same reason is one."""
        for reason in CUTS:
            entry = cut_off(reason)
            self.assertEqual((entry.end, entry.status), ("cut", refused(reason).status), reason)
            self.assertEqual(entry.is_error, refused(reason).is_error, reason)
        told = [reason for reason in CUTS if not cut_off(reason).is_error]
        self.assertEqual(told, ["head", "body"])

    def test_what_is_no_line(self) -> None:
        whole = json.loads(LINE)
        for name, value in whole.items():
            wrong = {"x": 1} if value is None else [value]
            without = {key: each for key, each in whole.items() if key != name}
            for told in ({**whole, name: wrong}, {**whole, name: True}, without):
                with self.subTest(member=name, told=told), self.assertRaises(LogEntryError):
                    read_line(json.dumps(told).encode())
        for told in (
            b"",
            b"{}",
            b"[]",
            LINE[:-1],
            LINE.replace(b"active", b"both"),
            LINE.replace(b"answered", b"gone"),
            LINE.replace(b"4.25", b"NaN"),
            LINE.replace(b"4.25", b"1e999"),
            LINE.replace(b"4.25", b"-1"),
            LINE.replace(b".042Z", b""),
            b'{"time": "now", "lost": 1}',
            LINE.replace(b"4.25", b"1" * 400),
            LINE.replace(b"4.25", b"1.7e308"),
            LINE.replace(b'"upstream_ms":3', b'"upstream_ms":1e999'),
            LINE.replace(b'"response_bytes":5', b'"response_bytes":' + b"5" * 400),
            b'{"time": "2026-11-25T18:03:12Z", "lost": ' + b"1" * 400 + b"}",
            b"\xff",
            b"[" * 100000,
        ):
            with self.subTest(line=told[:80]), self.assertRaises(LogEntryError):
                read_line(told)

    def test_further_members_are_passed_over(self) -> None:
        self.assertEqual(read_line(LINE[:-1] + b',"more":[1]}'), read_line(LINE))


class Files(unittest.TestCase):
    def setUp(self) -> None:
        folder = tempfile.TemporaryDirectory()
        self.addCleanup(folder.cleanup)
        self.log = GrowingLog(pathlib.Path(folder.name) / "access.log")
        self.told = list(entries([Part(1, 60)]))

    def follow(self, backlog: int = 0) -> Follower:
        follower = Follower(str(self.log.path), backlog)
        self.addCleanup(follower.close)
        return follower

    def numbers(self, follower: Follower) -> list[int | None]:
        return [entry.request for entry in follower.read().entries]

    def test_from_the_end_on(self) -> None:
        self.log.add(self.told[:5])
        follower = self.follow()
        self.assertEqual(self.numbers(follower), [])
        self.log.add(self.told[5:7])
        self.assertEqual((self.numbers(follower), self.numbers(follower)), ([6, 7], []))

    def test_a_backlog_begins_with_a_whole_line(self) -> None:
        self.log.add(self.told[:5])
        for back in range(1, len(written(self.told[4]))):
            self.assertEqual(self.numbers(self.follow(back)), [5], back)
        follower = self.follow(1 << 20)
        self.assertTrue(follower.is_behind)
        self.assertEqual(self.numbers(follower), [1, 2, 3, 4, 5])
        self.assertFalse(follower.is_behind)

    def test_nothing_is_from_before_once_the_file_is_replaced_or_cut(self) -> None:
        """Even if the new file is smaller than the one that was followed first."""

        def cut() -> None:
            self.log.path.write_bytes(b"")

        changes: tuple[Callable[[], object], ...] = (self.log.rename, cut)
        for change in changes:
            cut()
            self.log.add(self.told[:50])
            follower = self.follow(1 << 20)
            self.assertEqual((len(self.numbers(follower)), follower.is_behind), (50, False))
            change()
            self.log.add(self.told[50:])
            self.assertEqual(
                (self.numbers(follower), follower.is_behind), (list(range(51, 61)), False)
            )
            with mock.patch.object(access_log, "READ_ON_SECONDS", 0.0):
                follower.read()
            self.assertEqual((len(follower.files), follower.is_behind), (1, False))

    def test_a_line_that_comes_in_pieces(self) -> None:
        line = written(self.told[0])
        for cut in (1, 40, len(line) - 1):
            self.log.add_bytes(line[:cut])
            follower = self.follow()
            self.assertEqual(self.numbers(follower), [])
            self.log.add_bytes(line[cut:])
            self.assertEqual(self.numbers(follower), [1], cut)

    def test_a_rename_under_writing(self) -> None:
        """Lines that still come into the renamed file are read, and so is the file in its place."""
        follower = self.follow()
        self.log.add(self.told[:3])
        moved = self.log.rename()
        self.assertEqual(self.numbers(follower), [1, 2, 3])
        late = GrowingLog(moved)
        late.add(self.told[3:5])
        self.log.add(self.told[5:7])
        self.assertEqual(self.numbers(follower), [4, 5, 6, 7])
        late.add(self.told[7:8])
        self.log.add(self.told[8:9])
        self.assertEqual(self.numbers(follower), [8, 9])
        self.assertEqual(follower.fault, "")

    def test_a_file_that_is_moved_away_and_back(self) -> None:
        follower = self.follow()
        moved = self.log.rename()
        self.assertEqual(
            (self.numbers(follower), follower.fault), ([], "No such file or directory")
        )
        moved.rename(self.log.path)
        self.log.add(self.told[:2])
        self.assertEqual((self.numbers(follower), follower.fault), ([1, 2], ""))

    def test_a_replaced_file_is_closed_after_a_while(self) -> None:
        follower = self.follow()
        self.log.add(self.told[:1])
        moved = self.log.rename()
        GrowingLog(moved).add_bytes(b"cut")
        self.log.add(self.told[1:2])
        with mock.patch.object(access_log, "READ_ON_SECONDS", 0.0):
            batch = follower.read()
        self.assertEqual(
            ([entry.request for entry in batch.entries], batch.unreadable, len(follower.files)),
            ([1, 2], 1, 1),
        )
        GrowingLog(moved).add(self.told[2:3])
        self.assertEqual(self.numbers(follower), [])

    def test_a_file_that_is_cut(self) -> None:
        follower = self.follow()
        self.log.add(self.told[:9])
        self.assertEqual(len(self.numbers(follower)), 9)
        self.log.path.write_bytes(b"")
        self.assertEqual(self.numbers(follower), [])
        self.log.add(self.told[9:11])
        self.assertEqual(self.numbers(follower), [10, 11])

    def test_what_is_no_line_is_counted(self) -> None:
        follower = self.follow()
        self.log.add_bytes(b"rubbish\n" + LINE + b'\n{"time": "2026-11-25T18:03:12Z", "lost": 7}\n')
        batch = follower.read()
        self.assertEqual((len(batch.entries), batch.lost, batch.unreadable), (1, 7, 1))
        self.log.add_bytes(b"x" * (access_log.LONGEST_LINE + 1))
        self.assertEqual(follower.read().unreadable, 1)
        self.log.add_bytes(b"\n" + LINE + b"\n")
        self.assertEqual(self.numbers(follower), [17])

    def test_a_large_file_is_read_in_pieces(self) -> None:
        follower = self.follow()
        self.log.add(self.told)
        seen: list[int | None] = []
        with mock.patch.object(access_log, "PIECE", 1000):
            seen += self.numbers(follower)
            while follower.has_more:
                seen += self.numbers(follower)
        self.assertEqual(seen, list(range(1, 61)))

    def test_a_file_that_cannot_be_read(self) -> None:
        self.log.path.unlink()
        follower = self.follow(1 << 20)
        self.assertEqual(
            (follower.fault, self.numbers(follower)), ("No such file or directory", [])
        )
        self.log.add(self.told[:2])
        self.assertEqual((self.numbers(follower), follower.fault), ([1, 2], ""))
        self.assertEqual(Follower(tempfile.gettempdir()).fault, "it is not a regular file")


class Synthetic(unittest.TestCase):
    def test_the_generator(self) -> None:
        told = list(entries([Part(1, 1000), Part(2, 1000, 0.05, 40.0)]))
        errors = [entry.revision for entry in told if entry.is_error]
        self.assertEqual((set(errors), 30 < len(errors) < 70), ({2}, True))
        self.assertEqual([entry.time for entry in told], sorted(entry.time for entry in told))
        self.assertAlmostEqual(told[-1].time, BEGIN + 60)


if __name__ == "__main__":
    unittest.main()
