"""bin/analysis: measurements of requests, and what its runs come to before a log that grows."""
import argparse
import pathlib
import tempfile
import threading
import time
import unittest
from collections.abc import Callable, Sequence
from unittest import mock

from bg_switch_tools.analysis import log_analysis
from bg_switch_tools.analysis.cli import main
from bg_switch_tools.analysis.measurements import (
    ALL_GONE,
    SILENCE,
    Analyser,
    Limits,
    measure,
    quantile,
    request_of,
)
from bg_switch_tools.switch import access_log
from bg_switch_tools.switch.access_log import LogEntry, written
from bg_switch_tools.switch.arguments import control_of, count_of, share_of
from bg_switch_tools.switch.durations import (
    duration_of,
    milliseconds_of,
    positive_duration_of,
    value_of,
)
from support.pace import is_within
from support.processes import Run
from tests.fake_switch import FakeSwitch
from tests.synthetic_log import ANSWERED, GrowingLog, Part, cut_off, entries, refused
from tests.tool_runs import run_in_process

LIMITS = Limits(0.01, None, 50, 0)
FAST = ("--seconds", "1.2", "--every", "0.4", "--silence-allowed")
STEADY = 0.05  # seconds between two of requests that come without pause
NOT_FOUND = refused("no_endpoint")
GONE = refused("client_gone")


def requests(
    count: int, errors: int = 0, milliseconds: float = 5.0, upstream: float | None = 2.0
) -> list[LogEntry]:
    """`count` requests, of which the first `errors` are errors."""
    return [
        ANSWERED._replace(
            status=500 if number < errors else 200, duration_ms=milliseconds, upstream_ms=upstream
        )
        for number in range(count)
    ]


def tunnels(count: int, upstream: float) -> list[LogEntry]:
    """`count` requests that were tunnels for a day, after heads that took so many milliseconds."""
    return [
        one._replace(status=101, tunnel="whole") for one in requests(count, 0, 86.4e6, upstream)
    ]


class Measured(unittest.TestCase):
    def test_quantiles(self) -> None:
        values = [float(number) for number in range(1, 201)]
        self.assertEqual(
            [quantile(values, share) for share in (0.5, 0.99, 1.0, 0.0)], [100.0, 198.0, 200.0, 1.0]
        )
        self.assertEqual(quantile([7.0], 0.99), 7.0)

    def test_limits(self) -> None:
        for told, limits, expected in (
            (requests(100, 1), LIMITS, ()),
            (requests(100, 2), LIMITS, ("errors are above 1%",)),
            (requests(100, 0, 300), Limits(None, 300, 1, 0), ()),
            (requests(100, 0, 301), Limits(None, 300, 1, 0), ("p99 is above 300 ms",)),
            (
                requests(100, 9, 301),
                Limits(0.05, 300, 1, 0),
                ("errors are above 5%", "p99 is above 300 ms"),
            ),
            (requests(100, 0, 999, 299), Limits(None, 300, 1, 0, True), ()),
            (requests(100, 0, 9, 301), Limits(None, 300, 1, 0, True), ("p99 is above 300 ms",)),
            (
                requests(100, 100, 9, None),
                Limits(None, 300, 1, 0, True),
                ("no endpoint has answered",),
            ),
            (requests(100, 0, 9, None), Limits(0.01, None, 1, 0, True), ()),
            (tunnels(100, 299), Limits(None, 300, 1, 0), ()),
            (tunnels(100, 301), Limits(None, 300, 1, 0), ("p99 is above 300 ms",)),
        ):
            self.assertEqual(
                measure([request_of(entry, limits) for entry in told], limits).problems, expected
            )

    def test_requests_without_an_answer_are_errors(self) -> None:
        unanswered = [ANSWERED._replace(status=None, end="write_failed")] * 2
        told = [request_of(entry, LIMITS) for entry in requests(98) + unanswered]
        self.assertEqual(measure(told, LIMITS).errors, 2)

    def test_responses_that_were_cut_are_errors(self) -> None:
        reasons = ("response_malformed", "response_timeout", "given_up")
        broken = [cut_off(reason) for reason in reasons]
        told = [request_of(entry, LIMITS) for entry in requests(97) + broken]
        self.assertEqual(measure(told, LIMITS).errors, 3)
        self.assertEqual([each.duration for each in told[97:]], [ANSWERED.duration_ms] * 3)

    def test_a_refusal_without_an_endpoint_is_an_error_and_has_no_duration(self) -> None:
        told = [request_of(NOT_FOUND, Limits(None, 300, 1, 0))] * 9
        self.assertEqual(
            measure(told, Limits(None, 300, 1, 0)).problems, ("no endpoint has answered",)
        )
        self.assertEqual(measure(told, LIMITS).errors, 9)

    def test_few_requests_wait_for_more(self) -> None:
        analyser = Analyser(LIMITS)
        analyser.take(requests(49, 49))
        self.assertIsNone(analyser.end_window())
        analyser.take(requests(1))
        measured = analyser.end_window()
        assert measured is not None
        self.assertEqual((measured.requests, measured.errors, analyser.has_failed), (50, 49, True))

    def test_no_request_is_judged_twice(self) -> None:
        """Late errors are not hidden by the requests of the window before, and early ones are not
        counted again."""
        analyser = Analyser(LIMITS)
        for errors in (0, 3, 0):
            analyser.take(requests(60, errors))
            measured = analyser.end_window()
            assert measured is not None
            self.assertEqual((measured.requests, measured.errors), (60, errors))
        self.assertIsNone(analyser.end_rest())

    def test_few_requests_at_the_end(self) -> None:
        """They are judged as if all that are missing had been good."""
        for limits, told, expected in (
            (LIMITS, requests(3), ()),
            (LIMITS, requests(3, 1), ("errors are above 1%",)),
            (LIMITS._replace(errors=0.02), requests(3, 1), ()),
            (LIMITS._replace(errors=0.02), requests(3, 3), ("errors are above 2%",)),
            (LIMITS, [NOT_FOUND] * 2, ("errors are above 1%",)),
            (Limits(None, 300, 50, 0), requests(3, 0, 301), ("p99 is above 300 ms",)),
            (Limits(None, 300, 200, 0), requests(2, 0, 301), ()),
            (Limits(None, 300, 200, 0), requests(3, 0, 301), ("p99 is above 300 ms",)),
            (Limits(None, 300, 50, 0), [NOT_FOUND] * 2, ()),
        ):
            analyser = Analyser(limits)
            analyser.take(requests(60 if limits.requests <= 50 else 200))
            self.assertIsNotNone(analyser.end_window())
            analyser.take(told)
            self.assertIsNone(analyser.end_window())
            rest = analyser.end_rest()
            self.assertEqual(
                (rest.problems if rest else (), analyser.has_failed),
                (expected, bool(expected)),
                (limits, told),
            )

    def test_silence_after_requests_fails(self) -> None:
        analyser = Analyser(LIMITS)
        self.assertIsNone(analyser.end_window())  # nothing has come yet
        analyser.take(requests(3))
        self.assertIsNone(analyser.end_window())
        measured = analyser.end_window()
        assert measured is not None
        self.assertEqual(
            (measured.problems, measured.text(), analyser.has_failed),
            ((SILENCE,), "0 requests", True),
        )

    def test_silence_that_says_nothing(self) -> None:
        for limits, can_be_silent in (
            (LIMITS._replace(is_silence_allowed=True), True),
            (LIMITS, False),
        ):
            analyser = Analyser(limits)
            analyser.take(requests(60))
            self.assertIsNotNone(analyser.end_window())
            self.assertIsNone(analyser.end_window(can_be_silent))
            self.assertFalse(analyser.has_failed)

    def test_too_few_in_all(self) -> None:
        analyser = Analyser(LIMITS)
        analyser.take(requests(49, 49))
        self.assertEqual(
            (analyser.end_window(), analyser.end_rest(), analyser.has_judged), (None, None, False)
        )

    def test_clients_that_have_gone_are_no_errors_and_are_not_judged(self) -> None:
        analyser = Analyser(LIMITS)
        analyser.take([*requests(50), *[GONE] * 40])
        measured = analyser.end_window()
        assert measured is not None
        self.assertEqual((measured.requests, measured.errors, measured.gone), (50, 0, 40))
        self.assertEqual(
            measured.text(),
            "50 requests, 0 errors (0.00%), p99 5 ms (40 clients had gone)",
        )
        analyser.take([*requests(49), *[GONE] * 40])  # too few have stayed
        self.assertEqual((analyser.end_window(), analyser.has_failed), (None, False))
        analyser.take(requests(1, 1))
        measured = analyser.end_window()
        assert measured is not None
        self.assertEqual((measured.requests, measured.errors, measured.gone), (50, 1, 40))

    def test_a_revision_that_all_clients_leave_has_failed(self) -> None:
        for limits, gone, expected in (
            (LIMITS, 49, ()),
            (LIMITS, 50, (ALL_GONE,)),
            (LIMITS._replace(requests=1), 9, ()),
            (LIMITS._replace(requests=1), 10, (ALL_GONE,)),
        ):
            analyser = Analyser(limits)
            analyser.take(requests(60))
            self.assertIsNotNone(analyser.end_window())
            analyser.take([GONE] * (gone - 1))
            self.assertIsNone(analyser.end_window())
            analyser.take([GONE])
            measured = analyser.end_window()
            self.assertEqual(measured.problems if measured else (), expected, (limits, gone))
            self.assertEqual(analyser.has_failed, bool(expected))

    def test_so_many_may_fail(self) -> None:
        analyser, seen = Analyser(LIMITS._replace(failures=2)), []
        for _ in range(3):
            analyser.take(requests(50, 5))
            analyser.end_window()
            seen.append(analyser.has_failed)
        self.assertEqual(seen, [False, False, True])


class Words(unittest.TestCase):
    def test_what_is_read(self) -> None:
        self.assertEqual((share_of("1%"), share_of("0.5%"), share_of("100%")), (0.01, 0.005, 1.0))
        for tenths in range(1001):
            self.assertEqual(share_of(f"{tenths / 10:g}%"), tenths / 1000, tenths)
        self.assertEqual(
            (
                milliseconds_of("300ms"),
                milliseconds_of("1.5s"),
                milliseconds_of("0ms"),
                milliseconds_of("1m"),
            ),
            (300, 1500, 0, 60000),
        )
        self.assertEqual(
            (count_of("50"), control_of("8082"), positive_duration_of("2.5")), (50, 8082, 2.5)
        )
        self.assertEqual(
            [duration_of(text) for text in ("60", "60s", "1m", "1.5h", "500ms", "0", "86400")],
            [60, 60, 60, 5400, 0.5, 0, 86400],
        )
        self.assertEqual(
            [value_of(text) for text in ("0.01", "1%", "-3", "1e3")], [0.01, 0.01, -3, 1000]
        )

    def test_what_is_refused(self) -> None:
        wrong: Sequence[tuple[Callable[[str], object], Sequence[str]]] = (
            (share_of, ("1", "", "%", "101%", "-1%", "nan%", "x%")),
            (milliseconds_of, ("300", "ms", "s", "-1ms", "infs", "nans", "1 m s")),
            (count_of, ("", "-1", "1.5", "x", "1" * 10)),
            (control_of, ("0", "65536", "x", "", "0000080829999")),
            (duration_of, ("-1", "nan", "86401", "x", "", "s", "1d", "25h", "1e9m", "infm")),
            (positive_duration_of, ("0", "0s", "0m", "-1")),
            (value_of, ("nan", "inf", "x", "", "101%")),
        )
        for read, texts in wrong:
            for text in texts:
                with self.subTest(read=read.__name__, text=text), self.assertRaises(
                    argparse.ArgumentTypeError
                ):
                    read(text)


class Runs(unittest.TestCase):
    def setUp(self) -> None:
        folder = tempfile.TemporaryDirectory()
        self.addCleanup(folder.cleanup)
        self.log = GrowingLog(pathlib.Path(folder.name) / "access.log")

    def analysis(self, *words: str, **variables: str) -> Run:
        """A run of bin/analysis. What it tells is taken as printed."""
        run = run_in_process(main, "--log", str(self.log.path), *words, **variables)
        return run._replace(printed=run.printed + run.told)

    def write_steadily(self, told: Callable[[float], Sequence[LogEntry]]) -> None:
        """Requests come without pause while the analysis runs: those that are told for the seconds
        since the begin."""
        self.write_bytes_steadily(lambda seconds: b"".join(map(written, told(seconds))))

    def write_bytes_steadily(self, told: Callable[[float], bytes]) -> None:
        is_over, begun = threading.Event(), time.monotonic()

        def write() -> None:
            while not is_over.wait(STEADY):
                self.log.add_bytes(told(time.monotonic() - begun))

        thread = threading.Thread(target=write)
        thread.start()
        self.addCleanup(thread.join)
        self.addCleanup(is_over.set)

    def write_later(self, *parts: Part, after: float = 0.1) -> None:
        """Requests come while the analysis runs."""
        timer = threading.Timer(after, lambda: self.log.add(entries(parts)))
        timer.start()
        self.addCleanup(timer.join)

    def test_limits_that_hold(self) -> None:
        self.log.add(entries([Part(2, 500, 1.0)]))  # before it begins
        self.write_later(Part(2, 200), Part(1, 200, 1.0))
        ended = self.analysis(
            "--revision",
            "2",
            *FAST,
            "--errors-at-most",
            "1%",
            "--p99-at-most",
            "300ms",
            "--requests-at-least",
            "50",
        )
        self.assertEqual(ended.status, 0, ended.printed)
        self.assertIn("200 requests, 0 errors (0.00%)", ended.printed)

    def test_requests_without_pause(self) -> None:
        self.write_steadily(lambda _: requests(20))
        ended = self.analysis(
            "--revision",
            "1",
            "--seconds",
            "3s",
            "--every",
            "1000ms",
            "--errors-at-most",
            "1%",
            "--requests-at-least",
            "20",
        )
        self.assertEqual(
            (ended.status, ended.printed.count("the limits hold\n")), (0, 3), ended.printed
        )

    def test_a_good_revision_some_of_whose_clients_leave(self) -> None:
        self.write_steadily(lambda _: [*requests(18), *[GONE] * 2])
        ended = self.analysis(
            "--revision",
            "1",
            "--seconds",
            "2s",
            "--every",
            "1s",
            "--errors-at-most",
            "1%",
            "--requests-at-least",
            "18",
        )
        self.assertEqual(
            (ended.status, ended.printed.count("clients had gone): the limits hold\n")),
            (0, 2),
            ended.printed,
        )

    def test_an_outage_is_found_without_a_report(self) -> None:
        """From a moment on each request is refused since no endpoint is up; such a line names no
        revision."""
        self.write_steadily(lambda seconds: requests(20) if seconds < 0.5 else [NOT_FOUND] * 2)
        ended = self.analysis(
            "--revision",
            "1",
            "--seconds",
            "3",
            "--every",
            "0.3",
            "--errors-at-most",
            "1%",
            "--requests-at-least",
            "50",
        )
        self.assertEqual(
            (ended.status, "errors are above 1%" in ended.printed), (1, True), ended.printed
        )

    def test_an_outage_at_the_end(self) -> None:
        """A few requests after the last measurement, all of which failed, are not judged with those
        before."""
        self.write_steadily(
            lambda seconds: requests(60) if seconds < 0.5 else [NOT_FOUND][: seconds > 0.9]
        )
        ended = self.analysis(
            "--revision",
            "1",
            "--seconds",
            "1.2",
            "--every",
            "0.4",
            "--errors-at-most",
            "1%",
            "--requests-at-least",
            "50",
            "--silence-allowed",
        )
        self.assertEqual(
            (ended.status, "errors are above 1%" in ended.printed), (1, True), ended.printed
        )

    def test_an_outage_from_the_begin_on(self) -> None:
        self.write_steadily(lambda _: [NOT_FOUND] * 2)
        ended = self.analysis("--revision", "1", *FAST, "--errors-at-most", "1%")
        self.assertEqual(
            (
                ended.status,
                "found no endpoint of a revision that only --control tells" in ended.printed,
            ),
            (2, True),
            ended.printed,
        )

    def test_an_outage_is_found_by_reports(self) -> None:
        switch = self.switch_with("open web-v1 1 2", "available 1 2")
        self.write_steadily(lambda _: [NOT_FOUND] * 2)
        cases: Sequence[tuple[Sequence[str], dict[str, str]]] = (
            (("--revision", "web-v1", "--control", str(switch.port)), {}),
            (
                (),
                {
                    "BG_REVISION": "web-v1",
                    "BG_REVISION_NUMBER": "1",
                    "BG_CONTROL": str(switch.port),
                },
            ),
        )
        for words, environment in cases:
            ended = self.analysis(*words, *FAST, "--errors-at-most", "1%", **environment)
            self.assertEqual(
                (ended.status, "errors are above 1%" in ended.printed), (1, True), ended.printed
            )

    def test_an_outage_of_another_revision(self) -> None:
        """The active service selects web-v1, which has no endpoint; web-v2 is the preview's, and
        good."""
        switch = self.switch_with(
            "open web-v1 1 2", "available 1 2", "deploy web-v2 3 4", "available 2 2"
        )
        good = ANSWERED._replace(service="preview", revision=2)
        self.write_steadily(lambda _: [NOT_FOUND, good])
        for words in (("--revision", "web-v2", "--control", str(switch.port)), ("--revision", "2")):
            ended = self.analysis(*words, *FAST, "--errors-at-most", "1%")
            self.assertEqual(ended.status, 0, ended.printed)
        ended = self.analysis(
            "--revision", "web-v1", "--control", str(switch.port), *FAST, "--errors-at-most", "1%"
        )
        self.assertEqual(ended.status, 1, ended.printed)

    def test_silence_fails(self) -> None:
        self.write_steadily(lambda seconds: requests(20)[: 20 * (seconds < 0.4)])
        words = ("--revision", "1", "--seconds", "3", "--every", "0.3", "--errors-at-most", "1%")
        ended = self.analysis(*words)
        self.assertEqual(
            (ended.status, "0 requests: no request has come" in ended.printed),
            (1, True),
            ended.printed,
        )

    def test_lines_that_the_switch_could_not_write_are_no_silence(self) -> None:
        lost = b'{"time": "2026-11-25T18:03:12Z", "lost": 5}\n'
        self.write_later(Part(1, 100))
        self.write_bytes_steadily(lambda seconds: lost)
        ended = self.analysis(
            "--revision", "1", "--seconds", "2", "--every", "0.5", "--errors-at-most", "1%"
        )
        self.assertEqual(
            (ended.status, "5 lines were lost by the switch" in ended.printed),
            (0, True),
            ended.printed,
        )

    def switch_with(self, *lines: str) -> FakeSwitch:
        switch = FakeSwitch("pause")
        self.addCleanup(switch.kill)
        for line in lines:
            switch.book.answer(line)
        return switch

    def restarted(self, *lines: str) -> Run:
        """An analysis of web-v2, whose switch is started again meanwhile; these lines are then
        carried out. Requests of the revision of number 1 are good, and those of number 2 are
        errors."""
        switch = self.switch_with(
            "open web-v1 1 2", "available 1 2", "deploy web-v2 3 4", "available 2 2"
        )

        def restart() -> None:
            switch.kill()
            switch.start(*lines)

        self.write_steadily(
            lambda seconds: [ANSWERED._replace(revision=2 if seconds < 0.4 else 1)] * 9
        )
        timer = threading.Timer(0.4, restart)
        timer.start()
        self.addCleanup(timer.join)
        return self.analysis(
            "--revision",
            "web-v2",
            "--control",
            str(switch.port),
            "--seconds",
            "3",
            "--every",
            "0.5",
            "--errors-at-most",
            "1%",
            "--silence-allowed",
        )

    def test_a_switch_that_is_started_again(self) -> None:
        """A name gets a number anew, and numbers of the book before are other revisions'."""
        ended = self.restarted("open web-v2 3 4", "available 1 2")
        self.assertEqual(
            (ended.status, "it had the number 2 before" in ended.printed), (0, True), ended.printed
        )
        self.assertGreater(
            ended.printed.split("the number 2 before")[1].count("the limits hold\n"),
            1,
            ended.printed,
        )

    def test_a_switch_that_is_started_again_without_the_revision(self) -> None:
        ended = self.restarted("open web-v1 1 2", "available 1 2", "deploy web-v3 5 6")
        self.assertEqual(
            (ended.status, "the switch has no revision web-v2" in ended.printed),
            (2, True),
            ended.printed,
        )

    def test_errors(self) -> None:
        self.write_later(Part(2, 400, 0.05))
        ended = self.analysis(
            "--revision", "2", "--seconds", "1m", "--every", "200ms", "--errors-at-most", "1%"
        )
        self.assertEqual(ended.status, 1, ended.printed)
        self.assertIn("errors are above 1%", ended.printed)

    def test_slow_requests(self) -> None:
        self.write_later(Part(2, 400, 0.0, 200.0))
        self.assertEqual(
            self.analysis("--revision", "2", *FAST, "--p99-at-most", "300ms").status, 1
        )

    def test_so_many_may_fail(self) -> None:
        self.write_later(Part(2, 100, 0.5))
        self.assertEqual(
            self.analysis(
                "--revision", "2", *FAST, "--errors-at-most", "1%", "--failures", "1"
            ).status,
            0,
        )

    def test_what_cannot_be_judged(self) -> None:
        limit = ("--errors-at-most", "1%")
        self.write_later(Part(2, 49, 1.0))
        ended = self.analysis("--revision", "2", *FAST, *limit, "--requests-at-least", "50")
        self.assertEqual(ended.status, 2, ended.printed)
        self.assertIn("49 requests came in 1.2 seconds, and 50 are needed", ended.printed)
        self.assertEqual(self.analysis("--revision", "2", *FAST, *limit).status, 2)
        self.assertIn("no revision is given", self.analysis(*FAST, *limit).printed)
        self.assertIn("a limit is needed", self.analysis("--revision", "2", *FAST).printed)
        self.log.path.unlink()
        ended = self.analysis("--revision", "2", *FAST, *limit)
        self.assertEqual((ended.status, "No such file" in ended.printed), (2, True), ended.printed)

    def test_a_log_that_cannot_be_read_at_the_end(self) -> None:
        """Another one stands at its path that can't be read, as after a wrong `create` of
        logrotate."""

        def replace() -> None:
            self.log.rename()
            self.log.path.mkdir()

        self.write_later(Part(2, 100))
        timer = threading.Timer(0.3, replace)
        timer.start()
        with mock.patch.object(log_analysis, "CATCH_UP", 0.3):
            ended = self.analysis("--revision", "2", *FAST, "--errors-at-most", "1%")
        timer.join()
        self.assertEqual(
            (ended.status, "it is not a regular file" in ended.printed), (2, True), ended.printed
        )

    def test_a_log_that_is_made_anew_after_a_while(self) -> None:
        """A file that is missing at the end of the analysis is waited for: the switch makes it
        within a second."""
        self.write_later(Part(2, 100))
        changes: Sequence[tuple[float, Callable[[], object]]] = (
            (0.4, self.log.rename),
            (1.8, self.log.path.touch),
        )
        for after, change in changes:
            timer = threading.Timer(after, change)
            timer.start()
            self.addCleanup(timer.join)
        ended = self.analysis("--revision", "2", *FAST, "--errors-at-most", "1%")
        self.assertEqual(ended.status, 0, ended.printed)

    def test_a_log_that_grows_faster_than_it_is_read(self) -> None:
        told, is_over = b"".join(map(written, entries([Part(2, 1000)]))), threading.Event()

        def write() -> None:
            while not is_over.wait(0.001):
                self.log.add_bytes(told)

        thread = threading.Thread(target=write, daemon=True)
        thread.start()
        begun = time.monotonic()
        with mock.patch.object(access_log, "PIECE", 300), mock.patch.object(
            log_analysis, "CATCH_UP", 0.3
        ):
            ended = self.analysis("--revision", "2", *FAST, "--errors-at-most", "1%")
        seconds = time.monotonic() - begun
        is_over.set()
        thread.join()
        self.assertEqual(
            (ended.status, "it grows faster than it is read" in ended.printed),
            (2, True),
            ended.printed,
        )
        self.assertTrue(is_within(seconds, 5), seconds)

    def test_a_rename_meanwhile(self) -> None:
        self.write_later(Part(2, 100))
        moving = threading.Timer(0.15, self.log.rename)
        moving.start()
        self.write_later(Part(2, 100, 1.0), after=0.25)
        ended = self.analysis(
            "--revision", "2", "--seconds", "2", "--every", "1", "--errors-at-most", "1%"
        )
        moving.join()
        self.assertEqual((ended.status, "200 requests" in ended.printed), (1, True), ended.printed)

    def test_the_revision_by_its_name(self) -> None:
        switch = self.switch_with("open web-v1 1 2", "available 1 2", "deploy web-v2 3 4")
        told = {"BG_REVISION": "web-v2", "BG_REVISION_NUMBER": "2"}
        limit, control = ("--errors-at-most", "1%"), ("--control", str(switch.port))
        other = {"BG_REVISION": "web-v1", "BG_REVISION_NUMBER": "1"}
        cases: Sequence[tuple[Sequence[str], dict[str, str]]] = (
            ((), told),
            (("--revision", "web-v2"), told),
            (("--revision", "web-v2", *control), {}),
            (("--revision", "2"), other),
            (("--revision", "web-v2", *control), other),
            (("--revision", "2026"), {"BG_REVISION": "2026", "BG_REVISION_NUMBER": "2"}),
        )
        for words, environment in cases:
            self.write_later(Part(2, 10), Part(1, 10, 1.0))
            ended = self.analysis(*words, "--seconds", "3", *limit, **environment)
            self.assertEqual(ended.status, 0, ended.printed)
        self.assertIn(
            "--control tells the port", self.analysis("--revision", "web-v2", *FAST, *limit).printed
        )
        for name in ("web-v9", "9"):
            self.assertIn(
                f"has no revision {name}",
                self.analysis("--revision", name, *control, *FAST, *limit).printed,
            )
        wrong = {"BG_REVISION": "web-v2", "BG_REVISION_NUMBER": "2", "BG_CONTROL": "x"}
        self.assertIn(
            "BG_CONTROL: the control port is expected",
            self.analysis(*FAST, *limit, **wrong).printed,
        )


if __name__ == "__main__":
    unittest.main()
