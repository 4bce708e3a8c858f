"""bin/analysis by queries: before a server that answers as a test wants, and before a real
Prometheus."""
import math
import pathlib
import shutil
import socket
import tempfile
import time
import unittest
from collections.abc import Sequence

from bg_switch_tools.analysis import prometheus_query
from bg_switch_tools.analysis.cli import main
from bg_switch_tools.analysis.judged_revision import JudgedRevision
from bg_switch_tools.analysis.prometheus_analysis import QueryLimits, filled, judged
from bg_switch_tools.analysis.prometheus_query import QueryError, Server, query_values, server_of
from bg_switch_tools.analysis.verdicts import NotJudgedError
from support.pace import is_within
from support.processes import Run
from tests.fake_port import free_port
from tests.fake_prometheus import FakePrometheus, real_prometheus, refused, vector
from tests.tool_runs import comes, run_in_process

PROGRAM = "prometheus"
MISSING = "prometheus is not installed: apt-get install prometheus to run this test"
FAST = ("--interval", "20ms")
SHARE = (
    'sum(bg_switch_http_requests_total{revision="{{args.revision}}",status=~"5xx|none"}) / '
    'sum(bg_switch_http_requests_total{revision="{{ args.revision }}"})'
)


def analysis(*words: str, **variables: str) -> Run:
    """A run of bin/analysis. What it tells is taken as printed."""
    run = run_in_process(main, *words, **variables)
    return run._replace(printed=run.printed + run.told)


class Queries(unittest.TestCase):
    def values(
        self, status: int, body: bytes, wait: float = 10.0, pause: float = 0.0
    ) -> list[float]:
        with FakePrometheus(lambda _: (status, body), pause) as server:
            found = query_values(server_of(f"{server.url}/prefix/"), "a + b & c", wait)
            self.assertEqual(server.asked, [("/prefix/api/v1/query", "a + b & c")])
        return found

    def test_results(self) -> None:
        self.assertEqual(
            self.values(200, vector("0.5", "+Inf", "-Inf", "1e3")), [0.5, math.inf, -math.inf, 1000]
        )
        self.assertTrue(math.isnan(self.values(200, vector("NaN"))[0]))
        self.assertEqual(self.values(200, vector()), [])
        self.assertEqual(
            self.values(
                200, b'{"status": "success", "data": {"resultType": "scalar", "result": [1, "7"]}}'
            ),
            [7],
        )

    def test_what_is_no_result(self) -> None:
        for status, body, why in (
            (400, refused("parse error"), "status 400: parse error"),
            (503, b"<html>", "status 503, is not JSON"),
            (200, b"[]", "status 200: None"),
            (200, b'{"status": "success"}', "neither a vector nor a scalar"),
            (
                200,
                b'{"status": "success", "data": {"resultType": "matrix", "result": []}}',
                "but matrix",
            ),
            (200, vector("x"), "a sample of the result is malformed"),
            (200, vector(*["1"] * 1001), "more than 1000 values"),
            (
                200,
                b'{"status": "success", "data": {"resultType": "vector", "result": [1]}}',
                "a sample",
            ),
            (
                200,
                b'{"status": "success", "data": {"resultType": "scalar", "result": [1, 7]}}',
                "a sample",
            ),
            (200, b"[" * 99999, "is not JSON"),
            (200, b" " * (prometheus_query.LARGEST + 1), "has more than"),
        ):
            with self.subTest(body=body[:80]), self.assertRaisesRegex(QueryError, why):
                self.values(status, body)

    def test_a_server_that_is_too_slow(self) -> None:
        begun = time.monotonic()
        with self.assertRaisesRegex(QueryError, "no whole answer within 0.5 seconds"):
            self.values(200, vector("1") + b" " * 999, 0.5, 0.1)
        seconds = time.monotonic() - begun
        self.assertTrue(is_within(seconds, 5), seconds)

    def test_a_server_that_is_silent_or_gone(self) -> None:
        with socket.create_server(("127.0.0.1", free_port())) as silent, self.assertRaises(
            QueryError
        ):
            query_values(Server("http", "127.0.0.1", silent.getsockname()[1], ""), "x", 0.3)
        with self.assertRaisesRegex(QueryError, "Connection refused"):
            query_values(Server("http", "127.0.0.1", free_port(), ""), "x")

    def test_urls(self) -> None:
        self.assertEqual(server_of("http://localhost:9090/"), Server("http", "localhost", 9090, ""))
        self.assertEqual(server_of("https://h/a/b/"), Server("https", "h", None, "/a/b"))
        for wrong in (
            "",
            "localhost:9090",
            "ftp://h",
            "http://",
            "http://u:p@h",
            "http://h?x=1",
            "http://h/#x",
            "http://h:x",
            "http://h:99999",
            "http://h/a b",
            "http://h/\r\nX: y",
            "http://ä",
        ):
            with self.subTest(url=wrong), self.assertRaises(ValueError):
                server_of(wrong)


class Judged(unittest.TestCase):
    def test_values(self) -> None:
        most, least, both = (
            QueryLimits(*limits, 1, 0, 0, 0) for limits in ((0.01, None), (None, 0.95), (2.0, 1.0))
        )
        cases: Sequence[tuple[Sequence[float], QueryLimits, Sequence[str], bool]] = (
            ([0.01], most, (), False),
            ([0.02], most, ("it is above 0.01",), False),
            ([0.0, 0.02], most, ("it is above 0.01",), False),
            ([0.95], least, (), False),
            ([0.94], least, ("it is below 0.95",), False),
            ([math.inf], least, (), False),
            ([0.5, 2.5], both, ("it is above 2", "it is below 1"), False),
            ([], most, (), True),
            ([math.nan], most, (), True),
            ([5.0, math.nan], most, (), True),
        )
        for values, condition, problems, is_inconclusive in cases:
            result = judged(values, condition)
            self.assertEqual(
                (result.problems, result.is_inconclusive), (problems, is_inconclusive), values
            )

    def test_arguments_of_a_query(self) -> None:
        told = JudgedRevision("web-v2", 2)
        self.assertEqual(
            filled('a{r="{{args.revision}}"} {{ args.revision-number }}', told), 'a{r="web-v2"} 2'
        )
        self.assertEqual(filled("{{ x }}", None), "{{ x }}")
        for query, subject in (
            ("{{args.revision}}", None),
            ("{{args.other}}", told),
            ("{{args.revision}}", JudgedRevision("", 2)),
            ("{{args.revision}}", JudgedRevision('x"} or vector(0', 2)),
        ):
            with self.subTest(query=query), self.assertRaises(NotJudgedError):
                filled(query, subject)


class Runs(unittest.TestCase):
    def run_by(self, answers: Sequence[tuple[int, bytes]], *words: str) -> Run:
        """A run whose queries get these answers, in turn, and the last one again and again."""
        left = list(answers)
        with FakePrometheus(lambda _: left.pop(0) if len(left) > 1 else left[0]) as server:
            ended = analysis("--prometheus", server.url, "--query", "up", *FAST, *words)
            self.asked = len(server.asked)
        return ended

    def test_limits_that_hold(self) -> None:
        ended = self.run_by([(200, vector("0.01"))], "--at-most", "1%", "--count", "3")
        self.assertEqual(
            (ended.status, self.asked, ended.printed.count("0.01: the limits hold\n")),
            (0, 3, 3),
            ended.printed,
        )
        self.assertIn("the limits held to the end", ended.printed)
        ended = self.run_by([(200, vector("0.99"))], "--at-least", "0.95", "--seconds", "60ms")
        self.assertEqual((ended.status, self.asked), (0, 3), ended.printed)

    def test_failures(self) -> None:
        bad, good = (200, vector("0.02")), (200, vector("0"))
        ended = self.run_by([good, bad], "--at-most", "0.01", "--count", "9")
        self.assertEqual(
            (ended.status, self.asked, "it is above 0.01" in ended.printed),
            (1, 2, True),
            ended.printed,
        )
        ended = self.run_by(
            [bad, good, bad, good], "--at-most", "0.01", "--count", "9", "--failures", "2"
        )
        self.assertEqual((ended.status, self.asked), (0, 9), ended.printed)
        ended = self.run_by([bad], "--at-most", "0.01", "--count", "9", "--failure-limit", "2")
        self.assertEqual((ended.status, self.asked), (1, 3), ended.printed)

    def test_what_is_inconclusive(self) -> None:
        for body in (vector(), vector("NaN")):
            ended = self.run_by([(200, body)], "--at-most", "1", "--count", "3")
            self.assertEqual(
                (ended.status, self.asked, "it is inconclusive" in ended.printed),
                (2, 1, True),
                ended.printed,
            )
            ended = self.run_by(
                [(200, body), (200, vector("1"))],
                "--at-most",
                "1",
                "--count",
                "3",
                "--inconclusive",
                "1",
            )
            self.assertEqual((ended.status, self.asked), (0, 3), ended.printed)
            ended = self.run_by(
                [(200, body)], "--at-most", "1", "--count", "3", "--inconclusive", "9"
            )
            self.assertEqual(
                (ended.status, "no measurement was conclusive" in ended.printed),
                (2, True),
                ended.printed,
            )

    def test_queries_without_an_answer(self) -> None:
        """Five in a row are too many, as in Argo Rollouts; none of them is a measurement."""
        ended = self.run_by([(500, b"")], "--at-most", "1", "--count", "1")
        self.assertEqual(
            (ended.status, self.asked, "5 queries in a row" in ended.printed),
            (2, 5, True),
            ended.printed,
        )
        ended = self.run_by(
            [(500, b"")] * 4 + [(200, vector("1"))], "--at-most", "1", "--count", "2"
        )
        self.assertEqual((ended.status, self.asked), (0, 6), ended.printed)
        ended = self.run_by([(500, b"")], "--at-most", "1", "--count", "1", "--query-errors", "0")
        self.assertEqual((ended.status, self.asked), (2, 1), ended.printed)

    def test_the_revision_in_a_query(self) -> None:
        with FakePrometheus(lambda _: (200, vector("0"))) as server:
            words = (
                "--prometheus",
                server.url,
                "--query",
                SHARE,
                "--at-most",
                "1%",
                "--count",
                "1",
            )
            ended = analysis(*words, **{"BG_REVISION": "web-v2", "BG_REVISION_NUMBER": "2"})
            self.assertEqual(
                (ended.status, 'revision="web-v2",' in server.asked[0][1]), (0, True), ended.printed
            )
            self.assertIn("analysis of revision 2 web-v2: 0 s: 0: the limits hold", ended.printed)
            self.assertIn("no revision is given", analysis(*words).printed)

    def test_words_that_are_refused(self) -> None:
        url = ("--prometheus", "http://127.0.0.1:9090")
        whole = (*url, "--query", "up", "--at-most", "1", "--count", "1")
        for words, why in (
            ((), "is required"),
            ((*whole, "--log", "x"), "not allowed with"),
            (url, "--query is needed"),
            ((*url, "--query", "up", "--count", "1"), "a limit is needed"),
            (whole[:6], "one of --count and --seconds"),
            ((*whole, "--seconds", "9"), "one of --count and --seconds"),
            ((*whole[:-1], "0"), "--count is above 0"),
            ((*whole, "--errors-at-most", "1%"), "--errors-at-most belongs to --log"),
            ((*whole, "--silence-allowed"), "--silence-allowed belongs to --log"),
            (("--prometheus", "x", *whole[2:]), "a URL is expected"),
            ((*whole, "--interval", "0s"), "above 0 is expected"),
            (("--log", "x", "--seconds", "1m"), "a limit is needed: --errors-at-most"),
            (("--log", "x"), "--seconds is needed"),
            (
                ("--log", "x", "--seconds", "1m", "--errors-at-most", "1%", "--query", "up"),
                "--query belongs to --prometheus",
            ),
        ):
            ended = analysis(*words)
            self.assertEqual(
                (ended.status, why in ended.printed), (2, True), (words, ended.printed)
            )


class Real(unittest.TestCase):
    def test_a_real_prometheus(self) -> None:
        program = shutil.which(PROGRAM)
        if program is None:
            self.skipTest(MISSING)
        page = "".join(
            f'bg_switch_http_requests_total{{revision="{revision}",service="active",status="{status}"}} {count}\n'
            for revision, status, count in (
                ("web-v1", "2xx", 100),
                ("web-v2", "2xx", 90),
                ("web-v2", "5xx", 7),
                ("web-v2", "none", 3),
            )
        )
        with tempfile.TemporaryDirectory(ignore_cleanup_errors=True) as folder, FakePrometheus(
            lambda _: (200, page.encode())
        ) as target, real_prometheus(program, pathlib.Path(folder), [target.port]) as url:
            self.assertTrue(
                comes(lambda: query_values(server_of(url), "bg_switch_http_requests_total"))
            )
            for query, limit, expected, why in (
                (SHARE, "--at-most=10%", 0, "0.1: the limits hold"),
                (SHARE, "--at-most=9%", 1, "it is above 0.09"),
                ("vector(0) / vector(0)", "--at-most=1", 2, "nan: it is inconclusive"),
                ("no_such_metric", "--at-most=1", 2, "no data: it is inconclusive"),
                ("scalar(vector(3))", "--at-least=3", 0, "3: "),
                ("sum(", "--at-most=1", 2, "parse error"),
            ):
                ended = analysis(
                    "--prometheus",
                    url,
                    "--query",
                    query,
                    limit,
                    "--count",
                    "2",
                    *FAST,
                    **{"BG_REVISION": "web-v2", "BG_REVISION_NUMBER": "2"},
                )
                self.assertEqual(
                    (ended.status, why in ended.printed), (expected, True), ended.printed
                )


if __name__ == "__main__":
    unittest.main()
