"""bench/beside_peers.py: what it reads of wrk, strace and callgrind, its medians, verdicts and
words. No test runs one of the proxies."""
import contextlib
import importlib.util
import io
import json
import math
import os
import pathlib
import subprocess
import sys
import tempfile
import unittest
from collections.abc import Iterable, Sequence
from typing import Any
from unittest import mock

from support.peers import MeasurementError, configurations, figures, request_costs, wrk
from support.peers.configurations import Mode, Place, flags_in
from support.peers.figures import Figures, Round, Subject
from support.peers.processor_time import microseconds_between, thread_times
from support.peers.proxies import Proxy, in_turn
from support.peers.verdicts import Verdict, verdicts
from support.peers.words import asked_for
from support.processes import Run, run_to_end
from tests.tool_runs import TOP


def module_of(path: str) -> Any:
    """A bench as a module."""
    spec = importlib.util.spec_from_file_location(pathlib.Path(path).stem, TOP / path)
    assert spec and spec.loader
    module = importlib.util.module_from_spec(spec)
    spec.loader.exec_module(module)
    return module


BENCH = module_of("bench/beside_peers.py")
LIMITS = BENCH.LIMITS
RUN = """Running 1s test @ http://127.0.0.1:13001/
  1 threads and 8 connections
  Thread Stats   Avg      Stdev     Max   +/- Stdev
    Latency   635.49us    1.15ms   8.39ms   99.00%
    Req/Sec    13.80k     6.45k   20.65k    30.00%
  Latency Distribution
     50%  217.00us
     75%  329.00us
     90%    2.04ms
     99%    5.77ms
  13730 requests in 1.01s, 791.08KB read
Requests/sec:  13629.29
Transfer/sec:    785.28KB
"""
STATUSES = "  Non-2xx or 3xx responses: {}\n"
SOCKETS = "  Socket errors: connect 1, read 20, write 300, timeout 4000\n"


def run_with(lines: str) -> str:
    """The same run, with lines of errors."""
    return RUN.replace("Requests/sec", f"{lines}Requests/sec")


class ReadingWrk(unittest.TestCase):
    def test_each_unit_of_a_time(self) -> None:
        for text, expected in (
            ("0.00us", 0.0),
            ("950.00us", 0.95),
            ("1.05ms", 1.05),
            ("1.05s", 1050.0),
            ("1.50m", 90_000.0),
            ("2.00h", 7_200_000.0),
            ("7ms", 7.0),
        ):
            with self.subTest(text):
                self.assertAlmostEqual(wrk.milliseconds(text), expected)

    def test_what_is_no_time(self) -> None:
        for text in ("", "5.77", "ms", "5.77mss", "5.77 ms", "-nan%", "99.00%", "5.77k", "-1.00ms"):
            with self.subTest(text), self.assertRaises(ValueError):
                wrk.milliseconds(text)

    def test_a_run(self) -> None:
        self.assertEqual(wrk.load_of(RUN), wrk.Load(13730, 13629.29, 5.77, 0))

    def test_the_percentile_has_its_unit(self) -> None:
        for text, expected in (("577.00us", 0.577), ("5.77s", 5770.0)):
            printed = RUN.replace("5.77ms", text)
            self.assertAlmostEqual(wrk.load_of(printed).p99, expected)

    def test_all_kinds_of_errors_count(self) -> None:
        self.assertEqual(wrk.load_of(run_with(SOCKETS)).errors, 4321)
        self.assertEqual(wrk.load_of(run_with(SOCKETS + STATUSES.format(50_000))).errors, 54_321)

    def test_answers_with_an_error_are_no_requests(self) -> None:
        load = wrk.load_of(run_with(STATUSES.format(6865)))
        self.assertEqual((load.requests, load.errors), (6865, 6865))
        self.assertAlmostEqual(load.rate, 13629.29 / 2)

    def test_a_run_without_a_good_answer_has_no_good_figure(self) -> None:
        nothing = RUN.replace("13730", "0").replace("13629.29", "0.00").replace("5.77ms", "0.00us")
        self.assertEqual(wrk.load_of(nothing), wrk.Load(0, 0.0, math.inf, 0))
        only_errors = run_with(STATUSES.format(13730))
        self.assertEqual(wrk.load_of(only_errors), wrk.Load(0, 0.0, math.inf, 13730))

    def test_a_figure_that_is_missing(self) -> None:
        for text in ("13730 requests in", "Requests/sec", " 99% "):
            with self.subTest(text), self.assertRaises(ValueError):
                wrk.load_of(RUN.replace(text, "x"))
        with self.assertRaises(ValueError):
            wrk.load_of("unable to connect to 127.0.0.1:9 Connection refused\n")

    def test_a_run_that_prints_nothing_is_told(self) -> None:
        with mock.patch.object(wrk, "words", lambda *_: ["sh", "-c", "echo refused >&2"]):
            with self.assertRaisesRegex(MeasurementError, "refused"):
                wrk.run(9, 8, 1, True)

    def test_the_words(self) -> None:
        words = wrk.words(1234, 64, 3, True)
        self.assertEqual(
            words, "wrk -t1 -c64 -d3s --latency --timeout 10s http://127.0.0.1:1234/".split()
        )
        closing = wrk.words(1234, 64, 3, False)
        self.assertEqual(closing, [*words[:-1], "-H", "Connection: close", words[-1]])


class ReadingTools(unittest.TestCase):
    CALLS = """% time     seconds  usecs/call     calls    errors syscall
------ ----------- ----------- --------- --------- ----------------
 60.00    0.030000          10      1000       400 recvfrom
 40.00    0.020000          10       234           sendto
------ ----------- ----------- --------- --------- ----------------
100.00    0.050000          40      1234       400 total
"""

    def test_system_calls(self) -> None:
        self.assertEqual(request_costs.calls_in(self.CALLS), 1234)

    def test_instructions(self) -> None:
        profile = "# callgrind format\nevents: Ir\nsummary: 123456\n\nfn=(1) main\n3 4\n\ntotals: 123456\n"
        self.assertEqual(request_costs.instructions_in(profile), 123456)

    def test_nothing_was_counted(self) -> None:
        for read in (request_costs.calls_in, request_costs.instructions_in):
            for text in ("", "strace: exec: No such file or directory\n", "events: Ir\n"):
                with self.subTest(text), self.assertRaises(MeasurementError):
                    read(text)

    def test_the_start_and_the_end_of_a_run_do_not_count(self) -> None:
        few, many = request_costs.REQUESTS
        for clients in (1, 64):
            counts = [5000 + 13 * clients * requests for requests in (few, many)]
            self.assertEqual(request_costs.between(counts, clients), 13.0)

    def test_a_launcher_is_replaced_by_its_program(self) -> None:
        with tempfile.TemporaryDirectory() as folder:
            top = pathlib.Path(folder).resolve()
            launcher, built = top / "bin" / "bg_switch", top / "crates/bg_switch/out/bg_switch"
            for file, text in ((launcher, "#!/bin/sh\n"), (built, "\x7fELF")):
                file.parent.mkdir(parents=True)
                file.write_text(text, encoding="ascii")
            for file, expected in ((launcher, built), (built, built)):
                with mock.patch.object(request_costs, "PROGRAM", str(file)):
                    self.assertEqual(request_costs.program_file(), str(expected))
            built.unlink()
            with mock.patch.object(request_costs, "PROGRAM", str(launcher)):
                self.assertEqual(request_costs.program_file(), str(launcher))


class ProcessorTime(unittest.TestCase):
    def test_between_two_readings(self) -> None:
        before = {1: 5_000_000, 2: 7_000, 3: 900_000}
        after = {1: 6_500_000, 2: 7_000, 4: 250_000}
        self.assertEqual(microseconds_between(before, after), 1500.0 + 250.0)

    def test_the_threads_of_what_a_process_has_started_count(self) -> None:
        code = "import subprocess, sys; print(0, flush=True); sys.stdin.read()"
        outer = f"import subprocess, sys; subprocess.run([sys.executable, '-c', {code!r}])"
        pipe = subprocess.PIPE
        with subprocess.Popen([sys.executable, "-c", outer], stdin=pipe, stdout=pipe) as process:
            assert process.stdin and process.stdout
            process.stdout.readline()
            times = thread_times(process.pid)
            self.assertEqual(len(times), 2)
            self.assertTrue(process.pid in times and all(times.values()))
            process.stdin.close()
            process.wait()
            with self.assertRaises(MeasurementError):
                thread_times(process.pid)


PEER, OTHER = "nginx", "haproxy"
FEW, MANY = "bg_switch --concurrency 8", "bg_switch --concurrency 1023"


def subject(proxy: str, mode: str = "both", delay: float = 0.0, clients: int = 8) -> Subject:
    return Subject(proxy, mode, delay, clients)


def shown(rate: float, p99: float, microseconds: float, errors: int = 0) -> Figures:
    return Figures(1000, rate, p99, microseconds, errors)


class Medians(unittest.TestCase):
    def rounds(self, name: str, *found: tuple[float, float, float]) -> list[Round]:
        return [
            Round(number, subject(name), shown(*each, errors=number))
            for number, each in enumerate(found, start=1)
        ]

    def test_the_middle_of_each_figure(self) -> None:
        rounds = self.rounds(PEER, (100, 9, 30), (900, 1, 10), (200, 100, 20))
        self.assertEqual(figures.medians(rounds), {subject(PEER): Figures(3000, 200, 9, 20, 6)})

    def test_of_an_even_number_between_the_two_in_the_middle(self) -> None:
        rounds = self.rounds(PEER, (100, 1, 8), (200, 3, 4), (400, 9, 2), (900, 70, 1))
        self.assertEqual(figures.medians(rounds), {subject(PEER): Figures(4000, 300, 6, 3, 10)})

    def test_rounds_without_an_answer(self) -> None:
        rounds = self.rounds(PEER, (0, math.inf, math.inf), (200, 3, 4), (0, math.inf, math.inf))
        found = figures.medians(rounds)[subject(PEER)]
        self.assertEqual((found.rate, found.p99, found.microseconds), (0, math.inf, math.inf))

    def test_each_subject_has_its_own(self) -> None:
        others = (
            subject(OTHER),
            subject(PEER, mode="none"),
            subject(PEER, delay=0.1),
            subject(PEER, clients=64),
        )
        rounds = [
            Round(1, one, shown(place, place, place))
            for place, one in enumerate((subject(PEER), *others))
        ]
        found = figures.medians(rounds + rounds)
        self.assertEqual(list(found), [subject(PEER), *others])
        self.assertEqual([one.rate for one in found.values()], [0, 1, 2, 3, 4])

    def test_the_table(self) -> None:
        found = {subject(MANY, "none", 0.1, 1024): shown(1234.5678, 12.345, 6.789, 3)}
        lines = list(figures.table(found))
        self.assertEqual(len({line.count("|") for line in lines}), 1)
        self.assertEqual(
            lines[2:], [f"| after 100 ms | 1024 | none | {MANY} | 1235 | 12.35 | 6.8 | 3 |"]
        )

    def test_all_rounds_as_json(self) -> None:
        rounds = self.rounds(PEER, (100, 9, 30), (0, math.inf, math.inf))
        first, last = json.loads(figures.as_json(rounds), parse_constant=self.fail)
        self.assertEqual(
            first,
            {"round": 1, "proxy": PEER, "mode": "both", "delay": 0.0, "clients": 8}
            | {"requests": 1000, "rate": 100, "p99": 9, "microseconds": 30, "errors": 1},
        )
        self.assertEqual((last["round"], last["p99"], last["microseconds"]), (2, None, None))


class Verdicts(unittest.TestCase):
    def judged(self, found: dict[Subject, Figures]) -> dict[str, Verdict]:
        """The verdicts by the beginning of their names."""
        return {one.name.split(",")[0]: one for one in verdicts(found, LIMITS)}

    REQUESTS, P99 = "requests a second to the better peer's", "p99 to the better peer's"
    TIME = "processor time of a request to the cheaper peer's"
    BESIDE_FEW = f"processor time of a request to that with {FEW}"
    ERRORS = "errors to requests"

    def test_the_best_peer_in_each_figure_counts(self) -> None:
        """One peer has the most requests a second, and the other one waits less and costs less."""
        for first, other in ((PEER, OTHER), (OTHER, PEER)):
            found = self.judged(
                {
                    subject(first): shown(1000, 40, 20),
                    subject(other): shown(500, 10, 5),
                    subject(MANY): shown(2000, 20, 10),
                }
            )
            self.assertEqual(
                [found[name].value for name in (self.REQUESTS, self.P99, self.TIME)],
                [2.0, 2.0, 2.0],
            )

    def test_only_peers_of_the_same_situation_count(self) -> None:
        better = shown(9000, 1, 1)
        own = subject(MANY)
        found = verdicts(
            {
                subject(PEER): shown(1000, 10, 10),
                own: shown(1000, 10, 10),
                subject(PEER, mode="client"): better,
                subject(PEER, mode="none"): better,
                subject(PEER, delay=0.1): better,
                subject(PEER, clients=64): better,
            },
            LIMITS,
        )
        self.assertEqual([one.value for one in found], [1.0, 1.0, 1.0, 0.0])

    def test_the_limits(self) -> None:
        peer = shown(1000, 100, 100)
        for clients, rate, holds in (
            (8, 950, True),
            (8, 949, False),
            (64, 950, True),
            (64, 949, False),
            (256, 1000, True),
            (256, 999, False),
            (1024, 1000, True),
            (1024, 999, False),
        ):
            for p99, has_p99 in ((125, True), (126, False)):
                for time, has_time in ((90, True), (91, False)):
                    with self.subTest(clients=clients, rate=rate, p99=p99, time=time):
                        found = self.judged(
                            {
                                subject(PEER, clients=clients): peer,
                                subject(MANY, clients=clients): shown(rate, p99, time),
                            }
                        )
                        self.assertEqual(
                            [found[name].holds for name in (self.REQUESTS, self.P99, self.TIME)],
                            [holds, has_p99, has_time],
                        )

    def test_a_peer_with_as_many_requests_at_a_time_counts_by_itself(self) -> None:
        """It is compared with the switch that has its limit, and with no other one."""
        few, others = f"{OTHER} maxconn 8", f"{OTHER} maxconn 80"
        found = [
            (one.name, one.value)
            for one in verdicts(
                {
                    subject(PEER): shown(1000, 10, 10),
                    subject(few): shown(500, 20, 40),
                    subject(others): shown(9000, 1, 1),
                    subject(FEW): shown(400, 30, 20),
                    subject(MANY): shown(900, 10, 10),
                },
                LIMITS,
            )
            if FEW in one.name and not one.name.startswith((self.ERRORS, self.BESIDE_FEW))
        ]
        end = f"both, 8 clients, at once, {FEW}"
        as_many = "that of a peer with as many at a time"
        self.assertEqual(
            found,
            [
                (f"{self.REQUESTS}, {end}", 0.4),
                (f"{self.P99}, {end}", 3.0),
                (f"{self.TIME}, {end}", 2.0),
                (f"requests a second to {as_many}, {end}", 0.8),
                (f"p99 to {as_many}, {end}", 1.5),
                (f"processor time of a request to {as_many}, {end}", 0.5),
            ],
        )

    def test_more_requests_at_a_time_cost_no_more(self) -> None:
        for time, holds in ((105, True), (106, False)):
            found = self.judged({subject(FEW): shown(1, 1, 100), subject(MANY): shown(1, 1, time)})
            self.assertEqual(set(found), {self.BESIDE_FEW, self.ERRORS})
            self.assertAlmostEqual(found[self.BESIDE_FEW].value, time / 100)
            self.assertEqual(found[self.BESIDE_FEW].holds, holds)
        apart = {subject(FEW): shown(1, 1, 1), subject(MANY, delay=0.1): shown(1, 1, 9)}
        self.assertNotIn(self.BESIDE_FEW, self.judged(apart))

    def test_each_switch_is_judged(self) -> None:
        found = {
            subject(PEER): shown(1, 1, 1),
            subject(FEW): shown(2, 1, 1),
            subject(MANY): shown(3, 1, 1),
        }
        rates = [one for one in verdicts(found, LIMITS) if one.name.startswith("requests")]
        self.assertEqual([one.value for one in rates], [2.0, 3.0])
        self.assertTrue(rates[0].name.endswith(FEW) and rates[1].name.endswith(MANY))

    def test_errors(self) -> None:
        for errors, holds in ((0, True), (1, True), (2, False)):
            found = self.judged({subject(MANY): shown(1, 1, 1, errors)})
            self.assertEqual(found[self.ERRORS].holds, holds)

    def test_a_switch_that_answers_nothing_well_misses_each_limit(self) -> None:
        own = Figures(0, 0.0, math.inf, math.inf, 500)
        found = self.judged({subject(PEER): shown(1000, 10, 10), subject(MANY): own})
        self.assertEqual([one.holds for one in found.values()], [False] * 4)

    def test_peers_alone_are_not_judged(self) -> None:
        self.assertEqual(self.judged({subject(PEER): shown(1, 1, 1)}), {})

    def test_the_ratios_are_printed_as_they_are_compared(self) -> None:
        compare = module_of("bench/compare.py")
        found = {subject(PEER): shown(100, 1, 1), subject(MANY): shown(94, 1.2, 0.8)}
        printed = "\n".join(map(str, verdicts(found, LIMITS)))
        ratios = compare.ratios_of(printed)
        self.assertEqual(
            [(name.split(",")[0], ratio) for name, ratio in ratios.items()],
            [
                (self.REQUESTS, compare.Ratio(0.94, True)),
                (self.P99, compare.Ratio(1.2, False)),
                (self.TIME, compare.Ratio(0.8, False)),
                (self.ERRORS, compare.Ratio(0.0, False)),
            ],
        )
        self.assertIn(
            f"ratio of {self.REQUESTS}, both, 8 clients, at once, {MANY}: 0.9400, at least 0.95\n  MISSED\n",
            printed,
        )
        self.assertEqual(printed.count("MISSED"), 1)


class Configurations(unittest.TestCase):
    PLACE = Place(1234, 5678, pathlib.Path("/tmp"))

    def test_nginx(self) -> None:
        for mode, kept, kept_endpoints, sent in (
            (Mode.BOTH, "keepalive_timeout 60;", True, 'Connection "";'),
            (Mode.CLIENT, "keepalive_timeout 60;", False, "Connection close;"),
            (Mode.NONE, "keepalive_timeout 0;", False, "Connection close;"),
        ):
            with self.subTest(mode):
                text = configurations.nginx(self.PLACE, mode, 3)
                for part in (kept, sent, "worker_processes 3;", "listen 127.0.0.1:1234 "):
                    self.assertIn(part, text)
                self.assertIn("server 127.0.0.1:5678;", text)
                self.assertEqual(" keepalive 8192;" in text, kept_endpoints)

    def test_haproxy(self) -> None:
        options = {
            Mode.BOTH: ("option http-keep-alive", "http-reuse always"),
            Mode.CLIENT: ("option http-server-close",),
            Mode.NONE: ("option httpclose",),
        }
        for mode, own in options.items():
            with self.subTest(mode):
                text = configurations.haproxy(self.PLACE, mode, 3)
                lines = [line.strip() for line in text.splitlines()]
                found = [line for line in lines if line.startswith(("option", "http-reuse"))]
                self.assertEqual(tuple(found), own)
                self.assertIn("nbthread 3", lines)
                self.assertIn("bind 127.0.0.1:1234 backlog 4096", lines)
                self.assertIn("server one 127.0.0.1:5678", lines)
                limited = configurations.haproxy(self.PLACE, mode, 3, 8)
                without = text.replace("server one 127.0.0.1:5678", "{}")
                self.assertEqual(limited, without.format("server one 127.0.0.1:5678 maxconn 8"))

    def test_a_mode_needs_its_flags_in_the_help(self) -> None:
        flags = {Mode.BOTH: ("--keep", "all"), Mode.CLIENT: None, Mode.NONE: ()}
        with mock.patch.object(configurations, "SWITCH_FLAGS", flags):
            for told, both in (
                ("  --keep WHAT\n          What is kept\n", ("--keep", "all")),
                ("With --keep, a connection is kept.", ("--keep", "all")),
                ("  --keep-nothing\n  --x--keep\n", None),
                ("", None),
            ):
                with self.subTest(told):
                    self.assertEqual(flags_in(told, Mode.BOTH), both)
                    self.assertIsNone(flags_in(told, Mode.CLIENT))
                    self.assertEqual(flags_in(told, Mode.NONE), ())

    def test_each_mode_has_a_place_in_the_table(self) -> None:
        self.assertEqual(set(configurations.SWITCH_FLAGS), set(Mode))
        self.assertEqual(configurations.SWITCH_FLAGS[Mode.NONE], ())

    def test_a_switch_that_cannot_serve_all_clients_at_a_time(self) -> None:
        switch, peer = Proxy(FEW, Mode.NONE, 1, 1, 8), Proxy(PEER, Mode.NONE, 1, 1)
        for delay, clients, expected in (
            (0.0, 1024, True),
            (0.1, 8, True),
            (0.1, 9, False),
        ):
            self.assertEqual(switch.is_measured(delay, clients), expected)
            self.assertTrue(peer.is_measured(delay, clients))

    def test_a_limited_peer_is_measured_at_its_limit(self) -> None:
        peer = Proxy(f"{PEER} maxconn 8", Mode.NONE, 1, 1, 8)
        for delay, clients, expected in ((0.0, 8, False), (0.0, 9, True), (0.1, 9, False)):
            self.assertEqual(peer.is_measured(delay, clients), expected)

    def test_each_round_begins_with_another_proxy(self) -> None:
        proxies = [Proxy(name, Mode.NONE, 1, 1) for name in (PEER, OTHER, MANY)]
        for number, names in enumerate(
            ([PEER, OTHER, MANY], [OTHER, MANY, PEER], [MANY, PEER, OTHER], [PEER, OTHER, MANY])
        ):
            self.assertEqual([one.name for one in in_turn(proxies, number)], names)
        self.assertEqual(in_turn([], 1), [])


class Words(unittest.TestCase):
    def bench(self, *words: str, path: str = "") -> Run:
        """A run if no program is installed."""
        variables = ["env", f"PATH={path}", "PYTHONDONTWRITEBYTECODE=1"]
        return run_to_end([*variables, sys.executable, str(TOP / "bench/beside_peers.py"), *words])

    def test_without_words(self) -> None:
        asked = asked_for([], BENCH.__doc__)
        self.assertEqual((asked.rounds, asked.threads), (5, 2))
        self.assertEqual(asked.connections, [8, 64, 256, 1024])
        self.assertEqual((asked.delays, asked.concurrency), ([0.0, 0.1], [8, 1023]))
        self.assertEqual(asked.proxies, ["nginx", "haproxy", "bg_switch"])
        self.assertEqual(asked.modes, ["both", "client", "none"])

    def test_the_smallest_number_of_requests_at_a_time_comes_first(self) -> None:
        self.assertEqual(asked_for(["--concurrency", "64,8,8"], BENCH.__doc__).concurrency, [8, 64])

    def test_wrong_words(self) -> None:
        for words in (
            ["--rounds", "0"],
            ["--seconds", "1.5"],
            ["--connections", "8,,64"],
            ["--connections", ""],
            ["--delays", "-1"],
            ["--delays", "inf"],
            ["--delays", "nan"],
            ["--delays", "0.1s"],
            ["--concurrency", "-8"],
            ["--proxies", "nginx,apache"],
            ["--modes", "all"],
            ["--unknown"],
            ["more"],
        ):
            with self.subTest(words):
                told = io.StringIO()
                with self.assertRaises(SystemExit) as ended, contextlib.redirect_stderr(told):
                    asked_for(words, BENCH.__doc__)
                self.assertEqual(ended.exception.code, 2)
                self.assertIn("usage: bench/beside_peers.py [--rounds N]", told.getvalue())
        self.assertEqual(self.bench("--rounds", "0").status, 2)

    def test_a_program_that_is_missing(self) -> None:
        for words, missing in (
            ((), "wrk, nginx, haproxy, gcc"),
            (("--proxies", "nginx,bg_switch"), "wrk, nginx, gcc"),
            (("--system-calls",), "strace, gcc"),
            (("--instructions",), "valgrind, gcc"),
            (("--system-calls", "--instructions"), "strace, valgrind, gcc"),
        ):
            with self.subTest(words):
                expected = f"beside_peers needs {missing}: nothing was measured\n"
                self.assertEqual(self.bench(*words, path="/nowhere"), Run(expected, "", 0))


class Bench(unittest.TestCase):
    """The whole bench, over rounds that a test makes up."""

    def passed(self, rounds: Iterable[Round], words: Sequence[str] = ()) -> tuple[bool, str]:
        printed = io.StringIO()
        with mock.patch.object(
            BENCH, "rounds_of", lambda *_: (one for one in rounds)
        ), mock.patch.object(
            BENCH.proxies, "help_of_serve", lambda: ""
        ), contextlib.redirect_stdout(
            printed
        ):
            asked = asked_for(words, BENCH.__doc__)
            return BENCH.have_rounds_passed(asked, pathlib.Path("/")), printed.getvalue()

    def rounds(self, *own: float) -> list[Round]:
        """Rounds of a peer with 100 requests a second, and of a switch with these."""
        return [
            Round(number, one, shown(rate, 1, 1 if one.proxy == PEER else 0.5))
            for number, second in enumerate(own, start=1)
            for one, rate in ((subject(PEER), 100.0), (subject(MANY), second))
        ]

    def test_the_medians_decide(self) -> None:
        for own, expected in (
            ((100, 100, 100), True),
            ((1, 100, 100), True),
            ((100, 100, 1), True),
            ((100, 1, 1), False),
            ((95,), True),
            ((94,), False),
        ):
            with self.subTest(own):
                has_passed, printed = self.passed(self.rounds(*own))
                self.assertEqual((has_passed, "MISSED" in printed), (expected, not expected))
                self.assertEqual(printed.count("\nround "), 2 * len(own))

    def test_a_mode_that_the_switch_has_not_is_told(self) -> None:
        printed = self.passed(self.rounds(100))[1]
        for mode in ("both", "client"):
            self.assertIn(f"bg_switch has not the mode {mode}: it is left out\n", printed)
        self.assertNotIn("the mode none", printed)
        self.assertNotIn("left out", self.passed(self.rounds(100), ["--modes", "none"])[1])

    def test_peers_alone(self) -> None:
        rounds = [one for one in self.rounds(100) if one.subject.proxy == PEER]
        has_passed, printed = self.passed(rounds, ["--proxies", "nginx"])
        self.assertTrue(has_passed)
        self.assertIn("no mode of bg_switch was measured: nothing was judged\n", printed)
        self.assertNotIn("left out", printed)

    def test_rounds_before_a_fault_are_written(self) -> None:
        def some() -> Iterable[Round]:
            yield from self.rounds(100)
            raise MeasurementError("nginx has ended")

        with tempfile.TemporaryDirectory() as folder:
            file = os.path.join(folder, "rounds.json")
            with self.assertRaises(MeasurementError):
                self.passed(some(), ["--out", file])
            self.assertEqual(len(json.loads(pathlib.Path(file).read_text(encoding="ascii"))), 2)


if __name__ == "__main__":
    unittest.main()
