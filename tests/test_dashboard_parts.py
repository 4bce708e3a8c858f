"""What the dashboard knows, counts and refuses, without a server."""
import json
import time
import unittest
from collections.abc import Sequence
from unittest import mock

from bg_switch_tools.dashboard import totals, traffic
from bg_switch_tools.dashboard.alarms import without_endpoint
from bg_switch_tools.dashboard.board import MOST_HAPPENED, Board
from bg_switch_tools.dashboard.guard import fault_of, is_token
from bg_switch_tools.dashboard.page_commands import (
    NewestChangedError,
    PageCommand,
    PageCommandError,
    read_page_command,
    send_page_command,
)
from bg_switch_tools.dashboard.steps import NAMES, SeenPhases, possible_commands, steps
from bg_switch_tools.dashboard.totals import DurationTally, Labels, Totals, reasons
from bg_switch_tools.dashboard.traffic import Durations, Traffic
from bg_switch_tools.switch.access_log import Batch, LogEntry, written
from bg_switch_tools.switch.lines import Abort, Promote
from bg_switch_tools.switch.meanings import LACKS_ORDER
from bg_switch_tools.switch.phases import PHASES, RUNNING, Phase
from bg_switch_tools.switch.replies import Done, Refused
from bg_switch_tools.switch.report_text import in_one_line
from bg_switch_tools.switch.reports import Report, read_report
from tests.costs import processor_seconds_of, steps_of
from tests.fake_switch import FakeBook, FakeSwitch
from tests.synthetic_log import ANSWERED, BEGIN, Part, cut_off, entries, refused


def reports(*lines: str) -> list[Report]:
    """The report after each of these lines, to a switch with a pause and an analysis after the
    switch."""
    book, found = FakeBook("pause", "post"), []
    for line in lines:
        book.answer(line)
        report = read_report(book.answer("report") or [])
        assert report is not None
        found.append(report)
    return found


OPENED = ("open web-v1 1 2", "available 1 2")
PAUSED = (*OPENED, "deploy web-v2 3 4", "available 2 2")


class Slots(unittest.TestCase):
    def test_requests_by_time_revision_and_status(self) -> None:
        told = Traffic()
        requests = (
            (200, 0, "a"),
            (204, 1.9, "a"),
            (404, 0.5, "a"),
            (502, 0, "b"),
            (None, 2.0, "b"),
            (200, 2.5, "a"),
        )
        for status, after, revision in requests:
            told.add(ANSWERED._replace(time=BEGIN + after, status=status), revision)
        first, second = told.take_changed()
        self.assertEqual(
            (first["begins"], second["begins"]), (int(BEGIN), int(BEGIN) + traffic.SLOT)
        )
        self.assertEqual(
            [(cell["revision"], cell["counts"]) for cell in first["cells"]],
            [("a", {"2xx": 2, "4xx": 1}), ("b", {"5xx": 1})],
        )
        self.assertEqual(
            [(cell["revision"], cell["counts"]) for cell in second["cells"]],
            [("a", {"2xx": 1}), ("b", {"none": 1})],
        )
        self.assertEqual(told.take_changed(), [])

    def test_ten_minutes_are_kept(self) -> None:
        told = Traffic()
        for entry in entries([Part(1, 700)], BEGIN, 700.0):
            told.add(entry, "a")
        told.forget(BEGIN + 700)
        begins = sorted(told.slots)
        self.assertEqual(
            (begins[0] >= BEGIN + 98, begins[0] <= BEGIN + 100, len(begins)),
            (True, True, len(told.take_changed())),
        )

    def test_quantiles_are_known_to_five_per_cent(self) -> None:
        durations = Durations()
        for number in range(1, 10001):
            durations.add(number / 10)
        for share, expected in ((0.5, 500), (0.99, 990), (0.01, 10)):
            self.assertLess(abs(durations.quantile(share) / expected - 1), 0.06, share)
        self.assertEqual(Durations().quantile(0.5), 0.0)

    def test_classes(self) -> None:
        for status, expected in (
            (None, "none"),
            (100, "1xx"),
            (204, "2xx"),
            (404, "4xx"),
            (503, "5xx"),
            (600, "5xx"),
            (999, "5xx"),
        ):
            self.assertEqual(traffic.class_of(status), expected)

    def test_a_clock_that_is_set_back(self) -> None:
        told = Traffic()
        for entry in entries([Part(1, 700)], BEGIN, 700.0):
            told.add(entry, "a")
        told.forget(BEGIN + 100)
        self.assertLessEqual(max(told.slots), BEGIN + 100 + traffic.SLOT)
        self.assertEqual(len(told.take_changed()), len(told.slots))

    def test_the_last_seconds(self) -> None:
        told = Traffic()
        for after, status in ((-100, 500), (-3, 200), (-2, 200), (-1, 503), (-1, None)):
            told.add(ANSWERED._replace(time=BEGIN + after, status=status, duration_ms=8.0), "a")
        recent = told.recent(BEGIN)["a"]
        self.assertEqual(
            (recent["requests_per_second"], recent["errors"]), (round(4 / traffic.RECENT, 1), 0.5)
        )
        self.assertLess(abs(recent["p99"] / 8 - 1), 0.06)

    def test_the_last_seconds_of_each_endpoint(self) -> None:
        told = Traffic()
        for port, status in (
            (9102, 200),
            (9101, 200),
            (9102, None),
            (9102, 503),
            (9102, 404),
            (None, 502),
        ):
            told.add(ANSWERED._replace(time=BEGIN - 1, port=port, status=status), "a")
        self.assertEqual(
            told.recent(BEGIN)["a"]["ports"],
            [
                {"port": 9101, "requests_per_second": round(1 / traffic.RECENT, 1), "errors": 0.0},
                {"port": 9102, "requests_per_second": round(4 / traffic.RECENT, 1), "errors": 0.5},
            ],
        )


class Counted(unittest.TestCase):
    def test_requests_and_durations(self) -> None:
        counted = Totals()
        for milliseconds in (0.5, 1.0, 3.0, 99000.0):
            counted.add(ANSWERED._replace(duration_ms=milliseconds, upstream_ms=None), "a")
        counted.add(refused("no_preview"), "")
        labels = Labels("active", "a", "2xx")
        self.assertEqual(
            {each: found.requests for each, found in counted.items()},
            {labels: 4, Labels("active", "none", "5xx"): 1},
        )
        tally = counted.counted[labels].durations
        self.assertEqual(
            (tally.buckets()[0], tally.buckets()[2], tally.buckets()[-2:]),
            (("0.001", 2.0), ("0.005", 3.0), [("60.0", 3.0), ("+Inf", 4.0)]),
        )
        self.assertAlmostEqual(tally.sum, 99.0045)
        self.assertEqual(
            (
                counted.counted[labels].upstream.is_empty,
                tally.is_empty,
                DurationTally().buckets()[-1],
            ),
            (True, False, ("+Inf", 0.0)),
        )

    def test_a_tunnel_lasts_until_its_head(self) -> None:
        counted = Totals()
        tunnel = ANSWERED._replace(status=101, tunnel="whole", duration_ms=86_400_000.0)
        counted.add(tunnel._replace(upstream_ms=30.0), "a")
        counted.add(tunnel._replace(upstream_ms=None), "a")
        found = counted.counted[Labels("active", "a", "1xx")]
        self.assertEqual((found.requests, found.durations.sum), (2, 0.03))
        self.assertEqual(found.durations.buckets()[-1], ("+Inf", 1.0))

    def test_each_end_of_a_bucket_belongs_to_it(self) -> None:
        for place, end in enumerate(totals.BUCKETS):
            tally = DurationTally()
            tally.add(end * 1000)
            self.assertEqual(tally.counts.index(1), place, end)

    def test_other_endpoints_and_retries(self) -> None:
        counted = Totals()
        for slot_port, tries in ((None, None), (None, 1), (9101, 2), (9101, 4), (None, 2)):
            counted.add(ANSWERED._replace(port=9102, slot_port=slot_port, tries=tries), "a")
        found = counted.counted[Labels("active", "a", "2xx")]
        self.assertEqual((found.requests, found.redispatched, found.retries), (5, 2, 5))

    def test_responses_that_were_cut(self) -> None:
        """They count by the status of their fault, with the bytes that were forwarded."""
        counted = Totals()
        for reason in ("response_malformed", "given_up", "body"):
            counted.add(cut_off(reason), "a")
        self.assertEqual(
            {labels.status: (found.requests, found.bytes) for labels, found in counted.items()},
            {"5xx": (2, 80), "4xx": (1, 40)},
        )

    def test_clients_that_have_gone_and_idle_connections(self) -> None:
        counted = Totals()
        for entry in (ANSWERED, refused("client_gone")._replace(idle_connections=3), ANSWERED):
            counted.add(entry, "a")
        counted.add(refused("given_up")._replace(idle_connections=4), "a")
        self.assertEqual(
            {labels.status: (found.requests, found.gone) for labels, found in counted.items()},
            {"2xx": (2, 0), "4xx": (1, 1), "5xx": (1, 0)},
        )
        self.assertEqual(counted.idle_connections, 7)

    def test_requests_on_kept_connections(self) -> None:
        """A first request is on no kept connection, though its endpoint's connection may be
        reused."""
        counted = Totals()
        for number, is_reused in ((None, None), (1, False), (1, True), (2, False), (3, True)):
            counted.add(
                ANSWERED._replace(connection_request=number, upstream_reused=is_reused), "a"
            )
        counted.add(refused("head")._replace(connection_request=4), "a")
        self.assertEqual(
            {labels.status: (found.kept, found.reused) for labels, found in counted.items()},
            {"2xx": (2, 2), "4xx": (1, 0)},
        )

    def test_names_that_are_too_old_are_dropped(self) -> None:
        counted = Totals()
        with mock.patch.object(totals, "MOST_REVISIONS", 2):
            for name in ("a", "b", "a", "c"):
                counted.add(ANSWERED, name)
        self.assertEqual(sorted(labels.revision for labels in counted.counted), ["b", "c"])

    def test_events(self) -> None:
        told = reports(
            *PAUSED, "promote", "verdict post failed", "retry", "promote", "verdict post successful"
        )
        self.assertEqual(
            [reasons(before, now) for before, now in zip(told, told[1:])],
            [
                [],
                ["NewReplicaSetCreated", "SwitchService"],
                ["RolloutPaused"],
                ["SwitchService", "RolloutResumed"],
                ["SwitchService", "SwitchService", "RolloutAborted"],
                ["SwitchService", "RolloutPaused"],
                ["SwitchService", "RolloutResumed"],
                ["RolloutCompleted"],
            ],
        )


class Steps(unittest.TestCase):
    def states(
        self, phase: Phase, failed_at: Phase | None = None, seen: Sequence[Phase] = PHASES
    ) -> list[str]:
        book = FakeBook()
        book.answer("open web-v1 1 2")
        lines = book.answer("report") or []
        report = read_report([line.replace("phase steady", f"phase {phase}") for line in lines])
        assert report is not None
        return [step["state"] for step in steps(report, seen, failed_at)]

    def test_each_phase_of_an_attempt_is_a_step(self) -> None:
        self.assertLess(set(RUNNING), set(NAMES))

    def test_each_phase(self) -> None:
        for phase, place in (
            (Phase.SCALING, 0),
            (Phase.PRE_ANALYSIS, 1),
            (Phase.PAUSED, 2),
            (Phase.SIZING, 3),
            (Phase.POST_ANALYSIS, 5),
        ):
            self.assertEqual(
                self.states(phase), ["done"] * place + ["current"] + ["ahead"] * (6 - place)
            )
        self.assertEqual(self.states(Phase.STEADY), ["done"] * 7)
        self.assertEqual(
            self.states(Phase.ABORTED, Phase.POST_ANALYSIS), ["done"] * 5 + ["failed", "ahead"]
        )
        self.assertEqual(self.states(Phase.ABORTED), ["ahead"] * 7)

    def test_a_step_that_was_not_seen(self) -> None:
        self.assertEqual(
            self.states(Phase.POST_ANALYSIS, None, [Phase.SCALING, Phase.POST_ANALYSIS]),
            ["done", "passed", "passed", "passed", "done", "current", "ahead"],
        )
        self.assertEqual(
            self.states(Phase.STEADY, None, []), ["passed"] * 4 + ["done", "passed", "done"]
        )

    def test_what_is_seen_of_an_attempt(self) -> None:
        attempt = SeenPhases()
        for report in reports(*PAUSED, "promote", "verdict post failed"):
            attempt.take(report)
        self.assertEqual(
            (attempt.phases, attempt.failed_at),
            (["scaling", "paused", "postAnalysis"], "postAnalysis"),
        )
        attempt.take(reports(*PAUSED, "abort", "retry")[-1])
        self.assertEqual((attempt.phases, attempt.failed_at), (["paused"], None))
        attempt.take(reports(*PAUSED, "deploy web-v3 5 6")[-1])
        self.assertEqual(attempt.phases, ["scaling"])
        attempt.take(reports(*PAUSED, "deploy web-v3 5 6", "abort")[-1])
        self.assertEqual(attempt.failed_at, "scaling")
        late = SeenPhases()
        late.take(reports(*PAUSED, "abort")[-1])
        self.assertIsNone(late.failed_at)

    def test_orders(self) -> None:
        told = reports(*PAUSED, "promote", "abort")
        running = ["promote full", "abort"]
        self.assertEqual(
            [
                [str(line) for line, can in possible_commands(report).items() if can]
                for report in told[1:]
            ],
            [[], running, ["promote", *running], running, ["retry"]],
        )
        self.assertFalse(any(possible_commands(None).values()))
        self.assertEqual(
            set(PHASES),
            {"steady", "scaling", "preAnalysis", "paused", "sizing", "postAnalysis", "aborted"},
        )


class Boards(unittest.TestCase):
    def setUp(self) -> None:
        self.board = Board(8082, "/log", False)

    def texts(self, kind: str = "") -> list[str]:
        return [each["text"] for each in self.board.happened if kind in ("", each["kind"])]

    def test_marks_at_a_switch_and_an_abort(self) -> None:
        for report in reports(*PAUSED, "promote", "verdict post failed"):
            self.board.take_report(report)
        self.assertEqual(
            [(each["kind"], each["mark"]) for each in self.board.happened if each["mark"]],
            [("switch", "to web-v2"), ("abort", "abort"), ("switch", "to web-v1")],
        )
        states = self.board.head()["steps"]
        assert isinstance(states, list)
        self.assertEqual(
            [step["name"] for step in states if step["state"] == "failed"], ["postAnalysis"]
        )

    def test_silence_is_told_once_and_its_end(self) -> None:
        report = reports(*OPENED)[-1]
        for reason in ("gone", "gone", "still gone"):
            self.board.take_report(report)
            self.board.take_silence(reason)
            self.board.take_silence(reason)
        self.assertEqual(len(self.texts("silence")), 3)
        self.assertEqual(self.texts("answer"), [f"the switch answers: {in_one_line(report)}"] * 3)
        self.assertEqual(self.texts("change"), [])
        switch = self.board.head()["switch"]
        assert isinstance(switch, dict)
        self.assertEqual((switch["answers"], switch["fault"]), (False, "still gone"))
        self.assertIsNotNone(self.board.head()["report"])
        told = self.board.head()["orders"]
        assert isinstance(told, dict)
        self.assertFalse(any(told.values()))

    def test_names_of_a_book_that_is_gone_are_forgotten(self) -> None:
        self.board.take_report(reports(*PAUSED, "tick 9")[-1])
        self.assertEqual(
            (self.board.name(2), self.board.name(3), self.board.name(None)),
            ("web-v2", "revision-3", ""),
        )
        self.board.take_report(reports("open other 1 2")[-1])
        self.assertEqual((self.board.name(1), self.board.name(2)), ("other", "revision-2"))
        self.board.take_report(None)
        self.assertEqual(self.board.name(1), "revision-1")

    def test_a_switch_that_was_started_again_between_two_reports(self) -> None:
        """No event of a rollout is counted, and the page is told of no switch."""
        for report in reports(*PAUSED, "promote", "verdict post successful", "tick 50"):
            self.board.take_report(report)
        before = dict(self.board.totals.events)
        for moment in (0, 60):  # a controller ticks on from the moment before
            self.board.take_report(
                reports("open web-v2 3 4", "available 1 2", f"tick {moment}")[-1]
            )
            self.assertEqual(
                self.texts()[-2:],
                ["the book is gone: the switch was started again", "the book was opened"],
            )
            self.assertEqual(
                (dict(self.board.totals.events), self.board.name(2)), (before, "revision-2")
            )
            self.board.take_report(
                reports(*PAUSED, "promote", "verdict post successful", "tick 50")[-1]
            )

    def test_updates_have_what_is_new(self) -> None:
        self.board.take_report(reports(*OPENED)[-1])
        now = [entry._replace(time=time.time()) for entry in (ANSWERED, refused("connect_failed"))]
        self.board.take_batch(Batch(now, 3, 1), "")
        first, second = self.board.update(), self.board.update()
        for name in ("slots", "happened", "failed"):
            told, later = first[name], second[name]
            assert isinstance(told, list)
            self.assertEqual((len(told) > 0, later), (True, []), name)
        self.assertEqual(self.texts("log"), ["the switch could not write 3 lines of its log"])
        self.board.take_batch(Batch([], 0, 0), "gone")
        self.board.take_batch(Batch([], 0, 0), "")
        self.assertEqual(
            self.texts("log")[1:], ["the log /log can't be read: gone", "the log /log is read"]
        )

    def test_it_keeps_up_with_20000_lines_a_second(self) -> None:
        """To count lines costs no more than few times what their JSON costs, and a line costs no
        more beside others."""
        told = list(entries([Part(1, 10000), Part(2, 10000, 0.01)], time.time() - 1, 1.0))

        def count(lines: Sequence[LogEntry]) -> None:
            self.board.take_batch(Batch(list(lines), 0, 0), "")
            self.board.update()

        texts = [written(entry) for entry in told]
        of_json = processor_seconds_of(lambda: [json.loads(text) for text in texts])
        self.assertLess(processor_seconds_of(lambda: count(told)), 3 * of_json)
        self.assertLess(
            steps_of(lambda: count(told[5000:9000])), 2.2 * steps_of(lambda: count(told[:2000]))
        )

    def test_what_stood_in_the_log_is_not_counted(self) -> None:
        self.board.take_batch(Batch([ANSWERED], 0, 0), "", is_counted=False)
        self.assertEqual((len(self.board.traffic.slots), len(self.board.totals.counted)), (1, 0))

    def test_no_list_grows_without_end(self) -> None:
        for _ in range(300):
            self.board.note_line(Promote(), Refused("NotPaused"))
            self.board.take_batch(Batch([refused("connect_failed")] * 30, 0, 0), "")
        self.assertEqual((len(self.board.happened), len(self.board.failed)), (MOST_HAPPENED, 50))
        self.assertEqual(
            self.texts()[-1], "promote => refused NotPaused: the rollout is not paused"
        )


class Alarmed(unittest.TestCase):
    """A board whose active service selects a revision without an endpoint."""

    def setUp(self) -> None:
        self.board = Board(8082, "/log", False)

    def take(self, *lines: str) -> None:
        self.board.take_report(reports(*lines)[-1])

    def counted(self) -> dict[str, int]:
        """How many requests were counted by each revision that had some."""
        return {
            labels.revision: each.requests
            for labels, each in self.board.totals.items()
            if each.requests
        }

    def said(self, kind: str) -> list[str]:
        return [each["text"] for each in self.board.happened if each["kind"] == kind]

    def test_no_endpoint_is_up(self) -> None:
        self.take(*OPENED)
        self.assertEqual(self.board.head()["alarms"], [])
        for _ in range(2):
            self.take(*OPENED, "available 1 0")
        text = "No endpoint of web-v1 is up. The active service selects web-v1, so each request is answered 503."
        self.assertEqual(
            self.board.head()["alarms"], [{"service": "active", "revision": "web-v1", "text": text}]
        )
        self.assertEqual(
            (self.said("alarm"), self.board.happened[-1]["mark"]), ([text], "no endpoint")
        )
        self.take(*OPENED)
        self.assertEqual(
            (self.board.head()["alarms"], self.said("answer")[-1]),
            ([], "an endpoint of web-v1 is up again: 2 of 2"),
        )

    def test_a_preview_without_an_endpoint_is_no_alarm(self) -> None:
        self.take(*OPENED, "deploy web-v2 3 4")
        assert self.board.report is not None
        self.assertEqual(
            (without_endpoint(self.board.report), self.board.head()["alarms"]),
            ({"active": False, "preview": True}, []),
        )

    def test_an_alarm_is_none_while_the_switch_gives_no_answer(self) -> None:
        self.take("open web-v1 1 2")
        self.assertEqual(len(self.said("alarm")), 1)
        self.board.take_silence("gone")
        self.assertEqual(self.board.head()["alarms"], [])

    def test_a_journal_that_lacks_an_order_is_told(self) -> None:
        report = reports(*OPENED)[-1]
        for lacks_order, told in ((True, LACKS_ORDER), (True, LACKS_ORDER), (False, "")):
            self.board.take_report(report, lacks_order)
            self.assertEqual(self.board.head()["journal"], told)
        self.assertEqual(
            (self.said("alarm"), self.said("answer")[-1]),
            ([LACKS_ORDER], "the journal of the switch keeps each order again"),
        )
        self.board.take_report(report, True)
        self.board.take_silence("gone")
        self.assertEqual(self.board.head()["journal"], "")

    def test_requests_without_an_endpoint_are_errors_of_the_selected_revision(self) -> None:
        now = [refused("no_endpoint")._replace(time=time.time() - 3)] * 4
        self.take(*OPENED)
        # one report alone does not tell what was selected before it
        self.board.take_batch(Batch(now, 0, 0), "")
        self.take(*OPENED, "available 1 0")
        self.board.take_batch(Batch(now, 0, 0), "")
        self.board.take_batch(Batch(now, 0, 0), "", is_counted=False)
        recent = self.board.traffic.recent(time.time())
        self.assertEqual(
            {name: each["errors"] for name, each in recent.items()}, {"": 1.0, "web-v1": 1.0}
        )
        self.assertEqual(self.counted(), {"none": 4, "web-v1": 4})
        self.assertEqual(
            [each["revision"] for each in self.board.failed], [""] * 4 + ["web-v1"] * 4 + [""] * 4
        )

    def test_a_service_that_moves(self) -> None:
        """A request without an endpoint that came meanwhile is no revision's."""
        self.take(*PAUSED)
        self.take(*PAUSED, "promote")
        self.board.take_batch(Batch([refused("no_endpoint")], 0, 0), "")
        self.assertEqual(self.counted(), {"none": 1})

    def test_counters_begin_at_0_before_the_first_request(self) -> None:
        self.take(*PAUSED)
        self.assertEqual(
            {(labels.service, labels.revision) for labels in self.board.totals.counted},
            {("active", "web-v1"), ("preview", "web-v2")},
        )
        self.assertEqual(
            {labels.status for labels in self.board.totals.counted}, set(traffic.CLASSES)
        )
        self.assertEqual({each.requests for each in self.board.totals.counted.values()}, {0})
        self.board.take_batch(Batch([ANSWERED], 0, 0), "")
        self.take(*PAUSED)
        self.assertEqual(self.counted(), {"web-v1": 1})

    def test_faults_of_its_own(self) -> None:
        self.assertEqual(
            [self.board.take_fault(fault) for fault in ("", "a", "a", "b", "", "")],
            [False, True, False, True, True, False],
        )
        self.assertEqual(
            (len(self.said("fault")), self.said("answer"), self.board.own_faults),
            (2, ["the dashboard looks at the switch again"], 3),
        )


class Guarded(unittest.TestCase):
    def test_hosts(self) -> None:
        for host in (
            "127.0.0.1:8090",
            "localhost:8090",
            "LOCALHOST",
            "127.0.0.1",
            "localhost:1234",
        ):
            self.assertEqual(fault_of([host], []), "", host)
        wrong: Sequence[Sequence[str]] = (
            [],
            ["evil.example"],
            ["evil.example:8090"],
            ["127.0.0.1.evil.example"],
            ["localhost.evil.example:8090"],
            ["127.0.0.1:8090", "127.0.0.1:8090"],
            ["localhost:8090@evil.example"],
            [""],
            ["127.0.0.1:"],
            ["10.0.0.1:8090"],
            ["localhost\n"],
        )
        for hosts in wrong:
            self.assertIn("is reached by the name", fault_of(hosts, []), hosts)

    def test_origins(self) -> None:
        self.assertEqual(fault_of(["localhost:8090"], ["http://localhost:8090"]), "")
        for origin in (
            "http://localhost:3000",
            "http://127.0.0.1:8090",
            "https://localhost:8090",
            "null",
            "",
            "http://evil.example",
        ):
            self.assertEqual(
                fault_of(["localhost:8090"], [origin]),
                "the request comes from another site",
                origin,
            )

    def test_tokens(self) -> None:
        self.assertTrue(is_token("abc", "abc"))
        for wrong in ("", "ab", "abcd", "ABC", "ä", "\udcff"):
            self.assertFalse(is_token(wrong, "abc"), wrong)


class PageCommands(unittest.TestCase):
    def test_what_is_an_order(self) -> None:
        self.assertEqual(
            read_page_command(b'{"order": "promote full", "revision": 2}'),
            PageCommand(Promote(is_full=True), 2),
        )
        for wrong in (
            b"",
            b"[]",
            b"{}",
            b'{"order": "promote"}',
            b'{"order": "quit", "revision": 2}',
            b"\xff",
            b'{"order": "abort", "revision": "2"}',
            b'{"order": "abort\\nquit", "revision": 2}',
            b'{"order": "abort", "revision": 0}',
            b'{"order": "abort", "revision": 2, "more": 1}',
            b'{"order": ["abort"], "revision": 2}',
            b'{"order": "abort", "order": "promote", "revision": 2}',
        ):
            with self.subTest(text=wrong), self.assertRaises(PageCommandError):
                read_page_command(wrong)

    def test_an_order_for_another_revision_is_not_sent(self) -> None:
        switch = FakeSwitch("pause")
        self.addCleanup(switch.kill)
        with self.assertRaises(NewestChangedError):
            send_page_command(switch.port, PageCommand(Abort(), 1))
        for line in PAUSED:
            switch.book.answer(line)
        with self.assertRaises(NewestChangedError):
            send_page_command(switch.port, PageCommand(Promote(), 1))
        self.assertEqual(switch.sent_lines(), [])
        self.assertEqual(
            (send_page_command(switch.port, PageCommand(Promote(), 2)), switch.sent_lines()),
            (Done(3), ["promote"]),
        )


if __name__ == "__main__":
    unittest.main()
