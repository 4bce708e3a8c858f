"""The history: its events, its file and its bound, and what reports add to it."""
import contextlib
import io
import json
import os
import pathlib
import tempfile
import unittest
from unittest import mock

from bg_switch_tools.bgctl.history_table import duration
from bg_switch_tools.controller.history import history_file, history_recorder
from bg_switch_tools.controller.history.attempts import (
    DEPLOYED,
    ENDED,
    LIVE,
    LOST,
    Attempts,
    Event,
    read_event,
)
from bg_switch_tools.controller.history.history_file import HistoryFile
from bg_switch_tools.controller.history.history_recorder import HistoryRecorder
from bg_switch_tools.controller.log import Log
from bg_switch_tools.controller.plan.plan import PlannedRevision
from bg_switch_tools.controller.state.pause import Pause, PauseFile
from bg_switch_tools.switch.reports import Report, read_report
from tests.test_bgctl import run

V1, V2 = PlannedRevision("web-v1", (1, 2)), PlannedRevision("web-v2", (3, 4))
KNOWN = {"web-v1": V1, "web-v2": V2}


def at(seconds: int) -> str:
    return f"2026-11-26T10:{seconds // 60:02}:{seconds % 60:02}+00:00"


def report(phase: str, active: int, stable: int, newest: int) -> Report:
    told = read_report(
        [
            "moment 0",
            f"phase {phase}",
            f"active {active}",
            "preview 1",
            f"stable {stable}",
            f"newest {newest}",
            *(
                f"revision {number} web-v{number} desired 2 available 2 open 0 deadline none"
                for number in (1, 2)
            ),
            "end",
        ]
    )
    assert told is not None
    return told


class Histories(unittest.TestCase):
    def setUp(self) -> None:
        stack = contextlib.ExitStack()
        self.addCleanup(stack.close)
        self.plan = os.path.join(stack.enter_context(tempfile.TemporaryDirectory()), "plan.json")
        pathlib.Path(self.plan).write_text("{}", encoding="ascii")
        self.file = HistoryFile(self.plan)
        self.seconds = 0
        stack.enter_context(
            mock.patch.object(history_recorder, "local_time", lambda: at(self.seconds))
        )
        self.out = io.StringIO()

    def recorder(self, deployed: PlannedRevision | None = None) -> HistoryRecorder:
        return HistoryRecorder(self.plan, Log(self.out, False), deployed)

    def lines(self) -> list[tuple[object, ...]]:
        return [
            (
                one.name,
                one.began,
                one.by,
                one.how,
                one.live_seconds(at(self.seconds)),
                bool(one.live_since),
            )
            for one in self.file.read()[0].all
        ]


class Events(Histories):
    def test_a_line_and_back(self) -> None:
        for event in (
            Event(at(0), DEPLOYED, "web-v2", 2, "alice", ports=(3, 4)),
            Event(at(1), ENDED, "web-v2", 2, how="stable"),
            Event(at(2), LIVE, "web-v2", 2),
            Event(at(3), LOST),
        ):
            self.assertEqual(read_event(event.line()), event)

    def test_what_is_no_event(self) -> None:
        good = {"time": at(0), "event": LIVE, "name": "web-v1", "number": 1}
        self.assertIsNotNone(read_event(json.dumps(good).encode()))
        wrongs: tuple[dict[str, object], ...] = (
            {"time": 5},
            {"time": "yesterday"},
            {"time": "2026-11-26T10:00:00"},
            {"event": "bought"},
            {"name": "A B"},
            {"name": 7},
            {"number": True},
            {"number": "1"},
        )
        for wrong in wrongs:
            self.assertIsNone(read_event(json.dumps({**good, **wrong}).encode()), wrong)
        for line in (b"[]", b"{", b"\xff", b"7"):
            self.assertIsNone(read_event(line))

    def test_times_add_up(self) -> None:
        attempts = Attempts()
        for event in (
            Event(at(0), DEPLOYED, "web-v1", 1),
            Event(at(10), LIVE, "web-v1", 1),
            Event(at(20), DEPLOYED, "web-v2", 2),
            Event(at(40), LIVE, "web-v2", 2),
            Event(at(45), LIVE, "web-v1", 1),
            Event(at(60), LOST),
        ):
            attempts.take(event)
        self.assertEqual([one.live_seconds(at(99)) for one in attempts.all], [45.0, 5.0])

    def test_durations(self) -> None:
        self.assertEqual(
            [duration(each) for each in (0, 59.9, 60, 192, 3600, 7500, 86400, 273600)],
            ["0s", "59s", "1m00s", "3m12s", "1h00m", "2h05m", "1d00h", "3d04h"],
        )


class Files(Histories):
    def test_the_bound(self) -> None:
        event = Event(at(0), DEPLOYED, "web-v2", 2, "alice", ports=(3, 4))
        with mock.patch.object(history_file, "MOST_BYTES", 1000):
            for _ in range(100):
                self.file.append(event)
                sizes = [
                    os.path.getsize(path)
                    for path in (self.file.path, self.file.older)
                    if os.path.exists(path)
                ]
                self.assertLessEqual(max(sizes), 1000)
        self.assertGreaterEqual(len(self.file.read()[0].all), 1000 // len(event.line()))
        self.assertEqual(history_file.MOST_BYTES, 1 << 20)

    def test_a_line_that_was_cut_costs_that_line_alone(self) -> None:
        self.file.append(Event(at(0), DEPLOYED, "web-v1", 1))
        with open(self.file.path, "ab") as file:
            file.write(b'{"time": "2026')
        self.file.append(Event(at(1), DEPLOYED, "web-v2", 2))
        attempts, unreadable = self.file.read()
        self.assertEqual(
            ([one.name for one in attempts.all], unreadable), (["web-v1", "web-v2"], 1)
        )
        shown = run("history", "--plan", self.plan)
        self.assertEqual(
            (shown.status, f"{self.file.path} has 1 lines that are no events" in shown.told),
            (0, True),
        )

    def test_what_is_shown(self) -> None:
        self.assertEqual(
            run("history", "--plan", self.plan).told,
            f"bgctl: {self.file.path} has no attempt yet: the controller of the plan writes it\n",
        )
        for event in (
            Event(at(0), DEPLOYED, "web-v1", 1, "plan"),
            Event(at(1), ENDED, "web-v1", 1, how="stable"),
            Event(at(1), LIVE, "web-v1", 1),
            Event(at(2), DEPLOYED, "web-v2", 2, "alice"),
            Event(at(62), ENDED, "web-v2", 2, how="stable"),
            Event(at(62), LIVE, "web-v2", 2),
            Event(at(70), LOST),
        ):
            self.file.append(event)
        self.assertEqual(
            run("history", "--plan", self.plan).printed.splitlines(),
            [
                "WHEN                       REVISION  BY     HOW IT ENDED  LIVE FOR",
                "2026-11-26T10:00:00+00:00  1 web-v1  plan   stable        1m01s",
                "2026-11-26T10:00:02+00:00  2 web-v2  alice  stable        8s",
            ],
        )
        self.assertEqual(
            len(run("history", "--last", "1", "--json", BG_PLAN=self.plan).printed.splitlines()), 1
        )

    def test_a_folder_that_takes_no_file(self) -> None:
        recorder = self.recorder()
        with mock.patch("os.open", side_effect=OSError(28, "No space left on device")):
            recorder.take_in(report("steady", 1, 1, 1), KNOWN)
            recorder.take_in(report("scaling", 1, 1, 2), KNOWN)
        self.assertEqual(
            self.out.getvalue().count(
                f"the history can't be kept in {self.file.path}: No space left on device"
            ),
            1,
        )


class Reports(Histories):
    def test_a_report_that_shows_nothing_new_adds_nothing(self) -> None:
        recorder = self.recorder()
        for _ in range(3):
            recorder.take_in(report("steady", 1, 1, 1), KNOWN)
        self.assertEqual(self.lines(), [("web-v1", "opened", "plan", "stable", 0, True)])
        self.assertEqual(len(pathlib.Path(self.file.path).read_bytes().splitlines()), 3)

    def test_an_attempt_to_its_end(self) -> None:
        recorder = self.recorder()
        recorder.take_in(report("steady", 1, 1, 1), KNOWN)
        recorder.announce(V2)
        for self.seconds, phase, active, stable in (
            (10, "scaling", 1, 1),
            (20, "paused", 1, 1),
            (30, "postAnalysis", 2, 1),
            (40, "steady", 2, 2),
        ):
            recorder.take_in(report(phase, active, stable, 2), KNOWN)
        self.assertEqual(
            self.lines(),
            [
                ("web-v1", "opened", "plan", "stable", 30, False),
                ("web-v2", "deployed", "plan", "stable", 10, True),
            ],
        )
        self.assertEqual(self.file.read()[0].all[1].ports, (3, 4))

    def test_how_it_ends_otherwise(self) -> None:
        for phase, active, newest, how in (
            ("aborted", 1, 2, "aborted"),
            ("steady", 1, 1, "undone"),
        ):
            with self.subTest(how):
                recorder = self.recorder()
                recorder.take_in(report("steady", 1, 1, 1), KNOWN)
                recorder.take_in(report("paused", 1, 1, 2), KNOWN)
                recorder.take_in(report(phase, active, 1, newest), KNOWN)
                ended = [one.how for one in self.file.read()[0].all if one.name == "web-v2"]
                self.assertEqual(ended[-1], how)

    def test_a_book_whose_attempt_runs_already(self) -> None:
        """The live revision has no attempt in this history, and stands before the one that runs."""
        recorder = self.recorder()
        for _ in range(3):
            recorder.take_in(report("paused", 1, 1, 2), KNOWN)
        self.assertEqual(
            [line[:4] for line in self.lines()],
            [("web-v1", "deployed", "", ""), ("web-v2", "deployed", "line", "")],
        )

    def test_a_lost_book(self) -> None:
        recorder = self.recorder()
        recorder.lose_book()
        self.assertFalse(os.path.exists(self.file.path))
        recorder.take_in(report("paused", 1, 1, 2), KNOWN)
        self.seconds = 50
        recorder.lose_book()
        recorder.lose_book()
        self.seconds = 80
        recorder.take_in(report("steady", 1, 1, 1), KNOWN)
        self.assertEqual(
            [(line[0], line[3], line[4]) for line in self.lines()],
            [("web-v1", "", 50), ("web-v2", "lost", 0), ("web-v1", "stable", 0)],
        )

    def test_a_controller_that_ended_before_it_noted_its_deploy(self) -> None:
        self.recorder().take_in(report("steady", 1, 1, 1), KNOWN)
        self.recorder(V2).take_in(report("scaling", 1, 1, 2), KNOWN)
        self.recorder(V2).take_in(report("scaling", 1, 1, 2), KNOWN)
        self.assertEqual(
            [line[:3] for line in self.lines()],
            [("web-v1", "opened", "plan"), ("web-v2", "deployed", "plan")],
        )


class Pauses(Histories):
    def test_a_file_with_anything_in_it_pauses(self) -> None:
        pause = Pause(self.plan, Log(self.out, False))
        for text in (b"", b"\xff\xfe", b"[1]", b'{"who": 7}', b'{"who": "a\\u001b[2Jb"}'):
            pathlib.Path(PauseFile(self.plan).path).write_bytes(text)
            pause.look()
            self.assertEqual(
                (pause.is_on, pause.paused and pause.paused.text()), (True, "paused by somebody")
            )
        self.assertEqual(self.out.getvalue().count("paused by somebody"), 1)
        PauseFile(self.plan).resume()
        pause.look()
        self.assertFalse(pause.is_on)

    def test_a_pause_that_cannot_be_read_stays_as_it_was(self) -> None:
        pause = Pause(self.plan, Log(self.out, False))
        PauseFile(self.plan).pause()
        pause.look()
        for was_on in (True, False):
            with mock.patch("builtins.open", side_effect=OSError(5, "Input/output error")):
                pause.look()
            self.assertEqual(pause.is_on, was_on)
            PauseFile(self.plan).resume()
            pause.look()

    def test_a_file_of_another_user_pauses(self) -> None:
        pause = Pause(self.plan, Log(self.out, False))
        with mock.patch("builtins.open", side_effect=PermissionError(13, "Permission denied")):
            pause.look()
        self.assertEqual(pause.paused and pause.paused.text(), "paused by somebody")
        before = os.umask(0o077)
        try:
            PauseFile(self.plan).pause()
        finally:
            os.umask(before)
        self.assertEqual(os.stat(PauseFile(self.plan).path).st_mode & 0o777, 0o644)


if __name__ == "__main__":
    unittest.main()
