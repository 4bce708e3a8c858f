"""Limits in seconds are wider if the machine is slow, and only then; and a process that is paused
does nothing more."""
import contextlib
import io
import pathlib
import signal
import socket
import subprocess
import sys
import time
import unittest
from unittest import mock

from support import checks, clients, pace, processes


def with_slowness(times: float) -> "mock._patch[mock.Mock]":
    return mock.patch.object(pace, "slowness", return_value=times)


class Limits(unittest.TestCase):
    def test_a_limit_that_is_kept_is_not_widened(self) -> None:
        with mock.patch.object(pace, "slowness", side_effect=AssertionError("it is measured")):
            self.assertTrue(pace.is_within(2.0, 2.0))

    def test_one_that_is_not_kept_is_as_wide_as_the_machine_is_slow(self) -> None:
        for times, is_kept in ((1.0, False), (1.4, False), (1.6, True)):
            with self.subTest(times), with_slowness(times):
                self.assertEqual(pace.is_within(3.0, 2.0), is_kept)

    def test_the_end_at_a_limit(self) -> None:
        ended: list[float] = []
        begun = time.monotonic()
        with with_slowness(3.0):
            pace.at_the_limit(0.2, lambda: ended.append(time.monotonic() - begun)).join()
        self.assertEqual(len(ended), 1)
        self.assertGreaterEqual(ended[0], 0.6)

    def test_a_wait_goes_on_where_the_machine_is_slow(self) -> None:
        begun = time.monotonic()
        with with_slowness(4.0):
            self.assertTrue(checks.comes(lambda: time.monotonic() > begun + 0.5, 0.2))
        begun = time.monotonic()
        with with_slowness(1.0):
            self.assertFalse(checks.comes(lambda: time.monotonic() > begun + 2.0, 0.2))


class Counted(unittest.TestCase):
    """What the checks of the live scripts count."""

    def setUp(self) -> None:
        self.counts = self.enterContext(mock.patch.object(checks, "COUNTS", checks.Counts()))
        self.printed = self.enterContext(contextlib.redirect_stdout(io.StringIO()))

    def test_what_is_soon(self) -> None:
        with with_slowness(2.0):
            checks.check_soon("within its limit", 1.0, 1.0)
            checks.check_soon("on a slow machine", 1.9, 1.0)
            self.assertEqual((self.counts.passed, self.counts.failed), (2, 0))
            checks.check_soon("too late", 2.1, 1.0)
        self.assertEqual((self.counts.passed, self.counts.failed), (2, 1))
        self.assertIn("FAILED: too late: 2.10 seconds", self.printed.getvalue())

    def test_what_is_prompt_beside_a_load(self) -> None:
        with with_slowness(1.0):
            checks.check_beside("within its limit", [0.2, 0.29], [0.01], 0.3)
            checks.check_beside(
                "where the same takes long elsewhere too", [0.1, 0.9], [0.01, 0.1], 0.3
            )
            self.assertEqual((self.counts.passed, self.counts.failed), (2, 0))
            checks.check_beside("one that waits", [0.1, 0.9, 0.1], [0.01, 0.02], 0.3)
            checks.check_beside("with nothing to compare with", [0.9], [], 0.3)
        self.assertEqual((self.counts.passed, self.counts.failed), (2, 2))

    def test_what_is_late_by_chance_on_a_busy_machine(self) -> None:
        with with_slowness(2.0):
            checks.check_beside("a single one", [0.1, 0.9, 0.1], [0.01, 0.02, 0.01], 0.3)
            self.assertEqual((self.counts.passed, self.counts.failed), (1, 0))
            checks.check_beside("each of them", [0.7, 0.9, 0.8], [0.01, 0.02, 0.01], 0.3)
        self.assertEqual((self.counts.passed, self.counts.failed), (1, 1))


class Programs(unittest.TestCase):
    """Programs that end by themselves have longer on a slow machine."""

    def begun(self, seconds: float) -> "subprocess.Popen[str]":
        code = f"import time; print('begun', flush=True); time.sleep({seconds}); print('ends')"
        process = subprocess.Popen(
            [sys.executable, "-c", code], stdout=subprocess.PIPE, stderr=subprocess.PIPE, text=True
        )
        self.addCleanup(process.communicate)
        self.addCleanup(process.kill)
        return process

    def test_one_that_ends(self) -> None:
        with with_slowness(600.0):
            run = processes.run_to_end([sys.executable, "-c", "print(input()); exit(3)"], "a", 0.01)
            self.assertEqual(run, processes.Run("a\n", "", 3))
            self.assertEqual(processes.output_of(self.begun(0.5), longest=0.1)[0], "begun\nends\n")
            process = self.begun(0.5)
            self.assertEqual((processes.status_of(process, 0.1), process.poll()), (0, 0))

    def test_one_that_does_not_end(self) -> None:
        with with_slowness(1.0):
            process = self.begun(600)
            with self.assertRaises(subprocess.TimeoutExpired):
                processes.output_of(process, longest=0.1)
            with self.assertRaises(subprocess.TimeoutExpired):
                processes.status_of(process, 0.1)
            with self.assertRaises(subprocess.TimeoutExpired):
                processes.run_to_end(["sleep", "600"], longest=0.1)


class Silences(unittest.TestCase):
    def test_since_when_nothing_has_come(self) -> None:
        """What has come and was not read counts, too."""
        with socket.create_server(("127.0.0.1", 0)) as listener:
            with socket.create_connection(listener.getsockname()) as client:
                peer = listener.accept()[0]
                self.addCleanup(peer.close)
                peer.sendall(b"a")
                self.assertEqual(client.recv(1), b"a")
                begun = time.monotonic()
                time.sleep(0.3)
                self.assertGreaterEqual(clients.silence(client), 0.25)
                peer.sendall(b"b")
                sent = time.monotonic()
                self.assertEqual(client.recv(1, socket.MSG_PEEK), b"b")
                silence, seconds = clients.silence(client), time.monotonic() - sent
                self.assertLessEqual(silence, seconds + 0.05)
                self.assertGreater(time.monotonic() - begun, silence)


class Pauses(unittest.TestCase):
    def test_no_thread_goes_on(self) -> None:
        code = "import threading\nfor _ in range(8): threading.Thread(target=lambda: [0 for _ in iter(int, 1)]).start()"
        with subprocess.Popen([sys.executable, "-c", code]) as process:
            tasks = pathlib.Path(f"/proc/{process.pid}/task")
            try:
                self.assertTrue(checks.comes(lambda: len(list(tasks.iterdir())) == 9))
                processes.pause(process.pid)
                self.assertEqual(
                    [path.name for path in tasks.iterdir() if not processes.is_stopped(path)], []
                )
                process.send_signal(signal.SIGCONT)
                self.assertTrue(
                    checks.comes(lambda: not all(map(processes.is_stopped, tasks.iterdir())))
                )
            finally:
                process.kill()


class Slowness(unittest.TestCase):
    def of(self, *seconds: float, load: float = 0.0, runnable: int = 1) -> float:
        with mock.patch.object(pace, "seconds_of_work", side_effect=seconds), mock.patch.object(
            pace, "runnable_threads", return_value=runnable
        ), mock.patch("os.getloadavg", return_value=(load, 0.0, 0.0)), mock.patch(
            "os.sched_getaffinity", return_value={0, 1}
        ):
            return pace.slowness()

    def test_it_is_that_of_most_runs(self) -> None:
        free = pace.FREE
        self.assertAlmostEqual(self.of(3 * free, 9 * free, 3 * free, free, 3 * free), 3.0)

    def test_a_free_or_fast_machine(self) -> None:
        self.assertEqual(self.of(*[pace.FREE / 2] * pace.RUNS), 1.0)

    def test_a_machine_that_was_busy_until_now(self) -> None:
        self.assertEqual(self.of(*[pace.FREE] * pace.RUNS, load=10.0), 5.0)

    def test_a_machine_that_has_become_busy_just_now(self) -> None:
        self.assertEqual(self.of(*[pace.FREE] * pace.RUNS, runnable=8), 4.0)

    def test_threads_that_run(self) -> None:
        """Those of a process that computes are among them."""
        words = (sys.executable, "-c", "while True: pass")
        with contextlib.ExitStack() as stack:
            for _ in range(3):
                process = stack.enter_context(subprocess.Popen(words))
                stack.callback(process.kill)
            self.assertTrue(checks.comes(lambda: pace.runnable_threads() >= 3))

    def test_the_work_is_work(self) -> None:
        self.assertGreater(pace.seconds_of_work(), pace.FREE / 20)


if __name__ == "__main__":
    unittest.main()
