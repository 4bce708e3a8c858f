"""Standard streams that are closed, full or not read, words that are not UTF-8, and signals: each
tool as a whole."""
import os
import pathlib
import pty
import signal
import subprocess
import tempfile
import threading
import unittest
from collections.abc import Sequence

from support.plans import Plan
from tests.fake_switch import FakeSwitch
from tests.synthetic_log import GrowingLog, Part, entries
from tests.tool_runs import TOOLS, WAIT, comes

BYTES = b"a \xff"  # a name with a space and a byte that is no UTF-8


class Streams(unittest.TestCase):
    """A switch that is paused at web-v2, and a folder."""

    def setUp(self) -> None:
        self.switch = FakeSwitch("pause")
        self.addCleanup(self.switch.kill)
        for line in ("open web-v1 1 2", "available 1 2", "deploy web-v2 3 4", "available 2 2"):
            self.switch.book.answer(line)
        folder = tempfile.TemporaryDirectory()
        self.addCleanup(folder.cleanup)
        self.folder = pathlib.Path(folder.name)

    def shell(self, command: str, *words: str | bytes) -> subprocess.CompletedProcess[bytes]:
        """A command line of the tools, which finds the words as $1 and so on, in a locale that
        takes UTF-8 alone."""
        environment = {
            **os.environ,
            "PATH": f"{TOOLS}:{os.environ['PATH']}",
            "PYTHONIOENCODING": "utf-8:strict",
        }
        run = ["sh", "-c", command, "sh", *words]
        return subprocess.run(run, capture_output=True, timeout=WAIT, check=False, env=environment)

    def says(self, plan: bytes, text: bytes) -> bool:
        """Whether a controller that runs by the plan prints a line with the text. It is ended then,
        or after WAIT seconds."""
        with subprocess.Popen([TOOLS / "controller", plan], stdout=subprocess.PIPE) as process:
            limit = threading.Timer(WAIT, process.kill)
            limit.start()
            assert process.stdout is not None
            try:
                return any(text in line for line in process.stdout)
            finally:
                limit.cancel()
                process.terminate()

    def check(self, run: subprocess.CompletedProcess[bytes], status: int) -> None:
        self.assertEqual((run.returncode, b"Traceback" in run.stderr), (status, False), run.stderr)

    def test_closed_ones(self) -> None:
        port = str(self.switch.port)
        self.check(self.shell("operator $1 promote >&-", port), 0)
        self.assertEqual(self.switch.sent_lines(), ["promote"])
        for closed in (">&-", "<&-", "2>&-", "<&- >&- 2>&-"):
            self.check(self.shell(f"operator $1 status {closed}", port), 0)
        self.check(self.shell("operator $1 <&-", port), 0)

    def test_an_output_that_is_full(self) -> None:
        for words in ("status", "report", "help"):
            run = self.shell(f"operator $1 {words} > /dev/full", str(self.switch.port))
            self.check(run, 1)
            self.assertEqual(
                run.stderr, b"operator: the input or the output fails: No space left on device\n"
            )

    def test_an_output_that_is_full_or_has_no_reader_is_one_to_bgctl_too(self) -> None:
        run = self.shell("bgctl --control $1 status > /dev/full", str(self.switch.port))
        self.check(run, 1)
        self.assertEqual(
            run.stderr, b"bgctl: the input or the output fails: No space left on device\n"
        )
        reader, writer = os.pipe()
        os.close(reader)
        with open(writer, "wb") as broken:
            run = subprocess.run(
                [str(TOOLS / "bgctl"), "--control", str(self.switch.port), "line", "report"],
                stdout=broken,
                stderr=subprocess.PIPE,
                timeout=WAIT,
                check=False,
            )
        self.check(run, 1)
        self.assertEqual(run.stderr, b"")

    def test_a_controller_whose_standard_error_nobody_reads(self) -> None:
        plan = Plan(str(self.folder), self.switch.port)
        plan.write([("web-v1", [1])])
        reader, writer = os.pipe()
        os.close(reader)
        with open(writer, "wb") as broken:
            process = subprocess.Popen(
                [str(TOOLS / "controller"), plan.path], stdout=subprocess.PIPE, stderr=broken
            )
        self.assertTrue(
            comes(lambda: self.switch.lines.count("report") > 6 or process.poll() is not None)
        )
        process.terminate()
        told, _ = process.communicate(timeout=WAIT)
        self.assertEqual(
            (process.returncode, b"the number of ports of each revision of the plan is 1" in told),
            (0, True),
            told,
        )

    def analysis(self, output: str) -> subprocess.CompletedProcess[bytes]:
        """An analysis by good requests."""
        log, is_over = GrowingLog(self.folder / "access.log"), threading.Event()

        def write() -> None:
            while not is_over.wait(0.1):
                log.add(entries([Part(2, 5)]))

        thread = threading.Thread(target=write, daemon=True)
        thread.start()
        try:
            words = "--log $1 --revision 2 --seconds 1 --every 0.5 --errors-at-most 1%"
            return self.shell(f"analysis {words} {output}", str(log.path))
        finally:
            is_over.set()
            thread.join()

    def test_an_analysis_whose_output_nobody_takes_has_its_status(self) -> None:
        for output in ("> /dev/full", ">&-"):
            self.check(self.analysis(output), 0)

    def test_paths_that_are_not_utf_8(self) -> None:
        path = os.fsencode(self.folder) + b"/" + BYTES
        self.check(
            self.shell('analysis --log "$1" --revision 2 --seconds 1 --errors-at-most 1%', path), 2
        )
        with open(path, "wb") as file:
            file.write(b'{"control": 1, "revisions": [{"name": "web-v1", "ports": [9101, 9102]}]}')
        run = self.shell('controller check "$1"', path)
        self.check(run, 0)
        self.assertIn(b"is a plan", run.stdout)
        self.assertTrue(self.says(path, b"is not used, since there is none"))


class Signals(unittest.TestCase):
    def test_ctrl_c_ends_an_analysis(self) -> None:
        with tempfile.NamedTemporaryFile() as log:
            words = [
                str(TOOLS / "analysis"),
                "--log",
                log.name,
                "--revision",
                "2",
                "--seconds",
                "60",
                "--every",
                "0.1",
                "--errors-at-most",
                "1%",
            ]

            def take_signals() -> None:
                # a job in the background would ignore it
                signal.signal(signal.SIGINT, signal.SIG_DFL)

            process = subprocess.Popen(
                words, stdout=subprocess.PIPE, stderr=subprocess.PIPE, preexec_fn=take_signals
            )
            assert process.stdout is not None
            process.stdout.readline()
            process.send_signal(signal.SIGINT)
            _, told = process.communicate(timeout=WAIT)
        self.assertEqual((process.returncode, told), (130, b""))


class Questions(unittest.TestCase):
    def answered(self, words: Sequence[str], typed: bytes) -> int:
        """The status of an operator at a terminal at which this is typed."""
        end, other = pty.openpty()
        process = subprocess.Popen(
            [str(TOOLS / "operator"), *words], stdin=other, stdout=other, stderr=subprocess.PIPE
        )
        os.close(other)
        shown = [b""]

        def asks() -> bool:
            shown[0] += os.read(end, 4096)
            return b"[y/N]" in shown[0]

        self.assertTrue(comes(asks))
        os.write(end, typed)
        _, told = process.communicate(timeout=WAIT)
        os.close(end)
        self.assertNotIn(b"Traceback", told)
        return process.returncode

    def test_ctrl_d_at_the_question_of_shutdown_is_no(self) -> None:
        switch = FakeSwitch()
        self.addCleanup(switch.kill)
        self.assertEqual(self.answered([str(switch.port), "shutdown"], b"\x04"), 1)
        self.assertEqual(switch.sent_lines(), [])
        self.assertEqual(self.answered([str(switch.port), "shutdown"], b"y\n"), 0)
        self.assertEqual(switch.sent_lines(), ["quit"])


if __name__ == "__main__":
    unittest.main()
