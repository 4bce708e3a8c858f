"""The frame of the main functions: what each end of a run tells, and its exit status."""
import ast
import contextlib
import io
import os
import signal
import threading
import unittest
from collections.abc import Callable

from bg_switch_tools.analysis import cli as analysis_cli
from bg_switch_tools.bgctl import cli as bgctl_cli
from bg_switch_tools.controller import cli as controller_cli
from bg_switch_tools.dashboard import cli as dashboard_cli
from bg_switch_tools.fleet import cli as fleet_cli
from bg_switch_tools.operator import cli as operator_cli
from bg_switch_tools.switch.frame import End, Frame, Signals, list_of
from tests.tool_runs import TOP

FRAMES = {
    "analysis": analysis_cli.FRAME,
    "bgctl": bgctl_cli.FRAME,
    "controller": controller_cli.FRAME,
    "dashboard": dashboard_cli.FRAME,
    "fleet": fleet_cli.FRAME,
    "operator": operator_cli.FRAME,
}


class LateError(Exception):
    """An end of a test."""


class LaterError(LateError):
    """A kind of that end."""


class Frames(unittest.TestCase):
    def ended(self, frame: Frame, command: Callable[[], int]) -> tuple[str, str, int]:
        """What a run prints, what it tells, and its exit status."""
        printed, told = io.StringIO(), io.StringIO()
        with contextlib.redirect_stdout(printed), contextlib.redirect_stderr(told):
            status = frame.run(command)
        return printed.getvalue(), told.getvalue(), status

    def raised(self, frame: Frame, reason: BaseException) -> tuple[str, str, int]:
        def command() -> int:
            raise reason

        return self.ended(frame, command)

    def test_each_tool_has_it(self) -> None:
        for tool, frame in FRAMES.items():
            self.assertEqual(frame.tool, tool)
            self.assertEqual(
                self.raised(frame, OSError(28, "No space left on device")),
                ("", f"{tool}: the input or the output fails: No space left on device\n", 1),
            )
            self.assertEqual(self.raised(frame, KeyboardInterrupt())[1:], ("", 130))

    def test_ends(self) -> None:
        ends = {LateError: End(7), ValueError: End(8, lambda _: list_of("wrong:", ["a", "b"]))}
        frame = Frame("tool", ends)
        self.assertEqual(self.ended(frame, lambda: 3), ("", "", 3))
        for reason, told, status in (
            (LateError("it is late"), "tool: it is late\n", 7),
            (LaterError("later"), "tool: later\n", 7),
            (ValueError(), "tool: wrong:\n  a\n  b\n", 8),
            (FileNotFoundError(2, "No such file", "f"), "tool: f: No such file\n", 1),
            (BrokenPipeError(32, "Broken pipe"), "", 1),
        ):
            self.assertEqual(self.raised(frame, reason), ("", told, status))
        with self.assertRaises(KeyError):
            self.raised(frame, KeyError("a fault of the tool itself has its trace"))

    def test_ctrl_c_ends_the_line_that_is_written(self) -> None:
        self.assertEqual(self.raised(Frame("tool"), KeyboardInterrupt())[0], "\n")
        whole = Frame("tool", has_whole_lines=True)
        self.assertEqual(self.raised(whole, KeyboardInterrupt())[0], "")

    def test_signals_end_a_wait(self) -> None:
        before = [signal.getsignal(number) for number in (signal.SIGTERM, signal.SIGINT)]
        self.addCleanup(signal.signal, signal.SIGTERM, before[0])
        self.addCleanup(signal.signal, signal.SIGINT, before[1])
        for number in (signal.SIGTERM, signal.SIGINT):
            signals = Signals()
            threading.Timer(0.1, os.kill, (os.getpid(), number)).start()
            signals.wait_while(lambda: True)
            self.assertEqual(signals.numbers, [number])
        Signals().wait_while(lambda: False)

    def test_no_other_module_handles_what_the_frame_does(self) -> None:
        """Ctrl-C as an exit status, handlers of signals, and a reader of the output that has gone."""
        found = set()
        for path in (TOP / "lib").rglob("*.py"):
            names = {
                node.id if isinstance(node, ast.Name) else node.attr
                for node in ast.walk(ast.parse(path.read_text(encoding="utf-8")))
                if isinstance(node, (ast.Name, ast.Attribute))
            }
            wrong = {"INTERRUPTED", "SIGINT"} | (
                {"BrokenPipeError"} if path.name == "cli.py" else set()
            )
            found |= {path.name} if names & wrong else set()
        # the tables of exit statuses name the status
        self.assertEqual(found, {"exit_statuses.py", "frame.py"})


if __name__ == "__main__":
    unittest.main()
