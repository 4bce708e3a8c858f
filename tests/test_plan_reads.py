"""How often a command reads the file of the plan: once, whatever it needs of it."""
import contextlib
import os
import sys
import tempfile
import threading
import unittest
from collections.abc import Iterator
from unittest import mock

from bg_switch_tools.bgctl.commands import BGCTL_COMMANDS
from bg_switch_tools.controller.edits import plan_edit_lock
from bg_switch_tools.controller.plan.plan_file import OpenPlan
from support.processes import Run
from tests.bgctl_places import V1, Place, at, plan_text
from tests.tool_runs import comes

V3 = ("web-v3", "5", "6")
# by the words: where they run, and the lines of standard input
COMMANDS: dict[str, tuple[str, str]] = {
    "status": ("plan", ""),
    "watch": ("interrupted plan", ""),
    "deploy web-v2 3 4": ("plan", ""),
    "deploy web-v1 1 2": ("plan", ""),
    "deploy web-v1 1 2 --wait": ("plan", ""),
    "deploy web-v1 3 4": ("plan", ""),
    "promote": ("plan, paused", ""),
    "promote web-v2": ("plan, paused", ""),
    "undo": ("plan, promoted", ""),
    "undo --to web-v1": ("plan, paused", ""),
    "abort": ("plan, paused", ""),
    "retry": ("plan, paused", ""),
    "wait settled": ("plan", ""),
    "wait stable=web-v2": ("plan, held back", ""),
    "history": ("plan, with a history", ""),
    "pause": ("plan", ""),
    "resume": ("plan", ""),
    "line tick 5": ("plan", ""),
    "line": ("plan", "tick 5\ntick 6\n"),
    "prompt": ("plan", "tick 5\nexit\n"),
    "shutdown --yes": ("plan", ""),
    "check": ("plan", ""),
    "controller": ("plan", ""),
    "analysis --log none --seconds 1 --errors-at-most 1% --revision 2": ("plan", ""),
    "dashboard --listen 8090": ("plan", ""),
    "help": ("plan", ""),
    "version": ("plan", ""),
}
NONE = ("help", "version")  # they are about no plan
opened: list[str] = []  # the paths of the files that this process has opened


def note(event: str, arguments: tuple[object, ...]) -> None:
    if event == "open" and isinstance(arguments[0], str):
        opened.append(arguments[0])


class Reads(unittest.TestCase):
    @classmethod
    def setUpClass(cls) -> None:
        sys.addaudithook(note)  # the process of a class ends with it, and the hook with the process

    def setUp(self) -> None:
        stack = contextlib.ExitStack()
        self.addCleanup(stack.close)
        self.folder = stack.enter_context(tempfile.TemporaryDirectory())
        stack.enter_context(mock.patch("bg_switch_tools.dashboard.cli.show", return_value=0))

    @contextlib.contextmanager
    def place(self, name: str) -> Iterator[Place]:
        with tempfile.TemporaryDirectory() as folder, contextlib.ExitStack() as stack:
            place = stack.enter_context(at(name.removeprefix("interrupted "), folder))
            if name.startswith("interrupted "):
                one = "bg_switch_tools.switch.connection.connected"
                stack.enter_context(mock.patch(one, side_effect=KeyboardInterrupt))
            yield place

    def run_in(self, place: Place, line: str, lines: str = "") -> tuple[Run, int]:
        """A run, and how often it has opened the plan's file."""
        opened.clear()
        run = place.run("bgctl", line.split(), lines)
        return run, opened.count(place.values["plan"])

    def test_each_command_reads_it_once(self) -> None:
        for line, (name, lines) in COMMANDS.items():
            with self.subTest(line), self.place(name) as place:
                run, reads = self.run_in(place, line, lines)
                self.assertEqual(reads, 0 if line in NONE else 1, run)

    def test_no_command_is_left_out(self) -> None:
        self.assertEqual(
            {line.split()[0] for line in COMMANDS}, {command.name for command in BGCTL_COMMANDS}
        )

    def test_a_wait_that_lasts_reads_it_again_for_each_later_look(self) -> None:
        with self.place("plan") as place:
            for line in (
                "wait newest=web-v9 --timeout 0.5",
                "deploy web-v2 3 4 --wait --timeout 0.5",
            ):
                with mock.patch("time.sleep") as slept:
                    _, reads = self.run_in(place, line)
                self.assertEqual(reads, 1 + slept.call_count, line)

    def test_an_edit_reads_what_another_edit_has_put_in_its_place(self) -> None:
        """Somebody else edits the plan after this command has read it, and before it has the lock: both
        edits stay."""
        with self.place("plan") as place:
            path = place.values["plan"]
            lock = plan_edit_lock.EditLock(path)
            lock.__enter__()
            thread = threading.Thread(target=self.run_in, args=(place, "deploy web-v2 3 4"))
            opened.clear()
            thread.start()
            self.assertTrue(comes(lambda: path in opened))
            self.assertTrue(comes(lambda: f"{path}.state.edit.lock" in opened))
            with open(f"{path}.other", "w", encoding="ascii") as file:
                file.write(plan_text(int(place.values["control"]), V1, redispatch=False))
            os.replace(f"{path}.other", path)
            lock.__exit__(None, None, None)
            thread.join()
            with contextlib.closing(OpenPlan(path)) as plan:
                self.assertIn(b'"redispatch": false', plan.text())
                self.assertIn(b"web-v2", plan.text())


class OpenPlans(unittest.TestCase):
    def setUp(self) -> None:
        folder = tempfile.TemporaryDirectory()
        self.addCleanup(folder.cleanup)
        self.path = os.path.join(folder.name, "plan.json")
        self.write("one")
        self.plan = OpenPlan(self.path)
        self.addCleanup(self.plan.close)

    def write(self, text: str) -> None:
        """Puts a text in place, as an editor does that replaces the file."""
        with open(f"{self.path}.new", "w", encoding="ascii") as file:
            file.write(text)
        os.replace(f"{self.path}.new", self.path)

    def test_what_was_read_stays(self) -> None:
        self.assertEqual(self.plan.text(), b"one")
        self.write("two")
        self.assertEqual((self.plan.text(), self.plan.latest()), (b"one", b"two"))

    def test_a_file_of_the_same_size_and_time_is_another_one(self) -> None:
        """The system can't give the number of a file that is open to another one."""
        self.assertEqual(self.plan.text(), b"one")
        then = os.stat(self.path)
        for number in range(20):
            self.write("two")  # by which the number of the file before would be free again
            self.write(f"{number:03}")
            os.utime(self.path, ns=(then.st_atime_ns, then.st_mtime_ns))
            self.assertEqual(self.plan.latest(), f"{number:03}".encode())

    def test_a_file_that_was_written_in_place_is_read_again(self) -> None:
        self.assertEqual(self.plan.latest(), b"one")
        with open(self.path, "w", encoding="ascii") as file:
            file.write("longer")
        self.assertEqual(self.plan.latest(), b"longer")

    def test_a_folder_is_no_plan_and_leaves_nothing_open(self) -> None:
        before = len(os.listdir("/proc/self/fd"))
        plan = OpenPlan(os.path.dirname(self.path))
        with self.assertRaises(IsADirectoryError):
            plan.text()
        plan.close()
        self.assertEqual(len(os.listdir("/proc/self/fd")), before)


if __name__ == "__main__":
    unittest.main()
