"""bgctl with a plan: its edits, their author and their lock, the pause, and the history, with a
controller that runs."""
import contextlib
import json
import os
import pathlib
import tempfile
import threading
import unittest
from typing import Any
from unittest import mock

from bg_switch_tools.controller.edits import plan_edit
from bg_switch_tools.controller.edits.plan_edit import deploy_by_plan, with_last
from bg_switch_tools.controller.edits.plan_edit_lock import EditInProgressError, EditLock
from bg_switch_tools.controller.plan.plan_file import read_whole_plan
from bg_switch_tools.controller.state import plan_author
from bg_switch_tools.controller.state.pause import PauseFile
from bg_switch_tools.controller.state.plan_author import Author, login_name
from support.processes import Run
from tests.test_bgctl import run
from tests.test_controller import NAMES, ControllerCase
from tests.tool_runs import comes


class Edits(unittest.TestCase):
    def setUp(self) -> None:
        stack = contextlib.ExitStack()
        self.addCleanup(stack.close)
        self.folder = pathlib.Path(stack.enter_context(tempfile.TemporaryDirectory()))
        self.path = self.folder / "plan.json"
        self.path.write_text(
            json.dumps(
                {
                    "redispatch": False,
                    "revisions": [
                        {"ports": [1], "name": "web-v1"},
                        {"name": "web-v2", "ports": [2]},
                    ],
                    "control": 8082,
                    "health": {"interval": 0.5},
                }
            ),
            encoding="ascii",
        )

    def told(self) -> Any:
        return json.loads(self.path.read_text(encoding="ascii"))

    def test_keys_and_their_order_stay(self) -> None:
        before = self.told()
        deploy_by_plan(str(self.path), "web-v3", [3])
        after = self.told()
        self.assertEqual(list(after), list(before))
        self.assertEqual(
            after, {**before, "revisions": [*before["revisions"], {"name": "web-v3", "ports": [3]}]}
        )

    def test_unknown_keys_stay(self) -> None:
        told = {
            "b": 1,
            "revisions": [
                {"owner": "x", "name": "web-v1", "ports": [1]},
                {"name": "web-v2", "ports": [2]},
            ],
            "a": 2,
        }
        self.assertEqual(
            json.dumps(with_last(told, "web-v1", [9])),
            json.dumps(
                {
                    "b": 1,
                    "revisions": [
                        {"name": "web-v2", "ports": [2]},
                        {"owner": "x", "name": "web-v1", "ports": [9]},
                    ],
                    "a": 2,
                }
            ),
        )

    def test_mode_and_link_stay(self) -> None:
        real = self.folder / "real.json"
        self.path.rename(real)
        self.path.symlink_to("real.json")
        real.chmod(0o664)  # more than a usual umask allows
        deploy_by_plan(str(self.path), "web-v3", [3])
        self.assertEqual((self.path.is_symlink(), real.stat().st_mode & 0o777), (True, 0o664))
        self.assertEqual(read_whole_plan(str(real)).last.name, "web-v3")

    @unittest.skipUnless(os.getuid() == 0, "only root gives files away")
    def test_user_and_group_stay(self) -> None:
        """A controller of another user can read the plan after an edit by root."""
        self.path.chmod(0o640)
        os.chown(self.path, 1234, 2345)
        deploy_by_plan(str(self.path), "web-v3", [3])
        after = self.path.stat()
        self.assertEqual((after.st_uid, after.st_gid, after.st_mode & 0o777), (1234, 2345, 0o640))

    def test_a_crash_before_the_file_is_in_place_changes_nothing(self) -> None:
        before = self.path.read_bytes()
        with mock.patch(
            "bg_switch_tools.controller.state.state_file.os.replace",
            side_effect=OSError(5, "Input/output error"),
        ), self.assertRaises(OSError):
            deploy_by_plan(str(self.path), "web-v3", [3])
        self.assertEqual(self.path.read_bytes(), before)
        deploy_by_plan(str(self.path), "web-v3", [3])

    def test_edits_at_one_time_lose_none(self) -> None:
        threads = [
            threading.Thread(
                target=deploy_by_plan, args=(str(self.path), f"web-v{number}", [number])
            )
            for number in range(10, 30)
        ]
        for thread in threads:
            thread.start()
        for thread in threads:
            thread.join()
        self.assertEqual(
            {revision.name for revision in read_whole_plan(str(self.path)).revisions},
            {"web-v1", "web-v2", *(f"web-v{number}" for number in range(10, 30))},
        )

    def test_the_lock_is_waited_for_and_no_longer_than_told(self) -> None:
        with EditLock(str(self.path)):
            with self.assertRaises(EditInProgressError), EditLock(str(self.path), 0.1):
                self.fail("two have the lock")
            with mock.patch.object(plan_edit, "EditLock", lambda path: EditLock(path, 0.1)):
                told = run("deploy", "web-v3", "3", "--plan", str(self.path))
            self.assertEqual(
                (
                    told.status,
                    f"another edit has had the lock {self.path}.state.edit.lock" in told.told,
                ),
                (1, True),
            )
        with EditLock(str(self.path), 0):
            pass

    def test_the_author_is_that_of_the_text(self) -> None:
        path = str(self.path)
        self.assertIsNone(Author(path).name())
        with mock.patch.object(plan_author, "login_name", return_value="alice"):
            deploy_by_plan(path, "web-v3", [3], Author(path).sign)
        self.assertEqual(Author(path).name(), "alice")
        deploy_by_plan(path, "web-v4", [4])
        self.assertIsNone(Author(path).name())
        pathlib.Path(Author(path).path).write_text('{"digest": 7}', encoding="ascii")
        self.assertIsNone(Author(path).name())

    def test_login_names(self) -> None:
        with mock.patch("os.getuid", return_value=0), mock.patch.dict(
            os.environ, {"SUDO_USER": "bob"}
        ):
            self.assertEqual(login_name(), "bob")
        with mock.patch("os.getuid", return_value=4_000_000), mock.patch.dict(
            os.environ, {"SUDO_USER": "bob"}
        ):
            self.assertEqual(login_name(), "uid 4000000")

    def test_what_is_refused(self) -> None:
        before = self.path.read_bytes()
        for words in (("Web", "3"), ("web-v3", "1"), ("web-v3", "3", "4"), ("web-v3", "8082")):
            told = run("deploy", *words, "--plan", str(self.path))
            self.assertEqual(
                (told.status, told.printed, self.path.read_bytes()), (1, "", before), told.told
            )
            self.assertIn(str(self.path), told.told)


class ByAPlan(ControllerCase):
    """Runs of bgctl beside a controller."""

    def bgctl(self, *words: str, who: str = "alice") -> Run:
        with mock.patch.object(plan_author, "login_name", return_value=who), mock.patch(
            "bg_switch_tools.controller.state.pause.login_name", return_value=who
        ):
            return run(*words, BG_PLAN=self.plan.path)

    def ports(self, name: str) -> list[str]:
        return self.words(name).split()[1:]

    def history(self) -> list[tuple[object, ...]]:
        told = map(json.loads, self.bgctl("history", "--json").printed.splitlines())
        return [
            (each["name"], each["began"], each["by"], each["how"], each["is_live"]) for each in told
        ]

    def v2_is_paused(self) -> None:
        self.write("web-v1")
        self.start()
        self.await_book("steady", 1)
        told = self.bgctl("deploy", "web-v2", *self.ports("web-v2"))
        self.assertEqual(
            (told.printed, told.told, told.status),
            (f"web-v2 is the last revision of {self.plan.path}\n", "", 0),
        )
        self.await_book("paused", 2)

    def test_deploy_promote_and_undo(self) -> None:
        self.v2_is_paused()
        self.assertEqual(
            self.history(),
            [
                ("web-v1", "opened", "plan", "stable", True),
                ("web-v2", "deployed", "alice", None, False),
            ],
        )
        self.assertEqual(self.bgctl("promote").status, 0)
        self.await_book("steady", 2)
        waited = self.bgctl(
            "deploy", "web-v3", *self.ports("web-v3"), "--wait", "--timeout", "2", who="bob"
        )
        self.assertEqual(
            (waited.status, "stable=web-v3 does not hold after 2 seconds: paused" in waited.told),
            (2, True),
        )
        self.assertEqual(self.bgctl("undo", "--wait", "--timeout", "20").status, 0)
        self.await_book("steady", 2)
        self.assertEqual(
            self.history()[1:],
            [
                ("web-v2", "deployed", "alice", "stable", True),
                ("web-v3", "deployed", "bob", "undone", False),
                ("web-v2", "deployed", "alice", "stable", False),
            ],
        )
        self.assertEqual(self.bgctl("undo").status, 0)
        self.await_book("paused", 1)
        self.assertEqual(read_whole_plan(self.plan.path).last.name, "web-v1")

    def test_undo_takes_no_revision_that_was_never_stable(self) -> None:
        self.v2_is_paused()
        self.assertEqual(self.bgctl("undo").status, 0)
        self.await_book("steady", 1)
        told = self.bgctl("undo")
        self.assertEqual(
            (told.status, "no revision is known that was stable before web-v1" in told.told),
            (2, True),
        )
        self.assertEqual(self.bgctl("undo", "--to", "2").status, 0)
        self.await_book("paused", 2)

    def test_an_abort_ends_a_wait(self) -> None:
        self.v2_is_paused()
        self.assertEqual(self.bgctl("abort").status, 0)
        self.some_rounds()
        told = self.bgctl("deploy", "web-v2", *self.ports("web-v2"), "--wait", "--timeout", "20")
        self.assertEqual((told.status, "retry begins it again" in told.told), (1, True))
        self.assertEqual(self.history()[-1], ("web-v2", "deployed", "alice", "aborted", False))
        self.assertEqual(self.bgctl("retry").status, 0)
        self.await_book("paused", 2)
        self.assertEqual(self.history()[-1], ("web-v2", "retried", "line", None, False))

    def test_what_was_undone_by_hand_is_deployed_again(self) -> None:
        self.v2_is_paused()
        self.by_hand(f"deploy {self.words('web-v1')}")
        self.await_book("steady", 1)
        self.assertEqual(self.bgctl("deploy", "web-v2", *self.ports("web-v2")).status, 0)
        self.await_book("paused", 2)
        self.assertEqual(
            [line[1:4] for line in self.history()[2:]],
            [("deployed", "line", "stable"), ("deployed", "line", None)],
        )

    def test_a_crash_of_the_switch(self) -> None:
        self.v2_is_paused()
        self.restart_switch()
        self.await_book("paused", 2)
        self.assertEqual(
            self.history()[1:],
            [
                ("web-v2", "deployed", "alice", "lost", False),
                ("web-v1", "opened", "plan", "stable", True),
                ("web-v2", "deployed", "alice", None, False),
            ],
        )

    def test_another_controller_goes_on_with_the_history(self) -> None:
        self.v2_is_paused()
        self.runner.stop()
        self.by_hand("promote")
        before = self.history()
        self.start()
        self.await_book("steady", 2)
        self.assertEqual(
            self.history(),
            [(*before[0][:4], False), ("web-v2", "deployed", "alice", "stable", True)],
        )

    def test_an_edit_by_other_means(self) -> None:
        self.v2_is_paused()
        self.write(*NAMES)
        self.await_book("paused", 3)
        self.assertEqual(
            [line[2:4] for line in self.history()[1:]], [("alice", "replaced"), ("plan", None)]
        )

    def test_a_pause_holds_a_deploy_back(self) -> None:
        self.v2_is_paused()
        self.assertRegex(self.bgctl("pause").printed, "^the controller is paused by alice since 20")
        self.assertRegex(
            self.bgctl("pause", who="bob").printed, "^the controller is paused by alice "
        )
        told = self.bgctl("deploy", "web-v3", *self.ports("web-v3"))
        self.assertEqual(
            (told.status, "bgctl: the controller is paused by alice" in told.told), (0, True)
        )
        self.await_log("paused by alice since", "its last revision web-v3")
        self.some_rounds()
        self.assertEqual(
            (self.switch.book.newest, self.bgctl("status").told[:36]),
            (2, "bgctl: the controller is paused by a"),
        )
        self.assertEqual(self.bgctl("resume").printed, "the controller continues\n")
        self.await_book("paused", 3)
        self.await_log("resumed: deploys and verdicts are sent again")
        self.assertEqual(self.bgctl("resume")[::2], ("the controller was not paused\n", 0))

    def test_a_pause_lets_a_switch_be_opened_again(self) -> None:
        self.v2_is_paused()
        self.bgctl("pause")
        self.await_log("paused by alice since")
        self.restart_switch()
        self.await_book("steady", 1)
        self.assertNotIn("deploy", " ".join(self.switch.sent_lines()))


class Verdicts(ControllerCase):
    steps = ("pre",)

    def test_a_pause_holds_a_verdict_back(self) -> None:
        """The analysis ends during the pause, and its verdict is sent after that."""
        done = os.path.join(self.folder, "done")
        PauseFile(self.plan.path).pause()
        self.write(*NAMES[:2], analyses={"pre": ["sh", "-c", f"touch {done}"]})
        self.start()
        self.await_log("paused by")
        self.await_book("steady", 1)
        self.assertEqual(
            run("line", "deploy", *self.words("web-v2").split(), BG_PLAN=self.plan.path).status, 0
        )
        self.assertTrue(comes(lambda: os.path.exists(done)), self.log())
        self.some_rounds()
        self.assertEqual(
            (self.switch.book.phase, [line for line in self.switch.lines if "verdict" in line]),
            ("preAnalysis", []),
        )
        PauseFile(self.plan.path).resume()
        self.await_book("steady", 2)
        self.assertIn("verdict pre successful", self.switch.lines)


if __name__ == "__main__":
    unittest.main()
