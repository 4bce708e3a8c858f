"""A name keeps its ports: whatever the plan says by now, a switch is opened with those that were
live, and an edit is refused."""
import contextlib
import io
import json
import os
import tempfile
import unittest
from collections.abc import Sequence
from unittest import mock

from bg_switch_tools.controller import cli as controller_cli
from bg_switch_tools.controller.history.attempts import Event
from bg_switch_tools.controller.history.history_file import HistoryFile
from bg_switch_tools.controller.lines import book
from bg_switch_tools.controller.lines.held_back import HeldRevisions
from bg_switch_tools.controller.log import Log
from bg_switch_tools.controller.plan.plan import Analyses, Health, Plan, PlannedRevision, Progress
from bg_switch_tools.controller.rounds import controller
from bg_switch_tools.controller.state.state_file import StateFile
from bg_switch_tools.fleet.machine.fleet_memory import FleetMemory
from bg_switch_tools.fleet.machine.machine import Machine
from bg_switch_tools.fleet.plan.fleet_plan import MachineSettings
from bg_switch_tools.switch.reports import read_report
from support.processes import Run
from tests.fake_switch import FakeBook, FakeSwitch
from tests.test_bgctl import run
from tests.test_controller import NAMES, ControllerCase
from tests.tool_runs import WAIT, comes


def book_with(line: str) -> Sequence[str]:
    """The report of a book after this line."""
    made = FakeBook("pause")
    made.answer(line)
    return made.answer("report") or []


class KeptPorts(ControllerCase):
    """A rollout whose stable revision is web-v2, and a plan that then names other ports for it:
    those of the endpoints of web-v3, which nobody has tested."""

    def setUp(self) -> None:
        super().setUp()
        self.told = self.stack.enter_context(contextlib.redirect_stderr(io.StringIO()))

    def ports(self, name: str) -> list[int]:
        return [endpoint.port for endpoint in self.endpoints[name]]

    def write_ports(self, *revisions: tuple[str, Sequence[int]], **members: object) -> None:
        self.plan.write(revisions, **members)

    def write_untested(self, **members: object) -> None:
        self.write_ports(
            ("web-v1", self.ports("web-v1")), ("web-v2", self.ports("web-v3")), **members
        )

    def bgctl(self, *words: str) -> Run:
        """A run, with what it told itself: the controller has the same standard error here."""
        told = run(*words, BG_PLAN=self.plan.path)
        return told._replace(
            told="".join(line for line in told.told.splitlines(True) if line.startswith("bgctl: "))
        )

    def v2_is_stable(self) -> None:
        self.write(*NAMES[:2])
        self.start()
        self.await_book("paused", 2)
        self.by_hand("promote")
        self.await_book("steady", 2)

    def opened(self, switch: FakeSwitch) -> str:
        """The line by which a switch was opened."""
        self.assertTrue(comes(lambda: switch.book.revisions), self.log())
        self.some_rounds()
        return next(line for line in switch.lines if line.startswith("open "))

    def restart(self) -> str:
        """Kills the switch and starts it again. Gives the line by which it was opened."""
        self.switch.kill()
        self.switch.lines.clear()
        self.switch.start()
        return self.opened(self.switch)

    def await_held(self, *names: str) -> None:
        def held() -> list[str]:
            return [each.revision.name for each in StateFile(self.plan.path).read()[0].held]

        self.assertTrue(comes(lambda: held() == list(names)), self.log())

    def deploys(self) -> list[str]:
        return [line for line in self.switch.lines if line.startswith("deploy ")]


class Openings(KeptPorts):
    """Each way on which docs/OPERATING.md has a switch opened."""

    def test_a_switch_that_crashed(self) -> None:
        self.v2_is_stable()
        self.write_untested()
        self.await_held("web-v2")
        self.assertEqual(self.restart(), f"open {self.words('web-v2')}")
        asked = f"deploy web-v2 {' '.join(map(str, self.ports('web-v3')))}"
        self.assertEqual((self.deploys(), self.switch.book.phase), ([asked], "steady"))

    def test_a_switch_that_crashed_while_the_plan_was_edited(self) -> None:
        self.v2_is_stable()
        self.switch.kill()
        self.write_untested()
        self.await_held("web-v2")
        self.switch.lines.clear()
        self.switch.start()
        self.assertEqual(self.opened(self.switch), f"open {self.words('web-v2')}")

    def test_one_other_port_and_another_order(self) -> None:
        self.v2_is_stable()
        first, second = self.ports("web-v2")
        for ports in ((first, self.ports("web-v3")[1]), (second, first)):
            self.write_ports(("web-v2", ports))
            self.await_held("web-v2")
            self.assertEqual(self.restart(), f"open {self.words('web-v2')}")

    def test_both_have_crashed(self) -> None:
        self.v2_is_stable()
        self.runner.stop()
        self.switch.kill()
        self.write_untested()
        self.switch.lines.clear()
        self.switch.start()
        self.start()
        self.assertEqual(self.opened(self.switch), f"open {self.words('web-v2')}")
        self.await_held("web-v2")

    def test_a_controller_that_is_started_again(self) -> None:
        """As an upgrade of the package does: the switch goes on, and crashes later."""
        self.v2_is_stable()
        self.runner.stop()
        self.write_untested()
        self.start()
        self.await_held("web-v2")
        self.assertEqual(self.restart(), f"open {self.words('web-v2')}")

    def test_an_upgrade_to_a_second_switch(self) -> None:
        """One edit names the control port of the second switch, and other ports."""
        self.v2_is_stable()
        second = FakeSwitch("pause")
        self.stack.callback(second.kill)
        self.write_untested(control=second.port)
        self.assertTrue(comes(lambda: second.book.revisions), self.log())
        self.assertEqual(
            next(line for line in second.lines if line.startswith("open ")),
            f"open {self.words('web-v2')}",
        )
        self.await_held("web-v2")
        self.assertEqual(second.book.revisions[1].ports, tuple(map(str, self.ports("web-v2"))))

    def test_a_controller_that_is_paused(self) -> None:
        self.v2_is_stable()
        self.assertEqual(self.bgctl("pause").status, 0)
        self.write_untested()
        self.await_held("web-v2")
        self.assertEqual((self.restart(), self.deploys()), (f"open {self.words('web-v2')}", []))

    def test_the_copy_of_the_state(self) -> None:
        self.v2_is_stable()
        self.runner.stop()
        self.switch.kill()
        os.remove(StateFile(self.plan.path).path)
        self.write_untested()
        self.switch.lines.clear()
        self.switch.start()
        self.start()
        self.assertEqual(self.opened(self.switch), f"open {self.words('web-v2')}")

    def test_without_a_state_the_history_has_the_ports(self) -> None:
        """The first revision of the plan is then opened, and not with ports that its name never
        had."""
        self.v2_is_stable()
        self.runner.stop()
        self.switch.kill()
        for path in (StateFile(self.plan.path).path, StateFile(self.plan.path).copy):
            os.remove(path)
        self.write_ports(("web-v2", self.ports("web-v3")))
        self.switch.lines.clear()
        self.switch.start()
        self.start()
        self.assertEqual(self.opened(self.switch), f"open {self.words('web-v2')}")
        self.await_held("web-v2")

    def test_a_state_of_an_earlier_controller(self) -> None:
        """Its file has no key `ports`, and the history may be gone."""
        self.v2_is_stable()
        self.runner.stop()
        files = StateFile(self.plan.path)
        for path in (files.path, files.copy):
            with open(path, encoding="ascii") as file:
                told = json.load(file)
            del told["ports"], told["held"]
            with open(path, "w", encoding="ascii") as file:
                json.dump(told, file, indent=1)
                file.write("\n")
        os.remove(self.plan.path + ".state.history")
        self.write_ports(("web-v2", self.ports("web-v3")), ("web-v1", self.ports("web-v1")))
        self.start()
        self.await_held("web-v2")
        self.assertEqual(self.restart(), f"open {self.words('web-v2')}")

    def test_a_state_without_a_history(self) -> None:
        """It has the ports of each revision of the book."""
        self.v2_is_stable()
        self.runner.stop()
        os.remove(self.plan.path + ".state.history")
        self.write_ports(("web-v1", self.ports("web-v3")), ("web-v2", self.ports("web-v2")))
        self.start()
        self.await_held("web-v1")
        self.by_hand(f"deploy {self.words('web-v1')}")
        self.some_rounds()
        self.by_hand("promote")
        self.some_rounds()
        self.assertEqual(self.restart(), f"open {self.words('web-v1')}")

    def test_an_earlier_revision_that_a_line_has_made_stable_again(self) -> None:
        """The plan has other ports for it by then, and did not deploy it last."""
        self.v2_is_stable()
        self.write_ports(("web-v1", self.ports("web-v3")), ("web-v2", self.ports("web-v2")))
        self.await_held("web-v1")
        self.by_hand(f"deploy {self.words('web-v1')}")
        self.some_rounds()
        self.by_hand("promote")
        self.some_rounds()
        self.assertEqual(self.restart(), f"open {self.words('web-v1')}")

    def test_an_attempt_whose_name_has_other_ports_by_then(self) -> None:
        self.v2_is_stable()
        self.write(*NAMES)
        self.await_book("paused", 3)
        self.write_ports(("web-v2", self.ports("web-v2")), ("web-v3", self.ports("web-v1")))
        self.await_held("web-v3")
        self.switch.lines.clear()
        self.assertEqual(self.restart(), f"open {self.words('web-v2')}")
        self.await_log("lost with the book that was open: the attempt of web-v3 is not begun again")
        self.assertEqual(self.deploys(), [])

    def test_the_endpoints_that_count_are_those_of_the_book(self) -> None:
        """Those that the plan names now are up, and take no request."""
        self.v2_is_stable()
        for number, name in ((2, "web-v2"), (1, "web-v1")):  # the latter is not scaled down yet
            self.write_ports((name, self.ports("web-v3")))
            self.await_held(name)
            for endpoint in self.endpoints[name]:
                endpoint.stop()
            self.assertTrue(
                comes(lambda: self.switch.book.revisions[number].available == 0), self.log()
            )


class OtherPlans(KeptPorts):
    """A plan that names no revision that was live: nobody has tested the one that it names
    first."""

    def setUp(self) -> None:
        super().setUp()
        self.v2_is_stable()
        self.runner.stop()

    def restart_both(self) -> str:
        """Starts a switch without a book, and a controller, which ends. Gives why."""
        self.switch.kill()
        self.switch.lines.clear()
        self.switch.start()
        self.start().thread.join(WAIT)
        self.runner.stop()
        return self.runner.unfit

    def opened_anew(self) -> str:
        """The line by which the next controller opens the switch."""
        self.start()
        return self.opened(self.switch)

    def test_a_switch_is_not_opened(self) -> None:
        self.write("web-v3", start=["touch", os.path.join(self.folder, "started")])
        for _ in range(2):  # the next controller finds the same
            why = self.restart_both()
            path = StateFile(self.plan.path).path
            self.assertEqual(
                why,
                f"no switch is opened by this plan: by the state file {path}, web-v2 was stable, and the plan does not "
                f"name it. Name web-v2 with its ports {self.words('web-v2').partition(' ')[2]} first in the plan; or, to begin "
                "anew with web-v3, which no preview and no analysis has judged, stop the controller and remove "
                f"{path} and {path}.copy",
            )
            self.assertEqual(
                (
                    [line for line in self.switch.lines if line.startswith("open ")],
                    os.listdir(self.folder).count("started"),
                ),
                ([], 0),
            )
        self.assertIn(why, self.log())

    def test_the_plan_is_mended(self) -> None:
        self.write("web-v3")
        self.restart_both()
        self.write("web-v2", "web-v3")
        self.assertEqual(self.opened_anew(), f"open {self.words('web-v2')}")
        self.await_book("paused", 2)

    def test_the_plan_is_mended_while_the_switch_is_down(self) -> None:
        self.switch.kill()
        self.switch.lines.clear()
        self.write("web-v3")
        self.start()
        self.await_log("no answer: ")
        self.write("web-v2", "web-v3")
        self.await_log("continues from the state file ")
        self.switch.start()
        self.assertEqual(self.opened(self.switch), f"open {self.words('web-v2')}")

    def test_the_state_is_removed_on_purpose(self) -> None:
        self.write("web-v3")
        self.restart_both()
        for path in (StateFile(self.plan.path).path, StateFile(self.plan.path).copy):
            os.remove(path)
        self.assertEqual(self.opened_anew(), f"open {self.words('web-v3')}")

    def test_check_names_it(self) -> None:
        self.write("web-v3")
        told = self.bgctl("check")
        self.assertEqual(
            (
                told.status,
                told.printed.startswith(
                    "revisions: no switch is opened by this plan: by the state file "
                ),
            ),
            (1, True),
            told.printed,
        )
        self.write("web-v2", "web-v3")
        self.assertEqual(self.bgctl("check").status, 0)

    def test_a_book_that_is_open_goes_on(self) -> None:
        """The new revision goes through its steps, and a crash finds the ports that were live."""
        os.remove(self.plan.path + ".state.history")
        self.write("web-v3")
        self.start()
        self.await_book("paused", 3)
        self.assertEqual(self.restart(), f"open {self.words('web-v2')}")


class UnknownPorts(KeptPorts):
    """A switch that was opened by hand with a revision that no plan names."""

    def setUp(self) -> None:
        super().setUp()
        self.by_hand(f"open {self.words('web-v1')}")
        self.write("web-v3")
        self.start()
        self.await_log(
            "revision 1 web-v1 is stable and not in the plan, so its ports are not known: a switch that is started again would not "
            "be opened"
        )
        self.await_book("paused", 2)
        self.switch.kill()
        self.switch.lines.clear()
        self.switch.start()

    def test_the_revision_under_test_is_not_opened(self) -> None:
        text = "no switch is opened by this plan: web-v1 was stable, and neither the plan nor the history has its ports. Name web-v1 with its"
        self.await_log(f"no book is open, and clients wait: {text}")
        self.assertIn(
            f"controller: no book is open, and clients wait: {text}", self.told.getvalue()
        )
        self.runner.stop()
        self.start().thread.join(WAIT)
        self.assertIn(text, self.runner.unfit)
        self.assertEqual([line for line in self.switch.lines if line.startswith("open ")], [])

    def test_the_plan_names_it(self) -> None:
        self.await_log("no book is open, and clients wait: ")
        self.write("web-v1", "web-v3")
        self.assertEqual(self.opened(self.switch), f"open {self.words('web-v1')}")
        self.await_log("it is opened with web-v1, which was stable")


class ByHand(KeptPorts):
    """A revision that a line has deployed: the controller is not told its ports."""

    def v1_is_stable(self) -> None:
        self.write("web-v1")
        self.start()
        self.await_book("steady", 1)

    def test_the_switch_confirms_the_ports_of_the_plan(self) -> None:
        self.v1_is_stable()
        self.by_hand(f"deploy {self.words('web-v2')}")
        self.write(*NAMES[:2])
        self.await_book("paused", 2)
        self.by_hand("promote")
        self.await_book("steady", 2)
        self.assertEqual(
            (self.deploys(), StateFile(self.plan.path).read()[0].held),
            ([f"deploy {self.words('web-v2')}"], ()),
        )
        self.assertEqual(self.restart(), f"open {self.words('web-v2')}")

    def test_other_ports_than_those_of_the_plan(self) -> None:
        self.v1_is_stable()
        self.by_hand(f"deploy {self.words('web-v2')}")
        self.by_hand("available 2 2")
        self.by_hand("promote")
        self.write_untested()
        self.await_held("web-v2")
        self.await_log(
            "revision 2 web-v2 is stable and was not deployed by the plan, so its ports are not known: a switch that is "
            "started again would be opened with web-v1"
        )
        # they are those of the plan alone, so no outage comes of it
        for endpoint in self.endpoints["web-v3"]:
            endpoint.stop()
        probes = self.runner.controller.probes
        self.assertTrue(comes(lambda: all(probes.is_down(port) for port in self.ports("web-v3"))))
        self.some_rounds()
        self.assertEqual(self.switch.book.revisions[2].available, 2)
        self.await_log(
            "revision 2 web-v2 has other ports than the plan names: its endpoints are not probed"
        )
        self.assertEqual(self.restart(), f"open {self.words('web-v1')}")

    def test_endpoints_that_are_known_to_be_down_are_not_taken_for_its_own(self) -> None:
        """Not even before the switch has answered: live traffic would have no endpoint."""
        for endpoint in self.endpoints["web-v3"]:
            endpoint.stop()
        self.write("web-v3", "web-v1")
        self.by_hand(f"open {self.words('web-v1')}")
        probes = self.start().controller.probes
        self.await_book("steady", 1)
        for line in (f"deploy {self.words('web-v2')}", "available 2 2", "promote"):
            self.by_hand(line)
        self.assertTrue(comes(lambda: all(probes.is_down(port) for port in self.ports("web-v3"))))
        self.write_untested()
        self.await_held("web-v2")
        self.some_rounds()
        self.assertEqual([line for line in self.switch.lines if line.startswith("available 2")], [])

    def test_other_ports_of_an_attempt_that_runs(self) -> None:
        self.v1_is_stable()
        self.by_hand(f"deploy {self.words('web-v2')}")
        self.by_hand("available 2 2")
        self.write_untested()
        self.await_held("web-v2")
        for endpoint in self.endpoints["web-v3"]:
            endpoint.stop()
        probes = self.runner.controller.probes
        self.assertTrue(comes(lambda: all(probes.is_down(port) for port in self.ports("web-v3"))))
        self.some_rounds()
        self.assertEqual(
            (self.switch.book.phase, self.switch.book.revisions[2].available), ("paused", 2)
        )

    def test_a_revision_that_the_plan_names_and_does_not_deploy(self) -> None:
        """Nothing confirms its ports, so the revision is opened that was stable before."""
        self.v1_is_stable()
        self.by_hand(f"deploy {self.words('web-v2')}")
        self.by_hand("available 2 2")
        self.by_hand("promote")
        self.write_ports(("web-v2", self.ports("web-v3")), ("web-v1", self.ports("web-v1")))
        self.await_log("would be opened with web-v1")
        self.assertEqual(self.restart(), f"open {self.words('web-v1')}")

    def test_nothing_is_known_of_a_book_that_is_open(self) -> None:
        """The first look of a controller without a state: the ports are those of the plan, and stay
        so."""
        for line in (
            f"open {self.words('web-v1')}",
            f"deploy {self.words('web-v2')}",
            "available 2 2",
            "promote",
            "deploy web-v3 1 2",
            "abort",
        ):
            self.by_hand(line)
        self.write_ports(
            ("web-v1", self.ports("web-v1")), ("web-v2", self.ports("web-v2")), ("web-v3", (1, 2))
        )
        self.start()
        self.assertTrue(comes(lambda: "deploy web-v3 1 2" in self.switch.lines), self.log())
        self.some_rounds()
        self.write_ports(
            ("web-v1", self.ports("web-v1")), ("web-v2", self.ports("web-v3")), ("web-v3", (1, 2))
        )
        self.await_log("the plan has changed")
        self.assertEqual(self.bgctl("pause").status, 0)  # no deploy comes after the opening
        self.await_log("paused by")
        self.assertEqual(self.restart(), f"open {self.words('web-v2')}")
        self.await_held("web-v2")

    def test_the_history_has_no_ports_that_nobody_knows(self) -> None:
        self.v1_is_stable()
        self.write_ports(("web-v2", self.ports("web-v3")), ("web-v1", self.ports("web-v1")))
        self.await_log("the plan has changed")
        self.by_hand(f"deploy {self.words('web-v2')}")
        self.some_rounds()
        with open(self.plan.path + ".state.history", encoding="ascii") as file:
            events = [json.loads(line) for line in file]
        self.assertEqual(
            [
                (each["name"], each.get("ports"))
                for each in events
                if each["event"] in ("opened", "deployed")
            ],
            [("web-v1", self.ports("web-v1")), ("web-v2", None)],
        )


class Edits(KeptPorts):
    """The controller reads a plan that somebody has edited."""

    def test_a_name_that_only_the_history_has(self) -> None:
        """The book of a switch that was started again has it no longer, and would take any
        ports."""
        self.v2_is_stable()
        self.write(*NAMES)
        self.await_book("paused", 3)
        self.by_hand("abort")
        self.some_rounds()
        self.restart()
        self.switch.lines.clear()
        self.write_ports(("web-v2", self.ports("web-v2")), ("web-v3", self.ports("web-v1")))
        self.await_held("web-v3")
        self.some_rounds()
        self.assertEqual((self.deploys(), self.bgctl("status").status), ([], 4))

    def test_it_is_told_once_with_what_to_do(self) -> None:
        self.v2_is_stable()
        self.write_untested()
        self.await_held("web-v2")
        self.some_rounds()
        own, other = (" ".join(map(str, self.ports(name))) for name in ("web-v2", "web-v3"))
        text = (
            f"web-v2 is held back: web-v2 has the ports {own}, and a name keeps its ports: deploy the ports {other} by a new name "
            f"(bgctl deploy NEW-NAME {other})"
        )
        self.some_rounds()
        self.assertEqual(
            (self.log().count(text), self.told.getvalue().count(f"controller: {text}\n")), (1, 1)
        )
        told = self.bgctl("status")
        self.assertEqual(
            (told.status, told.printed[:23], told.told),
            (4, "steady: active web-v2, ", f"bgctl: {text}\n"),
        )
        self.assertEqual(
            json.loads(self.bgctl("status", "--json").printed)["held_back"],
            [
                {
                    "name": "web-v2",
                    "ports": self.ports("web-v3"),
                    "reason": text.removeprefix("web-v2 is held back: "),
                }
            ],
        )

    def test_what_else_is_edited_is_taken(self) -> None:
        self.v2_is_stable()
        self.write_ports(
            ("web-v1", self.ports("web-v3")), ("web-v2", self.ports("web-v2")), ("web-v4", (1, 2))
        )
        self.await_log("deploy web-v4 1 2 => ok 0")
        self.await_held("web-v1")

    def test_the_plan_is_mended(self) -> None:
        self.v2_is_stable()
        self.write_untested()
        self.await_held("web-v2")
        told = self.bgctl("deploy", "web-v2", *map(str, self.ports("web-v2")))
        self.assertEqual((told.status, told.told), (0, ""))
        self.await_held()
        self.assertEqual(self.bgctl("status").status, 0)


class Commands(KeptPorts):
    """bgctl and bin/controller deploy."""

    def assert_refused(self, told: Run, reason: str, before: bytes) -> None:
        with open(self.plan.path, "rb") as file:
            self.assertEqual(
                (told.status, told.printed, reason in told.told, file.read()),
                (1, "", True, before),
                told.told,
            )

    def plan_text(self) -> bytes:
        with open(self.plan.path, "rb") as file:
            return file.read()

    def test_a_name_of_the_plan(self) -> None:
        """No controller has run yet."""
        self.write(*NAMES[:2])
        for name in NAMES[:2]:
            reason = (
                f"{name} has the ports {' '.join(map(str, self.ports(name)))}, and a name keeps its ports: deploy the ports 7 8 by "
                "a new name (bgctl deploy NEW-NAME 7 8)"
            )
            self.assert_refused(
                self.bgctl("deploy", name, "7", "8", "--wait", "--timeout", "20"),
                reason,
                self.plan_text(),
            )
            turned = map(str, reversed(self.ports(name)))
            self.assert_refused(
                self.bgctl("deploy", name, *turned), f"{name} has the ports", self.plan_text()
            )

    def test_a_name_of_the_history(self) -> None:
        """The switch was started again, and its book has the name no longer."""
        self.v2_is_stable()
        self.restart()
        self.runner.stop()
        self.write_ports(("web-v2", self.ports("web-v2")))
        self.assert_refused(
            self.bgctl("deploy", "web-v1", "7", "8"), "web-v1 has the ports", self.plan_text()
        )

    def test_a_name_of_the_book_alone(self) -> None:
        """The history is gone, and the state has it."""
        self.v2_is_stable()
        self.runner.stop()
        os.remove(self.plan.path + ".state.history")
        self.write_ports(("web-v4", (1, 2)))
        for name in NAMES[:2]:
            self.assert_refused(
                self.bgctl("deploy", name, "7", "8"), f"{name} has the ports", self.plan_text()
            )

    def test_the_command_of_the_controller(self) -> None:
        self.write(*NAMES[:2])
        before = self.plan_text()
        with contextlib.redirect_stderr(io.StringIO()) as told:
            status = controller_cli.main(["deploy", self.plan.path, "web-v2", "7", "8"])
        self.assertEqual((status, self.plan_text()), (1, before))
        self.assertIn(
            f"controller: {self.plan.path} stays as it is:\n  web-v2 has the ports", told.getvalue()
        )

    def test_undo_takes_the_ports_that_were_live(self) -> None:
        self.v2_is_stable()
        self.write_ports(("web-v1", self.ports("web-v3")), ("web-v2", self.ports("web-v2")))
        self.await_held("web-v1")
        self.assertEqual(self.bgctl("undo").status, 0)
        self.await_book("paused", 1)
        self.assertEqual(self.deploys()[-1], f"deploy {self.words('web-v1')}")

    def test_undo_with_other_ports(self) -> None:
        self.v2_is_stable()
        self.assert_refused(
            self.bgctl("undo", "--to", "web-v1", "--ports", "7", "8"),
            "web-v1 has the ports",
            self.plan_text(),
        )

    def test_check(self) -> None:
        self.v2_is_stable()
        self.write_untested()
        told = self.bgctl("check")
        self.assertEqual(
            (told.status, told.printed.startswith("revisions[1].ports: web-v2 has the ports ")),
            (1, True),
            told.printed,
        )

    def test_the_history_of_an_earlier_controller(self) -> None:
        """A name may have had several ports: those of its latest attempt count."""
        self.write_ports(("web-v4", (5, 6)))
        history = HistoryFile(self.plan.path)
        for ports in ((1, 2), (3, 4), ()):
            history.append(Event("2026-11-26T10:00:00+00:00", "deployed", "web-v1", 1, ports=ports))
        for words, status in ((("1", "2"), 1), (("3", "4"), 0)):
            self.assertEqual(self.bgctl("deploy", "web-v1", *words).status, status)


class RefusedDeploys(KeptPorts):
    """The switch refuses a deploy of the plan."""

    def setUp(self) -> None:
        super().setUp()
        for module in (controller, book):
            self.stack.enter_context(mock.patch.object(module, "AGAIN", 0.3))
        self.write("web-v1")
        self.start()
        self.await_book("steady", 1)
        self.switch.book.refusals["deploy"] = "TooManyRevisions"

    def test_status_tells_it_until_it_is_over(self) -> None:
        self.assertEqual(self.bgctl("deploy", "web-v4", "1", "2").status, 0)
        self.await_held("web-v4")
        text = (
            "bgctl: web-v4 is held back: the switch refuses to deploy web-v4 1 2: refused TooManyRevisions: 64 revisions exist "
            "already\n"
        )
        self.assertEqual(self.bgctl("status")[1:], (text, 4))
        del self.switch.book.refusals["deploy"]
        self.await_held()
        self.assertEqual(self.bgctl("status").status, 0)

    def test_another_plan_is_not_held_back(self) -> None:
        self.bgctl("deploy", "web-v4", "1", "2")
        self.await_held("web-v4")
        self.write("web-v1")
        self.await_held()

    def test_a_wait_ends_at_once(self) -> None:
        told = self.bgctl("deploy", "web-v4", "1", "2", "--wait", "--timeout", "40")
        self.assertEqual(told.status, 1)  # 2 if its time has passed
        self.assertIn(
            "stable=web-v4 cannot hold by the plan: the switch refuses to deploy web-v4 1 2: refused TooManyRevisions: 64 ",
            told.told,
        )

    def test_no_endpoint_comes_before_a_refusal(self) -> None:
        """Clients that get errors are told first."""
        for endpoint in self.endpoints["web-v1"]:
            endpoint.stop()
        self.assertTrue(comes(lambda: self.switch.book.revisions[1].available == 0), self.log())
        self.bgctl("deploy", "web-v4", "1", "2")
        self.await_held("web-v4")
        self.assertEqual(self.bgctl("status").status, 3)


class OfAFleet(unittest.TestCase):
    """The record of a fleet says which ports a name has, so an agent holds nothing back by its own
    history."""

    def test_its_memory_keeps_no_ports(self) -> None:
        first, second, other = (
            PlannedRevision(*told)
            for told in (("web-v1", (1, 2)), ("web-v2", (3, 4)), ("web-v1", (5, 6)))
        )
        plan = Plan(8082, Health(), Analyses({}), Progress(), (other, second))
        with tempfile.TemporaryDirectory() as folder:
            path, log = os.path.join(folder, "fleet.json"), Log(io.StringIO(), False)
            HistoryFile(path).append(
                Event("2026-11-26T10:00:00+00:00", "opened", "web-v1", 1, ports=first.ports)
            )
            memory = FleetMemory(
                Machine("a", "m1", MachineSettings(8082), lambda _: None), path, plan, log
            )
            for revision in (first, second):
                memory.set_opened(revision)
            held = HeldRevisions(log, memory)
            held.look(plan)
            self.assertEqual(
                (memory.known(plan, "web-v1"), memory.noted(plan), memory.state.held),
                (other, {"web-v1": other, "web-v2": second}, ()),
            )
            told = read_report(book_with("open web-v1 5 6"))
            assert told is not None
            memory.take_in(plan, told)
            self.assertEqual(memory.state.stable, other)


del ControllerCase  # it has tests of its own elsewhere
