"""A controller that is put together with fakes: single rounds, without a thread and an endpoint."""
import contextlib
import io
import pathlib
import tempfile
import unittest

from bg_switch_tools.controller.endpoints.probes import Probes
from bg_switch_tools.controller.lines.line_source import SourceParts
from bg_switch_tools.controller.lines.plan_lines import PlanLines
from bg_switch_tools.controller.log import Log
from bg_switch_tools.controller.plan.plan import Analyses, Health, Plan, PlannedRevision, Progress
from bg_switch_tools.controller.rounds.composition import Makers, files_beside, make_controller
from bg_switch_tools.controller.rounds.controller import Controller
from bg_switch_tools.switch.connection import Connection
from bg_switch_tools.switch.control import HOST
from bg_switch_tools.switch.lines import Deploy, Line
from bg_switch_tools.switch.replies import Done, Reply
from bg_switch_tools.switch.reports import Report
from tests.fake_switch import FakeSwitch
from tests.tool_runs import WAIT

V1, V2 = PlannedRevision("web-v1", (1, 2)), PlannedRevision("web-v2", (3, 4))


class FakeProbes(Probes):
    """Endpoints that are all up, but for some. None is probed."""

    def __init__(self, *down: int) -> None:
        self.down = down
        self.ports: list[int] = []

    def watch(self, ports: object, health: Health, address: str = HOST) -> None:
        assert isinstance(ports, list)
        self.ports = sorted(set(ports))

    def forget(self, port: int) -> None:
        """Nothing is known."""

    def is_down(self, port: int) -> bool:
        return port in self.down

    def outage(self, ports: object) -> float:
        return 0.0


class OneLine(PlanLines):
    """A source that asks for one line, once, and keeps its reply."""

    def __init__(self, parts: SourceParts, line: Line) -> None:
        super().__init__(parts)
        self.lines = [line]
        self.replies: list[Reply] = []

    def next_line(self, plan: Plan, report: Report) -> Line | None:
        return self.lines.pop() if self.lines else None

    def take_reply(self, plan: Plan, report: Report, line: Line, reply: Reply) -> bool:
        self.replies.append(reply)
        return False


class Composition(unittest.TestCase):
    def setUp(self) -> None:
        stack = contextlib.ExitStack()
        self.addCleanup(stack.close)
        folder = stack.enter_context(tempfile.TemporaryDirectory())
        self.files = files_beside(str(pathlib.Path(folder, "plan.json")))
        self.switch = FakeSwitch("pause")
        stack.callback(self.switch.kill)
        self.plan = Plan(self.switch.port, Health(), Analyses({}), Progress(), (V1,))
        self.out = io.StringIO()

    def controller(self, probes: Probes, makers: Makers = Makers()) -> Controller:
        return make_controller(self.files, self.plan, Log(self.out, False), probes, makers)

    def do_rounds(self, controller: Controller, count: int = 2) -> list[str]:
        """The lines that these rounds have sent."""
        for _ in range(count):
            with Connection(self.switch.port, WAIT) as connection:
                controller.do_round(connection)
        return self.switch.sent_lines()

    def test_a_round_goes_by_the_probes(self) -> None:
        probes = FakeProbes(2)
        controller = self.controller(probes)
        self.assertEqual(self.do_rounds(controller), ["open web-v1 1 2", "available 1 1"])
        self.assertEqual(probes.ports, [1, 2])

    def test_a_round_sends_what_the_source_asks_for(self) -> None:
        line = Deploy(V2.name, V2.ports)
        controller = self.controller(
            FakeProbes(), Makers(source=lambda parts: OneLine(parts, line))
        )
        self.assertEqual(
            self.do_rounds(controller), ["open web-v1 1 2", "available 1 2", str(line)]
        )
        assert isinstance(controller.source, OneLine)
        self.assertEqual(controller.source.replies, [Done(0)])

    def test_each_part_has_those_of_its_controller(self) -> None:
        controller = self.controller(FakeProbes())
        source = controller.source
        assert isinstance(source, PlanLines)
        self.assertEqual(
            (source.launcher, source.history, source.pause, source.held, source.memory),
            (
                controller.launcher,
                controller.history,
                controller.pause,
                controller.held,
                controller.memory,
            ),
        )
        memory = controller.memory
        self.assertIs(controller.launcher.memory, memory)
        self.assertIs(controller.analyses.memory, memory)
        self.assertEqual(
            (controller.opening.memory, controller.opening.book), (memory, controller.book)
        )
        self.assertEqual(controller.log.tell, controller.notifier.take)


if __name__ == "__main__":
    unittest.main()
