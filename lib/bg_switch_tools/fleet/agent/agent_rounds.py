"""The rounds of an agent at its switch: those of a controller, once the plan and the record of the
fleet are known."""
from collections.abc import Callable

from bg_switch_tools.controller.endpoints.probes import Probes
from bg_switch_tools.controller.log import Log
from bg_switch_tools.controller.plan.plan import Plan
from bg_switch_tools.controller.plan.plan_reader import PlanError
from bg_switch_tools.controller.rounds.book_opener import OpeningError
from bg_switch_tools.controller.rounds.controller import ROUND, Controller
from bg_switch_tools.controller.rounds.switch_silence import SwitchSilence
from bg_switch_tools.fleet.agent.agent import MINUTE, FleetAgent
from bg_switch_tools.fleet.plan.rollout_settings import RolloutFile
from bg_switch_tools.switch.connection import Connection, UnreachableError
from bg_switch_tools.switch.reports import Report, ReportError

# Seconds within which a connection is taken, and for the answers of a round: a lease has to be
# longer than a round at a switch that hangs.
CONNECT, ANSWER = 0.5, 2.5
MakeController = Callable[[Plan], Controller]


class AgentRounds:
    """One round after the other. One thread calls it, but for `stop`."""

    def __init__(
        self, agent: FleetAgent, log: Log, probes: Probes, make_controller: MakeController
    ) -> None:
        """`probes` are those of the controller, which is made by the first plan."""
        self.agent = agent
        self.machine = agent.machine
        self.log = log
        self.make_controller = make_controller
        self.rollout = RolloutFile(self.machine.settings.rollout)
        self.rollout_faults: list[str] = []
        self.unopened = ""  # why the switch can't be opened; empty if it can
        self.probes = probes
        self.silence = SwitchSilence(log, MINUTE)
        self.controller: Controller | None = None  # from the first plan on
        self.told_plan = ""  # the plan of the fleet that was told last
        self.connection: Connection | None = None
        self.is_stopping = False

    def do_round(self) -> tuple[str | None, float]:
        """A round. Gives what the machine reports then, and the seconds until the next one. Before
        the first record of a fleet, a machine whose switch gives no answer reports nothing: the
        fleet begins with what its machines have as stable.
        """
        self._go_by_plan()
        report, pause, is_answered = None, ROUND, False
        try:
            with Connection(self.machine.settings.control, CONNECT) as connection:
                self.connection = connection
                connection.allow(ANSWER)
                report, pause = self._round(connection)
            is_answered = True
            self.silence.end()
        except (UnreachableError, ReportError) as reason:
            if self.controller:
                self.controller.take_silence(reason)
            if not self.is_stopping:
                self.silence.begin(str(reason))
        except OpeningError as reason:
            self.unopened = str(reason)
        finally:
            self.connection = None
        return (self.agent.text(report) if is_answered or self.machine.record else None), pause

    def _round(self, connection: Connection) -> tuple[Report | None, float]:
        """The report after the round, and the seconds until the next one. A switch without a book
        is opened only if its Rollout fits a fleet."""
        controller = self.controller
        if controller is None or self.rollout_faults:
            report = connection.ask_report()
            if controller is None or report is None:
                return report, ROUND
        pause = controller.do_round(connection)
        if controller.book.latest:
            self.unopened = ""
        return controller.book.latest, pause

    def _go_by_plan(self) -> None:
        """Takes a plan that has changed, and judges whether this machine is fit for it."""
        faults = list[str]()
        try:
            if plan := self.machine.plan():
                self._take_plan(plan)
        except PlanError as wrong:
            faults = [
                f"the plan does not fit this machine: {problem}" for problem in wrong.problems
            ]
        plan_of_fleet = self.machine.fleet_plan
        self.rollout_faults = self.rollout.faults(
            plan_of_fleet is not None and "pre" in plan_of_fleet.analyses
        )
        unfit = "; ".join(
            [*faults, *self.rollout_faults, *([self.unopened] if self.unopened else [])]
        )
        if unfit != self.machine.unfit:
            self.machine.unfit = unfit
            self.log.say(
                "plan",
                f"nothing new is deployed here: {unfit}"
                if unfit
                else "this machine is fit for the plan again",
            )

    def _take_plan(self, plan: Plan) -> None:
        """Takes the plan of this machine, which also has the revisions of the record: what is told
        is another plan of the fleet."""
        text, self.told_plan = self.told_plan, self.machine.state.plan
        if self.controller is None:
            self.controller = self.make_controller(plan)
        elif plan != self.controller.plan:
            (self.controller.go_by if text == self.told_plan else self.controller.take_plan)(plan)

    def stop(self) -> None:
        """Cuts the round that runs short. Any thread may call it."""
        self.is_stopping = True
        if connection := self.connection:
            connection.cut()

    def end(self) -> None:
        """The last thing that is done: what runs is ended."""
        if self.controller:
            self.controller.end()
        self.log.say("end", "ends; the switch continues")
        if self.controller:
            self.controller.notifier.end()

    def end_at_once(self) -> None:
        """Ends what runs if the rounds hang. Another thread may call it."""
        if self.controller:
            self.controller.launcher.begin_end()
            self.controller.analyses.end_at_last()
