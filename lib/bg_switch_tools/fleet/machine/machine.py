"""What an agent knows of its fleet, and what follows for its switch: the reads and the moments come
from the caller."""
import dataclasses
from collections.abc import Callable

from bg_switch_tools.controller.plan.plan import Plan, PlannedRevision
from bg_switch_tools.fleet.machine.line_table import (
    Joined,
    Known,
    is_behind,
    is_known_to_be_over,
    is_of_fleet,
    joined_after,
    line_by_record,
    state_of,
)
from bg_switch_tools.fleet.machine.machine_state import MachineState
from bg_switch_tools.fleet.plan.fleet_plan import (
    FleetPlan,
    MachineSettings,
    machine_plan,
    missing_analyses,
    plan_text,
    read_fleet_plan,
)
from bg_switch_tools.fleet.record.record import (
    FAILED,
    MACHINES,
    WORKING,
    MachineReport,
    Record,
    UnreadableError,
    View,
    shortened,
)
from bg_switch_tools.fleet.store.store import Snapshot
from bg_switch_tools.switch.lines import Abort, AnalysisKind, Deploy, Event, Line
from bg_switch_tools.switch.phases import Phase
from bg_switch_tools.switch.reports import SERVICES, Report

# Seconds: how old a read may be when the agent decides by it, and when the switch promotes by it. So
# however long an agent or a switch is stopped, a machine promotes at most a second after `aborted` was
# written. One second suffices, since a read and a line take milliseconds. It is below the seconds of a
# lease (10 at least), after which a fleet may go on without this machine: nothing of it is on its way then.
FRESH = 1.0
RETRY = 60.0  # seconds until an attempt begins again that has failed on this machine alone
NO_RECORD = "the record of the fleet is not known yet"


class Machine:
    """One machine of a fleet. `keep` is given each state that is to outlive a crash, before
    anything rests on it. All moments are seconds of the machine's monotonic clock."""

    def __init__(
        self,
        host: str,
        machine: str,
        settings: MachineSettings,
        keep: Callable[[MachineState], None],
        state: MachineState = MachineState(),
    ) -> None:
        """`machine` is an id of the machine itself, such as that of /etc/machine-id. `state` is
        what was kept before."""
        self.host = host
        self.machine = machine
        self.settings = settings
        self.keep = keep
        self.state = state
        self.read_at: float | None = (
            None  # when the read was begun that `state` is of; None if the latest one has failed
        )
        self.fault = ""  # why the latest read is not used, or not in full
        self.leader = 0  # the `created` revision of the leader's key, by the latest read; 0: none
        self.failed_at: float | None = None  # since when an attempt that catches up has failed here
        self.refusal = ""  # the latest line that the switch has refused, with its reply
        self.unfit = ""  # why this machine can't do what the record asks for; empty if it can

    @property
    def record(self) -> Record | None:
        return self.state.record

    @property
    def joined(self) -> Joined:
        return self.state.joined

    @property
    def fleet_plan(self) -> FleetPlan | None:
        """The plan by which the machine goes on, as it was read last; None before."""
        return read_fleet_plan(self.state.plan) if self.state.plan else None

    def plan(self) -> Plan | None:
        """The plan of the machine's controller; None until the plan and the record were read once.
        `PlanError` if the plan and the settings of the machine contradict one another."""
        plan, record = self.fleet_plan, self.record
        return (
            machine_plan(plan, self.settings, (record.stable, record.revision))
            if plan and record
            else None
        )

    def _set(self, state: MachineState) -> None:
        if state != self.state:
            self.state = state
            self.keep(state)

    def take_read(self, snapshot: Snapshot, begun: float) -> None:
        """Takes in a read that was begun at this moment."""
        view = View(snapshot)
        self.leader = view.leader
        self.read_at, self.fault = None, self._fault_of(view)
        if self.fault:
            return
        record = view.record
        if record is None:
            return
        plan = self._plan_of(view, record)
        text = plan_text(plan) if plan else self.state.plan
        if plan is None or view.standing_plan is None:
            self.fault = f"the plan before is used: {view.plan_fault}"
        if record != self.record:
            self.refusal = ""
        self._set(
            dataclasses.replace(self.state, cluster=snapshot.cluster, plan=text, record=record)
        )
        self.read_at = begun

    @staticmethod
    def _plan_of(view: View, record: Record) -> FleetPlan | None:
        """The plan by which this machine goes on: that of the attempt while it runs, and then the
        one that stands. None if neither is known."""
        if record.is_running and record.plan:
            return record.plan
        return view.standing_plan or record.plan

    def _fault_of(self, view: View) -> str:
        """Why nothing is done by a read; empty if it can be used."""
        other = view.machine(self.host)
        if other and other.machine not in ("", self.machine):
            return f"another machine reports as {self.host}: {MACHINES}{self.host} is of the machine {other.machine}"
        try:
            view.record
        except UnreadableError as reason:
            return str(reason)
        return ""

    def lose_store(self) -> None:
        """The store gives no answer: what was read before decides on nothing any more that needs a
        fresh read."""
        self.read_at = None

    def is_fresh(self, now: float) -> bool:
        """Whether the latest read is young enough for a line."""
        return self.read_at is not None and now - self.read_at < FRESH

    @property
    def promotes_before(self) -> float | None:
        """The time limit of a promote by the latest read; None without one."""
        return None if self.read_at is None else self.read_at + FRESH

    def _known(self, record: Record, now: float) -> Known:
        may_retry = self.failed_at is not None and now >= self.failed_at + RETRY
        return Known(record, self.state.cluster, self.joined, may_retry)

    def take_report(self, report: Report, now: float) -> None:
        """Takes in a report of the switch, as the first step of a round."""
        if self.record is None:
            return
        known = self._known(self.record, now)
        if self.joined.has_passed and not (
            report.phase is Phase.POST_ANALYSIS and known.has_passed(report)
        ):
            self._set_joined(dataclasses.replace(self.joined, has_passed=False))
        elif (
            report.phase is Phase.POST_ANALYSIS
            and is_of_fleet(report, known)
            and not self._has_analysis(AnalysisKind.POST)
        ):
            self.take_passed()
        is_failed = (
            report.phase is Phase.ABORTED
            and is_behind(report, self.record)
            and known.has_joined(report)
        )
        self.failed_at = (
            (self.failed_at if self.failed_at is not None else now) if is_failed else None
        )

    def _has_analysis(self, kind: AnalysisKind) -> bool:
        plan = self.fleet_plan
        return plan is not None and kind in plan.analyses

    def _set_joined(self, joined: Joined) -> None:
        self._set(dataclasses.replace(self.state, joined=joined))

    def to_open(self) -> PlannedRevision | None:
        """The revision that a book is opened with: the fleet's stable one, as it was read last.
        None before the first read."""
        return self.record.fleet_stable if self.record else None

    def opening(self, plan: Plan) -> tuple[PlannedRevision, str]:
        """The same with why this one, for a plan of the machine's controller."""
        revision = self.to_open()
        return (
            (revision, "the fleet's stable revision")
            if revision
            else (plan.first, "the plan's first revision")
        )

    def lose_book(self) -> None:
        """The book of the switch is gone, and with it the attempt that it had joined, and what was
        refused."""
        self.refusal = ""
        self._set_joined(Joined())

    def permitted_line(self, report: Report, now: float) -> Event | None:
        """The line to be sent at once; None if there is none, if the latest read is too old, or if
        this machine is unfit. Going back from an attempt that is over needs neither."""
        if self.record is None:
            return None
        known = self._known(self.record, now)
        line = line_by_record(report, known)
        goes_back = isinstance(line, Abort) and is_known_to_be_over(report, known)
        return line if goes_back or self.is_fresh(now) and not self.unfit else None

    def coming(self, report: Report, now: float) -> PlannedRevision | None:
        """The revision that is deployed next, by the record as it is known; None if this machine is
        unfit."""
        line = (
            line_by_record(report, self._known(self.record, now))
            if self.record and not self.unfit
            else None
        )
        if self.record is None or not isinstance(line, Deploy):
            return None
        return self.record.fleet_stable if is_behind(report, self.record) else self.record.revision

    def take_reply(
        self, line: Line, was_carried_out: bool, reply_text: str, report: Report, now: float
    ) -> None:
        """Takes in the reply to a line of `permitted_line`, which rests on this report.
        `reply_text` is what people are told of the reply."""
        if not was_carried_out:
            self.refusal = f"{line}: {reply_text}"
        elif self.record:
            self.refusal = ""
            self._set_joined(joined_after(line, report, self._known(self.record, now)))

    def why_not_judged(self, report: Report, now: float) -> str:
        """Why no analysis is to run in the phase of this report; empty if one may."""
        if self.record is None:
            return NO_RECORD
        if not is_of_fleet(report, self._known(self.record, now)):
            return "its attempt is not of the fleet"
        return (
            "it has passed"
            if report.phase is Phase.POST_ANALYSIS and self.joined.has_passed
            else ""
        )

    def take_passed(self) -> None:
        """The analysis after the switch has passed here. The verdict is held back: the record
        decides for all machines at once."""
        if not self.joined.has_passed:
            self._set_joined(dataclasses.replace(self.joined, has_passed=True))

    def take_failed(self, reason: str) -> None:
        """An analysis has failed here. Its verdict is handed in at once: going back needs no
        permission."""
        self._set_joined(dataclasses.replace(self.joined, reason=reason))

    def report(self, report: Report | None, now: float) -> MachineReport:
        """What the machine reports to its fleet; without a report of the switch if the switch gives
        none."""
        if report is None:
            return MachineReport(
                self.machine,
                0,
                WORKING,
                shortened(self.unfit or self.refusal or "the switch gives no report"),
                leader=self.leader,
            )
        active, preview, stable, newest = (report.service(service).name for service in SERVICES)
        machine_report = MachineReport(
            self.machine,
            0,
            WORKING,
            shortened(self.unfit),
            str(report.phase),
            active,
            preview,
            stable,
            newest,
            report.newest.available,
            self.leader,
        )
        if self.record is None:
            return machine_report
        known = self._known(self.record, now)
        state, reason = state_of(report, known)
        has_joined = not is_behind(report, self.record) and known.has_joined(report)
        lacks = self._lacks(report, has_joined)
        if lacks and state != FAILED:
            state, reason = FAILED, lacks
        attempt = self.record.id if has_joined or lacks else 0
        why = shortened(reason or self.unfit or self.refusal)
        return dataclasses.replace(machine_report, attempt=attempt, state=state, reason=why)

    def _lacks(self, report: Report, has_joined: bool) -> str:
        """Why the attempt that runs can't succeed on this machine; empty if it can, or if the
        machine catches up first."""
        if self.record is None or not self.record.is_running or is_behind(report, self.record):
            return ""
        plan = self.fleet_plan
        missing = missing_analyses(plan, self.settings) if plan and has_joined else []
        return (
            f"this machine has no command for the analysis {', '.join(missing)}"
            if missing
            else self.unfit
        )
