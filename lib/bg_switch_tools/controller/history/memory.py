"""What a controller knows of the rounds before, kept in the state file of its plan."""
import dataclasses
import time
from collections.abc import Mapping

from bg_switch_tools.controller.history.kept_ports import by_name, kept_in_history
from bg_switch_tools.controller.log import Log
from bg_switch_tools.controller.plan.plan import Plan, PlannedRevision
from bg_switch_tools.controller.process_groups import ProcessId
from bg_switch_tools.controller.state.analysis_results import AnalysisResults
from bg_switch_tools.controller.state.state_file import HeldBack, State, StateError, StateFile
from bg_switch_tools.controller.state.unopened import why_not_opened
from bg_switch_tools.switch.control import Control
from bg_switch_tools.switch.json_values import MOST_PORTS
from bg_switch_tools.switch.moments import believed
from bg_switch_tools.switch.reports import Report

MOMENT_AGE = 10  # seconds: how old the moment in the file may be

Revisions = Mapping[str, PlannedRevision]  # by their names


@dataclasses.dataclass(frozen=True)
class Known:
    """What is known of the ports of a book's revisions. `asked_name` is the name of the revision
    for whose ports the switch is asked; empty if there is no such revision. It is not in
    `revisions`, and nothing is reported of it before the answer.
    """

    revisions: Revisions
    asked_name: str = ""


class Memory:
    """The state. `is_fresh` says that nothing is known of this plan's rounds before. `kept` are the
    revisions that were opened or deployed with the ports that they have here: no edit of the plan
    changes them. `other` is the state in the file if it is of another plan: it stays there until a
    book is open."""

    def __init__(self, plan_path: str, plan: Plan, log: Log) -> None:
        """Reads the state file. If it can't be used, the log says what is done, and why."""
        self.file = StateFile(plan_path)
        self.results = AnalysisResults(plan_path)
        self.log = log
        self.state = State(since=int(time.time()))
        self.is_fresh = True
        self.other: State | None = None
        self.written = 0.0  # the time of the last write; 0 before the first one
        self.is_failing = False
        self.is_ahead = False  # whether the moment of the switch is not believed
        self.unknown_stable: str | None = None
        self.asked_name = ""  # the name of the newest revision, in the round in which the switch is asked for its ports
        self.kept = self.kept_before(plan_path)
        self._read(plan)

    def _say(self, text: str) -> None:
        self.log.say("state", text)

    def _read(self, plan: Plan) -> None:
        revision, why = self.to_open(plan)  # as nothing is known yet
        otherwise = f"a switch without a book will be opened with {revision.name}, {why}"
        try:
            state, why_copy = self.file.read()
        except StateError as reason:
            self._say(f"the state file {self.file.path} is not used, since {reason}; {otherwise}")
            return
        for revision in state.ports:
            self.keep_ports(revision)
        if why_copy:
            self._say(f"the state file {self.file.path} {why_copy}, so its copy is used")
        if self.is_of(plan, state):
            self._use(state, self.file.copy if why_copy else self.file.path)
        else:
            self.other = state
            self._say(self.why_not_opened(plan))

    def _use(self, state: State, path: str) -> None:
        """Goes on by the state that was read from this file."""
        self.state, self.is_fresh, self.other = self._believed(state), not state.names, None
        self._say(f"continues from the state file {path}: {self.summary()}")

    def take_plan(self, plan: Plan) -> None:
        """Takes in an edit of the plan, after which the state in the file may be that of the
        plan."""
        if self.other and self.is_of(plan, self.other):
            self._use(self.other, self.file.path)

    def take_book(self) -> None:
        """Takes in that a book is open, which goes on as it stands: no state of another plan is of
        use any more."""
        self.other = None

    def why_not_opened(self, plan: Plan) -> str:
        """Why a switch without a book is not opened by this plan, and what to do; empty if it is
        opened."""
        return why_not_opened(self.other or self.state, self.file.path, plan)

    def kept_before(self, plan_path: str) -> dict[str, PlannedRevision]:
        """The revisions that the history has with their ports."""
        return kept_in_history(plan_path)

    def keep_ports(self, revision: PlannedRevision) -> None:
        """The revision was opened or deployed with these ports."""
        self.kept[revision.name] = revision

    def noted(self, _: Plan) -> Revisions:
        """The revisions whose ports the history may have."""
        return self.kept

    def is_of(self, plan: Plan, state: State) -> bool:
        """Whether a state was kept for this plan."""
        return state.belongs_to(plan)

    def summary(self) -> str:
        """What the state says, for the log."""
        stable, deployed = (
            revision.name if revision else "none"
            for revision in (self.state.stable, self.state.deployed)
        )
        return f"moment {self.state.moment}, stable {stable}, deployed by the plan {deployed}"

    def _believed(self, state: State) -> State:
        """The state with a moment that can be true: a book would be ticked to any other one, and
        never again."""
        now = time.time()
        moment = believed(state.moment, state.since, now)
        if moment != state.moment:
            self._say(
                f"the moment {state.moment} of the state file lies more than a day ahead of the clock, and is not believed: "
                f"a new book begins at moment {moment}"
            )
        return dataclasses.replace(state, moment=moment, since=state.since or int(now) - moment)

    def revisions(self, plan: Plan) -> dict[str, PlannedRevision]:
        """By their names, the revisions whose ports are known: those of the plan, and those that it
        names no longer. What was opened or deployed has the ports of then, whichever the plan names
        by now. Of what is held back, the plan has not the ports.
        """
        remembered = (self.state.deployed, self.state.attempt, self.state.stable)
        held = [each.revision for each in self.state.held]
        found = by_name(
            each
            for each in (*self.state.started, *plan.revisions, *remembered)
            if each and each not in held
        )
        kept = by_name(self.kept[revision.name] for revision in held if revision.name in self.kept)
        return {**kept, **{name: self.kept.get(name, revision) for name, revision in found.items()}}

    def known_ports(self, plan: Plan) -> Known:
        """What is known of the ports of the book's revisions in this round."""
        return Known(
            {
                name: revision
                for name, revision in self.revisions(plan).items()
                if name != self.asked_name
            },
            self.asked_name,
        )

    def known(self, plan: Plan, name: str) -> PlannedRevision | None:
        """The revision of this name, if its ports are known."""
        return self.revisions(plan).get(name)

    def set_deployed(self, revision: PlannedRevision | None) -> None:
        """Remembers that this revision was deployed because the plan names it last; None if no
        revision was."""
        self.is_fresh = False
        self._keep(dataclasses.replace(self.state, deployed=revision))

    def set_confirmed(self, revision: PlannedRevision, has_begun: bool) -> None:
        """Remembers that the newest revision, which the plan names last, has these ports: the switch
        has said so. If its attempt has begun with that, the switch may end before a report shows
        it."""
        self.is_fresh = False
        self.keep_ports(revision)
        others = (each for each in self.state.ports if each.name != revision.name)
        attempt = revision if has_begun else self.state.attempt
        self._keep(
            dataclasses.replace(
                self.state, deployed=revision, attempt=attempt, ports=(*others, revision)
            )
        )

    def set_opened(self, revision: PlannedRevision) -> None:
        """Remembers that a book was opened with this revision, and that no other one exists."""
        self.is_fresh = False
        deployed = self.state.deployed
        is_deployed = deployed is not None and deployed.name == revision.name
        self.keep_ports(revision)
        self._keep(
            dataclasses.replace(
                self.state,
                stable=revision,
                deployed=revision if is_deployed else deployed,
                ports=(revision,),
                unknown="",
            )
        )

    def set_held(self, held: tuple[HeldBack, ...]) -> None:
        """Remembers which revisions of the plan are held back, and why."""
        if held != self.state.held:
            self._keep(dataclasses.replace(self.state, held=held))

    def set_failing(self, failing: tuple[HeldBack, ...]) -> None:
        """Remembers the start of which revisions has failed, and why."""
        if failing != self.state.failing:
            self._keep(dataclasses.replace(self.state, failing=failing))

    def to_open(self, plan: Plan) -> tuple[PlannedRevision, str]:
        """The revision that a book is to be opened with, and why this one: the stable one, with the
        ports that were live, or those of the plan if they were not known; and the plan's first one
        if none is known."""
        stable = self.state.stable or plan.named(self.state.unknown)
        if stable:
            return stable, "which was stable"
        return self.kept.get(plan.first.name, plan.first), "the plan's first revision"

    def take_in(self, plan: Plan, report: Report) -> None:
        """Remembers what a report shows."""
        stable = self.live(plan, report.stable.name)
        if stable is None and report.stable.name != self.unknown_stable:
            what = (
                "is stable and was not deployed by the plan"
                if plan.named(report.stable.name)
                else "is stable and not in the plan"
            )
            then = (
                f"be opened with {self.state.stable.name}" if self.state.stable else "not be opened"
            )
            self._say(
                f"{report.stable.title()} {what}, so its ports are not known: a switch that is started again would {then}"
            )
        self.unknown_stable = None if stable else report.stable.name
        unknown = "" if stable or self.state.stable else report.stable.name
        attempt = self.known(plan, report.newest.name) if report.is_running else None
        moment = believed(report.moment, self.state.since, time.time())
        if moment < report.moment and not self.is_ahead:
            self._say(
                f"the moment {report.moment} of the switch lies more than a day ahead of the clock, and is not kept: a new book "
                f"begins at moment {moment}"
            )
        self.is_ahead = moment < report.moment
        ports = tuple(
            self.kept[each.name] for each in report.revisions.values() if each.name in self.kept
        )
        self._keep(
            dataclasses.replace(
                self.state,
                moment=moment,
                stable=stable or self.state.stable,
                attempt=attempt,
                ports=ports,
                unknown=unknown,
            )
        )

    def live(self, plan: Plan, name: str) -> PlannedRevision | None:
        """The stable revision, by its name, with the ports that it has in the book; None if they
        are not known. Those of the plan are taken once, if no revision is known that was stable
        before."""
        stable = self.state.stable
        if name in self.kept:
            return self.kept[name]
        return plan.named(name) if stable is None else stable if stable.name == name else None

    def set_analyses(self, processes: tuple[ProcessId, ...]) -> None:
        """Remembers the processes of the analyses that run."""
        if processes != self.state.analyses:
            self._keep(dataclasses.replace(self.state, analyses=processes))

    def set_started(self, revisions: tuple[PlannedRevision, ...]) -> None:
        """Remembers which revisions were started and are to be stopped one day."""
        if revisions != self.state.started:
            self._keep(dataclasses.replace(self.state, started=revisions))

    def set_former(self, controls: tuple[Control, ...]) -> None:
        """Remembers the control ports and sockets that the plan named before, the latest ones if
        there are too many."""
        distinct = tuple(dict.fromkeys(controls))[-MOST_PORTS:]
        if distinct != self.state.former:
            self._keep(dataclasses.replace(self.state, former=distinct))

    def set_commands(self, processes: tuple[ProcessId, ...]) -> None:
        """Remembers the processes of the commands that start and stop endpoints."""
        if processes != self.state.commands:
            self._keep(dataclasses.replace(self.state, commands=processes))

    def _keep(self, state: State) -> None:
        """Writes the state if it has changed; if the moment alone has, at most every `MOMENT_AGE`
        seconds."""
        is_due = (
            not self.state.keeps(state)
            or self.is_failing
            or time.monotonic() >= self.written + MOMENT_AGE
        )
        self.state = state
        if is_due:
            self.write()

    def write(self) -> None:
        """Writes the state, unless that of another plan is still needed. A folder that takes no
        file is told once, and ends nothing."""
        if self.other:
            return
        try:
            self.file.write(self.state)
        except OSError as error:
            if not self.is_failing:
                self._say(f"the state can't be kept in {self.file.path}: {error.strerror}")
            self.is_failing = True
            return
        if self.is_failing:
            self._say(f"the state is kept again in {self.file.path}")
        self.written, self.is_failing = time.monotonic(), False
