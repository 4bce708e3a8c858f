"""A fleet in simulated time: the agents' own code, over a store and switches in memory, with faults
at random by a seed.

A history has a time of faults and a time without. In the first one, any agent, candidate, switch,
analysis, person or fault goes on next. In the second one all goes on in turn, until the machines
agree or the time is over. `tests/fleet_rules.py` judges what was seen.
"""
import dataclasses
import json
import random
import types
from typing import cast

from bg_switch_tools.controller.analyses.analysis_process import ANALYSIS_OF_PHASE
from bg_switch_tools.controller.lines.line_source import SourceParts
from bg_switch_tools.controller.plan.plan import Plan
from bg_switch_tools.controller.rounds.controller import MOST_LINES
from bg_switch_tools.fleet.agent.agent import FleetAgent
from bg_switch_tools.fleet.agent.candidate import Candidate, Clocks, Pending
from bg_switch_tools.fleet.agent.fleet_lines import FleetLines
from bg_switch_tools.fleet.machine.machine import Machine
from bg_switch_tools.fleet.machine.machine_state import MachineState, read_machine_state
from bg_switch_tools.fleet.plan.fleet_plan import MachineSettings
from bg_switch_tools.fleet.record.leader import awaited_of
from bg_switch_tools.fleet.record.record import FOLLOWS, PersonOrder, View
from bg_switch_tools.fleet.store.store import Compare
from bg_switch_tools.switch.before import WORD
from bg_switch_tools.switch.lines import (
    AnalysisKind,
    Deploy,
    Line,
    Promote,
    Retry,
    Verdict,
    VerdictResult,
    without_time_limit,
)
from bg_switch_tools.switch.phases import RUNNING, Phase
from bg_switch_tools.switch.replies import Refused, Reply, read_reply
from bg_switch_tools.switch.reports import Report, Revision
from tests.before_line import answer_before
from tests import fleet_rules
from tests.fleet_rules import Said, Selection, Trace
from tests.memory_store import Keys, MemoryStore

LEASE = 3  # seconds
SETTINGS = MachineSettings(8082, {"smoke": ("smoke",), "errors": ("errors",)})
LONGEST_REST = 400  # passes without a fault until the machines have to agree
PASS = 0.25  # seconds of such a pass
PROMOTING_SECONDS = 30
SPOILED = 0.1  # how probable it is that what is put is no plan
# Seconds in which an attempt ends that is promoting, or whose abort is ordered: a lease of a leader
# that is gone may come first.
ENDING = {"promoting": PROMOTING_SECONDS + LEASE + 2.0, "abort": LEASE + 2.0}
LATE_ENDING = (
    2.0  # how many seconds more if leases end late, since a candidate ends the leader's then
)
AIMED = 0.1  # how probable it is that a person aborts between a leader's read and its write
# How probable it is that the agent or the switch is stopped while a promote is on its way, and for how
# many seconds.
STOPPED, STOP_SECONDS = 0.3, (0.2, 6.0)


class SimulatedSwitch:
    """A switch by the rules of docs/LINES.md, as far as an agent uses them, with one replica and a
    pause."""

    def __init__(self, has_pre: bool) -> None:
        self.has_pre = has_pre
        self.moment = 0
        self.phase = ""  # empty while no book is open
        self.names: list[str] = []  # of the revisions; the number of the first one is 1
        self.up: set[int] = set()  # the revisions whose endpoint is up
        self.desired: set[int] = set()
        self.active = self.stable = self.newest = 0

    @property
    def runs(self) -> bool:
        return self.phase in RUNNING

    def report(self) -> Report:
        preview = self.newest if self.runs else self.stable
        revisions = {
            number: Revision(
                number,
                name,
                int(number in self.desired),
                int(number in self.up),
                0,
                None,
                False,
                False,
            )
            for number, name in enumerate(self.names, 1)
        }
        selected = {
            "active": self.active,
            "preview": preview,
            "stable": self.stable,
            "newest": self.newest,
        }
        return Report(self.moment, Phase(self.phase), selected, revisions)

    def name(self, number: int) -> str:
        return self.names[number - 1] if number else ""

    def open(self, name: str) -> None:
        self.names, self.up, self.desired, self.phase = [name], {1}, {1}, "steady"
        self.active = self.stable = self.newest = 1

    def send(self, line: str, now: float = 0.0) -> str:
        """The reply to a line. `now` are the seconds since the boot at which it is carried out."""
        words = line.split()
        if words[0] == WORD:
            answers = answer_before(
                line, bool(self.phase), lambda: now, lambda each: [self.send(each)]
            )
            return answers[0] if answers else ""
        if words[0] == "deploy":
            return self._deploy(words[1])
        if words[0] == "promote":
            if self.phase != "paused":
                return "refused Aborted" if self.phase == "aborted" else "refused NotPaused"
            self.phase = "sizing"
        elif words[0] == "abort":
            if not self.runs:
                return (
                    "refused AlreadyAborted"
                    if self.phase == "aborted"
                    else "refused NothingToAbort"
                )
            self._go_back()
        elif words[0] == "retry":
            if self.phase != "aborted":
                return "refused NotAborted"
            self.phase = "scaling"
            self.desired.add(self.newest)
        elif words[0] == "verdict":
            if self.phase != f"{words[1]}Analysis":
                return "refused NoAnalysis"
            if words[2] != "successful":
                self._go_back()
            elif words[1] == "post":
                self.stable, self.phase = self.newest, "steady"
            else:
                self.phase = "paused"
        self.go_on()
        return "ok 0"

    def _go_back(self) -> None:
        self.active, self.phase = self.stable, "aborted"

    def _deploy(self, name: str) -> str:
        if name == self.name(self.newest):
            return "refused SameTemplate"
        if name not in self.names:
            self.names.append(name)
        self.newest = self.names.index(name) + 1
        if self.newest == self.stable:
            self.active, self.phase = self.stable, "steady"
        else:
            self.phase = "scaling"
            self.desired.add(self.newest)
        self.go_on()
        return "ok 0"

    def go_on(self) -> None:
        """The steps that the attempt takes by itself."""
        if self.newest in self.up:
            if self.phase == "scaling":
                self.phase = "preAnalysis" if self.has_pre else "paused"
            elif self.phase == "sizing":
                self.active, self.phase = self.newest, "postAnalysis"

    def endpoints_come_up(self) -> None:
        self.up |= self.desired
        self.go_on()

    def scale_down(self) -> None:
        """Old revisions are scaled down: those that no service selects, and that are not the newest
        one of an attempt."""
        self.desired &= {self.active, self.stable, *([self.newest] if self.runs else [])}
        self.up &= self.desired


@dataclasses.dataclass
class RunningAnalysis:
    """An analysis that runs beside an agent."""

    kind: AnalysisKind
    number: int
    verdict: VerdictResult | None = None

    def is_for(self, kind: AnalysisKind | None, number: int) -> bool:
        return (self.kind, self.number) == (kind, number)


@dataclasses.dataclass
class LineOnItsWay:
    """A line of an agent, which it has decided on by this plan and this report. Until a moment its
    agent is stopped, and has not sent it; or the switch is, and has not carried it out."""

    line: Line
    plan: Plan
    report: Report
    until: float
    is_sent: bool
    read_at: float
    record: str  # by the agent's read


class NoLog:
    def say(self, event: str, text: str) -> None:
        """A trace has it all."""


class NoHistory:
    def announce(self, revision: object) -> None:
        """A trace has it all."""


class ReadyLauncher:
    def is_ready(self, *_: object) -> bool:
        return True


class Host:
    """A machine: its switch, its agent with what it has kept, and its candidate."""

    def __init__(self, name: str, world: "World") -> None:
        self.name = name
        self.world = world
        self.switch: SimulatedSwitch | None = SimulatedSwitch(world.has_pre)
        self.store = MemoryStore(world.keys, name, world.chance)
        self.leader_store = MemoryStore(world.keys, name, world.chance)
        self.kept: bytes | None = None
        self.seen: Report | None = None  # the report of the round before, which is told
        self.begun_by = (
            ""  # the record that the attempt of the switch was begun by, by the store's note
        )
        self.frozen_until = 0.0
        self.on_its_way: LineOnItsWay | None = None
        self.offset = 0.0
        self.has_failed = False  # whether the analysis after the switch has failed, and the switch has not gone back
        self.agent: FleetAgent | None = None
        self.start_agent()

    def start_agent(self) -> None:
        """The agent begins with what it has kept. A machine whose switch is gone too was started again,
        and its clock counts anew."""
        if self.agent is None and (self.switch is None or not self.switch.phase):
            self.offset = self.world.chance.uniform(0, 100000)
        state = read_machine_state(self.kept) if self.kept else MachineState()
        machine = Machine(self.name, f"id-{self.name}", SETTINGS, self.keep, state)
        self.agent = FleetAgent(machine, self.store, self.world.say, self.now, LEASE)
        parts = cast(
            SourceParts,
            types.SimpleNamespace(log=NoLog(), history=NoHistory(), launcher=ReadyLauncher()),
        )
        self.lines = FleetLines(machine, parts, self.now)
        self.candidate = Candidate(
            self.name, self.leader_store, self.world.say, Clocks(self.now, lambda: 0.0), LEASE
        )
        self.pending: Pending | None = None
        self.analysis: RunningAnalysis | None = None
        self.step = 0
        self.was_open = False

    def now(self) -> float:
        """The monotonic clock of the machine."""
        return self.world.time + self.offset

    def keep(self, state: MachineState) -> None:
        self.kept = state.text().encode()

    def kill_agent(self) -> None:
        self.agent, self.analysis, self.pending, self.has_failed = None, None, None, False
        if self.on_its_way and not self.on_its_way.is_sent:
            self.on_its_way = None

    def kill_switch(self) -> None:
        self.switch, self.has_failed, self.begun_by = None, False, ""
        self.on_its_way = None

    def record_read(self) -> str:
        """The text of the record by the agent's latest read, by the store's note."""
        return self.world.record_at(self.store.read_revision)

    def go_on(self) -> None:
        """The next step of the agent: a read, a round at the switch, or what it tells. A line that is
        on its way comes first: the agent waits for its reply, and the switch answers in turn."""
        self.let_line_arrive()
        if self.agent is None:
            return
        if self.step == 0:
            self.agent.read()
        elif self.step == 1:
            self.do_round(self.agent.machine)
        else:
            self.agent.tell(self.seen)
        self.step = (self.step + 1) % 3

    def lead(self) -> None:
        """The next step of the candidate: a read with a decision, or its write."""
        if self.agent is None:
            return
        if self.pending is None:
            self.pending = self.candidate.look()
            if self.is_about_to_go_on:
                self.world.order_in_time()
        else:
            self.candidate.send(self.pending)
            self.pending = None

    @property
    def is_about_to_go_on(self) -> bool:
        """Whether the candidate has decided that an attempt goes on, and has not written it."""
        record = self.pending.write.record if self.pending else None
        return record is not None and record.stage in ("promoting", "successful")

    def do_round(self, machine: Machine) -> None:
        """A round as a controller has it."""
        plan, switch = machine.plan(), self.switch
        self.seen = switch.report() if switch and switch.phase else None
        if plan is None or switch is None:
            return
        if not switch.phase:
            if self.was_open:
                self.lines.lose_book()
            opened = machine.opening(plan)[0]
            switch.open(opened.name)
            self.lines.take_opened(plan, opened)
            self.analysis = None
            self.world.note_selection(self)
        self.was_open = True
        report = switch.report()
        self.lines.take_report(plan, report)
        self.judge(plan, report)
        self.send_lines(plan, report)
        self.seen = switch.report()
        if self.has_failed:
            self.has_failed = False
            if switch.active != switch.stable:
                self.world.trace.broken.append(
                    f"rule 6: the analysis of {self.name} has failed, and it keeps {switch.name(switch.active)}"
                )

    def judge(self, plan: Plan, report: Report) -> None:
        kind, number = ANALYSIS_OF_PHASE.get(report.phase), report.newest.number
        if (
            self.lines.why_not_judged(plan, report)
            or self.analysis
            and not self.analysis.is_for(kind, number)
        ):
            self.analysis = None
        elif kind and kind in plan.analyses.commands and self.analysis is None:
            self.analysis = RunningAnalysis(kind, number)
        elif kind and self.analysis and self.analysis.verdict:
            verdict = Verdict(kind, self.analysis.verdict)
            if self.lines.may_hand_in(report, verdict, ""):
                self.send(verdict)
                self.analysis = None

    def let_line_arrive(self) -> None:
        """The switch carries out the line that is on its way, whose stop is over."""
        sent = self.on_its_way
        if sent is None or self.world.time < sent.until:
            return
        self.on_its_way = None
        reply = self.carry_out(sent.line, sent.read_at, sent.record)
        if self.agent:  # another one than before has given the reply up
            self.lines.take_reply(sent.plan, sent.report, sent.line, reply)

    def is_stopped_with(self, line: Line, plan: Plan, report: Report) -> bool:
        """Whether the agent or the switch is stopped while a promote is on its way."""
        world = self.world
        if (
            not isinstance(without_time_limit(line), Promote)
            or world.is_resting
            or world.chance.random() >= STOPPED
        ):
            return False
        until, is_sent = (
            world.time + world.chance.uniform(*STOP_SECONDS),
            world.chance.random() < 0.5,
        )
        self.on_its_way = LineOnItsWay(
            line, plan, report, until, is_sent, self.store.read_at, self.record_read()
        )
        self.frozen_until = max(self.frozen_until, until)
        world.log(
            f"{self.name}: {line} is on its way until {until:.2f}; the {'switch' if is_sent else 'agent'} is stopped"
        )
        return True

    def send_lines(self, plan: Plan, report: Report) -> None:
        for _ in range(MOST_LINES):
            line = self.lines.next_line(plan, report)
            if line is None or self.is_stopped_with(line, plan, report):
                return
            reply = self.send(line)
            self.lines.take_reply(plan, report, line, reply)
            if not reply.was_carried_out or self.switch is None:
                return
            report = self.switch.report()

    def send(self, line: Line) -> Reply:
        """A line of the agent's, which the switch carries out at once."""
        return self.carry_out(line, self.store.read_at, self.record_read())

    def carry_out(self, line: Line, read_at: float, record: str) -> Reply:
        """The switch carries out a line that rests on a read of this moment and record."""
        switch = self.switch
        if switch is None:
            return Refused("NotOpen")
        reply = read_reply(switch.send(str(line), self.now()))
        self.world.log(f"{self.name}: {line} => {reply}")
        if reply.was_carried_out:
            if isinstance(line, (Deploy, Retry)):
                self.begun_by = record
            elif isinstance(without_time_limit(line), Promote):
                self.world.trace.promotes.append(
                    fleet_rules.Promote(
                        self.world.time,
                        self.name,
                        switch.name(switch.newest),
                        read_at,
                        record,
                        self.begun_by,
                    )
                )
        self.world.note_selection(self)
        return reply

    def end_analysis(self, verdict: VerdictResult) -> None:
        if self.analysis and not self.analysis.verdict:
            self.analysis.verdict = verdict
            is_seen = (
                self.switch is not None
                and self.switch.phase == "postAnalysis"
                and self.switch.newest == self.analysis.number
            )
            self.has_failed = (
                verdict is not VerdictResult.SUCCESSFUL
                and self.analysis.kind is AnalysisKind.POST
                and is_seen
            )


class World:
    """All of a fleet, and its time."""

    def __init__(self, seed: int) -> None:
        self.seed = seed
        self.chance = random.Random(seed)
        self.time = 0.0
        self.has_pre = self.chance.random() < 0.5
        self.keys = Keys(self.now)
        self.trace = Trace(self.keys.changes)
        self.lines: list[str] = []
        self.logged = 0
        self.is_resting = False  # whether the faults have ended
        self.selected: dict[tuple[str, str], str] = {}  # by host and service: the revision
        self.records: list[tuple[int, str]] = []  # each text of the record, by its revision
        self.person = MemoryStore(self.keys, "person")
        # how probable it is that an analysis fails
        self.failing = self.chance.choice((0.0, 0.1, 0.5))
        self.count = self.chance.choice((2, 3, 3, 4))
        self.hosts = [Host(f"h{number}", self) for number in range(1, self.count + 1)]
        self.names = ["v1"]
        self.settings: dict[str, object] = {
            "max_missing": self.chance.choice((0, 0, 1)),
            "by_hand": self.chance.random() < 0.2,
        }
        if self.chance.random() < 0.3:
            self.settings["seconds"] = 1.0
        self.limits: dict[str, object] = {"abort": self.chance.random() < 0.3, "seconds": 20}
        self.put_members(*(host.name for host in self.hosts))
        self.put_plan("v1")

    def now(self) -> float:
        return self.time

    def say(self, event: str, text: str) -> None:
        """A line of an agent's log."""
        self.log(f"{event}: {text}")
        self.trace.said.append(Said(len(self.keys.changes), text))

    def log(self, text: str) -> None:
        self.lines.append(f"{self.time:8.2f}  {text}")

    def record_at(self, revision: int) -> str:
        """The text of the record at a revision of the store; empty if there was none."""
        for change in self.keys.changes[self.logged :]:
            if change.name == "attempt" and change.value:
                self.records.append((change.revision, change.value))
        self.logged = len(self.keys.changes)
        return next((text for number, text in reversed(self.records) if number <= revision), "")

    def note_selection(self, host: Host) -> None:
        switch = host.switch
        if switch is None or not switch.phase:
            return
        for service, number in (("active", switch.active), ("stable", switch.stable)):
            name = switch.name(number)
            if name != self.selected.get((host.name, service)):
                self.selected[host.name, service] = name
                self.trace.selections.append(
                    Selection(self.time, len(self.keys.changes), host.name, service, name)
                )
                self.log(f"{host.name}: {service} {name}")
        if switch.active not in switch.up:
            self.trace.broken.append(
                f"rule 5: {host.name} selects {switch.name(switch.active)}, of which no endpoint is up"
            )

    # ---- what a person does ----

    def put_members(self, *hosts: str) -> None:
        self.person.write([], {f"members/{host}": "" for host in hosts})

    def put_plan(self, last: str) -> None:
        names = [*(name for name in self.names if name != last), last]
        revisions = [{"name": name, "ports": [9000 + int(name[1:])]} for name in names]
        analyses: dict[str, object] = {"post": "errors"}
        if self.has_pre:
            analyses["pre"] = "smoke"
        fleet = dict(self.settings, promoting_seconds=PROMOTING_SECONDS)
        plan = {
            "revisions": revisions,
            "analyses": analyses,
            "progress": self.limits,
            "fleet": fleet,
        }
        self.person.write([], {"plan": json.dumps(plan)})
        self.log(f"person: plan with {last} last")

    def put_some_plan(self) -> None:
        what = self.chance.random()
        if what < SPOILED:
            self.spoil_plan()
        elif len(self.names) < 8 and what < 0.65:
            self.names.append(f"v{len(self.names) + 1}")
            self.put_plan(self.names[-1])
        else:
            self.put_plan(self.names[-1] if what < 0.85 else self.chance.choice(self.names))

    def spoil_plan(self) -> None:
        """Somebody puts what is no plan, or deletes the plan."""
        text = self.chance.choice(("{", '{"revisions": [], "newer": 1}', "revisions: v1", ""))
        self.person.write([], {"plan": text} if text else {}, [] if text else ["plan"])
        self.log("person: a plan that is none")

    @property
    def has_plan(self) -> bool:
        key = self.keys.keys.get("plan")
        return key is not None and '"analyses"' in key.value

    def order(self, what: str) -> None:
        """An order, which takes the place of no abort."""
        view = View(self.person.read())
        record, standing = view.record, view.order
        is_held = record and standing and (standing.order, standing.attempt) == ("abort", record.id)
        if record and record.is_running and not is_held:
            text = PersonOrder(what, record.id, "somebody").text()
            compares = [Compare(key, "changed", view.changed(key)) for key in ("attempt", "order")]
            self.person.write(compares, {"order": text})
            self.log(f"person: {what}")

    def order_in_time(self) -> None:
        """A person may abort between a leader's read and its write."""
        if not self.is_resting and self.chance.random() < AIMED:
            self.order("abort")

    def change_members(self, host: Host) -> None:
        name = f"members/{host.name}"
        is_member = name in self.keys.keys
        if is_member and len([key for key in self.keys.keys if key.startswith("members/")]) == 1:
            return
        self.person.write([], {} if is_member else {name: ""}, [name] if is_member else [])
        self.log(f"person: {'removes' if is_member else 'adds'} {host.name}")

    # ---- faults ----

    def fault(self, host: Host) -> None:
        chance = self.chance
        kind = chance.choice(
            (
                "agent",
                "switch",
                "both",
                "cut",
                "cut",
                "away",
                "away",
                "freeze",
                "freeze",
                "lease",
                "lost answers",
                "late leases",
                "by hand",
            )
        )
        if kind in ("agent", "both") and host.agent:
            self.log(f"{host.name}: the agent is killed")
            host.kill_agent()
        if kind in ("switch", "both") and host.switch:
            self.log(f"{host.name}: the switch is killed")
            host.kill_switch()
        if kind in ("cut", "away"):
            host.store.is_cut = host.leader_store.is_cut = True
            self.log(f"{host.name}: cut off from the store")
        if kind == "away" and host.agent and host.agent.lease.number:
            self.keys.end(host.agent.lease.number)
        if kind == "freeze":
            host.frozen_until = self.time + chance.uniform(0.3, 6)
            self.log(f"{host.name}: the agent is stopped until {host.frozen_until:.2f}")
        if kind == "lease" and self.keys.leases:
            lease = chance.choice(list(self.keys.leases))
            self.log(f"lease {lease} ends")
            self.keys.end(lease)
        if kind == "lost answers":
            host.store.loses = host.leader_store.loses = chance.choice((0.0, 0.3))
        if kind == "late leases":
            self.keys.late = chance.choice((0.0, 5.0, 1000.0))
            self.log(f"leases end {self.keys.late:g} seconds late")
        is_stopped = host.on_its_way is not None and host.on_its_way.is_sent
        if (
            kind == "by hand"
            and host.switch
            and host.switch.phase
            and chance.random() < 0.5
            and not is_stopped
        ):
            self.log(f"{host.name}: abort by hand => {host.switch.send('abort')}")
            self.note_selection(host)

    def mend(self, host: Host) -> None:
        if host.store.is_cut:
            self.log(f"{host.name}: reaches the store again")
            host.store.is_cut = host.leader_store.is_cut = False
        if host.agent is None:
            self.log(f"{host.name}: the agent is started")
            host.start_agent()
        if host.switch is None:
            self.log(f"{host.name}: the switch is started")
            host.switch = SimulatedSwitch(self.has_pre)

    # ---- the course of a history ----

    def step(self) -> None:
        """Something goes on, at random."""
        chance = self.chance
        self.time += chance.choice((0.0, 0.02, 0.05, 0.1, 0.3))
        host = chance.choice(self.hosts)
        what = chance.random()
        is_awake = host.frozen_until <= self.time
        if what < 0.15:
            self.do_pass()
        elif what < 0.55:
            for _ in range(chance.choice((1, 1, 2, 3)) if is_awake else 0):
                host.go_on()
        elif what < 0.75:
            for _ in range(chance.choice((1, 2)) if is_awake else 0):
                host.lead()
        elif what < 0.90:
            self.switch_goes_on(host)
        elif what < 0.93:
            self.fault(host)
        elif what < 0.96:
            self.mend(self.chance.choice(self.hosts))
        elif what < 0.977:
            self.put_some_plan()
        elif what < 0.985:
            self.order(chance.choice(("promote", "promote", "abort")))
        elif what < 0.995:
            self.change_members(host)
        else:
            self.time += chance.choice((0.5, 1.5, 3.5))

    def do_pass(self) -> None:
        """All that is awake goes on, so that an attempt gets somewhere between the faults."""
        for host in self.hosts:
            for step in (
                (host.go_on, host.go_on, host.go_on, host.lead, host.lead)
                if host.frozen_until <= self.time
                else ()
            ):
                step()
            if self.chance.random() < 0.7:
                self.switch_goes_on(host)

    def switch_goes_on(self, host: Host) -> None:
        host.let_line_arrive()
        is_stopped = host.on_its_way is not None and host.on_its_way.is_sent
        if host.switch and host.switch.phase and not is_stopped:
            host.switch.endpoints_come_up()
            if self.chance.random() < 0.3:
                host.switch.scale_down()
            host.end_analysis(
                self.chance.choice((VerdictResult.FAILED, VerdictResult.ERROR))
                if self.chance.random() < self.failing
                else VerdictResult.SUCCESSFUL
            )
            self.note_selection(host)

    def rest(self) -> None:
        """The time without faults: everything goes on in turn."""
        self.log("the faults end")
        self.is_resting = True
        for host in self.hosts:
            host.store.loses = host.leader_store.loses = 0.0
            host.frozen_until = 0.0
            if host.on_its_way:
                host.on_its_way.until = self.time
            self.mend(host)
        if not self.has_plan:
            self.end_without_a_plan()
            self.put_plan(self.names[-1])
        for _ in range(LONGEST_REST):
            self.rest_pass()
            if "order" not in self.keys.keys and "a person's promote" in awaited_of(
                self.person.read()
            ):
                self.order("promote")
            if self.agrees():
                return
        self.trace.broken.append(
            f"rule 4: the machines do not agree after {LONGEST_REST * PASS:g} seconds: {self.states()}"
        )

    def rest_pass(self, ends_analyses: bool = True) -> None:
        """All goes on in turn."""
        self.time += PASS
        for host in self.hosts:
            for step in (host.go_on, host.go_on, host.go_on, host.lead):
                step()
            if host.switch and host.switch.phase:
                host.switch.endpoints_come_up()
                host.switch.scale_down()
                if ends_analyses:
                    host.end_analysis(VerdictResult.SUCCESSFUL)
                self.note_selection(host)

    def end_without_a_plan(self) -> None:
        """Rule 8: no analysis ends any more, so an attempt that is promoting ends by its time. One
        that is deploying is aborted by a person. The leader may be gone."""
        leader = next((host for host in self.hosts if host.candidate.leads), None)
        if leader and self.chance.random() < 0.5:
            self.log(f"{leader.name}: the agent, which leads, is started again")
            leader.kill_agent()
            leader.start_agent()
        for what in ("promoting", "abort"):
            begun, longest = self.time, ENDING[what] + (LATE_ENDING if self.keys.late else 0.0)
            while self.stage == "promoting" if what == "promoting" else self.runs:
                if self.time > begun + longest:
                    self.trace.broken.append(
                        f"rule 8: the attempt is {self.stage} {longest:g} seconds later ({what}), and what stands is no plan"
                    )
                    return
                if what == "abort":
                    self.order("abort")
                self.rest_pass(ends_analyses=False)

    @property
    def stage(self) -> str:
        """The stage of the record; empty if there is no record."""
        change = self.keys.keys.get("attempt")
        return str(json.loads(change.value)["stage"]) if change else ""

    @property
    def runs(self) -> bool:
        return self.stage in ("deploying", "promoting")

    def agrees(self) -> bool:
        view = View(self.person.read())
        record = view.record
        if record is None or record.is_running or record.id != view.changed("plan"):
            return record is not None and record.id == 0 and len(self.names) == 1
        reports = [view.machine(host) for host in view.members]
        return all(report is not None and report.state == FOLLOWS for report in reports) and all(
            self.has(host, record.fleet_stable.name) for host in self.hosts
        )

    @staticmethod
    def has(host: Host, name: str) -> bool:
        switch = host.switch
        return (
            switch is not None
            and not switch.runs
            and switch.name(switch.active) == switch.name(switch.stable) == name
        )

    def states(self) -> str:
        found = [
            f"{host.name} {host.switch.phase} active {host.switch.name(host.switch.active)} stable {host.switch.name(host.switch.stable)}"
            for host in self.hosts
            if host.switch
        ]
        return f"{'; '.join(found)}; record {self.record_at(self.keys.revision)}; awaited {awaited_of(self.person.read())}"

    def told(self) -> str:
        """The history, for people."""
        changes = [
            f"{change.at:8.2f}  {change.client or 'a lease ends'}: {change.name} @{change.revision} = {change.value}"
            for change in self.keys.changes
        ]
        return "\n".join(
            [
                f"seed {self.seed}, {self.count} machines, {self.settings}",
                *sorted([*self.lines, *changes], key=moment),
            ]
        )


def moment(line: str) -> float:
    """The moment of a line of a history."""
    return float(line[:8])


def history(seed: int, steps: int = 220) -> World:
    """A whole history."""
    world = World(seed)
    # some first passes without a fault, so that most histories begin with a fleet that runs
    for _ in range(world.chance.choice((0, 3, 12))):
        world.time += PASS
        for host in world.hosts:
            for step in (host.go_on, host.go_on, host.go_on, host.lead):
                step()
    for _ in range(world.chance.randrange(60, steps)):
        world.step()
    world.rest()
    return world
