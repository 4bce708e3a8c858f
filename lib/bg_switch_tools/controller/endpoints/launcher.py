"""Starts the endpoints of the revisions that are needed, and stops those that no request can reach
any more."""
import dataclasses
import itertools
import threading
import time
from collections.abc import Collection, Sequence

from bg_switch_tools.controller.endpoints.former_switches import FormerSwitches, needed_names
from bg_switch_tools.controller.endpoints.probes import Probes
from bg_switch_tools.controller.history.memory import Memory, Revisions
from bg_switch_tools.controller.log import Log
from bg_switch_tools.controller.plan.plan import Plan, PlannedRevision
from bg_switch_tools.controller.process_groups import Group, begin_end, is_running
from bg_switch_tools.controller.state.state_file import HeldBack
from bg_switch_tools.switch.reports import Report

# seconds until a command is run again; each time they double
FIRST_PAUSE, LONGEST_PAUSE = (1.0, 60.0)
MOST_AT_ONCE = 16  # commands that run at a time
GRACE = 5.0  # seconds between SIGTERM and SIGKILL for a command that took too long
LAST_GRACE = 0.5  # the same when the controller ends

Key = tuple[PlannedRevision, int]  # a revision, and one of its ports


def words_for(command: Sequence[str], revision: PlannedRevision, port: int) -> list[str]:
    """The words of a command for an endpoint. `{number}` is its place among the ports of the
    revision, from 1."""
    values = {
        "{port}": str(port),
        "{revision}": revision.name,
        "{number}": str(revision.ports.index(port) + 1),
    }
    words = list(command)
    for name, value in values.items():
        words = [word.replace(name, value) for word in words]
    return words


@dataclasses.dataclass
class Endpoint:
    """What is known of the commands of one endpoint. `done` is the kind of the latest one that has
    succeeded; `failed` says how the latest one has failed, and is empty if none has since."""

    kind: str = ""
    group: Group | None = None
    begun: float = 0.0
    done: str = ""
    failed: str = ""
    pause: float = FIRST_PAUSE
    next: float = 0.0

    def require(self, kind: str) -> None:
        """From now on a command of this kind is needed."""
        if self.kind != kind:
            self.kind, self.done, self.failed, self.pause, self.next = (
                kind,
                "",
                "",
                FIRST_PAUSE,
                0.0,
            )

    def is_stopped(self) -> bool:
        return self.group is None and (self.kind, self.done) == ("stop", "stop")


class Launcher:
    """The commands `start` and `stop` of a plan. Each is run again, after ever longer pauses, until
    it has succeeded."""

    def __init__(self, folder: str, log: Log, memory: Memory, probes: Probes) -> None:
        self.folder = folder
        self.log = log
        self.memory = memory
        self.probes = probes
        self.former = FormerSwitches(memory)
        self.endpoints: dict[Key, Endpoint] = {}
        # those of which it was told that another revision has their port
        self.held: set[Key] = set()
        left = [command for command in memory.state.commands if is_running(command)]
        self.leftovers = [begin_end(command, GRACE) for command in left]
        self.endings: list[threading.Thread] = []

    def start_and_stop(
        self, plan: Plan, report: Report | None, known: Revisions, coming: PlannedRevision | None
    ) -> None:
        """Starts and stops what this report asks for; `coming` is the revision that is deployed or
        opened next."""
        self.leftovers = [thread for thread in self.leftovers if thread.is_alive()]
        if self.leftovers:
            return  # a command of the controller before still runs
        self._collect(plan)
        needed = self._needed(report, known, coming)
        if plan.commands.start or plan.commands.stop:
            self._register(needed)
            self._stop(plan, report, needed)
        if plan.commands.start:
            self._start(plan, needed)
        self._tell_failures(needed)

    def _tell_failures(self, needed: Collection[PlannedRevision]) -> None:
        """Keeps in the state which revisions wait for a start that has failed: who waits for them
        reads it there."""
        failed = [
            (
                revision,
                next(
                    (
                        endpoint.failed
                        for port in revision.ports
                        if (endpoint := self.endpoints.get((revision, port)))
                        and endpoint.kind == "start"
                        and endpoint.failed
                    ),
                    "",
                ),
            )
            for revision in needed
        ]
        self.memory.set_failing(
            tuple(HeldBack(revision, reason) for revision, reason in failed if reason)
        )

    @staticmethod
    def _needed(
        report: Report | None, known: Revisions, coming: PlannedRevision | None
    ) -> list[PlannedRevision]:
        """The revisions whose endpoints are to run: also those whose requests are still open."""
        needed = [coming] if coming else []
        if report is not None:
            needed += [known[name] for name in needed_names(report) if name in known]
        return list(dict.fromkeys(needed))

    def is_ready(self, plan: Plan, revision: PlannedRevision) -> bool:
        """Whether the revision can be deployed: no port is still that of another revision, and each
        endpoint is up, or its `start` has succeeded."""
        keys = [(revision, port) for port in revision.ports]
        return not plan.commands.start or all(
            not self._is_held(key) and self._is_started(key) for key in keys
        )

    def _is_started(self, key: Key) -> bool:
        endpoint = self.endpoints.get(key)
        if endpoint is None:
            return self.probes.is_down(key[1]) is False
        if endpoint.group is not None:
            return False
        return self.probes.is_down(key[1]) is False or (endpoint.kind, endpoint.done) == (
            "start",
            "start",
        )

    def _register(self, needed: Collection[PlannedRevision]) -> None:
        """Remembers that these are to be stopped one day, before the first of them is started."""
        started = self.memory.state.started
        self.memory.set_started(
            (*started, *(revision for revision in needed if revision not in started))
        )

    def _start(self, plan: Plan, needed: Collection[PlannedRevision]) -> None:
        """Starts the endpoints that are down."""
        for key in [(revision, port) for revision in needed for port in revision.ports]:
            endpoint = self.endpoints.setdefault(key, Endpoint())
            if endpoint.group is not None:
                continue
            endpoint.require("start")
            is_down = self.probes.is_down(key[1])
            if is_down is False:
                endpoint.failed, endpoint.pause, endpoint.next = "", FIRST_PAUSE, 0.0
            elif is_down and time.monotonic() >= endpoint.next and not self._is_held(key):
                self._run(plan, key, endpoint)

    def _is_held(self, key: Key) -> bool:
        """Whether the port is still that of another revision, which was needed before, and was not
        stopped."""
        revision, port = key
        before = itertools.takewhile(lambda each: each != revision, self.memory.state.started)
        other = next((each for each in before if port in each.ports), None)
        if other is None:
            self.held.discard(key)
        elif key not in self.held:
            self.held.add(key)
            self.log.say(
                "command",
                f"start of {revision.name} at port {port} waits: the port is that of {other.name}, which is not "
                "stopped yet",
            )
        return other is not None

    def _stop(self, plan: Plan, report: Report | None, needed: Collection[PlannedRevision]) -> None:
        """Stops what the report shows as scaled down or removed. Without a report, nothing is known
        to be so. A switch that the plan named before may still have requests open."""
        needed_elsewhere = self.former.names(plan.control)
        if report is None or needed_elsewhere is None:
            return
        for revision in [
            each
            for each in self.memory.state.started
            if each not in needed and each.name not in needed_elsewhere
        ]:
            if not plan.commands.stop:
                self._forget(revision)
                continue
            keys = [(revision, port) for port in revision.ports]
            for key in keys:
                endpoint = self.endpoints.setdefault(key, Endpoint())
                if endpoint.group is None:
                    endpoint.require("stop")
                    if endpoint.done != "stop" and time.monotonic() >= endpoint.next:
                        self._run(plan, key, endpoint)
            if all(self.endpoints[key].is_stopped() for key in keys):
                self._forget(revision)
                self.log.say("command", f"{revision.name} is stopped")

    def _forget(self, revision: PlannedRevision) -> None:
        """The revision has no endpoint any more that is to be stopped."""
        self.memory.set_started(
            tuple(each for each in self.memory.state.started if each != revision)
        )
        for port in revision.ports:
            self.endpoints.pop((revision, port), None)

    def _run(self, plan: Plan, key: Key, endpoint: Endpoint) -> None:
        """Begins the command that is needed of an endpoint."""
        if sum(each.group is not None for each in self.endpoints.values()) >= MOST_AT_ONCE:
            return
        revision, port = key
        command = plan.commands.start if endpoint.kind == "start" else plan.commands.stop
        self._doubt(key, endpoint)
        try:
            endpoint.group = Group(
                words_for(command, revision, port),
                self.folder,
                {"BG_REVISION": revision.name, "BG_PORT": str(port)},
            )
        except (OSError, ValueError) as error:
            self._fail(key, endpoint, f"it can't be run: {error}")
            return
        endpoint.begun, endpoint.done = time.monotonic(), ""
        self._keep_processes()
        self.log.say("command", f"{self._title(key, endpoint)} begins")

    def _doubt(self, key: Key, endpoint: Endpoint) -> None:
        """An endpoint that is stopped may have answered a probe just before: a later one
        decides."""
        if endpoint.kind == "stop":
            self.probes.forget(key[1])

    @staticmethod
    def _title(key: Key, endpoint: Endpoint) -> str:
        return f"{endpoint.kind} of {key[0].name} at port {key[1]}"

    def _keep_processes(self) -> None:
        self.memory.set_commands(
            tuple(each.group.id for each in self.endpoints.values() if each.group)
        )

    def _collect(self, plan: Plan) -> None:
        """Takes in which commands have ended, and ends those that take too long."""
        self.endings = [thread for thread in self.endings if thread.is_alive()]
        for key, endpoint in self.endpoints.items():
            if endpoint.group is None:
                continue
            status = endpoint.group.status()
            if status is not None:
                endpoint.group.reap()
                self._take_status(key, endpoint, status)
            elif time.monotonic() >= endpoint.begun + plan.commands.timeout:
                self.endings.append(endpoint.group.stop(GRACE))
                self._fail(
                    key, endpoint, f"it has not ended after {plan.commands.timeout:g} seconds"
                )
        self._keep_processes()

    def _take_status(self, key: Key, endpoint: Endpoint, status: int) -> None:
        if status != 0:
            self._fail(key, endpoint, f"its exit status is {status}")
            return
        self._doubt(key, endpoint)
        self.log.say("command", f"{self._title(key, endpoint)} has succeeded")
        endpoint.group, endpoint.done, endpoint.failed = None, endpoint.kind, ""
        self._wait_longer(endpoint)

    def _fail(self, key: Key, endpoint: Endpoint, why: str) -> None:
        self._doubt(key, endpoint)
        endpoint.failed = f"{self._title(key, endpoint)} has failed, and is run again: {why}"
        self.log.say(
            "command",
            f"{self._title(key, endpoint)} has failed, and is run again in {endpoint.pause:g} seconds: {why}",
        )
        endpoint.group = None
        self._wait_longer(endpoint)

    @staticmethod
    def _wait_longer(endpoint: Endpoint) -> None:
        endpoint.next = time.monotonic() + endpoint.pause
        endpoint.pause = min(2 * endpoint.pause, LONGEST_PAUSE)

    def begin_end(self) -> None:
        """Begins to end the commands that run, when the controller ends. The next controller runs
        them again."""
        self.endings += [
            each.group.stop(LAST_GRACE) for each in self.endpoints.values() if each.group
        ]
        for endpoint in self.endpoints.values():
            endpoint.group = None

    def end(self) -> None:
        """Waits for that for a moment."""
        deadline = time.monotonic() + 2 * LAST_GRACE
        for thread in self.endings:
            thread.join(max(deadline - time.monotonic(), 0))
