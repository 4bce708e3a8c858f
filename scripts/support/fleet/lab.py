"""A fleet for drills: hosts, each with a member of etcd, a switch, nginx before it, endpoints and
an agent; HAProxy and clients before them; a looker at each switch; and a recorder of etcd's keys.
What each has seen is in the folder of the run."""
import contextlib
import json
import pathlib
import shutil
import signal
import sys
import time
from collections.abc import Callable, Iterator, Sequence
from types import FrameType

from support import PROGRAM, TOP
from support.checks import comes
from support.fleet.analysis import bad_file, hold_file
from support.fleet.client import ask
from support.fleet.etcd_client import EtcdClient, EtcdClientError, Recorder, write_rows
from support.fleet.hosts import Network, free_block, network_of
from support.fleet.machine_clock import step_wall_clock
from support.fleet.programs import Programs
from support.fleet.recording import (
    OUTAGES,
    REQUESTS,
    Look,
    Outage,
    Recording,
    look_file,
    read_recording,
)
from support.fleet.seen import Seen
from support.fleet.servers import etcd_words, haproxy_words, nginx_words
from support.fleet.stepped_clock import clock_file
from support.moments import moment
from support.processes import Run, run_to_end
from support.switch import words_of_serve

NEEDED = ("etcd", "haproxy", "nginx")
FLEET = "web"
FIRST_PORT = 9000  # of the endpoints, if each host has a loopback of its own
WORKERS, CLIENTS = 4, 4
LONGEST = 30.0  # seconds for which anything is awaited
TAIL = 4096  # bytes at the end of a file of looks: more than two of them
ROLLOUT = {
    "spec": {
        "replicas": 2,
        "revisionHistoryLimit": 3,
        "strategy": {
            "blueGreen": {
                "activeService": "web",
                "previewService": "web-preview",
                "autoPromotionEnabled": False,
                "prePromotionAnalysis": {},
                "postPromotionAnalysis": {},
                "scaleDownDelaySeconds": 10,
            }
        },
    }
}
ROLLOUT_FILE = "rollout.json"
JOURNALED = ("a", "b")  # the hosts whose switches have a journal
Words = Callable[["Lab", str], Sequence[str]]


def missing_programs() -> list[str]:
    """The programs that a lab needs and that are not installed."""
    return [name for name in NEEDED if not shutil.which(name)]


def name_of(number: int) -> str:
    return f"web-{number}"


def module_words(module: str, *words: str) -> list[str]:
    return [sys.executable, "-B", "-m", f"support.fleet.{module}", *words]


def switch_words(lab: "Lab", host: str) -> Sequence[str]:
    """The built switch; that of some hosts has a journal."""
    places, journal = lab.network.addresses(host), lab.folder / f"journal-{host}"
    return [
        PROGRAM,
        *words_of_serve(
            places.active.port, places.control.port, places.preview.port, WORKERS, None
        ),
        *(["--journal", str(journal)] if host in JOURNALED else []),
    ]


def stepped_agent_words(lab: "Lab", host: str) -> Sequence[str]:
    """The same agent, whose wall clock can be stepped."""
    clock = clock_file(lab.folder, host)
    return module_words("stepped_agent", str(clock), str(lab.fleet_file(host)))


def agent_words(lab: "Lab", host: str) -> Sequence[str]:
    """The agent of bin/fleet."""
    return [str(TOP / "bin" / "fleet"), str(lab.fleet_file(host)), "agent"]


class Lab:
    """A running fleet. It is used in a `with` block, which ends all that it has started, also after
    an exception or SIGTERM."""

    def __init__(
        self,
        folder: pathlib.Path,
        hosts: Sequence[str] = ("a", "b", "c"),
        *,
        revisions: int = 40,
        network: Network | None = None,
        switch: Words = switch_words,
        agent: Words | None = agent_words,
        is_quiet: bool = False,
    ) -> None:
        """`revisions` is how many revisions have endpoints. Other words than those of the switch
        and of the agent can be given; without an agent none is started. A quiet lab prints
        nothing."""
        self.folder = folder
        self.hosts = hosts
        self.revisions = revisions
        self.network = network or network_of(hosts)
        self.switch_words, self.agent_words = switch, agent
        self.is_quiet = is_quiet
        self.programs = Programs(folder)
        self.first_port = free_block(2 * revisions) if self.network.shares_loopback else FIRST_PORT
        self.broken: dict[tuple[str, str], float] = {}  # by fault and host: since when
        self.outages: list[Outage] = []
        self.machine_clock_off = 0  # seconds by which this drill has stepped the machine's clock
        self.recorder: Recorder | None = None
        # of programs, up to the recording: what has ended by itself, or has told of an exception
        self.failures: list[str] = []

    def __enter__(self) -> "Lab":
        self.previous = signal.signal(signal.SIGTERM, self._interrupt)
        try:
            self._up()
        except BaseException:
            self._down()
            raise
        return self

    def __exit__(self, *_: object) -> None:
        try:
            if self.machine_clock_off:
                self.set_machine_clock_right()
        finally:
            self._down()

    def _interrupt(self, number: int, _: FrameType | None) -> None:
        raise SystemExit(128 + number)

    def say(self, text: str) -> None:
        """Prints what the drill does, and keeps it."""
        if not self.is_quiet:
            print(f"{time.strftime('%H:%M:%S')} {text}", flush=True)
        with open(self.folder / "drill.log", "a", encoding="utf-8") as file:
            file.write(f"{moment():.3f} {text}\n")

    def ports_of(self, number: int) -> list[int]:
        """The ports of the endpoints of web-NUMBER, which are the same on each host: NUMBER is from
        1 to `revisions`."""
        first = self.first_port + 2 * (number - 1)
        return [first, first + 1]

    def on_host(self, host: str, *words: str) -> Run:
        """Runs a program on a host to its end; an empty host is that of the load balancer."""
        return run_to_end([*self.network.words(host), *words])

    def send(self, host: str, line: str) -> Run:
        """Sends a line to the switch of a host, as a person does who is on that machine."""
        return self.on_host(
            host,
            str(TOP / "bin" / "operator"),
            str(self.network.addresses(host).control.port),
            line,
        )

    # ---- what is started ----

    def _up(self) -> None:
        self.folder.mkdir(parents=True, exist_ok=True)
        self.network.up()
        self.etcd = EtcdClient(self.network, FLEET)
        endpoints = [str(each) for each in self.network.etcd_of("")]
        self.person_file.write_text(
            json.dumps({"fleet": FLEET, "etcd": endpoints}), encoding="ascii"
        )
        for host in self.hosts:
            self.fleet_file(host).parent.mkdir(exist_ok=True)
            self.start_etcd(host)
            self._write_fleet_file(host)
            self._start_nginx(host)
            self.start_switch(host)
        for host in self.hosts[:1] if self.network.shares_loopback else self.hosts:
            self._start_endpoints(host)
        self._await("etcd has a leader", self._has_etcd)
        self.recorder = Recorder(self.network, FLEET, self.folder)
        for host in self.hosts:
            self._start(
                f"look-{host}",
                host,
                module_words("look", str(self.network.addresses(host).control.port)),
                look_file(host),
            )
            if self.agent_words:
                self.start_agent(host)
        self._start_haproxy()

    def _await(self, what: str, holds: Callable[[], object]) -> None:
        if not comes(holds, LONGEST):
            raise TimeoutError(f"in {LONGEST:g} seconds it did not come that {what}")

    def _has_etcd(self) -> bool:
        with contextlib.suppress(EtcdClientError):
            return self.etcd.revision() > 0
        return False

    def _start(
        self,
        name: str,
        host: str,
        words: Sequence[str],
        output: str = "",
        given: bytes = b"",
        is_timed: bool = False,
    ) -> None:
        self.programs.start(
            name, [*self.network.words(host), *words], output=output, given=given, is_timed=is_timed
        )

    def start_etcd(self, host: str) -> None:
        self._start(f"etcd-{host}", host, etcd_words(self.folder, self.network, host))

    def start_switch(self, host: str) -> None:
        self._start(
            f"switch-{host}",
            host,
            self.switch_words(self, host),
            given=json.dumps(ROLLOUT).encode(),
        )

    def start_agent(self, host: str) -> None:
        if self.agent_words:
            self._start(f"agent-{host}", host, self.agent_words(self, host), is_timed=True)

    def start_clients(self) -> None:
        """From now on clients ask the load balancer."""
        at = self.network.balancer()
        self._start(
            "client", "", module_words("client", at.host, str(at.port), str(CLIENTS)), REQUESTS
        )

    def _start_endpoints(self, host: str) -> None:
        words = [
            f"{name_of(number)}={port}"
            for number in range(1, self.revisions + 1)
            for port in self.ports_of(number)
        ]
        self._start(f"endpoints-{host}", host, module_words("endpoints", *words))

    def _start_nginx(self, host: str) -> None:
        self._start(f"nginx-{host}", host, nginx_words(self.folder, self.network, host))

    def _start_haproxy(self) -> None:
        self._start("haproxy", "", haproxy_words(self.folder, self.network))

    # ---- files ----

    def fleet_file(self, host: str) -> pathlib.Path:
        return self.folder / f"host-{host}" / "fleet.json"

    @property
    def person_file(self) -> pathlib.Path:
        """The fleet file of a person at the load balancer."""
        return self.folder / "fleet.json"

    def order(self, *words: str) -> Run:
        """Runs bin/fleet at the load balancer, as a person does: `order("status")`."""
        return self.on_host("", str(TOP / "bin" / "fleet"), str(self.person_file), *words)

    def _write_fleet_file(self, host: str) -> None:
        places = self.network.addresses(host)
        analyses = {
            step: module_words("analysis", str(self.folder), host, step, str(port))
            for step, port in (("pre", places.preview.port), ("post", places.active.port))
        }
        told = {
            "fleet": FLEET,
            "host": host,
            "control": places.control.port,
            "active": places.active.port,
            "preview": places.preview.port,
            "rollout": ROLLOUT_FILE,
            "analyses": analyses,
            "etcd": [str(each) for each in self.network.etcd_of(host)],
        }
        (self.fleet_file(host).parent / ROLLOUT_FILE).write_text(
            json.dumps(ROLLOUT), encoding="ascii"
        )
        self.fleet_file(host).write_text(json.dumps(told), encoding="ascii")

    def plan_text(self, *numbers: int, **fleet: object) -> str:
        """The plan with these revisions, and this for its key `fleet`."""
        return json.dumps(
            {
                "health": {"path": "/", "interval": 0.5, "timeout": 2, "failures": 2},
                "analyses": {"pre": "pre", "post": "post", "seconds": 20},
                "progress": {"seconds": 25, "abort": True},
                "fleet": fleet,
                "revisions": [
                    {"name": name_of(number), "ports": self.ports_of(number)} for number in numbers
                ],
            }
        )

    def fail_analysis(self, host: str, step: str, number: int) -> None:
        """Lets an analysis of a revision fail on one host: `step` is pre or post."""
        (self.folder / bad_file(host, step, name_of(number))).touch()

    def pass_analysis(self, host: str, step: str, number: int) -> None:
        """Lets the analysis no longer fail."""
        (self.folder / bad_file(host, step, name_of(number))).unlink(missing_ok=True)

    @contextlib.contextmanager
    def held_analysis(self, host: str, step: str, number: int) -> Iterator[None]:
        """An analysis of a revision runs on on one host until the block ends, and asks nothing
        meanwhile."""
        path = self.folder / hold_file(host, step, name_of(number))
        path.touch()
        try:
            yield
        finally:
            path.unlink()

    # ---- faults ----

    def _begin_outage(self, what: str, host: str, text: str) -> None:
        self.broken.setdefault((what, host), moment())
        self.say(f"{text} {host}")

    def _end_outage(self, what: str, host: str, text: str) -> None:
        self.outages.append(Outage(what, host, self.broken.pop((what, host)), moment()))
        self.say(f"{text} {host}")

    def kill(self, what: str, host: str) -> None:
        """Kills the switch, the agent or the member of etcd of a host."""
        self._begin_outage(what, host, f"KILL {what}")
        self.programs.kill(f"{what}-{host}")

    def restart(self, what: str, host: str) -> None:
        """Starts again what was killed."""
        {"switch": self.start_switch, "agent": self.start_agent, "etcd": self.start_etcd}[what](
            host
        )
        self._end_outage(what, host, f"{what} is started again:")

    def stop(self, what: str, host: str) -> None:
        """Stops it as by SIGSTOP."""
        self._begin_outage(what, host, f"STOP {what}")
        self.programs.stop(f"{what}-{host}")

    def wake(self, what: str, host: str) -> None:
        self.programs.wake(f"{what}-{host}")
        self._end_outage(what, host, f"{what} continues:")

    def delay_switch(self, host: str) -> None:
        """Stops a switch, which answers late then. That is no outage: no request of it fails, if it
        is let go on soon."""
        self.say(f"DELAY switch {host}")
        self.programs.stop(f"switch-{host}")

    def let_switch_go_on(self, host: str) -> None:
        self.programs.wake(f"switch-{host}")
        self.say(f"switch goes on: {host}")

    def cut(self, host: str) -> None:
        """Cuts a host off from etcd, in silence."""
        self._begin_outage("link", host, "CUT the link to etcd of")
        self.network.cut(host)

    def mend(self, host: str) -> None:
        self.network.mend(host)
        self._end_outage("link", host, "the link to etcd is mended:")

    def mend_all(self) -> None:
        """Mends all that is broken."""
        for what, host in list(self.broken):
            if what == "link":
                self.mend(host)
            elif f"{what}-{host}" in self.programs.stopped:
                self.wake(what, host)
            else:
                self.restart(what, host)

    def compact(self) -> bool:
        """Lets etcd drop its old values, as far as the recorder has them. False if etcd gives no
        answer, or has dropped them before."""
        revision = self.recorder.followed if self.recorder else 0
        try:
            EtcdClient(self.network, FLEET).compact(revision)
        except EtcdClientError:
            return False
        self.say(f"COMPACT etcd up to revision {revision}")
        return True

    def step_clock(self, host: str, seconds: float) -> None:
        """Steps the wall clock of the agent of a host: it is `seconds` seconds off from now on."""
        clock_file(self.folder, host).write_text(f"{seconds:.3f}", encoding="ascii")
        self.say(f"STEP the wall clock of the agent of {host} by {seconds:.0f} seconds")

    def set_clock_right(self, host: str) -> None:
        clock_file(self.folder, host).unlink()
        self.say(f"the wall clock is right again: {host}")

    def step_machine_clock(self, seconds: int) -> None:
        """Steps the wall clock of this machine, which all programs have."""
        step_wall_clock(seconds)
        self.machine_clock_off += seconds
        self.say(f"STEP the wall clock of the machine by {seconds} seconds")

    def set_machine_clock_right(self) -> None:
        """Takes back all steps of the machine's wall clock."""
        step_wall_clock(-self.machine_clock_off)
        self.machine_clock_off = 0
        self.say("the wall clock of the machine is right again")

    # ---- what is seen ----

    def looks(self) -> dict[str, Look]:
        """The latest look at each switch."""
        found = {}
        for host in self.hosts:
            path = self.folder / look_file(host)
            with open(path, "rb") as file:
                file.seek(max(0, path.stat().st_size - TAIL))
                lines = file.read().splitlines(keepends=True)
            whole = [line for line in lines[-2:] if line.endswith(b"\n")]
            found[host] = Look(**json.loads(whole[-1])) if whole else Look(0, 0)
        return found

    def is_served(self) -> bool:
        """Whether the load balancer has found each host: it asks them in turn."""
        at = self.network.balancer()
        with self.network.inside():
            answers = [ask(at.host, at.port) for _ in self.hosts]
        return {answered.host for answered in answers} == set(self.hosts)

    def seen(self) -> Seen:
        """What the keys of the fleet say; nothing if etcd gives no answer."""
        with contextlib.suppress(EtcdClientError):
            return Seen(self.etcd.entries())
        return Seen({})

    def keys(self) -> dict[str, str]:
        """The keys of the fleet; empty if etcd gives no answer."""
        with contextlib.suppress(EtcdClientError):
            return self.etcd.keys()
        return {}

    def until(self, holds: Callable[[dict[str, str]], object], longest: float = LONGEST) -> bool:
        """Whether something comes to hold of the fleet's keys."""
        return comes(lambda: bool(keys := self.keys()) and holds(keys), longest)

    def record(self) -> Recording:
        """Ends the recording while the fleet still runs, and reads it. All that is broken has to be
        mended before."""
        self.failures = self.programs.failures()
        self.programs.kill("client")
        for host in self.hosts:
            self.programs.kill(f"look-{host}")
        if self.recorder:
            self.recorder.end()
            self.recorder = None
        write_rows(self.folder / OUTAGES, self.outages)
        return read_recording(self.folder, self.hosts)

    def _down(self) -> None:
        signal.signal(signal.SIGTERM, self.previous)
        if self.recorder:
            self.recorder.ending.set()
        self.programs.end_all(
            [name for name in list(self.programs.running) if name.startswith("agent-")]
        )
        self.network.down()
