"""What outlives a crash: the switch, the controller or both are killed while web-v2 is stable and
web-v3 is in its pause, and web-v1 is gone. Started again, clients are answered by web-v2 within two
seconds, and web-v3 is deployed again."""
import itertools
import json
import pathlib
import subprocess
import tempfile
import threading
import time
from collections.abc import Callable
from functools import partial
from typing import NamedTuple

from support import PROGRAM, TOP, checks, clients, processes
from support.checks import check, check_soon, comes
from support.endpoints import Endpoint, by_target
from support.pace import is_busy
from support.plans import Plan
from support.ports import free_ports
from support.switch import LISTENING, words_of_serve

# isort: split; `support` tells where the tools' package is
from bg_switch_tools.switch.connection import UnreachableError, ask
from bg_switch_tools.switch.reports import Report, read_report

ROLLOUT = """{"spec": {"replicas": 2, "strategy": {"blueGreen": {"activeService": "web",
"previewService": "web-preview",
"autoPromotionEnabled": false, "scaleDownDelaySeconds": 1}}}}"""
NAMES = ("web-v1", "web-v2", "web-v3")
WORKERS, COUNT = 2, 100000
SOON = 2.0  # seconds after `listening` within which clients are answered
WAIT = 20.0  # seconds for which anything else is awaited
KNOWN = 1.0  # seconds after which the controller has seen an order
WATCHED = 3.0  # seconds for which clients ask after a start
PROBE = 60  # seconds for a probe: an endpoint that is down refuses it, and others may be slow
NO_ENDPOINT = (503, b"")


class Answer(NamedTuple):
    """What a client of the active port was answered, and how many seconds after the switch
    listened."""

    after: float
    text: tuple[int, bytes] | None


class Process:
    """A program that is killed and started again."""

    def __init__(self, words: list[str], given: str, first: str = "") -> None:
        self.words = words
        self.given = given
        self.first = first
        self.lines: list[str] = []
        self.start()

    def start(self) -> None:
        """Starts it, and waits for its first line, if it prints one at once."""
        self.process = subprocess.Popen(
            self.words, stdin=subprocess.PIPE, stdout=subprocess.PIPE, text=True
        )
        processes.limit(self.process)
        assert self.process.stdin is not None and self.process.stdout is not None
        with self.process.stdin:
            self.process.stdin.write(self.given)
        if self.first:
            check("it listens", self.process.stdout.readline(), self.first)
        threading.Thread(target=self.read, args=(self.process,), daemon=True).start()

    def read(self, process: "subprocess.Popen[str]") -> None:
        assert process.stdout is not None
        for line in process.stdout:
            self.lines.append(line.rstrip("\n"))

    def says(self, text: str) -> bool:
        return any(text in line for line in list(self.lines))

    def kill(self) -> None:
        processes.stop(self.process)


class Machine:
    """A switch, a controller, endpoints of three revisions, and the plan that names them."""

    def __init__(self, folder: str) -> None:
        self.state = pathlib.Path(folder) / "plan.json.state"
        self.ports = {name: free_ports(2) for name in NAMES}
        self.endpoints = [
            Endpoint(by_target(name.encode()), port)
            for name, ports in self.ports.items()
            for port in ports
        ]
        self.active, preview, self.control = free_ports(3)
        self.plan = Plan(
            folder, self.control, health={"interval": 0.2, "timeout": PROBE, "failures": 2}
        )
        self.write_plan(2)
        words = [PROGRAM, *words_of_serve(self.active, self.control, preview, WORKERS, COUNT)]
        self.switch = Process(words, ROLLOUT, LISTENING)
        self.controller = Process([str(TOP / "bin" / "controller"), self.plan.path], "")

    def write_plan(self, count: int) -> None:
        """Puts a plan in place that names the first `count` revisions."""
        self.plan.write([(name, self.ports[name]) for name in NAMES[:count]])

    def report(self) -> Report | None:
        try:
            return read_report(ask(self.control, b"report", WAIT))
        except UnreachableError:
            return None

    def is_at(self, phase: str, stable: str, newest: str) -> bool:
        report = self.report()
        return report is not None and (report.phase, report.stable.name, report.newest.name) == (
            phase,
            stable,
            newest,
        )

    def bring_v3_to_its_pause(self) -> None:
        """web-v2 is stable, web-v3 is in its pause, and web-v1 is gone."""
        check(
            "web-v2 is in its pause",
            comes(lambda: self.is_at("paused", "web-v1", "web-v2"), WAIT),
            True,
        )
        check("a promotion", ask(self.control, b"promote", WAIT)[0].startswith("ok "), True)
        self.write_plan(3)
        check(
            "web-v3 is in its pause",
            comes(lambda: self.is_at("paused", "web-v2", "web-v3"), WAIT),
            True,
        )
        for endpoint in self.endpoints[:2]:
            endpoint.stop()
        check("the attempt is remembered", comes(partial(self.remembers, "attempt"), WAIT), True)

    def remembers(self, key: str) -> bool:
        """Whether the state file has web-v3 by this key: as the `attempt`, or as `stable`."""
        revision = json.loads(self.state.read_text(encoding="ascii"))[key]
        return revision is not None and revision["name"] == "web-v3"

    def cut_state(self) -> None:
        """Cuts the state file in the middle."""
        whole = self.state.read_bytes()
        self.state.write_bytes(whole[: len(whole) // 2])

    def answers(self) -> list[Answer]:
        """What a client that asks again and again is answered, from now on and for a while: until an
        endpoint has answered, at least."""
        begun, answers = time.monotonic(), list[Answer]()

        def ask_again() -> bool:
            text = clients.get(self.active)
            answers.append(Answer(time.monotonic() - begun, text))
            return text != NO_ENDPOINT and time.monotonic() > begun + WATCHED

        comes(ask_again, WATCHED + WAIT)
        return answers

    def check_answers(self, what: str) -> None:
        """web-v2 answers soon, and nothing else does."""
        answers = self.answers()
        if is_busy():
            # on a busy machine, requests may enter between the lines `open` and `available`
            answers = list(itertools.dropwhile(lambda each: each.text == NO_ENDPOINT, answers))
        first = answers[0] if answers else Answer(WATCHED, None)
        check(f"{what}: the first answer", first.text, (200, b"web-v2"))
        check_soon(f"{what}: the first answer", first.after, SOON)
        check(
            f"{what}: other answers",
            [answer for answer in answers if answer.text != (200, b"web-v2")],
            [],
        )
        check(
            f"{what}: web-v3 is in its pause again",
            comes(lambda: self.is_at("paused", "web-v2", "web-v3"), WAIT),
            True,
        )

    def end(self) -> None:
        self.switch.kill()
        self.controller.kill()
        for endpoint in self.endpoints[2:]:
            endpoint.stop()


def switch_is_killed(machine: Machine) -> None:
    machine.switch.kill()
    machine.switch.start()
    machine.check_answers("the switch is killed")
    check(
        "it is told",
        (
            machine.controller.says("no book is open: it is opened with web-v2, which was stable"),
            machine.controller.says("the attempt of web-v3, which ran, is begun again"),
        ),
        (True, True),
    )


def switch_is_killed_after_a_promote(machine: Machine) -> None:
    """The controller has seen the promote soon, and it holds."""
    check("a promotion", ask(machine.control, b"promote", WAIT)[0].startswith("ok "), True)
    begun = time.monotonic()
    check("it is remembered", comes(partial(machine.remembers, "stable"), WAIT), True)
    check_soon("it is remembered", time.monotonic() - begun, KNOWN)
    machine.switch.kill()
    machine.switch.start()
    check(
        "web-v3 is stable", comes(lambda: machine.is_at("steady", "web-v3", "web-v3"), WAIT), True
    )
    check(
        "the first answers", [clients.get(machine.active) for _ in range(5)], [(200, b"web-v3")] * 5
    )
    check(
        "it is told",
        machine.controller.says("no book is open: it is opened with web-v3, which was stable"),
        True,
    )


def controller_is_killed(machine: Machine) -> None:
    machine.controller.kill()
    machine.controller.lines.clear()
    machine.controller.start()
    machine.check_answers("the controller is killed")
    check(
        "it goes on",
        comes(lambda: machine.controller.says("continues from the state file"), WAIT),
        True,
    )
    check("nothing is deployed", machine.controller.says("deploy "), False)


def both_are_killed(machine: Machine) -> None:
    machine.switch.kill()
    machine.controller.kill()
    machine.controller.start()
    machine.switch.start()
    machine.check_answers("both are killed")


def state_is_cut(machine: Machine) -> None:
    machine.switch.kill()
    machine.cut_state()
    machine.switch.start()
    machine.check_answers("the switch is killed, and the state file cut")
    machine.switch.kill()
    machine.controller.kill()
    machine.cut_state()
    machine.controller.lines.clear()
    machine.controller.start()
    machine.switch.start()
    machine.check_answers("both are killed, and the state file cut")
    check("the cut is told", machine.controller.says("is cut, so its copy is used"), True)


def run_drill(kill: Callable[[Machine], None]) -> Callable[[], None]:
    """The drill with what is killed, in a scene of its own."""

    def part() -> None:
        with tempfile.TemporaryDirectory() as folder:
            machine = Machine(folder)
            try:
                machine.bring_v3_to_its_pause()
                kill(machine)
            finally:
                machine.end()

    part.__name__ = kill.__name__
    return part


if __name__ == "__main__":
    DRILLS = (
        switch_is_killed,
        switch_is_killed_after_a_promote,
        controller_is_killed,
        both_are_killed,
        state_is_cut,
    )
    checks.run("live_crash", list(map(run_drill, DRILLS)), 4)
