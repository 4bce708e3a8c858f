#!/usr/bin/env python3
"""A drill of rollouts on one machine, by hand: good and bad revisions, clients that leave, and
processes that are killed at random.

usage: scripts/rollout_drill.py [--rollouts N] [--seed N]        twenty rollouts without words

A plan deploys one revision after the other. A third of them answers half of its requests with 500.
Before the end of each rollout the switch, the controller or both are killed at a random moment and
started again; while the switch is down, the plan may name other ports for the revision that is
stable, of endpoints that were never tested. A tenth of the clients leave before their answer. The
switch ends a request whose client has closed its end (--abort-on-close).

At the end it prints the figures. Exit status: 0 if each good revision became stable, no bad one
did, the switch was opened with ports only that had been live before, and no client was answered by
an endpoint that was never tested; else 1.
"""
import argparse
import collections
import pathlib
import random
import socket
import sys
import tempfile
import threading
import time
from collections.abc import Sequence

from support import PROGRAM, TOP
from support.checks import comes
from support.clients import connect, received
from support.endpoints import Endpoint, Request
from support.launched import Program
from support.messages import request, response
from support.plans import Plan
from support.reserved import reserved_block
from support.switch import LISTENING, words_of_serve
from support.traffic import ACCESS_LOG

# isort: split; `support` tells where the tools' package is
from bg_switch_tools.controller.history.attempts import ABORTED, STABLE
from bg_switch_tools.controller.history.history_file import HistoryFile
from bg_switch_tools.switch.connection import UnreachableError, ask
from bg_switch_tools.switch.reports import Report, read_report

ROLLOUT = """{"spec": {"replicas": 2, "revisionHistoryLimit": 3, "strategy": {"blueGreen": {"activeService": "web",
"previewService": "web-preview", "postPromotionAnalysis": {}, "scaleDownDelaySeconds": 2}}}}"""
FIRST, UNTESTED = "web-0", "untested"
PORTS = range(15_000, 20_000)
CLIENTS, PAUSE = 60, 0.02  # clients that ask at a time, and seconds between two requests of each
ANSWERS_AFTER = 2.0  # seconds of an endpoint
LEAVES_AFTER = 0.5  # seconds of a client that does not wait for its answer
LEAVING = 0.1  # of the clients
BAD = 1 / 3  # of the revisions
OTHER_PORTS = 1 / 3  # of the kills of the switch
ANALYSIS = (
    "--seconds",
    "4",
    "--every",
    "1s",
    "--errors-at-most",
    "5%",
    "--requests-at-least",
    "30",
)
LONGEST_BEFORE_KILL = 7.0  # seconds after the deploy
LONGEST = 90.0  # seconds for which an end is awaited
LONGEST_DRILL = 3600.0  # seconds of a process


class Clients:
    """Clients of the active port. `seen` counts the bodies of the answers with status 200."""

    def __init__(self, port: int, seed: int) -> None:
        self.port = port
        self.seen: collections.Counter[str] = collections.Counter()
        self.left = 0
        self.lock = threading.Lock()
        self.ended = threading.Event()
        for number in range(CLIENTS):
            client = random.Random(seed * CLIENTS + number)
            threading.Thread(target=self._ask, args=(client,), daemon=True).start()

    def _ask(self, client: random.Random) -> None:
        while not self.ended.wait(PAUSE):
            try:
                self._ask_once(client.random() < LEAVING)
            except OSError:
                time.sleep(0.1)

    def _ask_once(self, leaves: bool) -> None:
        with connect(self.port) as connection:
            connection.sendall(request(b"/"))
            if leaves:
                time.sleep(LEAVES_AFTER)
            else:
                head, _, body = received(connection).partition(b"\r\n\r\n")
        with self.lock:
            self.left += leaves
            if not leaves and head.startswith(b"HTTP/1.1 200 "):
                self.seen[body.decode()] += 1


def answering(name: str, errors: float) -> Endpoint:
    """An endpoint that answers by its name, and this part of its requests with 500."""
    chance = random.Random(name)

    def answer(_: Request, connection: socket.socket) -> None:
        time.sleep(ANSWERS_AFTER)
        body = response(name.encode())
        is_error = chance.random() < errors
        connection.sendall(body.replace(b" 200 OK", b" 500 Broken") if is_error else body)

    return Endpoint(answer, reserved_block(PORTS, 1))


class Machine:
    """A switch, its controller, and the endpoints of all revisions."""

    def __init__(self, folder: str) -> None:
        self.log = pathlib.Path(folder, "access.log")
        self.log.touch()
        self.active, preview, self.control = (reserved_block(PORTS, 1) for _ in range(3))
        analysis = [str(TOP / "bin" / "analysis"), "--log", str(self.log), *ANALYSIS]
        self.plan = Plan(
            folder,
            self.control,
            health={"interval": 0.5, "timeout": 5, "failures": 2},
            analyses={"post": analysis, "seconds": 60},
        )
        self.ports: dict[str, list[int]] = {}
        self.untested = [answering(UNTESTED, 0.0).port for _ in range(2)]
        self.name_last(FIRST, 0.0)
        serve = words_of_serve(
            self.active, self.control, preview, 8, None, ("--concurrency", "64", "--abort-on-close")
        )
        with_log = ["env", f"{ACCESS_LOG}={self.log}", PROGRAM, *serve]
        self.switch = Program(with_log, ROLLOUT, LISTENING, folder, LONGEST_DRILL)
        controller = [str(TOP / "bin" / "controller"), self.plan.path]
        self.controller = Program(controller, "", "", folder, LONGEST_DRILL)

    def name_last(self, name: str, errors: float) -> None:
        """Starts a revision's endpoints, and puts a plan in place whose last revision it is."""
        self.ports[name] = [answering(name, errors).port for _ in range(2)]
        self.write_plan()

    def write_plan(self, stable: str = "") -> None:
        """Writes the plan. A revision that is named here gets the ports of endpoints that nobody
        has tested."""
        told = {**self.ports, **({stable: self.untested} if stable else {})}
        self.plan.write(list(told.items())[-4:])

    def report(self) -> Report | None:
        try:
            return read_report(ask(self.control, b"report", 5.0))
        except UnreachableError:
            return None

    def is_stable(self, name: str) -> bool:
        report = self.report()
        return report is not None and not report.is_running and report.stable.name == name

    def opened(self) -> list[list[str]]:
        """The name and the ports of each opening of the book."""
        lines = [line.partition(" open ")[2] for line in self.controller.lines if " open " in line]
        return [line.partition(" => ")[0].split() for line in lines if line.endswith("=> ok 0")]

    def kill(self, what: Sequence[str], stable: str, chance: random.Random) -> None:
        """Kills programs, and starts them again. While the switch is down, the plan may name other
        ports for the stable revision."""
        killed = [{"switch": self.switch, "controller": self.controller}[name] for name in what]
        for program in killed:
            program.kill()
        is_changed = "switch" in what and chance.random() < OTHER_PORTS
        if is_changed:
            self.write_plan(stable)
        time.sleep(chance.random())
        for program in killed:
            program.start()
        if is_changed:
            comes(lambda: self.report() is not None, LONGEST)
            time.sleep(1.0)
            self.write_plan()

    def end(self) -> None:
        self.controller.kill()
        self.switch.kill()


class Drill:
    """Rollouts one after the other. `faults` are what must not happen."""

    def __init__(self, machine: Machine, seed: int) -> None:
        self.machine = machine
        self.chance = random.Random(seed)
        self.history = HistoryFile(machine.plan.path)
        self.stable = FIRST
        self.bad: set[str] = set()
        self.killed: collections.Counter[str] = collections.Counter()
        self.faults: list[str] = []

    def play(self, count: int) -> None:
        if not comes(lambda: self.machine.is_stable(FIRST), LONGEST):
            self.faults.append(f"{FIRST} did not become stable")
        for number in range(1, count + 1):
            self.rollout(f"web-{number}")

    def rollout(self, name: str) -> None:
        is_bad = self.chance.random() < BAD
        self.bad |= {name} if is_bad else set()
        self.machine.name_last(name, 0.5 if is_bad else 0.0)
        time.sleep(self.chance.random() * LONGEST_BEFORE_KILL)
        what = self.chance.choice((["switch"], ["controller"], ["switch", "controller"]))
        self.killed[" and ".join(what)] += 1
        report = self.machine.report()
        self.machine.kill(what, report.stable.name if report else self.stable, self.chance)
        self.stable = self.stable if is_bad else name
        has_come = comes(lambda: self.has_ended(name), LONGEST)
        print(
            f"{name}: {'bad' if is_bad else 'good'}, {' and '.join(what)} killed: {self.ends(name)}"
        )
        if not has_come:
            self.faults.append(f"{name} has not ended: {self.machine.report()}")

    def ends(self, name: str) -> list[str]:
        """How the attempts of a revision ended, by the history."""
        attempts, _ = self.history.read()
        return [each.how for each in attempts.all if each.name == name]

    def has_ended(self, name: str) -> bool:
        """Whether an attempt of this revision has ended by itself, and the expected one is live."""
        is_over = STABLE in self.ends(name) or ABORTED in self.ends(name)
        return is_over and self.machine.is_stable(self.stable)

    def judge(self, clients: Clients) -> None:
        """Takes in what the history, the openings and the clients tell."""
        names = list(self.machine.ports)
        for name in names[1:]:
            wrong = STABLE if name in self.bad else ABORTED
            if wrong in self.ends(name):
                self.faults.append(f"{name}, {'bad' if name in self.bad else 'good'}, is {wrong}")
        for name, *ports in self.machine.opened():
            if name in self.bad or ports != list(map(str, self.machine.ports[name])):
                self.faults.append(f"the switch was opened with {name} {' '.join(ports)}")
        if clients.seen[UNTESTED]:
            self.faults.append(f"answers of untested endpoints: {clients.seen[UNTESTED]}")


def main() -> int:
    usage, _, description = (__doc__ or "").split("usage: ")[1].partition("\n\n")
    parser = argparse.ArgumentParser(
        usage=usage, description=description, formatter_class=argparse.RawDescriptionHelpFormatter
    )
    parser.add_argument("--rollouts", type=int, default=20)
    parser.add_argument("--seed", type=int, default=random.randrange(10**6))
    given = parser.parse_args()
    print(f"seed {given.seed}", flush=True)
    with tempfile.TemporaryDirectory() as folder:
        machine = Machine(folder)
        clients = Clients(machine.active, given.seed)
        drill = Drill(machine, given.seed)
        try:
            drill.play(given.rollouts)
        finally:
            clients.ended.set()
            machine.end()
        drill.judge(clients)
    told = ", ".join(f"{count} of the {what}" for what, count in sorted(drill.killed.items()))
    print(f"rollouts: {given.rollouts}, {len(drill.bad)} of bad revisions; kills: {told}")
    print(f"openings of the switch: {len(machine.opened())}")
    print(f"answers: {clients.seen.total()}; clients that left before theirs: {clients.left}")
    for fault in drill.faults:
        print(f"FAULT: {fault}")
    return 1 if drill.faults else 0


if __name__ == "__main__":
    sys.exit(main())
