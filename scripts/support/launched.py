"""Endpoints that a plan starts and stops, by commands that write down each call, and clients that
never pause."""
import os
import pathlib
import random
import subprocess
import sys
import threading
import time
from collections.abc import Callable
from typing import NamedTuple

from support import PROGRAM, TOP, clients, processes
from support.checks import check, check_soon, comes
from support.pace import widened
from support.plans import Plan
from support.ports import free_ports
from support.switch import LISTENING, words_of_serve

# isort: split; `support` tells where the tools' package is
from bg_switch_tools.switch.connection import UnreachableError, ask
from bg_switch_tools.switch.reports import Report, read_report

WAIT = 40.0  # seconds for which anything is awaited
CLIENTS = 3
SETTLING = 3.0  # seconds in which a switch serves again that listens; requests may fail until then
ROLLOUT = """{"spec": {"replicas": 2, "strategy": {"blueGreen": {"activeService": "web",
"previewService": "web-preview", "scaleDownDelaySeconds": 1}}}}"""

# What the plan's commands run: `start`, `stop` and, in a process of its own, `run`, each with a
# name and a port. `stop` asks the switch whether the revision can be stopped.
ENDPOINT = """
import http.server, os, signal, socket, subprocess, sys, time
kind, name, port, control = sys.argv[1:]
path = f"{name}-{port}.pid"
def alive():
    try:
        with open(path) as file:
            pid = int(file.read())
        with open(f"/proc/{pid}/stat") as stat:
            return pid if stat.read().rpartition(")")[2].split()[0] not in "ZX" else 0
    except (OSError, ValueError):
        return 0
def note(text):
    with open("calls", "a") as calls:
        calls.write(text + "\\n")
def judge():
    try:
        with socket.create_connection(("127.0.0.1", int(control)), 2) as switch:
            switch.sendall(b"report\\n")
            lines = switch.makefile().readline, []
            while (line := lines[0]()) and line != "end\\n" and not line.startswith("refused"):
                lines[1].append(line.split())
    except OSError:
        return
    for words in lines[1]:
        if words[0] == "revision" and words[2] == name and (words[4] != "0" or words[8] != "0"):
            note("stopped too early: " + " ".join(words))
class Handler(http.server.BaseHTTPRequestHandler):
    def do_GET(self):
        time.sleep(0.02)
        self.send_response(200)
        self.send_header("Content-Length", str(len(name)))
        self.end_headers()
        self.wfile.write(name.encode())
    def log_message(self, *words):
        pass
class Server(http.server.ThreadingHTTPServer):
    request_queue_size = 256
if kind == "run":
    server = Server(("127.0.0.1", int(port)), Handler)
    with open(path + ".new", "w") as file:
        file.write(str(os.getpid()))
    os.replace(path + ".new", path)
    server.serve_forever()
note(f"{kind} {name} {port}")
if kind == "start" and not alive():
    server = subprocess.Popen([sys.executable, __file__, "run", name, port, control], start_new_session=True,
                              stdin=subprocess.DEVNULL, stdout=subprocess.DEVNULL, stderr=subprocess.DEVNULL)
    while not alive():
        if server.poll() is not None:
            sys.exit(1)
        time.sleep(0.02)
if kind == "stop" and os.path.exists(path):
    judge()
    while (pid := alive()):
        os.kill(pid, signal.SIGKILL)
        time.sleep(0.02)
    os.remove(path)
"""


class Failure(NamedTuple):
    """An answer that no revision gives, and its time."""

    at: float
    answer: tuple[int, bytes] | None


class Traffic:
    """Clients of the active port that ask without pause until they are stopped. What is no answer
    of a revision is kept."""

    def __init__(self, port: int) -> None:
        self.port = port
        self.count = 0
        self.failures: list[Failure] = []
        self.names: set[bytes] = set()
        self.stopping = threading.Event()
        self.threads = [threading.Thread(target=self._ask, daemon=True) for _ in range(CLIENTS)]
        for thread in self.threads:
            thread.start()

    def _ask(self) -> None:
        while not self.stopping.is_set():
            answer = clients.get(self.port)
            self.count += 1
            if answer is None or answer[0] != 200:
                self.failures.append(Failure(time.monotonic(), answer))
                time.sleep(0.05)
            else:
                self.names.add(answer[1])

    def stop(self) -> None:
        self.stopping.set()
        for thread in self.threads:
            thread.join(WAIT)


class Program:
    """A program that is killed and started again. What it prints is kept."""

    def __init__(
        self,
        words: list[str],
        given: str,
        first: str,
        folder: str,
        longest: float = processes.LONGEST,
    ) -> None:
        """Starts it with this standard input, and waits for its first line if one is named. Each of
        its processes runs for at most `longest` seconds."""
        self.words, self.given, self.first, self.folder = words, given, first, folder
        self.longest = longest
        self.lines: list[str] = []
        self.start()

    def start(self) -> None:
        self.process = subprocess.Popen(
            self.words, stdin=subprocess.PIPE, stdout=subprocess.PIPE, text=True, cwd=self.folder
        )
        processes.limit(self.process, self.longest)
        if self.process.stdin is None or self.process.stdout is None:
            raise OSError("no pipes")
        with self.process.stdin:
            self.process.stdin.write(self.given)
        if self.first:
            check("it listens", self.process.stdout.readline(), self.first)
        threading.Thread(target=self._read, args=(self.process,), daemon=True).start()

    def _read(self, process: "subprocess.Popen[str]") -> None:
        for line in process.stdout or ():
            self.lines.append(line.rstrip("\n"))

    def kill(self) -> None:
        processes.stop(self.process)


class Launched:
    """A switch, a controller, and a plan that starts and stops the endpoints of its revisions: none
    runs at first."""

    def __init__(self, folder: str, seed: int) -> None:
        self.random = random.Random(seed)
        self.folder = pathlib.Path(folder)
        (self.folder / "endpoint.py").write_text(ENDPOINT, encoding="ascii")
        self.active, preview, self.control = free_ports(3)
        self.ports: dict[str, list[int]] = {}
        command = [sys.executable, "-B", "endpoint.py"]
        words = ["{revision}", "{port}", str(self.control)]
        self.plan = Plan(
            folder,
            self.control,
            # none is too short for a busy machine: an endpoint that is down refuses its probe
            health={"interval": 0.2, "timeout": 60, "failures": 2},
            timeout=120,
            start=[*command, "start", *words],
            stop=[*command, "stop", *words],
        )
        self.name_last("web-v1")
        self.switch = Program(
            [
                PROGRAM,
                *words_of_serve(
                    self.active,
                    self.control,
                    preview,
                    4,
                    None,
                    ("--concurrency", "4", "--redispatch"),
                ),
            ],
            ROLLOUT,
            LISTENING,
            folder,
        )
        self.controller = Program([str(TOP / "bin" / "controller"), self.plan.path], "", "", folder)
        # from when to when the switch could not answer
        self.outages: list[tuple[float, float]] = []

    def name_last(self, name: str) -> None:
        """Puts a plan in place whose last revision this is."""
        self.ports.setdefault(name, free_ports(2))
        self.plan.write(list(self.ports.items())[-3:])

    def report(self) -> Report | None:
        try:
            return read_report(ask(self.control, b"report", WAIT))
        except UnreachableError:
            return None

    def is_settled(self, name: str) -> bool:
        """Whether this revision alone runs: it is stable, and the processes of all others are
        gone."""
        report = self.report()
        is_stable = (
            report is not None
            and report.phase == "steady"
            and report.stable.name == name
            and report.stable.available == 2
        )
        return is_stable and self.running() == {(name, port) for port in self.ports[name]}

    def running(self) -> set[tuple[str, int]]:
        """The endpoints whose processes the commands have left running."""
        found = [path.stem.rpartition("-") for path in self.folder.glob("*.pid")]
        return {(name, int(port)) for name, _, port in found}

    def await_settled(self, name: str) -> None:
        comes(lambda: self.is_settled(name), WAIT)
        check(
            f"{name} is stable, and its processes alone run",
            (self.is_settled(name), self.running()),
            (True, {(name, port) for port in self.ports[name]}),
        )

    def kill_controller(self) -> None:
        self.controller.kill()
        time.sleep(self.random.random() / 2)
        self.controller.start()

    def kill_switch(self) -> None:
        begun = time.monotonic()
        self.switch.kill()
        time.sleep(self.random.random() / 2)
        self.switch.start()
        self.await_service(begun)

    def kill_both(self) -> None:
        begun = time.monotonic()
        self.switch.kill()
        self.controller.kill()
        time.sleep(self.random.random() / 2)
        self.switch.start()
        self.controller.start()
        self.await_service(begun)

    def await_service(self, killed: float) -> None:
        """A check that the switch that was killed then serves again soon. Requests may fail up to a
        moment after that, at which their clients have seen it."""
        start = time.monotonic()
        check("it serves again", comes(self.is_served, WAIT), True)
        check_soon("it serves again", time.monotonic() - start, SETTLING)
        self.outages.append((killed - SETTLING, time.monotonic() + widened(SETTLING)))

    def is_served(self) -> bool:
        """Whether an endpoint of the active revision takes requests."""
        report = self.report()
        return report is not None and report.service("active").available > 0

    def kill_at_random(self, kills: int, *what: Callable[[], None]) -> None:
        """Kills one of these at a random moment, `kills` times."""
        for _ in range(kills):
            time.sleep(self.random.random() * 1.5)
            self.random.choice(what)()

    def check_calls(self) -> None:
        calls = (self.folder / "calls").read_text(encoding="ascii").splitlines()
        check(
            "what was stopped while it was wanted",
            [call for call in calls if call.startswith("stopped too early")],
            [],
        )
        check("calls of both kinds", {call.split()[0] for call in calls} >= {"start", "stop"}, True)

    def check_traffic(self, traffic: Traffic) -> None:
        """No request has failed, but for those while the switch itself was away."""
        failures = [
            failure
            for failure in traffic.failures
            if not any(begun <= failure.at <= end for begun, end in self.outages)
        ]
        check("requests that failed", failures, [])
        check("requests were made", traffic.count > 50, True)
        check(
            "answers of none of the revisions",
            traffic.names - {name.encode() for name in self.ports},
            set(),
        )

    def end(self) -> None:
        self.switch.kill()
        self.controller.kill()
        for path in self.folder.glob("*.pid"):
            try:
                os.kill(int(path.read_text(encoding="ascii")), 9)
            except (OSError, ValueError):
                pass
