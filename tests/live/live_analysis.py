"""bin/analysis before a running `serve`: an outage of the new revision after the switch is found,
and the revision is taken back; by the access log alone, by reports of the switch, and by
Prometheus. A good revision some of whose clients leave is judged successful."""
import contextlib
import json
import pathlib
import shutil
import socket
import subprocess
import sys
import tempfile
import threading
import time
from collections.abc import Callable, Iterator

from support import TOP, checks, processes
from support.browser import NoBrowserError, browsing
from support.checks import check, comes
from support.clients import connect, reset
from support.dashboards import failing, missing, showing
from support.endpoints import Answer, Endpoint, Request
from support.messages import request
from support.operators import Operator
from support.plans import Plan
from support.ports import free_port, free_ports
from support.processes import status_of
from support.switch import Switch
from support.traffic import Traffic, ask, prepared_log

# isort: split; `support` tells where the tests' package is
from bg_switch_tools.switch.access_log import read_lines

sys.path.insert(0, str(TOP))
from tests.fake_prometheus import real_prometheus  # noqa: E402

ANALYSIS, CONTROLLER = str(TOP / "bin" / "analysis"), str(TOP / "bin" / "controller")
ROLLOUT = """{"spec": {"replicas": 1, "strategy": {"blueGreen": {"activeService": "web", "autoPromotionEnabled": true,
"postPromotionAnalysis": {}, "scaleDownDelaySeconds": 60}}}}"""
WORKERS = 7
CLIENTS, PAUSE = 2, 0.02
# How long, in seconds, endpoints take if clients leave: those that are asked for this, and the
# others; and the time between two clients that leave.
LATE_TARGET = b"/late"
LATE, SOON, BETWEEN_LEAVING = 3.0, 0.4, 0.3
WAIT = 30  # seconds for which anything is awaited; longer on a busy machine
PROBE = 60  # seconds for a probe: an endpoint that is down refuses it, and others may be slow
LIMITS = ("--seconds", "1m", "--every", "1s", "--errors-at-most", "1%", "--requests-at-least", "20")
PROMETHEUS = "prometheus"
SHARE = (
    "sum(rate(bg_switch_http_requests_total{revision='{{args.revision}}',status=~'5xx|none'}[5s])) / "
    "sum(rate(bg_switch_http_requests_total{revision='{{args.revision}}'}[5s]))"
)


class LoggedSwitch:
    """A switch with web-v1 and web-v2, of an endpoint each, traffic, and the folder of an access
    log and a plan."""

    def __init__(self, folder: str, answer: Callable[[bytes], Answer]) -> None:
        self.folder = pathlib.Path(folder)
        self.log = self.folder / "access.log"
        self.ports = dict(zip(("web-v1", "web-v2"), free_ports(2)))
        self.endpoints = {
            name: Endpoint(answer(name.encode()), port) for name, port in self.ports.items()
        }
        self.switch = Switch(
            ROLLOUT, workers=WORKERS, preview=False, variables=prepared_log(self.log)
        )
        self.traffic = Traffic(self.switch.active, CLIENTS, PAUSE)

    def send(self, *lines: str) -> None:
        with contextlib.closing(Operator(self.switch.control)) as operator:
            for line in lines:
                check(f"{line} is carried out", operator.answer_to(line)[:3], "ok ")

    def open_and_switch(self) -> None:
        """web-v2 is active, and waits for its analysis."""
        self.send(f"open web-v1 {self.ports['web-v1']}", "available 1 1")
        self.traffic.start()
        self.send(f"deploy web-v2 {self.ports['web-v2']}", "available 2 1")
        check("web-v2 is live", ask(self.switch.active).revision, "web-v2")

    def fail(self) -> None:
        """The endpoint of web-v2 is gone, and an operator reports it."""
        self.endpoints["web-v2"].stop()
        self.send("available 2 0")

    def report(self) -> str:
        with contextlib.closing(Operator(self.switch.control)) as operator:
            return operator.report()

    def end(self) -> None:
        self.traffic.ended.set()
        self.switch.kill()


def never_failing(name: bytes) -> Answer:
    return failing(name, 0)


@contextlib.contextmanager
def logged_switch(answer: Callable[[bytes], Answer] = never_failing) -> Iterator[LoggedSwitch]:
    with tempfile.TemporaryDirectory(ignore_cleanup_errors=True) as folder:
        played = LoggedSwitch(folder, answer)
        try:
            yield played
        finally:
            played.end()


class Running:
    """A tool that runs, whose lines are kept in a file."""

    def __init__(self, path: pathlib.Path, *words: str) -> None:
        self.path = path
        with open(path, "wb") as file:
            self.process = subprocess.Popen(words, stdout=file, stderr=subprocess.STDOUT)

    def text(self) -> str:
        return self.path.read_text(encoding="utf-8")

    def check_says(self, text: str) -> None:
        said = comes(lambda: text in self.text(), WAIT)
        check(f"it says {text}", text if said else self.text(), text)

    def status(self) -> int | None:
        with contextlib.suppress(subprocess.TimeoutExpired):
            return status_of(self.process, 3 * WAIT)
        self.process.kill()
        return None


@contextlib.contextmanager
def running(path: pathlib.Path, *words: str) -> Iterator[Running]:
    run = Running(path, *words)
    try:
        yield run
    finally:
        processes.end(run.process, WAIT)


def in_a_plan() -> None:
    """The only endpoint of the new revision goes away after the switch: the controller reports it,
    and the analysis fails."""
    with logged_switch() as played:
        plan = Plan(
            str(played.folder),
            played.switch.control,
            health={"path": "/", "interval": 0.3, "timeout": PROBE, "failures": 2},
            # on a slow machine the controller must not end the attempt before the analysis fails
            progress={"outage": 600},
            analyses={"post": [ANALYSIS, "--log", str(played.log), *LIMITS]},
        )
        plan.write([("web-v1", [played.ports["web-v1"]])])
        with running(played.folder / "controller.log", CONTROLLER, plan.path) as controller:
            controller.check_says("available 1 1 => ok 0")
            played.traffic.start()
            plan.write([(name, [port]) for name, port in played.ports.items()])
            controller.check_says("analysis of revision 2 web-v2: 2 s")
            check("the limits hold first", "the limits hold\n" in controller.text(), True)
            played.endpoints["web-v2"].stop()
            controller.check_says("verdict post failed => ok")
            check("the limits that it names", "errors are above 1%" in controller.text(), True)
        check("live traffic is back", ask(played.switch.active).revision, "web-v1")


def by_reports() -> None:
    """No endpoint was ever up, so no request names the revision: the reports tell it."""
    with logged_switch() as played:
        played.open_and_switch()
        played.fail()
        words = (
            "--log",
            str(played.log),
            "--revision",
            "web-v2",
            "--control",
            str(played.switch.control),
            *LIMITS,
        )
        with running(played.folder / "analysis", ANALYSIS, *words) as run:
            check(
                "an analysis by reports",
                (run.status(), "errors are above 1%" in run.text()),
                (1, True),
            )


def slow(name: bytes) -> Answer:
    """Answers with the name of the revision, after a while."""
    soon, late = failing(name, 0, SOON), failing(name, 0, LATE)

    def answer(request: Request, connection: socket.socket) -> None:
        (late if request.target == LATE_TARGET else soon)(request, connection)

    return answer


class Leaving:
    """Clients that leave before they are answered, by turns one that the switch finds to have gone
    while it waits for the endpoint, and some that it finds when it writes the answer."""

    def __init__(self, port: int) -> None:
        self.port = port
        self.left = 0
        self.ended = threading.Event()
        self.thread = threading.Thread(target=self.leave, daemon=True)

    def leave(self) -> None:
        while not self.ended.wait(BETWEEN_LEAVING):
            target = LATE_TARGET if self.left % 4 == 0 else b"/"
            with connect(self.port) as client:
                client.sendall(request(target))
                time.sleep(SOON / 2)
                reset(client)
            self.left += 1

    def __enter__(self) -> "Leaving":
        self.thread.start()
        return self

    def __exit__(self, *_: object) -> None:
        self.ended.set()
        self.thread.join()


def clients_that_leave() -> None:
    """More than a tenth of the clients of a good revision leave before their answers: it is judged
    successful."""
    with logged_switch(slow) as played:
        played.open_and_switch()
        words = (
            "--log",
            str(played.log),
            "--revision",
            "web-v2",
            "--control",
            str(played.switch.control),
            "--seconds",
            "8s",
            "--every",
            "2s",
            "--errors-at-most",
            "1%",
            "--requests-at-least",
            "10",
        )
        with Leaving(played.switch.active) as leaving, running(
            played.folder / "analysis", ANALYSIS, *words
        ) as run:
            said = run.status(), "clients had gone): the limits hold\n" in run.text()
            check("a good revision whose clients leave", said, (0, True))
        entries = read_lines(played.log.read_bytes().splitlines()).entries
        gone = [entry for entry in entries if entry.has_client_gone]
        check("both kinds of leaving are found", {entry.target for entry in gone}, {"/", "/late"})
        check("clients have left", leaving.left >= 10 and len(gone) * 10 >= len(entries), True)


def by_prometheus() -> None:
    """The dashboard's metrics tell the outage, and a Prometheus has them."""
    program = shutil.which(PROMETHEUS)
    why = missing() or (
        "" if program else f"{PROMETHEUS} is not installed: apt-get install prometheus"
    )
    if why or program is None:
        print(f"live_analysis: no analysis by Prometheus is tried: {why}")
        return
    with logged_switch() as played:
        played.open_and_switch()
        listen = free_port()
        with showing(played.switch.control, listen, "--log", str(played.log)), real_prometheus(
            program, played.folder, [listen]
        ) as url:
            words = (
                "--prometheus",
                url,
                "--query",
                SHARE,
                "--revision",
                "web-v2",
                "--control",
                str(played.switch.control),
                "--at-most",
                "1%",
                "--interval",
                "1s",
                "--count",
                "60",
                "--inconclusive",
                "20",
            )
            with running(played.folder / "analysis", ANALYSIS, *words) as run:
                run.check_says(": the limits hold\n")
                played.fail()
                check(
                    "an analysis by Prometheus",
                    (run.status(), "it is above 0.01" in run.text()),
                    (1, True),
                )


# two analyses of a plan, of which the second one fails
NAMED = (("latency", "echo measures; exec sleep 600"), ("errors", "exec {} --log {} {}"))
SHOWN = (
    "analysis post errors",
    "failed",
    "errors are above 1%",
    "analysis post latency",
    "stopped",
)


def page_shows(port: int, plan: Plan) -> None:
    """A browser shows each result on the page of the dashboard."""
    if why := missing():
        print(f"live_analysis: the page is not looked at: {why}")
        return
    try:
        with showing(port, free_port(), "--plan", plan.path) as address, browsing(
            free_port()
        ) as browser:
            browser.open(address)
            shown = browser.shows("#analyses", *SHOWN)
            check("the page shows each result", shown or browser.text("#analyses"), True)
            check("it names no other one", browser.text("#analyses").count("analysis post "), 2)
            check("it has no complaint", browser.complaints(), [])
    except NoBrowserError as reason:
        print(f"live_analysis: the page is not looked at: {reason}")


def several_in_a_plan() -> None:
    """Two analyses after the switch, of which one fails: the revision goes back, the other one is
    ended, and the log, the history and the page name which has failed."""
    with logged_switch() as played:
        played.endpoints["web-v2"].stop()
        Endpoint(failing(b"web-v2", 3), played.ports["web-v2"])
        texts = {name: text.format(ANALYSIS, played.log, " ".join(LIMITS)) for name, text in NAMED}
        post = [{"name": name, "command": ["sh", "-c", text]} for name, text in texts.items()]
        plan = Plan(
            str(played.folder),
            played.switch.control,
            health={"path": "/", "interval": 0.3, "timeout": PROBE, "failures": 9},
            analyses={"post": post},
        )
        plan.write([("web-v1", [played.ports["web-v1"]])])
        with running(played.folder / "controller.log", CONTROLLER, plan.path) as controller:
            controller.check_says("available 1 1 => ok 0")
            played.traffic.start()
            plan.write([(name, [port]) for name, port in played.ports.items()])
            controller.check_says("verdict post failed => ok")
            for text in (
                "latency: measures\n",
                "errors: analysis of revision 2 web-v2: 1 s: ",
                "analysis post errors of web-v2: failed: ",
                "analysis post latency of web-v2 is stopped: errors has failed",
            ):
                check(f"the log has {text}", text in controller.text(), True)
            controller.check_says("phase: postAnalysis -> aborted")
            check("live traffic is back", ask(played.switch.active).revision, "web-v1")
            words = [str(TOP / "bin" / "bgctl"), "history", "--json", "--plan", plan.path]
            told = subprocess.run(words, capture_output=True, text=True, check=False).stdout
            analyses = json.loads(told.splitlines()[-1]).get("analyses", [])
            check(
                "the history names which has failed",
                [(each["analysis"], each["name"], each["result"]) for each in analyses],
                [("post", "latency", "stopped"), ("post", "errors", "failed")],
            )
            check(
                "it has its last measurements",
                ["errors are above 1%" in " ".join(each["last"]) for each in analyses],
                [False, True],
            )
            page_shows(played.switch.control, plan)


if __name__ == "__main__":
    checks.run(
        "live_analysis",
        [in_a_plan, by_reports, clients_that_leave, by_prometheus, several_in_a_plan],
        at_once=3,
    )
