"""A switch with a journal that is killed and started again, its controller, and endpoints of four
revisions. What each start resumes is compared with what was acknowledged."""
import contextlib
import pathlib
import random
import re
import subprocess
import threading
import time
from collections.abc import Iterator

from bg_switch_tools.controller.history.attempts import LOST
from bg_switch_tools.controller.state.state_file import write_whole
from bg_switch_tools.switch.connection import UnreachableError
from bg_switch_tools.switch.report_text import in_one_line
from bg_switch_tools.switch.reports import Report

from support import PROGRAM, TOP, processes
from support.checks import check, comes
from support.endpoints import Endpoint, by_target
from support.journals import events_in, report_by_rule, rows_in
from support.operators import Operator
from support.plans import Plan
from support.ports import free_ports
from support.recorded_lines import SentLine, RecordedLines, faults_of_orders
from support.rule.strategy import strategy_of
from support.steady_clients import Outage
from support.switch import LISTENING, Switch

ROLLOUT = """{"spec": {"replicas": 1, "strategy": {"blueGreen": {"activeService": "web",
"previewService": "web-preview", "autoPromotionEnabled": false, "scaleDownDelaySeconds": 2,
"prePromotionAnalysis": {}, "postPromotionAnalysis": {}}}}}"""
NAMES = ("a", "b", "c", "d")
WORKERS = 7
WAIT = 40.0  # seconds for which anything is awaited
PROBE = 60  # seconds for a probe: an endpoint that is down refuses it, and others may be slow
# Seconds for which there is no switch: so short that a controller that connects finds the next one, or
# so long that it finds none.
SHORT, LONG = (0.0, 0.3), (1.1, 1.5)
SHARE_LONG = 0.3
# An analysis waits until it is told how it ends.
ANALYSIS = "until [ -e $BG_REVISION.{0} ]; do sleep 0.05; done; exit $(cat $BG_REVISION.{0})"
OPEN_REQUESTS = re.compile(r" open \d+ ")
OPENED = "no book is open: it is opened with"
# What the controller tells of a book that is gone, and of what it begins anew.
OF_NEW_BOOK = ("the switch was started again", "is begun again", "lost with the book", OPENED)


def without_requests(report: str) -> str:
    """A report as it is while no request is open."""
    return OPEN_REQUESTS.sub(" open 0 ", report)


def command_of(kind: str) -> list[str]:
    return ["sh", "-c", ANALYSIS.format(kind)]


class JournaledMachine:
    """A switch with a journal whose lines are noted, endpoints of four revisions, and a controller."""

    def __init__(self, folder: str, seed: int) -> None:
        self.folder = pathlib.Path(folder)
        self.journal = f"{folder}/journal"
        self.chance = random.Random(seed)
        *self.ports, control = free_ports(4)
        self.lines = RecordedLines(control, self.ports[-1])
        self.endpoints = {
            name: Endpoint(by_target(name.encode()), port)
            for name, port in zip(NAMES, free_ports(len(NAMES)))
        }
        self.plan = Plan(
            folder,
            control,
            health={"interval": 0.3, "timeout": PROBE, "failures": 2},
            analyses={"pre": command_of("pre"), "post": command_of("post"), "seconds": 600},
        )
        self.log = self.folder / "log"
        self.rows: list[str] = []  # of the journal after the last kill
        self.noted: list[SentLine] = []  # of all lives
        self.outages: list[Outage] = []
        self.killed = 0.0  # the time of the last kill; 0 while the switch runs
        self.lock = threading.Lock()
        self.start()

    def template(self, name: str) -> str:
        return f"{name} {self.endpoints[name].port}"

    def write_plan(self, *names: str) -> None:
        self.plan.write([(name, [self.endpoints[name].port]) for name in names])

    def end_analysis(self, name: str, kind: str, status: int) -> None:
        """The analysis of a revision ends with this status."""
        write_whole(str(self.folder / f"{name}.{kind}"), str(status).encode())

    @contextlib.contextmanager
    def controlled(self) -> Iterator[None]:
        """A controller runs by the plan; both it and the switch are ended."""
        with open(self.log, "wb") as log:
            controller = subprocess.Popen(
                [str(TOP / "bin" / "controller"), self.plan.path], stdout=log
            )
        processes.limit(controller)
        try:
            yield
            check("the controller runs", controller.poll(), None)
        finally:
            controller.terminate()
            processes.status_of(controller, WAIT)
            self.switch.kill()
            self.lines.end()
            for endpoint in self.endpoints.values():
                endpoint.stop()

    def start(self) -> None:
        """A switch begins with the journal, and has the report of what the journal keeps, before
        anybody else orders."""
        words = ("--journal", self.journal)
        self.switch = Switch(ROLLOUT, workers=WORKERS, flags=words, ports=self.ports)
        check("a switch with a journal listens", self.switch.first, LISTENING)
        if self.killed:
            self.outages.append(Outage(self.killed, time.monotonic()))
            self.killed = 0.0
        if self.rows:
            was = report_by_rule(self.rows, strategy_of(ROLLOUT))
            with contextlib.closing(self.switch.operator()) as operator:
                check("the report after a kill", without_requests(operator.report()), was)
            told = f"the journal {self.journal} was resumed: orders {len(self.rows) - 1},"
            check("what was resumed is told", self.switch.tells(told), True)
        self.lines.begin()

    def kill(self) -> None:
        """The switch is killed. Its journal has all that was acknowledged, and at most one order in
        doubt; sqlite3, the program and the rule find the same in it."""
        self.killed = time.monotonic()
        self.switch.kill()
        noted = self.lines.end()
        rows = rows_in(self.journal)
        kept = events_in(rows)[max(len(self.rows) - 1, 0) :]
        check("the rows before", rows[: len(self.rows)], self.rows)
        check("the orders of a journal", faults_of_orders(kept, noted), [])
        if rows:
            was = report_by_rule(rows, strategy_of(ROLLOUT))
            judged = processes.run_to_end([PROGRAM, "journal", self.journal])
            check("the journal is judged", judged, (was, "", 0))
        self.rows = rows
        self.noted += noted

    def kill_and_start(self) -> None:
        with self.lock:
            self.kill()
            self.start_later()

    def start_later(self) -> None:
        """Starts a switch again after a while."""
        is_long = self.chance.random() < SHARE_LONG
        time.sleep(self.chance.uniform(*(LONG if is_long else SHORT)))
        self.start()

    def report(self) -> Report | None:
        """The report; None while there is no switch, or no book."""
        with contextlib.suppress(UnreachableError, OSError):
            with contextlib.closing(self.switch.operator()) as operator:
                return operator.ask_report()
        return None

    def is_scaled_down(self, number: int) -> bool:
        report = self.report()
        revision = report.revisions.get(number) if report else None
        return revision is not None and revision.desired == 0

    def awaits(self, phase: str, newest: str) -> None:
        """A check that in time the attempt of this revision is in this phase."""

        def is_there() -> bool:
            report = self.report()
            return report is not None and (report.phase, report.newest.name) == (phase, newest)

        report = comes(is_there, WAIT) or self.report()
        text = in_one_line(report) if isinstance(report, Report) else report
        check(f"{newest} is in the phase {phase}", text, True)

    def order(self, line: str, phase: str) -> None:
        """Sends a line by hand in this phase, and again if the switch was killed before it was
        carried out."""

        def is_done() -> bool:
            report = self.report()
            if report is None or report.phase != phase:
                return report is not None
            with contextlib.suppress(UnreachableError, OSError):
                with contextlib.closing(Operator(self.lines.port)) as operator:
                    operator.answer_to(line)
            return False

        check(f"{line} is carried out", comes(is_done, WAIT), True)

    def check_log(self) -> None:
        """The controller has opened one book, and none was gone."""
        log = self.log.read_text(encoding="utf-8")
        told = [text for text in OF_NEW_BOOK if log.count(text) > (text == OPENED)]
        check("what the controller tells of a new book", (told, log if told else ""), ([], ""))
        history = (self.folder / "plan.json.state.history").read_text(encoding="ascii")
        check("no attempt was lost", f'"{LOST}"' in history, False)
