"""bin/controller: runs a rollout by a plan, or judges a plan."""
import argparse
import contextlib
import sys
import threading
from collections.abc import Callable, Sequence

from bg_switch_tools.controller.edits.plan_check import problems_of
from bg_switch_tools.controller.edits.plan_edit import OtherPortsError, deploy_by_plan
from bg_switch_tools.controller.endpoints.probes import Probes
from bg_switch_tools.controller.log import Log
from bg_switch_tools.controller.plan.plan import Plan
from bg_switch_tools.controller.plan.plan_file import OpenPlan, PlanFile, plan_of
from bg_switch_tools.controller.plan.plan_kinds import help_of
from bg_switch_tools.controller.plan.plan_reader import PLAN_SCHEMA, PlanError
from bg_switch_tools.controller.rounds.book_opener import OpeningError
from bg_switch_tools.controller.rounds.composition import files_beside, make_controller
from bg_switch_tools.controller.rounds.switch_silence import SwitchSilence
from bg_switch_tools.controller.state.state_file import StateLock, StateLockedError
from bg_switch_tools.switch.connection import Connection, UnreachableError
from bg_switch_tools.switch.frame import Frame, Signals, list_of
from bg_switch_tools.switch.installed_names import named
from bg_switch_tools.switch.reports import ReportError

USAGE = """bin/controller [--json] PLAN              runs the plan, until SIGTERM or ctrl-C
       bin/controller check PLAN [--rollout FILE]   judges it: prints its problems, and carries nothing out
       bin/controller deploy PLAN NAME PORT..   makes a revision the last one of the plan, which a running controller then deploys"""
ABOUT = (
    """
The controller looks at the switch five times a second. It ticks each second (the moment is the number of seconds since the book
was opened first), tells the switch which ports are down and how many endpoints of each revision are up, runs the analyses that
the phase needs and sends their verdict, starts and stops endpoints if the plan has commands for it, and deploys the
plan's last revision once the plan names it. If no book is open, it opens one with the revision that was stable, by the state file
beside the plan and with the ports that were live, or else with the plan's first revision; a plan that names no revision that was
live opens none. The plan is read again when its file changes: a deploy is an edit of it. A name keeps its ports: a revision with
other ones is held back, and needs a new name.
The controller does not change what an operator does (bin/operator): promote, abort, retry, an undo.

A plan:
  {"control": 8082, "active": 8080, "preview": 8081,
   "health": {"path": "/ready", "interval": 2},
   "analyses": {"pre": ["./smoke_test.sh", "8081"], "post": ["./smoke_test.sh", "8080"], "seconds": 60},
   "progress": {"seconds": 300, "abort": true},
   "start": ["systemctl", "start", "web@{revision}-{port}"], "stop": ["systemctl", "stop", "web@{revision}-{port}"],
   "revisions": [{"name": "web-v1", "ports": [9101, 9102]}, {"name": "web-v2", "ports": [9201, 9202]}]}

"""
    + help_of(PLAN_SCHEMA)
    + """

Each port of a revision is started before its deploy and while it is down, and stopped once its revision is scaled down or removed.
An analysis that is left out waits for a verdict by hand; other keys without a value for that do nothing where they are left out. A
command of an analysis finds the name, the number and the ports of the revision that it judges in BG_REVISION, BG_REVISION_NUMBER
and BG_PORTS; bin/analysis is one that judges by the access log. A plan may be in YAML if python3-yaml is installed. The key
"$schema" can name the JSON schema of plans for editors: share/plan.schema.json. docs/OPERATING.md says what each line of the log
means.

Exit status: 0 after SIGTERM or ctrl-C, and for a plan in which `check` finds nothing wrong; 1 if the plan is wrong when it starts,
by `check` or after `deploy`, if the switch can't be opened with it, or if another controller runs it; 2 if the words are wrong.
"""
)
FRAME = Frame("controller")
FAULT = 70  # the exit status after a fault of its own
# seconds within which a connection is taken, and for the answers of a round
CONNECT, ANSWER = (1.0, 10.0)
RETRY = 0.2  # seconds between two tries if the switch gives no answer
MINUTE = 60.0
LONGEST_END = 1.2  # seconds for the round to end after a signal


class Runner:
    """Runs one round after the other, in a thread of its own, until it is stopped."""

    def __init__(self, file: PlanFile, plan: Plan, log: Log, lock: StateLock | None = None) -> None:
        """`lock` is that of the plan, which `stop` lets go; None if none can be made."""
        self.file = file
        self.log = log
        self.lock = lock
        self.controller = make_controller(files_beside(file.path), plan, log, Probes())
        self.silence = SwitchSilence(log, MINUTE)
        self.stopping = threading.Event()
        self.connection: Connection | None = None
        self.unfit = ""
        self.has_fault = True  # until the rounds have ended as they should
        self.thread = threading.Thread(target=self._run, daemon=True)

    def _run(self) -> None:
        pause = 0.0
        while not self.unfit and not self.stopping.wait(pause):
            if self.lock:
                self.lock.touch()
            self._read_again()
            pause = self._round()
        self.controller.end()
        if not self.unfit:
            self.log.say("end", "ends; the switch continues")
        self.controller.notifier.end()
        self.has_fault = False

    def _read_again(self) -> None:
        """Takes a plan that has changed. If it is wrong the one before stands."""
        try:
            if (plan := self.file.read()) is not None:
                self.controller.take_plan(plan)
        except PlanError as wrong:
            for problem in wrong.problems:
                self.log.say("plan", f"the plan is wrong, so the one before is used: {problem}")

    def _round(self) -> float:
        """Runs a round. Gives the seconds until the next one."""
        try:
            with Connection(self.controller.plan.control, CONNECT) as connection:
                self.connection = connection
                connection.allow(ANSWER)
                self._read_again()  # the plan may have changed while the switch was down
                pause = (
                    self.controller.do_round(connection)
                    if connection.control == self.controller.plan.control
                    else 0.0
                )
            self.silence.end()
            return pause
        except (UnreachableError, ReportError) as reason:
            self.controller.take_silence(reason)
            if not self.stopping.is_set():
                self.silence.begin(str(reason))
        except OpeningError as reason:
            self.unfit = str(reason)
        finally:
            self.connection = None
        return RETRY

    def stop(self) -> None:
        """Ends the rounds, within a second or so: a connection that waits is cut, and an analysis
        that runs is stopped."""
        self.stopping.set()
        if connection := self.connection:
            connection.cut()
        self.thread.join(LONGEST_END)
        if self.has_fault:
            self.controller.launcher.begin_end()
            self.controller.analyses.end_at_last()
        self.controller.probes.stop()
        if self.lock:
            self.lock.release()


def run(path: str, as_json: bool, text: bytes | None = None) -> int:
    """Runs a plan, unless another controller does. `text` is that of its file if it was read
    already. Gives the exit status."""
    file = PlanFile(path, text)
    try:
        plan = file.first()
        lock = StateLock(path)
    except PlanError as wrong:
        FRAME.tell(list_of(f"{path} is not a plan:", wrong.problems))
        return 1
    except StateLockedError as reason:
        FRAME.tell(str(reason))
        return 1
    except OSError as error:
        FRAME.tell(
            f"the lock file beside {path} cannot be made, so a second controller is not noticed: {error.strerror}"
        )
        return run_locked(file, plan, as_json, None)
    return run_locked(file, plan, as_json, lock)


def run_locked(file: PlanFile, plan: Plan, as_json: bool, lock: StateLock | None) -> int:
    """Runs a plan until a signal comes. Gives the exit status."""
    signals = Signals()
    runner = Runner(file, plan, Log(sys.stdout, as_json), lock)
    runner.thread.start()
    signals.wait_while(runner.thread.is_alive)
    runner.stop()
    if runner.unfit:
        FRAME.tell(runner.unfit)
        return 1
    return FAULT if runner.has_fault and not runner.thread.is_alive() else 0


def check(path: str, rollout: str | None = None) -> int:
    """Prints what is wrong with the plan of a file, as `check_text` does."""
    try:
        with contextlib.closing(OpenPlan(path)) as plan:
            text = plan.text()
    except OSError as error:
        FRAME.tell(f"{path} can't be read: {error.strerror}")
        return 1
    return check_text(path, text, rollout)


def check_text(path: str, text: bytes, rollout: str | None) -> int:
    """Prints what is wrong with the plan of this file and text, with its commands, and with its
    revisions by the files beside it; and in what the Rollout of this file does not fit the plan.
    Gives the exit status."""
    try:
        problems = problems_of(path, plan_of(text), rollout)
    except PlanError as wrong:
        problems = wrong.problems
    print("\n".join(problems) if problems else f"{path} is a plan")
    return 1 if problems else 0


def deploy(path: str, name: str, ports: Sequence[str]) -> int:
    """Makes a revision the last one of a plan, which a controller then deploys. Gives the exit
    status."""
    try:
        print(deploy_by_plan(path, name, [port_or_none(port) for port in ports]))
    except OtherPortsError as wrong:
        FRAME.tell(list_of(f"{path} stays as it is:", wrong.problems))
        return 1
    except PlanError as wrong:
        FRAME.tell(
            list_of(
                f"{path} stays as it is, since with {name} it would not be a plan:", wrong.problems
            )
        )
        return 1
    except OSError as error:
        FRAME.tell(f"{path} can't be written: {error.strerror}")
        return 1
    return 0


def port_or_none(text: str) -> int:
    """A port as a word; 0, which no plan may have, if it is not a number."""
    return int(text) if text.isascii() and text.isdigit() and len(text) <= 9 else 0


def command_of(options: argparse.Namespace) -> Callable[[], int] | None:
    """What the words ask for; None if they ask for nothing."""
    first, *others = options.words
    if first not in ("check", "deploy") and not others and options.rollout is None:
        return lambda: run(first, options.json)
    if options.json:
        return None
    if first == "check" and len(others) == 1:
        return lambda: check(others[0], options.rollout)
    if first == "deploy" and len(others) >= 3 and options.rollout is None:
        return lambda: deploy(others[0], others[1], others[2:])
    return None


def main(words: Sequence[str]) -> int:
    parser = argparse.ArgumentParser(
        prog="controller",
        usage=named(USAGE),
        description="Runs a rollout by a plan.",
        epilog=named(ABOUT),
        formatter_class=argparse.RawDescriptionHelpFormatter,
    )
    parser.add_argument(
        "--json", action="store_true", help="writes each line of the log as an object of JSON"
    )
    parser.add_argument(
        "words",
        nargs="+",
        metavar="[check | deploy] PLAN",
        help="the file of the plan; `check` judges it without a run, "
        "`deploy` makes a revision its last one",
    )
    parser.add_argument(
        "--rollout",
        metavar="FILE",
        help="`check` compares the plan with this Rollout, with which the switch is started",
    )
    options = parser.parse_args(words)
    command = command_of(options)
    if command is None:
        parser.error(
            "give the file of one plan: PLAN runs it, check PLAN checks it, and deploy PLAN NAME PORT.. deploys a revision by it"
        )
    return FRAME.run(command)
