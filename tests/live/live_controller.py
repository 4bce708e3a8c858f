"""bin/controller before a running `serve` and endpoints: through a deploy, endpoints that are
killed, a failed analysis, a retry, an undo and an abort by hand; an outage of all endpoints after
the switch; and rollouts whose endpoints the plan starts and stops, under requests, while the
controller and the switch are killed."""
import contextlib
import os
import pathlib
import re
import subprocess
import tempfile
import time
from collections.abc import Iterator

from support import TOP, checks, processes
from support.checks import check, check_soon, comes
from support.endpoints import Endpoint, by_target
from support.launched import Launched, Traffic
from support.operators import Operator
from support.plans import Plan
from support.ports import free_ports
from support.processes import run_to_end, status_of
from support.switch import Switch

# isort: split; `support` tells where the tools' package is
from bg_switch_tools.controller.state.state_file import write_whole

# Another seed kills at other moments:
# SEED=7 PYTHONPATH=scripts python3 -B tests/live/live_controller.py --by-hand
SEED = int(os.environ.get("SEED", "1"))
CONTROLLER = str(TOP / "bin" / "controller")
WAIT = 20  # seconds for which anything is awaited; longer on a busy machine
PROBE = 60  # seconds for a probe: an endpoint that is down refuses it, and others may be slow
LINE = re.compile(
    r"\d{4}-\d\d-\d\dT\d\d:\d\d:\d\d[+-]\d\d:\d\d (moment (?P<moment>\d+): )?(?P<text>\S.*)"
)
GOOD, BAD, ENDLESS = 'test -n "$BG_REVISION" -a -n "$BG_PORTS" || exit 3', "exit 1", "sleep 600"
ROLLOUT = """{"spec": {"replicas": 2, "strategy": {"blueGreen": {"activeService": "web",
"previewService": "web-preview", "prePromotionAnalysis": {}, "postPromotionAnalysis": {},
"scaleDownDelaySeconds": 1}}}}"""


class ControlledSwitch:
    """A switch, endpoints of three revisions, and the folder of a plan whose analyses are the
    scripts `pre` and `post`."""

    def __init__(self, folder: str, redispatch: bool = False) -> None:
        self.folder = pathlib.Path(folder)
        self.ports = {name: free_ports(2) for name in ("one", "two", "three")}
        self.endpoints = {
            port: Endpoint(by_target(name.encode()), port)
            for name, ports in self.ports.items()
            for port in ports
        }
        self.switch = (
            Switch(ROLLOUT, instead_of_workers=("--concurrency", "8", "--redispatch"))
            if redispatch
            else Switch(ROLLOUT, workers=2, count=100)
        )
        self.log = self.folder / "log"
        # Without --redispatch, the first endpoints up to one that is down take requests.
        self.plan = Plan(
            folder,
            self.switch.control,
            redispatch=redispatch,
            health={"path": "/", "interval": 0.3, "timeout": PROBE, "failures": 2},
            analyses={"pre": ["sh", "pre"], "post": ["sh", "post"]},
        )
        self.write("pre", GOOD)
        self.write("post", GOOD)

    def write(self, name: str, text: str) -> None:
        """Puts the script of an analysis in place."""
        write_whole(str(self.folder / name), text.encode())

    def write_plan(self, *names: str) -> None:
        self.plan.write([(name, self.ports[name]) for name in names])

    def report(self) -> str:
        with contextlib.closing(Operator(self.switch.control)) as operator:
            return operator.report()

    @contextlib.contextmanager
    def controlled(self) -> Iterator[subprocess.Popen[bytes]]:
        """A controller runs by the plan, and writes its log; both it and the switch are ended."""
        with open(self.log, "wb") as log:
            controller = subprocess.Popen([CONTROLLER, self.plan.path], stdout=log)
        processes.limit(controller)
        try:
            yield controller
        finally:
            controller.terminate()
            status_of(controller, WAIT)
            self.switch.kill()

    def text_of_log(self) -> str:
        return self.log.read_text(encoding="utf-8")

    def await_log(self, name: str, text: str) -> None:
        """A check that in time the log has this text."""
        comes(lambda: text in self.text_of_log(), WAIT)
        check(name, text in self.text_of_log() or self.text_of_log(), True)

    def await_report(self, name: str, *expected: str) -> None:
        """A check that in time the report has each of these texts."""
        comes(lambda: all(text in self.report() for text in expected), WAIT)
        report = self.report()
        check(name, [text for text in expected if text not in report], [])

    def send(self, line: str, expected: str) -> None:
        with contextlib.closing(Operator(self.switch.control)) as operator:
            operator.check(line, expected)

    def check_active(self, name: str, expected: tuple[int, bytes], count: int = 1) -> None:
        """A check of what the active service answers `count` clients."""
        check(name, [self.switch.get(self.switch.active) for _ in range(count)], [expected] * count)


def deploys(setup: ControlledSwitch) -> None:
    setup.await_report(
        "the first revision is opened",
        "revision 1 one desired 2 available 2 open 0 deadline none\n",
    )
    setup.write_plan("one", "two")
    setup.await_report(
        "a deploy",
        "phase steady\n",
        "active 2\n",
        "stable 2\n",
        "revision 2 two desired 2 available 2 ",
    )
    setup.check_active("live traffic has moved", (200, b"two"))
    setup.await_report(
        "the old one is scaled down", "revision 1 one desired 0 available 0 open 0 deadline none\n"
    )


def endpoints_die(setup: ControlledSwitch) -> None:
    first, second = (setup.endpoints[port] for port in setup.ports["two"])
    second.stop()
    setup.await_report("the second endpoint was killed", "revision 2 two desired 2 available 1 ")
    setup.check_active("the first one answers", (200, b"two"), 4)
    second.start()
    setup.await_report("it is up again", "revision 2 two desired 2 available 2 ")
    first.stop()
    setup.await_report("the first endpoint was killed", "revision 2 two desired 2 available 0 ")
    setup.check_active("none of the first ones is up", (503, b""))
    first.start()
    setup.await_report("both are up again", "revision 2 two desired 2 available 2 ")


def analysis_fails(setup: ControlledSwitch) -> None:
    setup.write("post", BAD)
    setup.write_plan("one", "two", "three")
    setup.await_report("an analysis that failed", "phase aborted\n", "active 2\n", "newest 3\n")
    setup.check_active("live traffic is back", (200, b"two"))
    setup.write("post", GOOD)
    setup.send("retry", "ok 1")
    setup.await_report("a retry", "phase steady\n", "active 3\n", "stable 3\n")
    setup.check_active("live traffic is at the newest", (200, b"three"))


def operator_steps_in(setup: ControlledSwitch) -> None:
    """An undo by hand stands, and an abort ends the analysis that runs."""
    setup.write("pre", ENDLESS)
    setup.send("deploy one {} {}".format(*setup.ports["one"]), "ok 0")
    setup.await_report("an undo by hand", "phase preAnalysis\n", "newest 1\n")
    setup.await_log("an analysis of the undo", "analysis pre of one begins")
    setup.send("abort", "ok 0")
    setup.await_log("the abort", "phase: preAnalysis -> aborted")
    setup.write("pre", GOOD)
    setup.send("retry", "ok 1")
    setup.await_report("an undo that was tried again", "phase steady\n", "active 1\n", "stable 1\n")


def check_log(log: str) -> None:
    """What the controller has told of its orders."""
    lines = [LINE.fullmatch(line) for line in log.rstrip("\n").split("\n")]
    check(
        "each line has a time with its zone, and a moment once a book is open", None in lines, False
    )
    told = [line["text"] for line in lines if line]
    replies = [text for text in told if " => " in text]
    check(
        "nothing was refused",
        [reply for reply in replies if "refused" in reply or "fault" in reply],
        [],
    )
    check(
        "verdicts",
        [reply.split(" => ")[0] for reply in replies if reply.startswith("verdict")],
        [
            "verdict pre successful",
            "verdict post successful",
            "verdict pre successful",
            "verdict post failed",
            "verdict pre successful",
            "verdict post successful",
            "verdict pre successful",
            "verdict post successful",
        ],
    )
    moments = [int(line["moment"]) for line in lines if line and line["moment"]]
    check(
        "seconds are ticked",
        (moments == sorted(moments), moments[-1] - moments[0] > 5),
        (True, True),
    )
    check("no tick is told", [text for text in told if text.startswith("tick ")], [])
    check("what others ordered is told", "phase: preAnalysis -> aborted" in told, True)


def whole_run() -> None:
    with tempfile.TemporaryDirectory() as folder:
        setup = ControlledSwitch(folder)
        setup.write_plan("one")
        with setup.controlled() as controller:
            for part in (deploys, endpoints_die, analysis_fails, operator_steps_in):
                part(setup)
        check("the controller's status", controller.returncode, 0)
        check_log(setup.text_of_log())


def outage_after_the_switch() -> None:
    """All endpoints of the revision that has just gone live are killed while its analysis runs:
    live traffic goes back within ten seconds, with the defaults of the plan."""
    with tempfile.TemporaryDirectory() as folder:
        setup = ControlledSwitch(folder)
        setup.plan.told.pop("health")
        setup.write("post", ENDLESS)
        setup.write_plan("one")
        with setup.controlled():
            setup.await_report("it is open", "available 2 open 0 deadline none\n")
            setup.write_plan("one", "two")
            setup.await_report("it is live", "phase postAnalysis\n", "active 2\n")
            for port in setup.ports["two"]:
                setup.endpoints[port].stop()
            begun = time.monotonic()
            comes(lambda: "active 1\n" in setup.report(), WAIT)
            check_soon("live traffic is back", time.monotonic() - begun, 10)
            setup.check_active("the stable revision answers", (200, b"one"), 4)
        log = setup.text_of_log()
        check(
            "it is told",
            (
                "no endpoint is up of revision 2 two, which is active" in log,
                "verdict post error => ok" in log,
            ),
            (True, True),
        )


def endpoints_die_one_by_one() -> None:
    """The first of two endpoints is killed, then the second, then both, by a switch that passes
    over those that are down: a request fails only while both are gone."""
    with tempfile.TemporaryDirectory() as folder:
        setup = ControlledSwitch(folder, redispatch=True)
        setup.write_plan("two")
        first, second = (setup.endpoints[port] for port in setup.ports["two"])
        with setup.controlled():
            setup.await_report("it is open", "revision 1 two desired 2 available 2 ")
            for killed, name in ((first, "first"), (second, "second")):
                killed.stop()
                setup.check_active(f"the {name} endpoint was killed just now", (200, b"two"), 20)
                setup.await_report(
                    f"the {name} endpoint was killed", "revision 1 two desired 2 available 1 "
                )
                setup.check_active(f"the {name} endpoint is known to be down", (200, b"two"), 20)
                killed.start()
                setup.await_report(
                    f"the {name} endpoint is up again", "revision 1 two desired 2 available 2 "
                )
            first.stop()
            second.stop()
            setup.await_report("both are down", "revision 1 two desired 2 available 0 ")
            setup.check_active("none is up", (503, b""))
            first.start()
            setup.await_report("one is up again", "revision 1 two desired 2 available 1 ")
            setup.check_active("the one that is up answers", (200, b"two"), 20)


def launched_rollout() -> None:
    """One edit of the plan, from no process to the end of the old ones: no request fails, though
    the controller is killed."""
    with tempfile.TemporaryDirectory() as folder:
        setup = Launched(folder, SEED)
        try:
            setup.await_settled("web-v1")
            traffic = Traffic(setup.active)
            setup.name_last("web-v2")
            setup.kill_at_random(3, setup.kill_controller)
            setup.await_settled("web-v2")
            traffic.stop()
            setup.check_traffic(traffic)
            setup.check_calls()
        finally:
            setup.end()


def launched_under_kills(rounds: int, kills: int) -> None:
    """Rollout after rollout, while the controller and the switch are killed."""
    with tempfile.TemporaryDirectory() as folder:
        setup = Launched(folder, SEED + rounds)
        try:
            setup.await_settled("web-v1")
            traffic = Traffic(setup.active)
            for number in range(2, 2 + rounds):
                setup.name_last(f"web-v{number}")
                setup.kill_at_random(
                    kills, setup.kill_controller, setup.kill_switch, setup.kill_both
                )
                setup.await_settled(f"web-v{number}")
            traffic.stop()
            setup.check_traffic(traffic)
            setup.check_calls()
        finally:
            setup.end()


def launched_with_kills() -> None:
    launched_under_kills(1, 4)


def launched_with_many_kills() -> None:
    launched_under_kills(6, 6)


def plans_that_are_wrong() -> None:
    with tempfile.TemporaryDirectory() as folder:
        plan = pathlib.Path(folder) / "plan.json"
        for text in (
            "",
            "{}",
            "[]",
            '{"control": 1, "revisions": []}',
            '{"control": 1, "revisions": [{"name": "a"}]}',
        ):
            plan.write_text(text, encoding="ascii")
            run = run_to_end([CONTROLLER, str(plan)], longest=WAIT)
            check(
                f"the plan {text!r}",
                (run.printed, run.status, "is not a plan" in run.told),
                ("", 1, True),
            )


if __name__ == "__main__":
    print(f"live_controller: seed {SEED}", flush=True)
    checks.run(
        "live_controller",
        [
            whole_run,
            plans_that_are_wrong,
            outage_after_the_switch,
            endpoints_die_one_by_one,
            launched_rollout,
            launched_with_kills,
        ],
        4,
        by_hand=[launched_with_many_kills],
    )
