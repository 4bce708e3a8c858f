"""A controller before switches with a journal that are killed again and again: each start resumes what
was acknowledged, the controller goes on by the report, and sends no line twice. In the drill there
are operators at random and 200 requests a second, too."""
import contextlib
import random
import tempfile
import threading
import time
from collections.abc import Callable, Iterator
from typing import NamedTuple

from support import checks
from support.checks import check, comes
from support.journaled_machine import NAMES, WAIT, JournaledMachine
from support.journals import events_in
from support.random_orders import OrdersOverKills
from support.recorded_lines import in_doubt
from support.steady_clients import SteadyClients

# isort: split; `support` tells where the tools' package is
from bg_switch_tools.switch.reports import Report

# The reply to a deploy whose first reply was lost with the switch: it asks whether it was carried out.
ASKED_AGAIN = "refused SameTemplate"
# What is sent before a book is open, too.
BEFORE_AN_OPENING = ("down", "report")
# How often each analysis of a rollout begins.
ANALYSES = {"pre of b": 1, "post of b": 1, "pre of c": 2, "post of c": 2}
# Seconds that a switch lives, and between two kills of a rollout.
LIVES, BETWEEN = (0.2, 1.2), (0.1, 1.0)
CLIENTS, RATE = 8, 200
OPERATORS = 2
# The kills of the drill in the gate and by hand, and how many of them one journal takes.
KILLS, KILLS_BY_HAND, KILLS_EACH = 8, 500, 10
# The rollouts by hand, and the kills in one of them at most: without an end it makes no progress.
KILLS_OF_A_ROLLOUT, ROLLOUTS_BY_HAND, MOST_BY_HAND = 12, 20, 40
SEED = random.SystemRandom().randrange(10**9)


def of_people(orders: list[str]) -> list[str]:
    """The orders but for ticks."""
    return [order for order in orders if not order.startswith("tick ")]


class Step(NamedTuple):
    """What moves a rollout on, and the phase that follows with the newest revision."""

    act: Callable[[], object]
    phase: str
    newest: str


def steps_of(machine: JournaledMachine) -> list[Step]:
    """A good revision, one that fails after the switch, is tried again, and passes, and an undo by
    hand, which stands although the plan names another revision last."""

    def deploy_without_endpoint() -> None:
        machine.endpoints["b"].stop()
        machine.write_plan("a", "b")

    def retry() -> None:
        (machine.folder / "c.post").unlink()
        machine.order("retry", "aborted")

    def undo() -> None:
        check("a is scaled down", comes(lambda: machine.is_scaled_down(1), WAIT), True)
        machine.order(f"deploy {machine.template('a')}", "steady")

    return [
        Step(lambda: machine.write_plan("a"), "steady", "a"),
        Step(deploy_without_endpoint, "scaling", "b"),
        Step(lambda: machine.endpoints["b"].start(), "preAnalysis", "b"),
        Step(lambda: machine.end_analysis("b", "pre", 0), "paused", "b"),
        Step(lambda: machine.order("promote", "paused"), "postAnalysis", "b"),
        Step(lambda: machine.end_analysis("b", "post", 0), "steady", "b"),
        Step(lambda: machine.write_plan("a", "b", "c"), "preAnalysis", "c"),
        Step(lambda: machine.end_analysis("c", "pre", 0), "paused", "c"),
        Step(lambda: machine.order("promote", "paused"), "postAnalysis", "c"),
        Step(lambda: machine.end_analysis("c", "post", 1), "aborted", "c"),
        Step(retry, "paused", "c"),
        Step(lambda: machine.order("promote", "paused"), "postAnalysis", "c"),
        Step(lambda: machine.end_analysis("c", "post", 0), "steady", "c"),
        Step(undo, "preAnalysis", "a"),
        Step(lambda: machine.order("abort", "preAnalysis"), "aborted", "a"),
    ]


def orders_of(machine: JournaledMachine) -> list[str]:
    """The orders of these steps, however often the switch is killed meanwhile."""
    passed = ["verdict pre successful", "promote"]
    return [
        "available 1 1",
        f"deploy {machine.template('b')}",
        "available 2 1",
        *passed,
        "verdict post successful",
        f"deploy {machine.template('c')}",
        "available 3 1",
        *passed,
        "verdict post failed",
        "retry",
        *passed,
        "verdict post successful",
        f"deploy {machine.template('a')}",
        "available 1 1",
        "abort",
    ]


def check_rollout(machine: JournaledMachine) -> None:
    """The journal has the orders of the rollout, each once. Nothing was refused that was sent, but a
    deploy that was in doubt, and each analysis has begun once in each attempt."""
    machine.kill()
    kept = of_people(events_in(machine.rows))
    check("each order was given once", kept, orders_of(machine))
    refused = [
        f"{each.line} => {each.reply}"
        for each in machine.noted
        if each.reply.startswith("refused ") and each.line.split()[0] not in BEFORE_AN_OPENING
    ]
    doubted = [order for order in in_doubt(machine.noted) if order.startswith("deploy ")]
    asked_again = [f"{order} => {ASKED_AGAIN}" for order in doubted]
    check("what is refused", [each for each in refused if each not in asked_again], [])
    check("deploys that were asked again", len(refused) <= len(doubted), True)
    log = machine.log.read_text(encoding="utf-8")
    begun = {name: log.count(f"analysis {name} begins") for name in ANALYSES}
    check("analyses that have begun", begun, ANALYSES)
    machine.check_log()


@contextlib.contextmanager
def a_machine(seed: int) -> Iterator[JournaledMachine]:
    """A machine whose plan names the first revision, and whose book is open."""
    with tempfile.TemporaryDirectory() as folder:
        machine = JournaledMachine(folder, seed)
        machine.write_plan("a")
        with machine.controlled():
            machine.awaits("steady", "a")
            yield machine


def killed_in_each_phase() -> None:
    """In each phase the switch is killed once, and goes on where it was."""
    with a_machine(SEED) as machine:
        for step in steps_of(machine):
            step.act()
            machine.awaits(step.phase, step.newest)
            time.sleep(machine.chance.uniform(*BETWEEN))
            machine.kill_and_start()
            machine.awaits(step.phase, step.newest)
        check_rollout(machine)


def kill_again_and_again(machine: JournaledMachine, is_over: threading.Event, most: int) -> None:
    for _ in range(most):
        if is_over.wait(machine.chance.uniform(*BETWEEN)):
            return
        machine.kill_and_start()


def killed_meanwhile(seed: int = SEED, most: int = KILLS_OF_A_ROLLOUT) -> None:
    """The switch is killed at random moments of a rollout, also between a line and its reply."""
    with a_machine(seed) as machine:
        is_over = threading.Event()
        killer = threading.Thread(target=kill_again_and_again, args=(machine, is_over, most))
        killer.start()
        try:
            for step in steps_of(machine):
                step.act()
                machine.awaits(step.phase, step.newest)
        finally:
            is_over.set()
            killer.join()
        check_rollout(machine)
        check("the switch was killed", len(machine.outages) > 3, True)


def many_rollouts() -> None:
    for number in range(ROLLOUTS_BY_HAND):
        killed_meanwhile(SEED + number, MOST_BY_HAND)


def end_analyses_at_random(machine: JournaledMachine) -> None:
    for name in NAMES:
        for kind in ("pre", "post"):
            machine.end_analysis(name, kind, int(machine.chance.random() < 0.3))


def live(machine: JournaledMachine) -> None:
    """Operators and edits of the plan at random, and then a kill and a start."""
    end_analyses_at_random(machine)
    if machine.chance.random() < 0.5:
        machine.write_plan(*machine.chance.sample(NAMES, len(NAMES)))
    ports = {name: (endpoint.port,) for name, endpoint in machine.endpoints.items()}
    operators = [
        OrdersOverKills(machine.lines.port, ports, machine.chance.randrange(10**9))
        for _ in range(OPERATORS)
    ]
    is_over = threading.Event()
    threads = [threading.Thread(target=each.play, args=(is_over,)) for each in operators]
    for thread in threads:
        thread.start()
    time.sleep(machine.chance.uniform(*LIVES))
    machine.kill()
    is_over.set()
    for thread in threads:
        thread.join()
    machine.start_later()


def drill(kills: int) -> None:
    """Kills of the switch under a controller, operators and 200 requests a second."""
    print(f"live_resumed: the seed of the drill is {SEED}", flush=True)
    carried_out = requests = 0
    for first in range(0, kills, KILLS_EACH):
        with a_machine(SEED + first) as machine:
            asking = SteadyClients(machine.switch.active, RATE, CLIENTS)
            for _ in range(first, min(first + KILLS_EACH, kills)):
                live(machine)
            moment = machine.report()
            asking.end()
            check("requests that fail", asking.unexplained(machine.outages), [])
            check(
                "the controller ticks on", comes(lambda: has_ticked(machine, moment), WAIT), True
            )  # noqa: B023
            machine.kill()
            machine.check_log()
            carried_out += len(machine.rows) - 1
            requests += asking.answered
    check("orders were carried out", carried_out > kills, True)
    check("requests were answered", requests > 10 * kills, True)
    print(
        f"live_resumed: {kills} kills, {carried_out} orders were carried out, {requests} requests answered",
        flush=True,
    )


def has_ticked(machine: JournaledMachine, before: Report | None) -> bool:
    report = machine.report()
    return report is not None and (before is None or report.moment > before.moment)


def kills_at_random() -> None:
    drill(KILLS)


def many_kills_at_random() -> None:
    drill(KILLS_BY_HAND)


if __name__ == "__main__":
    checks.run(
        "live_resumed",
        [killed_in_each_phase, killed_meanwhile, kills_at_random],
        at_once=3,
        by_hand=[many_rollouts, many_kills_at_random],
    )
