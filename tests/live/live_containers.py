"""examples/production/containers with other names and ports: endpoints in a network namespace, the
switch and its controller before them, a second revision, an endpoint that is killed, and a network
that is down for a while. Skipped without root and `ip`, which namespaces need."""
import contextlib
import json
import os
import pathlib
import shlex
import subprocess
import sys
import tempfile
from collections.abc import Iterator, Sequence

from support import TOP, checks, processes
from support.checks import check, comes
from support.endpoints import Endpoint, by_target
from support.fleet.hosts import Namespaces
from support.ports import free_ports
from support.switch import LISTENING, Switch
from support.units import placed, values

PRODUCTION = TOP / "examples" / "production"
EXAMPLE = PRODUCTION / "containers"
CONTROLLER = str(TOP / "bin" / "controller")
NAMESPACE, ADDRESS = "bg-web", "10.203.0.2"
# The name of the namespace and of its link in this run, which has at most 15 bytes, and a network of
# its own.
NAME = f"bgw{os.getpid()}"
FRONT = f"10.203.{os.getpid() % 250 + 1}"
NETWORK, HERE, THERE = f"{FRONT}.0/30", f"{FRONT}.1", f"{FRONT}.2"
CONTROL = "/run/bg-switch/control"
FLAG = f"--endpoint-address {ADDRESS} "
SOON = 30  # seconds


def unit_words(name: str, key: str) -> list[str]:
    """The words of the last command that a file of the example has for a key."""
    return shlex.split(values((EXAMPLE / name).read_text(encoding="ascii"), key)[-1])


def check_words() -> None:
    """The drop-in starts the switch as its unit does, with the address of the endpoints, which it
    lets the switch reach; and the units, the script and the plan name the same things."""
    (start,) = values((PRODUCTION / "bg-switch.service").read_text(encoding="ascii"), "ExecStart")
    dropped = (EXAMPLE / "bg-switch.conf").read_text(encoding="ascii")
    first, start_here = values(dropped, "ExecStart")
    check("the drop-in takes the command of the unit away", first, "")
    check("the drop-in has the flag", FLAG in start_here, True)
    check("its other words are those of the unit", start_here.replace(FLAG, ""), start)
    check("the unit may reach the endpoints", values(dropped, "IPAddressAllow"), [ADDRESS])
    plan = json.loads((EXAMPLE / "plan.json").read_text(encoding="ascii"))
    check("the address of the plan", plan["endpoint_address"], ADDRESS)
    check(
        "the namespace of the endpoints",
        values((EXAMPLE / "bg-web@.service").read_text(encoding="ascii"), "NetworkNamespacePath"),
        [f"/run/netns/{NAMESPACE}"],
    )


class Network:
    """The network of the example, by its script."""

    def __init__(self, folder: pathlib.Path) -> None:
        self.script = folder / "network"
        text = placed(
            EXAMPLE / "bg-web-network",
            {
                f"namespace={NAMESPACE}": f"namespace={NAME}",
                f"link={NAMESPACE}": f"link={NAME}",
                "network=10.203.0.0/30": f"network={NETWORK}",
                "here=10.203.0.1": f"here={HERE}",
                f"there={ADDRESS}": f"there={THERE}",
            },
        )
        self.script.write_text(text, encoding="ascii")
        self.script.chmod(0o755)

    def call(self, word: str) -> None:
        """Runs the script as its unit does."""
        started = unit_words(
            "bg-web-network.service", {"up": "ExecStart", "down": "ExecStop"}[word]
        )
        check(f"the unit's word for {word}", started[1:], [word])
        run = processes.run_to_end([str(self.script), word])
        check(f"the network goes {word}", (run.status, run.printed, run.told), (0, "", ""))

    def set_link(self, state: str) -> None:
        subprocess.run(["ip", "link", "set", NAME, state], check=True)


class Web:
    """Endpoints that the unit of the example starts in the namespace."""

    def __init__(self, folder: pathlib.Path) -> None:
        self.folder = folder
        self.running: dict[int, subprocess.Popen[bytes]] = {}

    def start(self, port: int, text: str) -> None:
        """Starts the endpoint at a port, whose page has this text."""
        pages = self.folder / str(port)
        pages.mkdir()
        (pages / "index.html").write_text(text, encoding="ascii")
        words = [
            word.replace("/srv/web/%i", str(pages)).replace("%i", str(port))
            for word in unit_words("bg-web@.service", "ExecStart")
        ]
        self.running[port] = subprocess.Popen(
            ["ip", "netns", "exec", NAME, *words],
            stdout=subprocess.DEVNULL,
            stderr=subprocess.DEVNULL,
        )
        processes.limit(self.running[port])

    def end(self) -> None:
        for process in self.running.values():
            process.kill()
            process.wait()


@contextlib.contextmanager
def switch_in(folder: pathlib.Path) -> Iterator[Switch]:
    """The switch, with the words of the drop-in that do not name its place."""
    words = unit_words("bg-switch.conf", "ExecStart")
    concurrency = words[words.index("--concurrency") :]
    check("the last word", concurrency.pop(), "--forever")
    switch = Switch(
        (PRODUCTION / "rollout.json").read_text(encoding="ascii"),
        instead_of_workers=concurrency,
        path=str(folder / "control"),
        descriptors=8192,
        flags=("--endpoint-address", THERE, "--journal", str(folder / "journal")),
    )
    check("listening", switch.first, LISTENING)
    try:
        yield switch
    finally:
        switch.kill()


@contextlib.contextmanager
def controlled(plan: pathlib.Path) -> Iterator[None]:
    """The controller of a plan."""
    with open(plan.with_suffix(".log"), "wb") as log:
        controller = subprocess.Popen([CONTROLLER, str(plan)], stdout=log)
    processes.limit(controller)
    try:
        yield
    finally:
        controller.terminate()
        processes.status_of(controller, SOON)


class Production:
    """The example while it runs."""

    def __init__(self, network: Network, web: Web, switch: Switch, plan: pathlib.Path) -> None:
        self.network, self.web, self.switch, self.plan = network, web, switch, plan

    def write_plan(self, revisions: Sequence[tuple[str, Sequence[int]]]) -> None:
        """The plan of the example with these revisions."""
        plan = json.loads(
            placed(
                EXAMPLE / "plan.json",
                {
                    CONTROL: self.switch.path,
                    ADDRESS: THERE,
                    '"active": 8080': f'"active": {self.switch.active}',
                    '"preview": 8081': f'"preview": {self.switch.preview}',
                },
            )
        )
        plan["revisions"] = [{"name": name, "ports": list(ports)} for name, ports in revisions]
        self.plan.write_text(json.dumps(plan), encoding="ascii")

    def answers(self) -> set[tuple[int, bytes] | None]:
        """What four clients are answered, one after the other."""
        return {self.switch.get(self.switch.active) for _ in range(4)}

    def await_answer(self, name: str, status: int, text: str) -> None:
        """A check that in time all clients are answered with this."""
        comes(lambda: self.answers() == {(status, text.encode())}, SOON)
        check(name, self.answers(), {(status, text.encode())})

    def await_report(self, name: str, text: str) -> None:
        """A check that in time the report has this text."""
        comes(lambda: text in self.report(), SOON)
        check(name, text in self.report() or self.report(), True)

    def report(self) -> str:
        with contextlib.closing(self.switch.operator()) as operator:
            return operator.report()


def rolls_out(production: Production, first: Sequence[int], second: Sequence[int]) -> None:
    """Live traffic moves to a second revision in the namespace. Endpoints of the same numbers at
    127.0.0.1 are not asked."""
    with contextlib.ExitStack() as stack:
        local = [Endpoint(by_target(b"local"), port) for port in (*first, *second)]
        for endpoint in local:
            stack.callback(endpoint.stop)
        for port in first:
            production.web.start(port, "web-v1")
        production.write_plan([("web-v1", first)])
        with controlled(production.plan):
            production.await_report(
                "the first revision", "revision 1 web-v1 desired 2 available 2 "
            )
            production.await_answer("the first revision is live", 200, "web-v1")
            for port in second:
                production.web.start(port, "web-v2")
            production.write_plan([("web-v1", first), ("web-v2", second)])
            production.await_report("a pause", "phase paused\n")
            got = production.switch.get(production.switch.preview)
            check("the preview service", got, (200, b"web-v2"))
            promoted = production.switch.answer_to("promote")
            check("a promotion", promoted.split()[0], "ok")
            production.await_answer("the second revision is live", 200, "web-v2")
        check("requests at 127.0.0.1", [endpoint.served for endpoint in local], [0] * len(local))


def loses_endpoints(production: Production, ports: Sequence[int]) -> None:
    """An endpoint that is killed gets no request, and a network that is down is noticed."""
    with controlled(production.plan):
        production.web.running[ports[0]].kill()
        production.await_report("an endpoint is down", "web-v2 desired 2 available 1 ")
        production.await_answer("the other one answers", 200, "web-v2")
        production.network.set_link("down")
        got = production.switch.get(production.switch.active)
        check("a request while the network is down", got, (502, b""))
        production.await_report("the network is down", "web-v2 desired 2 available 0 ")
        production.await_answer("no endpoint is available", 503, "")
        production.network.set_link("up")
        production.await_answer("the network is back", 200, "web-v2")


def containers() -> None:
    with tempfile.TemporaryDirectory() as name, contextlib.ExitStack() as stack:
        folder = pathlib.Path(name)
        network, web = Network(folder), Web(folder)
        network.call("up")
        stack.callback(network.call, "down")
        stack.callback(web.end)
        switch = stack.enter_context(switch_in(folder))
        production = Production(network, web, switch, folder / "plan.json")
        ports = free_ports(4)
        first, second = ports[:2], ports[2:]
        rolls_out(production, first, second)
        loses_endpoints(production, second)
        check("no request is open", comes(lambda: sum(switch.open_requests()) == 0), True)
    check("the namespace is gone", os.path.exists(f"/run/netns/{NAME}"), False)


if __name__ == "__main__":
    if not Namespaces.can_be_made():
        print("live_containers: skipped, since it needs root and ip", flush=True)
        sys.exit()
    checks.run("live_containers", [check_words, containers])
