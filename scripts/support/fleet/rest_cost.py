"""What a fleet at rest costs etcd: real agents, each with a switch in memory, at one real member of
etcd with TLS.

`PYTHONPATH=lib:scripts:. python3 -B -m support.fleet.rest_cost MEMBERS SECONDS` prints the processor
time of etcd as a share of one core, and the calls that it has had.
"""
import argparse
import contextlib
import io
import json
import os
import pathlib
import re
import ssl
import subprocess
import sys
import tempfile
import threading
import time
import urllib.request
from collections.abc import Iterator, Mapping

from support import TOP

# isort: split; `support` tells where the packages of the tools and of the tests are
sys.path.insert(0, str(TOP))
from bg_switch_tools.controller.log import Log  # noqa: E402
from bg_switch_tools.controller.rounds.controller import ROUND  # noqa: E402
from bg_switch_tools.fleet.agent.agent_process import AgentArguments, make_agent  # noqa: E402
from bg_switch_tools.fleet.plan.fleet_file import FleetFile  # noqa: E402
from bg_switch_tools.fleet.plan.fleet_plan import MachineSettings  # noqa: E402
from bg_switch_tools.fleet.record.record import FOLLOWS, View  # noqa: E402
from bg_switch_tools.fleet.store.etcd import EtcdStore  # noqa: E402
from bg_switch_tools.fleet.store.etcd_gateway import EtcdSettings  # noqa: E402
from bg_switch_tools.fleet.store.store import StoreError  # noqa: E402
from bg_switch_tools.fleet.store.store_endpoints import store_endpoint_of  # noqa: E402
from bg_switch_tools.fleet.store.tls_files import TlsFiles  # noqa: E402
from tests.fleet_simulation import SimulatedSwitch  # noqa: E402
from tests.real_etcd import Certificates, Cluster  # noqa: E402

FLEET, REVISION = "web", "v1"
EACH = 10  # agents in one process, so that no interpreter is short of time
LONGEST_START = 240.0  # seconds in which all agents follow
SETTLING = 15.0  # seconds from then on until the agents rest
# the pace of etcd in production, and not that of the tests
PACE = ("--heartbeat-interval=100", "--election-timeout=1000")
# a fleet begins although most of its agents are not up yet
PLAN = {"revisions": [{"name": REVISION, "ports": [9001]}], "fleet": {"max_missing": 1000}}
TICKS = os.sysconf("SC_CLK_TCK")
STARTED = re.compile(r'grpc_server_started_total\{grpc_method="(\w+)".*\} (\S+)')


def settings_of(endpoint: str, folder: pathlib.Path, timeout: float = 2.0) -> EtcdSettings:
    files = TlsFiles(*(str(folder / name) for name in ("ca.pem", "client.pem", "client.key")))
    return EtcdSettings((store_endpoint_of(endpoint),), files, timeout=timeout)


class Member:
    """An agent of a host, whose switch serves one revision."""

    def __init__(self, host: str, settings: EtcdSettings, folder: pathlib.Path) -> None:
        self.switch = SimulatedSwitch(has_pre=False)
        self.switch.open(REVISION)
        state, machine = folder / host, MachineSettings(8082)
        state.mkdir()
        self.process = make_agent(
            FleetFile(FLEET, settings, str(state), host, machine),
            machine,
            AgentArguments(state),
            Log(io.StringIO(), False),
            lambda seconds: EtcdStore(settings._replace(timeout=seconds), FLEET),
        )
        setattr(self.process.rounds, "do_round", self.do_round)

    def do_round(self) -> tuple[str | None, float]:
        """A round at the switch in memory."""
        report, agent = self.switch.report(), self.process.agent
        agent.machine.take_report(report, agent.now())
        return agent.text(report), ROUND


def run_agents(endpoint: str, folder: pathlib.Path, hosts: list[str]) -> None:
    """Runs the agents of these hosts until the process is ended."""
    settings = settings_of(endpoint, folder)
    for member in [Member(host, settings, folder) for host in hosts]:
        member.process.start()
    threading.Event().wait()


@contextlib.contextmanager
def agents(endpoint: str, folder: pathlib.Path, hosts: list[str]) -> Iterator[None]:
    """The agents of these hosts, in processes of their own."""
    with contextlib.ExitStack() as running:
        for first in range(0, len(hosts), EACH):
            words = ["--agents", endpoint, str(folder), *hosts[first : first + EACH]]
            process = running.enter_context(
                subprocess.Popen([sys.executable, "-B", "-m", "support.fleet.rest_cost", *words])
            )
            running.callback(process.kill)
        yield


class Etcd:
    """A member of etcd with TLS that asks for certificates."""

    def __init__(self, folder: pathlib.Path) -> None:
        made = Certificates(folder)
        made.sign("etcd", "IP:127.0.0.1", "/")
        made.sign("client", "DNS:fleet", "/")
        self.tls = ssl.create_default_context(cafile=made.path("ca.pem"))
        self.tls.load_cert_chain(made.path("client.pem"), made.path("client.key"))
        words = [
            "--cert-file",
            made.path("etcd.pem"),
            "--key-file",
            made.path("etcd.key"),
            "--trusted-ca-file",
            made.path("ca.pem"),
            "--client-cert-auth",
            *PACE,
        ]
        self.cluster = Cluster(1, words, "https", self.tls)
        self.endpoint = str(self.cluster.endpoints[0])
        self.store = EtcdStore(settings_of(self.endpoint, folder, 20.0), FLEET)

    def _file(self, name: str) -> str:
        process = self.cluster.members[0].process
        assert process
        return pathlib.Path(f"/proc/{process.pid}/{name}").read_text(encoding="ascii")

    def processor_seconds(self) -> float:
        """Its processor time so far."""
        user, system = self._file("stat").rsplit(")", 1)[1].split()[11:13]
        return (int(user) + int(system)) / TICKS

    def resident_bytes(self) -> int:
        return int(self._file("statm").split()[1]) * os.sysconf("SC_PAGE_SIZE")

    def calls(self) -> Mapping[str, float]:
        """How many calls it has begun, by their names."""
        url = f"https://{self.endpoint}/metrics"
        with urllib.request.urlopen(url, timeout=30, context=self.tls) as response:
            return {name: float(count) for name, count in STARTED.findall(response.read().decode())}

    def following(self) -> int:
        """How many machines report that they follow."""
        try:
            view = View(self.store.read())
        except StoreError as fault:
            print(f"rest_cost: {fault}", file=sys.stderr)
            return 0
        reports = [view.machine(host) for host in view.members]
        return sum(report is not None and report.state == FOLLOWS for report in reports)

    def await_following(self, count: int) -> None:
        end = time.monotonic() + LONGEST_START
        while self.following() < count:
            if time.monotonic() > end:
                raise TimeoutError(f"only {self.following()} of {count} agents follow")
            time.sleep(2)

    def measured(self, seconds: float) -> str:
        """What it takes in the next `seconds` seconds."""
        begun, spent, calls = time.monotonic(), self.processor_seconds(), self.calls()
        time.sleep(seconds)
        took = time.monotonic() - begun
        share = (self.processor_seconds() - spent) / took
        told = ", ".join(
            f"{name} {(count - calls.get(name, 0)) / took:.2f}"
            for name, count in sorted(self.calls().items())
            if count != calls.get(name, 0)
        )
        return f"{share:.4f} of a core over {took:.0f} seconds, {self.resident_bytes() >> 20} MiB; calls a second: {told}"


def cost(count: int, seconds: float) -> str:
    """What etcd takes for `count` members at rest, over `seconds` seconds."""
    hosts = [f"m{number:03}" for number in range(count)]
    with tempfile.TemporaryDirectory(prefix="bg-rest-") as name:
        folder = pathlib.Path(name)
        etcd = Etcd(folder)
        try:
            etcd.store.write([], {f"members/{host}": "" for host in hosts})
            etcd.store.write([], {"plan": json.dumps(PLAN)})
            with agents(etcd.endpoint, folder, hosts):
                etcd.await_following(count)
                time.sleep(SETTLING)
                told = etcd.measured(seconds)
                return f"{count} members: {told}; {etcd.following()} follow; load {os.getloadavg()[0]:.0f}"
        finally:
            etcd.cluster.remove()


def main() -> None:
    if sys.argv[1:2] == ["--agents"]:
        run_agents(sys.argv[2], pathlib.Path(sys.argv[3]), sys.argv[4:])
    parser = argparse.ArgumentParser(description=__doc__.splitlines()[0] if __doc__ else None)
    parser.add_argument("members", type=int)
    parser.add_argument("seconds", type=float)
    given = parser.parse_args()
    print(cost(given.members, given.seconds), flush=True)


if __name__ == "__main__":
    main()
