#!/usr/bin/env python3
"""A fleet of three machines, on this one: a good revision, a revision that fails on one machine,
and a machine that crashes.

It starts etcd, HAProxy, and for each machine a switch and an agent, by the files beside this
script, with other ports. Clients ask HAProxy without pause. It needs no root, but etcd, haproxy and
curl (Debian: etcd-server, haproxy and curl). It ends with status 0 if each step has come and no
request has failed. Nothing is left behind, also after ctrl-C.
"""
import pathlib
import signal
import sys
import tempfile
import time
from types import FrameType

HERE = pathlib.Path(__file__).resolve().parent
TOP = HERE.parents[1]
sys.dont_write_bytecode = True
sys.path.insert(0, str(TOP / "scripts"))

from support.checks import comes  # noqa: E402 (its folder is known by now)
from support.fleet.demonstration import HOSTS, Clients, Machines, missing_packages  # noqa: E402

CALM = 1.5  # seconds of requests that are counted after a step
LONGEST = 60.0  # seconds for which anything is awaited
SICK, CRASHING = "web-2", "web-3"


class Story:
    """The steps, each with its commands, and with the requests after it."""

    def __init__(self, machines: Machines, clients: Clients) -> None:
        self.machines = machines
        self.clients = clients
        self.told = ""  # the last line of a command

    def tell(self, text: str) -> None:
        print(f"\n# {text}", flush=True)

    def order(self, *words: str, status: int = 0) -> None:
        """Runs bin/fleet as a person does, and prints what it prints. Any other status than this
        one ends the story."""
        print(f"$ fleet {' '.join(words)}", flush=True)
        with self.machines.order(*words) as process:
            self.told = ""
            for line in process.stdout or ():
                self.repeat(line.removeprefix("fleet: "))
        if process.returncode != status:
            sys.exit(
                f"fleet {' '.join(words)} ended with status {process.returncode}, and not {status}"
            )

    def repeat(self, line: str) -> None:
        """Prints a line, but not twice: a wait tells the last state once more at its end."""
        if line != self.told:
            print(f"    {line}", end="", flush=True)
        self.told = line

    def show_requests(self, revision: str, hosts: tuple[str, ...] = HOSTS) -> None:
        """Counts requests for a while: each of these machines, and no other one, answers with this
        revision alone."""
        self.clients.part()
        time.sleep(CALM)
        answered = self.clients.part()
        told = ", ".join(
            f"{host} {count} by {name}" for (host, name), count in sorted(answered.items())
        )
        print(f"    requests answered: {told}; failed so far: {self.clients.failed}", flush=True)
        if set(answered) != {(host, revision) for host in hosts}:
            sys.exit(f"{revision} was to answer on {', '.join(hosts)}, and nothing else")

    def promote(self) -> None:
        """Promotes by hand, once all machines are ready."""
        self.order("wait", "web-v3=ready")
        self.order("promote")

    def await_answers(self, host: str) -> None:
        """Waits until a machine answers clients."""
        if not comes(lambda: any(machine == host for machine, _ in self.clients.part()), LONGEST):
            sys.exit(f"{host} does not answer")

    def begin(self) -> None:
        self.tell(
            "Three machines are members. The first plan has the revision with which the fleet begins."
        )
        if not comes(self.machines.all_report, LONGEST):
            sys.exit("not all agents report")
        self.order("members", "add", *HOSTS)
        self.order("plan", "plan-v1.json")
        self.order("wait", "settled")
        if not comes(self.machines.all_answer, LONGEST):
            sys.exit("not all machines answer")
        self.clients.start()
        self.show_requests("web-v1")

    def deploy_good(self) -> None:
        self.tell(
            "A good revision: web-v2 is deployed and tested on each machine, and goes live when all are ready."
        )
        self.order("plan", "plan-v2.json")
        self.order("wait", "web-v2=successful")
        self.show_requests("web-v2")

    def deploy_bad(self) -> None:
        self.tell(
            f"web-v3 is promoted by hand. Its test after the switch fails on {SICK}, so all three machines go back."
        )
        self.machines.spoil(SICK, "web-v3")
        self.order("plan", "plan-v3.json")
        self.promote()
        self.order("wait", "web-v3=aborted")
        self.order("wait", "settled")
        self.order("status", status=1)  # by which CI knows that the attempt was aborted
        self.show_requests("web-v2")

    def crash(self) -> None:
        self.tell(
            f"{CRASHING} crashes: its switch and its agent are killed. HAProxy sends its requests to the other two."
        )
        self.machines.kill(CRASHING)
        time.sleep(CALM)
        self.show_requests("web-v2", tuple(host for host in HOSTS if host != CRASHING))
        self.tell(
            f"The cause on {SICK} is mended, and web-v3 is tried again. The attempt waits for {CRASHING}."
        )
        self.machines.mend(SICK, "web-v3")
        self.order("retry")
        self.order("wait", "web-v3=deploying")
        time.sleep(CALM)
        self.order("status")
        self.tell(f"{CRASHING} is started again. It opens with web-v2, and joins the attempt.")
        self.machines.start(CRASHING)
        self.await_answers(CRASHING)
        self.promote()
        self.order("wait", "web-v3=successful")
        self.show_requests("web-v3")

    def play(self) -> None:
        for step in (self.begin, self.deploy_good, self.deploy_bad, self.crash):
            step()


def interrupt(number: int, _: FrameType | None) -> None:
    raise SystemExit(128 + number)


def outcome(clients: Clients) -> int:
    """Prints what came of all requests. Gives the exit status."""
    print(f"\nrequests: {clients.count}, failed: {clients.failed}")
    for failure in clients.failures:
        print(f"    {failure}")
    return 0 if clients.count and not clients.failed else 1


def main() -> int:
    if packages := missing_packages():
        print(
            f"the demonstration needs these packages: apt-get install {' '.join(packages)}",
            file=sys.stderr,
        )
        return 1
    for number in (signal.SIGINT, signal.SIGTERM):
        signal.signal(number, interrupt)
    with tempfile.TemporaryDirectory(prefix="bg-fleet-") as folder, Machines(
        pathlib.Path(folder), HERE
    ) as machines:
        print(f"clients ask {machines.address}, and you can too")
        clients = Clients(machines.front)
        Story(machines, clients).play()
        clients.end()
    return outcome(clients)


if __name__ == "__main__":
    sys.exit(main())
