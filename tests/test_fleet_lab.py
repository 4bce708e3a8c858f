"""The hosts and programs of a fleet's drill, before a stand-in for the switch: what they record,
their faults, and that all ends."""
import concurrent.futures
import contextlib
import os
import pathlib
import signal
import statistics
import subprocess
import sys
import tempfile
import time
import unittest
from collections.abc import Sequence

from support.fleet.etcd_client import EtcdClient, EtcdClientError
from support.fleet.hosts import Address, Namespaces, Network, OneHost
from support.fleet.lab import FLEET, Lab, missing_programs
from support.fleet.programs import PATHS
from support.fleet.recording import Event
from support.fleet.rules import rule_5, Run
from support.pace import is_within
from tests.tool_runs import TOP, WAIT, comes

HOSTS = ("a", "b", "c")
MISSING = missing_programs()


def switch_words(lab: Lab, host: str) -> Sequence[str]:
    places = lab.network.addresses(host)
    return [
        sys.executable,
        "-B",
        "-m",
        "tests.stand_in_switch",
        "serve",
        "--active",
        str(places.active.port),
        "--control",
        str(places.control.port),
        "--preview",
        str(places.preview.port),
    ]


def lab_in(folder: str, network: Network) -> Lab:
    return Lab(
        pathlib.Path(folder),
        HOSTS,
        revisions=3,
        network=network,
        switch=switch_words,
        agent=None,
        is_quiet=True,
    )


def processes_in(folder: str) -> list[str]:
    """The command lines of processes that name a folder."""
    found = []
    for path in pathlib.Path("/proc").glob("[0-9]*/cmdline"):
        with contextlib.suppress(OSError):
            line = path.read_bytes().replace(b"\0", b" ").decode("utf-8", "replace")
            if folder in line and str(os.getpid()) not in path.parts:
                found.append(line)
    return found


class OneMember(EtcdClient):
    """Asks the members as a host reaches them."""

    def __init__(self, network: Network, host: str) -> None:
        super().__init__(network, FLEET)
        self.endpoints: list[Address] = network.etcd_of(host)

    def answers(self) -> bool:
        try:
            return self.revision() > 0
        except EtcdClientError:
            return False


class Base(unittest.TestCase):
    def network(self) -> Network:
        raise NotImplementedError

    def open_all(self, lab: Lab) -> None:
        for host in HOSTS:
            self.open(lab, host)

    def open(self, lab: Lab, host: str) -> None:
        first, second = lab.ports_of(1)
        self.assertTrue(
            comes(lambda: lab.send(host, f"open web-1 {first} {second}").printed == "ok 0\n")
        )
        self.assertEqual(lab.send(host, "available 1 2").printed, "ok 0\n")

    def check_seen(self, lab: Lab, host: str, active: str) -> None:
        """The looks at a switch come to show this active revision."""
        has_come = comes(lambda: lab.looks()[host].active == active)
        self.assertTrue(has_come, f"{host}: {lab.looks()}")

    def play(self) -> None:
        with tempfile.TemporaryDirectory() as folder:
            with lab_in(folder, self.network()) as lab:
                self.open_all(lab)
                for host in HOSTS:
                    self.check_seen(lab, host, "web-1")
                lab.start_clients()
                lab.etcd.put("plan", "first")
                self.check_deploy(lab)
                self.check_killed_switch(lab)
                self.check_etcd(lab)
                time.sleep(0.5)
                run = lab.record()
            self.assertEqual(processes_in(folder), [])
        first, second, deleted = run.events
        self.assertEqual(
            [first, second, deleted],
            [
                Event(first.revision, "plan", "first", first.revision),
                Event(second.revision, "plan", "second", first.revision),
                Event(deleted.revision, "plan", None),
            ],
        )
        self.assertEqual(
            [(outage.what, outage.host) for outage in run.outages],
            [("switch", "b"), ("etcd", "c"), *self.cut_outages()],
        )
        self.assertGreater(len(run.polls), 20)
        self.assertEqual(
            {request.host for request in run.requests if request.status == 200}, set(HOSTS)
        )
        self.assertEqual(
            {
                request.revision
                for request in run.requests
                if request.host == "a" and request.revision
            },
            {"web-1", "web-2"},
        )
        self.assertEqual(list(rule_5(Run(run._replace(events=[])))), [])
        self.assertTrue([look for look in run.looks["b"] if not look.is_up])
        pauses = [
            later.begun - look.begun for look, later in zip(run.looks["a"], run.looks["a"][1:])
        ]
        self.assertTrue(is_within(statistics.median(pauses), 0.3), pauses)

    def cut_outages(self) -> list[tuple[str, str]]:
        return [("link", "a")]

    def check_deploy(self, lab: Lab) -> None:
        first, second = lab.ports_of(2)
        for line in (
            f"deploy web-2 {first} {second}",
            "available 2 2",
            "verdict pre successful",
            "promote",
        ):
            self.assertRegex(lab.send("a", line).printed, r"^ok \d\n$")
        self.check_seen(lab, "a", "web-2")
        self.check_seen(lab, "b", "web-1")

    def check_killed_switch(self, lab: Lab) -> None:
        lab.kill("switch", "b")
        self.assertTrue(comes(lambda: not lab.looks()["b"].is_up))
        lab.restart("switch", "b")
        self.open(lab, "b")
        self.check_seen(lab, "b", "web-1")

    def check_etcd(self, lab: Lab) -> None:
        lab.kill("etcd", "c")
        self.assertTrue(lab.until(lambda keys: keys == {"plan": "first"}))
        lab.restart("etcd", "c")
        member = OneMember(lab.network, "a")
        self.check_cut(lab, member)
        self.check_follow(lab)
        lab.etcd.put("plan", "second")
        self.assertTrue(comes(lab.compact))
        # it is not compacted again, once the recorder has learnt of all changes
        self.assertTrue(comes(lambda: not lab.compact() and self.is_compacted(lab)))
        lab.etcd.delete("plan")

    def is_compacted(self, lab: Lab) -> bool:
        """Whether etcd answers that it has dropped what the recorder has."""
        try:
            EtcdClient(lab.network, FLEET).compact(lab.recorder.followed if lab.recorder else 0)
        except EtcdClientError as error:
            return "has been compacted" in str(error)
        return False

    def check_follow(self, lab: Lab) -> None:
        """A change is known as it comes."""
        with concurrent.futures.ThreadPoolExecutor(1) as pool:
            first = pool.submit(lambda: next(EtcdClient(lab.network, FLEET).follow(WAIT)))
            self.assertTrue(comes(lambda: lab.etcd.put("drill/followed", "value") and first.done()))
        self.assertEqual((first.result().name, first.result().value), ("drill/followed", "value"))

    def check_cut(self, lab: Lab, member: OneMember) -> None:
        raise NotImplementedError


@unittest.skipIf(MISSING, f"not installed: {', '.join(MISSING)}")
class OnOneHost(Base):
    def network(self) -> Network:
        return OneHost(HOSTS)

    def test_it_plays(self) -> None:
        self.play()

    def check_cut(self, lab: Lab, member: OneMember) -> None:
        self.assertTrue(member.answers())
        lab.cut("a")
        self.assertFalse(member.answers())
        self.assertTrue(OneMember(lab.network, "b").answers())
        lab.mend("a")
        self.assertTrue(comes(member.answers))


@unittest.skipIf(MISSING, f"not installed: {', '.join(MISSING)}")
class Ends(unittest.TestCase):
    def test_after_a_failure(self) -> None:
        with tempfile.TemporaryDirectory() as folder:
            with self.assertRaises(ZeroDivisionError), lab_in(folder, OneHost(HOSTS)) as lab:
                self.assertTrue(lab.programs.is_running("etcd-a"))
                lab.stop("switch", "a")
                raise ZeroDivisionError
            self.assertEqual(processes_in(folder), [])

    def test_after_a_failed_start(self) -> None:
        with tempfile.TemporaryDirectory() as folder:
            lab = lab_in(folder, OneHost(HOSTS))
            lab.switch_words = lambda *_: ["/no/such/program"]
            with self.assertRaises(OSError), lab:
                pass
            self.assertEqual(processes_in(folder), [])


@unittest.skipIf(MISSING, f"not installed: {', '.join(MISSING)}")
class EndsWithItsScript(unittest.TestCase):
    def test_by_a_signal(self) -> None:
        # a shell without job control lets what it starts behind it ignore SIGINT
        text = (
            "import signal, sys, time\nfrom support.fleet.hosts import OneHost\nfrom tests.test_fleet_lab import lab_in, HOSTS\n"
            "signal.signal(signal.SIGINT, signal.default_int_handler)\nwith lab_in(sys.argv[1], OneHost(HOSTS)):\n    print('up', flush=True)\n    time.sleep(60)\n"
        )
        for number in (signal.SIGTERM, signal.SIGINT):
            with self.subTest(number), tempfile.TemporaryDirectory() as folder:
                script = subprocess.Popen(
                    [sys.executable, "-B", "-c", text, folder],
                    cwd=TOP,
                    env={**os.environ, **PATHS},
                    stdout=subprocess.PIPE,
                    stderr=subprocess.DEVNULL,
                    text=True,
                )
                assert script.stdout
                with script.stdout:
                    self.assertEqual(script.stdout.readline(), "up\n")
                    script.send_signal(number)
                    self.assertNotEqual(script.wait(30), 0)
                self.assertEqual(processes_in(folder), [])


@unittest.skipIf(MISSING, f"not installed: {', '.join(MISSING)}")
@unittest.skipUnless(Namespaces.can_be_made(), "no network namespaces can be made")
class InNamespaces(Base):
    def network(self) -> Network:
        return Namespaces(HOSTS)

    def test_it_plays(self) -> None:
        self.play()
        names = os.listdir("/run/netns") if os.path.isdir("/run/netns") else []
        self.assertEqual([name for name in names if name.startswith(Namespaces(HOSTS).mark)], [])

    def check_cut(self, lab: Lab, member: OneMember) -> None:
        """The member of a host that is cut off leaves the cluster too, and the others go on."""
        alone = OneMember(lab.network, "a")
        alone.endpoints = alone.endpoints[:1]
        self.assertTrue(alone.answers())
        lab.cut("a")
        self.assertFalse(alone.answers())
        self.assertTrue(comes(OneMember(lab.network, "b").answers))
        lab.mend("a")
        self.assertTrue(comes(alone.answers))


if __name__ == "__main__":
    unittest.main()
