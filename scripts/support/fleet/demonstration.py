"""The machines of the demonstration of a fleet, all on this one: etcd, HAProxy before the switches,
and their agents. They are set up by the files of examples/fleet, with other ports."""
import collections
import json
import os
import pathlib
import shutil
import signal
import subprocess
import sys
import threading
from collections.abc import Mapping
from typing import Any, NamedTuple

from support import PROGRAM, TOP
from support.checks import comes
from support.fleet.client import PAUSE, ask
from support.fleet.hosts import Address, free_addresses, free_block
from support.fleet.lab import module_words
from support.fleet.programs import Programs
from support.fleet.recording import Answered
from support.ports import is_open
from support.processes import run_to_end
from support.switch import words_of_serve

HOSTS = ("web-1", "web-2", "web-3")
REVISIONS = ("web-v1", "web-v2", "web-v3")
# by the program: Debian's package
PACKAGES = {"etcd": "etcd-server", "haproxy": "haproxy", "curl": "curl"}
# where Debian has programs that are not on the path of users
SYSTEM_FOLDERS = ("/usr/sbin", "/sbin")
# The addresses that the files have, and the ports of their revisions.
MACHINES = {"web-1": "10.0.0.21:443", "web-2": "10.0.0.22:443", "web-3": "10.0.0.23:443"}
PORTS = {"web-v1": (9101, 9102), "web-v2": (9201, 9202), "web-v3": (9301, 9302)}
ACTIVE, PREVIEW = "8080", "8081"
# What the load balancer of the example has for TLS, which nobody needs on one machine.
TLS = (
    " ssl verify required ca-file /etc/haproxy/machines.pem sni str(web.example)",
    " check-sni web.example",
    "    log /dev/log local0\n",
)
FRONT = "bind :443 ssl crt /etc/haproxy/web.pem alpn h2,http/1.1"
WORKERS, CLIENTS = 8, 4
LONGEST = 30.0  # seconds for which the start of a program is awaited


def place_of(program: str) -> str | None:
    """The path of a program, even if it is not on the path of this user; None if it is not
    installed."""
    return shutil.which(
        program, path=os.pathsep.join((os.environ.get("PATH", os.defpath), *SYSTEM_FOLDERS))
    )


def missing_packages() -> list[str]:
    """The packages that the demonstration needs and that are not installed."""
    return [package for program, package in PACKAGES.items() if not place_of(program)]


def placed(text: str, places: Mapping[str, str]) -> str:
    """A text with other words in the place of some. `ValueError` if it lacks one."""
    for word, place in places.items():
        if word not in text:
            raise ValueError(f"there is no {word!r} to be replaced")
        text = text.replace(word, place)
    return text


class Places(NamedTuple):
    """The ports of a machine."""

    active: Address
    preview: Address
    control: Address


class Machines:
    """The running machines. They are used in a `with` block, which ends all that it has started."""

    def __init__(self, folder: pathlib.Path, example: pathlib.Path) -> None:
        self.folder, self.example = folder, example
        self.programs = Programs(folder)
        self.front, self.etcd, self.peer, *others = free_addresses(
            3 + len(HOSTS) * len(Places._fields)
        )
        self.places = {
            host: Places(*others[3 * number : 3 * number + 3]) for number, host in enumerate(HOSTS)
        }
        first = free_block(2 * len(REVISIONS))
        self.ports = {
            name: (first + 2 * number, first + 2 * number + 1)
            for number, name in enumerate(REVISIONS)
        }

    @property
    def address(self) -> str:
        """Where clients ask."""
        return f"http://{self.front}/"

    def __enter__(self) -> "Machines":
        try:
            self._start_all()
        except BaseException:
            self._end()
            raise
        return self

    def __exit__(self, *_: object) -> None:
        self._end()

    def _end(self) -> None:
        for number in (signal.SIGINT, signal.SIGTERM):
            signal.signal(number, signal.SIG_IGN)  # so that this comes to its end
        self.programs.end_all(
            [f"agent-{host}" for host in HOSTS if f"agent-{host}" in self.programs.running]
        )

    # ---- what is started ----

    def _start_all(self) -> None:
        (self.folder / "etcd").mkdir()
        self._start_etcd()
        words = [f"{name}={port}" for name, ports in self.ports.items() for port in ports]
        self.programs.start("endpoints", module_words("endpoints", *words))
        self._write_files()
        self._await("etcd", self.etcd)
        for host in HOSTS:
            self.start(host)
        self.programs.start(
            "haproxy",
            [place_of("haproxy") or "haproxy", "-db", "-f", str(self.folder / "haproxy.cfg")],
        )
        self._await("haproxy", self.front)

    def _await(self, program: str, address: Address) -> None:
        """Waits until a program listens. If it does not, the demonstration ends with what the
        program has told."""
        comes(lambda: is_open(address.port) or not self.programs.is_running(program), LONGEST)
        if not is_open(address.port):
            told = "".join(
                (self.folder / f"{program}.{end}").read_text(encoding="utf-8", errors="replace")
                for end in ("log", "err")
            )
            sys.exit(
                f"{program} does not listen at {address}: {told[-1000:] or 'it tells nothing'}"
            )

    def _start_etcd(self) -> None:
        self.programs.start(
            "etcd",
            [
                place_of("etcd") or "etcd",
                "--name",
                "etcd",
                "--data-dir",
                str(self.folder / "etcd"),
                "--logger",
                "zap",
                "--log-level",
                "error",
                "--unsafe-no-fsync=true",  # its files are gone with the demonstration
                "--listen-client-urls",
                f"http://{self.etcd}",
                "--advertise-client-urls",
                f"http://{self.etcd}",
                "--listen-peer-urls",
                f"http://{self.peer}",
                "--initial-advertise-peer-urls",
                f"http://{self.peer}",
                "--initial-cluster",
                f"etcd=http://{self.peer}",
            ],
        )

    def start(self, host: str) -> None:
        """Starts the switch and the agent of a machine."""
        places = self.places[host]
        words = words_of_serve(
            places.active.port,
            places.control.port,
            places.preview.port,
            WORKERS,
            None,
            ("--concurrency", str(WORKERS)),
        )
        self.programs.start(
            f"switch-{host}",
            [PROGRAM, *words, "--redispatch"],
            given=(self.example / "rollout.json").read_bytes(),
        )
        self.programs.start(
            f"agent-{host}",
            [str(TOP / "bin" / "fleet"), str(self.folder / host / "fleet.json"), "agent"],
        )

    def kill(self, host: str) -> None:
        """The switch and the agent of a machine crash."""
        for what in ("switch", "agent"):
            self.programs.kill(f"{what}-{host}")

    # ---- files ----

    def _write_files(self) -> None:
        places = {MACHINES[host]: str(self.places[host].active) for host in HOSTS}
        text = (self.example / "haproxy.cfg").read_text(encoding="ascii")
        text = placed(text, {FRONT: f"bind {self.front}", **places, **{word: "" for word in TLS}})
        (self.folder / "haproxy.cfg").write_text(text, encoding="ascii")
        for name in REVISIONS:
            plan = f"plan-{name.removeprefix('web-')}.json"
            (self.folder / plan).write_text(self._plan_text(plan), encoding="ascii")
        for host in HOSTS:
            (self.folder / host).mkdir()
            (self.folder / host / "fleet.json").write_text(
                self._machine_text(host), encoding="ascii"
            )
        (self.folder / "person.json").write_text(
            json.dumps(self._told("person.json")), encoding="ascii"
        )

    def _told(self, name: str) -> dict[str, Any]:
        """What a fleet file of the example says, for an etcd without users and TLS."""
        told: dict[str, Any] = json.loads((self.example / name).read_text(encoding="ascii"))
        return {
            **{
                key: value
                for key, value in told.items()
                if key not in ("tls", "user", "password_file")
            },
            "etcd": [str(self.etcd)],
        }

    def _plan_text(self, name: str) -> str:
        ports = {
            str(port): str(self.ports[revision][number])
            for revision in REVISIONS
            for number, port in enumerate(PORTS[revision])
        }
        text = (self.example / name).read_text(encoding="ascii")
        return placed(text, {port: place for port, place in ports.items() if port in text})

    def _machine_text(self, host: str) -> str:
        """The fleet file of a machine. An analysis fails if `spoil` was called for its machine and
        its revision."""
        places = self.places[host]
        ports = {ACTIVE: str(places.active.port), PREVIEW: str(places.preview.port)}
        told = self._told("fleet.json")
        for name, (script, port) in told["analyses"].items():
            told["analyses"][name] = [
                "sh",
                "-c",
                f"test ! -e spoilt-{name}-$BG_REVISION && exec {self.example / script} {ports[port]}",
            ]
        return json.dumps(
            {
                **told,
                "host": host,
                "rollout": str(self.example / told["rollout"]),
                "control": places.control.port,
                "active": places.active.port,
                "preview": places.preview.port,
            }
        )

    def _spoilt(self, host: str, revision: str) -> pathlib.Path:
        return self.folder / host / f"spoilt-smoke-active-{revision}"

    def spoil(self, host: str, revision: str) -> None:
        """From now on the analysis of a revision after the switch fails on one machine."""
        self._spoilt(host, revision).touch()

    def mend(self, host: str, revision: str) -> None:
        self._spoilt(host, revision).unlink()

    # ---- people ----

    def all_answer(self) -> bool:
        """Whether HAProxy gives requests to each machine, and each answers: its checks may not have
        found all of them up yet."""
        answers = [ask(self.front.host, self.front.port) for _ in range(2 * len(HOSTS))]
        return {answer.host for answer in answers if answer.status == 200} == set(HOSTS)

    def all_report(self) -> bool:
        """Whether each agent has reported to the fleet."""
        told = json.loads(run_to_end(self._words("status", "--json")).printed or "{}")
        return {
            one["host"]
            for one in [*told.get("members", []), *told.get("others", [])]
            if one["state"] != "away"
        } == set(HOSTS)

    def _words(self, *words: str) -> list[str]:
        return [str(TOP / "bin" / "fleet"), str(self.folder / "person.json"), *words]

    def order(self, *words: str) -> "subprocess.Popen[str]":
        """Starts bin/fleet as a person does. Plans are files of the folder. All that it tells is
        its standard output."""
        paths = [
            str(self.folder / word) if (self.folder / word).is_file() else word for word in words
        ]
        return subprocess.Popen(
            self._words(*paths),
            stdin=subprocess.DEVNULL,
            stdout=subprocess.PIPE,
            stderr=subprocess.STDOUT,
            text=True,
        )


class Clients:
    """Clients that ask without pause, and count which machine and which revision has answered."""

    def __init__(self, front: Address) -> None:
        self.front = front
        self.count = self.failed = 0
        # by the machine and the revision
        self.answered: collections.Counter[tuple[str, str]] = collections.Counter()
        self.failures: list[Answered] = []
        self.lock = threading.Lock()
        self.ended = threading.Event()
        self.threads = [threading.Thread(target=self._ask, daemon=True) for _ in range(CLIENTS)]

    def start(self) -> None:
        for thread in self.threads:
            thread.start()

    def _ask(self) -> None:
        while not self.ended.wait(PAUSE):
            self.take(ask(self.front.host, self.front.port))

    def take(self, answered: Answered) -> None:
        """Counts the answer to a request. It has failed if no revision has answered it."""
        with self.lock:
            self.count += 1
            if answered.status == 200 and answered.revision in REVISIONS:
                self.answered[answered.host, answered.revision] += 1
            else:
                self.failed += 1
                self.failures.append(answered)

    def part(self) -> collections.Counter[tuple[str, str]]:
        """What was answered since the last part."""
        with self.lock:
            answered, self.answered = self.answered, collections.Counter()
        return answered

    def end(self) -> None:
        self.ended.set()
        for thread in self.threads:
            thread.join()
