#!/usr/bin/env python3
"""The units of the package under systemd, by hand: a Debian with systemd boots in a container, the
package is installed there, and its units are started, killed and stopped.

usage: scripts/units_drill.py PACKAGE [ROOT]

PACKAGE is what `packaging/build.sh deb` makes. ROOT is a folder with a Debian that has systemd. If
there is no such folder, debootstrap makes it, which needs Debian's registry; without ROOT, the
Debian is made in a temporary folder. The script needs root, and Debian's systemd-container and
debootstrap. The container has a network of its own, and the files of the package are purged at the
end.
"""
import argparse
import contextlib
import pathlib
import shutil
import signal
import subprocess
import sys
import tempfile
import threading
from collections.abc import Iterator, Sequence
from typing import NamedTuple

from support.checks import COUNTS, check, comes

NEEDED = "systemd,systemd-sysv,dbus,python3,python3-aiohttp,python3-prometheus-client,curl,procps"
SYSTEMD = "/lib/systemd/systemd"
BOOT, SOON = 60, 60  # seconds for the start of the container, and for a command in it
# A thread for each event loop of both client ports, and for the operators and the access log.
BESIDE_ACTIVE_LOOPS = 1 + 2
MOST_LOOPS = 64  # of the active port
UNITS = ("bg-switch", "bg-controller", "bg-dashboard")
PLAN = "/var/lib/bg/plan.json"
CONTROL = "/run/bg-switch/control"
PERSON = "alice"
PLANNED = """{"control": "/run/bg-switch/control", "revisions": [{"name": "web-v1", "ports": [9101, 9102]}]}"""
ENDPOINTS = {"v1": (9101, 9102), "v2": (9201, 9202)}
ACTIVE, PAGE = "http://127.0.0.1:8080/", "http://127.0.0.1:8090/metrics"
# What the unit would be without the calls that change the group of a file.
WITHOUT_CHOWN = """[Service]
SystemCallFilter=
SystemCallFilter=@system-service
SystemCallFilter=~@privileged
"""
# A filter of system calls, and that the process can gain no rights, as /proc tells it.
CONFINED = ("NoNewPrivs:\t1", "Seccomp:\t2")


class Done(NamedTuple):
    """What a command in the container printed, and its exit status."""

    printed: str
    status: int


class Container:
    """A Debian that runs, as the number of its first process tells it."""

    def __init__(self, first: int) -> None:
        self.first = first

    def run(self, *words: str, text: str = "") -> Done:
        """Runs a command in the container, as its root."""
        done = subprocess.run(
            ["nsenter", "--target", str(self.first), "--all", "--root", "--wd", "--", *words],
            input=text,
            stdout=subprocess.PIPE,
            stderr=subprocess.STDOUT,
            text=True,
            timeout=SOON,
            check=False,
        )
        return Done(done.stdout.strip(), done.returncode)

    def write(self, path: str, text: str) -> None:
        check(f"{path} is written", self.run("tee", path, text=text).status, 0)

    def is_active(self, unit: str) -> bool:
        return self.run("systemctl", "is-active", unit).printed == "active"

    def shown(self, unit: str, key: str) -> str:
        """A property of a unit."""
        return self.run("systemctl", "show", "--property", key, "--value", unit).printed

    def asked(self, address: str = ACTIVE) -> str:
        """What a client gets from an address; empty if it gets no answer of status 200."""
        done = self.run("curl", "--silent", "--fail", "--max-time", "20", address)
        return done.printed if done.status == 0 else ""

    def as_person(self, *words: str) -> Done:
        """Runs a command as a user without rights, who has a log-in."""
        return self.run("runuser", "-u", PERSON, "--", "env", f"BG_CONTROL={CONTROL}", *words)


def process_in(root: pathlib.Path, container: "subprocess.Popen[bytes]") -> int | None:
    """The number of the first process of a container, which is a child of the one that boots it."""
    assert container.poll() is None, f"the Debian in {root} does not boot"
    found = subprocess.run(
        ["pgrep", "--parent", str(container.pid), "--full", SYSTEMD],
        capture_output=True,
        text=True,
        check=False,
    ).stdout.split()
    return int(found[0]) if found else None


@contextlib.contextmanager
def booted(root: pathlib.Path) -> Iterator[Container]:
    """The Debian in a folder runs, and is told to shut down at the end."""
    words = ["systemd-nspawn", "--quiet", "--directory", str(root), "--boot", "--private-network"]
    with subprocess.Popen(
        [*words, "--register=no", "--keep-unit", "--console=read-only"],
        stdin=subprocess.DEVNULL,
        stdout=subprocess.DEVNULL,
    ) as container:
        try:
            assert comes(lambda: process_in(root, container), BOOT)
            first = process_in(root, container)
            assert first is not None
            inside = Container(first)
            states = ("running", "degraded")
            is_up = comes(
                lambda: inside.run("systemctl", "is-system-running").printed in states, BOOT
            )
            check("the container has started", is_up, True)
            yield inside
        finally:
            container.send_signal(signal.SIGTERM)
            with contextlib.suppress(subprocess.TimeoutExpired):
                container.wait(SOON)
            container.kill()


def start_endpoints(inside: Container) -> None:
    """Two endpoints for each revision: python's own web server, as units without files."""
    for name, ports in ENDPOINTS.items():
        inside.run("mkdir", "--parents", f"/srv/{name}")
        inside.write(f"/srv/{name}/index.html", f"hello from {name}\n")
        for port in ports:
            server = f"python3 -m http.server --bind 127.0.0.1 --directory /srv/{name} {port}"
            words = ("systemd-run", f"--unit=endpoint-{port}", "--property=DynamicUser=yes")
            check(f"the endpoint at {port}", inside.run(*words, *server.split()).status, 0)


def install(inside: Container) -> None:
    done = inside.run("dpkg", "--install", "/root/package.deb")
    check("the package is installed", (done.status, done.printed if done.status else ""), (0, ""))
    inside.write(PLAN, PLANNED)
    check("a person without rights", inside.run("useradd", "--create-home", PERSON).status, 0)


def start(inside: Container) -> None:
    """The units start, are confined, and the controller opens the switch by its plan."""
    done = inside.run("systemctl", "start", *UNITS)
    check("the units are started", done, Done("", 0))
    check("the first revision is live", comes(lambda: inside.asked() == "hello from v1"), True)
    for unit in UNITS:
        check(f"{unit} is active", inside.is_active(unit), True)
        text = inside.run("cat", f"/proc/{inside.shown(unit, 'MainPID')}/status").printed
        found = tuple(line for line in text.splitlines() if line in CONFINED)
        check(f"{unit} is confined", found, CONFINED)
    told = inside.run("stat", "--format", "%U %G %a", CONTROL).printed
    check("owner, group and mode of the control socket", told, "bg-switch bg-operators 660")
    check(
        "the page sees the controller",
        comes(lambda: "bg_controller_up 1" in inside.asked(PAGE)),
        True,
    )
    threads = inside.run("ls", f"/proc/{inside.shown('bg-switch', 'MainPID')}/task").printed.split()
    loops = min(int(inside.run("nproc").printed), MOST_LOOPS)
    check(
        "the switch has a thread for each event loop",
        len(threads),
        loops + BESIDE_ACTIVE_LOOPS,
    )
    most = int(inside.shown("bg-switch", "TasksMax"))
    check("the unit lets it have more", len(threads) < most, True)


def roll_out(inside: Container) -> None:
    """A person who is in the group of the socket deploys and promotes; others get no answer."""
    check("a person who is not in the group", inside.as_person("bgctl", "status").status, 2)
    check("the person joins it", inside.run("adduser", PERSON, "bg-operators").status, 0)
    check("who is in the group", inside.as_person("bgctl", "status").status, 0)
    ordered = ("env", f"BG_CONTROL={CONTROL}", f"BG_PLAN={PLAN}", "bgctl")
    check("the deploy", inside.run(*ordered, "deploy", "web-v2", "9201", "9202").status, 0)
    done = inside.run(*ordered, "wait", "phase=paused", "--timeout", "40")
    check("the attempt waits for a person", done.status, 0)
    check("clients before the promotion", inside.asked(), "hello from v1")
    check("the promotion", inside.as_person("bgctl", "promote", "web-v2").status, 0)
    check("clients after it", comes(lambda: inside.asked() == "hello from v2"), True)


def kill(inside: Container) -> None:
    """systemd starts a process again that was killed, and the rollout goes on."""
    for unit in ("bg-switch", "bg-controller"):
        before = inside.shown(unit, "MainPID")
        inside.run("kill", "-KILL", before)
        is_new = comes(lambda: inside.shown(unit, "MainPID") not in (before, "0"))  # noqa: B023
        check(f"{unit} is started again", (is_new, inside.shown(unit, "NRestarts")), (True, "1"))
        check("clients after it", comes(lambda: inside.asked() == "hello from v2"), True)
    told = inside.run("journalctl", "--unit", "bg-switch", "--boot").printed
    resumed = "the journal /var/lib/bg-switch/journal was resumed: orders"
    check("the switch has gone on by its journal", told.count(resumed), 1)
    told = inside.run("journalctl", "--unit", "bg-controller", "--boot").printed
    check("no switch was opened again", told.count("no book is open: it is opened with"), 1)
    check("the units are active", [inside.is_active(unit) for unit in UNITS], [True] * 3)


def ask_until(inside: Container, ended: threading.Event, answers: list[str]) -> None:
    while not ended.is_set():
        done = inside.run("curl", "--silent", "--max-time", "20", ACTIVE)
        if done.status != 7:  # the port is closed
            answers.append(f"{done.status} {done.printed}")


def stop(inside: Container) -> None:
    """A stop under traffic: no client that was accepted is left without its answer."""
    ended = threading.Event()
    answers: list[str] = []
    client = threading.Thread(target=ask_until, args=(inside, ended, answers))
    client.start()
    check("clients before the stop", comes(lambda: len(answers) > 3), True)
    check("the stop", inside.run("systemctl", "stop", "bg-switch"), Done("", 0))
    ended.set()
    client.join()
    check("each client was answered", set(answers), {"0 hello from v2"})
    check("how the switch ended", inside.shown("bg-switch", "Result"), "success")
    check("its status", inside.shown("bg-switch", "ExecMainStatus"), "0")
    check("the folder of its socket is removed", inside.run("ls", "/run/bg-switch").status, 2)


def start_without_chown(inside: Container) -> None:
    """The unit's line on @chown is needed: without it, the switch cannot give the socket its
    group."""
    folder = "/run/systemd/system/bg-switch.service.d"
    inside.run("mkdir", "--parents", folder)
    inside.write(f"{folder}/drill.conf", WITHOUT_CHOWN)
    inside.run("systemctl", "daemon-reload")
    inside.run("systemctl", "start", "--no-block", "bg-switch")
    check("the start fails", comes(lambda: inside.shown("bg-switch", "NRestarts") != "0"), True)
    text = inside.run("journalctl", "--unit", "bg-switch", "--boot", "--lines", "20").printed
    reason = "can't be bound: Operation not permitted"
    check("the journal tells why", reason in text, True)
    inside.run("systemctl", "stop", "bg-switch")
    inside.run("rm", "--recursive", folder)
    inside.run("systemctl", "daemon-reload")


def purge(inside: Container) -> None:
    inside.run("systemctl", "stop", *UNITS)
    inside.run("userdel", "--remove", PERSON)
    check("the package is purged", inside.run("dpkg", "--purge", "bg-switch").status, 0)


def make_root(root: pathlib.Path) -> None:
    """Makes a Debian with systemd in a folder."""
    words = ["debootstrap", "--variant=minbase", f"--include={NEEDED}", "bookworm", str(root)]
    subprocess.run(words, check=True, stdout=subprocess.DEVNULL)


def drill(package: pathlib.Path, root: pathlib.Path) -> None:
    if not root.exists():
        make_root(root)
    shutil.copy(package, root / "root" / "package.deb")
    with booted(root) as inside:
        for part in (
            install,
            start_endpoints,
            start,
            roll_out,
            kill,
            stop,
            start_without_chown,
            purge,
        ):
            part(inside)


def main(words: Sequence[str]) -> int:
    parser = argparse.ArgumentParser(description="The units of the package under systemd.")
    parser.add_argument("package", type=pathlib.Path)
    parser.add_argument("root", type=pathlib.Path, nargs="?")
    given = parser.parse_args(words)
    with tempfile.TemporaryDirectory() as folder:
        drill(given.package, given.root or pathlib.Path(folder, "debian"))
    print(f"units_drill: {COUNTS.passed} passed, {COUNTS.failed} failed")
    return int(COUNTS.failed != 0)


if __name__ == "__main__":
    sys.exit(main(sys.argv[1:]))
