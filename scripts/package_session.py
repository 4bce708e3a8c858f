"""The session of scripts/package.sh: it uses the installed package in a Debian of its own, whose
ports are all free.

systemd does not run there. So the units' commands are run as systemd runs them: with the user, the
groups, the folders, the variables and the standard input of the unit. What the operator's lines
answer is what README.md says of the same lines."""
import contextlib
import grp
import http.client
import json
import os
import pathlib
import pwd
import shutil
import signal
import stat
import subprocess
import tempfile
import threading
import time
from collections.abc import Iterator, Sequence
from functools import partial

from support.checks import check, comes, fail, run
from support.pages import Surroundings, as_installed, run_session

UNITS = pathlib.Path("/lib/systemd/system")
DOCUMENTS = pathlib.Path("/usr/share/doc/bg-switch")
LOG = pathlib.Path("/var/log/bg/access.log")
PLAN = pathlib.Path("/var/lib/bg/plan.json")
JOURNAL = pathlib.Path("/var/lib/bg-switch/journal")
HOST = "127.0.0.1"
ACTIVE, PREVIEW, PAGE = 8080, 8081, 8090
CONTROL = "/run/bg-switch/control"  # the socket, which the group may open
OPERATORS = "bg-operators"
ENDPOINTS = {"v1": (9101, 9102), "v2": (9201, 9202)}
# The ports of README.md's session, and how many blocks it and that of OPERATING.md have at least.
PAGE_PORTS = ("8080", "8081", "8082", "9101", "9102", "9201", "9202")
LEAST_BLOCKS, LEAST_OF_RUNBOOK = 4, 8
SOON = 30  # seconds for a command
CLIENTS = 4
# The program, and what the command that starts it sets for the C library.
PROGRAM = pathlib.Path("/usr/libexec/bg-switch/bg_switch")
VARIABLES = {"MALLOC_ARENA_MAX", "MALLOC_MMAP_THRESHOLD_"}


class Unit:
    """A unit of the package, whose commands are run as systemd does."""

    def __init__(self, name: str) -> None:
        self.lines = (UNITS / f"{name}.service").read_text(encoding="ascii").splitlines()
        self.user = pwd.getpwnam(self.value("User"))
        group = self.value("Group")
        self.group = grp.getgrnam(group).gr_gid if group else self.user.pw_gid
        self.groups = [
            grp.getgrnam(other).gr_gid for other in self.value("SupplementaryGroups").split()
        ]

    def values(self, key: str) -> list[str]:
        return [line.partition("=")[2] for line in self.lines if line.startswith(f"{key}=")]

    def value(self, key: str) -> str:
        """The only value of a key, empty if it has none."""
        return next(iter(self.values(key)), "")

    def make_folders(self) -> None:
        """The folders of its logs, of its state and of its socket, which belong to its user."""
        for key, place in (
            ("LogsDirectory", "/var/log"),
            ("StateDirectory", "/var/lib"),
            ("RuntimeDirectory", "/run"),
        ):
            for name in self.values(key):
                folder = os.path.join(place, name)
                os.makedirs(folder, exist_ok=True)
                os.chmod(folder, int(self.value(f"{key}Mode") or "755", 8))
                os.chown(folder, self.user.pw_uid, self.group)

    def start(self, command: str) -> "subprocess.Popen[bytes]":
        """Starts a command, as its user."""
        self.make_folders()
        given = self.value("StandardInput").removeprefix("file:") or os.devnull
        variables = dict(pair.split("=", 1) for pair in self.values("Environment"))
        with open(given, "rb") as told:
            return subprocess.Popen(
                command.split(),
                stdin=told,
                stdout=subprocess.DEVNULL,
                user=self.user.pw_uid,
                group=self.group,
                extra_groups=self.groups,
                umask=int(self.value("UMask") or "022", 8),
                cwd=self.value("WorkingDirectory") or "/",
                env={"PATH": "/usr/sbin:/usr/bin:/sbin:/bin", "LANG": "C.UTF-8", **variables},
            )

    @contextlib.contextmanager
    def running(self) -> Iterator["subprocess.Popen[bytes]"]:
        process = self.start(self.value("ExecStart"))
        try:
            yield process
        finally:
            process.kill()
            process.wait(SOON)
            for name in self.values("RuntimeDirectory"):  # which systemd removes at the end
                shutil.rmtree(os.path.join("/run", name), ignore_errors=True)

    def stop(self, process: "subprocess.Popen[bytes]") -> list[int]:
        """Runs its commands of a stop, in turn. Gives their statuses."""
        commands = [
            command.removeprefix("-").replace("${MAINPID}", str(process.pid))
            for command in self.values("ExecStop")
        ]
        reaper = threading.Thread(target=process.wait)
        reaper.start()
        statuses = [self.start(command).wait(SOON) for command in commands]
        reaper.join(SOON)
        return statuses


def told(words: Sequence[str], user: str = "nobody", groups: Sequence[str] = ()) -> tuple[str, int]:
    """What a command prints for a user without rights, who is in these groups, and its status."""
    done = subprocess.run(
        words,
        capture_output=True,
        text=True,
        timeout=SOON,
        check=False,
        user=user,
        group="nogroup",
        extra_groups=list(groups),
        cwd="/",
    )
    return done.stdout.strip(), done.returncode


def ordered(*words: str) -> tuple[str, int]:
    """What bg-operator prints for a person who is in the group of the socket, and its status."""
    return told(["bg-operator", CONTROL, *words], groups=[OPERATORS])


def send(line: str, reply: str) -> None:
    """A check of the reply to a line of an operator."""
    check(line, ordered(*line.split()), (reply, 0))


def asked(port: int, target: str = "/") -> tuple[int, str]:
    """The status and the text that a client is answered."""
    connection = http.client.HTTPConnection(HOST, port, timeout=SOON)
    try:
        connection.request("GET", target)
        response = connection.getresponse()
        return response.status, response.read().decode().strip()
    finally:
        connection.close()


def answers(port: int) -> bool:
    with contextlib.suppress(ConnectionRefusedError):
        return asked(port)[0] == 200
    return False


@contextlib.contextmanager
def endpoints() -> Iterator[None]:
    """Two endpoints for each of two revisions: python's own web server."""
    started = []
    with tempfile.TemporaryDirectory() as top:
        os.chmod(top, 0o755)
        for name, ports in ENDPOINTS.items():
            folder = pathlib.Path(top, name)
            folder.mkdir()
            (folder / "index.html").write_text(f"hello from {name}\n", encoding="ascii")
            words = ["python3", "-m", "http.server", "--bind", HOST, "--directory", str(folder)]
            started += [
                subprocess.Popen(
                    [*words, str(port)],
                    stderr=subprocess.DEVNULL,
                    stdout=subprocess.DEVNULL,
                    user="nobody",
                )
                for port in ports
            ]
        try:
            for port in (*ENDPOINTS["v1"], *ENDPOINTS["v2"]):
                check(f"the endpoint at {port} answers", comes(partial(answers, port)), True)
            yield
        finally:
            for process in started:
                process.kill()
                process.wait(SOON)


class Clients:
    """Clients that send one request after the other, until the port refuses connections."""

    def __init__(self) -> None:
        self.answered = 0
        self.lost: list[str] = []
        self.threads = [threading.Thread(target=self.ask, daemon=True) for _ in range(CLIENTS)]
        for thread in self.threads:
            thread.start()

    def ask(self) -> None:
        while True:
            try:
                reply = asked(ACTIVE)
            except ConnectionRefusedError:
                return
            except (OSError, http.client.HTTPException) as error:
                self.lost.append(repr(error))
                continue
            if reply == (200, "hello from v2"):
                self.answered += 1
            else:
                self.lost.append(repr(reply))

    def end(self) -> None:
        for thread in self.threads:
            thread.join(SOON)


def lines_of(*files: pathlib.Path) -> int:
    return sum(file.read_bytes().count(b"\n") for file in files if file.exists())


def open_and_roll_back() -> None:
    """The session of README.md up to the verdict that moves live traffic back, and the second
    attempt."""
    send("open media-v1 9101 9102", "ok 0")
    send("available 1 2", "ok 0")
    check("clients of v1", asked(ACTIVE), (200, "hello from v1"))
    send("deploy media-v2 9201 9202", "ok 0")
    send("available 2 2", "ok 1")
    check("testers of v2", asked(PREVIEW), (200, "hello from v2"))
    check("clients during the test", asked(ACTIVE), (200, "hello from v1"))
    send("verdict pre successful", "ok 0")
    send("promote", "ok 2")
    check("clients after the promotion", asked(ACTIVE), (200, "hello from v2"))
    send("verdict post failed", "ok 0")
    check("clients after the rollback", asked(ACTIVE), (200, "hello from v1"))
    send("retry", "ok 1")
    send("verdict pre successful", "ok 0")
    send("promote", "ok 2")
    send("verdict post successful", "ok 1")


def rotate() -> None:
    """The switch writes to the new file soon after logrotate has renamed the old one, and no line
    is lost."""
    old = LOG.with_name(f"{LOG.name}.1")
    check("lines of the log before", comes(lambda: lines_of(LOG) > 0), True)
    before = lines_of(LOG)
    check(
        "logrotate",
        subprocess.run(
            ["logrotate", "--force", "/etc/logrotate.d/bg-switch"], check=False
        ).returncode,
        0,
    )
    check("the old log is there", old.exists(), True)
    requests = 0
    while not LOG.exists() and requests < 1000:
        requests += asked(ACTIVE)[0] == 200
        time.sleep(0.02)
    check("no line is lost", comes(lambda: lines_of(old, LOG) == before + requests), True)


def judge_log() -> None:
    """The unit's group may read the log, and nobody else."""
    at = LOG.stat()
    check(
        "mode and group of the log",
        (stat.filemode(at.st_mode), grp.getgrgid(at.st_gid).gr_name),
        ("-rw-r-----", "bg-log"),
    )
    check("others may not read the log", told(["cat", str(LOG)]), ("", 1))


def show_dashboard() -> None:
    """The dashboard reads the switch and its log. No controller is missed if there is no plan."""
    with Unit("bg-dashboard").running():
        check("the page", comes(lambda: answers(PAGE)), True)
        check("the controller on the page", "bg_controller_up" in asked(PAGE, "/metrics")[1], False)
        asked(ACTIVE)

        def counts() -> bool:
            text = asked(PAGE, "/metrics")[1]
            return (
                "bg_switch_up 1" in text
                and 'bg_switch_response_bytes_total{revision="media-v2"' in text
            )

        check("the metrics have the requests of the log", comes(counts), True)


def stop_under_traffic(unit: Unit, switch: "subprocess.Popen[bytes]") -> None:
    """The unit's stop loses no request that it has accepted."""
    clients = Clients()
    check("clients before the stop", comes(lambda: clients.answered > CLIENTS), True)
    check("the commands of the stop", unit.stop(switch), [0, 0])
    check("the switch ends by itself", switch.poll(), 0)
    clients.end()
    # the system resets a connection that is made between the last accept and the close of the port
    resets = [each for each in clients.lost if each.startswith("ConnectionResetError")]
    check("lost requests", [each for each in clients.lost if each not in resets], [])
    check("at most one connection is reset as the port closes", len(resets) <= 1, True)


def serves() -> bool:
    """Whether the control socket answers."""
    return ordered("report")[0] != ""


def go_on_after_a_kill(unit: Unit, report: str) -> None:
    """The switch was killed, and is started by the same words: it goes on by its journal, and needs
    no `open`. A stop and another start change nothing, either."""
    for how in ("killed", "stopped"):
        with unit.running() as switch:
            check(f"{how}: the control socket answers", comes(serves), True)
            check(f"{how}: the report", ordered("report"), (report, 0))
            check(f"{how}: clients", asked(ACTIVE), (200, "hello from v2"))
            refused = ordered("open", "media-v1", "9101", "9102")
            check(f"{how}: an open", refused, ("refused AlreadyOpen", 1))
            check(f"{how}: the commands of the stop", unit.stop(switch), [0, 0])
    check("who may read the journal", told(["cat", str(JOURNAL)], groups=["bg-log"]), ("", 1))
    judged = told(["bg_switch", "journal", str(JOURNAL)], user="bg-switch")
    check("the journal is judged", judged, (report, 0))


def begin_a_new_journal() -> None:
    """Removes the journal, so that the next switch begins a new one."""
    for path in JOURNAL.parent.iterdir():
        path.unlink()


def by_hand() -> None:
    """A rollout by an operator."""
    shutil.copy(DOCUMENTS / "examples" / "live" / "rollout.json", "/etc/bg/rollout.json")
    unit = Unit("bg-switch")
    with unit.running():
        check("the control socket answers", comes(lambda: ordered("status")[0] != ""), True)
        by_variable = ["env", f"BG_CONTROL={CONTROL}", "bgctl", "status"]
        for words in (["bg-operator", CONTROL, "status"], by_variable):
            check("a user who is not in the group gets no answer", told(words), ("", 2))
        check("bgctl, by BG_CONTROL", told(by_variable, groups=[OPERATORS])[0] != "", True)
        open_and_roll_back()
        report, _ = ordered("report")
    go_on_after_a_kill(unit, report)
    with unit.running() as switch:
        check("the control socket answers again", comes(serves), True)
        judge_log()
        rotate()
        show_dashboard()
        stop_under_traffic(unit, switch)
    begin_a_new_journal()


def by_controller() -> None:
    """The controller opens a switch by its plan, and keeps its state beside the plan."""
    plan = {"control": CONTROL, "revisions": [{"name": "media-v1", "ports": ENDPOINTS["v1"]}]}
    PLAN.write_text(json.dumps(plan), encoding="ascii")
    switch = Unit("bg-switch")
    with switch.running() as serving, Unit("bg-controller").running() as controller:
        words = ("wait", "stable=media-v1", "--wait", "10", "--timeout", "20")
        check("the book is opened", ordered(*words)[1], 0)
        check("clients are answered", comes(partial(answers, ACTIVE)), True)
        check("clients", asked(ACTIVE), (200, "hello from v1"))
        check("the state file", comes(PLAN.with_name("plan.json.state").exists), True)
        check("the history, for everybody", told(["bgctl", "history", "--plan", str(PLAN)])[1], 0)
        check(
            "the plan and the Rollout",
            told(["bgctl", "check", str(PLAN), "--rollout", "/etc/bg/rollout.json"]),
            (f"{PLAN} is a plan", 0),
        )
        with Unit("bg-dashboard").running():
            check(
                "the controller on the page",
                comes(lambda: answers(PAGE) and "bg_controller_up 1" in asked(PAGE, "/metrics")[1]),
                True,
            )
        controller.send_signal(signal.SIGTERM)
        check("the controller ends", controller.wait(SOON), 0)
        check("the commands of the stop", switch.stop(serving), [0, 0])


def variables_of(process: int) -> set[str]:
    """The names of the variables that a process was started with."""
    return {
        pair.partition(b"=")[0].decode()
        for pair in pathlib.Path(f"/proc/{process}/environ").read_bytes().split(b"\0")
    }


def variables_of_the_c_library() -> None:
    """The command `bg_switch` becomes the program, and sets the variables for it."""
    with subprocess.Popen(
        ["bg_switch", "check"],
        stdin=subprocess.PIPE,
        stdout=subprocess.DEVNULL,
        stderr=subprocess.DEVNULL,
        env={"PATH": "/usr/bin:/bin"},
    ) as process:
        check(
            "the program runs",
            comes(lambda: pathlib.Path(f"/proc/{process.pid}/exe").resolve() == PROGRAM),
            True,
        )
        check("its variables", variables_of(process.pid) >= VARIABLES, True)


def commands() -> None:
    """Each command of the package runs for everybody; the program has the package's version."""
    version, _ = told(["dpkg-query", "--show", "--showformat=${Version}", "bg-switch"])
    check("the version", told(["bg_switch", "--version"]), (f"bg_switch {version}", 0))
    names = [
        path.name
        for path in pathlib.Path("/usr/bin").glob("bg*")
        if path.name not in ("bg_switch", "bg")
    ]
    check(
        "the commands",
        set(names)
        >= {"bgctl", "bg-operator", "bg-controller", "bg-analysis", "bg-dashboard", "bg-fleet"},
        True,
    )
    for name in names:
        printed, status = told([name, "--help"])
        check(f"{name} --help", (status, "usage" in printed.lower()), (0, True))


def pages() -> None:
    """The sessions of the packaged README.md and OPERATING.md print what the pages say, with the
    names that the commands have here. The first block of README.md shows settings alone."""
    here = Surroundings(folder=DOCUMENTS, is_alone=True)
    readme = as_installed((DOCUMENTS / "README.md").read_text(encoding="utf-8"))
    run_session(readme, "A session by hand", PAGE_PORTS, here).check(LEAST_BLOCKS, first=1)
    runbook = as_installed((DOCUMENTS / "docs" / "OPERATING.md").read_text(encoding="utf-8"))
    ports = (*PAGE_PORTS, "8180", "8181", "8182")
    run_session(runbook, "From the start to the end", ports, here).check(LEAST_OF_RUNBOOK)


def examples() -> None:
    """The examples of the package run from where it puts them, and write nothing there."""
    folder = DOCUMENTS / "examples"
    before = sorted(folder.rglob("*"))
    for rollout in ("direct", "tested_before_and_after"):
        with open(folder / f"{rollout}.json", "rb") as given:
            settings = subprocess.run(
                ["bg_switch", "check"], stdin=given, capture_output=True, check=False, timeout=SOON
            ).stdout
        check(f"{rollout}.settings", settings, (folder / f"{rollout}.settings").read_bytes())
    printed, status = told([str(folder / "demo.sh")])
    check("demo.sh", (status, printed.count("examples/")), (0, len(list(folder.glob("*.txt")))))
    running = subprocess.Popen(
        [str(folder / "controller" / "run.sh")],
        stdout=subprocess.PIPE,
        text=True,
        user="nobody",
        cwd="/",
    )
    try:
        assert running.stdout is not None
        plan = next(line for line in running.stdout if line.startswith("the plan is ")).split()[-1]
        # with the plan, the wait knows that media-v2 is still to be deployed
        stable = ["bgctl", "wait", "stable=media-v2", "--plan", plan, "--timeout", "60"]
        check("controller/run.sh", told(stable)[1], 0)
        released, status = told(
            [str(folder / "ci" / "release.sh"), "18082", plan, "media-v2", "19201", "19202"]
        )
        check("ci/release.sh", (status, "steady: active media-v2" in released), (0, True))
    finally:
        running.terminate()
        running.wait(SOON)
    check("no file beside the examples", sorted(folder.rglob("*")), before)


def session() -> None:
    if os.geteuid() != 0 or not DOCUMENTS.exists():
        fail("the session", "it is run by scripts/package.sh, in a Debian that has the package")
        return
    with endpoints():
        by_hand()
        by_controller()


if __name__ == "__main__":
    run("package_session", [commands, variables_of_the_c_library, session, pages, examples])
