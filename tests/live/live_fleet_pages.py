"""The session of docs/FLEET.md, run from its own text with a real etcd, and the demonstration of
examples/fleet: what it prints, and that it leaves nothing behind, also after ctrl-C. A part is
skipped if a program that it needs is not installed."""
import contextlib
import os
import pathlib
import re
import signal
import subprocess
import tempfile
import time
from collections.abc import Callable, Iterator

from support import TOP, checks, processes
from support.checks import check, comes
from support.fleet.demonstration import HOSTS, PACKAGES, place_of
from support.pages import Surroundings, run_session

PAGE = TOP / "docs" / "FLEET.md"
TITLE = "From the start to the end"
PORTS = (
    "2379",
    "2380",
    "2381",
    "2382",
    "2383",
    "2384",
    "8180",
    "8181",
    "8182",
    "8280",
    "8281",
    "8282",
    "8380",
    "8381",
    "8382",
    "9101",
    "9102",
    "9201",
    "9202",
    "9301",
    "9302",
)
LEAST_BLOCKS = 21
# By the variable, etcd does not wait for the disk, which others may use much.
LIMITS = Surroundings(300.0, {"ETCD_UNSAFE_NO_FSYNC": "true"})
OF_THE_SESSION = ("etcd", "etcdctl", "openssl", "curl")
DEMONSTRATION = TOP / "examples" / "fleet" / "fleet_demo.py"
LONGEST_RUN = 360  # seconds for the script
LONGEST_END = 20.0  # seconds for the demonstration to end after ctrl-C
# What the demonstration prints, in this order.
STEPS = (
    "# Three machines are members",
    "of web-v1: successful",
    "# A good revision",
    "of web-v2: successful",
    "# web-v3 is promoted by hand",
    "reason: web-2: analysis post: failed",
    "# web-3 crashes",
    "waits for web-3: ",
    "# web-3 is started again",
    "of web-v3: successful",
)


def has_all(part: str, programs: tuple[str, ...]) -> bool:
    """Whether these programs are installed. If not, a line says that the part is skipped."""
    missing = [program for program in programs if place_of(program) is None]
    if missing:
        print(
            f"live_fleet_pages: {part} is skipped, since {' and '.join(missing)} can't be found here",
            flush=True,
        )
    return not missing


def session() -> None:
    """The blocks print what the page says, one after the other in one shell."""
    if has_all("the session", OF_THE_SESSION):
        run_session(PAGE.read_text(encoding="utf-8"), TITLE, PORTS, LIMITS).check(LEAST_BLOCKS)


@contextlib.contextmanager
def demonstration() -> Iterator[tuple[subprocess.Popen[str], Callable[[], list[str]]]]:
    """The running demonstration, and what finds what it has left: the processes and files that are
    its own."""
    with tempfile.TemporaryDirectory() as folder:
        process = subprocess.Popen(
            [str(DEMONSTRATION)],
            stdout=subprocess.PIPE,
            stderr=subprocess.STDOUT,
            text=True,
            process_group=0,
            env={**os.environ, "TMPDIR": folder},
        )
        processes.limit(process)

        def left() -> list[str]:
            return processes_with(f"TMPDIR={folder}") + sorted(os.listdir(folder))

        try:
            yield process, left
        finally:
            process.kill()
            process.wait()


def processes_with(variable: str) -> list[str]:
    """The command lines of the processes that have this variable in their environment."""
    found = []
    for path in pathlib.Path("/proc").glob("[0-9]*"):
        with contextlib.suppress(OSError):
            if variable.encode() in (path / "environ").read_bytes().split(b"\0"):
                found.append(
                    (path / "cmdline").read_bytes().replace(b"\0", b" ").decode(errors="replace")
                )
    return found


def check_order(printed: str) -> None:
    """Each step is printed after the one before."""
    place = 0
    for step in STEPS:
        found = printed.find(step, place)
        check(f"the demonstration prints {step!r} after what is before it", found >= 0, True)
        place = max(place, found)


def whole_demonstration() -> None:
    """It plays to its end, no request fails, and nothing is left."""
    if not has_all("the demonstration", tuple(PACKAGES)):
        return
    begun = time.monotonic()
    with demonstration() as (process, left):
        printed, _ = processes.output_of(process)
        check(
            "the status of the demonstration",
            (process.returncode, printed if process.returncode else ""),
            (0, ""),
        )
        check_order(printed)
        last = re.search(r"^requests: (\d+), failed: (\d+)$", printed, re.M)
        check(
            "its last line",
            (last is not None and int(last[1]) > 500, last and last[2]),
            (True, "0"),
        )
        check(
            "each machine has answered",
            [host for host in HOSTS if not re.search(rf"{host} \d+ by web-v3", printed)],
            [],
        )
        check("what the demonstration leaves", left(), [])
        checks.check_soon("the demonstration", time.monotonic() - begun, 90)


def interrupted_demonstration() -> None:
    """ctrl-C ends it, also a second one that comes while it ends, and nothing is left."""
    if not has_all("the demonstration that is interrupted", tuple(PACKAGES)):
        return
    with demonstration() as (process, left):
        assert process.stdout is not None
        for line in process.stdout:
            if line.startswith("$ fleet plan plan-v2.json"):
                break
        check("there are processes to be ended", len(left()) > 8, True)
        os.killpg(process.pid, signal.SIGINT)
        time.sleep(0.3)
        os.killpg(process.pid, signal.SIGINT)
        process.stdout.read()
        check(
            "the demonstration ends", comes(lambda: process.poll() is not None, LONGEST_END), True
        )
        check("its status", process.returncode, 128 + signal.SIGINT)
        check("what the interrupted demonstration leaves", left(), [])


if __name__ == "__main__":
    checks.run(
        "live_fleet_pages",
        [session, whole_demonstration, interrupted_demonstration],
        at_once=2,
        longest=LONGEST_RUN,
    )
