"""Programs that a script starts: they end with it, and their descriptors and memory are looked
at."""
import atexit
import contextlib
import os
import pathlib
import resource
import signal
import subprocess
from collections.abc import Collection, Sequence
from typing import Any, NamedTuple

from support.checks import comes
from support.pace import at_the_limit, widened

# No program that these scripts start runs for longer, in seconds.
LONGEST = 160
# The standard streams have the lowest descriptors.
STANDARD_STREAMS = 3


class Run(NamedTuple):
    """What a run of a program has printed, what it told on standard error, and its status."""

    printed: str
    told: str
    status: int


def run_to_end(words: Sequence[str], given: str = "", longest: float = LONGEST) -> Run:
    """A run of a program that ends by itself, with this standard input: see `output_of`."""
    with subprocess.Popen(
        words, stdin=subprocess.PIPE, stdout=subprocess.PIPE, stderr=subprocess.PIPE, text=True
    ) as process:
        try:
            output = output_of(process, given, longest)
        except BaseException:
            process.kill()
            raise
    return Run(*output, process.returncode)


def output_of(
    process: subprocess.Popen[str], text: str | None = None, longest: float = LONGEST
) -> tuple[str, str]:
    """What a process with this standard input has printed and told up to its end.
    `TimeoutExpired` if it does not end within `longest` seconds, or as many more as the machine is
    slower than a free one."""
    try:
        return process.communicate(text, longest)
    except subprocess.TimeoutExpired:
        return process.communicate(timeout=widened(longest) - longest)


def status_of(process: "subprocess.Popen[Any]", longest: float = LONGEST) -> int:
    """The status of a process that ends. `TimeoutExpired` if it does not end within `longest`
    seconds, or as many more as the machine is slower than a free one."""
    try:
        return process.wait(longest)
    except subprocess.TimeoutExpired:
        return process.wait(widened(longest) - longest)


def limit(process: "subprocess.Popen[Any]", longest: float | None = None) -> None:
    """Ends a process after a while (`LONGEST` as it is now, if none is given), and with this script,
    so that whoever waits for it fails and doesn't hang."""
    atexit.register(process.kill)
    at_the_limit(LONGEST if longest is None else longest, process.kill)


def stop(process: subprocess.Popen[str]) -> None:
    """Ends a process at once, and waits for its end."""
    process.kill()
    process.wait(LONGEST)


def pause(process: int) -> None:
    """Stops a process by SIGSTOP, until SIGCONT. None of its threads runs any more then: on a busy
    machine some go on for a while after the signal."""
    os.kill(process, signal.SIGSTOP)
    comes(lambda: all(is_stopped(path) for path in pathlib.Path(f"/proc/{process}/task").iterdir()))


def is_stopped(thread: pathlib.Path) -> bool:
    """Whether a thread is stopped by a signal, or has ended."""
    try:
        return (thread / "stat").read_text(encoding="ascii", errors="replace").rpartition(")")[
            2
        ].split()[0] in "TZX"
    except OSError:
        return True


def end(process: "subprocess.Popen[Any]", longest: float = LONGEST) -> None:
    """Ends a process by SIGTERM, and by SIGKILL if that takes too long. Waits for its end."""
    process.terminate()
    try:
        process.wait(longest)
    except subprocess.TimeoutExpired:
        process.kill()
        process.wait()


def descriptors(process: int) -> list[int]:
    """The descriptors that a process has open."""
    return sorted(map(int, os.listdir(f"/proc/{process}/fd")))


def links(process: int) -> dict[int, str]:
    """The descriptors that a process has open, and what each is."""
    found = {}
    for descriptor in descriptors(process):
        with contextlib.suppress(FileNotFoundError):
            found[descriptor] = os.readlink(f"/proc/{process}/fd/{descriptor}")
    return found


def sockets(process: int) -> int:
    """How many of the descriptors of a process are sockets."""
    return sum(target.startswith("socket:") for target in links(process).values())


def threads(process: int) -> int:
    """How many threads a process has."""
    return len(os.listdir(f"/proc/{process}/task"))


def resident_memory(process: int) -> int:
    """The memory of a process in KiB."""
    return memory_of(process, "VmRSS")


def greatest_memory(process: int) -> int:
    """The most memory that a process has had since its start, in KiB."""
    return memory_of(process, "VmHWM")


def memory_of(process: int, kind: str) -> int:
    """A kind of memory of a process in KiB, by the system's name of it."""
    lines = pathlib.Path(f"/proc/{process}/status").read_text(encoding="ascii").splitlines()
    return next(int(line.split()[1]) for line in lines if line.startswith(f"{kind}:"))


def processor_seconds(process: int) -> float:
    """The processor time of a process and of the system for it, in seconds."""
    fields = pathlib.Path(f"/proc/{process}/stat").read_text(encoding="ascii").rpartition(")")[2]
    user, system = fields.split()[11:13]
    return (int(user) + int(system)) / os.sysconf("SC_CLK_TCK")


def bytes_read(process: int) -> int:
    """How many bytes a process has read from files, pipes and the like, but not by recv(2)."""
    lines = pathlib.Path(f"/proc/{process}/io").read_text(encoding="ascii").splitlines()
    return next(int(line.split()[1]) for line in lines if line.startswith("rchar:"))


def signals(process: int) -> dict[int, int]:
    """The descriptors by which the threads of a process signal to one another, each with the posts
    that no thread has taken."""
    found = {}
    for descriptor in descriptors(process):
        with contextlib.suppress(FileNotFoundError):
            text = pathlib.Path(f"/proc/{process}/fdinfo/{descriptor}").read_text(encoding="ascii")
            counts = [
                line.split()[1] for line in text.splitlines() if line.startswith("eventfd-count:")
            ]
            found.update({descriptor: int(count, 16) for count in counts})
    return found


def posts(process: int) -> int:
    """How many posts of signals no thread of a process has taken."""
    return sum(signals(process).values())


def sets_that_watch(process: int, sockets_there: Collection[str]) -> int:
    """How many epoll sets of a process watch one of the sockets of these numbers."""
    places = {
        str(descriptor)
        for descriptor, target in links(process).items()
        if target.removeprefix("socket:[").removesuffix("]") in sockets_there
    }
    return sum(not places.isdisjoint(watched_by(process, one)) for one in epoll_sets(process))


def epoll_sets(process: int) -> list[int]:
    """The epoll sets of a process."""
    return [one for one, target in links(process).items() if target == "anon_inode:[eventpoll]"]


def watched_by(process: int, epoll_set: int) -> list[str]:
    """The descriptors that an epoll set of a process watches."""
    with contextlib.suppress(FileNotFoundError):
        text = pathlib.Path(f"/proc/{process}/fdinfo/{epoll_set}").read_text(encoding="ascii")
        return [line.split()[1] for line in text.splitlines() if line.startswith("tfd:")]
    return []


def limit_descriptors(soft: int, hard: int | None = None) -> None:
    """The descriptors that this process may have from now on, by its soft and its hard limit; the
    hard one stays if none is given."""
    most = resource.getrlimit(resource.RLIMIT_NOFILE)[1]
    hard = most if hard is None else hard
    if most != resource.RLIM_INFINITY:
        soft, hard = min(soft, most), min(hard, most)
    resource.setrlimit(resource.RLIMIT_NOFILE, (soft, hard))


class DescriptorLimit:
    """The limit on the descriptors of a running process, which is lowered and put back."""

    def __init__(self, process: int) -> None:
        self.process = process
        self.most = resource.prlimit(process, resource.RLIMIT_NOFILE)

    def leave(self, count: int) -> None:
        """At most `count` descriptors can be had beside those that are open, from the highest of
        them on."""
        self.set(1 + descriptors(self.process)[-1] + count)

    def refuse(self) -> None:
        """None can be had from now on, whatever is closed but the standard streams. Those that are
        open stay."""
        self.set(STANDARD_STREAMS)

    def lift(self) -> None:
        self.set(self.most[0])

    def set(self, most: int) -> None:
        resource.prlimit(self.process, resource.RLIMIT_NOFILE, (most, self.most[1]))
