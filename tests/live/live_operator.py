"""bin/operator before a running `serve`: its exit statuses, several of them at once, an order that
was given up, a prompt at a terminal, and the watcher."""
import codecs
import contextlib
import fcntl
import os
import pathlib
import pty
import re
import select
import signal
import subprocess
import termios
import threading
import time
from collections.abc import Iterator

from support import TOP, checks, processes
from support.checks import check, comes
from support.messages import BY_HAND
from support.operators import Operator
from support.ports import free_port
from support.processes import Run, output_of, run_to_end, status_of
from support.switch import Switch

# isort: split; `support` tells where the tools' package is
from bg_switch_tools.switch.lines import LINES
from bg_switch_tools.switch.meanings import FAULTS, REFUSALS

OPERATOR = str(TOP / "bin" / "operator")
WAIT = 20  # seconds for which anything is awaited; longer on a busy machine
AGAIN = 8  # seconds after which a key is typed again; longer on a busy machine
TRIES = 3  # how often it is typed
MEANING = "the rollout is not paused"


def run_operator(port: int, *words: str, lines: str = "") -> Run:
    return run_to_end([OPERATOR, str(port), *words], lines, WAIT)


def outcome(switch: Switch, *words: str, lines: str = "") -> tuple[str, int]:
    """What a run of bin/operator prints, and its exit status."""
    run = run_operator(switch.control, *words, lines=lines)
    return run.printed, run.status


def moment(switch: Switch) -> str:
    return outcome(switch, "report")[0].split("\n")[0]


def started(switch: Switch, *words: str) -> subprocess.Popen[str]:
    """A run of bin/operator that goes on meanwhile."""
    return subprocess.Popen(
        [OPERATOR, str(switch.control), *words],
        stdin=subprocess.PIPE,
        stdout=subprocess.PIPE,
        text=True,
    )


@contextlib.contextmanager
def closed_book() -> Iterator[Switch]:
    """A switch whose book isn't open, which is ended whatever happens."""
    switch = Switch(BY_HAND, count=9)
    try:
        yield switch
    finally:
        switch.kill()


def without_a_switch() -> None:
    """Status 2 if there is no answer, or the words are wrong."""
    nobody = run_operator(free_port(), "--wait", "0.3", "report")
    check(
        "no switch",
        (nobody.printed, nobody.status, "can't be reached" in nobody.told),
        ("", 2, True),
    )
    no_port = run_operator(0)
    check("no port", (no_port.printed, no_port.status), ("", 2))


def statuses() -> None:
    """0 if every line was carried out, 1 if one was refused or faulty, 2 if there is no answer."""
    with closed_book() as switch:
        check("before a book", outcome(switch, "tick", "1"), ("refused NotOpen\n", 1))
        check("open", outcome(switch, "open", "one", "9"), ("ok 0\n", 0))
        check(
            "a refusal",
            run_operator(switch.control, "promote"),
            ("refused NotPaused\n", f"operator: refused NotPaused: {MEANING}\n", 1),
        )
        check(
            "a line of a replay", outcome(switch, "enter", "0", "active"), ("refused NotHere\n", 1)
        )
        check(
            "good lines",
            outcome(switch, lines="tick 1\n  available 1 1\ntick 2"),
            ("ok 0\nok 0\nok 0\n", 0),
        )
        report, _ = outcome(switch, "report")
        check("a report", (moment(switch), report.endswith("\nend\n")), ("moment 2", True))
        check(
            "it stops at a refusal",
            outcome(switch, lines="tick 3\npromote\ntick 4\n"),
            ("ok 0\nrefused NotPaused\n", 1),
        )
        check("what followed wasn't sent", moment(switch), "moment 3")
        check("it stops at a fault", outcome(switch, lines="\ntick 4\n"), ("fault Empty\n", 1))
        check(
            "it keeps going",
            outcome(switch, "--keep-going", lines="promote\njump\ntick 5\n"),
            ("refused NotPaused\nfault UnknownWord\nok 0\n", 1),
        )
        check("quit", outcome(switch, lines="tick 6\nquit\ntick 7\n"), ("ok 0\n", 0))
        check("after quit", outcome(switch, "--wait", "0.5", "report"), ("", 2))


def given_up() -> None:
    """An order isn't carried out later if the switch gave no answer for too long."""
    with closed_book() as switch:
        with contextlib.closing(Operator(switch.control)) as operator:
            operator.check("open one 9", "ok 0")
        processes.pause(switch.process.pid)
        check("no answer", outcome(switch, "--wait", "1", "tick", "50"), ("", 2))
        check(
            "no answer to lines",
            outcome(switch, "--wait", "0.5", lines="tick 51\ntick 52\n"),
            ("", 2),
        )
        check("no answer to a watcher", outcome(switch, "--wait", "0.5", "watch"), ("", 2))
        pending = started(switch, "tick", "7")
        time.sleep(0.5)
        switch.process.send_signal(signal.SIGCONT)
        check(
            "an order that waited",
            (output_of(pending, longest=WAIT)[0], pending.returncode),
            ("ok 0\n", 0),
        )
        check("no order that was given up", moment(switch), "moment 7")


class Terminal:
    """A run of bin/operator at a terminal."""

    def __init__(self, switch: Switch, *words: str) -> None:
        self.end, other = pty.openpty()
        self.process = subprocess.Popen(
            [OPERATOR, str(switch.control), *words],
            stdin=other,
            stdout=other,
            stderr=other,
            start_new_session=True,
            env={**os.environ, "TERM": "xterm"},
            preexec_fn=lambda: fcntl.ioctl(0, termios.TIOCSCTTY, 0),
        )
        os.close(other)
        self.prompt = f"{switch.control}> "
        self.shown = ""
        # a piece that comes may end within a character
        self.decoder = codecs.getincrementaldecoder("utf-8")()

    def type(self, text: str) -> None:
        os.write(self.end, text.encode())

    def read(self) -> bool:
        """Reads what is shown next, for a moment; whether the terminal is still there."""
        if select.select([self.end], [], [], 0.1)[0]:
            try:
                self.shown += self.decoder.decode(os.read(self.end, 65536))
            except OSError:
                return False
        return True

    def await_text(self, text: str) -> bool:
        """Whether this comes in time, after what was awaited before."""
        comes(lambda: text in self.shown or not self.read(), WAIT)
        if text not in self.shown:
            return False
        before, _, self.shown = self.shown.rpartition(text)
        return "Traceback" not in before

    def await_prompt(self) -> bool:
        """Whether the prompt comes in time. Keys that are typed before may be taken otherwise: the
        terminal is set up for the prompt only then."""
        return self.await_text(self.prompt)

    def status(self) -> int:
        status = status_of(self.process, WAIT)
        os.close(self.end)
        return status

    def interrupted(self) -> int:
        """Types ctrl-C up to the end of the process, and gives its status. `input` of Python misses
        a signal that comes after it has written the prompt and before it waits for a key, so the
        first ctrl-C may need a second. It comes late, since a second one would end a process that
        is already about to end.
        """
        for _ in range(TRIES):
            with contextlib.suppress(OSError):  # it ended meanwhile
                self.type("\x03")
            with contextlib.suppress(subprocess.TimeoutExpired):
                status_of(self.process, AGAIN)
                break
        return self.status()


def at_a_prompt() -> None:
    """The prompt, what it says of a refusal, and how it ends."""
    with closed_book() as switch:
        terminal = Terminal(switch)
        refusal = f"refused NotPaused: {MEANING}"
        for name, keys, shown in (
            ("help", "help\n", "promote full"),
            ("a reply", "open one 9\n", "ok 0"),
            ("a refusal and what it means", "promote\n", refusal),
            # the line before, by the arrow up
            ("history", "\x1b[A\n", refusal),
        ):
            check(f"a prompt before {name}", terminal.await_prompt(), True)
            terminal.type(keys)
            check(name, terminal.await_text(shown), True)
        check("a prompt before ctrl-D", terminal.await_prompt(), True)
        check("an idle prompt holds nobody up", outcome(switch, "tick", "3"), ("ok 0\n", 0))
        terminal.type("\x04")
        check("ctrl-D", terminal.status(), 0)
        terminal = Terminal(switch)
        check("a second prompt", terminal.await_prompt(), True)
        check("ctrl-C", terminal.interrupted(), 0)


def watcher_at_a_terminal() -> None:
    with closed_book() as switch:
        check("open before a watcher", outcome(switch, "open", "one", "9"), ("ok 0\n", 0))
        terminal = Terminal(switch, "watch")
        check("a screen that is cleared", terminal.await_text("\x1b[H\x1b[J"), True)
        check("the tree", terminal.await_text("└─ 1 one"), True)
        check("ctrl-C at the watcher", terminal.interrupted(), 0)


class Watcher:
    """A run of `watch`, whose text is read as it comes."""

    def __init__(self, switch: Switch) -> None:
        self.text = ""
        self.process = started(switch, "watch")
        self.thread = threading.Thread(target=self.read, daemon=True)
        self.thread.start()

    def read(self) -> None:
        for line in self.process.stdout or ():
            self.text += line

    def sees(self, text: str) -> bool:
        """Whether this text comes, at a time that comes soon."""
        return comes(lambda: text in self.text)

    def interrupted(self) -> int:
        """Interrupts it, and gives its status."""
        self.process.send_signal(signal.SIGINT)
        status = status_of(self.process, WAIT)
        self.thread.join(WAIT)
        return status


def side_by_side() -> None:
    """Two operators and a watcher at once: each order is carried out, and the watcher sees what
    moves."""
    with closed_book() as switch:
        check("open", outcome(switch, "open", "one", "9"), ("ok 0\n", 0))
        watcher = Watcher(switch)
        check("the first block", watcher.sees("phase steady (no attempt runs)   moment 0\n"), True)
        ticking = started(switch)
        assert ticking.stdin is not None
        ticking.stdin.write("".join(f"tick {second}\n" for second in range(1, 11)))
        ticking.stdin.close()
        ticking.stdin = None
        check("an order beside ticks", outcome(switch, "deploy", "two", "10"), ("ok 0\n", 0))
        check("a deploy that is seen", watcher.sees("revision 2 two: deployed, desired 1\n"), True)
        check("another", outcome(switch, "available", "2", "1"), ("ok 1\n", 0))
        check(
            "ticks", (output_of(ticking, longest=WAIT)[0], ticking.returncode), ("ok 0\n" * 10, 0)
        )
        check("a phase that is seen", watcher.sees("-> paused\n"), True)
        check("a promotion", outcome(switch, "promote"), ("ok 3\n", 0))
        check("its end is seen", watcher.sees("in 30 s\n"), True)
        check("the watcher's status", watcher.interrupted(), 0)
        check_watched(watcher.text)


def check_watched(text: str) -> None:
    """What a watcher has drawn beside a deploy, ticks and a promotion."""
    check("plain text", "\x1b" in text, False)
    check("the first block", text.startswith("phase steady (no attempt runs)   moment 0\n"), True)
    check(
        "a deploy that was seen",
        bool(re.search(r"moment \d+: revision 2 two: deployed, desired 1\n", text)),
        True,
    )
    check(
        "a switch that was seen",
        "moment 10: active: revision 1 one -> revision 2 two\n" in text,
        True,
    )
    check("a phase that was seen", "moment 10: phase: paused -> steady\n" in text, True)
    check(
        "the seconds to the deadline",
        bool(re.search(r"└─ 1 one +0 of 1 +0 +in 30 s\n", text)),
        True,
    )


def meanings() -> None:
    """Each refusal and fault of docs/LINES.md has its meaning."""
    text = pathlib.Path("docs/LINES.md").read_text(encoding="utf-8")
    told = text.split("What the refusals mean:")[1].split("\n## ")[0]
    names = {
        name
        for cells in re.findall(r"^\| (.*?) \|", told, re.M)
        for name in re.findall(r"`(\w+)`", cells)
    }
    check(
        "refusals without a meaning", (sorted(names - set(REFUSALS)), len(names) > 20), ([], True)
    )
    faults = text.split("## How a line is read")[1].split("`BadWord` and `BadNumber` are judged")[0]
    names = set(re.findall(r"^\| `(\w+)` \|", faults, re.M))
    check("faults without a meaning", sorted(names ^ set(FAULTS)), [])
    lines = set(
        re.findall(
            r"^\| `(\w+)",
            text.split("\n## The lines\n")[1].split("What the refusals mean:")[0],
            re.M,
        )
    )
    check(
        "lines of the help",
        sorted({line.syntax.split()[0] for line in LINES} ^ (lines - {"enter", "leave"})),
        [],
    )


if __name__ == "__main__":
    # a shell's background job ignores interrupts, and so would all that it starts
    signal.signal(signal.SIGINT, signal.default_int_handler)
    PARTS = [
        without_a_switch,
        statuses,
        given_up,
        at_a_prompt,
        watcher_at_a_terminal,
        side_by_side,
        meanings,
    ]
    checks.run("live_operator", PARTS, at_once=3)
