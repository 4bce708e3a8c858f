"""The tools by their names: bin/NAME, the one file that `make tools` makes, and the commands of an
installed package start them."""
import contextlib
import importlib
import io
import os
import sys
from collections.abc import Sequence

TOOLS = ("bgctl", "operator", "controller", "analysis", "dashboard", "fleet")  # each a package
# those whose output has a question mark for each character that it can't have, as drawings need it
DRAWING = ("bgctl", "operator", "fleet")


def prepare_streams() -> None:
    """Opens each standard stream that was closed, so that no file or socket takes its place. A path
    that is not UTF-8 can be printed."""
    while (opened := os.open(os.devnull, os.O_RDWR)) <= 2:
        pass
    os.close(opened)
    sys.stdin = sys.stdin or open(os.devnull, encoding="utf-8")
    sys.stdout = sys.stdout or open(os.devnull, "w", encoding="utf-8")
    sys.stderr = sys.stderr or open(os.devnull, "w", encoding="utf-8")
    if isinstance(sys.stdout, io.TextIOWrapper) and sys.stdout.errors == "strict":
        sys.stdout.reconfigure(errors="backslashreplace")


def finish_streams() -> None:
    """Writes what is left of the output. If nobody takes it, it is dropped: the exit status still
    tells the result."""
    for stream in (sys.stdout, sys.stderr):
        try:
            stream.flush()
        except OSError:
            with contextlib.suppress(OSError):
                os.dup2(os.open(os.devnull, os.O_WRONLY), stream.fileno())


def run(name: str, words: Sequence[str]) -> int:
    """Runs a tool. Gives the exit status."""
    prepare_streams()
    # the others are not imported, so that each starts fast
    if name in DRAWING and isinstance(sys.stdout, io.TextIOWrapper):
        sys.stdout.reconfigure(errors="replace")
    status: int = importlib.import_module(f"bg_switch_tools.{name}.cli").main(words)
    finish_streams()
    return status


def main(words: Sequence[str]) -> int:
    """Runs the tool that the first word names. Gives the exit status."""
    if not words or words[0] not in TOOLS:
        prepare_streams()
        print(
            "name a tool first: bgctl, operator, controller, analysis, dashboard or fleet; its own words follow",
            file=sys.stderr,
        )
        return 2
    return run(words[0], words[1:])


def bgctl() -> int:
    return run("bgctl", sys.argv[1:])


def operator() -> int:
    return run("operator", sys.argv[1:])


def controller() -> int:
    return run("controller", sys.argv[1:])


def analysis() -> int:
    return run("analysis", sys.argv[1:])


def dashboard() -> int:
    return run("dashboard", sys.argv[1:])


def fleet() -> int:
    return run("fleet", sys.argv[1:])
