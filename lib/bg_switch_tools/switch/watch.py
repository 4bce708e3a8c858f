"""Draws the state once a second, and below it each change that was seen."""
import shutil
import sys
import time
from collections.abc import Sequence

from bg_switch_tools.switch.client import Switch
from bg_switch_tools.switch.report_changes import changes
from bg_switch_tools.switch.report_text import draw
from bg_switch_tools.switch.reports import Report

SECONDS = 1  # between two drawings
CLEAR = "\x1b[H\x1b[J"  # to the upper left corner, and empties the screen
MOST_SEEN = 1000  # changes that are kept: no terminal has more rows


def fitting(lines: Sequence[str], change_lines: Sequence[str]) -> str:
    """The lines, and the last of the changes, as a terminal of this size holds them."""
    width, height = shutil.get_terminal_size()
    room = max(height - len(lines) - 2, 0)
    shown = [*lines, "", *(change_lines[-room:] if room else [])]
    return "\n".join(line[:width] for line in shown[: max(height - 1, 1)])


def dated(before: Report | None, now: Report | None) -> list[str]:
    """The changes between two reports, each with its moment."""
    moment = f"moment {now.moment}: " if before and now else ""
    return [moment + change for change in changes(before, now)]


def watch(switch: Switch) -> None:
    """Draws until it is interrupted, or the switch does not answer in time (`UnreachableError`).

    At a terminal the screen is drawn anew each second. Elsewhere a block of plain text is written
    at first, and then after each change of anything but the moment and the numbers of open
    requests.
    """
    is_terminal, is_first = sys.stdout.isatty(), True
    change_lines: list[str] = []
    before: Report | None = None
    while True:
        report = switch.report()
        new = [] if is_first else dated(before, report)
        change_lines = (change_lines + new)[-MOST_SEEN:]
        if is_terminal:
            print(CLEAR + fitting(draw(report), change_lines), end="", flush=True)
        elif is_first or new:
            print("\n".join(draw(report) + new) + "\n", flush=True)
        before, is_first = report, False
        time.sleep(SECONDS)
