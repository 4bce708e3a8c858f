"""Looks at a switch ten times a second, apart from its agent: python3 -m support.fleet.look
CONTROL. A line of JSON for each look."""
import json
import sys
import time

import support  # noqa: F401 - it tells where the tools' package is
from bg_switch_tools.switch.connection import UnreachableError, ask
from bg_switch_tools.switch.reports import ReportError, read_report
from support.fleet.recording import Look
from support.moments import moment

PERIOD, WAIT = 0.1, 0.3  # seconds


def look_at(control: int) -> Look:
    """One look. It has no phase if the switch gives no answer in time, or no book is open."""
    begun = moment()
    try:
        report = read_report(ask(control, b"report", WAIT))
    except (UnreachableError, ReportError):
        report = None
    if report is None:
        return Look(begun, moment())
    return Look(
        begun,
        moment(),
        report.phase,
        *(report.service(service).name for service in ("active", "stable", "newest")),
    )


if __name__ == "__main__":
    while True:
        print(json.dumps(look_at(int(sys.argv[1]))._asdict()), flush=True)
        time.sleep(PERIOD)
