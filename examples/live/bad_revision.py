#!/usr/bin/env python3
"""A revision that answers some requests with 500 goes live, fails its analysis, and is taken back
by nobody's hand.

It starts the switch, `bin/controller` with a plan whose analysis after the switch is
`bin/analysis`, and, where its libraries are installed, `bin/dashboard` at http://127.0.0.1:31790/.
With --picture FILE the page is drawn into a file (by Debian's chromium). It ends with status 0
where live traffic is back and no request failed by the switch itself.
"""
import argparse
import contextlib
import json
import os
import pathlib
import subprocess
import sys
import tempfile
import threading
import time
from collections.abc import Iterator

HERE = pathlib.Path(__file__).resolve().parent
TOP = HERE.parents[1]
sys.dont_write_bytecode = True
sys.path.insert(0, str(TOP / "scripts"))

from support.browser import NoBrowserError, browsing  # noqa: E402 (its folder is known by now)
from support.dashboards import failing, missing, showing  # noqa: E402
from support.endpoints import Endpoint  # noqa: E402
from support.examples import start_switch  # noqa: E402
from support.pace import widened  # noqa: E402
from support.traffic import Traffic, prepared_log  # noqa: E402

# isort: split; `support` tells where the tools' package is
from bg_switch_tools.switch.client import Switch  # noqa: E402
from bg_switch_tools.switch.conditions import Conditions  # noqa: E402
from bg_switch_tools.switch.wait import wait_for  # noqa: E402

ACTIVE, PREVIEW, CONTROL, PAGE, DRIVER = 31780, 31781, 31782, 31790, 31791
REVISIONS = {"web-v1": (31811, 31812), "web-v2": (31821, 31822)}
BAD_EACH = 20  # of the requests of web-v2: 5 per cent
WORKERS, CLIENTS, PAUSE = 4, 3, 0.02
BEFORE, AFTER = 10.0, 6.0  # seconds of traffic before the deploy, and after the way back
ANALYSIS = [
    "--seconds",
    "60",
    "--every",
    "4",
    "--errors-at-most",
    "1%",
    "--p99-at-most",
    "300ms",
    "--requests-at-least",
    "50",
]
WIDTH = 1180
LONGEST = 60  # seconds for which anything is awaited; longer on a busy machine
PROBE = 20  # seconds for a probe: an endpoint that is down refuses it, and others may be slow


def write_plan(folder: pathlib.Path, log: pathlib.Path, *names: str) -> None:
    """Puts the plan in place, whose last revision is to be live."""
    analysis = [str(TOP / "bin" / "analysis"), "--log", str(log), *ANALYSIS]
    told = {
        "control": CONTROL,
        "health": {"interval": 0.5, "timeout": PROBE},
        "analyses": {"post": analysis},
        "revisions": [{"name": name, "ports": REVISIONS[name]} for name in names],
    }
    (folder / "plan.new").write_text(json.dumps(told), encoding="ascii")
    os.replace(folder / "plan.new", folder / "plan.json")


@contextlib.contextmanager
def controlling(folder: pathlib.Path) -> Iterator[None]:
    """A running controller, whose log is printed, and what its analysis prints."""
    controller = subprocess.Popen(
        [str(TOP / "bin" / "controller"), str(folder / "plan.json")],
        stdout=subprocess.PIPE,
        stderr=subprocess.STDOUT,
        text=True,
    )
    assert controller.stdout is not None
    lines = controller.stdout
    teller = threading.Thread(
        target=lambda: [print(f"    {line}", end="", flush=True) for line in lines], daemon=True
    )
    teller.start()
    with ended(controller):
        yield
    teller.join(LONGEST)


@contextlib.contextmanager
def ended(process: subprocess.Popen[str]) -> Iterator[None]:
    """Ends a process whatever happens."""
    try:
        yield
    finally:
        process.terminate()
        process.wait(LONGEST)


def await_state(*conditions: str) -> None:
    switch, awaited = Switch(CONTROL, LONGEST), Conditions(conditions)
    waited = wait_for(switch, awaited, LONGEST, lambda _: None)
    if waited.status != 0:
        waited = wait_for(switch, awaited, widened(LONGEST) - LONGEST, lambda _: None)
    if waited.status != 0:
        sys.exit(f"{' '.join(conditions)} did not come: {waited.reason}")


def tell(text: str) -> None:
    print(f"\n# {text}", flush=True)


def draw(path: pathlib.Path) -> None:
    """Draws the page into a file."""
    try:
        with browsing(DRIVER) as browser:
            browser.scheme("light")
            browser.size(WIDTH, 900)
            browser.open(f"http://127.0.0.1:{PAGE}/#minutes=1")
            if not browser.shows("#phase", "Aborted") or not browser.shows("#requests", "web-v2"):
                sys.exit("the page does not show the abort")
            browser.fit(WIDTH)
            browser.screenshot(path)
            print(f"the page's picture is {path}")
    except NoBrowserError as reason:
        sys.exit(f"no picture can be drawn: {reason}")


def play(folder: pathlib.Path, log: pathlib.Path, traffic: Traffic) -> None:
    """The story, up to the way back."""
    await_state("stable=web-v1", "phase=steady")
    tell("web-v1 is live, and requests come without pause")
    traffic.start()
    time.sleep(BEFORE)
    tell(f"web-v2 is deployed: it answers 1 of {BAD_EACH} requests with 500")
    write_plan(folder, log, "web-v1", "web-v2")
    await_state("newest=web-v2", "active=web-v2")
    tell(
        "it is live; its analysis asks for errors of 1% at most, and traffic goes back as soon as that does not hold"
    )
    await_state("phase=aborted", "active=web-v1")
    tell("live traffic is back at web-v1")
    traffic.part()
    time.sleep(AFTER)


def main() -> int:
    parser = argparse.ArgumentParser(description=__doc__)
    parser.add_argument(
        "--picture", type=pathlib.Path, metavar="FILE", help="draws the page into a file at the end"
    )
    given = parser.parse_args()
    for name, ports in REVISIONS.items():
        answer = failing(name.encode(), BAD_EACH if name == "web-v2" else 0, 0.004)
        for port in ports:
            Endpoint(answer, port)
    with tempfile.TemporaryDirectory() as told, contextlib.ExitStack() as stack:
        folder = pathlib.Path(told)
        log = folder / "access.log"
        variables = prepared_log(log)
        write_plan(folder, log, "web-v1")
        switch = start_switch(
            HERE / "bad_revision.json", ACTIVE, PREVIEW, CONTROL, WORKERS, variables
        )
        stack.enter_context(ended(switch))
        traffic = Traffic(ACTIVE, CLIENTS, PAUSE)
        if why := missing():
            print(f"without the page: {why}")
        else:
            print(
                f"the page: {stack.enter_context(showing(CONTROL, PAGE, '--log', str(log)))}",
                flush=True,
            )
        with controlling(folder):
            play(folder, log, traffic)
            if given.picture:
                draw(given.picture)
        traffic.end()
        after = traffic.part()
    print(
        f"\nrequests after the way back: {dict(after)}\nweb-v2 answered with 500: {traffic.errors['web-v2']}\n"
        f"requests that failed by the switch itself: {traffic.failed}"
    )
    is_back = after["web-v1"] > 0 and after["web-v2"] == 0
    return 0 if is_back and traffic.failed == 0 and traffic.errors["web-v2"] > 0 else 1


if __name__ == "__main__":
    sys.exit(main())
