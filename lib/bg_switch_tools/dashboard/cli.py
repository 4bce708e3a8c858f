"""bin/dashboard: shows a running switch, a fleet or both as web pages, and gives their metrics."""
import argparse
import os
import sys
from collections.abc import Sequence

from bg_switch_tools.dashboard.board import Board
from bg_switch_tools.dashboard.fleet_agent import local_agent
from bg_switch_tools.fleet.plan.fleet_file import FleetFile, FleetFileError, read_whole_fleet_file
from bg_switch_tools.switch.arguments import control_of, numbered_port
from bg_switch_tools.switch.frame import REFUSED, Frame
from bg_switch_tools.switch.installed_names import named

USAGE = "bin/dashboard [PORT] [--fleet FLEET.json] [--agent-state PATH] --listen PORT [--log FILE] [--plan PLAN] [--read-only]"
ABOUT = """Shows the switch at a control port as a web page at http://127.0.0.1:LISTEN/, a fleet at http://127.0.0.1:LISTEN/fleet, their
metrics at /metrics, and their state as JSON at /api/state and /api/events, /api/fleet and /api/fleet/events. PORT, --fleet or
both say what is shown. It listens on 127.0.0.1 alone."""
END = """
It needs aiohttp and prometheus_client: apt-get install python3-aiohttp python3-prometheus-client. docs/DASHBOARD.md has the rest.

Exit status: 0 after SIGTERM or ctrl-C; 1 if the port cannot be used, the fleet file is wrong, or a library is missing; 2 if the
words are wrong.
"""
FRAME = Frame("dashboard")
OF_AN_AGENT = (
    "--agent-state is of the agent of a switch: name its control port and the fleet file too"
)
PACKAGES = {"aiohttp": "python3-aiohttp", "prometheus_client": "python3-prometheus-client"}


def listened_port(text: str) -> int:
    return numbered_port(text, "the port of the page")


def parser() -> argparse.ArgumentParser:
    argument_parser = argparse.ArgumentParser(
        prog="dashboard",
        usage=named(USAGE),
        description=ABOUT,
        epilog=named(END),
        formatter_class=argparse.RawDescriptionHelpFormatter,
    )
    argument_parser.add_argument(
        "control",
        type=control_of,
        nargs="?",
        metavar="PORT",
        help="the control port of the switch, or the path of its control socket",
    )
    add_options(argument_parser)
    argument_parser.add_argument(
        "--plan",
        default="",
        metavar="PLAN",
        help="the plan of the switch's controller, which is shown too",
    )
    return argument_parser


def add_options(argument_parser: argparse.ArgumentParser) -> None:
    """Adds the options of a dashboard that name neither the switch nor the plan."""
    argument_parser.add_argument(
        "--fleet",
        default="",
        metavar="FLEET.json",
        help="the fleet file of the fleet, which needs no machine",
    )
    argument_parser.add_argument(
        "--agent-state",
        default="",
        metavar="PATH",
        help="where the agent of this machine keeps its files, if that is not the folder of the fleet file",
    )
    argument_parser.add_argument(
        "--listen", type=listened_port, required=True, metavar="PORT", help="the port of the page"
    )
    argument_parser.add_argument(
        "--log",
        default="",
        metavar="FILE",
        help="the access log of the switch, BG_SWITCH_ACCESS_LOG",
    )
    argument_parser.add_argument(
        "--read-only",
        action="store_true",
        help="the page has no buttons, and no line can be sent through it",
    )


def fault_beside_a_switch(options: argparse.Namespace) -> str:
    """What is wrong with the words if a switch is shown; empty if nothing is."""
    return OF_AN_AGENT if options.agent_state and not options.fleet else ""


def fault_of(options: argparse.Namespace) -> str:
    """Why the words say nothing that can be shown; empty if they do."""
    if options.control is not None:
        return fault_beside_a_switch(options)
    if not options.fleet:
        return (
            "name what is shown: the control port of a switch, a fleet file with --fleet, or both"
        )
    if options.log:
        return "--log is the access log of a switch: name its control port too"
    if options.plan:
        return "--plan is that of the controller of a switch: name its control port too"
    return OF_AN_AGENT if options.agent_state else ""


def fleet_file(path: str) -> FleetFile | None:
    """The fleet file of a path; None if no path is named. `FleetFileError` if it is not a fleet
    file."""
    return read_whole_fleet_file(path) if path else None


def show(options: argparse.Namespace) -> int:
    """Shows what the words name, until a signal comes. Gives the exit status."""
    try:
        # here, so that the other tools need no more than python's standard library
        from bg_switch_tools.dashboard import server
    except ModuleNotFoundError as missing:
        package = PACKAGES.get(str(missing.name).split(".")[0])
        if package is None:
            raise
        FRAME.tell(
            f"{sys.executable} has no {missing.name}. On Debian: apt-get install {package}, which installs it for "
            "/usr/bin/python3"
        )
        return REFUSED
    try:
        board = (
            None
            if options.control is None
            else Board(options.control, options.log, options.read_only, options.plan)
        )
        file = fleet_file(options.fleet)
        agent = local_agent(file, options.agent_state) if file and board else None
        if board and agent and not options.plan:
            board.results_of = agent.files
        server.run(board, file, agent, options.listen)
    except FleetFileError as wrong:
        for problem in wrong.problems:
            FRAME.tell(f"{options.fleet}: {problem}")
        return REFUSED
    except OSError as error:
        FRAME.tell(f"port {options.listen} cannot be used: {os.strerror(error.errno or 0)}")
        return REFUSED
    return 0


def main(words: Sequence[str]) -> int:
    argument_parser = parser()
    options = argument_parser.parse_args(words)
    if fault := fault_of(options):
        argument_parser.error(fault)
    return FRAME.run(lambda: show(options))
