"""The words of the commands of bin/fleet, and what each of them has to be."""
import argparse

from bg_switch_tools.fleet.person.conditions import CONDITION_SYNTAX
from bg_switch_tools.switch.arguments import seconds_of
from bg_switch_tools.switch.json_values import NAME
from bg_switch_tools.switch.meanings import REFUSALS

LONGEST_ID = 19  # digits of a revision of etcd
# seconds: no line goes forward by a read that is older than a second
LEAST_ROUND, LONGEST_ROUND = (0.05, 0.9)


def revision_name(text: str) -> str:
    if not NAME.fullmatch(text):
        raise argparse.ArgumentTypeError(f"{text!r} is not a name: {REFUSALS['BadName']}")
    return text


def attempt_id(text: str) -> int:
    if not text.isascii() or not text.isdigit() or len(text) > LONGEST_ID:
        raise argparse.ArgumentTypeError(
            f"the id of an attempt is expected, as `status` shows it, and not {text!r}"
        )
    return int(text)


def round_seconds(text: str) -> float:
    seconds = seconds_of(text)
    if not LEAST_ROUND <= seconds <= LONGEST_ROUND:
        raise argparse.ArgumentTypeError(
            f"a number of seconds from {LEAST_ROUND:g} to {LONGEST_ROUND:g} is expected, and not {text!r}"
        )
    return seconds


def add_yes(to: argparse.ArgumentParser) -> None:
    to.add_argument("--yes", action="store_true", help="does not ask")


def add_json(to: argparse.ArgumentParser) -> None:
    to.add_argument("--json", action="store_true", help="prints JSON")


def add_agent(to: argparse.ArgumentParser) -> None:
    to.add_argument(
        "--state",
        metavar="PATH",
        help="the folder in which the agent keeps what outlives a crash, or the path before the "
        "endings of its files (the folder of the unit's state, or else that of the fleet file)",
    )
    to.add_argument(
        "--round",
        type=round_seconds,
        metavar="SECONDS",
        help="the seconds between two reads where no key changes (0.3)",
    )
    to.add_argument(
        "--json", action="store_true", help="writes each line of the log as an object of JSON"
    )


def add_plan_file(to: argparse.ArgumentParser) -> None:
    to.add_argument("plan", metavar="PLAN", help="the file of the plan")


def add_plan(to: argparse.ArgumentParser) -> None:
    add_plan_file(to)
    add_yes(to)


def add_order(to: argparse.ArgumentParser) -> None:
    to.add_argument(
        "--attempt",
        type=attempt_id,
        metavar="ID",
        help="the attempt that was seen: another one is refused",
    )
    to.add_argument(
        "--wait",
        action="store_true",
        help="waits for the end of the attempt, which gives the exit status",
    )
    add_timeout(to, "--wait")
    add_yes(to)


def add_timeout(to: argparse.ArgumentParser, of: str) -> None:
    to.add_argument(
        "--timeout",
        type=seconds_of,
        default=600.0,
        metavar="SECONDS",
        help=f"how long {of} waits (600)",
    )


def add_undo(to: argparse.ArgumentParser) -> None:
    to.add_argument(
        "--to", type=revision_name, metavar="NAME", help="the revision to be taken again"
    )
    add_yes(to)


def add_members(to: argparse.ArgumentParser) -> None:
    steps = to.add_subparsers(dest="step", metavar="list | add | remove")
    steps.add_parser(
        "list", help="lists the members, which is done without a word too", allow_abbrev=False
    )
    for step, meaning in (("add", "adds members"), ("remove", "removes members")):
        step_parser = steps.add_parser(step, help=meaning, allow_abbrev=False)
        step_parser.add_argument(
            "hosts", metavar="HOST", nargs="+", type=revision_name, help="the host of a fleet file"
        )
        if step == "remove":
            add_yes(step_parser)


def add_wait(to: argparse.ArgumentParser) -> None:
    to.add_argument("conditions", metavar="CONDITION", nargs="+", help=CONDITION_SYNTAX)
    add_timeout(to, "it")
    add_json(to)
