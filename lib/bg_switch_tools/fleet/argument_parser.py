"""The command line of bin/fleet, which is made from its commands."""
import argparse

from bg_switch_tools import VERSION
from bg_switch_tools.fleet.commands import FLEET_COMMANDS
from bg_switch_tools.fleet.exit_statuses import listed
from bg_switch_tools.fleet.person.conditions import CONDITION_SYNTAX
from bg_switch_tools.switch.installed_names import named

DESCRIPTION = "Rolls one plan out over the machines of a fleet, which agree by etcd."
END = f"""Conditions of wait: {CONDITION_SYNTAX}.

At a terminal a command that changes something asks first; --yes answers it.

{listed()}

docs/FLEET.md is the runbook.
"""


def parser() -> argparse.ArgumentParser:
    """The parser of bin/fleet."""
    name = named("bin/fleet").removeprefix("bin/")
    argument_parser = argparse.ArgumentParser(
        prog=name,
        description=DESCRIPTION,
        epilog=named(END),
        allow_abbrev=False,
        formatter_class=argparse.RawDescriptionHelpFormatter,
    )
    argument_parser.add_argument("--version", action="version", version=f"fleet {VERSION}")
    argument_parser.add_argument(
        "file", metavar="FLEET.json", help="the fleet file of this machine, or of a person"
    )
    commands = argument_parser.add_subparsers(
        dest="command", metavar="COMMAND", required=True, title="commands"
    )
    for command in FLEET_COMMANDS:
        meaning = f"{command.meaning[0].upper()}{command.meaning[1:]}."
        one = commands.add_parser(
            command.name,
            help=command.meaning,
            description=f"{meaning} {command.more}".strip(),
            allow_abbrev=False,
            epilog=f"{name} --help has the exit statuses.",
        )
        command.add_words(one)
    return argument_parser
