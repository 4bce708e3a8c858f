"""The command line of bgctl, which is made from its commands."""
import argparse
import re
from collections.abc import Collection, Mapping, Sequence
from typing import NoReturn

from bg_switch_tools import VERSION
from bg_switch_tools.bgctl.command import Command
from bg_switch_tools.bgctl.commands import BGCTL_COMMANDS, DESCRIPTION, END
from bg_switch_tools.bgctl.target import BEFORE
from bg_switch_tools.switch.arguments import control_of, seconds_of
from bg_switch_tools.switch.client import WAIT
from bg_switch_tools.switch.installed_names import named
from bg_switch_tools.switch.suggestion import did_you_mean

OF_TARGET = ("--control", "--plan")  # the options that the parser itself takes before a command


class Parser(argparse.ArgumentParser):
    """A parser that says of an unknown option which one was probably meant, or which commands have
    it."""

    # by the long options of all commands: the commands that have it
    owners: Mapping[str, Sequence[str]] = {}
    valued: Collection[str] = OF_TARGET  # the options that take a value
    # by the names of the commands: the parser of its words
    commands: Mapping[str, argparse.ArgumentParser] = {}

    def error(self, message: str) -> NoReturn:
        unknown = re.search(r"unrecognized arguments: (--[\w-]+)", message)
        super().error(message + (self._meant(unknown[1]) if unknown else ""))

    def _meant(self, option: str) -> str:
        if option not in self.owners:
            return did_you_mean(option, self.owners)
        *others, last = self.owners[option]
        return f"; {', '.join(others)} and {last} have it" if others else f"; {last} has it"

    def judge_options(self, words: Sequence[str]) -> None:
        """Ends the run if no command has one of the options before the command: the word after it
        may be its value, and not a command."""
        for word in words:
            option = word.partition("=")[0]
            if option.startswith("--") and option not in (*self.owners, "--version"):
                self.error(f"unrecognized arguments: {option}")


def long_options(argument_parser: argparse.ArgumentParser) -> list[str]:
    """The long options of a parser."""
    return re.findall(r"--[a-z][a-z0-9-]*", argument_parser.format_usage())


def place_of_command(words: Sequence[str], valued: Collection[str] = OF_TARGET) -> int | None:
    """The place of the word that is the command, with `valued` as the options that take a value;
    None if there is no such word."""
    waits_for_value = False
    for place, word in enumerate(words):
        if not waits_for_value and not word.startswith("-"):
            return place
        waits_for_value = not waits_for_value and word in valued
    return None


def in_order(words: Sequence[str], valued: Collection[str]) -> tuple[list[str], int | None]:
    """The words with each option of the command behind it, even if it stands before it; and the
    place of the command."""
    place = place_of_command(words, valued)
    if place is None:
        return list(words), None
    before: list[str] = []
    moved: list[str] = []
    to = before
    waits_for_value = False
    for word in words[:place]:
        if not waits_for_value:
            to = (
                before
                if word.partition("=")[0] in OF_TARGET
                or not word.startswith("--")
                or word in ("--help", "--version")
                else moved
            )
        to.append(word)
        waits_for_value = not waits_for_value and word in valued
    return [*before, words[place], *moved, *words[place + 1 :]], len(before)


def _add_target(to: argparse.ArgumentParser, prefix: str) -> None:
    to.add_argument(
        "--control",
        dest=f"{prefix}control",
        type=control_of,
        metavar="PORT",
        help="the control port, on 127.0.0.1, or the path of the control socket",
    )
    to.add_argument(
        "--plan", dest=f"{prefix}plan", metavar="FILE", help="the plan of the controller"
    )


def _add_words(to: argparse.ArgumentParser, command: Command) -> None:
    """Adds the words that a command takes."""
    if command.has_target:
        _add_target(to, "")
        to.add_argument(
            "--request-timeout",
            type=seconds_of,
            default=WAIT,
            metavar="SECONDS",
            help=f"how long the switch may take to answer ({WAIT:g})",
        )
    for each in command.arguments:
        each.add_to(to)
    if command.add_options:
        command.add_options(to)


def parser() -> Parser:
    """The parser of bgctl."""
    argument_parser = Parser(
        prog="bgctl",
        description=DESCRIPTION,
        epilog=named(END),
        allow_abbrev=False,
        formatter_class=argparse.RawDescriptionHelpFormatter,
    )
    argument_parser.add_argument("--version", action="version", version=f"bgctl {VERSION}")
    _add_target(argument_parser, BEFORE)
    commands: dict[str, argparse.ArgumentParser] = {}
    listed = argument_parser.add_subparsers(
        dest="command", metavar="COMMAND", required=True, title="commands"
    )
    for command in BGCTL_COMMANDS:
        meaning = f"{command.meaning[0].upper()}{command.meaning[1:]}."
        commands[command.name] = listed.add_parser(
            command.name,
            help=command.meaning,
            description=named(f"{meaning} {command.more}".strip()),
            epilog=f"example:\n  {command.example}\n\nbgctl --help has the exit statuses.",
            allow_abbrev=False,
            formatter_class=argparse.RawDescriptionHelpFormatter,
        )
        _add_words(commands[command.name], command)
    return _with_owners(argument_parser, commands)


def _with_owners(
    argument_parser: Parser, commands: Mapping[str, argparse.ArgumentParser]
) -> Parser:
    """The parser, which knows what the commands have."""
    owners: dict[str, list[str]] = {}
    for name, one in commands.items():
        for option in long_options(one):
            owners.setdefault(option, []).append(name)
    actions = [action for one in commands.values() for action in one._actions]
    valued = {option for each in actions if each.nargs != 0 for option in each.option_strings}
    argument_parser.owners, argument_parser.valued, argument_parser.commands = (
        owners,
        {*OF_TARGET, *valued},
        commands,
    )
    return argument_parser
