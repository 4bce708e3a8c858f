"""bin/bgctl: one command for an operator of the switch and of its controller."""
import argparse
import contextlib
import importlib
import os
from collections.abc import Sequence

from bg_switch_tools.bgctl.argument_parser import Parser, in_order, parser
from bg_switch_tools.bgctl.command import CommandRun
from bg_switch_tools.bgctl.commands import BGCTL_COMMANDS, NAMES, NEWCOMER, wrong_command
from bg_switch_tools.bgctl.exit_statuses import DONE, NO_ANSWER, REFUSED
from bg_switch_tools.bgctl.target import TargetError, target_of
from bg_switch_tools.switch.connection import UnreachableError
from bg_switch_tools.switch.frame import End, Frame
from bg_switch_tools.switch.installed_names import named
from bg_switch_tools.switch.reports import ReportError

ENDS = {kind: End(NO_ANSWER) for kind in (UnreachableError, ReportError, TargetError)}
FRAME = Frame("bgctl", ENDS)
ASKED = "_ARGCOMPLETE"  # the variable by which argcomplete's code for a shell asks for completions


def complete() -> int:
    """Answers a shell that asks for completions by argcomplete's protocol. Gives the exit
    status."""
    try:
        importlib.import_module("argcomplete").autocomplete(parser())
    except ImportError:
        FRAME.tell("completion needs python3-argcomplete: apt-get install python3-argcomplete")
    return REFUSED


def run(argument_parser: Parser, options: argparse.Namespace) -> int:
    """Carries a command out. Gives the exit status."""
    command = next(each for each in BGCTL_COMMANDS if each.name == options.command)
    if fault := command.fault(options):
        argument_parser.commands[command.name].error(fault)

    def explain(name: str | None) -> None:
        (argument_parser.commands[name] if name else argument_parser).print_help()

    with contextlib.closing(target_of(options)) as target:
        one = CommandRun(FRAME, options, target, explain)
        return FRAME.run(lambda: command.run(one))


def main(words: Sequence[str]) -> int:
    if ASKED in os.environ:
        return complete()
    if not words:
        print(named(NEWCOMER))
        return DONE
    argument_parser = parser()
    turned, place = in_order(words, argument_parser.valued)
    if place is not None and turned[place] not in NAMES:
        argument_parser.judge_options(words[: words.index(turned[place])])
        FRAME.tell(wrong_command(turned[place]))
        return NO_ANSWER
    return run(argument_parser, argument_parser.parse_args(turned))
