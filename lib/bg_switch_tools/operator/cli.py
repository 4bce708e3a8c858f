"""bin/operator: the commands of bgctl by other words: the control port, a line or a command, and
options anywhere."""
import argparse
import contextlib
import sys
from collections.abc import Callable, Sequence

from bg_switch_tools.bgctl.cli import ENDS
from bg_switch_tools.bgctl.command import IN_TIME, CommandRun
from bg_switch_tools.bgctl.exit_statuses import DONE
from bg_switch_tools.bgctl.line_commands import (
    SHUTDOWN,
    given_lines,
    listed_commands,
    open_prompt,
    send_lines,
)
from bg_switch_tools.bgctl.prompt import HELP, listed
from bg_switch_tools.bgctl.state_commands import STATUS, WAIT, WATCH
from bg_switch_tools.bgctl.target import GivenTarget
from bg_switch_tools.switch.arguments import control_of, seconds_of
from bg_switch_tools.switch.conditions import CONDITION_SYNTAX
from bg_switch_tools.switch.frame import Frame
from bg_switch_tools.switch.installed_names import named
from bg_switch_tools.switch.line_help import LineHelp
from bg_switch_tools.switch.lines import EVENT_WORDS, LINES, Deploy, Tick

FRAME = Frame("operator", ENDS)
COMMANDS = {command.name: command for command in (STATUS, WAIT, WATCH, SHUTDOWN)}
ABOUT = """Sends lines to the control port of a running switch, and prints the replies.

  bin/operator PORT                  at a terminal: a prompt; else the lines of standard input
  bin/operator PORT promote          one line or command, given as words
"""
END = f"""
Conditions of wait: {CONDITION_SYNTAX}.

Exit status: 0 if every line was carried out, also if the reply is `unsaved`, which standard error explains; 1 if one was refused or
faulty, at which it stops; 2 if the switch gave no answer in time, or the words are wrong; of `status`, 3 if no endpoint of the active
revision is available, so that clients are answered 503, with --plan 5 if no controller runs this plan or it hangs, and 4 if a
revision of the plan is held back: its deploy was refused, its name has other ports, or its start fails.
docs/LINES.md has each line and its replies.
"""


def lines_and_commands() -> list[LineHelp]:
    return [*LINES, *listed_commands(), HELP]


def parser() -> argparse.ArgumentParser:
    examples = [
        f"  bin/operator 8082 {line.example}\n      {line.meaning}" for line in lines_and_commands()
    ]
    argument_parser = argparse.ArgumentParser(
        prog="operator",
        usage=named("bin/operator PORT [LINE | COMMAND] [options]"),
        description=named(ABOUT),
        epilog=named(
            "\n".join(["lines and commands, with an example each:", *examples]) + "\n" + END
        ),
        formatter_class=argparse.RawDescriptionHelpFormatter,
    )
    argument_parser.add_argument(
        "control",
        type=control_of,
        nargs="?",
        metavar="PORT",
        help="the control port of the switch, on 127.0.0.1, or the path of its control socket",
    )
    argument_parser.add_argument(
        "words", nargs="*", metavar="WORD", help="the words of one line or command"
    )
    argument_parser.add_argument(
        "--wait",
        dest="request_timeout",
        type=seconds_of,
        default=10.0,
        metavar="SECONDS",
        help="how long to wait for the switch to answer (10)",
    )
    argument_parser.add_argument(
        "--timeout",
        type=seconds_of,
        metavar="SECONDS",
        help="how long `wait` waits for its conditions (600)",
    )
    argument_parser.add_argument("--within", type=seconds_of, metavar="SECONDS", help=IN_TIME)
    argument_parser.add_argument(
        "--keep-going",
        action="store_true",
        help="continues after a line that was refused or faulty",
    )
    argument_parser.add_argument(
        "--json",
        action="store_true",
        help="prints each reply, the status and what was waited for as JSON",
    )
    argument_parser.add_argument(
        "--idempotent",
        action="store_true",
        help="a deploy of the revision that is running or stable already counts as carried out",
    )
    argument_parser.add_argument(
        "--yes",
        action="store_true",
        help="`shutdown` does not ask, and a `tick` more than a day ahead is sent",
    )
    argument_parser.add_argument(
        "--plan",
        metavar="PLAN",
        help="`wait` first waits until the controller has deployed the last revision of this plan; `status` tells whether "
        "the controller runs, and what it holds back",
    )
    return argument_parser


def fault_of(options: argparse.Namespace) -> str:
    """Why options and words don't go together; empty if they do."""
    words: list[str] = options.words
    command = words[0] if words else ""
    if options.control is None:
        return "PORT: the control port or the control socket of the switch is needed, such as 8082"
    if command in (*COMMANDS, HELP.syntax) and command != WAIT.name and len(words) > 1:
        return f"{command} takes no further words, and not {words[1]!r}"
    if command == WAIT.name and (fault := WAIT.fault(options)):
        return fault
    if command == WAIT.name and len(words) == 1:
        return f"wait needs one condition or more, of {CONDITION_SYNTAX}"
    if options.timeout is not None and command != WAIT.name:
        return "--timeout is only for wait; --wait says how long to wait for an answer"
    if options.idempotent and command not in ("", Deploy.word):
        return "--idempotent is only for deploy"
    if options.within is not None and command not in EVENT_WORDS:
        return f"--within is only for a line that gives an event: {', '.join(EVENT_WORDS)}"
    if options.yes and command not in ("", SHUTDOWN.name, Tick.word):
        return "--yes is only for shutdown and tick"
    if options.plan is not None and command not in (WAIT.name, STATUS.name):
        return "--plan is only for wait and status"
    return ""


def show_help(_: CommandRun) -> int:
    print("\n".join(listed(lines_and_commands())))
    return DONE


def function_of(words: Sequence[str]) -> Callable[[CommandRun], int]:
    """What the words behind the port ask for."""
    if words and words[0] == HELP.syntax:
        return show_help
    if words and words[0] in COMMANDS:
        return COMMANDS[words[0]].run
    if not words and sys.stdin.isatty() and sys.stdout.isatty():
        return open_prompt
    return lambda run: send_lines(run, given_lines(run))


def main(words: Sequence[str]) -> int:
    argument_parser = parser()
    options = argument_parser.parse_intermixed_args(words)
    options.conditions = options.words[1:]
    if fault := fault_of(options):
        argument_parser.error(fault)
    with contextlib.closing(GivenTarget(options.control, options.plan or None)) as target:
        one = CommandRun(FRAME, options, target, lambda _: argument_parser.print_help())
        return FRAME.run(lambda: function_of(options.words)(one))
