"""The commands that send the lines of an operator to a switch."""
import argparse
import contextlib
import itertools
import sys
from collections.abc import Callable, Iterable, Sequence

from bg_switch_tools.bgctl.command import JSON, WITHIN, Command, CommandRun, argument, flag
from bg_switch_tools.bgctl.completions import line_words, names_of_revisions
from bg_switch_tools.bgctl.exit_statuses import DONE, NO_ANSWER, REFUSED
from bg_switch_tools.bgctl.prompt import Prompt, PromptCommand, confirm_shutdown
from bg_switch_tools.bgctl.state_commands import (
    STATUS,
    WAIT,
    WATCH,
    status,
    wait_until,
    watch,
)
from bg_switch_tools.bgctl.target import GivenTarget
from bg_switch_tools.switch.control import Control
from bg_switch_tools.switch.line_help import LineHelp
from bg_switch_tools.switch.lines import is_quit


def promote(run: CommandRun) -> int:
    """Ends the pause, of the revision of this name alone if one is given."""
    return run.show(run.switch().promote(run.options.full, run.options.name))


def empty_name(options: argparse.Namespace) -> str:
    """A variable of a script that is empty must not promote whatever is the newest."""
    return "NAME is empty: name the revision, or leave NAME out" if options.name == "" else ""


def abort(run: CommandRun) -> int:
    return run.show(run.switch().abort())


def retry(run: CommandRun) -> int:
    return run.show(run.switch().retry())


def given_lines(run: CommandRun) -> Iterable[bytes]:
    """The lines of the words, or of standard input."""
    if run.options.words:
        return " ".join(run.options.words).encode("utf-8", "surrogateescape").split(b"\n")
    return (line.removesuffix(b"\n") for line in sys.stdin.buffer)


def send_lines(run: CommandRun, lines: Iterable[bytes]) -> int:
    """Carries lines out, in turn, up to `quit`, or to one that is not carried out. bin/operator has
    options that change what a deploy means and whether this goes on. Gives the exit status."""
    switch, status = run.switch(), DONE
    is_idempotent = getattr(run.options, "idempotent", True)
    goes_on = getattr(run.options, "keep_going", False)
    for each in lines:
        status = run.show(switch.send(each, is_idempotent, run.options.yes)) or status
        if is_quit(each) or (status != DONE and not goes_on):
            break
    return status


def line(run: CommandRun) -> int:
    """Sends the line of the words, or those of standard input. To send none is a fault."""
    run.target.control()
    lines = iter(given_lines(run))
    first = next(lines, None)
    if first is None:
        run.tell("there is no line to send: bgctl line WORD.., or lines on standard input")
        return NO_ANSWER
    return send_lines(run, itertools.chain([first], lines))


def _at_prompt(
    run: CommandRun, control: Control, carry_out: Callable[[CommandRun, Sequence[str]], int]
) -> PromptCommand:
    """A command as the prompt runs it: each time it reads the plan anew."""

    def carry_out_anew(words: Sequence[str]) -> int:
        with contextlib.closing(GivenTarget(control, run.target.path)) as target:
            return carry_out(run.at(target), words)

    return carry_out_anew


def open_prompt(run: CommandRun) -> int:
    """Carries out what is typed at a prompt."""
    switch = run.switch()
    commands: dict[str, Callable[[CommandRun, Sequence[str]], int]] = {
        "status": lambda own, _: status(own),
        "watch": lambda own, _: watch(own),
        "wait": wait_until,
    }
    Prompt(
        switch,
        {name: _at_prompt(run, switch.control, each) for name, each in commands.items()},
        listed_commands(),
    ).run()
    return DONE


def prompt(run: CommandRun) -> int:
    """Opens a prompt."""
    run.switch().report()  # a switch that gives no answer is told at once
    return open_prompt(run)


def shutdown(run: CommandRun) -> int:
    """Asks, and sends `quit`."""
    switch = run.switch()
    if not run.options.yes:
        if not sys.stdin.isatty():
            run.tell("shutdown asks at a terminal alone; elsewhere --yes is needed with it")
            return NO_ANSWER
        if not confirm_shutdown(switch.control):
            print("The switch continues.")
            return REFUSED
    return run.show(switch.shut_down())


PROMOTED = "the revision to be promoted: nothing is sent if another one is the newest"
PROMOTE = Command(
    "promote",
    "ends the pause of the attempt, so that live traffic moves to the new revision",
    "bgctl promote web-v2",
    promote,
    (
        argument("name", "NAME", PROMOTED, names_of_revisions, nargs="?"),
        JSON,
        flag("--full", "skips the analyses and pauses of the attempt"),
        WITHIN,
    ),
    more="With NAME, nothing is sent if another revision is the newest: somebody else may have deployed one meanwhile. "
    "With --within, a promote that comes late changes nothing: it is refused by TooLate, also if bgctl or the switch was stopped "
    "meanwhile. The switch has to run on this machine, since both read its boot clock.",
    fault=empty_name,
)
ABORT = Command(
    "abort",
    "ends the attempt: both services select the stable revision again",
    "bgctl abort",
    abort,
    (JSON, WITHIN),
)
RETRY = Command(
    "retry",
    "begins the attempt of the newest revision again",
    "bgctl retry",
    retry,
    (JSON, WITHIN),
)
LINE = Command(
    "line",
    "sends a line as it is, or those of standard input",
    "bgctl line verdict pre successful",
    line,
    (
        argument("words", "WORD", "the words of the line", line_words, nargs="*"),
        JSON,
        flag("--yes", "a `tick` more than a day ahead is sent"),
    ),
    more="docs/LINES.md has each line and its replies.",
)
PROMPT = Command(
    "prompt", "opens a prompt for lines and commands", "bgctl prompt --control 8082", prompt
)
SHUTDOWN = Command(
    "shutdown",
    "asks, and then shuts the switch down gracefully",
    "bgctl shutdown --yes",
    shutdown,
    (flag("--yes", "does not ask"),),
    line=LineHelp("shutdown", "asks, and then shuts the switch down: it sends quit", "shutdown"),
)


def listed_commands() -> list[LineHelp]:
    """The commands that the prompt and bin/operator have beside the lines of the switch."""
    return [each.line for each in (STATUS, WAIT, WATCH, SHUTDOWN) if each.line]
