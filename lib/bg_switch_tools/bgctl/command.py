"""A command of bgctl, declared once: its name, what it does, its arguments, and the function that
carries it out."""
import argparse
import dataclasses
import json
import sys
from collections.abc import Callable, Mapping
from typing import Any

from bg_switch_tools.bgctl.exit_statuses import DONE, REFUSED
from bg_switch_tools.bgctl.target import Target
from bg_switch_tools.switch.arguments import seconds_of
from bg_switch_tools.switch.client import WAIT, Answer, Switch
from bg_switch_tools.switch.frame import Frame
from bg_switch_tools.switch.line_help import LineHelp
from bg_switch_tools.switch.replies import with_meaning

LONGEST_WAIT = 600.0  # seconds that a command waits by default
Completer = Callable[..., list[str]]


@dataclasses.dataclass(frozen=True)
class Argument:
    """An argument or an option: its word, and what argparse is told of it. `completer` gives the
    words that can stand there, as argcomplete asks for them."""

    word: str
    settings: Mapping[str, Any]
    completer: Completer | None = None

    def add_to(self, parser: argparse.ArgumentParser) -> None:
        action = parser.add_argument(self.word, **self.settings)
        if self.completer is not None:
            setattr(action, "completer", self.completer)


def argument(
    word: str, metavar: str, help: str, completer: Completer | None = None, **settings: Any
) -> Argument:
    """A word that a command takes by its place, or an option with a value."""
    return Argument(word, {"metavar": metavar, "help": help, **settings}, completer)


def flag(word: str, help: str) -> Argument:
    """An option without a value."""
    return Argument(word, {"action": "store_true", "help": help})


JSON = flag("--json", "prints JSON")
IN_TIME = "the switch carries the line out within so many seconds from now, and else refuses it"
WITHIN = argument("--within", "SECONDS", IN_TIME, type=seconds_of)
UNTIL_THE_END = flag("--wait", "waits for the end of the attempt, which gives the exit status")


def timeout_of(what: str) -> Argument:
    text = f"how long {what} waits ({LONGEST_WAIT:g})"
    return argument("--timeout", "SECONDS", text, type=seconds_of, default=LONGEST_WAIT)


class CommandRun:
    """A run of a command: the words that were given, the switch and the plan that they are about,
    and what is shown and told. `explain` prints the help of a command, or of all."""

    def __init__(
        self,
        frame: Frame,
        options: argparse.Namespace,
        target: Target,
        explain: Callable[[str | None], None],
    ) -> None:
        self.frame = frame
        self.options = options
        self.target = target
        self.explain = explain
        self.is_json: bool = getattr(options, "json", False)

    def at(self, target: Target) -> "CommandRun":
        """The same about another switch or plan."""
        return CommandRun(self.frame, self.options, target, self.explain)

    def tell(self, text: str) -> None:
        """Writes a line to standard error, with the name of the tool."""
        self.frame.tell(text)

    def switch(self) -> Switch:
        """The switch. `TargetError` if nothing names it."""
        wait = getattr(self.options, "request_timeout", WAIT)
        within = getattr(self.options, "within", None)
        return Switch(self.target.control(), wait, within)

    def show_json(self, value: object) -> None:
        print(json.dumps(value), flush=True)

    def show(self, answer: Answer) -> int:
        """Prints a reply. What it means is no part of it: away from a terminal that goes to
        standard error. Gives the exit status."""
        is_plain_terminal = sys.stdout.isatty() and not self.is_json
        if self.is_json:
            self.show_json(answer.as_json())
        for line in [] if self.is_json else answer.lines:
            print(with_meaning(line) if is_plain_terminal else line, flush=True)
        if answer.note:
            self.tell(answer.note)
        if answer.meaning not in (None, answer.note) and not is_plain_terminal:
            self.tell(f"{answer.lines[0]}: {answer.meaning}")
        return DONE if answer.carried_out else REFUSED


def no_fault(_: argparse.Namespace) -> str:
    """Nothing is wrong with words that are each right."""
    return ""


@dataclasses.dataclass(frozen=True)
class Command:
    """A command. `more` is told by its help alone. `fault` says what is wrong with words that are
    each right. `line` is what the prompt and bin/operator say of it, if they have it too. A command
    that is a tool of its own adds the options of that tool by `add_options`. One with a target has
    the options that name the switch and the plan."""

    name: str
    meaning: str
    example: str
    run: Callable[[CommandRun], int]
    arguments: tuple[Argument, ...] = ()
    more: str = ""
    fault: Callable[[argparse.Namespace], str] = no_fault
    line: LineHelp | None = None
    add_options: Callable[[argparse.ArgumentParser], None] | None = None
    has_target: bool = True
