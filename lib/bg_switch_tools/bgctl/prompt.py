"""A prompt at a terminal."""
from collections.abc import Callable, Sequence

from bg_switch_tools.bgctl.target import TargetError
from bg_switch_tools.switch.client import Answer, Switch
from bg_switch_tools.switch.connection import UnreachableError
from bg_switch_tools.switch.control import Control, place_of
from bg_switch_tools.switch.line_help import LineHelp
from bg_switch_tools.switch.lines import LINES, Quit, words_of
from bg_switch_tools.switch.replies import with_meaning
from bg_switch_tools.switch.reports import ReportError

try:
    import readline as readline  # noqa: F401  (gives `input` editing and history)
except ImportError:
    pass

LEAVE = (Quit.word, "exit")
HELP = LineHelp("help", "lists the lines and commands", "help")
LEAVING = LineHelp("quit, exit, ctrl-D", "leave this prompt; the switch continues", "exit")
WIDTH = 24  # of the column of the forms
PromptCommand = Callable[[Sequence[str]], object]


def listed(lines: Sequence[LineHelp]) -> list[str]:
    """A line for each, with what it does."""
    return [f"  {line.syntax:{WIDTH}} {line.meaning}" for line in lines]


def show_at_terminal(answer: Answer) -> None:
    """Prints the lines of a reply with what they mean, and what it comes to."""
    for line in answer.lines:
        print(with_meaning(line))
    if answer.note:
        print(answer.note)


def confirm_shutdown(control: Control) -> bool:
    """Whether the operator wants the switch to be shut down. The end of the input is no."""
    try:
        answer = input(
            f"Shut the switch at {place_of(control)} down? No operator is answered any more. [y/N] "
        )
    except EOFError:
        print()
        return False
    return answer.strip() in ("y", "Y", "yes")


class Prompt:
    """Carries out the lines of a terminal. `commands` are those that are no lines of the switch;
    `described` is what its help says of them."""

    def __init__(
        self,
        switch: Switch,
        commands: dict[str, PromptCommand],
        described: Sequence[LineHelp] = (),
    ) -> None:
        self.switch = switch
        self.commands = commands
        self.described = described

    def run_line(self, text: str) -> bool:
        """Runs a command, or sends a line. Gives whether the prompt goes on."""
        line = text.encode("utf-8", "replace")
        words = [word.decode("utf-8", "replace") for word in words_of(line)]
        if not words:
            return True
        if words[0] in LEAVE and len(words) == 1:
            return False
        if words == ["help"]:
            sent = [line for line in LINES if line.syntax != Quit.word]  # which leaves the prompt
            print("\n".join(listed([*sent, *self.described, HELP, LEAVING])))
        elif words == ["shutdown"]:
            return not self.shut_down()
        elif words[0] in self.commands:
            self.run_command(words)
        else:
            show_at_terminal(self.switch.send(line))
        return True

    def run_command(self, words: Sequence[str]) -> None:
        """Runs a command up to its end or ctrl-C."""
        try:
            self.commands[words[0]](words[1:])
        except KeyboardInterrupt:
            print()

    def shut_down(self) -> bool:
        """Asks, and sends `quit`. Gives whether it did."""
        if not confirm_shutdown(self.switch.control):
            print("The switch continues.")
            return False
        self.switch.shut_down()
        print("The switch shuts down.")
        return True

    def run(self) -> None:
        """Carries lines out until `quit`, `exit`, the end of the input or ctrl-C. A line that is
        refused ends nothing."""
        print(
            f"The switch at {place_of(self.switch.control)}. help lists the lines; quit leaves this prompt."
        )
        goes_on = True
        while goes_on:
            try:
                goes_on = self.run_line(input(f"{self.switch.control}> "))
            except (UnreachableError, ReportError, TargetError, ValueError) as reason:
                print(reason)
            except (EOFError, KeyboardInterrupt):
                print()
                return
