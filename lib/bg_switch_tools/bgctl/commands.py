"""All commands of bgctl, and what is told of them."""
from bg_switch_tools import VERSION
from bg_switch_tools.bgctl.command import Command, CommandRun, argument
from bg_switch_tools.bgctl.deploy_commands import DEPLOY, UNDO
from bg_switch_tools.bgctl.exit_statuses import DONE, listed
from bg_switch_tools.bgctl.line_commands import ABORT, LINE, PROMOTE, PROMPT, RETRY, SHUTDOWN
from bg_switch_tools.bgctl.plan_commands import CHECK, CONTROLLER, HISTORY, PAUSE, RESUME
from bg_switch_tools.bgctl.state_commands import STATUS, WAIT, WATCH
from bg_switch_tools.bgctl.tool_commands import ANALYSIS, DASHBOARD
from bg_switch_tools.switch.lines import LINE_WORDS
from bg_switch_tools.switch.suggestion import did_you_mean


def explain(run: CommandRun) -> int:
    run.explain(run.options.name)
    return DONE


def version(_: CommandRun) -> int:
    print(f"bgctl {VERSION}")
    return DONE


VERSION_COMMAND = Command("version", "prints the version", "bgctl version", version)
FIRST_ONES = (STATUS, WATCH, DEPLOY, PROMOTE, UNDO)  # those to begin with
OTHERS = (
    *(ABORT, RETRY, WAIT, HISTORY, PAUSE, RESUME, LINE, PROMPT, SHUTDOWN),
    *(CHECK, CONTROLLER, ANALYSIS, DASHBOARD),
)
NAMES = tuple(each.name for each in (*FIRST_ONES, *OTHERS)) + ("help", "version")
HELP = Command(
    "help",
    "explains a command, or lists all of them",
    "bgctl help deploy",
    explain,
    (
        argument(
            "name",
            metavar="COMMAND",
            nargs="?",
            choices=NAMES,
            help="the command that is explained",
        ),
    ),
)
BGCTL_COMMANDS = (*FIRST_ONES, *OTHERS, HELP, VERSION_COMMAND)

# What other tools call a command of bgctl.
OTHER_WORDS = {
    "rollback": "undo",
    "rollout": "deploy",
    "revert": "undo",
    "release": "deploy",
    "start": "controller",
    "stop": "shutdown",
    "validate": "check",
    "lint": "check",
    "log": "history",
    "logs": "history",
    "list": "history",
}


def wrong_command(word: str) -> str:
    """Why a word is no command."""
    if word in OTHER_WORDS:
        return f"there is no command {word}; did you mean {OTHER_WORDS[word]}?"
    if word in LINE_WORDS:
        return f"{word} is a line of the switch: bgctl line {word} .. sends it"
    return f"there is no command {word}{did_you_mean(word, NAMES) or '; bgctl --help lists them'}"


DESCRIPTION = "Operates a blue-green switch and its controller."
NEWCOMER = "\n".join(
    (
        "bgctl operates a blue-green switch and its controller. The five commands to begin with:",
        "",
        *(f"  {command.name:8} {command.meaning}" for command in FIRST_ONES),
        "",
        "A release, with the control port of the plan:",
        "",
        "  export BG_PLAN=/var/lib/bg/plan.json",
        "  bgctl deploy web-v2 9201 9202",
        "  bgctl wait phase=paused newest=web-v2",
        "  bgctl promote",
        "  bgctl status",
        "",
        "bgctl --help lists all commands, the options and the exit statuses; bgctl COMMAND --help has an example of each.",
        "docs/OPERATING.md is the runbook, docs/LINES.md has the lines of the switch.",
    )
)

END = f"""The control port is that of --control PORT, of the variable BG_CONTROL, or of the plan (--plan FILE, or the variable BG_PLAN). In
its place may be the path of the control socket, a word with a slash. An empty variable counts as not set.

{listed()}

docs/OPERATING.md is the runbook.
"""
