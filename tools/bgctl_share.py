#!/usr/bin/python3 -B
"""Makes the completions of bgctl and the manual pages of all commands of the package from their
parsers, as they are placed below /usr/share: tools/bgctl_share.py FOLDER. It needs
python3-argcomplete and help2man of Debian. The page of the switch itself is packaging/bg_switch.1.

The completions ask bgctl itself by the protocol of argcomplete, and need python3-argcomplete also
on the machine on which they are used. So they know the names of revisions, which bgctl reads from
the switch and the plan. argcomplete has the code for bash and fish; that for zsh is
packaging/_bgctl.
"""
import importlib
import os
import pathlib
import shutil
import subprocess
import sys
import tempfile
from typing import Any

TOP = pathlib.Path(__file__).resolve().parents[1]
ZSH = TOP / "packaging" / "_bgctl"
sys.path.insert(0, str(TOP / "lib"))

from bg_switch_tools import VERSION  # noqa: E402  (the path stands above)
from bg_switch_tools.bgctl.commands import BGCTL_COMMANDS, DESCRIPTION  # noqa: E402

# The other tools, as the package names them: what each does.
TOOLS = {
    "operator": "sends lines to the control port of a running switch, shows its state, and waits for it",
    "controller": "runs a rollout of a blue-green switch by a plan, or judges a plan",
    "analysis": "judges a revision by its requests in the access log of the switch, or by a query of Prometheus",
    "dashboard": "shows a running switch, a fleet or both as web pages, and gives their metrics",
    "fleet": "rolls one plan out over the machines of a fleet",
}
DOCUMENTS = "/usr/share/doc/bg-switch"
COLUMNS = "500"  # so that no line of a help is wrapped: man(1) fills the lines


class MissingProgramError(Exception):
    """A tool is not installed. The text says how to install it."""


def completions() -> dict[str, str]:
    """The completions, by their paths. `MissingProgramError` if argcomplete is not installed."""
    try:
        argcomplete: Any = importlib.import_module("argcomplete")
    except ImportError:
        raise MissingProgramError(
            f"{sys.executable} has no argcomplete: apt-get install python3-argcomplete"
        ) from None
    return {
        "bash-completion/completions/bgctl": argcomplete.shellcode(["bgctl"], shell="bash"),
        "fish/vendor_completions.d/bgctl.fish": argcomplete.shellcode(["bgctl"], shell="fish"),
        "zsh/vendor-completions/_bgctl": ZSH.read_text(encoding="utf-8"),
    }


def page(folder: pathlib.Path, name: str, command: str, about: str) -> str:
    """The manual page of a command of the package, by the name of the page, the words in bin/ that
    run it, and what it does. help2man runs a program whose usage begins with a capital, as GNU's
    do, and which has the name of the page."""
    program = folder / name
    program.write_text(
        f"""#!/bin/sh
[ "$1" != --version ] || {{ echo '{name} {VERSION}'; exit; }}
BG_SWITCH_DOCUMENTS={DOCUMENTS} COLUMNS={COLUMNS} '{TOP}'/bin/{command} --help | sed '1s/^usage:/Usage:/'
""",
        encoding="utf-8",
    )
    program.chmod(0o755)
    words = ["help2man", "--no-info", "--section=1", f"--name={about}", str(program)]
    return subprocess.run(words, check=True, capture_output=True, text=True).stdout


def pages() -> dict[str, str]:
    """The manual pages, by their paths."""
    if shutil.which("help2man") is None:
        raise MissingProgramError("there is no help2man: apt-get install help2man")
    about = DESCRIPTION[0].lower() + DESCRIPTION[1:].rstrip(".")
    with tempfile.TemporaryDirectory() as folder:
        asked = {
            "bgctl": ("bgctl", about),
            **{
                f"bgctl-{command.name}": (f"bgctl {command.name}", command.meaning)
                for command in BGCTL_COMMANDS
            },
            **{f"bg-{tool}": (tool, meaning) for tool, meaning in TOOLS.items()},
        }
        return {
            f"man/man1/{name}.1": page(pathlib.Path(folder), name, *told)
            for name, told in asked.items()
        }


def main() -> int:
    if len(sys.argv) != 2:
        print("tools/bgctl_share.py FOLDER: one folder is needed", file=sys.stderr)
        return 2
    os.environ["LC_ALL"] = "C.UTF-8"
    try:
        made = {**completions(), **pages()}
    except MissingProgramError as missing:
        print(f"bgctl_share: {missing}", file=sys.stderr)
        return 1
    for place, text in made.items():
        path = pathlib.Path(sys.argv[1]) / place
        path.parent.mkdir(parents=True, exist_ok=True)
        path.write_text(text, encoding="utf-8")
    print(f"{len(made)} files are in {sys.argv[1]}; they go below /usr/share")
    return 0


if __name__ == "__main__":
    sys.exit(main())
