"""The completions and the manual pages of bgctl, if the tools of Debian that make them are
installed."""
import os
import pathlib
import shutil
import subprocess
import tempfile
import unittest

from bg_switch_tools.bgctl.commands import BGCTL_COMMANDS, NAMES
from tests.fake_switch import FakeSwitch
from tests.tool_runs import TOP
from tools.bgctl_share import TOOLS

PYTHON = "/usr/bin/python3"
SCRIPT = TOP / "tools" / "bgctl_share.py"

# zsh completes at a terminal alone: one of its own, in which the keys ^T and ^O take all words, and
# tell the line
AT_A_TERMINAL = r"""
zmodload zsh/zpty
zpty shell zsh -f -i
zpty -w shell 'PS1=; stty -echo; fpath=($SHARE/zsh/vendor-completions $fpath); autoload -Uz compinit; compinit -u -D'
zpty -w shell 'all() { _main_complete; compstate[insert]=all compstate[list]= }; zle -C all complete-word all; bindkey "^T" all'
zpty -w shell 'told() { print -r -- "$BUFFER" > $TOLD.new; mv $TOLD.new $TOLD; exit }; zle -N told; bindkey "^O" told'
zpty -w -n shell "$LINE"$'\C-t\C-o'
for try in {1..600}; do [[ -e $TOLD ]] && break; sleep 0.1; done
cat $TOLD
"""


def output(words: list[str], **variables: str) -> str:
    """What a program prints; its status is 0."""
    return subprocess.run(
        words, check=True, capture_output=True, text=True, env={**os.environ, **variables}
    ).stdout


def missing() -> list[str]:
    """What is not installed of what makes the files."""
    libraries = ("argcomplete",) if os.path.exists(PYTHON) else ()
    absent = [
        name
        for name in libraries
        if subprocess.run([PYTHON, "-c", f"import {name}"], capture_output=True).returncode
    ]
    return [
        *absent,
        *([] if libraries else [PYTHON]),
        *([] if shutil.which("help2man") else ["help2man"]),
    ]


class Share(unittest.TestCase):
    folder: pathlib.Path

    @classmethod
    def setUpClass(cls) -> None:
        if absent := missing():
            raise unittest.SkipTest(f"not installed: {', '.join(absent)}")
        held = tempfile.TemporaryDirectory()
        cls.addClassCleanup(held.cleanup)
        cls.folder = pathlib.Path(held.name)
        output([str(SCRIPT), held.name])

    def needs(self, tool: str) -> None:
        if shutil.which(tool) is None:
            self.skipTest(f"not installed: {tool}")

    def completed(self, shell: str, line: str, **variables: str) -> str:
        """What a shell prints, which has the completions of this folder and bgctl on its path."""
        return output(
            [shell, "-c", line],
            PATH=f"{TOP / 'bin'}:{os.environ['PATH']}",
            SHARE=str(self.folder),
            **variables,
        )

    def completed_by_bash(self, line: str, **variables: str) -> list[str]:
        """The words that bash completes at the end of a line."""
        words = line.split(" ")
        told = self.completed(
            "bash",
            f""". "$SHARE/bash-completion/completions/bgctl"
            COMP_LINE='{line}'; COMP_POINT={len(line)}; COMP_TYPE=9; COMP_WORDS=({line}); COMP_CWORD={len(words) - 1}
            IFS=$'\\013' _python_argcomplete bgctl; printf '%s\\n' "${{COMPREPLY[@]}}" """,
            **variables,
        )
        return [word.rstrip() for word in told.splitlines() if word]

    def test_each_command_has_a_page_with_its_example(self) -> None:
        pages = {
            path.stem: path.read_text(encoding="utf-8")
            for path in (self.folder / "man" / "man1").iterdir()
        }
        self.assertEqual(
            set(pages),
            {"bgctl", *(f"bgctl-{name}" for name in NAMES), *(f"bg-{tool}" for tool in TOOLS)},
        )
        for command in BGCTL_COMMANDS:
            with self.subTest(command.name):
                text = pages[f"bgctl-{command.name}"]
                self.assertIn(f".SH NAME\nbgctl-{command.name} \\- {command.meaning}\n", text)
                self.assertIn(".SH SYNOPSIS\n", text)
                self.assertIn(
                    command.example,
                    text.replace("\\fB", "").replace("\\fR", "").replace("\\-", "-"),
                )

    def test_the_pages_are_well_formed(self) -> None:
        self.needs("man")
        page = self.folder / "man" / "man1" / "bgctl.1"
        told = subprocess.run(
            ["man", "--warnings", "-l", str(page)], check=True, capture_output=True, text=True
        )
        self.assertEqual(told.stderr, "")
        self.assertIn(
            "no endpoint of the active revision is available", " ".join(told.stdout.split())
        )

    def test_each_tool_has_a_page_with_the_names_of_the_package(self) -> None:
        for tool, meaning in TOOLS.items():
            with self.subTest(tool):
                text = (
                    (self.folder / "man" / "man1" / f"bg-{tool}.1")
                    .read_text(encoding="utf-8")
                    .replace("\\-", "-")
                )
                self.assertIn(f".SH NAME\nbg-{tool} \\- {meaning}\n".replace("\\-", "-"), text)
                self.assertIn(".SH SYNOPSIS\n", text)
                self.assertNotRegex(text, r"(?<!/)\bbin/|(?<!/)\bdocs/")

    def completed_by_fish(self, line: str, **variables: str) -> list[str]:
        """The words that fish completes at the end of a line."""
        told = self.completed(
            "fish",
            f'source $SHARE/fish/vendor_completions.d/bgctl.fish; complete -C "{line}"',
            **variables,
        )
        return [each.split("\t")[0] for each in told.splitlines()]

    def completed_by_zsh(self, line: str, **variables: str) -> str:
        """The line of zsh at a terminal, if all words are taken that it completes at its end."""
        told = pathlib.Path(self.folder / "told")
        told.unlink(missing_ok=True)
        return self.completed("zsh", AT_A_TERMINAL, LINE=line, TOLD=str(told), **variables).rstrip()

    def switch(self) -> FakeSwitch:
        switch = FakeSwitch("pause")
        self.addCleanup(switch.kill)
        for line in ("open web-v1 1 2", "deploy web-v2 3 4"):
            switch.book.answer(line)
        return switch

    def test_bash(self) -> None:
        self.assertEqual(self.completed_by_bash("bgctl --plan p de"), ["deploy"])
        switch = self.switch()
        port = str(switch.port)
        # bash completes what stands behind the sign
        phases = ["preAnalysis", "paused", "postAnalysis"]
        for line, expected in (
            ("bgctl undo --to w", ["web-v1", "web-v2"]),
            ("bgctl promote web-v2", ["web-v2"]),
            ("bgctl line dep", ["deploy"]),
            ("bgctl line deploy web-v1", ["web-v1"]),
            ("bgctl wait phase=p", phases),
            ("bgctl wait newest=web-v2", ["web-v2"]),
        ):
            self.assertEqual(
                sorted(self.completed_by_bash(line, BG_CONTROL=port)), sorted(expected), line
            )
        switch.kill()
        self.assertEqual(
            self.completed_by_bash("bgctl promote web", BG_CONTROL=port),
            [],
            "no answer is no fault",
        )

    def test_fish(self) -> None:
        self.needs("fish")
        port = str(self.switch().port)
        for line, expected in (
            ("bgctl de", ["deploy"]),
            ("bgctl deploy --w", ["--wait"]),
            ("bgctl undo --to w", ["web-v1", "web-v2"]),
            ("bgctl wait phase=sc", ["phase=scaling"]),
        ):
            self.assertEqual(self.completed_by_fish(line, BG_CONTROL=port), expected, line)

    def test_zsh(self) -> None:
        self.needs("zsh")
        switch = self.switch()
        port = str(switch.port)
        for line, expected in (
            ("bgctl de", "bgctl deploy"),
            ("bgctl --plan p de", "bgctl --plan p deploy"),
            ("bgctl deploy --w", "bgctl deploy --wait"),
            ("bgctl undo --to w", "bgctl undo --to web-v1 web-v2"),
            ("bgctl undo --to=w", "bgctl undo --to=web-v1 --to=web-v2"),
            ("true; sudo bgctl promote w", "true; sudo bgctl promote web-v1 web-v2"),
            ("bgctl promote 'web-v2", "bgctl promote 'web-v2'"),
            ("bgctl line dep", "bgctl line deploy"),
            ("bgctl line deploy web-v1", "bgctl line deploy web-v1"),
            ("bgctl wait phase=sc", "bgctl wait phase=scaling"),
            ("bgctl wait newest=", "bgctl wait newest=web-v1 newest=web-v2"),
            ("bgctl wait 'open(web-v1", "bgctl wait 'open(web-v1)="),
            ("bgctl xyzzy", "bgctl xyzzy"),
        ):
            self.assertEqual(self.completed_by_zsh(line, BG_CONTROL=port), expected, line)
        switch.kill()
        self.assertEqual(
            self.completed_by_zsh("bgctl promote web", BG_CONTROL=port),
            "bgctl promote web",
            "no answer is no fault",
        )


if __name__ == "__main__":
    unittest.main()
