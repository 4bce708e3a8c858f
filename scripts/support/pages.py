"""The commands of a page of the documents, run from its own text in one shell."""
import contextlib
import os
import pathlib
import re
import signal
import subprocess
import tempfile
from collections.abc import Mapping, Sequence
from typing import IO, NamedTuple

from support import PROGRAM
from support.checks import check, comes, fail
from support.ports import free_ports, is_refused

WAIT = 80  # seconds until a shell that was killed has ended
END_OF_BLOCK = "-- end of block --"
FOLDER = "/tmp/bg"  # where a page puts its files


def blocks_of(page: str, title: str) -> list[str]:
    """The commands of a section, a text for each fenced block."""
    section = page.split(f"\n## {title}\n")[1].split("\n## ")[0]
    return re.findall(r"^```sh\n(.*?)^```$", section, re.M | re.S)


def expected_of(block: str) -> list[str]:
    """What the commands of a block print, as it says after each."""
    return re.findall(r"  # (.*)$", block, re.M)


def with_places(page: str, ports: dict[str, str], folder: str) -> str:
    """The page with other ports and another folder."""
    moved = re.sub(r"\b(" + "|".join(ports) + r")\b", lambda found: ports[found[0]], page)
    return moved.replace(FOLDER, folder)


def as_installed(page: str) -> str:
    """The page with the names that the commands have in the package."""
    page = re.sub(r"\bbin/(operator|controller|analysis|dashboard|fleet)\b", r"bg-\1", page)
    return re.sub(r"\bbin/(bgctl|bg_switch)\b", r"\1", page)


class Surroundings(NamedTuple):
    """How long a session may take, in seconds; the variables of the environment that it has beside
    those of the script; the folder in which it runs, the script's own if none is named; and whether
    the machine is its own, so that it can use the page's ports."""

    longest: float = 80.0
    variables: Mapping[str, str] = {}
    folder: pathlib.Path | None = None
    is_alone: bool = False


def run_script(
    script: str, printed: IO[str], ports: Sequence[str], around: Surroundings
) -> list[str]:
    """Runs a script in a shell; what it leaves running is ended. Gives the ports that still listen
    after it; empty if it does not end."""
    shell = subprocess.Popen(
        ["bash", "-c", script],
        stdin=subprocess.DEVNULL,
        stdout=printed,
        start_new_session=True,
        cwd=around.folder,
        env={**os.environ, **around.variables},
    )
    has_ended = comes(lambda: shell.poll() is not None, around.longest)
    if not has_ended:
        printed.seek(0)
        fail(
            "the session",
            f"it doesn't end in {around.longest:g} seconds, and has printed at last {printed.read()[-300:]!r}",
        )
    # what was told to end may take a moment
    listening = [port for port in ports if has_ended and not is_refused(int(port))]
    with contextlib.suppress(ProcessLookupError):
        os.killpg(shell.pid, signal.SIGKILL)
    shell.wait(WAIT)
    return listening


class Session(NamedTuple):
    """The blocks of a section, what each has printed, and the ports that still listen after the
    last one."""

    blocks: list[str]
    printed: list[str]
    listening: list[str]

    def check(self, least: int, first: int = 0) -> None:
        """Checks that there are at least `least` blocks, that each from `first` on has printed what
        it says, and that nothing listens any more."""
        check(
            "blocks that were run",
            (len(self.printed), len(self.blocks) >= least),
            (len(self.blocks), True),
        )
        for block, text in list(zip(self.blocks, self.printed))[first:]:
            check(f"the block {block.splitlines()[0]}", text.splitlines(), expected_of(block))
        check("what still listens after the session", self.listening, [])


def run_session(
    page: str, title: str, ports: Sequence[str], around: Surroundings = Surroundings()
) -> Session:
    """Runs the blocks of a section one after the other in one shell, with other ports and another
    folder."""
    chosen = ports if around.is_alone else map(str, free_ports(len(ports)))
    places = dict(zip(ports, chosen))
    with tempfile.TemporaryDirectory() as folder, tempfile.TemporaryFile(
        "w+", encoding="utf-8"
    ) as printed:
        blocks = blocks_of(with_places(page, places, folder), title)
        script = "".join(f"{block}\necho '{END_OF_BLOCK}'\n" for block in blocks)
        listening = run_script(
            script.replace("bin/bg_switch ", f"{PROGRAM} "), printed, list(places.values()), around
        )
        printed.seek(0)
        return Session(blocks, printed.read().split(f"{END_OF_BLOCK}\n")[:-1], listening)
