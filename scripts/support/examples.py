"""The switch of an example, which its story is told before."""
import os
import pathlib
import subprocess
import sys
from collections.abc import Mapping

from support import PROGRAM
from support.switch import LISTENING


def start_switch(
    rollout: pathlib.Path,
    active: int,
    preview: int,
    control: int,
    workers: int,
    variables: Mapping[str, str] | None = None,
) -> subprocess.Popen[str]:
    """Starts a switch that serves for ever, with these variables of the environment too, and waits
    until it listens."""
    with open(rollout, "rb") as told:
        switch = subprocess.Popen(
            [
                PROGRAM,
                "serve",
                "--active",
                str(active),
                "--preview",
                str(preview),
                "--control",
                str(control),
                "--workers",
                str(workers),
                "--forever",
            ],
            stdin=told,
            stdout=subprocess.PIPE,
            text=True,
            env={**os.environ, **(variables or {})},
        )
    assert switch.stdout is not None
    if switch.stdout.readline() != LISTENING:
        sys.exit("the switch doesn't listen")
    return switch
