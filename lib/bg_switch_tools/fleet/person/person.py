"""A person who gives commands to a fleet: what they are told, what they are asked, and the store
that they reach."""
import sys
from typing import NamedTuple

from bg_switch_tools.fleet.store.store import Store

AGREES = ("y", "Y", "yes")


class RefusedError(Exception):
    """A command is refused, and has changed nothing. The text says why."""


def tell(text: str) -> None:
    """Writes a line to standard error."""
    print(f"fleet: {text}", file=sys.stderr, flush=True)


class Person(NamedTuple):
    """Who gives a command. One who is sure is not asked."""

    name: str
    store: Store
    fleet: str
    is_sure: bool = False

    def agree(self, question: str) -> None:
        """Asks at a terminal. Elsewhere, as in CI, nobody can be asked, and the command goes on.
        `RefusedError` if the answer is no."""
        if self.is_sure or not sys.stdin.isatty():
            return
        # not on standard output, which may be a file
        print(f"{question} [y/N] ", end="", file=sys.stderr, flush=True)
        if sys.stdin.readline().strip() not in AGREES:
            raise RefusedError("nothing was changed")
