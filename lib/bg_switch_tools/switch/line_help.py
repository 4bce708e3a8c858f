"""What the tools say of a line, or of a command: its form, what it does, and an example."""
from typing import NamedTuple


class LineHelp(NamedTuple):
    """A line, or a command of a tool: its form, what it does, and an example."""

    syntax: str
    meaning: str
    example: str
