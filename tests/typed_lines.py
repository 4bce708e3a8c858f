"""Lines of tests, which are written as their texts, as the tools have them."""
from bg_switch_tools.switch.lines import Line, read_line, without_time_limit


def line_of(text: str) -> Line:
    """The line of a text."""
    return read_line(text.encode("ascii"))


def untimed(text: str) -> str:
    """The text of a line without its time limit."""
    return str(without_time_limit(line_of(text)))
