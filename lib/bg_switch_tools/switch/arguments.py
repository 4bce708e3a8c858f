"""Words of a command line, read into values. `argparse` shows the message of each that is wrong."""
import argparse
import decimal
import math

from bg_switch_tools.switch.control import Control, is_path
from bg_switch_tools.switch.json_values import GREATEST_PORT

LONGEST = 86400.0  # seconds


def control_of(text: str) -> Control:
    """The control port that a text tells, or the path of the control socket."""
    return (
        text
        if is_path(text)
        else numbered_port(text, "the control port", "the path of the control socket")
    )


def numbered_port(text: str, title: str, other: str = "") -> int:
    """The port that a text tells. `other` is what it might have been else."""
    if (
        not text.isascii()
        or not text.isdigit()
        or len(text) > 9
        or not 1 <= int(text) <= GREATEST_PORT
    ):
        raise argparse.ArgumentTypeError(
            f"{title} is expected, a number from 1 to {GREATEST_PORT}, "
            f"{f'or {other}, ' if other else ''}and not {text!r}"
        )
    return int(text)


def number_of(text: str) -> float:
    """A number that is finite; `nan` if the text is not such a number."""
    try:
        number = float(text)
    except ValueError:
        return math.nan
    return number if math.isfinite(number) else math.nan


def seconds_of(text: str) -> float:
    seconds = number_of(text)
    if not 0 <= seconds <= LONGEST:
        raise argparse.ArgumentTypeError(
            f"a number of seconds from 0 to {LONGEST:.0f} is expected, and not {text!r}"
        )
    return seconds


def share_of(text: str) -> float:
    """The share that a text such as `1%` tells: the float that is nearest, as 7 / 1000 is for
    0.7%."""
    percentage = text.removesuffix("%")
    if not text.endswith("%") or not 0 <= number_of(percentage) <= 100:
        raise argparse.ArgumentTypeError(f"a percentage is expected, such as 1%, and not {text!r}")
    return float(decimal.Decimal(percentage) / 100)


def count_of(text: str) -> int:
    if not text.isascii() or not text.isdigit() or len(text) > 9:
        raise argparse.ArgumentTypeError(f"a whole number is expected, and not {text!r}")
    return int(text)
