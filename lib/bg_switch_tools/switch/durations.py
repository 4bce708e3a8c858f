"""Durations and limits as words of a command line: `60`, `60s`, `1m`. `argparse` shows the message
of each that is wrong."""
import argparse
import math

from bg_switch_tools.switch.arguments import LONGEST, number_of, share_of

# of durations, in seconds; `ms` is tried before `s` and `m`
UNITS = (("ms", 0.001), ("s", 1.0), ("m", 60.0), ("h", 3600.0))


def duration_of(text: str) -> float:
    """The seconds of a duration: `60`, `60s`, `1m`, `1.5h` or `500ms`; a number without a unit
    counts seconds. At most a day."""
    unit, factor = next(
        ((unit, factor) for unit, factor in UNITS if text.endswith(unit)), ("", 1.0)
    )
    seconds = number_of(text.removesuffix(unit)) * factor
    if not 0 <= seconds <= LONGEST:
        raise argparse.ArgumentTypeError(
            f"a duration up to {LONGEST:.0f} seconds is expected, such as 60, 60s or 1m, and not {text!r}"
        )
    return seconds


def positive_duration_of(text: str) -> float:
    """As `duration_of`, and above 0."""
    seconds = duration_of(text)
    if seconds == 0:
        raise argparse.ArgumentTypeError(f"a duration above 0 is expected, and not {text!r}")
    return seconds


def milliseconds_of(text: str) -> float:
    """The milliseconds of a duration, whose unit is told: `300ms`, `1.5s`."""
    if not text.endswith(tuple(unit for unit, _ in UNITS)):
        raise argparse.ArgumentTypeError(
            f"a duration with its unit is expected, such as 300ms or 1.5s, and not {text!r}"
        )
    return round(duration_of(text) * 1000, 9)


def value_of(text: str) -> float:
    """A finite number, or a percentage such as `1%`."""
    if text.endswith("%"):
        return share_of(text)
    number = number_of(text)
    if math.isnan(number):
        raise argparse.ArgumentTypeError(f"a number or a percentage is expected, and not {text!r}")
    return number
