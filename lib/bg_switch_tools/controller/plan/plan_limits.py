"""What contradicts itself in a plan: limits of its analyses, and commands that are not there."""
import argparse
import itertools
import os
import shutil
from collections.abc import Sequence

from bg_switch_tools.controller.plan.plan import Plan
from bg_switch_tools.switch.durations import duration_of
from bg_switch_tools.switch.json_values import Judge

# bin/analysis, `bgctl analysis`, the word of the tools as one file; and that of the package
TOOLS = ("analysis", "bg-analysis")
# the option for the seconds between two measurements, and how many they are else
EVERY, EVERY_SECONDS = ("--every", "--interval"), 5.0


def option(words: Sequence[str], *names: str) -> float | None:
    """The number that an option of a command has, in seconds if it is a duration: `--name 5`,
    `--name=5s` or `--name 1m`. `names` are those of the option. None if the command does not have
    it."""
    values = [after for word, after in zip(words, words[1:]) if word in names]
    values += [
        word.partition("=")[2] for word in words if word.partition("=")[0] in names and "=" in word
    ]
    try:
        return duration_of(values[-1]) if values else None
    except argparse.ArgumentTypeError:
        return None


def words_of_tool(command: Sequence[str]) -> Sequence[str] | None:
    """The words that a command gives to the analysis of these tools; None if it runs another
    program."""
    begin = list(itertools.takewhile(lambda word: not word.startswith("--"), command))
    place = next(
        (place for place, word in enumerate(begin) if os.path.basename(word) in TOOLS), None
    )
    return None if place is None else command[place + 1 :]


def _length(words: Sequence[str]) -> tuple[float, str] | None:
    """The seconds that an analysis takes, and the options that say so; None if they say nothing."""
    seconds, count, delay = (
        option(words, "--seconds"),
        option(words, "--count"),
        option(words, "--initial-delay") or 0.0,
    )
    if count is not None:
        every = option(words, *EVERY) or EVERY_SECONDS
        whole = delay + max(count - 1, 0) * every  # the first measurement comes at once
        return (
            whole,
            f"--count {count:g} with --interval {every:g} and --initial-delay {delay:g} takes {whole:g} seconds, which",
        )
    if seconds is None:
        return None
    return seconds + delay, f"--seconds {seconds:g}" + (
        f" after --initial-delay {delay:g}" if delay else ""
    )


def judge_limits(judge: Judge, plan: Plan) -> None:
    """Notes the limits of an analysis that no run of it can keep."""
    for place, command in plan.analyses.by_place().items():
        words = words_of_tool(command)
        length = None if words is None else _length(words)
        if words is None or length is None:
            continue
        every, seconds = option(words, *EVERY), option(words, "--seconds")
        if length[0] >= plan.analyses.seconds:
            judge.note(
                place,
                f"{length[1]} is not below analyses.seconds, {plan.analyses.seconds:g}: the analysis would be stopped before "
                "its end",
            )
        if every is not None and seconds is not None and every > seconds:
            judge.note(
                place,
                f"--every {every:g} is above --seconds {seconds:g}: nothing is measured before the end",
            )


def commands(plan: Plan) -> dict[str, tuple[str, ...]]:
    """The commands of a plan by their places."""
    return {
        **plan.analyses.by_place(),
        "start": plan.commands.start,
        "stop": plan.commands.stop,
        "notify": plan.commands.notify,
    }


def _is_there(program: str, folder: str) -> bool:
    """Whether the system can run this program in a folder: a name without a slash is looked up in
    the path."""
    if "/" not in program:
        return shutil.which(program) is not None
    path = os.path.join(folder, program)
    return os.path.isfile(path) and os.access(path, os.X_OK)


def missing_commands(plan: Plan, folder: str) -> list[str]:
    """A problem for each command of a plan in this folder that can't be run here."""
    return [
        f"{place}[0]: there is no program {command[0]} that can be run"
        for place, command in commands(plan).items()
        if command and "{" not in command[0] and not _is_there(command[0], folder)
    ]
