"""What a shell completes behind bgctl beside its own words: revisions, conditions and the words of
lines, as argcomplete asks for them."""
import argparse
import contextlib
from typing import Any

from bg_switch_tools.bgctl.target import TargetError, target_of
from bg_switch_tools.switch.client import Switch
from bg_switch_tools.switch.conditions import CONDITION_SYNTAX
from bg_switch_tools.switch.connection import UnreachableError
from bg_switch_tools.switch.lines import LINE_WORDS
from bg_switch_tools.switch.phases import PHASES
from bg_switch_tools.switch.reports import ReportError

SOON = 0.5  # seconds that a switch has: a person waits for the completion


def names_of_revisions(
    prefix: str = "", parsed_args: argparse.Namespace | None = None, **_: Any
) -> list[str]:
    """The names of the revisions of the switch and of the plan; empty if neither can be read."""
    names: dict[str, None] = {}
    with contextlib.closing(target_of(parsed_args or argparse.Namespace())) as target:
        try:
            plan = target.plan()
            names |= dict.fromkeys(each.name for each in plan.revisions) if plan else {}
            report = Switch(target.control(), SOON).report()
            known = report.revisions.values() if report else ()
            names |= dict.fromkeys(each.name for each in known)
        except (TargetError, UnreachableError, ReportError):
            pass
    return [name for name in names if name.startswith(prefix)]


def conditions(
    prefix: str = "", parsed_args: argparse.Namespace | None = None, **_: Any
) -> list[str]:
    """The conditions of a wait, each with the phases or the revisions that can stand in it."""
    names, found = names_of_revisions("", parsed_args), []
    for syntax in CONDITION_SYNTAX.split(", "):
        for word, values in (("PHASE", PHASES), ("NAME", names)):
            if word in syntax:
                found += [syntax.replace(word, value).removesuffix("N") for value in values]
        found += [syntax] if syntax.islower() else []
    return [condition for condition in found if condition.startswith(prefix)]


def line_words(
    prefix: str = "", parsed_args: argparse.Namespace | None = None, **_: Any
) -> list[str]:
    """The first word of each line; behind it the names of the revisions."""
    words = getattr(parsed_args, "words", None)
    return (
        names_of_revisions(prefix, parsed_args)
        if words
        else [word for word in LINE_WORDS if word.startswith(prefix)]
    )
