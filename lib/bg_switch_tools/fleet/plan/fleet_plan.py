"""The plan of a fleet, which all its machines share: revisions, health and limits, and the names of
analyses."""
import dataclasses
import functools
import json
from collections.abc import Mapping

from bg_switch_tools.controller.plan.plan import (
    Analyses,
    Commands,
    Health,
    Plan,
    PlannedAnalysis,
    PlannedRevision,
    Progress,
    Revisions,
)
from bg_switch_tools.controller.plan.plan_kinds import (
    FLAG,
    LONGEST,
    SECONDS,
    names_of,
    numbers,
    values_of,
    whole_numbers,
)
from bg_switch_tools.controller.plan.plan_reader import (
    COMMANDS,
    CONTROL_KEY,
    HEALTH,
    LARGEST,
    MOST_AT_ONCE,
    PROGRESS,
    REVISIONS,
    SCHEMA,
    SCHEMA_KEY,
    SERVICES,
    PlanError,
    compare_ports,
)
from bg_switch_tools.controller.plan.plan_text import value_of
from bg_switch_tools.switch.control import Control
from bg_switch_tools.switch.json_values import JsonObject, Judge, decoded, shown

KEYS = ("health", "analyses", "progress", "redispatch", "revisions", "fleet", SCHEMA)
# keys of a plan for one machine alone
OF_MACHINES = names_of((CONTROL_KEY, *SERVICES, *COMMANDS))
MOST_MISSING = 1000
ANALYSES = ("pre", "post")
Names = str | tuple[str, ...]  # of one analysis, or of several that run at the same time


@dataclasses.dataclass(frozen=True)
class FleetPlan(Revisions):
    """A whole plan of a fleet. `analyses` has the names of the analyses by `pre` and `post`; each
    machine has the commands. The seconds of an analysis and of `progress` are those of a machine's
    plan. `by_hand` says that a person orders each promotion; else all members have to be ready for
    `seconds` in a row. At most `max_missing` members may be without a vote. An attempt that was
    `promoting` for `promoting_seconds` is aborted: for so long two revisions may be live at once.
    """

    revisions: tuple[PlannedRevision, ...]
    health: Health = Health()
    analyses: Mapping[str, Names] = dataclasses.field(default_factory=dict)
    analysis_seconds: float = Analyses.seconds
    progress: Progress = Progress()
    redispatch: bool = True
    by_hand: bool = False
    seconds: float = 0.0
    max_missing: int = 0
    promoting_seconds: float = Analyses.seconds + Progress.seconds


@dataclasses.dataclass(frozen=True)
class MachineSettings:
    """What a machine adds to the plan of its fleet: the control port or socket and the ports of its
    switch, the commands of the analyses by their names, the commands for its endpoints, and the
    path of the Rollout of its switch (empty: not told).
    """

    control: Control
    analyses: Mapping[str, tuple[str, ...]] = dataclasses.field(default_factory=dict)
    commands: Commands = Commands()
    services: Mapping[str, int] = dataclasses.field(default_factory=dict)
    rollout: str = ""


def _read_names(judge: Judge, value: object, place: str) -> Names:
    """The name of an analysis, or a list of distinct names."""
    if not isinstance(value, list):
        return judge.name(value, place)
    if not 1 <= len(value) <= MOST_AT_ONCE:
        judge.note(place, f"it is not a list of 1 to {MOST_AT_ONCE} names")
        return ()
    for number, one in enumerate(value):
        if one in value[:number]:
            judge.note(
                f"{place}[{number}]", f"{shown(one)} is already at {place}[{value.index(one)}]"
            )
    return tuple(judge.name(one, f"{place}[{number}]") for number, one in enumerate(value))


def _read_analyses(judge: Judge, value: object, place: str) -> tuple[dict[str, Names], float]:
    members = judge.members(value, place, (*ANALYSES, "seconds"))
    names = {
        key: _read_names(judge, members[key], f"{place}.{key}")
        for key in ANALYSES
        if key in members
    }
    return names, SECONDS.member(judge, members, "seconds", place, Analyses.seconds)


def _read(judge: Judge, json_value: object) -> FleetPlan:
    """The plan of a value. It is one if `judge` finds nothing wrong."""
    if isinstance(json_value, dict):
        for key in [key for key in OF_MACHINES if key in json_value]:
            judge.note(key, "stands in the fleet file of each machine")
    members = judge.members(json_value, "", (*KEYS, *OF_MACHINES), ("revisions",))
    values_of(judge, members, [SCHEMA_KEY])
    none: tuple[dict[str, Names], float] = ({}, Analyses.seconds)
    names, limit = judge.member(
        members, "analyses", "", lambda value, at: _read_analyses(judge, value, at), none
    )
    progress = PROGRESS.member(judge, members, "progress", "", Progress())
    keys = ("by_hand", "seconds", "max_missing", "promoting_seconds")
    fleet = judge.member(
        members, "fleet", "", lambda value, at: judge.members(value, at, keys), JsonObject([])
    )
    return FleetPlan(
        REVISIONS.member(judge, members, "revisions", "", ()),
        HEALTH.member(judge, members, "health", "", Health()),
        names,
        limit,
        progress,
        FLAG.member(judge, members, "redispatch", "", True),
        FLAG.member(judge, fleet, "by_hand", "fleet", False),
        numbers(0, LONGEST).member(judge, fleet, "seconds", "fleet", 0.0),
        whole_numbers(0, MOST_MISSING).member(judge, fleet, "max_missing", "fleet", 0),
        SECONDS.member(judge, fleet, "promoting_seconds", "fleet", limit + progress.seconds),
    )


def _value(text: str) -> object:
    """The value of a text of JSON. `ValueError` if it is not JSON."""
    try:
        return decoded(text.encode())
    except ValueError as error:
        raise ValueError(f"it is not JSON: {error}") from None


@functools.lru_cache(maxsize=64)
def _judged(text: str, may_be_yaml: bool) -> FleetPlan | tuple[str, ...]:
    """The plan of a text, or the problems of a text that is not a plan. Both are kept: a store
    gives a wrong plan at each read, and to judge it anew may take seconds."""
    judge = Judge()
    if len(text.encode()) > LARGEST:
        return (f"it has more than {LARGEST} bytes",)
    try:
        value = value_of(text.encode()) if may_be_yaml else _value(text)
    except ValueError as error:
        return (str(error),)
    plan = _read(judge, value)
    return tuple(judge.problems) or plan


def _or_wrong(judged: FleetPlan | tuple[str, ...]) -> FleetPlan:
    if isinstance(judged, tuple):
        raise PlanError(list(judged))
    return judged


def read_fleet_plan(text: str) -> FleetPlan:
    """The plan of a text, which may be YAML as a controller's plan may. `PlanError` with all of its
    problems if it is not a plan."""
    return _or_wrong(_judged(text, True))


def read_stored_plan(text: str) -> FleetPlan:
    """The plan of the store, which is JSON. `PlanError` with all of its problems if it is not a
    plan."""
    return _or_wrong(_judged(text, False))


def read_kept_plan(value: object) -> FleetPlan:
    """The plan of a value that `plan_object` has made. `PlanError` if it is not a plan."""
    judge = Judge()
    plan = _read(judge, value)
    if judge.problems:
        raise PlanError(judge.problems)
    return plan


def _each(names: Names) -> tuple[str, ...]:
    return (names,) if isinstance(names, str) else names


def _planned(names: Names, settings: MachineSettings) -> tuple[PlannedAnalysis, ...] | None:
    """The analyses of these names; None if the machine has no command for one of them."""
    if any(name not in settings.analyses for name in _each(names)):
        return None
    return tuple(
        PlannedAnalysis(settings.analyses[name], "" if isinstance(names, str) else name)
        for name in _each(names)
    )


def plan_object(plan: FleetPlan) -> dict[str, object]:
    """A plan as an object of JSON: all of its keys, and each value that was left out."""
    analyses: dict[str, object] = {**plan.analyses, "seconds": plan.analysis_seconds}
    return {
        "health": vars(plan.health),
        "analyses": analyses,
        "progress": vars(plan.progress),
        "redispatch": plan.redispatch,
        "fleet": {
            "by_hand": plan.by_hand,
            "seconds": plan.seconds,
            "max_missing": plan.max_missing,
            "promoting_seconds": plan.promoting_seconds,
        },
        "revisions": [vars(revision) for revision in plan.revisions],
    }


def plan_text(plan: FleetPlan) -> str:
    """A plan as a text of JSON. Two plans that say the same have the same text."""
    return json.dumps(plan_object(plan))


def machine_plan(
    plan: FleetPlan, settings: MachineSettings, others: tuple[PlannedRevision, ...] = ()
) -> Plan:
    """The plan of a machine's controller. `others` are revisions that the plan may name no longer.
    The leader limits the progress of an attempt, so the controller only tells of it. `PlanError` if
    a port is one of the switch itself.
    """
    names = {revision.name for revision in plan.revisions}
    known = {revision.name: revision for revision in others if revision.name not in names}
    commands = {
        key: planned
        for key, names in plan.analyses.items()
        if (planned := _planned(names, settings)) is not None
    }
    controller_plan = Plan(
        settings.control,
        plan.health,
        Analyses(commands, plan.analysis_seconds),
        dataclasses.replace(plan.progress, abort=False),
        (*known.values(), *plan.revisions),
        settings.commands,
        plan.redispatch,
        settings.services,
    )
    judge = Judge()
    compare_ports(judge, controller_plan)
    if judge.problems:
        raise PlanError(judge.problems)
    return controller_plan


def missing_analyses(plan: FleetPlan, settings: MachineSettings) -> list[str]:
    """The names of the plan's analyses that the machine has no command for."""
    needed = {name for names in plan.analyses.values() for name in _each(names)}
    return sorted(needed - set(settings.analyses))
