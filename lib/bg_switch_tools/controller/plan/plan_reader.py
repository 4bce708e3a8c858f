"""Reads a plan, and judges it as a whole before any of it is used."""
from collections.abc import Mapping, Sequence

from bg_switch_tools.controller.plan.plan import (
    Analyses,
    Commands,
    Health,
    Plan,
    PlannedAnalysis,
    PlannedRevision,
    Progress,
)
from bg_switch_tools.controller.plan.plan_kinds import (
    COMMAND,
    CONTROL,
    ENDPOINT_ADDRESS,
    FLAG,
    MOST_FAILURES,
    PORT,
    PORTS,
    REQUEST_PATH,
    REVISION_NAME,
    SECONDS,
    TEXT,
    Key,
    Kind,
    names_of,
    needed_of,
    object_of,
    schema_of,
    values_of,
    whole_numbers,
)
from bg_switch_tools.controller.plan.plan_limits import judge_limits
from bg_switch_tools.controller.plan.plan_text import value_of
from bg_switch_tools.switch.control import HOST, Control
from bg_switch_tools.switch.json_values import JsonObject, Judge

LARGEST = 1 << 20  # bytes of a plan
MOST_REVISIONS = 64
MOST_AT_ONCE = 16  # analyses that `pre` and `post` each may have
SCHEMA = (
    "$schema"  # the place of the schema by which an editor judges the plan: share/plan.schema.json
)
PLACES = "{revision}, {port} and {number}, the place of the port from 1, are replaced in its words"


class PlanError(Exception):
    """A text that is not a plan. `problems` has a line for each thing that is wrong, with its
    place."""

    def __init__(self, problems: list[str]) -> None:
        super().__init__("; ".join(problems))
        self.problems = problems


def note_repeated(judge: Judge, names: Sequence[str], number: int, place: str) -> None:
    """Notes the name of the item of this number if an item before it in the list has it too."""
    name = names[number]
    if name and name in names[:number]:
        judge.note(
            f"{place}[{number}].name",
            f'"{name}" is already at {place}[{names.index(name)}].name',
        )


HEALTH = object_of(
    Health,
    Key(
        "path",
        "The path of the GET request. A status from 200 to 399 is a success.",
        REQUEST_PATH,
        Health.path,
    ),
    Key("interval", "Seconds between two probes of an endpoint.", SECONDS, Health.interval),
    Key(
        "timeout",
        "Seconds within which the whole response has to come.",
        SECONDS,
        Health.timeout,
    ),
    Key(
        "failures",
        "The number of failed probes in a row after which an endpoint is down.",
        whole_numbers(1, MOST_FAILURES),
        Health.failures,
    ),
)
NAMED_ANALYSIS = object_of(
    PlannedAnalysis,
    Key(
        "name",
        "The name of one of several analyses, which all run at the same time; it stands once.",
        REVISION_NAME,
        "",
        is_needed=True,
    ),
    Key("command", "Its command.", COMMAND, (), is_needed=True),
)


def read_commands_of_analysis(
    judge: Judge, value: object, place: str
) -> tuple[PlannedAnalysis, ...]:
    """A command alone, or a list of analyses that each have a name."""
    if not isinstance(value, list) or not any(isinstance(one, dict) for one in value):
        return (PlannedAnalysis(judge.command(value, place)),)
    if len(value) > MOST_AT_ONCE:
        judge.note(place, f"it is not a list of 1 to {MOST_AT_ONCE} analyses")
        return ()
    several = tuple(
        NAMED_ANALYSIS.read(judge, one, f"{place}[{number}]") for number, one in enumerate(value)
    )
    for number in range(len(several)):
        note_repeated(judge, [each.name for each in several], number, place)
    return several


COMMANDS_OF_ANALYSIS = Kind(
    read_commands_of_analysis,
    {
        "anyOf": [
            COMMAND.schema,
            {
                "type": "array",
                "minItems": 1,
                "maxItems": MOST_AT_ONCE,
                "items": NAMED_ANALYSIS.schema,
            },
        ]
    },
)


def analyses_of(
    pre: tuple[PlannedAnalysis, ...] | None,
    post: tuple[PlannedAnalysis, ...] | None,
    seconds: float,
) -> Analyses:
    commands = {"pre": pre, "post": post}
    return Analyses({key: each for key, each in commands.items() if each is not None}, seconds)


ANALYSES = object_of(
    analyses_of,
    Key(
        "pre",
        "The command of the analysis before the switch, or a list of analyses, which all have to succeed.",
        COMMANDS_OF_ANALYSIS,
    ),
    Key(
        "post",
        "The command of the analysis after the switch, or a list of analyses, which all have to succeed.",
        COMMANDS_OF_ANALYSIS,
    ),
    Key("seconds", "Seconds within which each analysis has to end.", SECONDS, Analyses.seconds),
)
PROGRESS = object_of(
    Progress,
    Key(
        "seconds",
        "Seconds within which a further endpoint has to be up.",
        SECONDS,
        Progress.seconds,
    ),
    Key("abort", "Whether the attempt is aborted after that.", FLAG, Progress.abort),
    Key(
        "outage",
        "Seconds without an endpoint that is up, after which an attempt that has switched ends.",
        SECONDS,
        Progress.outage,
    ),
)
REVISION = object_of(
    PlannedRevision,
    Key(
        "name",
        "Lower-case letters, digits and hyphens, with no hyphen at either end.",
        REVISION_NAME,
        "",
        is_needed=True,
    ),
    Key(
        "ports",
        "The port of each endpoint at its address: one for each replica.",
        PORTS,
        (),
        is_needed=True,
    ),
)


def compare(judge: Judge, revisions: tuple[PlannedRevision, ...], place: str) -> None:
    """Notes names that stand twice, ports that two revisions have, and revisions that have not as
    many ports as the first one."""
    names = [revision.name for revision in revisions]
    first: dict[int, str] = {}  # by the port: its place in the revision that has it first
    for number, revision in enumerate(revisions):
        note_repeated(judge, names, number, place)
        if revision.ports and revisions[0].ports and len(revision.ports) != len(revisions[0].ports):
            judge.note(
                f"{place}[{number}].ports",
                f"has {len(revision.ports)}, and {place}[0].ports has "
                f"{len(revisions[0].ports)}: each revision has one port for each replica",
            )
        places = {
            port: f"{place}[{number}].ports[{index}]" for index, port in enumerate(revision.ports)
        }
        for port in (port for port in places if port in first):
            judge.note(
                places[port], f"{port} is already at {first[port]}: an endpoint serves one revision"
            )
        first = {**places, **first}


def compare_ports(judge: Judge, plan: Plan) -> None:
    """Notes ports of the switch itself that are named twice, or as those of an endpoint. Endpoints
    at another address than the switch may have the numbers of its ports."""
    own = {plan.control: "control"} if isinstance(plan.control, int) else {}
    for key, port in plan.services.items():
        if port in own:
            judge.note(key, f"{port} is already at {own[port]}")
        own.setdefault(port, key)
    if plan.endpoint_address != HOST:
        return
    for number, revision in enumerate(plan.revisions):
        for index, port in enumerate(revision.ports):
            if port in own:
                judge.note(
                    f"revisions[{number}].ports[{index}]",
                    f"{port} is a port of the switch itself, as {own[port]} says",
                )


def read_revisions(judge: Judge, value: object, place: str) -> tuple[PlannedRevision, ...]:
    if not isinstance(value, list) or not 1 <= len(value) <= MOST_REVISIONS:
        judge.note(place, f"it is not a list of 1 to {MOST_REVISIONS} revisions")
        return ()
    revisions = tuple(
        REVISION.read(judge, one, f"{place}[{number}]") for number, one in enumerate(value)
    )
    compare(judge, revisions, place)
    return revisions


REVISIONS = Kind(
    read_revisions,
    {"type": "array", "minItems": 1, "maxItems": MOST_REVISIONS, "items": REVISION.schema},
)
SERVICES = (
    Key("active", "The port of the active service, which no revision may have.", PORT),
    Key("preview", "The port of the preview service, which no revision may have.", PORT),
)
COMMANDS = (
    Key("start", f"The command that starts an endpoint; {PLACES}.", COMMAND, ()),
    Key("stop", f"The command that stops an endpoint; {PLACES}.", COMMAND, ()),
    Key(
        "notify",
        "The command that gets each line of the log on its standard input, as a JSON object.",
        COMMAND,
        (),
    ),
    Key(
        "timeout",
        "Seconds within which start, stop and notify each have to end.",
        SECONDS,
        Commands.timeout,
    ),
)
# Those that are fields of a `Plan` of the same names.
FIELDS = (
    Key(
        "endpoint_address",
        "The address of the endpoints, as --endpoint-address of the switch. At another one than 127.0.0.1 a revision may "
        "have a port of the switch.",
        ENDPOINT_ADDRESS,
        HOST,
    ),
    Key("health", "How each endpoint is probed.", HEALTH, Health()),
    Key(
        "analyses",
        "The commands of the analyses, which run in the folder of the plan: status 0 is successful, 1 is failed, and "
        "any other status, or a timeout, is an error.",
        ANALYSES,
        Analyses({}),
    ),
    Key("progress", "Limits on an attempt that makes no progress.", PROGRESS, Progress()),
    Key(
        "redispatch",
        "false for a switch that was started without --redispatch.",
        FLAG,
        Plan.redispatch,
    ),
)
REVISIONS_KEY = Key(
    "revisions",
    "The revisions, from the first one to the one that is to be live.",
    REVISIONS,
    (),
    is_needed=True,
)
CONTROL_KEY = Key(
    "control",
    "The control port of the switch, or the absolute path of its control socket.",
    CONTROL,
    1,
    is_needed=True,
)
SCHEMA_KEY = Key(
    SCHEMA, "The place of this schema, for editors. The controller does not read it.", TEXT, ""
)
KEYS = (CONTROL_KEY, *SERVICES, *FIELDS, *COMMANDS, REVISIONS_KEY, SCHEMA_KEY)
PLAN_SCHEMA = schema_of(KEYS)


def read_control(judge: Judge, members: JsonObject) -> Control:
    """The control port or socket. An object that `judge` finds nothing wrong with has one."""
    none: Control = 1
    return CONTROL.member(judge, members, "control", "", none)


def read_commands(judge: Judge, members: JsonObject) -> Commands:
    return Commands(**values_of(judge, members, COMMANDS))


def read_services(judge: Judge, members: JsonObject) -> Mapping[str, int]:
    """The ports of the services that are there."""
    ports = values_of(judge, members, SERVICES)
    return {name: port for name, port in ports.items() if port is not None}


def read_plan(text: bytes) -> Plan:
    """The plan of a file's bytes. `PlanError` with all of its problems if it is not a plan."""
    judge = Judge()
    if len(text) > LARGEST:
        raise PlanError([f"it has more than {LARGEST} bytes"])
    try:
        json_value = value_of(text)
    except ValueError as error:
        raise PlanError([str(error)]) from None
    members = judge.members(json_value, "", names_of(KEYS), needed_of(KEYS))
    values_of(judge, members, [SCHEMA_KEY])
    plan = Plan(
        control=read_control(judge, members),
        commands=read_commands(judge, members),
        services=read_services(judge, members),
        **values_of(judge, members, (*FIELDS, REVISIONS_KEY)),
    )
    if not judge.problems:
        compare_ports(judge, plan)
        judge_limits(judge, plan)
    if judge.problems:
        raise PlanError(judge.problems)
    return plan
