"""Reads the fleet file of a machine or a person: the fleet, its store, and what the machine adds to
the plan of the fleet."""
import os
import re
from typing import NamedTuple

from bg_switch_tools.controller.plan.plan import Analyses, Health, Plan, PlannedAnalysis, Progress
from bg_switch_tools.controller.plan.plan_kinds import names_of, numbers, values_of
from bg_switch_tools.controller.plan.plan_limits import missing_commands
from bg_switch_tools.controller.plan.plan_reader import (
    COMMANDS,
    LARGEST,
    SCHEMA,
    SCHEMA_KEY,
    SERVICES,
    compare_ports,
    read_commands,
    read_control,
    read_services,
)
from bg_switch_tools.controller.plan.plan_text import value_of
from bg_switch_tools.fleet.plan.fleet_plan import MachineSettings
from bg_switch_tools.fleet.store.etcd_gateway import EtcdSettings
from bg_switch_tools.fleet.store.store_endpoints import StoreEndpoint, store_endpoint_of
from bg_switch_tools.fleet.store.tls_files import TlsFiles
from bg_switch_tools.switch.json_values import JsonObject, Judge, is_argument, shown

MOST_ENDPOINTS = 16
LEAST_TIMEOUT, LONGEST_TIMEOUT = 0.1, 60  # seconds of a call of the store
MOST_ANALYSES = 64
USER = re.compile(r"[\x21-\x7e]{1,128}")
MACHINE_KEYS = (
    *("host", "control", "rollout"),
    *names_of(SERVICES),
    "analyses",
    *names_of(COMMANDS),
)
KEYS = ("fleet", "etcd", "tls", "user", "password_file", "timeout_seconds", *MACHINE_KEYS, SCHEMA)
# neither of a pair can stand without the other
TOGETHER = (("user", "password_file"), ("host", "control"))


class FleetFileError(Exception):
    """A text that is not a fleet file. `problems` has a line for each thing that is wrong, with its
    place."""

    def __init__(self, problems: list[str]) -> None:
        super().__init__("; ".join(problems))
        self.problems = problems


class FleetFile(NamedTuple):
    """A whole fleet file. `host` is the name of this machine as a member; it is empty, and
    `machine` None, in a file that only serves people, who send orders from elsewhere. `folder` is
    that of the file, in which the commands run.
    """

    fleet: str
    etcd: EtcdSettings
    folder: str
    host: str = ""
    machine: MachineSettings | None = None


def read_endpoint(judge: Judge, value: object, place: str) -> StoreEndpoint:
    try:
        return store_endpoint_of(value if isinstance(value, str) else "")
    except ValueError:
        judge.note(
            place, f'{shown(value)} is not an endpoint, such as "10.0.0.1:2379" or "[fd00::1]:2379"'
        )
    return StoreEndpoint("", 0)


def read_endpoints(judge: Judge, value: object, place: str) -> tuple[StoreEndpoint, ...]:
    if not isinstance(value, list) or not 1 <= len(value) <= MOST_ENDPOINTS:
        judge.note(place, f"it is not a list of 1 to {MOST_ENDPOINTS} endpoints")
        return ()
    for number, one in enumerate(value):
        if one in value[:number]:
            judge.note(
                f"{place}[{number}]", f"{shown(one)} is already at {place}[{value.index(one)}]"
            )
    return tuple(
        read_endpoint(judge, one, f"{place}[{number}]") for number, one in enumerate(value)
    )


def read_path(judge: Judge, value: object, place: str, folder: str) -> str:
    """The path of a file, from the folder of the fleet file on."""
    if isinstance(value, str) and value and is_argument(value):
        return os.path.join(folder, value)
    judge.note(place, f"{shown(value)} is not the path of a file")
    return ""


def read_user(judge: Judge, value: object, place: str) -> str:
    """The name of a user of etcd: printable ASCII without spaces."""
    if isinstance(value, str) and USER.fullmatch(value):
        return value
    judge.note(place, f"{shown(value)} is not the name of a user")
    return ""


def read_tls(judge: Judge, json_value: object, place: str, folder: str) -> TlsFiles:
    members = judge.members(json_value, place, TlsFiles._fields)
    needs_both(judge, members, place, "certificate", "key")
    return TlsFiles(
        *(
            judge.member(
                members, key, place, lambda value, at: read_path(judge, value, at, folder), ""
            )
            for key in TlsFiles._fields
        )
    )


def needs_both(judge: Judge, members: JsonObject, place: str, *keys: str) -> None:
    """Notes the keys of these that are missing if another one is there."""
    there = [key for key in keys if key in members]
    for key in keys:
        if there and key not in members:
            judge.note(f"{place}.{key}" if place else key, f"is missing, and {there[0]} is there")


def read_analyses(judge: Judge, value: object, place: str) -> dict[str, tuple[str, ...]]:
    """The commands of analyses, by the names that plans have for them."""
    if not isinstance(value, JsonObject) or len(value) > MOST_ANALYSES:
        judge.note(
            place,
            f'it is not an object of at most {MOST_ANALYSES} commands, such as {{"smoke": ["./smoke_test.sh"]}}',
        )
        return {}
    judge.members(value, place, tuple(value))  # which notes keys that are there twice
    for name in value:
        judge.name(name, place)
    return {name: judge.command(value[name], f"{place}.{judge.key_shown(name)}") for name in value}


def read_machine(judge: Judge, members: JsonObject, folder: str) -> MachineSettings | None:
    """What the machine adds; None if the file has no machine."""
    there = [key for key in MACHINE_KEYS if key in members]
    if not there:
        return None
    return MachineSettings(
        read_control(judge, members),
        judge.member(
            members, "analyses", "", lambda value, at: read_analyses(judge, value, at), {}
        ),
        read_commands(judge, members),
        read_services(judge, members),
        judge.member(
            members, "rollout", "", lambda value, at: read_path(judge, value, at, folder), ""
        ),
    )


def _plan(machine: MachineSettings) -> Plan:
    """A plan without a revision that has what the machine adds, so that a plan's judgements judge
    it too."""
    return Plan(
        machine.control,
        Health(),
        Analyses({name: (PlannedAnalysis(words),) for name, words in machine.analyses.items()}),
        Progress(),
        (),
        machine.commands,
        services=machine.services,
    )


def read_fleet_file(text: bytes, folder: str) -> FleetFile:
    """The fleet file of these bytes, which may be YAML as a plan may; paths in it go from this
    folder on. `FleetFileError` with all of its problems if it is not a fleet file."""
    judge = Judge("the fleet file")
    if len(text) > LARGEST:
        raise FleetFileError([f"it has more than {LARGEST} bytes"])
    try:
        json_value = value_of(text)
    except ValueError as error:
        raise FleetFileError([str(error)]) from None
    members = judge.members(json_value, "", KEYS, ("fleet", "etcd"))
    values_of(judge, members, [SCHEMA_KEY])
    for keys in TOGETHER:
        needs_both(judge, members, "", *keys)
    if (
        "host" not in members
        and "control" not in members
        and any(key in members for key in MACHINE_KEYS)
    ):
        judge.note("host", "is missing, and so is control: the file has other keys of a machine")
    etcd = EtcdSettings(
        judge.member(members, "etcd", "", lambda value, at: read_endpoints(judge, value, at), ()),
        judge.member(
            members, "tls", "", lambda value, at: read_tls(judge, value, at, folder), None
        ),
        judge.member(members, "user", "", lambda value, at: read_user(judge, value, at), ""),
        judge.member(
            members, "password_file", "", lambda value, at: read_path(judge, value, at, folder), ""
        ),
        numbers(LEAST_TIMEOUT, LONGEST_TIMEOUT).member(
            judge, members, "timeout_seconds", "", EtcdSettings._field_defaults["timeout"]
        ),
    )
    machine = read_machine(judge, members, folder)
    fleet_file = FleetFile(
        judge.member(members, "fleet", "", judge.name, ""),
        etcd,
        folder,
        judge.member(members, "host", "", judge.name, ""),
        machine,
    )
    if machine and not judge.problems:
        compare_ports(judge, _plan(machine))
    if judge.problems:
        raise FleetFileError(judge.problems)
    return fleet_file


def read_whole_fleet_file(path: str) -> FleetFile:
    """The fleet file at a path. `FleetFileError` if it is not a fleet file, or can't be read."""
    try:
        with open(path, "rb") as file:
            text = file.read(LARGEST + 1)
    except OSError as error:
        raise FleetFileError([f"it can't be read: {error.strerror}"]) from None
    return read_fleet_file(text, os.path.dirname(os.path.abspath(path)))


def missing_files(fleet_file: FleetFile) -> list[str]:
    """A problem for each command and each file that a fleet file names and that can't be used
    here."""
    problems = (
        missing_commands(_plan(fleet_file.machine), fleet_file.folder) if fleet_file.machine else []
    )
    files = (
        {f"tls.{key}": path for key, path in fleet_file.etcd.tls._asdict().items()}
        if fleet_file.etcd.tls
        else {}
    )
    files["password_file"] = fleet_file.etcd.password_file
    files["rollout"] = fleet_file.machine.rollout if fleet_file.machine else ""
    return problems + [
        f"{place}: {path} can't be read"
        for place, path in files.items()
        if path and not os.access(path, os.R_OK)
    ]
