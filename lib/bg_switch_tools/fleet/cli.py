"""bin/fleet: the agent of a machine, and the commands of a person for a whole fleet."""
from collections.abc import Sequence

from bg_switch_tools.controller.plan.plan_reader import PlanError
from bg_switch_tools.fleet.argument_parser import parser
from bg_switch_tools.fleet.commands import FLEET_COMMAND_NAMES, FLEET_COMMANDS, FleetRun, StoreOf
from bg_switch_tools.fleet.exit_statuses import NO_ANSWER, REFUSED, WRONG_WORDS
from bg_switch_tools.fleet.person.person import RefusedError, tell
from bg_switch_tools.fleet.person.person_plans import UnreadableFileError
from bg_switch_tools.fleet.plan.fleet_file import FleetFile, FleetFileError, read_whole_fleet_file
from bg_switch_tools.fleet.record.record import UnreadableError
from bg_switch_tools.fleet.store.etcd import EtcdStore
from bg_switch_tools.fleet.store.store import Store, StoreError
from bg_switch_tools.switch.frame import End, Frame, list_of


def etcd_of(file: FleetFile) -> Store:
    """The store of a fleet file."""
    return EtcdStore(file.etcd, file.fleet)


def problems_told(wrong: Exception) -> str:
    """The problems of a plan, a line each."""
    problems = wrong.problems if isinstance(wrong, PlanError) else [str(wrong)]
    return list_of("the plan is wrong:", problems)


FRAME = Frame(
    "fleet",
    {
        RefusedError: End(REFUSED),
        UnreadableError: End(REFUSED),
        PlanError: End(REFUSED, problems_told),
        StoreError: End(NO_ANSWER),
        UnreadableFileError: End(WRONG_WORDS),
    },
)


def fleet_file(path: str) -> FleetFile | None:
    """The fleet file at a path. If it is not a fleet file, tells why and returns None."""
    try:
        return read_whole_fleet_file(path)
    except FleetFileError as wrong:
        tell(list_of(f"{path} is not a fleet file:", wrong.problems))
        if path in FLEET_COMMAND_NAMES:
            tell(f"the fleet file stands before the command: fleet FLEET.json {path}")
        return None


def main(words: Sequence[str], store_of: StoreOf = etcd_of) -> int:
    argument_parser = parser()
    if len(words) == 1 and words[0] in FLEET_COMMAND_NAMES:
        argument_parser.error(
            f"the fleet file stands before the command: fleet FLEET.json {words[0]}"
        )
    options = argument_parser.parse_args(words)
    command = next(each for each in FLEET_COMMANDS if each.name == options.command)
    if fault := command.fault(options):
        argument_parser.error(fault)
    file = fleet_file(options.file)
    if file is None:
        return WRONG_WORDS
    run = FleetRun(options, file, store_of)
    return FRAME.run(lambda: command.run(run))
