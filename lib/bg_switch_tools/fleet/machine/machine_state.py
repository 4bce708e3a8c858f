"""What an agent keeps in a file beside its fleet file, so that it outlives a crash of the switch,
of itself, and of both."""
import dataclasses
import json

from bg_switch_tools.controller.plan.plan_reader import PlanError
from bg_switch_tools.controller.state.state_file import write_whole
from bg_switch_tools.fleet.machine.line_table import Joined
from bg_switch_tools.fleet.plan.fleet_plan import read_fleet_plan
from bg_switch_tools.fleet.record.record import VERSION, Record, UnreadableError, read_record
from bg_switch_tools.switch.json_values import Judge, decoded

SUFFIX = ".fleet"
KEYS = ("version", "cluster", "plan", "record", "joined")
JOINED_KEYS = ("cluster", "attempt", "revision", "has_passed", "reason")


@dataclasses.dataclass(frozen=True)
class MachineState:
    """The cluster, the plan and the record that were read last (an empty cluster, an empty text and
    None before the first read), and what the switch has joined."""

    cluster: str = ""
    plan: str = ""
    record: Record | None = None
    joined: Joined = Joined()

    def text(self) -> str:
        """As the file has it."""
        return (
            json.dumps(
                {
                    "version": VERSION,
                    "cluster": self.cluster,
                    "plan": self.plan,
                    "record": self.record and self.record.text(),
                    "joined": vars(self.joined),
                }
            )
            + "\n"
        )


def read_machine_state(text: bytes) -> MachineState:
    """The state of a file's bytes. `UnreadableError` if they are none of this version."""
    judge = Judge()
    try:
        value = decoded(text)
    except ValueError as error:
        raise UnreadableError(f"it is not JSON: {error}") from None
    members = judge.members(value, "", KEYS, KEYS)
    if judge.problems or members["version"] != VERSION:
        raise UnreadableError("; ".join(judge.problems) or f"its version is not {VERSION}")
    joined = judge.members(members["joined"], "joined", JOINED_KEYS, JOINED_KEYS)
    if judge.problems:
        raise UnreadableError("; ".join(judge.problems))
    record = (
        None if members["record"] is None else read_record(judge.text(members["record"], "record"))
    )
    state = MachineState(
        judge.text(members["cluster"], "cluster"),
        judge.text(members["plan"], "plan"),
        record,
        Joined(
            judge.text(joined["cluster"], "joined.cluster"),
            judge.whole_number(joined["attempt"], "joined.attempt", 0, 1 << 63),
            judge.text(joined["revision"], "joined.revision"),
            judge.flag(joined["has_passed"], "joined.has_passed"),
            judge.text(joined["reason"], "joined.reason"),
        ),
    )
    if judge.problems:
        raise UnreadableError("; ".join(judge.problems))
    try:
        if state.plan:
            read_fleet_plan(state.plan)
    except PlanError as wrong:
        raise UnreadableError(f"its plan is wrong: {wrong}") from None
    return state


class MachineStateFile:
    """The file of an agent's state."""

    def __init__(self, fleet_path: str) -> None:
        self.path = fleet_path + SUFFIX

    def read(self) -> MachineState:
        """The state that was kept; that of a machine that knows nothing if there is no file.
        `UnreadableError` if the file can't be read: the machine then begins its attempt again."""
        try:
            with open(self.path, "rb") as file:
                return read_machine_state(file.read())
        except FileNotFoundError:
            return MachineState()
        except OSError as error:
            raise UnreadableError(f"it can't be read: {error.strerror}") from None

    def write(self, state: MachineState) -> None:
        """Keeps a state. `OSError` if the folder takes no file."""
        write_whole(self.path, state.text().encode())
