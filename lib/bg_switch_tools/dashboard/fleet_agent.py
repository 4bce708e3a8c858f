"""What the agent of this machine tells of its own reads, in the file that it keeps up to date."""
import pathlib

from bg_switch_tools.fleet.agent.agent_files import path_of
from bg_switch_tools.fleet.agent.agent_status import SUFFIX, AgentStatus, read_agent_status
from bg_switch_tools.fleet.plan.fleet_file import FleetFile
from bg_switch_tools.fleet.record.record import UnreadableError

LARGEST = 1 << 16  # bytes of the file


class LocalAgent:
    """The agent of this machine."""

    def __init__(self, file: FleetFile, state: str) -> None:
        """`state` is where the agent keeps its files, as its own option has it; empty: beside the
        fleet file."""
        self.files = path_of(file, pathlib.Path(state or file.folder))  # without their endings
        self.path = self.files + SUFFIX

    def status(self, now: float) -> AgentStatus | None:
        """What the agent tells; None if there is no file, if it can't be read, or if nobody has
        kept it up to date at this Unix time."""
        try:
            with open(self.path, "rb") as file:
                status = read_agent_status(file.read(LARGEST))
        except (OSError, UnreadableError):
            return None
        return None if status.is_stale(now) else status


def local_agent(file: FleetFile, state: str) -> LocalAgent | None:
    """The agent of a fleet file; None if the file names no machine."""
    return LocalAgent(file, state) if file.machine else None
