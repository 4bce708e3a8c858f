"""What an agent alone knows of its store, in a file for other programs of its machine, such as one
that gives metrics."""
import dataclasses
import json
import os
import time

from bg_switch_tools.fleet.record.record import UnreadableError
from bg_switch_tools.switch.json_values import Judge, decoded

SUFFIX = ".agent"
VERSION = 1
PERIOD = 5.0  # seconds after which the file is written again, even if nothing has changed
STALE = 3 * PERIOD  # seconds after which a file is of an agent that hangs or was killed
GREATEST = 1 << 40


@dataclasses.dataclass(frozen=True)
class AgentStatus:
    """`written` is when the file was written, `read` when the latest read of the store was begun
    that has succeeded (0: none has), and `lost` since when the store has given no answer (0: it
    answers). All are Unix times in seconds.
    """

    fleet: str
    host: str
    process: int
    written: float = 0.0
    read: float = 0.0
    lost: float = 0.0

    def text(self) -> str:
        """As the file has it."""
        return json.dumps({"version": VERSION, **vars(self)}) + "\n"

    def lost_seconds(self, now: float) -> float:
        """For how many seconds the store has given no answer at this Unix time; 0 if it answers."""
        return max(now - self.lost, 0.0) if self.lost else 0.0

    def is_stale(self, now: float) -> bool:
        """Whether no agent keeps the file up to date at this Unix time."""
        return now >= self.written + STALE


def read_agent_status(text: bytes) -> AgentStatus:
    """The status of a file's bytes. `UnreadableError` if they are none of this version."""
    judge, keys = Judge(), ("version", *(field.name for field in dataclasses.fields(AgentStatus)))
    try:
        value = decoded(text)
    except ValueError as error:
        raise UnreadableError(f"it is not JSON: {error}") from None
    members = judge.members(value, "", keys, keys)
    if judge.problems or members["version"] != VERSION:
        raise UnreadableError("; ".join(judge.problems) or f"its version is not {VERSION}")
    times = {
        key: judge.number(members[key], key, 0, GREATEST) for key in ("written", "read", "lost")
    }
    status = AgentStatus(
        judge.text(members["fleet"], "fleet"),
        judge.text(members["host"], "host"),
        judge.whole_number(members["process"], "process", 1, GREATEST),
        **times,
    )
    if judge.problems:
        raise UnreadableError("; ".join(judge.problems))
    return status


class AgentStatusFile:
    """The file of an agent's status. It is there while the agent runs, and after a crash."""

    def __init__(self, path: str, status: AgentStatus) -> None:
        """`status` names the agent."""
        self.path = path + SUFFIX
        self.status = status

    def keep(self, read: float, lost: float) -> None:
        """Writes the file if it is due. A folder that can't be written to is passed over: the log
        has told it of the state."""
        now = time.time()
        is_due = (
            bool(lost) != bool(self.status.lost)
            or not self.status.written
            or not 0 <= now - self.status.written < PERIOD
        )
        if not is_due:
            return
        self.status = dataclasses.replace(self.status, written=now, read=read, lost=lost)
        fresh = f"{self.path}.new"
        try:
            with open(fresh, "w", encoding="ascii") as file:
                file.write(self.status.text())
            os.replace(fresh, self.path)
        except OSError:
            return

    def remove(self) -> None:
        """The agent ends."""
        try:
            os.unlink(self.path)
        except OSError:
            return
