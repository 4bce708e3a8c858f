"""Pauses a controller: while it is paused, it sends no deploy, and no verdict of an analysis."""
import os
from typing import NamedTuple

from bg_switch_tools.controller.log import Log, local_time
from bg_switch_tools.controller.state.plan_author import login_name, write_for_all
from bg_switch_tools.controller.state.state_file import SUFFIX
from bg_switch_tools.switch.json_values import decoded

PAUSED = ".paused"
MOST_BYTES = 4096  # of the file
UNKNOWN = "somebody"


class Paused(NamedTuple):
    """Who has paused the controller, and when (ISO 8601; empty if the file does not tell)."""

    who: str
    when: str

    def text(self) -> str:
        return f"paused by {self.who}" + (f" since {self.when}" if self.when else "")


def _text_of(members: object, key: str) -> str:
    value = members.get(key) if isinstance(members, dict) else None
    return value if isinstance(value, str) and value.isprintable() else ""


class PauseFile:
    """The file `PLAN.state.paused`. The controller is paused while it exists, whatever stands in
    it."""

    def __init__(self, plan_path: str) -> None:
        self.path = plan_path + SUFFIX + PAUSED

    def read(self) -> Paused | None:
        """Who has paused the controller; None if nobody has. `OSError` if that can't be told."""
        try:
            with open(self.path, "rb") as file:
                members = decoded(file.read(MOST_BYTES))
        except FileNotFoundError:
            return None
        except (ValueError, PermissionError):
            members = None
        return Paused(_text_of(members, "who") or UNKNOWN, _text_of(members, "when"))

    def pause(self) -> Paused:
        """Pauses the controller in the caller's name. Gives who has paused it, which may be
        somebody before."""
        paused = self.read()
        if paused is None:
            paused = Paused(login_name(), local_time())
            write_for_all(self.path, paused._asdict())
        return paused

    def resume(self) -> bool:
        """Ends the pause. Gives whether there was one."""
        try:
            os.unlink(self.path)
        except FileNotFoundError:
            return False
        return True


class Pause:
    """What a controller knows of its pause. It looks in each round, and tells in the log what has
    changed."""

    def __init__(self, plan_path: str, log: Log) -> None:
        self.file = PauseFile(plan_path)
        self.log = log
        self.paused: Paused | None = None

    @property
    def is_on(self) -> bool:
        return self.paused is not None

    def look(self) -> None:
        """Reads the file. If that fails, the pause stays as it was."""
        try:
            paused = self.file.read()
        except OSError:
            return
        if paused and not self.paused:
            self.log.say(
                "plan", f"{paused.text()}: no deploy and no verdict is sent until bgctl resume"
            )
        elif self.paused and not paused:
            self.log.say("plan", "resumed: deploys and verdicts are sent again")
        self.paused = paused
