"""The files of an agent: where they are, the id of its machine, and the state that it keeps."""
import os
import pathlib
import re
import secrets

from bg_switch_tools.controller.state.state_file import write_whole
from bg_switch_tools.fleet.agent.agent import Say
from bg_switch_tools.fleet.machine.machine_state import MachineState, MachineStateFile
from bg_switch_tools.fleet.plan.fleet_file import FleetFile
from bg_switch_tools.fleet.record.record import UnreadableError

FOLDER = "STATE_DIRECTORY"  # the variable of the environment by which systemd names the folder of a unit's state
ID = ".id"
BOOT = pathlib.Path("/proc/sys/kernel/random/boot_id")
ID_TEXT = re.compile(r"[0-9a-f]{32}")


def path_of(file: FleetFile, state: pathlib.Path | None) -> str:
    """The path before the endings of an agent's files. `state` is that path, or a folder, in which
    the names of the fleet and of the host tell the agents apart; if it is left out, the folder is
    that of systemd's unit, or else that of the fleet file.
    """
    if state is not None and not state.is_dir():
        return str(state)
    folder = str(state) if state else os.environ.get(FOLDER, "").split(":")[0] or file.folder
    return os.path.join(folder, f"{file.fleet}.{file.host}")


def machine_id(path: str, say: Say) -> str:
    """The id of a machine: one that is kept in a file beside this path, that of the system's boot,
    and the device and the number (inode) of the file. An agent that is started again has the same
    one. An agent with files of its own has another one, and so has one with a copy of the files, on
    a copy of the machine or on the same kernel.
    """
    try:
        boot = BOOT.read_text(encoding="ascii").strip()
    except (OSError, ValueError):
        boot = "unknown"
    file = pathlib.Path(path + ID)
    kept = _kept_id(file, say)
    try:
        status = file.stat()
    except OSError:
        return f"{kept}.{boot}"
    return f"{kept}.{boot}.{status.st_dev:x}.{status.st_ino:x}"


def _kept_id(path: pathlib.Path, say: Say) -> str:
    try:
        text = path.read_text(encoding="ascii").strip()
    except (OSError, ValueError):
        text = ""
    if ID_TEXT.fullmatch(text):
        return text
    new_id = secrets.token_hex(16)
    try:
        write_whole(str(path), f"{new_id}\n".encode("ascii"))
    except OSError as error:
        say(
            "state",
            f"the id of this machine can't be kept in {path}: {error.strerror}; an agent that is started again has to wait until "
            "the lease of this one has ended",
        )
    return new_id


class StateKeeper:
    """Keeps the state of a machine. A folder that takes no file is told once, and ends nothing."""

    def __init__(self, path: str, say: Say) -> None:
        self.file = MachineStateFile(path)
        self.say = say
        self.unwritten: MachineState | None = None

    def read(self) -> MachineState:
        """What an agent before has kept."""
        try:
            return self.file.read()
        except UnreadableError as reason:
            self.say(
                "state",
                f"{self.file.path} is not used, so the attempt that runs begins again here: {reason}",
            )
            return MachineState()

    def keep(self, state: MachineState) -> None:
        """Keeps a state. If that fails, `keep_again` tries it again."""
        try:
            self.file.write(state)
        except OSError as error:
            if self.unwritten is None:
                self.say(
                    "state",
                    f"what is known of the fleet can't be kept in {self.file.path}: {error.strerror}",
                )
            self.unwritten = state
            return
        if self.unwritten is not None:
            self.say("state", f"what is known of the fleet is kept again in {self.file.path}")
        self.unwritten = None

    def keep_again(self) -> None:
        if self.unwritten is not None:
            self.keep(self.unwritten)
