"""What a controller remembers beside its plan, so that it outlives a crash of the switch, of
itself, and of both."""
import contextlib
import dataclasses
import fcntl
import json
import os
import time
from collections.abc import Callable
from typing import TypeVar

from bg_switch_tools.controller.plan.plan import Plan, PlannedRevision
from bg_switch_tools.controller.process_groups import ProcessId
from bg_switch_tools.switch.control import Control
from bg_switch_tools.switch.json_values import JsonObject, Judge, decoded

SUFFIX = ".state"
COPY = ".copy"
LOCK = ".lock"
GREATEST_MOMENT = 1 << 53
GREATEST_TIME = 1 << 40  # seconds of Unix time, and above each number and start of a process
MOST_STARTED = 1000  # revisions, and commands that run at a time
TOUCH = 1.0  # seconds between two touches of the lock's file
# seconds for which the lock is tried for, and between two tries
LONGEST_LOOK, LOCK_PAUSE = (0.5, 0.02)
LONGEST_REASON = 1000  # characters
MISSING = "is not there"  # what is the matter with a file that does not exist
Value = TypeVar("Value")
NEEDED = ("moment", "stable", "deployed", "attempt")
# the keys that a file of an earlier controller has not
LATER = (
    *("since", "analysis", "analyses", "started", "commands", "former", "ports", "held"),
    *("unknown", "failing"),
)


@dataclasses.dataclass(frozen=True)
class HeldBack:
    """A revision of the plan that is not deployed, or whose ports in the plan are not used, and
    why."""

    revision: PlannedRevision
    reason: str

    def text(self) -> str:
        return f"{self.revision.name} is held back: {self.reason}"

    def as_json(self) -> dict[str, object]:
        return {
            "name": self.revision.name,
            "ports": list(self.revision.ports),
            "reason": self.reason,
        }


@dataclasses.dataclass(frozen=True)
class State:
    """`stable` is the revision that was stable last, of those whose ports are known. `deployed` is
    the plan's last revision that was deployed because the plan names it. `attempt` is the newest
    revision while its attempt runs. `since` is the time at which the moment was 0, in seconds of
    the system's clock (0 if that is not known). `analyses` are the processes of the analyses that
    run. `started` are the revisions that were started and not stopped yet, `commands` the processes
    of the commands that start and stop them and run. `former` are the control ports and sockets
    that the plan named before. `ports` are the revisions of the book whose ports are known for
    sure, `held` those of the plan that are held back. `unknown` is the name of the stable revision
    if its ports are not known, and those of none before are; else it is empty. `failing` are the
    revisions whose command `start` has failed and has not succeeded since."""

    moment: int = 0
    stable: PlannedRevision | None = None
    deployed: PlannedRevision | None = None
    attempt: PlannedRevision | None = None
    since: int = 0
    analyses: tuple[ProcessId, ...] = ()
    started: tuple[PlannedRevision, ...] = ()
    commands: tuple[ProcessId, ...] = ()
    former: tuple[Control, ...] = ()
    ports: tuple[PlannedRevision, ...] = ()
    held: tuple[HeldBack, ...] = ()
    unknown: str = ""
    failing: tuple[HeldBack, ...] = ()

    @property
    def names(self) -> list[str]:
        """The names of the revisions that were stable and deployed last, each once: none before a
        book was open."""
        known = [revision.name for revision in (self.stable, self.deployed) if revision]
        return list(dict.fromkeys([*([self.unknown] if self.unknown else []), *known]))

    def belongs_to(self, plan: Plan) -> bool:
        """Whether this was written for this plan: the plan has one of the names, or there is none
        yet."""
        return not self.names or any(plan.named(name) for name in self.names)

    def keeps(self, other: "State") -> bool:
        """Whether the other one differs in the moment alone."""
        return dataclasses.replace(other, moment=self.moment) == self


class StateError(Exception):
    """There is no state to go on by. The text says why."""


def written(state: State) -> bytes:
    """The bytes of a state file. One analysis stands there as in a file that has no list of them."""
    members = dataclasses.asdict(state)
    analyses = members.pop("analyses")
    members["analysis"] = analyses[0] if len(analyses) == 1 else None
    if len(analyses) > 1:
        members["analyses"] = analyses
    return (json.dumps(members, indent=1) + "\n").encode("ascii")


def _read_revision(judge: Judge, value: object, place: str) -> PlannedRevision:
    members = judge.members(value, place, ("name", "ports"), ("name", "ports"))
    return PlannedRevision(
        judge.member(members, "name", place, judge.name, ""),
        judge.member(members, "ports", place, judge.ports, ()),
    )


def _read_process(judge: Judge, json_value: object, place: str) -> ProcessId:
    members = judge.members(json_value, place, ("pid", "start"), ("pid", "start"))
    pid, start = (
        judge.member(
            members,
            key,
            place,
            lambda value, at: judge.whole_number(value, at, least, GREATEST_TIME),
            2,
        )
        for key, least in (("pid", 2), ("start", 0))
    )
    return ProcessId(pid, start)


def _read_held(judge: Judge, value: object, place: str) -> HeldBack:
    members = judge.members(value, place, ("revision", "reason"), ("revision", "reason"))
    reason = judge.member(members, "reason", place, judge.text, "")
    return HeldBack(
        _read_revision(judge, members.get("revision"), f"{place}.revision"), reason[:LONGEST_REASON]
    )


def _read_list(judge: Judge, value: object, place: str) -> list[object]:
    if isinstance(value, list) and len(value) <= MOST_STARTED:
        return value
    judge.note(place, f"it is not a list of at most {MOST_STARTED}")
    return []


def _read_each(
    judge: Judge, members: JsonObject, key: str, read: Callable[[Judge, object, str], Value]
) -> tuple[Value, ...]:
    """The values of the list that a key has; none if the key is not there."""
    values = _read_list(judge, members.get(key, []), key)
    return tuple(read(judge, each, f"{key}[{number}]") for number, each in enumerate(values))


def _read_values(judge: Judge, members: JsonObject) -> State:
    stable, deployed, attempt = (
        None if members[key] is None else _read_revision(judge, members[key], key)
        for key in NEEDED[1:]
    )
    # an earlier controller has opened and deployed these, and kept no other ports
    earlier = () if "ports" in members else filter(None, (deployed, attempt, stable))
    one = members.get("analysis")
    analyses = () if one is None else (_read_process(judge, one, "analysis"),)
    return State(
        moment=judge.whole_number(members["moment"], "moment", 0, GREATEST_MOMENT),
        stable=stable,
        deployed=deployed,
        attempt=attempt,
        since=judge.whole_number(members.get("since", 0), "since", 0, GREATEST_TIME),
        analyses=analyses + _read_each(judge, members, "analyses", _read_process),
        started=_read_each(judge, members, "started", _read_revision),
        commands=_read_each(judge, members, "commands", _read_process),
        former=judge.controls(members["former"], "former") if members.get("former") else (),
        ports=(*dict.fromkeys(earlier), *_read_each(judge, members, "ports", _read_revision)),
        held=_read_each(judge, members, "held", _read_held),
        unknown=judge.name(members["unknown"], "unknown") if members.get("unknown") else "",
        failing=_read_each(judge, members, "failing", _read_held),
    )


def read_state(text: bytes) -> State:
    """The state of a file's bytes. `StateError` if they are cut, or are none: a name and ports of
    it are those of a plan."""
    judge = Judge()
    if not text.strip():
        raise StateError("is empty")
    try:
        value = decoded(text)
    except ValueError as error:
        is_cut = text.startswith(b"{") and not text.endswith(b"}\n")
        raise StateError("is cut" if is_cut else f"is not a state file: {error}") from None
    if not isinstance(value, JsonObject):
        raise StateError("is not a state file: it has no object")
    members = judge.members(value, "", (*NEEDED, *LATER), NEEDED)
    state = State() if judge.problems else _read_values(judge, members)
    if judge.problems:
        raise StateError(f"is not a state file: {'; '.join(judge.problems)}")
    return state


def write_whole(path: str, text: bytes) -> None:
    """Puts a file in place, so that a reader, also one after a crash, finds either the one before
    or this one."""
    fresh = f"{path}.new"
    with open(fresh, "wb") as file:
        file.write(text)
        file.flush()
        os.fsync(file.fileno())
    os.replace(fresh, path)
    folder = os.open(os.path.dirname(os.path.abspath(path)), os.O_RDONLY)
    try:
        os.fsync(folder)
    finally:
        os.close(folder)


def _why_neither(file: str, copy: str) -> str:
    """Why neither a state file nor its copy can be used, by what is the matter with each."""
    if file == copy:
        return "there is none" if file == MISSING else f"it {file}"
    return f"it {file}, and its copy {copy}"


class StateFile:
    """The state file of a plan, and a copy of it, which is read if the file itself can't be
    used."""

    def __init__(self, plan_path: str) -> None:
        self.path = plan_path + SUFFIX
        self.copy = self.path + COPY

    def read(self) -> tuple[State, str]:
        """The state, and why that of the copy was taken; an empty text if it is that of the file
        itself. `StateError` if neither can be used."""
        try:
            return self._read_one(self.path), ""
        except StateError as reason:
            try:
                return self._read_one(self.copy), str(reason)
            except StateError as other:
                raise StateError(_why_neither(str(reason), str(other))) from None

    @staticmethod
    def _read_one(path: str) -> State:
        """The state of one file. The text of `StateError` says what is the matter with the file."""
        try:
            with open(path, "rb") as file:
                return read_state(file.read())
        except FileNotFoundError:
            raise StateError(MISSING) from None
        except OSError as error:
            raise StateError(f"can't be read: {error.strerror}") from None

    def write(self, state: State) -> None:
        """Writes the file and its copy, one after the other. `OSError` if the folder takes no
        file."""
        text = written(state)
        write_whole(self.path, text)
        write_whole(self.copy, text)


class StateLockedError(Exception):
    """Another controller runs the plan. The text names its process."""


class StateLock:
    """The lock of a plan's state (flock(2)): one controller has it. The system lets it go when the
    process ends, however. The time of the file's last change shows that its holder goes on."""

    def __init__(self, plan_path: str, other: str = "another controller runs this plan") -> None:
        """Takes the lock. `StateLockedError` if another process has it, which is told as `other`;
        `OSError` if the folder takes no file."""
        self.path = plan_path + SUFFIX + LOCK
        self.descriptor = os.open(self.path, os.O_RDWR | os.O_CREAT, 0o644)
        self.next = 0.0  # from when on the file is touched again
        if not self._is_taken():
            holder = os.read(self.descriptor, 20).decode("ascii", "replace").strip()
            self.release()
            raise StateLockedError(
                f"{other}: process {holder or 'not known'} has the lock {self.path}"
            )
        os.ftruncate(self.descriptor, 0)
        os.write(self.descriptor, f"{os.getpid()}\n".encode("ascii"))

    def _is_taken(self) -> bool:
        """Tries for a moment: who looks at whether a controller runs has the lock for less than
        that."""
        deadline = time.monotonic() + LONGEST_LOOK
        while True:
            try:
                fcntl.flock(self.descriptor, fcntl.LOCK_EX | fcntl.LOCK_NB)
                return True
            except BlockingIOError:
                if time.monotonic() >= deadline:
                    return False
            time.sleep(LOCK_PAUSE)

    def touch(self) -> None:
        """Shows that the holder goes on, at most once a second."""
        if self.descriptor >= 0 and time.monotonic() >= self.next:
            self.next = time.monotonic() + TOUCH
            with contextlib.suppress(OSError):
                os.utime(self.descriptor)

    def release(self) -> None:
        """Lets the lock go, if that was not done before."""
        descriptor, self.descriptor = self.descriptor, -1
        if descriptor >= 0:
            os.close(descriptor)
