"""Who has edited a plan with bgctl, and which deploys such an edit has overtaken."""
import dataclasses
import hashlib
import json
import os
import pwd
from collections.abc import Mapping

from bg_switch_tools.controller.log import local_time
from bg_switch_tools.controller.plan.plan_file import PlanEdit, plan_of
from bg_switch_tools.controller.plan.plan_reader import LARGEST
from bg_switch_tools.controller.state.state_file import SUFFIX, StateError, StateFile, write_whole
from bg_switch_tools.switch.json_values import NAME, decoded

AUTHOR = ".author"
MOST_BYTES = 16384  # of the file
LONGEST_NAME = 64  # characters of a name that are kept
MOST_OVERTAKEN = 32  # that are kept, the latest ones
PLAN = "plan"  # by whom: an edit of the plan by other means than bgctl


def login_name() -> str:
    """The login name of who runs this process; that of who called sudo(8), if root runs it by
    that."""
    user = os.getuid()
    if user == 0 and os.environ.get("SUDO_USER"):
        return os.environ["SUDO_USER"][:LONGEST_NAME]
    try:
        return pwd.getpwuid(user).pw_name[:LONGEST_NAME]
    except KeyError:
        return f"uid {user}"


@dataclasses.dataclass(frozen=True)
class Overtaken:
    """A revision that the plan named last, by `who`, and that was not deployed when `by` took its
    place at the time `when` (ISO 8601)."""

    name: str
    who: str
    by: str
    when: str

    def text(self) -> str:
        return f"{self.name} was overtaken before its deploy: the plan names {self.by} last"


def _read_overtaken(json_value: object) -> Overtaken | None:
    values = (
        [json_value.get(field.name) for field in dataclasses.fields(Overtaken)]
        if isinstance(json_value, dict)
        else []
    )
    texts = [value for value in values if isinstance(value, str) and value.isprintable()]
    if len(texts) != len(dataclasses.fields(Overtaken)) or not NAME.fullmatch(texts[0]):
        return None
    return Overtaken(*texts)


def write_for_all(path: str, members: Mapping[str, object]) -> None:
    """Writes an object of JSON that a controller of another user can read, whatever the umask
    is."""
    write_whole(path, (json.dumps(members) + "\n").encode("ascii"))
    os.chmod(path, 0o644)


def _digest(text: bytes) -> str:
    return hashlib.sha256(text).hexdigest()


class Author:
    """The file `PLAN.state.author`: who has made the plan what it is. It has the digest of the
    plan's text, so that a later edit by other means is nobody's of these."""

    def __init__(self, plan_path: str) -> None:
        self.plan_path = plan_path
        self.path = plan_path + SUFFIX + AUTHOR

    def sign(self, edit: PlanEdit) -> None:
        """Notes the caller as the author of an edit that is about to be put in place, and what it
        overtakes. `OSError` if the file can't be written."""
        when = local_time()
        members = {
            "who": login_name(),
            "when": when,
            "digest": _digest(edit.after),
            "overtaken": [dataclasses.asdict(each) for each in self._overtaken_by(edit, when)],
        }
        write_for_all(self.path, members)

    def _overtaken_by(self, edit: PlanEdit, when: str) -> list[Overtaken]:
        """What is overtaken, once an edit is in place; what went before the latest deploy is
        past."""
        last, following = plan_of(edit.before).last, plan_of(edit.after).last
        try:
            deployed = StateFile(self.plan_path).read()[0].deployed
        except StateError:
            return []
        if last == deployed:
            return []
        more = (
            []
            if last.name == following.name
            else [Overtaken(last.name, self.name(edit.before) or PLAN, following.name, when)]
        )
        return [*self.overtaken(edit.before), *more][-MOST_OVERTAKEN:]

    def _members(self, text: bytes | None) -> Mapping[str, object]:
        """What the file says of the plan of this text, or, if it is None, of the plan's file as it
        is now; empty if nobody has edited it with bgctl since."""
        try:
            with open(self.path, "rb") as file:
                members = decoded(file.read(MOST_BYTES))
            if text is None:
                with open(self.plan_path, "rb") as plan:
                    text = plan.read(LARGEST + 1)
        except (OSError, ValueError):
            return {}
        return (
            members if isinstance(members, dict) and members.get("digest") == _digest(text) else {}
        )

    def name(self, text: bytes | None = None) -> str | None:
        """The author of the plan of this text, or of the plan's file as it is now; None if nobody
        has edited it with bgctl since."""
        who = self._members(text).get("who")
        return who[:LONGEST_NAME] if isinstance(who, str) and who else None

    def overtaken(self, text: bytes | None = None) -> list[Overtaken]:
        """The revisions that the edits with bgctl have overtaken, up to the plan of this text, or to
        the plan's file as it is now, the oldest first."""
        values = self._members(text).get("overtaken")
        found = [_read_overtaken(one) for one in values] if isinstance(values, list) else []
        return [one for one in found if one is not None]
