"""What the keys of a fleet say, for drills: it shares no code with the fleet."""
import json
from collections.abc import Mapping
from typing import Any

from support.fleet.recording import Event
from support.fleet.rules import RUNNING


class Seen:
    """All keys of a fleet, as one read has given them."""

    def __init__(self, entries: Mapping[str, Event]) -> None:
        self.entries = entries

    def _told(self, name: str) -> dict[str, Any]:
        """The object of a key; an empty one if there is no such key, or if its value is not an
        object."""
        event = self.entries.get(name)
        try:
            told = json.loads(event.value) if event and event.value else {}
        except ValueError:
            return {}
        return told if isinstance(told, dict) else {}

    @property
    def attempt(self) -> dict[str, Any]:
        return self._told("attempt")

    @property
    def id(self) -> int:
        return int(self.attempt.get("id", 0))

    @property
    def revision(self) -> str:
        """The revision that the attempt is of; empty if there is no record."""
        return str(self.attempt.get("revision", {}).get("name", ""))

    @property
    def stage(self) -> str:
        return str(self.attempt.get("stage", ""))

    @property
    def is_running(self) -> bool:
        return self.stage in RUNNING

    @property
    def is_of_the_plan(self) -> bool:
        """Whether the attempt is that of the plan as it stands."""
        plan = self.entries.get("plan")
        return plan is not None and self.attempt.get("id") == plan.revision

    @property
    def stable(self) -> str:
        """The stable revision of the fleet."""
        return (
            self.revision
            if self.stage == "successful"
            else str(self.attempt.get("stable", {}).get("name", ""))
        )

    @property
    def is_by_hand(self) -> bool:
        """Whether a person orders the promotion."""
        return bool(self._told("plan").get("fleet", {}).get("by_hand"))

    @property
    def leader(self) -> str:
        """The host that leads; empty if none does."""
        event = self.entries.get("leader")
        return event.value or "" if event else ""

    @property
    def members(self) -> list[str]:
        return sorted(
            name.removeprefix("members/") for name in self.entries if name.startswith("members/")
        )

    def is_away(self, host: str) -> bool:
        return f"machines/{host}" not in self.entries

    def state(self, host: str) -> str:
        """What a machine reports of the attempt; empty if it is away, or if it reports of another
        one."""
        told = self._told(f"machines/{host}")
        return str(told["state"]) if told.get("attempt") == self.id else ""

    def are_all(self, state: str) -> bool:
        """Whether each member reports this of the attempt."""
        return bool(self.members) and all(self.state(host) == state for host in self.members)

    @property
    def is_settled(self) -> bool:
        """Whether the attempt of the plan is over, and each member agrees with that."""
        follow = [self._told(f"machines/{host}").get("state") == "follows" for host in self.members]
        return self.is_of_the_plan and not self.is_running and bool(follow) and all(follow)
