"""What was deployed, and what became of it: the events of a history, and the attempts that they
make up."""
import dataclasses
import datetime
import json

from bg_switch_tools.controller.state.analysis_results import AnalysisResult, read_results
from bg_switch_tools.switch.json_values import NAME, decoded

OPENED, DEPLOYED, RETRIED = "opened", "deployed", "retried"  # by which an attempt begins
ENDED, LIVE, LOST = "ended", "live", "lost"
UNDEPLOYED = "undeployed"  # the plan named a revision last, and it was not deployed
BEGINNINGS = (OPENED, DEPLOYED, RETRIED)
KINDS = (*BEGINNINGS, ENDED, LIVE, LOST, UNDEPLOYED)
# how one ends, and `lost`
STABLE, ABORTED, UNDONE, REPLACED = ("stable", "aborted", "undone", "replaced")
MOST_ATTEMPTS = 10_000  # that are kept, the latest ones


@dataclasses.dataclass(frozen=True)
class Event:
    """An event of the revision of this name and number. `opened`, `deployed` and `retried` begin an
    attempt, `by` whom; `ended` tells `how` it ended, and what those of its `analyses` came to that
    have names; from `live` on the active service selects the revision; `lost` says that the switch
    was started again, and is of no revision; `undeployed` tells `how` a revision, which has no
    number then, was not deployed.
    """

    time: str  # ISO 8601
    event: str
    name: str = ""
    number: int = 0
    by: str = ""
    how: str = ""
    ports: tuple[int, ...] = ()
    analyses: tuple[AnalysisResult, ...] = ()

    def line(self) -> bytes:
        """The event as a line of JSON, without the members that it has not."""
        members = {key: value for key, value in dataclasses.asdict(self).items() if value}
        return (json.dumps(members) + "\n").encode("ascii")


def _is_time(text: object) -> bool:
    try:
        return isinstance(text, str) and datetime.datetime.fromisoformat(text).tzinfo is not None
    except ValueError:
        return False


def _ports(value: object) -> tuple[int, ...]:
    return tuple(port for port in value if isinstance(port, int)) if isinstance(value, list) else ()


def read_event(line: bytes) -> Event | None:
    """The event of a line; None if the line is not an event."""
    try:
        members = decoded(line)
    except ValueError:
        return None
    if (
        not isinstance(members, dict)
        or members.get("event") not in KINDS
        or not _is_time(members.get("time"))
    ):
        return None
    name, number = members.get("name", ""), members.get("number", 0)
    if (
        not isinstance(name, str)
        or type(number) is not int
        or (members["event"] != LOST and not NAME.fullmatch(name))
    ):
        return None
    by, how = (
        text if isinstance(text, str) and text.isprintable() else ""
        for text in (members.get("by"), members.get("how"))
    )
    ports, analyses = _ports(members.get("ports")), read_results(members.get("analyses"))
    return Event(members["time"], members["event"], name, number, by, how, ports, analyses)


def seconds_between(begin: str, end: str) -> float:
    """The seconds from one time to a later one; 0 if the clock was set back."""
    first, last = (datetime.datetime.fromisoformat(time) for time in (begin, end))
    return max((last - first).total_seconds(), 0.0)


@dataclasses.dataclass
class Attempt:
    """An attempt. `how` and `ended` are empty while it runs. It was live for `seconds`, and has
    been since `live_since` if that is not empty."""

    name: str
    number: int
    begun: str = ""
    began: str = DEPLOYED  # one of `BEGINNINGS`, or `UNDEPLOYED` for one that has not begun
    by: str = ""
    ports: tuple[int, ...] = ()
    how: str = ""
    ended: str = ""
    analyses: tuple[AnalysisResult, ...] = ()
    seconds: float = 0.0
    live_since: str = ""

    def is_of(self, name: str, number: int) -> bool:
        return (self.name, self.number) == (name, number)

    def live_seconds(self, now: str) -> float:
        """For how long it was live, up to now."""
        return self.seconds + (seconds_between(self.live_since, now) if self.live_since else 0.0)


class Attempts:
    """The attempts of a history, oldest first. `is_lost` says that the switch was started again,
    and no report came since."""

    def __init__(self) -> None:
        self.all: list[Attempt] = []
        self.live: Attempt | None = None
        self.is_lost = False

    @property
    def newest(self) -> Attempt | None:
        """The latest one that has begun."""
        return next(
            (attempt for attempt in reversed(self.all) if attempt.began != UNDEPLOYED), None
        )

    def take(self, event: Event) -> None:
        """Takes in the event that comes next."""
        if event.event == LOST:
            self._leave(event.time)
            self.is_lost = True
            return
        if event.event in (*BEGINNINGS, UNDEPLOYED):
            has_begun = event.event != UNDEPLOYED
            self.is_lost = self.is_lost and not has_begun
            how, ended = ("", "") if has_begun else (event.how, event.time)
            begin = (event.name, event.number, event.time, event.event, event.by, event.ports)
            self._add(Attempt(*begin, how, ended))
        elif event.event == ENDED:
            attempt = self._latest(event)
            attempt.how, attempt.ended, attempt.analyses = event.how, event.time, event.analyses
        else:
            self._leave(event.time)
            self.live = self._latest(event)
            self.live.live_since = event.time

    def _add(self, attempt: Attempt) -> None:
        self.all.append(attempt)
        del self.all[:-MOST_ATTEMPTS]

    def _leave(self, time: str) -> None:
        """Nothing is live any more."""
        if self.live:
            self.live.seconds, self.live.live_since = self.live.live_seconds(time), ""
        self.live = None

    def _latest(self, event: Event) -> Attempt:
        """The latest attempt of the event's revision. One whose begin is no longer in the file has
        no begin."""
        for attempt in reversed(self.all):
            if attempt.is_of(event.name, event.number):
                return attempt
        self.all.insert(0, Attempt(event.name, event.number))
        return self.all[0]
