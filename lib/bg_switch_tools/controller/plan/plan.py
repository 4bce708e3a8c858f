"""A plan: what a controller is told to do. `plan_reader` reads one from its file, and judges it."""
import dataclasses
from collections.abc import Mapping

from bg_switch_tools.switch.control import HOST, Control


@dataclasses.dataclass(frozen=True)
class PlannedRevision:
    """A revision by its name and its ports, one for each replica."""

    name: str
    ports: tuple[int, ...]

    @property
    def words(self) -> str:
        """As `open` and `deploy` name it."""
        return " ".join([self.name, *map(str, self.ports)])


class Revisions:
    """What plans say of their revisions, which go from the first one to the one that is to be
    live."""

    revisions: tuple[PlannedRevision, ...]

    @property
    def first(self) -> PlannedRevision:
        return self.revisions[0]

    @property
    def last(self) -> PlannedRevision:
        return self.revisions[-1]

    def named(self, name: str) -> PlannedRevision | None:
        return next((revision for revision in self.revisions if revision.name == name), None)


@dataclasses.dataclass(frozen=True)
class Health:
    """How endpoints are probed: a GET of `path` every `interval` seconds, which ends within
    `timeout` seconds. An endpoint is down after `failures` failed probes in a row."""

    path: str = "/"
    interval: float = 2
    timeout: float = 2
    failures: int = 2


@dataclasses.dataclass(frozen=True)
class PlannedAnalysis:
    """A command that judges a revision. `name` is empty if the command is the only one of its
    analysis, and stands in the plan without a list."""

    command: tuple[str, ...]
    name: str = ""


@dataclasses.dataclass(frozen=True)
class Analyses:
    """The commands of the analyses, by `pre` and `post`, which all run at the same time, and the
    seconds within which each has to end."""

    commands: Mapping[str, tuple[PlannedAnalysis, ...]]
    seconds: float = 600

    def by_place(self) -> dict[str, tuple[str, ...]]:
        """The commands by their places in the plan."""
        return {
            f"analyses.{key}[{number}].command" if each.name else f"analyses.{key}": each.command
            for key, several in self.commands.items()
            for number, each in enumerate(several)
        }


@dataclasses.dataclass(frozen=True)
class Progress:
    """Within how many seconds an attempt has to make progress (Argo's `progressDeadlineSeconds`),
    and whether it is aborted else (`progressDeadlineAbort`). After `outage` seconds without an
    endpoint that is up behind live traffic, an attempt that has switched goes back."""

    seconds: float = 600
    abort: bool = False
    outage: float = 5


@dataclasses.dataclass(frozen=True)
class Commands:
    """The commands that start and stop an endpoint, and the one that is told each event; each may
    take `timeout` seconds. An empty one is not run."""

    start: tuple[str, ...] = ()
    stop: tuple[str, ...] = ()
    notify: tuple[str, ...] = ()
    timeout: float = 60


@dataclasses.dataclass(frozen=True)
class Plan(Revisions):
    """A whole plan. `control` is where its switch takes lines. `revisions` go from the first one to
    the one that is to be live. `services` are the ports of the active and the preview service, if
    the plan names them. `redispatch` says whether the switch passes over endpoints that are down.
    `endpoint_address` is the address at which the ports of the revisions are.
    """

    control: Control
    health: Health
    analyses: Analyses
    progress: Progress
    revisions: tuple[PlannedRevision, ...]
    commands: Commands = Commands()
    redispatch: bool = True
    services: Mapping[str, int] = dataclasses.field(default_factory=dict)
    endpoint_address: str = HOST
