"""The switch's report: its lines, read into values. docs/LINES.md has the form of each line."""
import dataclasses
from collections.abc import Mapping, Sequence

from bg_switch_tools.switch.phases import PHASES, RUNNING, Phase
from bg_switch_tools.switch.replies import reply_in

SERVICES = ("active", "preview", "stable", "newest")
END = "end"  # the last line


class ReportError(ValueError):
    """These lines have not the form of a report."""


@dataclasses.dataclass(frozen=True)
class Revision:
    """A line `revision`. `open` is the number of its open requests, `deadline` the moment from
    which it may be scaled down."""

    number: int
    name: str
    desired: int
    available: int
    open: int
    deadline: int | None
    draining: bool
    cut: bool

    def title(self) -> str:
        return f"revision {self.number} {self.name}"


@dataclasses.dataclass(frozen=True)
class Report:
    """A whole report. `selected` has the number of the revision of each of `SERVICES`, `revisions`
    each one by its number."""

    moment: int
    phase: Phase
    selected: Mapping[str, int]
    revisions: Mapping[int, Revision]

    def service(self, service: str) -> Revision:
        """The revision that one of `SERVICES` selects."""
        return self.revisions[self.selected[service]]

    @property
    def stable(self) -> Revision:
        return self.service("stable")

    @property
    def newest(self) -> Revision:
        return self.service("newest")

    @property
    def is_running(self) -> bool:
        """Whether an attempt runs."""
        return self.phase in RUNNING

    def named(self, name: str) -> Revision | None:
        """The revision that has this name, if one exists. No two that exist have one name."""
        return next(
            (revision for revision in self.revisions.values() if revision.name == name), None
        )

    def title(self, number: int) -> str:
        return self.revisions[number].title() if number in self.revisions else f"revision {number}"


def _number(word: str) -> int:
    """A number as a line has it: 1 to 20 digits."""
    if not (word.isascii() and word.isdigit() and len(word) <= 20):
        raise ReportError(f"{word[:20]} is not a number")
    return int(word)


def _read_revision(words: Sequence[str]) -> Revision:
    """A line `revision R NAME desired D available A open O deadline T [draining [cut]]`."""
    if [words[place] for place in (3, 5, 7, 9)] != ["desired", "available", "open", "deadline"]:
        raise ReportError(" ".join(words))
    number, desired, available, opened = (_number(words[place]) for place in (1, 4, 6, 8))
    deadline = None if words[10] == "none" else _number(words[10])
    return Revision(
        number,
        words[2],
        desired,
        available,
        opened,
        deadline,
        "draining" in words[11:],
        "cut" in words[11:],
    )


def _read_values(lines: Sequence[str]) -> Report:
    values: dict[str, str] = {}
    revisions: dict[int, Revision] = {}
    for line in lines[:-1]:
        words = line.split()
        if words[0] == "revision":
            revision = _read_revision(words)
            revisions[revision.number] = revision
        else:
            values[words[0]] = words[1]
    selected = {service: _number(values[service]) for service in SERVICES}
    if (
        not all(number in revisions for number in selected.values())
        or values["phase"] not in PHASES
    ):
        raise ReportError("a service or the phase is not one that a report can have")
    return Report(_number(values["moment"]), Phase(values["phase"]), selected, revisions)


def read_report(lines: Sequence[str]) -> Report | None:
    """The report of these lines, or None if they say that no book is open. `ReportError` if they
    are neither."""
    reply = reply_in(lines[0]) if lines else None
    if reply and not reply.was_carried_out:
        return None
    try:
        return _read_values(lines)
    except (IndexError, KeyError, ValueError) as error:
        raise ReportError(f"this is not a report: {error}") from None


def as_json(report: Report) -> dict[str, object]:
    """A report as an object of JSON: `moment`, `phase`, each service with its revision's number and
    name, `revisions`."""
    services = {
        service: {"number": number, "name": report.revisions[number].name}
        for service, number in report.selected.items()
    }
    revisions = [dataclasses.asdict(revision) for revision in report.revisions.values()]
    return {"moment": report.moment, "phase": report.phase, **services, "revisions": revisions}
