"""What has changed between two reports."""
import enum
from collections.abc import Iterator
from typing import NamedTuple

from bg_switch_tools.switch.phases import Phase
from bg_switch_tools.switch.reports import SERVICES, Report, Revision


def _moment_text(deadline: int | None) -> str:
    return "none" if deadline is None else str(deadline)


def _revision_changes(before: Revision, now: Revision) -> Iterator[str]:
    title = now.title()
    if before.desired != now.desired:
        yield f"{title}: desired {before.desired} -> {now.desired}" + (
            " (scaled down)" if now.desired == 0 else ""
        )
    if before.available != now.available:
        yield f"{title}: available {before.available} -> {now.available}"
    if before.deadline != now.deadline:
        yield f"{title}: scale-down at moment {_moment_text(before.deadline)} -> {_moment_text(now.deadline)}"
    if before.draining != now.draining:
        yield f"{title}: " + (
            f"draining, {now.open} open" if now.draining else "no longer draining"
        )
    if now.cut and not before.cut:
        yield f"{title}: past its drain limit, {now.open} open"


def is_another_book(before: Report, now: Report) -> bool:
    """Whether the later report is of a book that was opened after the one of the report before: its
    moment lies before, or a number has another name."""
    both = before.revisions.keys() & now.revisions.keys()
    return now.moment < before.moment or any(
        before.revisions[number].name != now.revisions[number].name for number in both
    )


class ChangeKind(enum.Enum):
    """Which changes clients notice most: an abort, and a switch of the active service."""

    ABORTED = enum.auto()
    ACTIVE_SWITCHED = enum.auto()
    OTHER = enum.auto()


class Change(NamedTuple):
    """What has moved from where to where."""

    text: str
    kind: ChangeKind = ChangeKind.OTHER


GONE = Change("the book is gone: the switch was started again")
OPENED = Change("the book was opened")


def changes_with_kinds(before: Report | None, now: Report | None) -> list[Change]:
    """The changes. The moment and numbers of open requests alone are none."""
    if now is None:
        return [] if before is None else [GONE]
    if before is None:
        return [OPENED]
    if is_another_book(before, now):
        return [GONE, OPENED]
    return list(_changes_of_book(before, now))


def _changes_of_book(before: Report, now: Report) -> Iterator[Change]:
    if before.phase is not now.phase:
        kind = ChangeKind.ABORTED if now.phase is Phase.ABORTED else ChangeKind.OTHER
        yield Change(f"phase: {before.phase} -> {now.phase}", kind)
    for service in SERVICES:
        was, is_now = before.selected[service], now.selected[service]
        if was != is_now:
            kind = ChangeKind.ACTIVE_SWITCHED if service == "active" else ChangeKind.OTHER
            yield Change(f"{service}: {before.title(was)} -> {now.title(is_now)}", kind)
    for number, revision in now.revisions.items():
        if number not in before.revisions:
            yield Change(f"{revision.title()}: deployed, desired {revision.desired}")
        else:
            yield from map(Change, _revision_changes(before.revisions[number], revision))
    for number, gone in before.revisions.items():
        if number not in now.revisions:
            yield Change(f"{gone.title()}: removed")


def changes(before: Report | None, now: Report | None) -> list[str]:
    """The texts of the changes."""
    return [change.text for change in changes_with_kinds(before, now)]
