"""When a revision is scaled down, and when it is removed."""
from typing import Literal, NamedTuple

from support.rule.attempts import is_halt, moment, newest, stable
from support.rule.entries import Outcome
from support.rule.history import History, PlacedEntry
from support.rule.requests import open_at
from support.rule.revisions import begins_attempt_of, desired, revisions
from support.rule.selections import active, selected


class Mark(NamedTuple):
    """What an entry made of a revision."""

    kind: Literal["left", "superseded", "aborted", "cleared"]
    place: int
    moment: int


def mark_by(revision: int, placed: PlacedEntry) -> Mark | None:
    """The mark that an entry makes."""
    entry, before, place = placed
    strategy, after = before.opening.strategy, placed.after()
    was_active, is_active = active(before) == revision, active(after) == revision
    was_newest = newest(before) == revision
    halts = is_halt(entry) and was_newest
    if was_active and not is_active and not halts:
        return Mark("left", place, moment(after))
    is_apart = was_newest and not was_active and stable(before) != revision
    if entry.word == "deploy" and is_apart and desired(before, revision) >= 1:
        return Mark("superseded", place, moment(after))
    if halts and strategy.abort_delay > 0:
        return Mark("aborted", place, moment(after))
    becomes_active = is_active and not was_active
    is_scaled_down = entry == Outcome("scaled_down", revision)
    if halts or becomes_active or is_scaled_down or begins_attempt_of(revision, entry, before):
        return Mark("cleared", place, moment(after))
    return None


def mark(history: History, revision: int) -> Mark | None:
    """What last became of the revision."""
    marks = (mark_by(revision, placed) for placed in history.backwards())
    return next((found for found in marks if found is not None), None)


def deadline(history: History, revision: int) -> int | None:
    """The moment from which the revision may be scaled down."""
    strategy, found = history.opening.strategy, mark(history, revision)
    if found is None or found.kind == "cleared":
        return None
    delays = {"left": strategy.delay, "superseded": 0, "aborted": strategy.abort_delay}
    return found.moment + delays[found.kind]


def is_spare(history: History, revision: int) -> bool:
    """Whether it is scaled, and neither active nor preview nor stable."""
    return desired(history, revision) >= 1 and revision not in selected(history)


def left_later(history: History, place: int) -> int:
    """How many spare revisions left the active service after this place."""
    marks = [mark(history, other) for other in revisions(history) if is_spare(history, other)]
    return sum(
        found is not None and found.kind == "left" and found.place > place for found in marks
    )


def is_crowded_out(history: History, found: Mark) -> bool:
    """Whether the revision with this mark left, and too many have left since."""
    limit = history.opening.strategy.revision_limit
    if limit is None or found.kind != "left":
        return False
    return left_later(history, found.place) >= limit


def is_due(history: History, revision: int) -> bool:
    if revision not in revisions(history) or not is_spare(history, revision):
        return False
    found, at = mark(history, revision), deadline(history, revision)
    if found is None or at is None:
        return False
    return at <= moment(history) or is_crowded_out(history, found)


def is_draining(history: History, revision: int) -> bool:
    """Whether only its open requests prevent the scale-down."""
    return is_due(history, revision) and bool(open_at(history, revision))


def is_past_limit(history: History, revision: int) -> bool:
    """Whether it drains, and the drain limit is over."""
    limit, at = history.opening.strategy.drain_limit, deadline(history, revision)
    if limit is None or at is None or not is_draining(history, revision):
        return False
    return at + limit <= moment(history)


def old_revisions(history: History) -> list[int]:
    """The revisions that are not scaled, not selected and not the newest."""
    kept = {*selected(history), newest(history)}
    return [r for r in revisions(history) if desired(history, r) == 0 and r not in kept]
