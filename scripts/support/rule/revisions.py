"""The revisions that exist: their templates and their sizes."""
from collections.abc import Iterator

from support.rule.attempts import newest, stable
from support.rule.entries import Entry, Outcome, Template
from support.rule.history import History, PlacedEntry


def revisions(history: History) -> list[int]:
    """The numbers of the revisions that exist, ascending."""
    there = {1}
    for entry in history.entries:
        if entry.word == "deploy":
            there.add(entry.revision)
        if entry.word == "removed":
            there.discard(entry.revision)
    return sorted(there)


def template(history: History, revision: int) -> Template:
    """The template of a revision that has been deployed, or of the first."""
    if revision == 1:
        return history.opening.template
    return next(
        Template(e.name, e.ports)
        for e in history.entries
        if e.word == "deploy" and e.revision == revision
    )


def namesake(history: History, name: str) -> int | None:
    """The existing revision with this name."""
    return next((r for r in revisions(history) if template(history, r).name == name), None)


def deployed_number(history: History, name: str) -> int:
    """The number that a deploy of this name has: that of its namesake, or a new one."""
    found = namesake(history, name)
    if found is not None:
        return found
    return 1 + max([1] + [e.revision for e in history.entries if e.word == "deploy"])


def begins_attempt_of(revision: int, entry: Entry, before: History) -> bool:
    if entry.word == "retry":
        return newest(before) == revision
    return entry.word == "deploy" and entry.revision == revision != stable(before)


def scale_down_of(history: History, revision: int) -> int | None:
    """The place at which the revision was last scaled down."""
    scaled_down = Outcome("scaled_down", revision)
    places = [place for place, entry in enumerate(history.entries) if entry == scaled_down]
    return places[-1] if places else None


def since_scale_down(history: History, revision: int) -> Iterator[PlacedEntry]:
    """The entries since the revision was last scaled down, or all."""
    place = scale_down_of(history, revision)
    return history.since(0 if place is None else place + 1)


def desired(history: History, revision: int) -> int:
    """The number of endpoints that the revision should have."""
    strategy = history.opening.strategy
    is_opened = revision == 1 and scale_down_of(history, revision) is None
    sizes = [strategy.replicas if is_opened else 0]
    for entry, before, _ in since_scale_down(history, revision):
        if begins_attempt_of(revision, entry, before):
            sizes.append(strategy.preview_replicas)
        if entry == Outcome("resumed", revision):
            sizes.append(strategy.replicas)
    return max(sizes)


def available(history: History, revision: int) -> int:
    """The number of its endpoints that can take requests."""
    sizes = [
        entry.size
        for entry, _, _ in since_scale_down(history, revision)
        if entry.word == "available" and entry.revision == revision
    ]
    return sizes[-1] if sizes else 0
