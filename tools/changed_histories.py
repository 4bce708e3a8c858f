#!/usr/bin/env python3
"""Writes crates/bg_tests/src/history/changed_histories.rt: the histories of worked rows, single
changes of their entries, and for each change whether the history is still legal and settled.

The verdicts are those of support.rule, which shares nothing with `audit`. What is written is the
same at each run.
"""
import json
import pathlib
import random
import re
import sys
from collections.abc import Mapping, Sequence
from typing import NamedTuple, TypeAlias

ROOT = pathlib.Path(__file__).resolve().parent.parent
sys.path.insert(0, str(ROOT / "scripts"))

from support.rule.book import RuleBook  # noqa: E402  (the path stands above)
from support.rule.entries import (  # noqa: E402
    ANALYSES,
    CLEANUPS,
    COMMANDS,
    RESULTS,
    SERVICES,
    STEPS,
    Available,
    Command,
    Deploy,
    Enter,
    Entry,
    Leave,
    Outcome,
    Tick,
    Verdict,
)
from support.rule.history import SEATS, History  # noqa: E402
from support.rule.steps import fault  # noqa: E402
from support.rule.strategy import strategy_of  # noqa: E402

ROWS = ROOT / "rows"
TABLE = ROOT / "crates/bg_tests/src/history/changed_histories.rt"
CHANGES = 200
SEED = 2026
FIRST_LINE = "open v1 9001 9002"

Entries: TypeAlias = tuple[Entry, ...]


# ---- changes


def parts_of(entry: Entry) -> list[str]:
    """What follows the word of an entry on its line."""
    if entry.word == "deploy":
        return [str(entry.revision), entry.name, *entry.ports]
    return [str(part) for part in entry[1:]]


def text_of(entry: Entry) -> str:
    return " ".join([entry.word, *parts_of(entry)])


def near(number: int, chance: random.Random) -> int:
    return max(0, number + chance.choice((-1, 1)))


def one_near(given: Sequence[int], place: int, chance: random.Random) -> list[int]:
    """The given numbers, with the one at this place changed by little."""
    return [near(number, chance) if at == place else number for at, number in enumerate(given)]


def changed_deploy(entry: Deploy, place: int, chance: random.Random) -> Deploy:
    if place == 0:
        return entry._replace(revision=near(entry.revision, chance))
    if place == 1:
        return entry._replace(name=chance.choice(("v1", "v2", "v3", "v4", "V4")))
    ports = list(entry.ports)
    ports[place - 2] = chance.choice(("9001", "9101", "9102", "9103", "0"))
    return entry._replace(ports=tuple(ports))


def changed_verdict(entry: Verdict, place: int, chance: random.Random) -> Verdict:
    if place == 0:
        return entry._replace(analysis=chance.choice(ANALYSES))
    return entry._replace(result=chance.choice(RESULTS))


def changed_enter(entry: Enter, place: int, chance: random.Random) -> Enter:
    match place:
        case 0:
            return entry._replace(seat=near(entry.seat, chance))
        case 1:
            return entry._replace(service=chance.choice(SERVICES))
        case 2:
            return entry._replace(number=near(entry.number, chance))
        case 3:
            return entry._replace(revision=near(entry.revision, chance))
    return entry._replace(port=chance.choice(("9001", "9002", "9101", "9102")))


def changed_entry(entry: Entry, chance: random.Random) -> Entry:
    """The entry with one part changed, mostly by little."""
    if isinstance(entry, Outcome) and chance.random() < 0.5:
        return entry._replace(word=chance.choice(STEPS + CLEANUPS))
    if isinstance(entry, Command):
        return Command(chance.choice(COMMANDS))
    place = chance.randrange(len(parts_of(entry)))
    match entry:
        case Tick():
            return entry._replace(moment=near(entry.moment, chance))
        case Deploy():
            return changed_deploy(entry, place, chance)
        case Available():
            return Available(entry.word, *one_near([entry.revision, entry.size], place, chance))
        case Verdict():
            return changed_verdict(entry, place, chance)
        case Enter():
            return changed_enter(entry, place, chance)
        case Leave():
            return Leave(
                entry.word, *one_near([entry.seat, entry.number, entry.revision], place, chance)
            )
        case Outcome():
            return entry._replace(revision=near(entry.revision, chance))


def a_change(entries: Entries, chance: random.Random) -> tuple[str, Entries]:
    """A change as a line of the table, and the entries that it makes."""
    place = chance.randrange(len(entries))
    kind = chance.choice(("drop", "double", "move", "change", "change"))
    before, entry, after = entries[:place], entries[place], entries[place + 1 :]
    if kind == "drop":
        return f"drop {place}", before + after
    if kind == "double":
        return f"double {place}", (*before, entry, entry, *after)
    if kind == "move":
        to = moved_place(place, len(entries), chance)
        without = before + after
        return f"move {place} {to}", (*without[:to], entry, *without[to:])
    new = changed_entry(entry, chance)
    return f"change {place} {text_of(new)}", (*before, new, *after)


def moved_place(place: int, count: int, chance: random.Random) -> int:
    """A place beside, or any."""
    places = (place - 1, place + 1, chance.randrange(count))
    return chance.choice([other for other in places if 0 <= other < count])


# ---- the table


class Row(NamedTuple):
    """A worked row: its name, the document of its strategy, and its lines after the opening."""

    name: str
    document: str
    script: str


class Change(NamedTuple):
    """A change of the history of the row with this name."""

    row: str
    line: str


class Judged(NamedTuple):
    """A change, and whether it leaves the history legal and settled."""

    change: Change
    is_good: bool


WORDS = {
    "report",
    "tick",
    "deploy",
    "available",
    "verdict",
    "promote",
    "abort",
    "retry",
    "enter",
    "leave",
}


def is_plain(line: str) -> bool:
    """Whether a line is an event or a report, with single spaces and no number that begins with
    0."""
    return (
        line.split(" ")[0] in WORDS
        and re.fullmatch(r"[a-z]+( [A-Za-z][A-Za-z0-9]*| 0| [1-9][0-9]*)*", line) is not None
    )


def rows() -> list[Row]:
    """The rows of `replay` for the usual number of seats whose lines are plain and have no fault,
    after this first line."""
    found = []
    for folder in sorted(ROWS.iterdir()):
        document, _, lines = (folder / "input").read_text(errors="replace").partition("---\n")
        first, *script = lines.splitlines() or [""]
        if (
            (folder / "command").read_text().split() != ["replay"]
            or first != FIRST_LINE
            or not script
        ):
            continue
        if (
            all(is_plain(line) for line in script)
            and "fault" not in (folder / "replies").read_text()
        ):
            found.append(Row(folder.name, document.strip(), "\n".join(script)))
    return found


def gathered(row: Row) -> History:
    """The history of a row, at whose end each seat leaves."""
    book = RuleBook(strategy_of(row.document))
    seats = [f"leave {seat}" for seat in range(SEATS)]
    for line in [FIRST_LINE, *row.script.splitlines(), *seats]:
        book.reply(line)
    assert book.history is not None
    return book.history


def sort_key(judged: Judged) -> tuple[str, str, list[int], str]:
    """What the changes are sorted by: their row, their kind and the numbers of their line."""
    row, line = judged.change
    words = line.split()
    return row, words[0], [int(word) if word.isdigit() else -1 for word in words], line


def begins_with(entries: Entries, first: Entries) -> bool:
    return entries[: len(first)] == first


def distinct() -> dict[Row, History]:
    """The rows with their histories, without each whose history another one begins with."""
    found: dict[Row, History] = {}
    for row in rows():
        history = gathered(row)
        assert fault(history) is None, row.name
        entries = history.entries
        if not any(begins_with(other.entries, entries) for other in found.values()):
            found = {
                name: other
                for name, other in found.items()
                if not begins_with(entries, other.entries)
            }
            found[row] = history
    return found


def choose(histories: Mapping[Row, History]) -> list[Judged]:
    """Changes of these histories. At least a third of them, if enough are found, leave the history
    legal and settled; the others are spread over what they break."""
    chance = random.Random(SEED)
    good: list[Change] = []
    by_fault: dict[str, list[Change]] = {}
    for row, history in histories.items():
        seen = {history.entries}
        for _ in range(60 * len(history.entries)):
            line, entries = a_change(history.entries, chance)
            if entries in seen:
                continue
            seen.add(entries)
            why = fault(history._replace(entries=entries))
            found = good if why is None else by_fault.setdefault(why, [])
            found.append(Change(row.name, line))
    chance.shuffle(good)
    chosen = [Judged(change, True) for change in good[: CHANGES * 2 // 5]]
    groups = [by_fault[name] for name in sorted(by_fault)]
    for group in groups:
        chance.shuffle(group)
    while len(chosen) < CHANGES:
        for group in [group for group in groups if group][: CHANGES - len(chosen)]:
            chosen.append(Judged(group.pop(), False))
    return sorted(chosen, key=sort_key)


def block(row: Row, entries: Entries, changes: list[Judged]) -> str:
    """A history and its changes, as the test reads them: each line begins with the word that says
    what it is."""
    lines = [f"row {row.name}", f"strategy {json.dumps(json.loads(row.document))}"]
    lines += [f"play {line}" for line in row.script.splitlines()]
    lines += [f"entry {text_of(entry)}" for entry in entries]
    lines += [
        f"{'good' if is_good else 'bad'} {line}"
        for (name, line), is_good in changes
        if name == row.name
    ]
    return "\n".join(lines)


def main() -> None:
    histories = distinct()
    changes = choose(histories)
    blocks = [block(row, history.entries, changes) for row, history in histories.items()]
    TABLE.write_text(
        f"""//! Changed histories of worked rows, and whether each is legal and settled. Written by tools/changed_histories.py.

/// The histories, with an empty line between two. The first word of a line says what it is: `row`, the name of its row;
/// `strategy`, the document of its strategy; `play`, a line after `open v1 9001 9002`; `entry`, an entry of its history;
/// `good` or `bad`, a change of its entries, and whether the changed history is legal and settled. (One text costs less to
/// prove than a table of texts.)
pub(super) const CHANGED: &str = r#"{(chr(10) * 2).join(blocks)}"#;
"""
    )


if __name__ == "__main__":
    main()
