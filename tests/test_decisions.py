"""docs/decisions has a page for each decision, and its index lists each page once."""
import datetime
import pathlib
import re
import tempfile
import unittest
from collections.abc import Iterator, Mapping
from typing import NamedTuple

from tests.tool_runs import TOP

DECISIONS = TOP / "docs" / "decisions"
INDEX = "README.md"
LEAST_PAGES = 200
NAME = re.compile(r"[a-z0-9]+(?:-[a-z0-9]+)*\.md")
PAGE = re.compile(r"# (\S.*)\n\nDate: (.*)\n\nStatus: (.*)\n\n(\S[\s\S]*)")
SUPERSEDED = re.compile(r"superseded by \[(.*)\]\((\S*)\)")
ADDED = re.compile(r"^Added on (\S*):", re.M)


class Decision(NamedTuple):
    """What a page says of its decision."""

    title: str
    date: str
    status: str
    text: str


def names(folder: pathlib.Path) -> list[str]:
    """The names of the pages, without the index."""
    return sorted(path.name for path in folder.iterdir() if path.name != INDEX)


def read(folder: pathlib.Path) -> dict[str, Decision]:
    """The decisions of the pages that have all parts, by the names of the pages."""
    found = {
        name: PAGE.fullmatch((folder / name).read_text(encoding="utf-8")) for name in names(folder)
    }
    return {name: Decision(*parts.groups()) for name, parts in found.items() if parts}


def is_date(text: str) -> bool:
    try:
        return datetime.date.fromisoformat(text).isoformat() == text
    except ValueError:
        return False


def faults_of_pages(folder: pathlib.Path) -> Iterator[str]:
    """Pages whose name, parts or dates are wrong."""
    decisions = read(folder)
    for name in names(folder):
        if not NAME.fullmatch(name):
            yield f"{name}: a name has words in lower case, with hyphens between them"
        if name not in decisions:
            yield f"{name}: a page has a title, a date, a status and a text"
            continue
        decision = decisions[name]
        added = ADDED.findall(decision.text)
        for date in (decision.date, *added):
            if not is_date(date):
                yield f"{name}: {date} is no date"
        if min((decision.date, *added)) < decision.date:
            yield f"{name}: {min(added)} was added before {decision.date}"


def faults_of_statuses(decisions: Mapping[str, Decision]) -> Iterator[str]:
    """Statuses that are none, or that name no later page as the one that holds."""
    for name, decision in decisions.items():
        link = SUPERSEDED.fullmatch(decision.status)
        if link is None:
            if decision.status != "accepted":
                yield f"{name}: {decision.status} is no status"
        elif link[2] not in decisions:
            yield f"{name}: it is superseded by {link[2]}, which is no page"
        elif link[1] != decisions[link[2]].title:
            yield f"{name}: {link[2]} has another title than {link[1]}"
        elif decisions[link[2]].date < decision.date:
            yield f"{name}: it is superseded by {link[2]}, which is older"
        elif is_in_a_circle(name, decisions):
            yield f"{name}: no page that supersedes it is accepted"


def is_in_a_circle(name: str, decisions: Mapping[str, Decision]) -> bool:
    """Whether the pages that supersede a page, one after the other, come back to one of them."""
    met: list[str] = []
    while name not in met:
        met.append(name)
        link = SUPERSEDED.fullmatch(decisions[name].status)
        if link is None or link[2] not in decisions:
            return False
        name = link[2]
    return True


def line_of(name: str, decision: Decision) -> str:
    """The line of a page in the index."""
    mark = " (superseded)" if decision.status.startswith("superseded") else ""
    return f"- {decision.date}: [{decision.title}]({name}){mark}"


def faults_of_index(index: str, decisions: Mapping[str, Decision]) -> Iterator[str]:
    """Pages that do not stand once in the index, lines of no page, and sections that are not by
    date."""
    lines = [line for line in index.splitlines() if line.startswith("- ")]
    expected = [line_of(name, decision) for name, decision in decisions.items()]
    for line in expected:
        if lines.count(line) != 1:
            yield f"{INDEX}: it has {lines.count(line)} times the line {line}"
    for line in lines:
        if line not in expected:
            yield f"{INDEX}: no page has the line {line}"
    for section in re.split(r"^## ", index, flags=re.M)[1:]:
        dates = re.findall(r"^- (\S*):", section, re.M)
        if dates != sorted(dates):
            yield f"{INDEX}: the section {section.splitlines()[0]} is not by date"


def faults(folder: pathlib.Path) -> list[str]:
    decisions = read(folder)
    index = (folder / INDEX).read_text(encoding="utf-8")
    return [
        *faults_of_pages(folder),
        *faults_of_statuses(decisions),
        *faults_of_index(index, decisions),
    ]


class Decisions(unittest.TestCase):
    def test_the_pages_and_their_index(self) -> None:
        self.assertEqual(faults(DECISIONS), [])
        self.assertGreaterEqual(len(read(DECISIONS)), LEAST_PAGES)


OLD = "# Old\n\nDate: 2026-11-22\n\nStatus: superseded by [New](new.md)\n\nIt was so.\n"
NEW = "# New\n\nDate: 2026-11-23\n\nStatus: accepted\n\nIt is so.\n\nAdded on 2026-11-24: And so.\n"
LIST = """\
# Decisions

## The rule

- 2026-11-22: [Old](old.md) (superseded)
- 2026-11-23: [New](new.md)
"""
LINE_OF_OLD, LINE_OF_NEW = LIST.splitlines()[-2:]


class Faults(unittest.TestCase):
    def found(self, **pages: str) -> list[str]:
        """The faults of two decisions and their index, with these pages in their place."""
        texts = {"old": OLD, "new": NEW, "README": LIST} | pages
        with tempfile.TemporaryDirectory() as folder:
            for name, text in texts.items():
                pathlib.Path(folder, f"{name}.md").write_text(text, encoding="ascii")
            return faults(pathlib.Path(folder))

    def test_without_a_fault(self) -> None:
        self.assertEqual(self.found(), [])

    def test_a_wrong_name(self) -> None:
        line = "- 2026-11-23: [New](Not_So.md)\n"
        self.assertEqual(
            self.found(Not_So=NEW, README=LIST + line),
            ["Not_So.md: a name has words in lower case, with hyphens between them"],
        )

    def test_a_part_that_is_missing(self) -> None:
        for part in ("# New\n\n", "Date: 2026-11-23\n\n", "Status: accepted\n\n"):
            with self.subTest(part):
                self.assertIn(
                    "new.md: a page has a title, a date, a status and a text",
                    self.found(new=NEW.replace(part, "")),
                )
        self.assertIn(
            "new.md: a page has a title, a date, a status and a text",
            self.found(new=NEW.split("It is so.")[0]),
        )

    def test_a_wrong_date(self) -> None:
        for date in ("2026-11-31", "20261123", "today"):
            with self.subTest(date):
                self.assertIn(
                    f"new.md: {date} is no date", self.found(new=NEW.replace("2026-11-23", date))
                )
        self.assertEqual(
            self.found(new=NEW.replace("2026-11-24", "2026-11-41")),
            ["new.md: 2026-11-41 is no date"],
        )
        self.assertEqual(
            self.found(new=NEW.replace("2026-11-24", "2026-11-22")),
            ["new.md: 2026-11-22 was added before 2026-11-23"],
        )

    def test_a_wrong_status(self) -> None:
        self.assertEqual(
            self.found(new=NEW.replace("accepted", "open")), ["new.md: open is no status"]
        )
        for status, fault in (
            ("[New](none.md)", "it is superseded by none.md, which is no page"),
            ("[Newer](new.md)", "new.md has another title than Newer"),
        ):
            with self.subTest(status):
                self.assertEqual(
                    self.found(old=OLD.replace("[New](new.md)", status)), [f"old.md: {fault}"]
                )

    def test_a_page_that_is_superseded_by_an_older_one(self) -> None:
        self.assertEqual(
            self.found(
                old=OLD.replace("2026-11-22", "2026-11-25"),
                README=f"{LINE_OF_NEW}\n- 2026-11-25: [Old](old.md) (superseded)\n",
            ),
            ["old.md: it is superseded by new.md, which is older"],
        )

    def test_pages_that_supersede_one_another(self) -> None:
        new = NEW.replace("accepted", "superseded by [Old](old.md)").replace("11-23", "11-22")
        self.assertEqual(
            self.found(
                new=new,
                README=f"{LINE_OF_OLD}\n- 2026-11-22: [New](new.md) (superseded)\n",
            ),
            [
                "new.md: no page that supersedes it is accepted",
                "old.md: no page that supersedes it is accepted",
            ],
        )

    def test_a_wrong_index(self) -> None:
        for index, expected in (
            (LIST.replace(LINE_OF_NEW, ""), [f"it has 0 times the line {LINE_OF_NEW}"]),
            (LIST + LINE_OF_NEW, [f"it has 2 times the line {LINE_OF_NEW}"]),
            (
                LIST + "- 2026-11-24: [None](none.md)\n",
                ["no page has the line - 2026-11-24: [None](none.md)"],
            ),
            (
                LIST.replace(" (superseded)", ""),
                [
                    f"it has 0 times the line {LINE_OF_OLD}",
                    "no page has the line - 2026-11-22: [Old](old.md)",
                ],
            ),
            (
                LIST.replace("[New]", "[Newer]"),
                [
                    f"it has 0 times the line {LINE_OF_NEW}",
                    "no page has the line - 2026-11-23: [Newer](new.md)",
                ],
            ),
            (
                LIST.replace("- 2026-11-23", "- 2026-11-24"),
                [
                    f"it has 0 times the line {LINE_OF_NEW}",
                    "no page has the line - 2026-11-24: [New](new.md)",
                ],
            ),
            (
                f"# Decisions\n\n## The rule\n\n{LINE_OF_NEW}\n{LINE_OF_OLD}\n",
                ["the section The rule is not by date"],
            ),
        ):
            with self.subTest(expected):
                self.assertEqual(
                    self.found(README=index), [f"README.md: {fault}" for fault in expected]
                )


if __name__ == "__main__":
    unittest.main()
