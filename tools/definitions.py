#!/usr/bin/env python3
"""Where definitions stand, and what they mean, from the comments of crates/*/specs/*.antt.

definitions.py          writes the map of files into docs/DEFINITIONS.md, behind what is written by hand
definitions.py NAME..   prints each definition of such a name: its place, its comment, and its text
definitions.py CRATE..  prints the files of a crate, and the place and comment of all of their definitions
"""
import itertools
import pathlib
import re
import sys
from collections.abc import Iterator, Sequence
from typing import NamedTuple

TOP = pathlib.Path(__file__).resolve().parent.parent
PAGE = TOP / "docs" / "DEFINITIONS.md"
MARK = "<!-- tools/definitions.py writes what follows. -->\n"
DEFINED = re.compile(r" *(?:pub record|pub data|abbrev pub|abbrev) ([^\s(:]+)")
COMMENT = re.compile(r" *-- ?(.*)")


class Definition(NamedTuple):
    """A definition: its name, its line in the file, the comment above it, and its text."""

    name: str
    line: int
    comment: str
    text: str


def definitions_of(text: str) -> Iterator[Definition]:
    """The definitions of a file, in its order."""
    comment: list[str] = []
    lines = text.splitlines()
    for number, line in enumerate(lines, 1):
        said = COMMENT.match(line)
        if said:
            comment.append(said[1].strip())
            continue
        defined = DEFINED.match(line)
        if defined:
            body = itertools.takewhile(str.strip, lines[number - 1 :])
            yield Definition(defined[1], number, " ".join(comment), "\n".join(body))
        comment = []


def subject_of(text: str) -> str:
    """The comment with which a file begins."""
    lines: list[str] = []
    for line in text.splitlines():
        said = COMMENT.match(line)
        if not said:
            break
        lines.append(said[1].strip())
    return " ".join(lines)


def spec_files(top: pathlib.Path) -> list[pathlib.Path]:
    """The files of definitions, by crate and name; a crate's Lib.antt only lists the others."""
    return [
        path for path in sorted(top.glob("crates/*/specs/**/*.antt")) if path.name != "Lib.antt"
    ]


def map_of(top: pathlib.Path) -> str:
    """A line for each crate, with a link for each file."""
    files: dict[str, list[str]] = {}
    for path in spec_files(top):
        place = path.relative_to(top)
        files.setdefault(place.parts[1], []).append(f"[{path.stem}](../{place})")
    return "".join(f"- {crate}: {', '.join(links)}\n" for crate, links in files.items())


def page_of(page: str, top: pathlib.Path) -> str:
    """The page with its map made anew."""
    written, mark, _ = page.partition(MARK)
    return written + mark + "\n" + map_of(top)


def found_in(path: pathlib.Path, words: Sequence[str]) -> set[str]:
    """Prints what a file has of these names and crates; gives those that it has."""
    place = path.relative_to(TOP)
    text = path.read_text(encoding="utf-8")
    crate = place.parts[1]
    if crate in words:
        print(f"\n{place}: {subject_of(text)}")
    found = {crate} & {*words}
    for definition in definitions_of(text):
        if crate in words or definition.name in words:
            print(f"{place}:{definition.line}: {definition.name}: {definition.comment}".rstrip())
        if definition.name in words:
            print(definition.text)
            found.add(definition.name)
    return found


def main(words: Sequence[str]) -> int:
    if not words:
        PAGE.write_text(page_of(PAGE.read_text(encoding="utf-8"), TOP), encoding="utf-8")
        return 0
    missing = {*words}.difference(*(found_in(path, words) for path in spec_files(TOP)))
    for word in sorted(missing):
        print(f"no definition and no crate with definitions has the name {word}", file=sys.stderr)
    return 1 if missing else 0


if __name__ == "__main__":
    sys.exit(main(sys.argv[1:]))
