#!/usr/bin/env python3
"""Looks for the glossary's words to avoid among the identifiers of the code.

usage: scripts/identifiers.py     prints each place, one a line; the exit status is 1 if there is one

The column "Not" of docs/GLOSSARY.md has the words that a term replaces. A word in code font there
is one that no identifier of the code has: in lower case, it is no part of an identifier (`owner`
forbids `owner_of`, `has-owner` and `TheOwner`); with a capital, no type has this name (`Order`). A
word without code font has other meanings too, and is for reviews. Text in comments and in strings
is not looked at, since it says what a reader sees. A template of JavaScript counts as text with the
code in it, which only uses names that stand elsewhere too. A path to a name of the kit's libraries
(`Rattle.sqlite.specs.Order`) is not looked at, nor are the names that it brings.
"""
import functools
import pathlib
import re
import subprocess
import sys
from collections.abc import Iterator
from typing import NamedTuple

TOP = pathlib.Path(__file__).resolve().parents[1]
GLOSSARY = "docs/GLOSSARY.md"
FOLDERS = ("crates", "lib", "scripts", "tools", "tests", "bench", "examples", "packaging")
# Names that libraries give.
OF_LIBRARIES = {"compare_exchange", "compare_exchange_weak", "SO_LINGER"}


def template(inner: str) -> str:
    """The pattern of a template of JavaScript, whose code has templates of the pattern `inner`."""
    return rf"`(?:\\.|\$(?!\{{)|[^\\`$]|\$\{{(?:[^`{{}}]|{inner})*\}})*`"


COMMENTS = {".rt": r"//.*", ".antt": r"--.*", ".py": r"#.*", ".js": r"//.*|/\*[\s\S]*?\*/"}
TEXTS = {
    ".rt": r'"(?:\\.|[^"\\])*"|\'(?:\\.|[^\'\\])\'',
    ".antt": r'"(?:\\.|[^"\\])*"',
    ".py": r'"""[\s\S]*?"""|"(?:\\.|[^"\\\n])*"|\'(?:\\.|[^\'\\\n])*\'',
    ".js": r'"(?:\\.|[^"\\\n])*"|\'(?:\\.|[^\'\\\n])*\'|' + template(template("`[^`]*`")),
}
# A path to names of the kit's libraries, and those that it brings: those behind `as` are our own.
OF_KIT = re.compile(r"\bRattle\.(?!bg_)[\w.-]+(?:\{[^}]*\})?")
OWN_NAME = re.compile(r"\bas ([\w-]+)|\n")
IDENTIFIER = re.compile(r"[A-Za-z_][A-Za-z0-9_]*(?:-[A-Za-z0-9_]+)*")


class Place(NamedTuple):
    """An identifier that has a word to avoid."""

    file: str
    line: int
    identifier: str
    word: str

    def __str__(self) -> str:
        return (
            f"{self.file}:{self.line}: {self.identifier}: the glossary has a term for `{self.word}`"
        )


def words_to_avoid(glossary: str) -> tuple[str, ...]:
    """The words in code font of the column "Not"."""
    rows = [line.split(" | ") for line in glossary.splitlines() if line.startswith("| ")]
    return tuple(
        word for cells in rows if len(cells) == 4 for word in re.findall(r"`([^`]+)`", cells[2])
    )


def blanked(text: str) -> str:
    """As many lines, without text."""
    return "\n" * text.count("\n")


def code_of(text: str, suffix: str) -> str:
    """A source without its strings and comments, with the same lines."""
    either = re.compile(f"(?P<text>{TEXTS[suffix]})|(?P<comment>{COMMENTS[suffix]})")
    return OF_KIT.sub(own_names, either.sub(lambda found: blanked(found[0]), text))


def own_names(found: re.Match[str]) -> str:
    """The names that an import from the kit gives in place of the kit's own, on their lines."""
    return "".join(f" {own[1]} " if own[1] else "\n" for own in OWN_NAME.finditer(found[0]))


def parts_of(identifier: str) -> list[str]:
    """The words of an identifier: `has_owner`, `HasOwner` and `has-owner` have two."""
    spaced = re.sub(r"([a-z0-9])([A-Z])", r"\1_\2", identifier)
    return [part for part in re.split(r"[_-]", spaced.lower()) if part]


def has_word(identifier: str, word: str) -> bool:
    """Whether an identifier has a word, which may be several words with blanks."""
    if word[0].isupper():
        return identifier == word
    parts, sought = parts_of(identifier), word.split()
    return any(parts[start : start + len(sought)] == sought for start in range(len(parts)))


@functools.cache
def words_of(identifier: str, words: tuple[str, ...]) -> list[str]:
    """The words to avoid that an identifier has."""
    return (
        [] if identifier in OF_LIBRARIES else [word for word in words if has_word(identifier, word)]
    )


def places_in(file: str, text: str, words: tuple[str, ...]) -> Iterator[Place]:
    """The places of one source."""
    for number, line in enumerate(code_of(text, pathlib.Path(file).suffix).split("\n"), 1):
        for identifier in IDENTIFIER.findall(line):
            for word in words_of(identifier, words):
                yield Place(file, number, identifier, word)


def sources(top: pathlib.Path) -> list[str]:
    """The sources of the repository, as paths from its top."""
    listed = subprocess.run(
        ["git", "ls-files", *FOLDERS], cwd=top, capture_output=True, text=True, check=True
    ).stdout
    return [
        file
        for file in listed.splitlines()
        if pathlib.Path(file).suffix in COMMENTS and (top / file).exists()
    ]


def places(top: pathlib.Path) -> list[Place]:
    """All places of the repository."""
    words = words_to_avoid((top / GLOSSARY).read_text(encoding="utf-8"))
    return [
        place
        for file in sources(top)
        for place in places_in(file, (top / file).read_text(encoding="utf-8"), words)
    ]


def main() -> int:
    found = places(TOP)
    for place in found:
        print(place)
    return 1 if found else 0


if __name__ == "__main__":
    sys.exit(main())
