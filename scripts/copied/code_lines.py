"""The lines of a Rattle source that have code, without comments and imports."""
import functools
import pathlib
import re
from collections.abc import Iterator
from dataclasses import dataclass

from identifiers import COMMENTS, IDENTIFIER, TEXTS, blanked

IMPORTS = {
    ".rt": re.compile(r"^[ \t]*(?:pub(?:\([a-z]+\))? )?(?:ghost )?use [^;]*;", re.M),
    ".antt": re.compile(r"^(?:pub )?use .*", re.M),
}
NUMBER = r"\d\w*"
# The words of the two languages. A copy has the same ones; every other word is a name.
KEYWORDS = frozenset(
    "abbrev as break const continue crate data do else ensures enum extern fn for ghost if impl in"
    " invariant law let loop match mod move mut pub record ref requires return self Self static"
    " struct super then trait type unfoldable unfolding unsafe use where while with".split()
)


@dataclass(frozen=True)
class CodeLine:
    """A line with code: its number from 1, and its tokens."""

    number: int
    tokens: tuple[str, ...]


@functools.cache
def is_name(token: str) -> bool:
    """Whether a copy may have another token in place of this one: a name, a number or a text."""
    return token not in KEYWORDS and (
        token[0].isascii() and (token[0].isalnum() or token[0] in "_\"'")
    )


def code_lines(path: str, text: str) -> Iterator[CodeLine]:
    """The lines of a source that have a word, in their order."""
    suffix = pathlib.Path(path).suffix
    token = re.compile(f"{TEXTS[suffix]}|{IDENTIFIER.pattern}|{NUMBER}|\\S")
    for number, line in enumerate(_code(text, suffix).split("\n"), 1):
        tokens = tuple(token.findall(line))
        if any(is_name(it) or it in KEYWORDS for it in tokens):
            yield CodeLine(number, tokens)


def _code(text: str, suffix: str) -> str:
    """A source without comments and imports, with the same lines."""
    either = re.compile(f"(?P<text>{TEXTS[suffix]})|{COMMENTS[suffix]}")
    code = either.sub(lambda found: found["text"] or "", text)
    return IMPORTS[suffix].sub(lambda found: blanked(found[0]), code)
