"""The known word that an unknown one was probably meant to be."""
import difflib
from collections.abc import Iterable

LIKE = 0.6  # how alike two words are that may have been meant for one another, from 0 to 1 (difflib's own default)


def did_you_mean(word: str, known: Iterable[str]) -> str:
    """`; did you mean WORD?` for the nearest known word; an empty text if none is near."""
    found = difflib.get_close_matches(word, list(known), 1, LIKE)
    return f"; did you mean {found[0]}?" if found else ""
