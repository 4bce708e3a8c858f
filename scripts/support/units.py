"""The files of an example: units of systemd, scripts and configurations."""
import pathlib
from collections.abc import Mapping

from support.checks import check


def placed(file: pathlib.Path, places: Mapping[str, str]) -> str:
    """A file with other words in the place of some, which it has."""
    text = file.read_text(encoding="ascii")
    for word, place in places.items():
        check(f"{file.name} has {word}", word in text, True)
        text = text.replace(word, place)
    return text


def values(unit: str, key: str) -> list[str]:
    """The values that a key of a unit has, one for each line."""
    return [line.partition("=")[2] for line in unit.splitlines() if line.startswith(f"{key}=")]
