#!/usr/bin/env python3
"""Draws the crates by layer, from crates.txt and the first sentence of each crate's own
documentation.

usage: tools/crate_map.py             prints the drawing
       tools/crate_map.py --write     writes it into docs/ARCHITECTURE.md, into the block under `## Crates`

A crate's layer is 0 where it stands on no crate of the repository, else one above the highest crate
that it stands on. crates.txt has the crates in the order of their layers, lowest first. The drawing
has the highest layer first.
"""
import pathlib
import re
import sys
import textwrap
from collections.abc import Iterator, Mapping

TOP = pathlib.Path(__file__).resolve().parents[1]
sys.path.insert(0, str(TOP / "scripts"))

from crate_list import Crate, crates_in  # noqa: E402  (the path stands above)

PAGE = TOP / "docs" / "ARCHITECTURE.md"
DRAWING = re.compile(r"(\n## Crates\n.*?\n```text\n)(.*?)(?=```\n)", re.S)
WIDTH = 120


def layers_of(crates: Mapping[str, Crate]) -> dict[str, int]:
    """The layer of each crate."""
    layers: dict[str, int] = {}

    def layer_of(name: str) -> int:
        if name not in layers:
            layers[name] = 1 + max((layer_of(it) for it in crates[name].below), default=-1)
        return layers[name]

    return {name: layer_of(name) for name in crates}


def nearest(name: str, crates: Mapping[str, Crate]) -> list[str]:
    """What a crate stands on, without what one of those stands on itself."""
    below = crates[name].below
    return [it for it in below if not any(it in crates[other].below for other in below)]


def gives(name: str) -> str:
    """What a crate gives: the first sentence of its root file."""
    files = [TOP / "crates" / name / "src" / file for file in ("lib.rt", "main.rt")]
    text = next(file for file in files if file.exists()).read_text(encoding="utf-8")
    told = re.match(r"(//! .*\n)+", text)
    assert told, f"the root file of {name} doesn't begin with a line `//! ..`"
    return re.split(r"\.(?: |$)", " ".join(told[0].replace("//! ", "").split()), maxsplit=1)[0]


def drawing(crates: Mapping[str, Crate]) -> Iterator[str]:
    """The lines of the drawing."""
    layers = layers_of(crates)
    column = max(map(len, crates)) + 5
    drawn = len(crates)
    for name in sorted(crates, key=lambda it: -layers[it]):
        head = f"{layers[name] if layers[name] != drawn else '':>2} {name}".ljust(column)
        drawn = layers[name]
        below = ", ".join(nearest(name, crates))
        told = f"{gives(name)} (on {below})" if below else gives(name)
        yield from textwrap.wrap(told, WIDTH, initial_indent=head, subsequent_indent=" " * column)


def map_of(crates: Mapping[str, Crate]) -> str:
    return "".join(f"{line}\n" for line in drawing(crates))


def write(crates: Mapping[str, Crate]) -> None:
    drawn = map_of(crates)
    page = PAGE.read_text(encoding="utf-8")
    PAGE.write_text(DRAWING.sub(lambda found: found[1] + drawn, page), encoding="utf-8")


def main() -> int:
    crates = crates_in((TOP / "crates.txt").read_text(encoding="utf-8"))
    if sys.argv[1:] == ["--write"]:
        write(crates)
    elif sys.argv[1:]:
        print(__doc__, file=sys.stderr)
        return 2
    else:
        print(map_of(crates), end="")
    return 0


if __name__ == "__main__":
    sys.exit(main())
