#!/usr/bin/env python3
"""Lists the packages and modules of the Python tools, each with the first sentence of its
documentation.

usage: tools/module_map.py             prints the table
       tools/module_map.py --write     writes it into docs/TOOLS.md, between the two marks

The packages stand in the order of `BELOW`: a package imports only the packages that its row names.
The same holds for the sub-packages of a package, in `BELOW_INSIDE`. A module beside sub-packages
either imports none of them, and then each of them may import it, or stands above them all.
"""
import ast
import pathlib
import re
import sys
from collections.abc import Iterator, Mapping
from typing import NamedTuple

TOP = pathlib.Path(__file__).resolve().parents[1]
NAME = "bg_switch_tools"
LIBRARY = TOP / "lib" / NAME
PAGE = TOP / "docs" / "TOOLS.md"
TABLE = re.compile(r"(<!-- modules -->\n)(.*?)(?=<!-- end of modules -->\n)", re.S)
# By package, lowest first: the packages that it may import.
BELOW: Mapping[str, tuple[str, ...]] = {
    "switch": (),
    "analysis": ("switch",),
    "controller": ("switch", "analysis"),
    "fleet": ("switch", "controller", "analysis"),
    "dashboard": ("switch", "controller", "fleet"),
    "bgctl": ("switch", "controller", "analysis", "dashboard"),
    "operator": ("switch", "bgctl"),
}

# By package that has sub-packages, and by sub-package, lowest first: those that it may import.
BELOW_INSIDE: Mapping[str, Mapping[str, tuple[str, ...]]] = {
    "controller": {
        "plan": (),
        "state": ("plan",),
        "history": ("plan", "state"),
        "edits": ("plan", "state", "history"),
        "endpoints": ("plan", "state", "history"),
        "lines": ("plan", "state", "history", "endpoints"),
        "analyses": ("plan", "state", "history", "endpoints", "lines"),
        "rounds": ("plan", "state", "history", "endpoints", "lines", "analyses"),
    },
    "fleet": {
        "store": (),
        "plan": ("store",),
        "record": ("store", "plan"),
        "machine": ("store", "plan", "record"),
        "agent": ("store", "plan", "record", "machine"),
        "person": ("store", "plan", "record"),
    },
}


class Module(NamedTuple):
    """A module of a package. The sub-package is empty for a module beside sub-packages, and the
    name for an import of the package or sub-package alone."""

    package: str
    inside: str
    name: str


def modules(folder: str, library: pathlib.Path = LIBRARY) -> list[pathlib.Path]:
    """The modules of a package or sub-package (`PACKAGE/SUB-PACKAGE`), without the one that stands
    for the package itself."""
    return sorted(path for path in (library / folder).glob("*.py") if path.name != "__init__.py")


def folders(package: str) -> list[str]:
    """The folders of a package: its own, and those of its sub-packages."""
    return [package, *(f"{package}/{inside}" for inside in BELOW_INSIDE.get(package, ()))]


def sentence_of(path: pathlib.Path) -> str:
    """The first sentence of a module's documentation. `ValueError` if the module has none."""
    text = ast.get_docstring(ast.parse(path.read_text(encoding="utf-8")))
    if not text:
        raise ValueError(f"{path} has no documentation")
    return re.split(r"(?<=\.)\s", " ".join(text.split("\n\n")[0].split()), maxsplit=1)[0]


def imported(path: pathlib.Path) -> Iterator[Module]:
    """The module of each import of the tools' own, at any place of a module."""
    for node in ast.walk(ast.parse(path.read_text(encoding="utf-8"))):
        names: list[str] = []
        if isinstance(node, ast.Import):
            names = [alias.name for alias in node.names]
        elif isinstance(node, ast.ImportFrom) and node.module:
            names = [f"{node.module}.{alias.name}" for alias in node.names]
        for name in names:
            words = name.split(".")
            if words[0] == NAME and len(words) > 1 and words[1] in BELOW:
                has_inside = len(words) > 2 and words[2] in BELOW_INSIDE.get(words[1], ())
                inside, rest = (words[2], words[3:]) if has_inside else ("", words[2:])
                yield Module(words[1], inside, rest[0] if rest else "")


def wrong_imports(library: pathlib.Path = LIBRARY) -> list[str]:
    """The imports that go up: `FILE: PACKAGE` for each package that a module imports and may
    not."""
    found = []
    for package, below in BELOW.items():
        for folder in folders(package):
            for path in sorted((library / folder).glob("*.py")):
                wrong = {other.package for other in imported(path)} - {package, *below}
                found += [f"{path.relative_to(library)}: {other}" for other in sorted(wrong)]
    return found


def wrong_imports_inside(library: pathlib.Path = LIBRARY) -> list[str]:
    """The same between the sub-packages of a package: `FILE: PACKAGE.SUB-PACKAGE`, and
    `FILE: PACKAGE.MODULE` for a module beside the sub-packages that imports one of them."""
    found = []
    for package, rows in BELOW_INSIDE.items():
        above = {
            path.stem
            for path in modules(package, library)
            if any(other.package == package and other.inside for other in imported(path))
        }
        for inside, below in rows.items():
            for path in sorted((library / package / inside).glob("*.py")):
                own = {other for other in imported(path) if other.package == package}
                wrong = {other.inside for other in own} - {"", inside, *below}
                wrong |= {other.name for other in own if not other.inside} & above
                found += [
                    f"{path.relative_to(library)}: {package}.{other}" for other in sorted(wrong)
                ]
    return found


def rows_of(name: str, folder: str, below: tuple[str, ...], nothing: str) -> list[str]:
    """The rows of a package or sub-package: its own, and one for each of its modules."""
    imports = f"imports {', '.join(f'`{other}`' for other in below)}" if below else nothing
    own = f"| **`{name}`** | {imports} | {sentence_of(LIBRARY / folder / '__init__.py')} |"
    return [
        own,
        *(f"| `{name}` | `{path.stem}` | {sentence_of(path)} |" for path in modules(folder)),
    ]


def table() -> str:
    """The table, with a row for each module."""
    lines = ["| Package | Module | What it has |", "|---|---|---|"]
    for package, below in BELOW.items():
        lines += rows_of(package, package, below, "imports no other package")
        for inside, inside_below in BELOW_INSIDE.get(package, {}).items():
            lines += rows_of(
                f"{package}.{inside}",
                f"{package}/{inside}",
                tuple(f"{package}.{other}" for other in inside_below),
                f"imports no other part of `{package}`",
            )
    return "".join(f"{row}\n" for row in lines)


def page_with(page: str, lines: str) -> str:
    """A page with this table between its marks."""
    return TABLE.sub(lambda found: found[1] + lines, page)


def main() -> int:
    if sys.argv[1:] == ["--write"]:
        PAGE.write_text(page_with(PAGE.read_text(encoding="utf-8"), table()), encoding="utf-8")
    elif sys.argv[1:]:
        print(__doc__, file=sys.stderr)
        return 2
    else:
        print(table(), end="")
    return 0


if __name__ == "__main__":
    sys.exit(main())
