#!/usr/bin/env python3
"""Finds what stands twice in the Rattle sources, their specs and their proofs.

usage: scripts/copied_code.py [--all]     the exit status is 1 if there is a fault, and 2 if
                                          scripts/copied_code.txt cannot be read

A fault is a pair of places that scripts/copied_code.txt does not list, or a listed one that is no
pair any more; each is a line. With --all, each pair is a line, and the exit status is 0:

    FILE:LINE-LINE FILE:LINE-LINE TOKENS tokens: FILE ITEM ~ FILE ITEM

A pair is two runs of lines that are the same, except that up to a third of the names, numbers and
texts may be replaced, one to one. Comments, white space, imports and lines without a word do
not count. Tests are not read: the crates `bg_tests` and what begins so, and the modules that stand
under `#[cfg(test)]`.
"""
import argparse
import pathlib
import re
import subprocess
import sys
from collections.abc import Mapping

from copied.accepted import ListError, faults, groups_in
from copied.pairs import Copy, copies
from copied.runs import Least

TOP = pathlib.Path(__file__).resolve().parents[1]
LIST = "scripts/copied_code.txt"
# Six lines of the usual length: a line of a source has 8 tokens on average, and one of a spec or a
# proof has 17. Twelve lines are enough in any case, since a list of fields has few tokens.
LEAST = {".rt": Least(lines=6, tokens=50, thin_lines=12), ".antt": Least(6, 100, 12)}
CRATES_OF_TESTS = "crates/bg_tests"
TEST_MODULE = re.compile(r"^#\[cfg\(test\)\]\n(?:pub(?:\([a-z]+\))? )?mod (\w+);", re.M)
ROOTS = ("lib", "main")


def sources(top: pathlib.Path) -> dict[str, str]:
    """The sources, specs and proofs that git has and that are no tests, by their paths."""
    patterns = [f"crates/*{suffix}" for suffix in LEAST]
    listed = subprocess.run(
        ["git", "ls-files", *patterns], cwd=top, capture_output=True, text=True, check=True
    ).stdout.splitlines()
    texts = {
        path: (top / path).read_text(encoding="utf-8")
        for path in listed
        if not path.startswith(CRATES_OF_TESTS) and (top / path).exists()
    }
    modules = test_modules(texts)
    return {path: text for path, text in texts.items() if modules.isdisjoint(_modules_of(path))}


def test_modules(texts: Mapping[str, str]) -> set[str]:
    """The modules of tests, each as the path of its file without the ending."""
    return {
        str(_folder_of_modules(path) / found[1])
        for path, text in texts.items()
        for found in TEST_MODULE.finditer(text)
    }


def _modules_of(path: str) -> set[str]:
    """The path of a file without its ending, and the folders in which it stands."""
    module = pathlib.PurePath(path).with_suffix("")
    return {str(it) for it in (module, *module.parents)}


def _folder_of_modules(path: str) -> pathlib.PurePath:
    """The folder with the modules that a file names."""
    file = pathlib.PurePath(path)
    return file.parent if file.stem in ROOTS else file.with_suffix("")


def all_copies(top: pathlib.Path) -> list[Copy]:
    """The pairs of the repository: those of the sources, then those of the specs and proofs."""
    texts = sources(top)
    return [
        copy
        for suffix, least in LEAST.items()
        for copy in copies({p: t for p, t in texts.items() if p.endswith(suffix)}, least)
    ]


def main(arguments: list[str], top: pathlib.Path = TOP) -> int:
    parser = argparse.ArgumentParser(description="Finds what stands twice in the Rattle sources.")
    parser.add_argument("--all", action="store_true", help="print the accepted pairs too")
    is_all = parser.parse_args(arguments).all
    try:
        groups = groups_in((top / LIST).read_text(encoding="utf-8"))
    except ListError as error:
        print(f"{LIST}: {error}", file=sys.stderr)
        return 2
    found = all_copies(top)
    lines = list(map(str, found)) if is_all else list(faults(found, groups, LIST))
    for line in lines:
        print(line)
    return 1 if lines and not is_all else 0


if __name__ == "__main__":
    sys.exit(main(sys.argv[1:]))
