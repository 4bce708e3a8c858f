#!/usr/bin/env python3
"""Lists the functions that have more than five parameters.

usage: scripts/signatures.py     prints each one, one a line; the exit status is 1 if there is one

It reads the Rattle sources of each crate that is no crate of tests (`bg_tests` and what begins so),
and the Python sources below lib/. In Rattle, `self` and the allocator count. In Python, the `self`
or `cls` of a method does not count, and a keyword-only parameter does.
"""
import ast
import pathlib
import re
import sys
from collections.abc import Iterator
from typing import NamedTuple

from identifiers import code_of

TOP = pathlib.Path(__file__).resolve().parents[1]
MOST_PARAMETERS = 5
OF_TESTS = "bg_tests"
RATTLE_FUNCTION = re.compile(r"\bfn\s+(\w+)\s*")
OPENING, CLOSING = "([{<", ")]}>"


class Signature(NamedTuple):
    """A function, and how many parameters it has."""

    file: str
    line: int
    function: str
    parameters: int

    def __str__(self) -> str:
        return f"{self.file}:{self.line}: {self.function} has {self.parameters} parameters; the limit is {MOST_PARAMETERS}"


def end_of_brackets(code: str, start: int) -> int:
    """The place after the bracket that closes the one at `start`. The `>` of `->` and `=>` closes
    nothing. `ValueError` if no bracket closes it."""
    depth = 0
    for place in range(start, len(code)):
        if code[place] in OPENING:
            depth += 1
        elif code[place] in CLOSING and code[place - 1 : place + 1] not in ("->", "=>"):
            depth -= 1
            if depth == 0:
                return place + 1
    raise ValueError(f"no bracket closes the one at {start}")


def parts_between(code: str) -> list[str]:
    """The parts between the commas that stand in no bracket. An empty part after the last comma is
    left out."""
    parts, place, begin = [], 0, 0
    while place < len(code):
        if code[place] in OPENING:
            place = end_of_brackets(code, place)
            continue
        if code[place] == ",":
            parts.append(code[begin:place])
            begin = place + 1
        place += 1
    return [part for part in [*parts, code[begin:]] if part.strip()]


def rattle_signatures(file: str, text: str) -> Iterator[Signature]:
    """The functions and methods of a Rattle source."""
    code = code_of(text, ".rt")
    for found in RATTLE_FUNCTION.finditer(code):
        start = found.end()
        if code[start : start + 1] == "<":
            start = end_of_brackets(code, start)
            start += len(code[start:]) - len(code[start:].lstrip())
        if code[start : start + 1] != "(":
            raise ValueError(f"{file}: {found[1]} has no list of parameters")
        parameters = parts_between(code[start + 1 : end_of_brackets(code, start) - 1])
        yield Signature(file, code.count("\n", 0, found.start()) + 1, found[1], len(parameters))


def is_static(function: ast.FunctionDef | ast.AsyncFunctionDef) -> bool:
    """Whether a method takes neither `self` nor `cls`."""
    return any(
        isinstance(mark, ast.Name) and mark.id == "staticmethod" for mark in function.decorator_list
    )


def python_signatures(file: str, text: str) -> Iterator[Signature]:
    """The functions and methods of a Python source."""
    tree = ast.parse(text)
    methods = {
        member for node in ast.walk(tree) if isinstance(node, ast.ClassDef) for member in node.body
    }
    for node in ast.walk(tree):
        if isinstance(node, ast.FunctionDef | ast.AsyncFunctionDef):
            taken = node.args
            count = len(taken.posonlyargs) + len(taken.args) + len(taken.kwonlyargs)
            count += (taken.vararg is not None) + (taken.kwarg is not None)
            yield Signature(
                file, node.lineno, node.name, count - (node in methods and not is_static(node))
            )


def signatures(top: pathlib.Path) -> Iterator[Signature]:
    """All functions of the repository that the limit is for."""
    for path in sorted(top.glob("crates/*/src/**/*.rt")):
        if not path.relative_to(top).parts[1].startswith(OF_TESTS):
            yield from rattle_signatures(
                str(path.relative_to(top)), path.read_text(encoding="utf-8")
            )
    for path in sorted(top.glob("lib/**/*.py")):
        yield from python_signatures(str(path.relative_to(top)), path.read_text(encoding="utf-8"))


def too_long(top: pathlib.Path) -> list[Signature]:
    """The functions that have more parameters than a function may have."""
    return [signature for signature in signatures(top) if signature.parameters > MOST_PARAMETERS]


def main() -> int:
    found = too_long(TOP)
    for signature in found:
        print(signature)
    return 1 if found else 0


if __name__ == "__main__":
    sys.exit(main())
