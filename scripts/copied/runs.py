"""Runs of lines that stand twice: the same lines, but for a few names that are replaced.

Two runs are alike if they have the same tokens, except that names, numbers and texts may be replaced,
one to one. At most a third of them may be: so the rows of a table, which share their shape and little
else, are not alike.
"""
from collections import defaultdict
from collections.abc import Iterator, Mapping, Sequence
from dataclasses import dataclass
from itertools import combinations

from copied.code_lines import CodeLine, is_name

# At most one name in each `NAMES_FOR_EACH_REPLACED` names is replaced.
NAMES_FOR_EACH_REPLACED = 3


@dataclass(frozen=True)
class Least:
    """How long a run is at the least: `lines` lines with `tokens` tokens, or `thin_lines` thin
    lines."""

    lines: int
    tokens: int
    thin_lines: int

    def is_reached(self, lines: int, tokens: int) -> bool:
        return (lines >= self.lines and tokens >= self.tokens) or lines >= self.thin_lines


@dataclass(frozen=True)
class Line:
    """A line of code in a file."""

    path: str
    code: CodeLine


@dataclass(frozen=True)
class Run:
    """Two runs that are alike: the lines of both, one beside the other."""

    lines: Sequence[tuple[Line, Line]]

    def tokens(self) -> int:
        return sum(len(one.code.tokens) for one, _ in self.lines)


class Replacements:
    """Which name of one run stands for which of the other one."""

    def __init__(self) -> None:
        self._there: dict[str, str] = {}
        self._here: dict[str, str] = {}
        self._count = 0

    def takes(self, here: CodeLine, there: CodeLine) -> bool:
        """Takes the names of two further lines, and tells whether the lines are alike. If they are
        not, the replacements are of no further use."""
        if len(here.tokens) != len(there.tokens):
            return False
        return all(map(self._takes_token, here.tokens, there.tokens))

    def are_few(self) -> bool:
        return self._count * NAMES_FOR_EACH_REPLACED <= len(self._there)

    def _takes_token(self, here: str, there: str) -> bool:
        if not (is_name(here) and is_name(there)):
            return here == there
        if here not in self._there and there not in self._here:
            self._there[here], self._here[there] = there, here
            self._count += here != there
        return self._there.get(here) == there and self._here.get(there) == here


def runs(files: Mapping[str, Sequence[CodeLine]], least: Least) -> Iterator[Run]:
    """The runs that stand twice in these files, and do not overlap. A run that is part of a longer
    one, beside the same lines, is left out."""
    lines = [Line(path, code) for path, codes in files.items() for code in codes]
    ends: dict[int, int] = {}
    for first, second in sorted(_begins(lines, least.lines)):
        count = _length(lines, first, second, least.lines)
        run = Run(list(zip(lines[first : first + count], lines[second : second + count])))
        is_part = first + count <= ends.get(second - first, 0)
        if not is_part and least.is_reached(count, run.tokens()):
            ends[second - first] = first + count
            yield run


def _begins(lines: Sequence[Line], window: int) -> Iterator[tuple[int, int]]:
    """Where two windows of `window` lines begin that are alike, however many names are replaced."""
    # (two shapes with one hash have patterns that differ)
    shapes = [hash(_shape(line.code)) for line in lines]
    places: dict[tuple[int, ...], list[int]] = defaultdict(list)
    for begin in range(len(lines) - window + 1):
        if lines[begin].path == lines[begin + window - 1].path:
            places[tuple(shapes[begin : begin + window])].append(begin)
    for same_shapes in places.values():
        alike: dict[tuple[int | str, ...], list[int]] = defaultdict(list)
        for begin in same_shapes if len(same_shapes) > 1 else ():
            alike[_pattern(lines[begin : begin + window])].append(begin)
        for begins in alike.values():
            yield from combinations(begins, 2)


def _shape(line: CodeLine) -> tuple[str, ...]:
    """The tokens of a line without its names."""
    return tuple("" if is_name(token) else token for token in line.tokens)


def _pattern(lines: Sequence[Line]) -> tuple[int | str, ...]:
    """The tokens of lines, in which each name is the count of the other names that come before it.
    So lines with names that are replaced one to one have the same pattern."""
    numbers: dict[str, int] = {}
    return tuple(
        numbers.setdefault(token, len(numbers)) if is_name(token) else token
        for line in lines
        for token in line.code.tokens
    )


def _length(lines: Sequence[Line], first: int, second: int, window: int) -> int:
    """How many lines from these two places are alike; 0 if they are fewer than a window."""
    replacements = Replacements()
    length = 0
    for count in range(1, min(second - first, len(lines) - second) + 1):
        here, there = lines[first + count - 1], lines[second + count - 1]
        if (here.path, there.path) != (lines[first].path, lines[second].path):
            break
        if not replacements.takes(here.code, there.code):
            break
        if count >= window:
            if not replacements.are_few():
                break
            length = count
    return length
