"""The items of a source: its functions, types and definitions, by which a place keeps its name when
lines are added above it."""
import bisect
import re
from collections.abc import Callable, Iterator

from edits.functions import functions_in

RATTLE_TYPE = re.compile(
    r"^[ \t]*(?:pub(?:\([a-z]+\))? )?(?:const|enum|mod|static|struct|trait|type) (\w+)", re.M
)
IMPLEMENTATION = re.compile(r"^(?:unsafe )?(impl\b[^{;]*?)\s*\{", re.M)
WORDS = r"(?:(?:abbrev|data|pub|record|unfoldable) )*"
NAME = r"([^\s(){}_:=-][^\s(){}:]*)"
DEFINITION = re.compile(rf"{WORDS}{NAME}")
DEFINITION_IN_MODULE = re.compile(rf"  {WORDS}{NAME} :")
BEFORE_ALL = "top"


def item_finder(path: str, text: str) -> Callable[[int], str]:
    """A function that gives the name of the item in which a line stands."""
    starts = sorted(_definitions(text) if path.endswith(".antt") else _rattle_items(path, text))
    numbers = [number for number, _ in starts]

    def item_at(line: int) -> str:
        place = bisect.bisect_right(numbers, line)
        return starts[place - 1][1] if place else BEFORE_ALL

    return item_at


def _definitions(text: str) -> Iterator[tuple[int, str]]:
    """The lines at which definitions of an .antt file begin, and the names of these. In a module
    they stand two blanks further to the right, as those behind a `where` do elsewhere."""
    pattern = DEFINITION
    for number, line in enumerate(text.split("\n"), 1):
        if line and line[0] not in " -":
            pattern = DEFINITION_IN_MODULE if line.startswith("module ") else DEFINITION
        found = pattern.match(line)
        if found:
            yield number, found[1]


def _rattle_items(path: str, text: str) -> Iterator[tuple[int, str]]:
    """The lines at which the functions, types and implementations of a .rt file begin, and the
    names of these; of a function, the name that the prover gives it."""
    for pattern in (RATTLE_TYPE, IMPLEMENTATION):
        for found in pattern.finditer(text):
            yield text.count("\n", 0, found.start()) + 1, found[1]
    for function in functions_in(path, text):
        yield function.first_line, function.name
