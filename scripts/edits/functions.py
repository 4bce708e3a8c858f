"""The functions of a source file, by the names that the prover gives them."""
import re
from collections.abc import Iterator
from dataclasses import dataclass

# Files are in the layout of `rt fmt`, which the gate checks: a function ends on its first line, or
# at the first brace of its own indent.
BEGIN = re.compile(r"^([ \t]*)(?:pub(?:\([a-z]+\))? )?(?:const )?(?:unsafe )?fn (\w+)", re.M)
BLOCK = re.compile(r"^(?:pub(?:\([a-z]+\))? )?(?:unsafe )?(?:impl|trait)\b([^{;]*)\{", re.M)


@dataclass(frozen=True)
class Function:
    """A function of a file of src/: its name as `rattle check --only` takes it, its lines from 1,
    and the places of its body."""

    file: str
    name: str
    first_line: int
    last_line: int
    body: range

    def has_line(self, file: str, line: int) -> bool:
        return file == self.file and self.first_line <= line <= self.last_line

    def has_proof(self, path: str) -> bool:
        """Whether a file of proofs/ is one of this function's."""
        return f"/{self.name.replace('::', '/')}/" in f"/{path}"


def functions_in(file: str, text: str) -> Iterator[Function]:
    """The functions of a file, in their order."""
    for begun in BEGIN.finditer(text):
        indent = begun[1]
        end = _end(text, begun.end(), indent)
        # (where there are clauses, the body's brace stands on a line of its own, and a clause may
        # end with one)
        brace = re.compile(rf"^{indent}\{{$", re.M).search(text, begun.end(), end) or re.compile(
            r"\{$", re.M
        ).search(text, begun.end(), end)
        block = _block(text, begun.start()) if indent else _module(file)
        yield Function(
            file,
            f"{block}::{begun[2]}" if block else begun[2],
            text.count("\n", 0, begun.start()) + 1,
            text.count("\n", 0, end) + 1,
            range(brace.start() if brace else end, end),
        )


def function_at(file: str, text: str, place: int) -> Function | None:
    """The function whose body has this place of the file, if there is one."""
    # (the last: what seems to be the body of a declaration, as in a trait, has the functions that
    # follow it)
    return next((it for it in reversed(list(functions_in(file, text))) if place in it.body), None)


def _end(text: str, place: int, indent: str) -> int:
    """Where the function ends whose first line has this place."""
    line_end = text.find("\n", place)
    if text[line_end - 1] == "}":
        return line_end
    closed = re.compile(rf"^{indent}}}", re.M).search(text, place)
    return closed.end() if closed else len(text)


def _module(file: str) -> str:
    """The module of a file, by its last name; none of a root file."""
    name = file.removesuffix(".rt").rpartition("/")[2]
    return "" if name in ("lib", "main") else name


def _block(text: str, place: int) -> str:
    """The type or trait in whose block this place stands, as the prover names it; none where it
    stands in another block."""
    heads = [it[1] for it in BLOCK.finditer(text, 0, place)]
    head = heads[-1] if heads else ""
    trait, is_trait, of = re.sub(r"^\s*<(?:[^<>]|<[^<>]*>)*>", "", head).partition(" for ")
    return _bare(of) + _bare(trait) + _arguments(trait) if is_trait else _bare(trait)


def _arguments(trait: str) -> str:
    """The arguments of a trait as the prover adds them to its name, if each is one word. The name of
    a function in another block fits none of the prover's, and what is known of it is its place."""
    given = re.fullmatch(r"\s*[\w:]+<((?:\w+, )*\w+)>\s*", trait)
    return "".join(it[0].upper() + it[1:] for it in given[1].split(", ")) if given else ""


def _bare(text: str) -> str:
    """A type without its path, its parameters and its references, or a trait without those that it
    extends."""
    while re.search(r"<[^<>]*>", text):
        text = re.sub(r"<[^<>]*>", "", text)
    return (
        re.sub(r"^&\s*(mut\s+)?", "", re.split(r" where |: ", text.strip())[0])
        .rpartition("::")[2]
        .strip()
    )
