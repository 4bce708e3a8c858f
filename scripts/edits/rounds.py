"""Rounds: edits that one check can judge, since no two of them are in one function."""
import pathlib
from collections.abc import Iterable, Sequence
from dataclasses import dataclass, field

from edits.edit import Edit, EditError
from edits.functions import Function, function_at, functions_in
from edits.verdicts import own_reason


@dataclass
class Round:
    """Edits of one crate, its texts with all of them, and the names of the functions that each
    changes."""

    folder: pathlib.Path
    texts: dict[str, str] = field(default_factory=dict)
    names: dict[Edit, set[str]] = field(default_factory=dict)

    def take(self, edit: Edit) -> bool:
        """Adds an edit. Gives whether it could: not where it changes what is outside of functions,
        where another edit of the round is in one of its functions, or where it can't be applied
        beside them."""
        try:
            texts, places = edit.apply(self.folder, self.texts)
        except EditError:
            return False
        found = [function_at(file, texts[file], place) for file, place in places]
        names = {it.name for it in found if it}
        if None in found or names & set(self.functions()):
            return False
        self.texts = texts
        self.names[edit] = names
        return True

    def functions(self) -> list[str]:
        """The names of all functions that the round changes."""
        return sorted({name for each in self.names.values() for name in each})

    def reason(self, edit: Edit, lines: Sequence[str]) -> str:
        """Why the prover refuses a function that this edit changes; nothing where it doesn't say
        so."""
        return next((told for it in self._changed(edit) if (told := own_reason(lines, it))), "")

    def _changed(self, edit: Edit) -> Iterable[Function]:
        # (by name, since later edits of the round may have moved the lines)
        for file in {it.file for it in edit.changes}:
            yield from (
                it for it in functions_in(file, self.texts[file]) if it.name in self.names[edit]
            )


def rounds_of(folder: pathlib.Path, edits: Iterable[Edit]) -> tuple[list[Round], list[Edit]]:
    """The edits in rounds, each in the first that takes it; and those that no round takes."""
    rounds: list[Round] = []
    apart: list[Edit] = []
    for edit in edits:
        if any(it.take(edit) for it in rounds):
            continue
        alone = Round(folder)
        if alone.take(edit):
            rounds.append(alone)
        else:
            apart.append(edit)
    return rounds, apart
