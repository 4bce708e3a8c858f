"""An edit: the wrong body that it puts into a crate."""
import pathlib
from collections.abc import Mapping
from dataclasses import dataclass

Texts = Mapping[str, str]


class EditError(Exception):
    """An edit that can't be read or applied."""


@dataclass(frozen=True)
class Change:
    """A text of a file of the crate, which stands there once, and what takes its place."""

    file: str
    old: str
    new: str


@dataclass(frozen=True)
class Edit:
    """What a file `NAME.edit` changes, in the form of `rt must-fail`: lines `file:`, `old:` and
    `new:`."""

    name: str
    changes: tuple[Change, ...]

    @staticmethod
    def read(path: pathlib.Path) -> "Edit":
        """Reads an edit; raises EditError if it changes nothing, or a file outside of src/."""
        changes, file, old = [], "", ""
        for line in path.read_text(encoding="utf-8").split("\n"):
            word, _, text = line.partition(": ")
            if word == "file":
                file = text.strip()
            elif word == "old":
                old = text
            elif line.startswith("new:"):
                changes.append(Change(file, old, line.removeprefix("new:").removeprefix(" ")))
        if not changes:
            raise EditError("it has no pair of an old text and a new one")
        for change in changes:
            if not change.file.startswith("src/") or ".." in change.file or not change.old:
                raise EditError("a new text has no old text of a file of src/")
            if change.old == change.new:
                raise EditError("an old text and its new one are the same")
        return Edit(path.stem, tuple(changes))

    def apply(
        self, folder: pathlib.Path, texts: Texts
    ) -> tuple[dict[str, str], list[tuple[str, int]]]:
        """The texts of a crate with this edit, and the place of each change. `texts` has the files
        that other edits changed.

        Raises EditError where an old text doesn't stand in its file exactly once.
        """
        edited, places = dict(texts), []
        for change in self.changes:
            text = edited.get(change.file)
            if text is None:
                try:
                    text = (folder / change.file).read_text(encoding="utf-8")
                except OSError as fault:
                    raise EditError(f"{change.file} can't be read: {fault.strerror}") from fault
            count = text.count(change.old)
            if count != 1:
                raise EditError(f"an old text stands in {change.file} {count} times, and not once")
            places.append((change.file, text.index(change.old)))
            edited[change.file] = text.replace(change.old, change.new)
        return edited, places
