"""The refusals that earlier runs saw, each under the sum of all that it rests on. The sum has no
path outside of the repository, so the refusals of one checkout serve another."""
import hashlib
import pathlib
from collections.abc import Iterable, Iterator

from crate_list import all_below
from edits.crate import PARTS, Repository


def sum_of(repository: Repository, name: str) -> bytes:
    """The sum of what a verdict on an edit of a crate rests on, but the edit: the kit, these
    scripts, the crate and all below it, with their lines of crates.txt."""
    total = hashlib.sha256()
    crates = (*all_below(repository.crates, name), name)
    for crate in crates:
        total.update(f"{crate} {repository.crates[crate]}\n".encode())
    for folder, path in _files(repository, crates):
        text = path.read_bytes()
        total.update(f"{path.relative_to(folder)} {len(text)}\n".encode() + text)
    return total.digest()


def _files(
    repository: Repository, crates: Iterable[str]
) -> Iterator[tuple[pathlib.Path, pathlib.Path]]:
    """Each file, behind the folder that its name is relative to."""
    scripts = pathlib.Path(__file__).parent
    yield repository.kit, repository.kit / "KIT-ID"
    yield from ((scripts, it) for it in sorted(scripts.glob("*.py")))
    for crate in crates:
        for part in PARTS:
            for path in sorted((repository.folder(crate) / part).rglob("*")):
                if path.is_file():
                    yield repository.top, path


class Kept:
    """A folder with a file for each refusal."""

    def __init__(self, folder: pathlib.Path) -> None:
        self.folder = folder

    def reason(self, crate: bytes, edit: pathlib.Path) -> str:
        """Why this edit was refused by an earlier run; nothing where none has tried it."""
        try:
            return self._place(crate, edit).read_text(encoding="utf-8")
        except OSError:
            return ""

    def keep(self, crate: bytes, edit: pathlib.Path, reason: str) -> None:
        """Keeps why this edit is refused."""
        self.folder.mkdir(parents=True, exist_ok=True)
        self._place(crate, edit).write_text(reason, encoding="utf-8")

    def _place(self, crate: bytes, edit: pathlib.Path) -> pathlib.Path:
        return (
            self.folder
            / hashlib.sha256(crate + edit.name.encode() + b"\n" + edit.read_bytes()).hexdigest()
        )
