"""A crate whose edits are tried, and the checks of copies of it."""
import pathlib
import shutil
import subprocess
import tempfile
from collections.abc import Iterable, Iterator, Mapping, Sequence
from dataclasses import dataclass

from crate_list import Crate, all_below
from edits.edit import Edit, Texts
from edits.functions import function_at
from edits.rounds import Round, rounds_of
from edits.verdicts import PROVED, Verdict, of_whole_crate

PARTS = ("src", "specs", "proofs")


@dataclass(frozen=True)
class Repository:
    """A repository of crates, and the kit that proves them."""

    top: pathlib.Path
    kit: pathlib.Path
    crates: Mapping[str, Crate]

    def folder(self, name: str) -> pathlib.Path:
        return self.top / "crates" / name

    def library(self, name: str) -> pathlib.Path:
        """Where `rt` puts the built library of a crate."""
        return self.folder(name) / "out/rlib" / f"{name}.rlib"

    def check_words(self, name: str) -> list[str]:
        """The command that checks a crate, with one job, in a folder that has its files."""
        crate = self.crates[name]
        root = "src/main.rt" if (self.folder(name) / "src/main.rt").exists() else "src/lib.rt"
        words = [
            str(self.kit / "bin/rattle"),
            "check",
            "--crate-name",
            name,
            root,
            "--jobs",
            "1",
            "--links",
            f"{name}=",
        ]
        for library in ("std", *crate.of_kit):
            words += ["--extern", f"{library}={self.kit / 'rlibs' / library}.rlib"]
        for library in crate.below:
            words += ["--extern", f"{library}={self.library(library)}"]
        words += ["-L", f"dependency={self.kit / 'rlibs'}"]
        for library in all_below(self.crates, name):
            words += ["-L", f"dependency={self.library(library).parent}"]
        return [
            *words,
            "--antt-project",
            str(self.kit / "rattle/logic/antt-project.json"),
            "--logic-built",
            str(self.kit / "logic_built"),
        ]


class EditedCrate:
    """A crate, and the folder in which the checks of its edits keep what they prove."""

    def __init__(self, repository: Repository, name: str, kept: pathlib.Path) -> None:
        self.folder, self.words, self.kept = (
            repository.folder(name),
            repository.check_words(name),
            kept,
        )

    def try_all(self, edits: Iterable[Edit]) -> Iterator[tuple[Edit, Verdict]]:
        """The verdict on each edit, as it becomes known."""
        rounds, apart = rounds_of(self.folder, edits)
        for each in rounds:
            _, lines = self._check(each.texts, each.functions())
            for edit in each.names:
                reason = each.reason(edit, lines)
                yield edit, Verdict(True, reason) if reason else self._try_alone(edit)
        for edit in apart:
            yield edit, self._try_whole(edit)

    def try_each_alone(self, edits: Iterable[Edit]) -> Iterator[tuple[Edit, Verdict]]:
        """The verdict on each edit by a check of the whole crate with it."""
        for edit in edits:
            yield edit, self._try_whole(edit)

    def _try_alone(self, edit: Edit) -> Verdict:
        """The verdict where no other edit can hide this one."""
        alone = Round(self.folder)
        alone.take(edit)
        status, lines = self._check(alone.texts, alone.functions())
        if status == 0:
            return Verdict(False, PROVED)
        reason = alone.reason(edit, lines)
        return Verdict(True, reason) if reason else self._try_whole(edit)

    def _try_whole(self, edit: Edit) -> Verdict:
        """The verdict by a check of the whole crate."""
        texts, places = edit.apply(self.folder, {})
        functions = [function_at(file, texts[file], place) for file, place in places]
        changed = [] if None in functions else [it for it in functions if it]
        return of_whole_crate(*self._check(texts), changed)

    def _check(self, texts: Texts, only: Sequence[str] = ()) -> tuple[int, list[str]]:
        """Checks a copy of the crate with these texts, of it these functions alone if there are
        any: the status, and what is printed."""
        with tempfile.TemporaryDirectory(prefix="try-edits-") as room:
            for part in PARTS:
                if (self.folder / part).is_dir():
                    shutil.copytree(self.folder / part, f"{room}/{part}")
            for path, text in texts.items():
                (pathlib.Path(room) / path).write_text(text, encoding="utf-8")
            words = [
                *self.words,
                "--incremental",
                str(self.kept),
                *(word for it in only for word in ("--only", it)),
            ]
            ran = subprocess.run(
                words,
                cwd=room,
                stdin=subprocess.DEVNULL,
                stdout=subprocess.PIPE,
                stderr=subprocess.STDOUT,
                text=True,
                errors="replace",
                check=False,
            )
        return ran.returncode, ran.stdout.splitlines()
