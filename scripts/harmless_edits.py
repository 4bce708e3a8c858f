#!/usr/bin/env python3
"""Shows that try_edits.py can fail: makes some edits harmless, and tries them.

usage: scripts/harmless_edits.py [--count N] [--seed N]        20 edits, drawn by seed 1; after `rt ci`, or over built libraries

An edit is made harmless by a comment behind its old text in the place of the new one, so that the
body means what it meant. try_edits.py has to name each such edit as one that is still proved, and
has to refuse all others of the same crates. What it has refused in this checkout counts here too,
and is not tried again. The script prints each verdict on a harmless edit, and fails if one differs.
It is no part of the gate.
"""
import argparse
import contextlib
import io
import pathlib
import random
import re
import shutil
import sys
import tempfile
from collections.abc import Sequence

import try_edits
from edits.verdicts import PROVED

LINKED = ("src", "specs", "proofs", "out")


def made_harmless(text: str) -> str:
    """An edit whose new text is its old one with a comment."""
    return re.sub(r"^old: (.*)\nnew:.*$", r"old: \1\nnew: \1 /* as before */", text, flags=re.M)


def copied(top: pathlib.Path, room: pathlib.Path, harmless: Sequence[pathlib.Path]) -> None:
    """Fills a folder with links to the crates, and with copies of their edits, of which these are
    made harmless."""
    (room / "crates.txt").write_bytes((top / "crates.txt").read_bytes())
    for folder in (top / "crates").iterdir():
        copy = room / "crates" / folder.name
        copy.mkdir(parents=True)
        for part in LINKED:
            if (folder / part).is_dir():
                (copy / part).symlink_to(folder / part)
    if (top / try_edits.KEPT).is_dir():
        (room / try_edits.KEPT).parent.mkdir()
        shutil.copytree(top / try_edits.KEPT, room / try_edits.KEPT)
    for path in top.glob(f"crates/*/{try_edits.FOLDER}/*.edit"):
        copy = room / path.relative_to(top)
        copy.parent.mkdir(exist_ok=True)
        text = path.read_text(encoding="utf-8")
        copy.write_text(made_harmless(text) if path in harmless else text, encoding="utf-8")


def main() -> int:
    arguments = argparse.ArgumentParser(
        description="Shows that try_edits.py fails where an edit is harmless."
    )
    arguments.add_argument("--count", type=int, default=20)
    arguments.add_argument("--seed", type=int, default=1)
    given = arguments.parse_args()
    every = sorted(try_edits.TOP.glob(f"crates/*/{try_edits.FOLDER}/*.edit"))
    harmless = sorted(random.Random(given.seed).sample(every, given.count))
    names = sorted({it.parents[1].name for it in harmless})
    with tempfile.TemporaryDirectory() as room, contextlib.redirect_stdout(io.StringIO()) as said:
        copied(try_edits.TOP, pathlib.Path(room), harmless)
        status = try_edits.main(names, pathlib.Path(room))
    lines = said.getvalue().splitlines()
    expected = {f"{it.parents[1].name}/{it.name}: NOT REFUSED: {PROVED}" for it in harmless}
    found = {it for it in lines if ": NOT REFUSED: " in it}
    print("\n".join(sorted(found)))
    for line in sorted(expected ^ found):
        print(f"FAILED: {'is not so' if line in expected else 'was not expected'}: {line}")
    print(
        f"harmless_edits: {len(expected & found)} of {len(expected)} were told, of {len(lines) - 1} edits; try_edits ended with status {status}"
    )
    return 0 if expected == found and status == 1 else 1


if __name__ == "__main__":
    sys.exit(main())
