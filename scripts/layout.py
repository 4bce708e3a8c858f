#!/usr/bin/env python3
"""Names each file of the crates that `rt fmt` would change, on standard output. It works on a copy.

Exit status: 0 if there is none, 1 if there is one.
"""
import concurrent.futures
import os
import pathlib
import shutil
import subprocess
import sys
import tempfile
from collections.abc import Sequence

TOP = pathlib.Path(__file__).resolve().parents[1]


def tracked(top: pathlib.Path) -> list[str]:
    """The tracked files of the crates, and the list of crates."""
    done = subprocess.run(
        ["git", "ls-files", "-z", "crates.txt", "crates"], cwd=top, capture_output=True, check=True
    )
    names = done.stdout.decode().split("\0")[:-1]
    return [name for name in names if (top / name).is_file()]


def copy(top: pathlib.Path, names: Sequence[str], place: pathlib.Path) -> None:
    for name in names:
        (place / name).parent.mkdir(parents=True, exist_ok=True)
        shutil.copyfile(top / name, place / name)


def format_crate(crate: pathlib.Path) -> None:
    """Formats a crate. `CalledProcessError` if it has a file that cannot be read."""
    subprocess.run(["rt", "fmt"], cwd=crate, stdout=subprocess.DEVNULL, check=True)


def unlike_the_layout(top: pathlib.Path) -> list[str]:
    """The files that `rt fmt` would change."""
    names = tracked(top)
    with tempfile.TemporaryDirectory() as folder:
        place = pathlib.Path(folder)
        copy(top, names, place)
        crates = sorted({place.joinpath(*pathlib.PurePath(name).parts[:2]) for name in names})
        with concurrent.futures.ThreadPoolExecutor(os.cpu_count()) as threads:
            list(threads.map(format_crate, filter(pathlib.Path.is_dir, crates)))
        return [name for name in names if (place / name).read_bytes() != (top / name).read_bytes()]


def main() -> int:
    found = unlike_the_layout(TOP)
    for name in found:
        print(f"{name} is not in the layout: run rt fmt in its crate")
    return 1 if found else 0


if __name__ == "__main__":
    sys.exit(main())
