#!/usr/bin/env python3
"""Prints which functions make most of what the check of a crate proves, by the sizes of the modules
that it kept.

usage: scripts/proof_sizes.py [NAME..]        after `rt check` or `rt lib` of these crates; without a name, of all

It proves nothing. A size does not depend on what else the machine does, as a time does. The paths
of a function (its module `Lts`) have each value that the function owns, with all its fields, at
each place where the value may be dropped, unless the type has an `impl Drop`.
"""
import pathlib
import re
import sys
from collections import Counter

TOP = pathlib.Path(__file__).resolve().parents[1]
MOST = 12
# The modules that the prover makes of one function.
PARTS = "decls|Lts|Proof|Tie|Layout|Met|Statement|Mir|Key|Code|Reads|Kinds|Named|Answers|Invariants|Symbol|TheLink"


def function_of(module: str, crate: str) -> str:
    """The function, or the file of specs or proofs, to which a module belongs."""
    inside = re.sub(rf"^Rattle[-.]{crate}[-.](?:proofs|specs)[-.]?", "", module)
    return re.sub(rf"(?:\.(?:{PARTS}))+$", "", inside)


def sizes_of(crate: str, kept: pathlib.Path) -> tuple[Counter[str], Counter[str]]:
    """The bytes of each function in the folder of kept modules, and those of its paths."""
    whole: Counter[str] = Counter()
    paths: Counter[str] = Counter()
    for file in kept.rglob("*.oantt"):
        size, function = file.stat().st_size, function_of(file.stem, crate)
        whole[function] += size
        paths[function] += size if file.stem.endswith(".Lts") else 0
    return whole, paths


def main() -> int:
    for crate in sys.argv[1:] or sorted(it.parent.name for it in (TOP / "crates").glob("*/src")):
        whole, paths = sizes_of(crate, TOP / "crates" / crate / "out/incremental")
        if not whole:
            print(f"{crate}: nothing is kept: run `rt check` in its folder")
            continue
        total = whole.total()
        print(
            f"{crate}: {total / 1e6:.0f} MB, of which the paths of functions are {paths.total() / 1e6:.0f} MB"
        )
        for function, size in whole.most_common(MOST):
            print(
                f"  {size / 1e6:6.1f} MB {100 * size / total:3.0f}%  paths {paths[function] / 1e6:5.1f}  {function}"
            )
    return 0


if __name__ == "__main__":
    sys.exit(main())
