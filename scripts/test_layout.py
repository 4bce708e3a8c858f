"""Tests of layout.py: python3 -m unittest scripts/test_layout.py"""
import os
import pathlib
import subprocess
import sys
import tempfile
import unittest

sys.path.insert(0, os.path.dirname(os.path.abspath(__file__)))

from layout import unlike_the_layout  # noqa: E402  (the path stands above)

GOOD = "//! A crate.\n\nfn one() -> u32 {\n    1\n}\n"
BAD = "//! A crate.\n\nfn one() -> u32 { 1\n}\n"


class Layout(unittest.TestCase):
    """A repository with two crates."""

    def setUp(self) -> None:
        self.top = pathlib.Path(self.enterContext(tempfile.TemporaryDirectory()))
        for name in ("first", "second"):
            self.write(f"crates/{name}/src/lib.rt", GOOD)
        self.write("crates.txt", "first:\nsecond: first\n")
        subprocess.run(["git", "init", "--quiet", self.top], check=True)
        subprocess.run(["git", "add", "--all"], cwd=self.top, check=True)

    def write(self, name: str, text: str) -> None:
        (self.top / name).parent.mkdir(parents=True, exist_ok=True)
        (self.top / name).write_text(text, encoding="ascii")

    def test_all_is_in_the_layout(self) -> None:
        self.assertEqual(unlike_the_layout(self.top), [])

    def test_a_file_that_is_not_is_named_and_stays(self) -> None:
        self.write("crates/second/src/lib.rt", BAD)
        self.assertEqual(unlike_the_layout(self.top), ["crates/second/src/lib.rt"])
        kept = (self.top / "crates/second/src/lib.rt").read_text(encoding="ascii")
        self.assertEqual(kept, BAD)

    def test_a_file_that_was_removed_is_left_out(self) -> None:
        (self.top / "crates/second/src/lib.rt").unlink()
        self.assertEqual(unlike_the_layout(self.top), [])


if __name__ == "__main__":
    unittest.main()
