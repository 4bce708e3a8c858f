"""Tests of quick.py: python3 -m unittest scripts/test_quick.py"""
import os
import pathlib
import sys
import tempfile
import unittest

sys.path.insert(0, os.path.dirname(os.path.abspath(__file__)))

import quick  # noqa: E402  (the path stands above)
from crate_list import crates_in  # noqa: E402

CRATES = "low:\nother:\nmiddle: low\ntests: middle\n"


class Quick(unittest.TestCase):
    def setUp(self) -> None:
        room = tempfile.TemporaryDirectory()
        self.addCleanup(room.cleanup)
        self.top = pathlib.Path(room.name)
        self.crates = crates_in(CRATES)
        for name in self.crates:
            (self.top / "crates" / name / "src").mkdir(parents=True)
        self.write("tests/src/lib.rt", "#[test]\nfn t() {}\n")
        self.write("low/wrong-bodies/a.edit", "")
        self.write("middle/must-fail/a.edit", "")

    def write(self, path: str, text: str) -> None:
        file = self.top / "crates" / path
        file.parent.mkdir(exist_ok=True)
        file.write_text(text, encoding="utf-8")

    def steps(self, *changed: str) -> list[str]:
        steps = quick.steps_for(self.top, self.crates, changed)
        return [
            f"{it.folder.name if it.folder != self.top else 'top'}: {' '.join(it.words)}"
            for it in steps
        ]

    def test_finds_the_crates_that_differ(self) -> None:
        before = crates_in("low:\nother: core\nmiddle: low\n")
        files = [
            "crates/middle/src/lib.rt",
            "docs/LINES.md",
            "crates.txt",
            "crates/gone/src/lib.rt",
        ]
        self.assertEqual(
            quick.changed_crates(files, self.crates, before), ["other", "middle", "tests"]
        )
        self.assertEqual(quick.changed_crates([], self.crates, self.crates), [])

    def test_takes_the_crates_above(self) -> None:
        self.assertEqual(
            self.steps("low"),
            [
                "low: rt lib",
                "middle: rt lib",
                "tests: rt check",
                "tests: rt test",
                "top: rt must-fail middle",
                "top: scripts/try_edits.py low",
            ],
        )

    def test_builds_what_stands_below(self) -> None:
        self.assertEqual(
            self.steps("middle"),
            [
                "low: rt lib",
                "middle: rt lib",
                "tests: rt check",
                "tests: rt test",
                "top: rt must-fail middle",
            ],
        )
        self.assertEqual(
            self.steps("tests"),
            ["low: rt lib", "middle: rt lib", "tests: rt check", "tests: rt test"],
        )

    def test_does_nothing_where_nothing_differs(self) -> None:
        self.assertEqual(self.steps(), [])


if __name__ == "__main__":
    unittest.main()
