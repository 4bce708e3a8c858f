"""CONTRIBUTING.md names files that are there, and docs/GLOSSARY.md stays a page."""
import re
import subprocess
import unittest

from tests.tool_runs import TOP

PATH = re.compile(r"`([\w./*-]+/[\w.*-]*|[\w-]+\.(?:rt|antt|py|md|txt))`")
PLACEHOLDERS = ("NAME", "WHAT_IS_WRONG")
MOST_LINES_OF_THE_GLOSSARY = 125
MOST_LINES_OF_A_CHANGE = 25


def files() -> list[str]:
    told = subprocess.run(
        ["git", "ls-files"], cwd=TOP, capture_output=True, text=True, check=True
    ).stdout
    return told.splitlines()


def is_there(path: str, known: list[str]) -> bool:
    """Whether a file or a folder has this name or this end of a name; `*` stands for any part of
    it."""
    pattern = re.escape(path.rstrip("/")).replace(r"\*", "[^/]*")
    return any(re.search(rf"(?:^|/){pattern}(?:/|$)", file) for file in known)


class Contributing(unittest.TestCase):
    def setUp(self) -> None:
        self.text = (TOP / "CONTRIBUTING.md").read_text(encoding="utf-8")

    def test_each_file_is_there(self) -> None:
        known = files()
        paths = [
            path
            for path in PATH.findall(self.text)
            if not any(word in path for word in PLACEHOLDERS)
        ]
        self.assertGreater(len(paths), 50)
        for path in paths:
            with self.subTest(path):
                self.assertTrue(
                    is_there(path, known),
                    f"CONTRIBUTING.md names {path}, and no file has that name",
                )

    def test_a_change_is_one_page(self) -> None:
        change = self.text.split("\n## A change")[1].split("\n## ")[0]
        self.assertLessEqual(len(change.splitlines()), MOST_LINES_OF_A_CHANGE)


class Glossary(unittest.TestCase):
    def setUp(self) -> None:
        self.lines = (TOP / "docs" / "GLOSSARY.md").read_text(encoding="utf-8").splitlines()

    def test_it_is_short(self) -> None:
        self.assertLessEqual(len(self.lines), MOST_LINES_OF_THE_GLOSSARY)

    def test_each_term_stands_once(self) -> None:
        terms = [
            term
            for line in self.lines
            if line.startswith("| ")
            for term in line.split(" | ")[0][2:].split(", ")
        ]
        twice = {term for term in terms if terms.count(term) > 1} - {"Term"}
        self.assertEqual(twice, set())
        self.assertTrue(
            all(line.count("|") == 5 for line in self.lines if line.startswith("|")),
            "a row has four cells",
        )


if __name__ == "__main__":
    unittest.main()
