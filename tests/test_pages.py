"""The pages: each relative link leads to a file and to a heading of it, each path and target that
is named is there, no paragraph and no row of a table of the manual is long, and the map of
definitions is that of the files."""
import contextlib
import io
import pathlib
import re
import tempfile
import unittest
from collections.abc import Iterator

from tests.tool_runs import TOP
from tools import definitions

LEAST_LINKS = 60
MOST_WORDS_OF_README = 1300
LINES_OF_A_SCREEN = 12
MOST_WORDS_OF_A_PARAGRAPH = 90


def pages(top: pathlib.Path) -> list[pathlib.Path]:
    return sorted(
        page
        for place in ("", ".github/", "docs/**/", "examples/**/", "crates/*/", "model/")
        for page in top.glob(f"{place}*.md")
    )


def without_code(text: str) -> str:
    return re.sub(r"^```.*?^```$", "", text, flags=re.M | re.S)


def anchors_of(page: pathlib.Path) -> set[str]:
    """The anchors that a page's headings have, as GitHub makes them."""
    headings = re.findall(r"^#+ (.*)$", without_code(page.read_text(encoding="utf-8")), re.M)
    return {re.sub(r"[^\w\- ]", "", heading.lower()).replace(" ", "-") for heading in headings}


def links_of(page: pathlib.Path) -> list[str]:
    return re.findall(r"\]\((?!https?:)([^)\s]+)\)", without_code(page.read_text(encoding="utf-8")))


def is_broken(page: pathlib.Path, link: str) -> bool:
    place, _, anchor = link.partition("#")
    target = page.parent / place if place else page
    return not target.exists() or bool(anchor) and anchor not in anchors_of(target)


def broken_links(top: pathlib.Path) -> list[str]:
    return [
        f"{page.relative_to(top)}: {link}"
        for page in pages(top)
        for link in links_of(page)
        if is_broken(page, link)
    ]


class Links(unittest.TestCase):
    def test_each_link_leads_somewhere(self) -> None:
        self.assertEqual(broken_links(TOP), [])
        self.assertGreater(sum(len(links_of(page)) for page in pages(TOP)), LEAST_LINKS)

    def test_what_is_broken_is_found(self) -> None:
        with tempfile.TemporaryDirectory() as folder:
            top = pathlib.Path(folder)
            (top / "docs").mkdir()
            (top / "README.md").write_text(
                "[a](docs/A.md#the-first-part) [b](docs/B.md) [c](docs/A.md#other) [d](#none)\n",
                encoding="ascii",
            )
            (top / "docs" / "A.md").write_text(
                "# The `first` part\n```sh\n# other\n```\n[up](../README.md)\n", encoding="ascii"
            )
            self.assertEqual(
                broken_links(top),
                ["README.md: docs/B.md", "README.md: docs/A.md#other", "README.md: #none"],
            )


def missing_names(top: pathlib.Path, text: str) -> list[str]:
    """The paths and the targets of make that a text names in vain."""
    paths = set(re.findall(r"(?<![\w/.])(?:bin|docs|examples|scripts)/[\w./*]*\w", text))
    targets = set(re.findall(r"^([a-z-]+):", (top / "Makefile").read_text(encoding="utf-8"), re.M))
    named = {word for span in re.findall(r"`make ([a-z -]+)", text) for word in span.split()}
    return sorted({path for path in paths if not any(top.glob(path))} | (named - targets))


class Names(unittest.TestCase):
    def test_what_the_pages_for_people_name_is_there(self) -> None:
        for page in (*TOP.glob("*.md"), *TOP.glob(".github/*.md")):
            if page.name != "CHANGELOG.md":  # it names what a version had
                with self.subTest(page=page.name):
                    self.assertEqual(missing_names(TOP, page.read_text(encoding="utf-8")), [])

    def test_what_is_missing_is_found(self) -> None:
        with tempfile.TemporaryDirectory() as folder:
            top = pathlib.Path(folder)
            (top / "Makefile").write_text("build:\ntest-tools:\n", encoding="ascii")
            (top / "bin").mkdir()
            (top / "bin" / "tool").touch()
            self.assertEqual(
                missing_names(top, "`make build test-tools`, `make demo`, `bin/tool`, bin/other."),
                ["bin/other", "demo"],
            )

    def test_readme_is_short(self) -> None:
        self.assertLessEqual(
            len((TOP / "README.md").read_text(encoding="utf-8").split()), MOST_WORDS_OF_README
        )

    def test_the_first_screen_has_the_first_questions_of_a_reader(self) -> None:
        screen = "\n".join(
            (TOP / "README.md").read_text(encoding="utf-8").splitlines()[:LINES_OF_A_SCREEN]
        )
        self.assertRegex(screen, r"\*\*Requests at a time:\*\* .*\b1,023\b")
        self.assertRegex(screen, r"\*\*The first command\*\* .*\bminutes\b")
        self.assertRegex(screen, r"\bapt-get install .*\bin a minute\b")
        self.assertRegex(screen, r"`make test` takes .*\bmemory\b")


def manual(top: pathlib.Path) -> list[pathlib.Path]:
    """The pages that explain something."""
    return [
        page
        for place in ("README.md", "CONTRIBUTING.md", "docs/**/*.md")
        for page in sorted(top.glob(place))
    ]


def paragraphs_of(text: str) -> Iterator[tuple[int, int]]:
    """The number of the first line and the number of words of each paragraph, quote, item of a
    list and row of a table. Headings and code blocks are left out."""
    first, words, is_code = 0, 0, False
    for number, line in enumerate([*text.splitlines(), ""], 1):
        told = re.sub(r"^\s*(?:> ?)*\s*", "", line)
        is_fence = told.startswith("```")
        is_code ^= is_fence
        is_row = not is_code and told.startswith("|")
        is_told = not (is_code or is_fence or is_row or re.match(r"#+ |$", told))
        if words and (not is_told or re.match(r"(?:[-*+]|\d+[.)]) ", told)):
            yield first, words
            words = 0
        if is_row:
            yield number, len(told.replace("|", " ").split())
        if is_told:
            first = first if words else number
            words += len(told.split())


def long_paragraphs(top: pathlib.Path) -> list[str]:
    return [
        f"{page.relative_to(top)}:{line}: {words} words"
        for page in manual(top)
        for line, words in paragraphs_of(page.read_text(encoding="utf-8"))
        if words > MOST_WORDS_OF_A_PARAGRAPH
    ]


class Paragraphs(unittest.TestCase):
    def test_none_is_long(self) -> None:
        self.assertEqual(long_paragraphs(TOP), [])
        self.assertGreater(len(manual(TOP)), 10)

    def test_what_is_long_is_found(self) -> None:
        most = " ".join(["word"] * MOST_WORDS_OF_A_PARAGRAPH)
        item, long = most.removesuffix(" word"), f"{most} word"
        cells, long_cells = (f"| a | {words} |" for words in (item, most))
        page = [
            *(f"# {long}", most, "", long, "", most, "word", ""),
            *(f"- {item}", f"  - {item}", "", f"    {most}", f"1. {item}", f"2. {most}", ""),
            *(f"> {most}", ">", f"> {long}", f"> - {item}", ""),
            *("```sh", long, f"# {long}", "```", f"| {long} |", f"| {most} |", most, ""),
            *("  ```", long, "", long, "  ```", long, ""),
            *("| a | b |", "|---|---|", cells, long_cells, f"|{item}|word more|"),
            *(f"> {long_cells}", ""),
            *(most, cells, most, "", long, long_cells, "", "```", long_cells, "```"),
        ]
        with tempfile.TemporaryDirectory() as folder:
            top = pathlib.Path(folder)
            (top / "docs" / "decisions").mkdir(parents=True)
            (top / "docs" / "A.md").write_text("\n".join(page), encoding="ascii")
            for name in ("README.md", "CONTRIBUTING.md"):
                (top / name).write_text(long, encoding="ascii")
            (top / "docs" / "decisions" / "a.md").write_text(long, encoding="ascii")
            self.assertEqual(
                long_paragraphs(top),
                [
                    "README.md:1: 91 words",
                    "CONTRIBUTING.md:1: 91 words",
                    "docs/A.md:4: 91 words",
                    "docs/A.md:6: 91 words",
                    "docs/A.md:14: 91 words",
                    "docs/A.md:18: 91 words",
                    "docs/A.md:25: 91 words",
                    "docs/A.md:34: 91 words",
                    "docs/A.md:39: 91 words",
                    "docs/A.md:40: 91 words",
                    "docs/A.md:41: 91 words",
                    "docs/A.md:47: 91 words",
                    "docs/A.md:48: 91 words",
                    "docs/decisions/a.md:1: 91 words",
                ],
            )


class Definitions(unittest.TestCase):
    def test_the_map_is_that_of_the_files(self) -> None:
        page = definitions.PAGE.read_text(encoding="utf-8")
        self.assertEqual(page.count(definitions.MARK), 1)
        self.assertEqual(page, definitions.page_of(page, TOP), "run tools/definitions.py")

    def test_names_and_crates(self) -> None:
        told, faults = io.StringIO(), io.StringIO()
        with contextlib.redirect_stdout(told), contextlib.redirect_stderr(faults):
            self.assertEqual(definitions.main(["is_running", "bg_endpoints", "is_nowhere"]), 1)
        self.assertRegex(
            told.getvalue(), r"(?m)^crates/bg_history/specs/AttemptBounds\.antt:\d+: is_running: \w"
        )
        self.assertRegex(told.getvalue(), r"(?m)^crates/bg_endpoints/specs/OwnPorts\.antt: \w")
        self.assertEqual(
            faults.getvalue(),
            "no definition and no crate with definitions has the name is_nowhere\n",
        )

    def test_a_file(self) -> None:
        text = "-- What holds,\n-- so far. More.\nuse Rattle.x\n\n-- it is\n-- so\nabbrev pub is_so : Bool\nis_so = true\n\n  pub record Known (X : Type 0) where\n"
        self.assertEqual(definitions.subject_of(text), "What holds, so far. More.")
        self.assertEqual(
            list(definitions.definitions_of(text)),
            [
                ("is_so", 7, "it is so", "abbrev pub is_so : Bool\nis_so = true"),
                ("Known", 10, "", "  pub record Known (X : Type 0) where"),
            ],
        )


if __name__ == "__main__":
    unittest.main()
