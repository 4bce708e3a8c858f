"""The sentence of each refusal and fault stands once, in the crates; the tools' table and
docs/LINES.md repeat it.

It is the text of the variant's `#[error]`. A refusal that is no error has the first sentence of its
`///` comment.
"""
import re
import unittest
from collections.abc import Iterator, Mapping

from bg_switch_tools.switch.meanings import FAULTS, HINTS, REFUSALS
from tests.tool_runs import TOP

CRATES = (
    "bg_strategy_text",
    "bg_revisions",
    "bg_promotion",
    "bg_rollout",
    "bg_book",
    "bg_operator",
    "bg_script",
)
OF_LINES, OF_STRATEGIES = "LineFault", "StrategyFault"
# Their variants are written as refusals, or become one that is.
REFUSING = (
    "AbortFault",
    "RetryFault",
    "PromoteFault",
    "PromoteFullFault",
    "VerdictFault",
    "RevisionFault",
    "ControlFault",
    "OpenFault",
    "EnterFault",
)
# Of these some variants are: those that the files write as `refused NAME`.
ANSWERS, WRITERS = ("Reply", "Answer"), ("bg_report/src/replies.rt", "bg_script/src/answer.rt")

ENUM = re.compile(r"^pub enum (\w+) \{\n(.*?)^\}", re.M | re.S)
# A variant that holds another fault has the sentence of that one.
HOLDER = re.compile(r"(?: {4}///.*\n)* {4}#\[error\(transparent\)\]\n.*\n")
VARIANT = re.compile(r'((?: {4}///.*\n)*)(?: {4}#\[error\("(.*)"\)\]\n)? {4}(\w+)(?:[({].*)?,\n')

Sentences = dict[str, str]


def told(comment: str, error: str) -> str:
    """The sentence of a variant."""
    if error:
        return error.replace("{0}", "FIELD")
    first = " ".join(comment.replace("///", "").split()).split(".")[0]
    return first[:1].lower() + first[1:]


def enums() -> Iterator[tuple[str, Sentences]]:
    """The public enums of the crates, each with the sentences of its variants."""
    for crate in CRATES:
        for file in sorted((TOP / "crates" / crate / "src").rglob("*.rt")):
            for name, body in ENUM.findall(file.read_text(encoding="utf-8")):
                yield name, {
                    variant: told(comment, error)
                    for comment, error, variant in VARIANT.findall(HOLDER.sub("", body))
                }


def table_of(heading: str, end: str, pattern: str) -> Sentences:
    """The names of a table of docs/LINES.md, each with what its row says of it."""
    page = (TOP / "docs" / "LINES.md").read_text(encoding="utf-8")
    part = page.split(heading, 1)[1].split(end, 1)[0]
    return {
        name: why.replace("`", "")
        for name, why in re.findall(rf"^\| `{pattern}` \| (.*?) \|", part, re.M)
    }


class Told(unittest.TestCase):
    def setUp(self) -> None:
        self.of = dict(enums())
        self.refusals: Sentences = {}
        for enum in REFUSING:
            self.take(enum, self.of[enum])
        written = "".join((TOP / "crates" / file).read_text(encoding="utf-8") for file in WRITERS)
        for name in re.findall(r'"refused (\w+)"', written):
            if name not in self.refusals:
                self.refusals[name] = next(
                    self.of[enum][name] for enum in ANSWERS if name in self.of[enum]
                )

    def take(self, enum: str, sentences: Sentences) -> None:
        """Takes the sentences of an error type in, which are those that others have of the same
        names."""
        for name, sentence in sentences.items():
            self.assertEqual(
                self.refusals.setdefault(name, sentence),
                sentence,
                f"{enum}::{name} has another sentence",
            )

    def check(
        self, where: str, cells: Mapping[str, str], sentences: Mapping[str, str], *left_out: str
    ) -> None:
        """Each name has a row, and the row begins with its sentence."""
        self.assertEqual(
            sorted(cells), sorted(set(sentences) - set(left_out)), f"{where} has other names"
        )
        for name, why in cells.items():
            with self.subTest(name):
                self.assertRegex(why, rf"^{re.escape(sentences[name])}(?:[:;,.] .*)?$", where)

    def test_each_is_a_sentence(self) -> None:
        self.assertGreater(len(self.refusals), 25)
        for name, sentence in [
            *self.refusals.items(),
            *self.of[OF_LINES].items(),
            *self.of[OF_STRATEGIES].items(),
        ]:
            self.assertRegex(sentence, r"^[a-zF0-9].{10,}[^.]$", name)

    def test_the_tables_of_the_tools(self) -> None:
        for table, sentences in ((REFUSALS, self.refusals), (FAULTS, self.of[OF_LINES])):
            for name in sorted({*table, *sentences}):
                with self.subTest(name):
                    self.assertEqual(table.get(name), sentences.get(name))
        self.assertEqual(set(HINTS) - set(REFUSALS) - set(FAULTS), set())

    def test_the_refusals_of_the_page(self) -> None:
        cells = table_of("What the refusals mean:", "\n## ", r"(\w+)")
        # (an operator can't order a number of seats, nor other limits)
        self.check("docs/LINES.md", cells, self.refusals, "BadSeats", "BadLimits")

    def test_the_faults_of_the_page(self) -> None:
        self.check(
            "docs/LINES.md",
            table_of("## How a line is read", "\n## ", r"([A-Z]\w+)"),
            self.of[OF_LINES],
        )

    def test_the_faults_of_a_strategy_on_the_page(self) -> None:
        cells = table_of(
            "## What the program prints", "FIELD is `document`", r"fault (\w+)(?: FIELD)?"
        )
        # (TooLarge, Bind and Journal are no faults of the text; that memory is refused is told on standard
        # error)
        named = {
            name: why for name, why in cells.items() if name not in ("TooLarge", "Bind", "Journal")
        }
        self.check("docs/LINES.md", named, self.of[OF_STRATEGIES], "OutOfMemory")


if __name__ == "__main__":
    unittest.main()
