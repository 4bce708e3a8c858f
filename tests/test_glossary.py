"""No identifier of the code has a word that docs/GLOSSARY.md replaces."""
import unittest

from identifiers import GLOSSARY, Place, places, places_in, sources, words_to_avoid
from tests.tool_runs import TOP

LEAST_WORDS = 40
PAGE = """\
| Term | What it is | Not | Source |
|---|---|---|---|
| template | a name and ports | `owner`, form | Argo |
| line | a text | `Order`, `turn away` | own |
"""


class Words(unittest.TestCase):
    def test_only_words_in_code_font_count(self) -> None:
        self.assertEqual(words_to_avoid(PAGE), ("owner", "Order", "turn away"))

    def test_the_glossary_has_many(self) -> None:
        self.assertGreaterEqual(
            len(words_to_avoid((TOP / GLOSSARY).read_text(encoding="utf-8"))), LEAST_WORDS
        )


class Identifiers(unittest.TestCase):
    def found(self, file: str, text: str) -> list[str]:
        return [place.identifier for place in places_in(file, text, words_to_avoid(PAGE))]

    def test_a_word_is_found_as_a_part(self) -> None:
        self.assertEqual(
            self.found("a.rt", "fn has_owner(o: TheOwner) {}"), ["has_owner", "TheOwner"]
        )
        self.assertEqual(
            self.found("a.antt", "is-owner-now : Form → Owner"), ["is-owner-now", "Owner"]
        )
        self.assertEqual(
            self.found("a.py", "def turn_away(homeowner: int) -> None: ..."), ["turn_away"]
        )
        self.assertEqual(
            self.found("a.js", "const hasOwner = (owners) => turnAway(OWNER);"),
            ["hasOwner", "turnAway", "OWNER"],
        )

    def test_a_type_is_found_by_its_whole_name(self) -> None:
        self.assertEqual(
            self.found("a.rt", "use x::{Order, Ordering}; let order = OrderFault;"), ["Order"]
        )

    def test_names_of_the_kit_s_libraries_are_not_looked_at(self) -> None:
        text = "use Rattle.sqlite.specs.Order.{Order, owner as holder,\n  form as owner}\nowner : Order"
        self.assertEqual(self.found("a.antt", text), ["owner", "owner", "Order"])
        self.assertEqual(
            self.found("a.rt", "ghost use Rattle.bg_book.specs.Order.{owner};"), ["Order", "owner"]
        )
        self.assertEqual(
            [place.line for place in places_in("a.antt", text, words_to_avoid(PAGE))], [2, 3, 3]
        )

    def test_comments_and_texts_are_not_looked_at(self) -> None:
        self.assertEqual(
            self.found(
                "a.rt", 'let x = "owner \\" owner"; // owner\nlet y = \'"\'; let owner = 1;'
            ),
            ["owner"],
        )
        self.assertEqual(
            self.found("a.py", '"""An owner\nis."""\n# owner\nx = "#"; owner = 1\n'), ["owner"]
        )
        self.assertEqual(self.found("a.antt", "-- owner\na = owner"), ["owner"])

    def test_comments_and_texts_of_the_page_are_not_looked_at(self) -> None:
        for text in (
            "// owner",
            "/* owner\nowner */",
            r'"owner \" owner"',
            r"'owner \' owner'",
            "`owner\nowner`",
            r"`\`owner`",
            "`$owner {`",
            "`an ${x ? `owner` : 'owner'} owner`",
            "`an ${x ? `owner ${y} owner` : `owner`} owner`",
        ):
            with self.subTest(text):
                self.assertEqual(
                    self.found("a.js", f"const x = 1; {text}\nconst theOwner = 1;"), ["theOwner"]
                )

    def test_a_place_has_its_line(self) -> None:
        self.assertEqual(
            list(places_in("a.py", '"""Two\nlines."""\nowner = 1\n', ("owner",))),
            [Place("a.py", 3, "owner", "owner")],
        )

    def test_a_word_is_found_in_each_file_of_the_page(self) -> None:
        files = [file for file in sources(TOP) if file.endswith(".js")]
        self.assertIn("lib/bg_switch_tools/dashboard/page/dashboard.js", files)
        for file in files:
            with self.subTest(file):
                lines = [
                    *(TOP / file).read_text(encoding="utf-8").splitlines(),
                    "const theOwner = 1;",
                ]
                self.assertEqual(
                    list(places_in(file, "\n".join(lines), words_to_avoid(PAGE))),
                    [Place(file, len(lines), "theOwner", "owner")],
                )

    def test_the_code_has_none(self) -> None:
        self.assertEqual("\n".join(str(place) for place in places(TOP)), "")


if __name__ == "__main__":
    unittest.main()
