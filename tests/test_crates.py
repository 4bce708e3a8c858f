"""crates.txt, the drawing of the crates in docs/ARCHITECTURE.md, and the first sentence of each
crate tell the same."""
import re
import unittest

from crate_list import crates_in
from tests.tool_runs import TOP
from tools.crate_map import DRAWING, PAGE, drawing, layers_of, map_of, nearest

CRATES = crates_in((TOP / "crates.txt").read_text(encoding="utf-8"))
MEND = "run tools/crate_map.py --write"
MOST_LINES_DRAWN = 80
SMALL = crates_in(
    "bg_low: std\nbg_beside:\nbg_middle: bg_low std\nbg_top: bg_low bg_middle bg_beside\n"
)


class Layers(unittest.TestCase):
    def test_a_small_repository(self) -> None:
        self.assertEqual(
            layers_of(SMALL), {"bg_low": 0, "bg_beside": 0, "bg_middle": 1, "bg_top": 2}
        )
        self.assertEqual(nearest("bg_top", SMALL), ["bg_middle", "bg_beside"])

    def test_crates_txt_is_in_the_order_of_the_layers(self) -> None:
        layers = layers_of(CRATES)
        for before, after in zip(CRATES, list(CRATES)[1:]):
            self.assertLessEqual(
                layers[before],
                layers[after],
                f"{after} stands lower than {before}, which is before it",
            )


class Drawn(unittest.TestCase):
    def test_the_page_has_the_drawing(self) -> None:
        found = DRAWING.search(PAGE.read_text(encoding="utf-8"))
        assert found, "docs/ARCHITECTURE.md has no block ```text under ## Crates"
        self.assertEqual(found[2], map_of(CRATES), MEND)

    def test_it_is_short_and_has_each_crate_once(self) -> None:
        lines = list(drawing(CRATES))
        self.assertLessEqual(len(lines), MOST_LINES_DRAWN)
        names = [found[1] for line in lines if (found := re.match(r"[ \d]{2} (\w+) ", line))]
        self.assertEqual(sorted(names), sorted(CRATES))


class Readmes(unittest.TestCase):
    def test_the_page_links_to_each_one_and_each_names_its_crate(self) -> None:
        page = PAGE.read_text(encoding="utf-8")
        readmes = sorted(TOP.glob("crates/*/README.md"))
        self.assertTrue(readmes)
        for readme in readmes:
            with self.subTest(readme.parent.name):
                self.assertIn(f"](../crates/{readme.parent.name}/README.md)", page)
                self.assertRegex(readme.read_text(encoding="utf-8"), rf"^# {readme.parent.name}: ")


if __name__ == "__main__":
    unittest.main()
