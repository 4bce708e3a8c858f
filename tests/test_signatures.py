"""No function has more than five parameters."""
import pathlib
import tempfile
import unittest

from signatures import (
    Signature,
    end_of_brackets,
    parts_between,
    python_signatures,
    rattle_signatures,
    signatures,
    too_long,
)
from tests.tool_runs import TOP

LEAST_FUNCTIONS = 1000
SIX = "fn six(a: u8, b: u8, c: u8, d: u8, e: u8, f: u8) {}\n"
METHOD = """\
impl A {
    /// A word, and a comma.
    pub fn a(
        &mut self, // itself, no other
        b: u8,
    )
        requires { b < 2 }
    {}
}
"""


class Brackets(unittest.TestCase):
    def test_an_arrow_closes_nothing(self) -> None:
        self.assertEqual(end_of_brackets("<F: Fn(u8) -> u8>(f: F)", 0), len("<F: Fn(u8) -> u8>"))

    def test_a_bracket_without_an_end_is_a_fault(self) -> None:
        with self.assertRaises(ValueError):
            end_of_brackets("(a: u8", 0)

    def test_commas_in_brackets_part_nothing(self) -> None:
        self.assertEqual(
            parts_between("(u8, u8), Vec<Map<u8, u8>>,[u8; 2],\n"),
            ["(u8, u8)", " Vec<Map<u8, u8>>", "[u8; 2]"],
        )
        self.assertEqual(parts_between(" "), [])


class Rattle(unittest.TestCase):
    def counts(self, text: str) -> list[tuple[str, int]]:
        return [
            (signature.function, signature.parameters)
            for signature in rattle_signatures("a.rt", text)
        ]

    def test_self_and_the_allocator_count(self) -> None:
        self.assertEqual(
            self.counts("fn open(&self, alloc: Global, name: &str) -> u8 {}"), [("open", 3)]
        )
        self.assertEqual(self.counts("fn now() -> u8 {}"), [("now", 0)])

    def test_types_with_commas_are_one_parameter(self) -> None:
        self.assertEqual(
            self.counts(
                "fn a<F: Fn(u8, u8) -> u8, T>(f: &F, r: Result<(u8, T), u8>, g: &dyn Fn(u8, u8)) {}"
            ),
            [("a", 3)],
        )

    def test_parameters_on_lines_of_their_own(self) -> None:
        self.assertEqual(list(rattle_signatures("a.rt", METHOD)), [Signature("a.rt", 3, "a", 2)])

    def test_comments_and_texts_are_not_looked_at(self) -> None:
        self.assertEqual(self.counts(f'// {SIX}let x = "{SIX.strip()}";\n'), [])

    def test_a_function_without_a_list_is_a_fault(self) -> None:
        with self.assertRaises(ValueError):
            self.counts("fn a {}")


class Python(unittest.TestCase):
    def counts(self, text: str) -> list[tuple[str, int]]:
        return sorted(
            (signature.function, signature.parameters)
            for signature in python_signatures("a.py", text)
        )

    def test_the_object_of_a_method_does_not_count(self) -> None:
        text = "class A:\n    def a(self, b): ...\n    @classmethod\n    def c(cls, d): ...\n    @staticmethod\n    def e(f): ...\n"
        self.assertEqual(self.counts(text), [("a", 1), ("c", 1), ("e", 1)])

    def test_a_function_in_a_method_is_no_method(self) -> None:
        self.assertEqual(
            self.counts("class A:\n    def a(self):\n        def b(c, d): ...\n"),
            [("a", 0), ("b", 2)],
        )

    def test_each_kind_of_parameter_counts(self) -> None:
        self.assertEqual(self.counts("async def a(b, /, c, *d, e=1, **f): ..."), [("a", 5)])


class Repository(unittest.TestCase):
    maxDiff = None  # all places are shown

    def test_a_function_with_six_parameters_is_found_by_name(self) -> None:
        top = pathlib.Path(self.enterContext(tempfile.TemporaryDirectory()))
        for folder in ("crates/bg_low/src/low", "crates/bg_tests_low/src", "lib/tools"):
            (top / folder).mkdir(parents=True)
        (top / "crates/bg_low/src/low/a.rt").write_text(
            f"fn five(a: u8, b: u8, c: u8, d: u8, e: u8) {{}}\n\n{SIX}", encoding="utf-8"
        )
        (top / "crates/bg_tests_low/src/a.rt").write_text(SIX, encoding="utf-8")
        (top / "lib/tools/a.py").write_text("def a(b, c, d, *, e, f, g): ...\n", encoding="utf-8")
        self.assertEqual(
            too_long(top),
            [
                Signature("crates/bg_low/src/low/a.rt", 3, "six", 6),
                Signature("lib/tools/a.py", 1, "a", 6),
            ],
        )

    def test_the_code_has_none(self) -> None:
        self.assertGreaterEqual(len(list(signatures(TOP))), LEAST_FUNCTIONS)
        self.assertEqual("\n".join(str(signature) for signature in too_long(TOP)), "")


if __name__ == "__main__":
    unittest.main()
