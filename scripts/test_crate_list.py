"""Tests of crate_list.py: python3 -m unittest scripts/test_crate_list.py"""
import os
import sys
import unittest

sys.path.insert(0, os.path.dirname(os.path.abspath(__file__)))

from crate_list import all_above, all_below, crates_in  # noqa: E402  (the path stands above)

CRATES = """# a comment: passed over
low may_wait=2: std
other:
middle tests_may=Threads+Wait: low std
top: middle other core
"""


class CrateList(unittest.TestCase):
    def setUp(self) -> None:
        self.crates = crates_in(CRATES)

    def test_reads_a_line(self) -> None:
        self.assertEqual(list(self.crates), ["low", "other", "middle", "top"])
        self.assertEqual(self.crates["top"].below, ["middle", "other"])
        self.assertEqual(self.crates["top"].of_kit, ["core"])
        self.assertEqual([it.may_wait for it in self.crates.values()], [2, 0, 0, 0])

    def test_finds_all_below_lowest_first(self) -> None:
        self.assertEqual(all_below(self.crates, "top"), ["low", "middle", "other"])
        self.assertEqual(all_below(self.crates, "low"), [])

    def test_finds_all_above(self) -> None:
        self.assertEqual(all_above(self.crates, ["low"]), ["low", "middle", "top"])
        self.assertEqual(all_above(self.crates, ["other", "middle"]), ["other", "middle", "top"])
        self.assertEqual(all_above(self.crates, []), [])


if __name__ == "__main__":
    unittest.main()
