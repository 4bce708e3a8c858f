"""bench/journal.py: its limits, the turns of its rounds, the sizes of a journal, and its words. No test
runs a switch."""
import contextlib
import io
import pathlib
import sys
import tempfile
import unittest
from unittest import mock

from tests.test_beside_peers import module_of

with mock.patch.object(sys, "dont_write_bytecode", sys.dont_write_bytecode):
    BENCH = module_of("bench/journal.py")
    COMPARE = module_of("bench/compare.py")


def printed(*words: str) -> tuple[int, str]:
    """The exit status for these words, and what is printed."""
    out = io.StringIO()
    with contextlib.redirect_stdout(out), contextlib.redirect_stderr(out):
        try:
            status = BENCH.main(list(words))
        except SystemExit as end:
            status = end.code
    return status, out.getvalue()


class Ratios(unittest.TestCase):
    def judged(self, value: float, limit: float, is_least: bool) -> tuple[bool, str]:
        out = io.StringIO()
        with contextlib.redirect_stdout(out):
            kept = BENCH.holds("requests", value, limit, is_least)
        return kept, out.getvalue()

    def test_a_ratio_keeps_its_limit_or_misses_it(self) -> None:
        for value, is_least, kept in (
            (0.98, True, True),
            (0.979, True, False),
            (1.05, False, True),
            (1.051, False, False),
        ):
            with self.subTest(value=value):
                limit = BENCH.LEAST_REQUESTS if is_least else BENCH.MOST_P99
                found, line = self.judged(value, limit, is_least)
                self.assertEqual((found, "MISSED" in line), (kept, not kept))

    def test_the_ratios_are_lines_of_a_bench(self) -> None:
        _, line = self.judged(0.991, 0.98, True)
        (ratio,) = COMPARE.ratios_of(line).values()
        self.assertEqual((ratio.value, ratio.higher_is_better), (0.991, True))


class Rounds(unittest.TestCase):
    def test_each_switch_is_the_first_one_as_often(self) -> None:
        both = ("with", "without")
        firsts = [BENCH.in_turn(both, number)[0] for number in range(4)]
        self.assertEqual(firsts, ["with", "without"] * 2)

    def test_the_files_of_a_journal_are_counted(self) -> None:
        with tempfile.TemporaryDirectory() as folder:
            journal = pathlib.Path(folder, "journal")
            journal.write_bytes(b"x" * 7)
            self.assertEqual(BENCH.sizes_of(str(journal)), [7, 0])
            journal.with_name("journal-wal").write_bytes(b"y" * 3)
            self.assertEqual(BENCH.sizes_of(str(journal)), [7, 3])


class Words(unittest.TestCase):
    def test_without_its_tools_nothing_is_measured(self) -> None:
        with mock.patch("shutil.which", return_value=None):
            status, told = printed()
        self.assertEqual((status, COMPARE.NOT_MEASURED in told), (0, True))

    def test_wrong_words_are_refused(self) -> None:
        self.assertEqual(printed("--rounds", "many")[0], 2)


if __name__ == "__main__":
    unittest.main()
