"""bench/compare.py fails if a bench or a ratio is worse, and writes the baseline; the benches print
ratios."""
import json
import pathlib
import shutil
import subprocess
import tempfile
import unittest

from support.processes import Run
from tests.tool_runs import TOP, WAIT

COMPARE = TOP / "bench" / "compare.py"
BENCH = "bench/one.sh"
COST, RATE = "a long list to a short one", "requests a second to nginx's, 8 clients"


def lines(cost: float, rate: float) -> str:
    return f"100 turns: 5 ns\nratio of {COST}: {cost:.2f}, at most 3\nratio of {RATE}: {rate:.2f}, at least 0.5\n"


class Compare(unittest.TestCase):
    """A repository of its own with one bench, whose runs print what a test says, one text after the
    other."""

    def setUp(self) -> None:
        self.top = pathlib.Path(self.enterContext(tempfile.TemporaryDirectory()))
        (self.top / "bench").mkdir()
        shutil.copy(COMPARE, self.top / "bench" / "compare.py")
        self.write_baseline({BENCH: {COST: 2.0, RATE: 1.0}})

    def write_baseline(self, baseline: dict[str, dict[str, float]]) -> None:
        (self.top / "bench" / "baseline.json").write_text(json.dumps(baseline), encoding="ascii")

    def baseline(self) -> dict[str, dict[str, float]]:
        found: dict[str, dict[str, float]] = json.loads(
            (self.top / "bench" / "baseline.json").read_text(encoding="ascii")
        )
        return found

    def write_bench(self, *runs: str, status: int = 0) -> None:
        """The run number N prints the text number N; a further run prints the last one again."""
        for number, text in enumerate(runs, start=1):
            (self.top / f"run{number}").write_text(text, encoding="ascii")
        (self.top / "runs").unlink(missing_ok=True)
        bench = self.top / BENCH
        bench.write_text(
            f'#!/bin/sh\necho >> runs\nn=$(wc -l < runs)\n[ "$n" -le {len(runs)} ] || n={len(runs)}\n'
            f'cat "run$((n))"\nexit {status}\n',
            encoding="ascii",
        )
        bench.chmod(0o755)

    def runs(self) -> int:
        return len((self.top / "runs").read_text(encoding="ascii").splitlines())

    def compare(self, *words: str) -> Run:
        done = subprocess.run(
            [str(self.top / "bench" / "compare.py"), *words],
            capture_output=True,
            text=True,
            timeout=WAIT,
            check=False,
        )
        return Run(done.stdout, done.stderr, done.returncode)

    def test_ratios_within_the_limit_pass(self) -> None:
        for cost, rate in ((2.0, 1.0), (2.4, 0.8), (0.1, 9.0)):
            with self.subTest(cost=cost):
                self.write_bench(lines(cost, rate))
                self.assertEqual(self.compare(BENCH), Run(f"{BENCH}\n{lines(cost, rate)}", "", 0))
                self.assertEqual(self.runs(), 1)

    def test_a_ratio_that_is_worse_twice_fails(self) -> None:
        for cost, rate, fault in (
            (2.42, 1.0, f"{COST}: 2.42, and 2.00 before"),
            (2.0, 0.79, f"{RATE}: 0.79, and 1.00 before"),
        ):
            with self.subTest(fault):
                self.write_bench(lines(cost, rate))
                done = self.compare(BENCH)
                self.assertEqual((done.status, self.runs()), (1, 2))
                self.assertIn(f"{BENCH}: FAILED: {fault}\n", done.printed)
                self.assertTrue(done.printed.endswith(f"bench: failed: {BENCH}\n"))

    def test_the_better_value_of_two_runs_counts(self) -> None:
        self.write_bench(lines(2.5, 1.0), lines(2.0, 0.7))
        self.assertEqual((self.compare(BENCH).status, self.runs()), (0, 2))

    def test_a_bench_that_fails_by_itself(self) -> None:
        self.write_bench(lines(9.0, 1.0), status=3)
        done = self.compare(BENCH)
        self.assertEqual((done.status, self.runs()), (1, 1))
        self.assertIn(f"{BENCH}: FAILED: it ended with status 3\n", done.printed)

    def test_each_ratio_is_printed_and_in_the_baseline(self) -> None:
        self.write_bench(lines(2.0, 1.0))
        self.write_baseline({BENCH: {COST: 2.0, "another": 1.0}})
        done = self.compare(BENCH)
        self.assertEqual(done.status, 1)
        self.assertIn(f"{BENCH}: FAILED: another: it was not printed", done.printed)
        self.assertIn(f"{BENCH}: FAILED: {RATE}: it is not in the baseline", done.printed)

    def test_a_bench_that_lacks_a_program_is_not_compared(self) -> None:
        self.write_bench("one needs wrk: nothing was measured\n")
        self.assertEqual(self.compare(BENCH).status, 0)
        self.assertEqual(self.compare("--write", BENCH).status, 0)
        self.assertEqual(self.baseline(), {BENCH: {COST: 2.0, RATE: 1.0}})

    def test_one_bench_that_fails_ends_no_other(self) -> None:
        self.write_bench(lines(2.0, 1.0))
        shutil.copy(self.top / BENCH, self.top / "bench" / "two.sh")
        done = self.compare("bench/two.sh", f"./{BENCH}")
        self.assertEqual((done.status, self.runs()), (1, 2))
        self.assertTrue(done.printed.endswith("bench: failed: bench/two.sh\n"))

    def test_the_baseline_is_written(self) -> None:
        self.write_baseline({"bench/two.sh": {"x": 1.5}, BENCH: {"gone": 1.0}})
        self.write_bench(lines(2.25, 0.5))
        self.assertEqual(self.compare("--write", BENCH).status, 0)
        self.assertEqual(
            self.baseline(), {"bench/two.sh": {"x": 1.5}, BENCH: {COST: 2.25, RATE: 0.5}}
        )
        self.write_bench(lines(1.0, 1.0), status=1)
        self.assertEqual(self.compare("--write", BENCH).status, 1)
        self.assertEqual(self.baseline()[BENCH], {COST: 2.25, RATE: 0.5})

    def test_wrong_words(self) -> None:
        for words in ((), ("--write",), ("--writes", BENCH)):
            with self.subTest(words):
                self.assertEqual(self.compare(*words).status, 2)


# What the program of a bench prints, and the ratios that the bench makes of it.
SAMPLES: dict[str, tuple[str, dict[str, float]]] = {
    "audit": (
        "10000 entries audited true: 50 ns\n100000 entries audited true: 550 ns\nratio in percent: 1108\n",
        {"100,000 entries to 10,000": 11.08},
    ),
    "compaction": (
        "requests 10 0 100 1\nrequests 100 0 2000 1\nrequests 1000 0 15000 1\nticks 10 1 100 8\n",
        {
            "an entry of requests to one of the first run": 2.0,
            "an entry of ticks to one of the first run": 1.0,
        },
    ),
    "deadlines": (
        "none_due 0 10 0 40\none_due 1 20 1 40\ntwo_due 2 30 2 40\nall_due 64 1 64 2\n",
        {
            "a sorted table to one in one order, none due": 0.25,
            "a sorted table to one in one order, one due": 0.5,
            "a sorted table to one in one order, two due": 0.75,
            "a sorted table to one in one order, all due": 0.5,
        },
    ),
    "desk": ("book 1 1000\ndesk 1 1250\ndesk 2 3000\n", {"the desk to the book, one thread": 1.25}),
    "lists": (
        "1 1 100\n8 1 110\n1 64 120\n8 64 150\n",
        {
            "8 open requests to 1": 1.1,
            "8 open requests to 1, with 64 revisions": 1.25,
            "64 revisions to 1": 1.2,
        },
    ),
    "openlist": (
        "9 turns at 8 linked nodes: 10 ns\n9 turns at 256 linked nodes: 9 ns\nratio in percent: 95\n",
        {"256 linked nodes to 8": 0.95},
    ),
}
TIMES_OF_HTTP = (
    "find_head 10\nread_head 20\nwrite_head 15\nrequest_of_one_field 1\nrequest_of_one_field_by_byte 20\n"
    "request_of_64_fields 1\nrequest_of_64_fields_by_byte 20\nresponse_of_one_field 1\nresponse_of_one_field_by_byte 20\n"
    "response_of_64_fields 1\nresponse_of_64_fields_by_byte 20\ncopy 10\ncopy_pieces 10\nrequest_by_length 21\n"
    "response_by_length 22\nrequest_by_chunks 30\n"
)


class Printed(unittest.TestCase):
    """Each bench over a program of Rattle prints its ratios in the form that is compared."""

    def ratios_of(self, name: str, printed: str) -> dict[str, float]:
        with tempfile.TemporaryDirectory() as folder:
            bench = pathlib.Path(folder, "bench")
            bench.mkdir()
            for file in ("compare.py", f"{name}.sh"):
                shutil.copy(TOP / "bench" / file, bench / file)
            (bench / "baseline.json").write_text("{}", encoding="ascii")
            (bench / "run.sh").write_text(
                f"#!/bin/sh\ncat << 'END'\n{printed}END\n", encoding="ascii"
            )
            (bench / "run.sh").chmod(0o755)
            words = [str(bench / "compare.py"), "--write", f"bench/{name}.sh"]
            done = subprocess.run(words, capture_output=True, text=True, timeout=WAIT, check=False)
            self.assertEqual(done.returncode, 0, done)
            found: dict[str, float] = json.loads(
                (bench / "baseline.json").read_text(encoding="ascii")
            )[f"bench/{name}.sh"]
            return found

    def test_the_ratios_of_a_sample(self) -> None:
        for name, (printed, expected) in SAMPLES.items():
            with self.subTest(name):
                self.assertEqual(self.ratios_of(name, printed), expected)

    def test_the_ratios_of_messages(self) -> None:
        found = self.ratios_of("http", TIMES_OF_HTTP)
        self.assertEqual(len(found), 11)
        self.assertEqual(found["a head of 20 fields to httparse alone"], 2.0)
        self.assertEqual(found["a request of 1 MB by chunks to a copy in pieces"], 3.0)


class Baseline(unittest.TestCase):
    def test_it_has_ratios_of_benches(self) -> None:
        baseline = json.loads((TOP / "bench" / "baseline.json").read_text(encoding="utf-8"))
        self.assertTrue(baseline)
        for bench, ratios in baseline.items():
            with self.subTest(bench):
                self.assertIn("ratio of ", (TOP / bench).read_text(encoding="utf-8"))
                self.assertTrue(ratios)
                self.assertTrue(all(value > 0 for value in ratios.values()))


if __name__ == "__main__":
    unittest.main()
