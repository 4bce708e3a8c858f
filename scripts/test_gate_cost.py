"""Tests of gate_cost.py: python3 -m unittest scripts/test_gate_cost.py"""
import contextlib
import io
import os
import pathlib
import sys
import tempfile
import unittest

sys.path.insert(0, os.path.dirname(os.path.abspath(__file__)))

import gate_cost  # noqa: E402  (the path stands above)
from crate_list import crates_in  # noqa: E402
from gate_cost import EDITS, PROOF, TESTS, Costs, Work  # noqa: E402

CRATES = """# a comment: passed over
bg_openlist: core
bg_low may_wait=2: std
bg_middle tests_may=Threads+Wait: bg_low std
bg_top: bg_middle bg_openlist
"""

# Stands for the gate: it begins three processes that look like a prover's, in the folders in which
# the gate begins them. The crate is no crate of the repository, since the gate counts the processes
# of this test too.
GATE = """
import subprocess, sys
prover, crate, other = sys.argv[1:]
burn = "import time\\nwhile time.process_time() < 0.6: pass"
print("== bg_sample", flush=True)
for folder, words in ((crate, []), (crate, ["--test"]), (other, [])):
    subprocess.run([prover, "-c", burn, "--crate-name", "bg_sample", *words], cwd=folder, check=True)
print("logic=proved functions=1 may-wait=3 sum=0")
sys.exit(3)
"""


def costs_of(**each: float) -> Costs:
    """Costs by names such as bg_low_proof."""
    costs = Costs()
    for name, seconds in each.items():
        crate, _, kind = name.rpartition("_")
        costs.add(Work(crate, kind), seconds)
    return costs


class GateCost(unittest.TestCase):
    def test_reads_the_crates_and_what_they_stand_on(self) -> None:
        crates = crates_in(CRATES)
        self.assertEqual(list(crates), ["bg_openlist", "bg_low", "bg_middle", "bg_top"])
        self.assertEqual(crates["bg_middle"].below, ["bg_low"])
        self.assertEqual([it.may_wait for it in crates.values()], [0, 2, 0, 0])

    def test_tells_proofs_tests_and_edits_apart(self) -> None:
        words = ["/kit/bin/rattle", "build", "--crate-name", "bg_low", "src/lib.rt"]
        self.assertEqual(gate_cost.work_of(words, "/copy/crates/bg_low"), Work("bg_low", PROOF))
        self.assertEqual(
            gate_cost.work_of([*words, "--test"], "/copy/crates/bg_low"), Work("bg_low", TESTS)
        )
        self.assertEqual(gate_cost.work_of(words, "/tmp/rt-edit-1-a"), Work("bg_low", EDITS))
        self.assertIsNone(
            gate_cost.work_of(["/usr/bin/clang", "--crate-name", "bg_low"], "/copy/crates/bg_low")
        )
        self.assertIsNone(gate_cost.work_of(["rattle", "--crate-name"], "/"))
        self.assertIsNone(gate_cost.work_of([], "/"))

    def test_finds_the_longest_chain(self) -> None:
        crates = crates_in(CRATES)
        costs = costs_of(bg_openlist_proof=10, bg_low_proof=3, bg_middle_proof=4, bg_top_proof=1)
        self.assertEqual(gate_cost.longest_chain(crates, costs), (11, ["bg_openlist", "bg_top"]))
        costs.add(Work("bg_middle", TESTS), 6)
        costs.add(Work("bg_middle", EDITS), 5)
        costs.add(Work("bg_middle", EDITS), 2)
        self.assertEqual(gate_cost.longest_chain(crates, costs), (14, ["bg_low", "bg_middle"]))

    def test_prints_units(self) -> None:
        crates = crates_in(CRATES)
        costs = costs_of(bg_openlist_proof=10, bg_low_proof=5, bg_low_edits=25)
        self.assertEqual(
            [line.split()[1:] for line in gate_cost.table(crates, costs, 10)],
            [
                ["crate", *gate_cost.KINDS],
                ["bg_openlist", "1.00", "0.00", "0.00"],
                ["bg_low", "0.50", "0.00", "2.50"],
            ],
        )
        line = gate_cost.last_line(crates, costs, 50)
        self.assertIn("5.0 units of 10.0 processor seconds", line)
        self.assertIn("4.0 of them seen by crate; the longest chain is 3.0: bg_low", line)
        self.assertIn("there is no unit", gate_cost.last_line(crates, costs_of(bg_low_proof=5), 50))

    def test_names_the_crates_that_are_miscounted(self) -> None:
        lines = [
            "== bg_low\n",
            "logic=proved functions=3 may-wait=1 sum=0\n",
            "== bg_low: its tests\n",
            "logic=proved may-wait=7\n",
        ]
        lines += ["== bg_top\n", "logic=proved functions=3 sum=0\n"]
        counts = gate_cost.counted(lines)
        self.assertEqual(counts, {"bg_low": 1, "bg_top": 0})
        found = list(gate_cost.miscounted(crates_in(CRATES), counts))
        self.assertEqual(
            found, ["gate_cost: crates.txt has may_wait=2 of bg_low, and its proof counts 1"]
        )

    def test_measures_what_a_command_begins(self) -> None:
        with tempfile.TemporaryDirectory() as room:
            prover = pathlib.Path(room, "rattle")
            prover.symlink_to(sys.executable)
            crate, other = pathlib.Path(room, "crates", "bg_sample"), pathlib.Path(room, "copy")
            crate.mkdir(parents=True)
            other.mkdir()
            out = io.StringIO()
            command = [sys.executable, "-c", GATE, str(prover), str(crate), str(other)]
            status, lines, costs, every = gate_cost.run(command, out)
        self.assertEqual(status, 3)
        self.assertEqual(out.getvalue().splitlines()[0], "== bg_sample")
        self.assertEqual(gate_cost.counted(lines), {"bg_sample": 3})
        for kind in gate_cost.KINDS:
            self.assertEqual(len(costs.of[Work("bg_sample", kind)]), 1, kind)
            self.assertGreater(costs.total("bg_sample", kind), 0.1, kind)
            self.assertLess(costs.total("bg_sample", kind), 1, kind)
        self.assertGreater(every, 1.8)

    def test_says_how_it_is_used(self) -> None:
        arguments, sys.argv = sys.argv, ["gate_cost.py"]
        try:
            with contextlib.redirect_stderr(io.StringIO()) as said:
                self.assertEqual(gate_cost.main(), 2)
        finally:
            sys.argv = arguments
        self.assertIn("usage:", said.getvalue())


if __name__ == "__main__":
    unittest.main()
