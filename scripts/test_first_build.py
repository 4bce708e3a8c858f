"""Tests of scripts/first_build.py, over crates that do not exist."""
import pathlib
import tempfile
import threading
import unittest

import first_build
from crate_list import crates_in

# A chain of three beside a single crate, and a program on both.
CRATES = crates_in("low:\nlone:\nmiddle: low\nhigh: middle\nprogram: lone high\n")
COSTS = {"low": 1, "lone": 3, "middle": 1, "high": 2, "program": 5}


class Chains(unittest.TestCase):
    def test_a_chain_has_the_cost_of_all_that_waits_for_it(self) -> None:
        self.assertEqual(
            first_build.chains_above(CRATES, COSTS),
            {"low": 9, "lone": 8, "middle": 8, "high": 7, "program": 5},
        )

    def test_what_is_built_already_is_in_no_chain(self) -> None:
        self.assertEqual(
            first_build.chains_above(CRATES, {"high": 2, "program": 5}), {"high": 7, "program": 5}
        )

    def begun_with(self, at_once: int, failing: str = "") -> tuple[bool, list[str]]:
        """Whether all were built, and the crates in the order in which they began."""
        begun = list[str]()

        def build(name: str) -> bool:
            begun.append(name)
            return name != failing

        return (
            first_build.built_in_order(
                CRATES, first_build.chains_above(CRATES, COSTS), at_once, build
            ),
            begun,
        )

    def test_the_longest_chain_goes_first(self) -> None:
        self.assertEqual(self.begun_with(1), (True, ["low", "lone", "middle", "high", "program"]))

    def test_nothing_begins_after_a_failure(self) -> None:
        self.assertEqual(self.begun_with(1, failing="lone"), (False, ["low", "lone"]))
        self.assertEqual(
            self.begun_with(1, failing="program"),
            (False, ["low", "lone", "middle", "high", "program"]),
        )

    def test_a_crate_waits_for_those_below_it_alone(self) -> None:
        """`lone` ends only once `high` has been begun."""
        high_began = threading.Event()
        waited = list[bool]()

        def build(name: str) -> bool:
            if name == "high":
                high_began.set()
            if name == "lone":
                waited.append(high_began.wait(20))
            return True

        self.assertTrue(
            first_build.built_in_order(CRATES, first_build.chains_above(CRATES, COSTS), 2, build)
        )
        self.assertEqual(waited, [True])


class Copies(unittest.TestCase):
    def setUp(self) -> None:
        folder = tempfile.TemporaryDirectory()
        self.addCleanup(folder.cleanup)
        self.top = pathlib.Path(folder.name)
        for file in (
            "crates.txt",
            "HANDLES",
            *(f"crates/{it}/src/lib.rt" for it in CRATES),
            "crates/low/out/rlib/format",
            "crates/low/out/incremental/kept",
            "crates/lone/out/rlib/format",
        ):
            self.write(self.top / file, f"the text of {file}")

    def write(self, file: pathlib.Path, text: str) -> None:
        file.parent.mkdir(parents=True, exist_ok=True)
        file.write_text(text, encoding="utf-8")

    def test_a_copy_has_all_sources_and_the_libraries_below(self) -> None:
        folder = first_build.copied("middle", CRATES, self.top, self.top / "room")
        copy = self.top / "room/middle"
        self.assertEqual(folder, copy / "crates/middle")
        files = {
            str(it.relative_to(copy)): it.read_text(encoding="utf-8")
            for it in copy.rglob("*")
            if it.is_file()
        }
        expected = (
            "crates.txt",
            "HANDLES",
            *(f"crates/{it}/src/lib.rt" for it in CRATES),
            "crates/low/out/rlib/format",
        )
        self.assertEqual(files, {it: f"the text of {it}" for it in expected})

    def test_what_a_copy_makes_anew_leaves_the_library_alone(self) -> None:
        """rt writes a library into a new file."""
        library = (
            first_build.copied("middle", CRATES, self.top, self.top / "room").parent
            / "low/out/rlib/format"
        )
        library.unlink()
        self.write(library, "other")
        self.assertEqual(
            (self.top / "crates/low/out/rlib/format").read_text(encoding="utf-8"),
            "the text of crates/low/out/rlib/format",
        )


class Locks(unittest.TestCase):
    def test_a_second_build_waits_for_the_first(self) -> None:
        done = list[str]()
        with tempfile.TemporaryDirectory() as name:
            room = pathlib.Path(name) / "out/room"

            def build_second() -> None:
                with first_build.alone(room):
                    done.append("second")

            with first_build.alone(room):
                second = threading.Thread(target=build_second)
                second.start()
                second.join(0.3)
                done.append("first")
            second.join(20)
        self.assertEqual(done, ["first", "second"])


if __name__ == "__main__":
    unittest.main()
