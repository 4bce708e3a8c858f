"""What `wait` waits for: when a condition holds, may still come, or cannot hold unless a line is
sent."""
import unittest
from collections.abc import Sequence

from bg_switch_tools.switch.conditions import ConditionError, Conditions, read_condition
from bg_switch_tools.switch.reports import Report, read_report

HOLDS, MAY_COME = "holds", "may come"


def report(phase: str, active: int, stable: int, newest: int, *revisions: str) -> Report:
    """A report whose revisions are web-v1 and so on, each with what follows its name in the
    line."""
    preview = newest if phase not in ("steady", "aborted") else stable
    lines = [
        f"revision {number} web-v{number} {rest}"
        for number, rest in enumerate(revisions, 1)
        if rest
    ]
    read = read_report(
        [
            "moment 5",
            f"phase {phase}",
            f"active {active}",
            f"preview {preview}",
            f"stable {stable}",
            f"newest {newest}",
            *lines,
            "end",
        ]
    )
    assert read is not None
    return read


UP = "desired 2 available 2 open 0 deadline none"
BUSY = "desired 2 available 2 open 3 deadline none"
LEFT = "desired 2 available 2 open 1 deadline 30"
DOWN = "desired 0 available 0 open 0 deadline none"
FIRST = report("steady", 1, 1, 1, UP)
SCALING = report("scaling", 1, 1, 2, UP, UP)
PAUSED = report("paused", 1, 1, 2, UP, UP)
POST = report("postAnalysis", 2, 1, 2, BUSY, UP)
ABORTED = report("aborted", 1, 1, 2, UP, LEFT)
STEADY = report("steady", 2, 2, 2, LEFT, UP)
REPLACED = report("scaling", 1, 1, 3, UP, LEFT, UP)
SCALED_DOWN = report("steady", 2, 2, 2, DOWN, UP)
REMOVED = report("steady", 2, 2, 2, "", UP)


def told(texts: str, *reports: Report) -> str:
    """The outlook of conditions by the last of these reports."""
    conditions = Conditions(texts.split())
    for one in reports[:-1]:
        conditions.outlook(one)
    outlook = conditions.outlook(reports[-1])
    return HOLDS if outlook.holds else outlook.never or MAY_COME


class Outlooks(unittest.TestCase):
    def check(self, texts: str, reports: Sequence[Report], expected: str) -> None:
        with self.subTest(conditions=texts, phase=reports[-1].phase):
            got = told(texts, *reports)
            self.assertEqual(got.split(": ")[-1] if got not in (HOLDS, MAY_COME) else got, expected)

    def test_phases(self) -> None:
        self.check("phase=paused", [SCALING], MAY_COME)
        self.check("phase=paused", [SCALING, PAUSED], HOLDS)
        self.check(
            "phase=paused", [POST], "the attempt of web-v2 is past it, in the phase postAnalysis"
        )
        self.check("phase=paused", [SCALING, ABORTED], "the attempt of web-v2 was aborted")
        self.check("phase=paused", [SCALING, STEADY], "no attempt runs")
        self.check(
            "phase=paused",
            [SCALING, REPLACED],
            "web-v3 took the place of the revision that it waits for",
        )
        self.check("phase=steady", [POST], MAY_COME)
        self.check("phase=steady", [POST, ABORTED], "the attempt of web-v2 was aborted")
        self.check("phase=aborted", [SCALING], MAY_COME)
        self.check("phase=aborted", [ABORTED], HOLDS)
        self.check("phase=aborted", [STEADY], "no attempt runs")

    def test_services(self) -> None:
        for service in ("stable", "active"):
            self.check(f"{service}=web-v2", [PAUSED], MAY_COME)
            self.check(f"{service}=web-v2", [STEADY], HOLDS)
            self.check(f"{service}=web-v2", [ABORTED], "the attempt of web-v2 was aborted")
            self.check(f"{service}=web-v2", [REPLACED], "web-v3 took the place of web-v2")
            self.check(f"{service}=web-v2", [FIRST], "no revision web-v2 exists")
            self.check(f"{service}=web-v1", [STEADY], "no attempt runs")
        self.check("active=web-v2", [POST], HOLDS)
        self.check("active=web-v1", [POST], MAY_COME)
        self.check("stable=web-v2", [POST], MAY_COME)
        self.check("preview=web-v2", [SCALING], HOLDS)
        self.check("preview=web-v1", [SCALING], MAY_COME)

    def test_the_newest(self) -> None:
        self.check("newest=web-v2", [SCALING], HOLDS)
        self.check("newest=web-v2", [FIRST], MAY_COME)
        self.check("newest=web-v2", [REPLACED], "web-v3 took the place of web-v2")
        self.check("newest=web-v2 phase=paused stable=web-v2", [FIRST], MAY_COME)
        self.check("newest=web-v2 phase=paused", [FIRST, SCALING], MAY_COME)
        self.check("newest=web-v2 phase=paused", [FIRST, SCALING, PAUSED], HOLDS)
        self.check(
            "newest=web-v2 phase=paused",
            [FIRST, SCALING, REPLACED],
            "web-v3 took the place of web-v2",
        )

    def test_open_requests(self) -> None:
        self.check("open(web-v1)=0", [POST], MAY_COME)
        self.check("open(web-v1)=3", [POST], HOLDS)
        self.check("open(web-v1)=0", [FIRST], HOLDS)
        self.check("open(web-v1)=1", [SCALED_DOWN], "web-v1 is scaled down")
        self.check("open(web-v1)=0", [REMOVED], "no revision web-v1 exists")
        self.check("open(web-v1)=0", [STEADY, REMOVED], HOLDS)

    def test_scaled_down(self) -> None:
        self.check("scaled-down=web-v1", [STEADY], MAY_COME)
        self.check("scaled-down=web-v1", [SCALED_DOWN], HOLDS)
        self.check("scaled-down=web-v1", [STEADY, REMOVED], HOLDS)
        self.check("scaled-down=web-v1", [REMOVED], "no revision web-v1 exists")
        self.check("scaled-down=web-v1", [SCALING], MAY_COME)
        self.check(
            "scaled-down=web-v1", [FIRST], "no scale-down of web-v1 is due, and no attempt runs"
        )
        self.check(
            "scaled-down=web-v1",
            [ABORTED],
            "no scale-down of web-v1 is due, and the attempt of web-v2 was aborted",
        )

    def test_settled(self) -> None:
        for at_rest in (FIRST, ABORTED, STEADY):
            self.check("settled", [at_rest], HOLDS)
        for running in (SCALING, PAUSED, POST):
            self.check("settled", [running], MAY_COME)

    def test_all_have_to_hold(self) -> None:
        self.check("phase=steady stable=web-v2", [STEADY], HOLDS)
        self.check("settled scaled-down=web-v1", [STEADY], MAY_COME)
        self.check("settled stable=web-v1", [STEADY], "no attempt runs")
        self.assertEqual(
            told("phase=steady stable=web-v2", ABORTED),
            "phase=steady cannot hold unless a line is sent: the attempt of web-v2 was aborted",
        )


class Wrong(unittest.TestCase):
    def test_what_is_expected_is_named(self) -> None:
        for text, expected in (
            ("phase=pause", "the nearest is paused"),
            ("phase", "a condition is needed"),
            ("live=web-v2", "a condition is needed"),
            ("active=", "the name of a revision is needed"),
            ("active=Web", "the name of a revision is needed"),
            ("open(web-v1)=x", "a number of open requests"),
            ("open(web-v1)", "a condition is needed"),
            ("open()=1", "the name of a revision"),
            ("settled=yes", "a condition is needed"),
            ("", "a condition is needed"),
        ):
            with self.subTest(text=text), self.assertRaisesRegex(ConditionError, expected):
                read_condition(text)


if __name__ == "__main__":
    unittest.main()
