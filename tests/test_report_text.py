"""A report as a table and in one line, and what has changed between two."""
import unittest

from bg_switch_tools.switch.report_changes import changes
from bg_switch_tools.switch.report_text import draw, in_one_line
from bg_switch_tools.switch.reports import Report, read_report


def report(moment: int, phase: str, selected: tuple[int, int, int, int], *revisions: str) -> Report:
    services = [
        f"{name} {number}"
        for name, number in zip(("active", "preview", "stable", "newest"), selected)
    ]
    read = read_report([f"moment {moment}", f"phase {phase}", *services, *revisions, "end"])
    assert read is not None
    return read


OLD = "revision 1 web-v1 desired {} available {} open {} deadline {}"
NEW = "revision 2 web-v2 desired 2 available {} open 0 deadline none"
BEFORE = report(10, "paused", (1, 2, 1, 2), OLD.format(2, 2, 3, "none"), NEW.format(1))
AFTER = report(11, "steady", (2, 2, 2, 2), OLD.format(2, 2, 3, "41"), NEW.format(2))


class Drawn(unittest.TestCase):
    def test_the_tree(self) -> None:
        self.assertEqual(
            draw(AFTER),
            [
                "phase steady (no attempt runs)   moment 11",
                "   REVISION  SERVICES                         AVAILABLE  OPEN  SCALE-DOWN",
                "├─ 2 web-v2  active, preview, stable, newest  2 of 2     0",
                "└─ 1 web-v1                                   2 of 2     3     in 30 s",
            ],
        )
        self.assertEqual(draw(None), ["no book is open yet"])

    def test_scale_downs(self) -> None:
        for end, expected in (
            ("deadline 41 draining", "draining: waits for its open requests"),
            ("deadline 41 draining cut", "draining: its open requests are given up"),
            ("deadline 41", "in 0 s"),
        ):
            shown = draw(
                report(
                    50,
                    "steady",
                    (2, 2, 2, 2),
                    f"revision 1 web-v1 desired 2 available 2 open 1 {end}",
                    NEW.format(2),
                )
            )
            self.assertTrue(shown[-1].endswith(expected), shown)
        self.assertTrue(
            draw(report(50, "steady", (2, 2, 2, 2), OLD.format(0, 0, 0, "none"), NEW.format(2)))[
                -1
            ].endswith("scaled down")
        )

    def test_one_line(self) -> None:
        self.assertEqual(
            in_one_line(BEFORE),
            "paused: active web-v1, preview web-v2, stable web-v1, newest web-v2, moment 10",
        )


class Changed(unittest.TestCase):
    def test_a_promotion(self) -> None:
        self.assertEqual(
            changes(BEFORE, AFTER),
            [
                "phase: paused -> steady",
                "active: revision 1 web-v1 -> revision 2 web-v2",
                "stable: revision 1 web-v1 -> revision 2 web-v2",
                "revision 1 web-v1: scale-down at moment none -> 41",
                "revision 2 web-v2: available 1 -> 2",
            ],
        )

    def test_a_deploy_and_a_removal(self) -> None:
        alone = report(11, "steady", (2, 2, 2, 2), NEW.format(2))
        self.assertEqual(changes(AFTER, alone), ["revision 1 web-v1: removed"])
        self.assertEqual(changes(alone, AFTER), ["revision 1 web-v1: deployed, desired 2"])

    def test_another_book_is_no_change_of_the_one_before(self) -> None:
        """The switch was started again between two reports: its moment lies before, or a number has
        another name."""
        opened = ["the book is gone: the switch was started again", "the book was opened"]
        for moment, name in ((3, "web-v1"), (12, "web-v2")):
            fresh = report(
                moment,
                "steady",
                (1, 1, 1, 1),
                f"revision 1 {name} desired 2 available 0 open 0 deadline none",
            )
            self.assertEqual(changes(AFTER, fresh), opened)

    def test_a_scale_down(self) -> None:
        def old(rest: str) -> Report:
            return report(50, "steady", (2, 2, 2, 2), f"revision 1 web-v1 {rest}", NEW.format(2))

        due, drains = old("desired 2 available 2 open 4 deadline 41"), old(
            "desired 2 available 2 open 4 deadline 41 draining"
        )
        given_up, down = old("desired 2 available 2 open 4 deadline 41 draining cut"), old(
            "desired 0 available 0 open 0 deadline none"
        )
        self.assertEqual(changes(due, drains), ["revision 1 web-v1: draining, 4 open"])
        self.assertEqual(changes(drains, due), ["revision 1 web-v1: no longer draining"])
        self.assertEqual(
            changes(drains, given_up), ["revision 1 web-v1: past its drain limit, 4 open"]
        )
        self.assertEqual(
            changes(due, down),
            [
                "revision 1 web-v1: desired 2 -> 0 (scaled down)",
                "revision 1 web-v1: available 2 -> 0",
                "revision 1 web-v1: scale-down at moment 41 -> none",
            ],
        )

    def test_no_change(self) -> None:
        later = report(12, "steady", (2, 2, 2, 2), OLD.format(2, 2, 0, "41"), NEW.format(2))
        self.assertEqual(changes(AFTER, later), [])
        self.assertEqual(
            (changes(None, None), changes(None, AFTER), changes(AFTER, None)),
            ([], ["the book was opened"], ["the book is gone: the switch was started again"]),
        )


if __name__ == "__main__":
    unittest.main()
