"""Reports, read from their lines."""
import unittest

from bg_switch_tools.switch.reports import ReportError, Revision, as_json, read_report
from tests.fake_port import REPORT

DRAINING = (
    "moment 130",
    "phase paused",
    "active 2",
    "preview 3",
    "stable 2",
    "newest 3",
    "revision 1 web-v1 desired 2 available 2 open 1 deadline 30 draining cut",
    "revision 2 web-v2 desired 2 available 1 open 4 deadline none",
    "revision 3 web-v3 desired 1 available 1 open 0 deadline none",
    "end",
)


class Reading(unittest.TestCase):
    def test_every_value(self) -> None:
        report = read_report(DRAINING)
        assert report is not None
        self.assertEqual((report.moment, report.phase, report.is_running), (130, "paused", True))
        self.assertEqual(report.selected, {"active": 2, "preview": 3, "stable": 2, "newest": 3})
        self.assertEqual(report.revisions[1], Revision(1, "web-v1", 2, 2, 1, 30, True, True))
        self.assertEqual(report.revisions[2], Revision(2, "web-v2", 2, 1, 4, None, False, False))
        self.assertEqual((report.stable.name, report.newest.name), ("web-v2", "web-v3"))
        self.assertEqual(report.named("web-v1"), report.revisions[1])
        self.assertIsNone(report.named("web-v4"))
        self.assertEqual((report.title(3), report.title(9)), ("revision 3 web-v3", "revision 9"))

    def test_no_book(self) -> None:
        self.assertIsNone(read_report(["refused NotOpen"]))

    def test_what_is_no_report(self) -> None:
        for place, line in enumerate(REPORT[:-1]):
            for wrong in (
                line.split()[0],
                line.replace("1", "x").replace("0", "x").replace("steady", "x"),
                "",
            ):
                with self.subTest(line=wrong), self.assertRaises(ReportError):
                    read_report([*REPORT[:place], wrong, *REPORT[place + 1 :]])
        wrong_ones: list[list[str]] = [
            [],
            ["HTTP/1.1 400 Bad Request"],
            list(REPORT[:5]),
            ["ok 0"],
            ["moment 1" + "0" * 400, *REPORT[1:]],
            ["moment -1", *REPORT[1:]],
        ]
        for lines in wrong_ones:
            with self.subTest(lines=lines), self.assertRaises(ReportError):
                read_report(lines)


class Json(unittest.TestCase):
    def test_an_object_of_a_report(self) -> None:
        report = read_report(DRAINING)
        assert report is not None
        told = as_json(report)
        self.assertEqual(
            (told["moment"], told["phase"], told["stable"]),
            (130, "paused", {"number": 2, "name": "web-v2"}),
        )
        revisions = told["revisions"]
        assert isinstance(revisions, list)
        self.assertEqual(
            revisions[0],
            {
                "number": 1,
                "name": "web-v1",
                "desired": 2,
                "available": 2,
                "open": 1,
                "deadline": 30,
                "draining": True,
                "cut": True,
            },
        )


if __name__ == "__main__":
    unittest.main()
