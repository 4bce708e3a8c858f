"""Which requests of a log are those of a revision: those that found no endpoint name none."""
import unittest
from collections.abc import Sequence

from bg_switch_tools.analysis.revision_requests import ByNeighbours, ByReports, services_of
from bg_switch_tools.switch.access_log import LogEntry
from bg_switch_tools.switch.reports import read_report
from tests.synthetic_log import ANSWERED, BEGIN, refused

ACTIVE, PREVIEW = frozenset({"active"}), frozenset({"preview"})
OUT, TESTED = refused("no_endpoint"), refused("no_endpoint")._replace(service="preview")


def of(revision: int, begun: float = 0.0, ended: float | None = None) -> LogEntry:
    """A request of a revision at the active service, which took up to `ended`."""
    end = begun if ended is None else ended
    return ANSWERED._replace(revision=revision, time=BEGIN + end, duration_ms=(end - begun) * 1000)


class Neighbours(unittest.TestCase):
    def check(
        self, told: Sequence[LogEntry], expected: Sequence[LogEntry], unknown: int = 0
    ) -> None:
        """A check of which entries are those of revision 2, in one piece and one by one."""
        whole, each = ByNeighbours(), ByNeighbours()
        self.assertEqual((whole.take(told, 2), whole.unknown), (list(expected), unknown))
        self.assertEqual([entry for one in told for entry in each.take([one], 2)], list(expected))

    def test_a_refusal_counts_for_the_revision_before_it(self) -> None:
        self.check(
            [of(2), OUT, of(1, 1), OUT, of(2, 2), OUT, OUT], [of(2), OUT, of(2, 2), OUT, OUT]
        )

    def test_before_the_first_request_it_counts_for_that_one(self) -> None:
        self.check([OUT, OUT, of(2), OUT], [OUT, OUT, of(2), OUT])
        self.check([OUT, OUT, of(1), OUT], [])
        self.check([OUT, OUT], [], 2)

    def test_each_service_for_itself(self) -> None:
        self.check(
            [of(1), of(2, 1)._replace(service="preview"), OUT, TESTED],
            [of(2, 1)._replace(service="preview"), TESTED],
        )

    def test_a_long_request_that_ends_after_the_service_has_moved(self) -> None:
        self.check([of(1), of(2, 1), of(1, 0.5, 3), OUT], [of(2, 1), OUT])

    def test_other_refusals_name_no_revision(self) -> None:
        self.check(
            [of(2), *map(refused, ("history_full", "memory", "no_preview", "head"))], [of(2)]
        )


class Reports(unittest.TestCase):
    def test_a_refusal_counts_where_its_service_selects_the_revision(self) -> None:
        told = ByReports(ACTIVE)
        self.assertEqual(
            (told.take([of(1), of(2), OUT, TESTED], 2), told.take_services(ACTIVE)),
            ([of(2)], [OUT]),
        )
        self.assertEqual(told.take_services(ACTIVE), [])  # none is given twice

    def test_while_a_service_moves_it_counts_for_none(self) -> None:
        told = ByReports(PREVIEW)
        for services, expected in (
            (ACTIVE | PREVIEW, []),
            (ACTIVE, [OUT]),
            (frozenset[str](), []),
            (ACTIVE, []),
        ):
            told.take([OUT], 2)
            self.assertEqual(told.take_services(services), expected)

    def test_services_of_a_report(self) -> None:
        report = read_report(
            [
                "moment 0",
                "phase paused",
                "active 1",
                "preview 2",
                "stable 1",
                "newest 2",
                *(
                    f"revision {number} v{number} desired 1 available 1 open 0 deadline none"
                    for number in (1, 2)
                ),
                "end",
            ]
        )
        self.assertEqual(
            [services_of(report, number) for number in (1, 2, 3)], [ACTIVE, PREVIEW, frozenset()]
        )
        self.assertEqual(services_of(None, 1), frozenset())


if __name__ == "__main__":
    unittest.main()
