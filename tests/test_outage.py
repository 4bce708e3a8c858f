"""Endpoints that die: what the switch is told of them, and what becomes of an attempt whose
endpoints are all down."""
import pathlib
import time
import unittest

from support.pace import is_within
from tests.test_controller import ControllerCase
from tests.tool_runs import comes, operator


class Downs(ControllerCase):
    knows_down = True

    def down(self) -> list[str]:
        return self.switch.book.down or []

    def test_an_endpoint_that_is_down_is_named_and_the_others_count(self) -> None:
        """With the first of two dead, the second takes requests."""
        first, second = self.endpoints["web-v1"]
        self.write("web-v1")
        self.start()
        self.await_book("steady", 1)
        self.assertEqual(
            [line for line in self.switch.lines if line != "report"][:3],
            ["down", f"open {self.words('web-v1')}", "available 1 2"],
            "no line comes between the latter two",
        )
        self.assertEqual((self.down(), self.switch.book.revisions[1].available), ([], 2))
        first.stop()
        self.await_log(f"down {first.port} => ok 1", "available 1 1 => ok 0")
        self.assertEqual(self.down(), [str(first.port)])
        second.stop()
        self.await_log(f"down {first.port} {second.port} => ok 2", "available 1 0 => ok 0")
        first.start()
        self.await_log(f"down {second.port} => ok 1")
        self.await_log("available 1 0 => ok 0")
        self.some_rounds()
        self.assertEqual(self.switch.book.revisions[1].available, 1)

    def test_a_switch_that_is_started_again_is_told_before_it_has_a_client(self) -> None:
        first = self.endpoints["web-v1"][0]
        self.write("web-v1")
        self.start()
        self.await_book("steady", 1)
        first.stop()
        self.await_log(f"down {first.port} => ok 1", "available 1 1 => ok 0")
        self.restart_switch()
        lines = [
            line
            for line in self.switch.lines
            if line not in ("report",) and not line.startswith("tick")
        ]
        self.assertEqual(
            lines[:4],
            [
                f"down {first.port}",
                f"open {self.words('web-v1')}",
                f"down {first.port}",
                "available 1 1",
            ],
        )
        self.assertEqual(self.down(), [str(first.port)])

    def test_a_book_that_somebody_else_opens_is_told_at_once(self) -> None:
        first = self.endpoints["web-v1"][0]
        self.write("web-v1")
        self.start()
        self.await_book("steady", 1)
        first.stop()
        self.await_log(f"down {first.port} => ok 1")
        self.by_hand("tick 500")
        self.some_rounds()
        self.switch.kill()
        self.switch.start(f"open {self.words('web-v1')}")
        self.assertTrue(comes(lambda: self.down() == [str(first.port)], 5), self.log())

    def test_a_plan_for_a_switch_without_redispatch(self) -> None:
        self.endpoints["web-v1"][0].stop()
        self.write("web-v1", redispatch=False)
        self.start()
        self.await_book("steady", 1)
        self.assertEqual(
            (
                self.switch.book.revisions[1].available,
                [line for line in self.switch.lines if line.startswith("down")],
            ),
            (0, []),
        )


class OlderSwitch(ControllerCase):
    def test_a_fault_is_told_once_and_the_first_ones_in_a_row_count(self) -> None:
        self.write("web-v1")
        self.start()
        self.await_book("steady", 1)
        self.endpoints["web-v1"][1].stop()
        self.await_log("available 1 1 => ok 0")
        self.endpoints["web-v1"][0].stop()
        self.await_log("available 1 0 => ok 0")
        self.endpoints["web-v1"][1].start()
        self.some_rounds()
        self.assertEqual(
            (
                self.switch.book.revisions[1].available,
                self.log().count("does not know the line down"),
            ),
            (0, 1),
        )
        self.assertEqual(self.log().count("=> fault"), 0)


class Outages(ControllerCase):
    steps = ("pre", "post")
    knows_down = True

    def write_two(
        self, pre: str = "exit 0", post: str = "exec sleep 60", **members: object
    ) -> None:
        self.write(
            "web-v1",
            "web-v2",
            analyses={"pre": ["sh", "-c", pre], "post": ["sh", "-c", post]},
            **members,
        )

    def stop(self, name: str) -> None:
        for endpoint in self.endpoints[name]:
            endpoint.stop()

    def test_a_total_outage_after_the_switch_goes_back(self) -> None:
        """Within ten seconds, and without a human. The analysis, which would not end for long, does
        not decide."""
        self.write_two()
        self.start()
        self.await_book("postAnalysis", 2)
        self.assertEqual(self.switch.book.active, 2)
        begun = time.monotonic()
        self.stop("web-v2")
        self.await_log(
            "no endpoint is up of revision 2 web-v2, which is active: clients are answered 503",
            "revision 2 web-v2 has had no endpoint that is up for 5 seconds, so its attempt ends",
            "verdict post error => ok 0",
        )
        seconds = time.monotonic() - begun
        self.assertTrue(is_within(seconds, 10), seconds)
        self.assertEqual((self.switch.book.phase, self.switch.book.active), ("aborted", 1))
        self.await_log("endpoints are up again behind live traffic, after")

    def test_an_outage_of_both_revisions_does_not_end_with_the_rollback(self) -> None:
        self.write_two(progress={"outage": 0.2})
        self.start()
        self.await_book("postAnalysis", 2)
        self.stop("web-v1")
        self.stop("web-v2")
        self.await_log(
            "verdict post error => ok 0", "no endpoint is up of revision 1 web-v1, which is active"
        )
        self.assertNotIn("endpoints are up again", self.log())
        self.endpoints["web-v1"][1].start()
        self.await_log("endpoints are up again behind live traffic, after")

    def test_one_endpoint_that_is_up_is_no_outage(self) -> None:
        self.write_two(progress={"outage": 0.3})
        self.start()
        self.await_book("postAnalysis", 2)
        self.endpoints["web-v2"][0].stop()
        self.await_log("available 2 1 => ok 0")
        time.sleep(1)
        self.assertEqual(
            (self.switch.book.phase, "no endpoint is up" in self.log()), ("postAnalysis", False)
        )

    def test_no_successful_verdict_without_an_endpoint(self) -> None:
        """The analysis ends well, since it has seen no request: the verdict waits until an endpoint
        is up."""
        self.write_two(pre="until test -e go; do sleep 0.05; done")
        self.start()
        self.await_log("analysis pre of web-v2 begins")
        self.stop("web-v2")
        self.await_log("available 2 0 => ok")
        pathlib.Path(self.folder, "go").touch()
        self.await_log(
            "revision 2 web-v2 gets no verdict pre successful while none of its endpoints is up"
        )
        self.some_rounds()
        self.assertEqual(
            [line for line in self.switch.sent_lines() if line.startswith("verdict")], []
        )
        self.endpoints["web-v2"][1].start()
        self.await_log("verdict pre successful => ok")

    def test_an_outage_of_the_stable_revision_ends_no_attempt_of_another(self) -> None:
        """The attempt may be what helps."""
        self.write_two(pre="exec sleep 60", progress={"outage": 0.2})
        self.start()
        self.await_book("preAnalysis", 2)
        self.stop("web-v1")
        self.await_log(
            "no endpoint is up of revision 1 web-v1, which is active: clients are answered 503"
        )
        time.sleep(0.8)
        self.assertEqual(self.switch.book.phase, "preAnalysis")

    def test_the_exit_status_of_status(self) -> None:
        self.by_hand(f"open {self.words('web-v1')}")
        told = operator(self.switch.port, "status")
        self.assertEqual((told.status, told.printed[:8]), (3, "steady: "))
        self.assertIn("no endpoint of revision 1 web-v1, which is active, is available", told.told)
        self.by_hand("available 1 1")
        self.assertEqual(operator(self.switch.port, "status").status, 0)


if __name__ == "__main__":
    unittest.main()
