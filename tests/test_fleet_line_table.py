"""What an agent sends and reports, row by row, by where its switch and the record stand."""
import unittest
from collections.abc import Sequence

from bg_switch_tools.controller.plan.plan import PlannedRevision
from bg_switch_tools.fleet.machine.line_table import (
    Joined,
    Known,
    is_known_to_be_over,
    is_of_fleet,
    joined_after,
    line_by_record,
    state_of,
)
from bg_switch_tools.fleet.record.record import (
    ABORTED,
    DEPLOYING,
    FAILED,
    FOLLOWS,
    PASSED,
    PROMOTING,
    READY,
    SUCCESSFUL,
    TESTING,
    WORKING,
    Record,
)
from bg_switch_tools.switch.lines import Abort, Promote, Retry
from bg_switch_tools.switch.phases import PHASES, RUNNING, Phase
from bg_switch_tools.switch.reports import Report, Revision
from tests.typed_lines import line_of

V1, V2, V3 = (PlannedRevision(f"web-v{number}", (9000 + number,)) for number in (1, 2, 3))
ID, OTHER = 20, 10  # of the record, and of an attempt before
CLUSTER = "c1"


def report(phase: str, stable: str, newest: str, active: str = "", available: int = 1) -> Report:
    """A report. If it is not given, the active service selects what the phase lets it select."""
    names = sorted({stable, newest, active or stable})
    live = active or (newest if phase == "postAnalysis" else stable)
    numbers = {name: number for number, name in enumerate(names, 1)}
    revisions = {
        number: Revision(number, name, 1, available if name == newest else 1, 0, None, False, False)
        for name, number in numbers.items()
    }
    selected = {
        "active": numbers[live],
        "preview": numbers[newest],
        "stable": numbers[stable],
        "newest": numbers[newest],
    }
    return Report(5, Phase(phase), selected, revisions)


def record(stage: str) -> Record:
    """An attempt of v2, from v1."""
    return Record(ID, V2, V1, stage)


def known(
    stage: str,
    joined: int = ID,
    revision: str = "web-v2",
    has_passed: bool = False,
    may_retry: bool = False,
    cluster: str = CLUSTER,
    reason: str = "",
) -> Known:
    return Known(
        record(stage), CLUSTER, Joined(cluster, joined, revision, has_passed, reason), may_retry
    )


class Row(unittest.TestCase):
    def check(
        self, line: str | None, phases: Sequence[str], stable: str, newest: str, *knowns: Known
    ) -> None:
        for phase in phases:
            for each in knowns:
                with self.subTest(phase=phase, known=each):
                    found = line_by_record(report(phase, stable, newest), each)
                    self.assertEqual(found, line and line_of(line))


class OfTheRunningAttempt(Row):
    """The stable revision of the switch is that of the fleet."""

    def test_another_attempt_is_aborted_first(self) -> None:
        self.check(
            "abort",
            RUNNING,
            "web-v1",
            "web-v3",
            *(known(stage) for stage in (DEPLOYING, PROMOTING)),
        )

    def test_then_the_revision_is_deployed(self) -> None:
        for newest, phase in (("web-v1", "steady"), ("web-v3", "aborted")):
            self.check(
                "deploy web-v2 9002",
                [phase],
                "web-v1",
                newest,
                *(known(stage) for stage in (DEPLOYING, PROMOTING)),
            )

    def test_the_same_revision_of_an_attempt_before(self) -> None:
        others = [
            each
            for stage in (DEPLOYING, PROMOTING)
            for each in (
                known(stage, OTHER),
                known(stage, 0),
                known(stage, cluster="c2"),
                known(stage, revision="web-v3"),
            )
        ]
        self.check("abort", RUNNING, "web-v1", "web-v2", *others)
        self.check("retry", ["aborted"], "web-v1", "web-v2", *others)

    def test_a_promote_on_this_machine_alone_is_taken_back(self) -> None:
        self.check(
            "abort",
            ["sizing", "postAnalysis"],
            "web-v1",
            "web-v2",
            known(DEPLOYING),
            known(DEPLOYING, has_passed=True),
        )

    def test_deploying_waits(self) -> None:
        self.check(
            None,
            ["scaling", "preAnalysis", "paused", "aborted"],
            "web-v1",
            "web-v2",
            known(DEPLOYING),
        )

    def test_promoting_promotes_what_is_paused(self) -> None:
        self.check("promote", ["paused"], "web-v1", "web-v2", known(PROMOTING))

    def test_promoting_waits_in_every_other_phase(self) -> None:
        """Also with a verdict that is held back, and also if the attempt has failed here."""
        self.check(
            None,
            ["scaling", "preAnalysis", "sizing", "postAnalysis", "aborted"],
            "web-v1",
            "web-v2",
            known(PROMOTING),
            known(PROMOTING, has_passed=True),
            known(PROMOTING, may_retry=True),
        )


class OfAnAttemptThatIsOver(Row):
    def test_what_runs_is_aborted(self) -> None:
        for newest in ("web-v2", "web-v3"):
            self.check("abort", RUNNING, "web-v1", newest, known(ABORTED), known(ABORTED, OTHER))
        self.check("abort", RUNNING, "web-v2", "web-v3", known(SUCCESSFUL))

    def test_nothing_is_left_to_do(self) -> None:
        for phase in ("steady", "aborted"):
            self.check(
                None, [phase], "web-v1", "web-v1" if phase == "steady" else "web-v2", known(ABORTED)
            )
            self.check(
                None,
                [phase],
                "web-v2",
                "web-v2" if phase == "steady" else "web-v3",
                known(SUCCESSFUL),
            )


class CatchingUp(Row):
    """The stable revision of the switch is not that of the fleet: of a successful attempt, or the
    one to go back to."""

    def both(
        self,
        line: str | None,
        phases: Sequence[str],
        newest: str,
        has_passed: bool = False,
        may_retry: bool = False,
    ) -> None:
        """By a record that has succeeded with v2, and by one of another attempt whose stable
        revision is v2."""
        joined = Joined(CLUSTER, ID, newest, has_passed)
        for stage in (DEPLOYING, PROMOTING, ABORTED):
            self.check(
                line,
                phases,
                "web-v1",
                newest,
                Known(Record(ID, V3, V2, stage), CLUSTER, joined, may_retry),
            )
        self.check(
            line, phases, "web-v1", newest, Known(record(SUCCESSFUL), CLUSTER, joined, may_retry)
        )

    def test_another_attempt_is_aborted_first(self) -> None:
        self.both("abort", RUNNING, "web-v3")

    def test_then_the_stable_revision_is_deployed(self) -> None:
        self.both("deploy web-v2 9002", ["steady"], "web-v1")
        self.both("deploy web-v2 9002", ["aborted"], "web-v3")

    def test_its_own_analyses_run(self) -> None:
        self.both(None, ["scaling", "preAnalysis", "sizing", "postAnalysis"], "web-v2")

    def test_what_is_paused_is_promoted(self) -> None:
        self.both("promote", ["paused"], "web-v2")

    def test_the_verdict_is_handed_in_once_it_has_passed(self) -> None:
        self.both("verdict post successful", ["postAnalysis"], "web-v2", has_passed=True)

    def test_a_verdict_of_another_revision_or_etcd_is_not_handed_in(self) -> None:
        """As a state file has it that is older than what the switch runs: the analysis runs
        again."""
        self.check(
            None,
            ["postAnalysis"],
            "web-v1",
            "web-v2",
            known(SUCCESSFUL, OTHER, revision="web-v1", has_passed=True),
            known(SUCCESSFUL, revision="web-v3", has_passed=True),
            known(SUCCESSFUL, cluster="c2", has_passed=True),
        )

    def test_what_has_failed_here_begins_again_after_a_while(self) -> None:
        self.both(None, ["aborted"], "web-v2")
        self.both("retry", ["aborted"], "web-v2", may_retry=True)

    def test_what_was_aborted_in_an_attempt_before_begins_again_at_once(self) -> None:
        self.check(
            "retry",
            ["aborted"],
            "web-v1",
            "web-v2",
            known(SUCCESSFUL, OTHER),
            known(SUCCESSFUL, cluster="c2"),
            known(SUCCESSFUL, 0),
        )


class Lines(unittest.TestCase):
    def test_a_promote_needs_the_attempt_of_the_record(self) -> None:
        """Over all phases and stages: a promote is sent if the switch is paused, and the record
        lets its revision be active."""
        for phase in PHASES:
            for stage in (DEPLOYING, PROMOTING, SUCCESSFUL, ABORTED):
                for newest in ("web-v1", "web-v2", "web-v3"):
                    for joined in (0, OTHER, ID):
                        line = line_by_record(
                            report(phase, "web-v1", newest), known(stage, joined, newest)
                        )
                        is_right = (
                            phase == "paused"
                            and newest == "web-v2"
                            and (stage == SUCCESSFUL or stage == PROMOTING and joined == ID)
                        )
                        self.assertEqual(
                            line == Promote(), is_right, (phase, stage, newest, joined)
                        )


class WhatIsJoined(unittest.TestCase):
    def test_a_deploy_and_a_retry_join_the_record(self) -> None:
        before = known(DEPLOYING, OTHER, "web-v3", True, reason="x")
        self.assertEqual(
            joined_after(
                line_of("deploy web-v2 9002"), report("steady", "web-v1", "web-v1"), before
            ),
            Joined(CLUSTER, ID, "web-v2"),
        )
        self.assertEqual(
            joined_after(Retry(), report("aborted", "web-v1", "web-v2"), before),
            Joined(CLUSTER, ID, "web-v2"),
        )

    def test_other_lines_change_nothing(self) -> None:
        for line in ("promote", "abort", "verdict post successful"):
            each = known(PROMOTING, has_passed=True)
            self.assertEqual(
                joined_after(line_of(line), report("postAnalysis", "web-v1", "web-v2"), each),
                each.joined,
            )

    def test_why_a_promote_on_this_machine_alone_was_taken_back(self) -> None:
        alone = "it was promoted on this machine alone"
        for phase in ("sizing", "postAnalysis"):
            self.assertEqual(
                joined_after(Abort(), report(phase, "web-v1", "web-v2"), known(DEPLOYING)).reason,
                alone,
            )
        self.assertEqual(
            joined_after(
                Abort(), report("postAnalysis", "web-v1", "web-v2"), known(DEPLOYING, reason="x")
            ).reason,
            "x",
        )
        for phase, each in (
            ("paused", known(DEPLOYING)),
            ("postAnalysis", known(PROMOTING)),
            ("postAnalysis", known(DEPLOYING, OTHER)),
        ):
            self.assertEqual(
                joined_after(Abort(), report(phase, "web-v1", "web-v2"), each).reason, ""
            )
        self.assertEqual(
            joined_after(Promote(), report("sizing", "web-v1", "web-v2"), known(DEPLOYING)).reason,
            "",
        )


class Judged(unittest.TestCase):
    def test_analyses_run_for_what_the_record_asks_for(self) -> None:
        post = report("postAnalysis", "web-v1", "web-v2")
        for each, is_judged in (
            (known(DEPLOYING), True),
            (known(PROMOTING), True),
            (known(PROMOTING, OTHER), False),
            (known(ABORTED), False),
            (known(SUCCESSFUL), True),
            (known(SUCCESSFUL, OTHER), True),
        ):
            self.assertEqual(is_of_fleet(post, each), is_judged, each)
        self.assertFalse(is_of_fleet(report("preAnalysis", "web-v1", "web-v3"), known(SUCCESSFUL)))

    def test_what_is_over_stays_over(self) -> None:
        paused = report("paused", "web-v1", "web-v2")
        for each, is_over in (
            (known(DEPLOYING), False),
            (known(PROMOTING), False),
            (known(ABORTED), True),
            (known(SUCCESSFUL), True),
            (known(DEPLOYING, OTHER), True),
            (known(DEPLOYING, 0), False),
            (known(ABORTED, cluster="c2"), False),
            (known(ABORTED, revision="web-v3"), False),
        ):
            self.assertEqual(is_known_to_be_over(paused, each), is_over, each)


class States(unittest.TestCase):
    def check(self, state: str, reason: str, told: Report, *knowns: Known) -> None:
        for each in knowns:
            self.assertEqual(state_of(told, each), (state, reason), each)

    def test_a_running_attempt(self) -> None:
        running = (known(DEPLOYING), known(PROMOTING))
        for phase in ("scaling", "preAnalysis", "sizing"):
            self.check(WORKING, "", report(phase, "web-v1", "web-v2"), *running)
        self.check(READY, "", report("paused", "web-v1", "web-v2"), *running)
        self.check(WORKING, "", report("paused", "web-v1", "web-v2", available=0), *running)
        self.check(TESTING, "", report("postAnalysis", "web-v1", "web-v2"), *running)
        self.check(
            PASSED,
            "",
            report("postAnalysis", "web-v1", "web-v2"),
            known(PROMOTING, has_passed=True),
        )
        self.check(
            FAILED,
            "it was aborted on this machine",
            report("aborted", "web-v1", "web-v2"),
            *running,
        )
        self.check(
            FAILED,
            "analysis pre: failed",
            report("aborted", "web-v1", "web-v2"),
            known(DEPLOYING, reason="analysis pre: failed"),
        )

    def test_an_attempt_that_was_not_joined(self) -> None:
        for phase in PHASES[1:]:
            self.check(
                WORKING,
                "",
                report(phase, "web-v1", "web-v2"),
                known(DEPLOYING, OTHER),
                known(PROMOTING, OTHER, has_passed=True),
            )

    def test_after_the_end(self) -> None:
        for phase in ("steady", "aborted"):
            self.check(FOLLOWS, "", report(phase, "web-v1", "web-v1"), known(ABORTED))
        self.check(WORKING, "", report("paused", "web-v1", "web-v2"), known(ABORTED))
        self.check(
            WORKING, "", report("steady", "web-v1", "web-v1", active="web-v2"), known(ABORTED)
        )

    def test_behind_the_fleet(self) -> None:
        self.check(
            WORKING,
            "catches up with web-v2",
            report("steady", "web-v1", "web-v1"),
            known(SUCCESSFUL),
        )
        self.check(
            WORKING,
            "catches up with web-v2: analysis post: failed",
            report("aborted", "web-v1", "web-v2"),
            known(SUCCESSFUL, reason="analysis post: failed"),
        )
        self.check(
            WORKING,
            "catches up with web-v2",
            report("aborted", "web-v1", "web-v2"),
            known(SUCCESSFUL, OTHER, reason="x"),
        )


if __name__ == "__main__":
    unittest.main()
