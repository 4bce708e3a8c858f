"""What a plan does in place of the one before."""
import unittest

from bg_switch_tools.controller.plan.plan import PlannedRevision
from bg_switch_tools.fleet.person.plan_change import plan_effect, plan_problems
from bg_switch_tools.fleet.plan.fleet_plan import FleetPlan
from bg_switch_tools.fleet.record.record import ABORTED, DEPLOYING, SUCCESSFUL, Record

V1, V2, V3 = (
    PlannedRevision(f"web-v{number}", (9001 + 100 * number, 9002 + 100 * number))
    for number in (1, 2, 3)
)
OTHER_V2 = PlannedRevision("web-v2", (9301, 9302))
BEFORE = FleetPlan((V1, V2))


class Problems(unittest.TestCase):
    def test_a_plan_that_can_follow(self) -> None:
        for before, after in (
            (None, BEFORE),
            (BEFORE, BEFORE),
            (BEFORE, FleetPlan((V2, V3))),
            (BEFORE, FleetPlan((V2, V1))),
        ):
            self.assertEqual(plan_problems(before, after, Record(5, V2, V1, SUCCESSFUL)), [])

    def test_other_ports_need_another_name(self) -> None:
        expected = [
            "revisions[1].ports: web-v2 had the ports 9201, 9202 before: a switch that has the revision refuses others, so other "
            "ports need another name"
        ]
        self.assertEqual(plan_problems(BEFORE, FleetPlan((V1, OTHER_V2)), None), expected)
        self.assertEqual(
            plan_problems(None, FleetPlan((V1, OTHER_V2)), Record(5, V1, V2, SUCCESSFUL)), expected
        )
        self.assertEqual(
            plan_problems(BEFORE, FleetPlan((V1, PlannedRevision("web-v2", (9202, 9201)))), None),
            expected,
        )

    def test_the_number_of_replicas_stays(self) -> None:
        after = FleetPlan((PlannedRevision("web-v3", (9301,)),))
        self.assertEqual(
            plan_problems(BEFORE, after, None),
            [
                "revisions[0].ports: has 1, and the revisions before have 2: each switch keeps "
                "its number of replicas"
            ],
        )


class Effects(unittest.TestCase):
    def check(self, effect: str, after: FleetPlan, record: Record | None) -> None:
        self.assertEqual(plan_effect(BEFORE, after, record), effect)

    def test_each_one(self) -> None:
        runs, aborted, over = (
            Record(5, V2, V1, stage) for stage in (DEPLOYING, ABORTED, SUCCESSFUL)
        )
        self.check(
            "the fleet begins: its stable revision is the one that is live, and web-v2 is deployed unless it is that one",
            BEFORE,
            None,
        )
        self.check("web-v3 is deployed", FleetPlan((V2, V3)), over)
        self.check(
            "the attempt of web-v2 is aborted; web-v3 is deployed", FleetPlan((V2, V3)), runs
        )
        self.check(
            "web-v1 is deployed again: the plan before names it too", FleetPlan((V2, V1)), over
        )
        self.check(
            "nothing else is deployed: web-v2 is the stable revision of the fleet", BEFORE, over
        )
        self.check(
            "the attempt of web-v2 is aborted; nothing else is deployed: web-v1 is the stable revision of the fleet",
            FleetPlan((V2, V1)),
            runs,
        )
        self.check("the attempt of web-v2, which was aborted, begins again", BEFORE, aborted)
        self.check("the attempt of web-v2 is aborted; it begins again", BEFORE, runs)


if __name__ == "__main__":
    unittest.main()
