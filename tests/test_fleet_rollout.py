"""Which Rollouts fit a fleet."""
import json
import unittest

from bg_switch_tools.fleet.plan.rollout_settings import rollout_faults

FIT = {
    "activeService": "web",
    "autoPromotionEnabled": False,
    "prePromotionAnalysis": {},
    "postPromotionAnalysis": {},
}


def rollout(**settings: object) -> bytes:
    strategy = {key: value for key, value in {**FIT, **settings}.items() if value != "left out"}
    return json.dumps({"spec": {"replicas": 2, "strategy": {"blueGreen": strategy}}}).encode()


class Rollouts(unittest.TestCase):
    def test_one_that_fits(self) -> None:
        self.assertEqual(rollout_faults(rollout(), True), [])
        # without effect while it is not enabled
        self.assertEqual(rollout_faults(rollout(autoPromotionSeconds=5), True), [])
        self.assertEqual(rollout_faults(rollout(prePromotionAnalysis="left out"), False), [])

    def test_one_that_promotes_by_itself(self) -> None:
        for value in ("left out", True, None):
            self.assertRegex(
                "\n".join(rollout_faults(rollout(autoPromotionEnabled=value), True)),
                "^spec.strategy.blueGreen.autoPromotionEnabled is not false",
            )

    def test_one_that_holds_no_verdict_back(self) -> None:
        for value in ("left out", None):
            self.assertRegex(
                "\n".join(rollout_faults(rollout(postPromotionAnalysis=value), True)),
                "^spec.strategy.blueGreen.postPromotionAnalysis is missing",
            )

    def test_one_without_the_analysis_that_the_plan_names(self) -> None:
        self.assertRegex(
            "\n".join(rollout_faults(rollout(prePromotionAnalysis="left out"), True)),
            "^spec.strategy.blueGreen.prePromotionAnalysis is missing",
        )

    def test_what_is_no_rollout(self) -> None:
        for text in (b"{", b"[]", b'{"spec": {"strategy": {"canary": {}}}}', b'{"spec": []}'):
            self.assertRegex("\n".join(rollout_faults(text, False)), "^it is not a Rollout: ")


if __name__ == "__main__":
    unittest.main()
