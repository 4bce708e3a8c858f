"""Which Rollouts fit a fleet: the record of the fleet decides on each promotion, so no switch may
promote by itself."""
from bg_switch_tools.controller.plan.plan_reader import LARGEST
from bg_switch_tools.switch.json_values import JsonObject, decoded

KEY = "spec.strategy.blueGreen"


def _strategy(text: bytes) -> JsonObject:
    """The strategy of a Rollout. `ValueError` if the text has none."""
    value = decoded(text)
    for key in ("spec", "strategy", "blueGreen"):
        value = value.get(key) if isinstance(value, JsonObject) else None
    if not isinstance(value, JsonObject):
        raise ValueError(f"it has no {KEY}")
    return value


def rollout_faults(text: bytes, has_pre: bool) -> list[str]:
    """Why a switch with this Rollout (JSON) can't be a machine of a fleet, a sentence each; empty
    if it can. `has_pre` says that the plan of the fleet names an analysis before the switch.
    Whether it is a Rollout at all, `bg_switch check` judges.
    """
    try:
        strategy = _strategy(text)
    except ValueError as error:
        return [f"it is not a Rollout: {error}"]
    found = []
    if strategy.get("autoPromotionEnabled", True) is not False:
        found.append(
            f"{KEY}.autoPromotionEnabled is not false: the switch would promote by itself, before the fleet does"
        )
    if strategy.get("postPromotionAnalysis") is None:
        found.append(
            f"{KEY}.postPromotionAnalysis is missing: the revision would be stable here before the fleet has succeeded; "
            "{} is enough"
        )
    if has_pre and strategy.get("prePromotionAnalysis") is None:
        found.append(
            f"{KEY}.prePromotionAnalysis is missing, and the plan of the fleet names an analysis before the switch"
        )
    return found


class RolloutFile:
    """The file of the Rollout with which the switch of a machine is started."""

    def __init__(self, path: str) -> None:
        self.path = path

    def faults(self, has_pre: bool) -> list[str]:
        """Why a switch that is started with the file as it is now can't be a machine of a fleet, as
        `rollout_faults` has it."""
        try:
            with open(self.path, "rb") as file:
                text = file.read(LARGEST + 1)
        except OSError as error:
            return [f"{self.path} can't be read: {error.strerror}"]
        if len(text) > LARGEST:
            return [f"{self.path} has more than {LARGEST} bytes"]
        return [f"{self.path}: {fault}" for fault in rollout_faults(text, has_pre)]
