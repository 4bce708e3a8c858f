"""Whether the Rollout with which a switch is started and the plan of its controller fit one
another."""
from bg_switch_tools.controller.plan.plan import Plan
from bg_switch_tools.controller.plan.plan_reader import LARGEST
from bg_switch_tools.switch.json_values import JsonObject, decoded

STRATEGY = "spec.strategy"
# by the key in the plan: that in the Rollout
ANALYSES = {"pre": "prePromotionAnalysis", "post": "postPromotionAnalysis"}


def _member(value: object, *keys: str) -> object:
    """The value in an object below these keys; None if there is none."""
    for key in keys:
        value = value.get(key) if isinstance(value, JsonObject) else None
    return value


def _strategy_problems(rollout: object) -> list[str]:
    """What is wrong with the strategy itself, as far as the switch does not say what to do."""
    if _member(rollout, "spec", "strategy", "canary") is not None:
        return [
            f"{STRATEGY}.canary: the switch has no canary: it moves all live traffic at once. Write {STRATEGY}.blueGreen in its place; "
            "its previewService gets requests of testers before the switch"
        ]
    if _member(rollout, "spec", "strategy", "blueGreen") is None:
        return [f"{STRATEGY}.blueGreen is missing"]
    return []


def _replicas_problems(rollout: object, plan: Plan) -> list[str]:
    replicas, ports = _member(rollout, "spec", "replicas"), len(plan.first.ports)
    if not isinstance(replicas, int) or replicas == ports:
        return []
    return [
        f"spec.replicas is {replicas}, and each revision of the plan has {ports} {'port' if ports == 1 else 'ports'}: the switch refuses "
        f"them (BadPorts). Set replicas to {ports}, or give each revision of the plan {replicas} ports, by new names; a switch that "
        "runs keeps the Rollout with which it was started"
    ]


def _analysis_problems(rollout: object, plan: Plan) -> list[str]:
    return [
        f"{STRATEGY}.blueGreen.{key} is missing, so the command analyses.{name} of the plan is never run: {{}} is enough"
        for name, key in ANALYSES.items()
        if name in plan.analyses.commands
        and _member(rollout, "spec", "strategy", "blueGreen", key) is None
    ]


def rollout_problems(text: bytes, plan: Plan) -> list[str]:
    """In what a Rollout (JSON) does not fit a plan, a sentence each. Whether it is a Rollout at
    all, `bg_switch check` judges."""
    if len(text) > LARGEST:
        return [f"it has more than {LARGEST} bytes"]
    try:
        rollout = decoded(text)
    except ValueError as error:
        return [f"it is not JSON: {error}"]
    return _strategy_problems(rollout) or [
        *_replicas_problems(rollout, plan),
        *_analysis_problems(rollout, plan),
    ]
