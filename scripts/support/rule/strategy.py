"""The settings of a rollout."""
import json
from typing import Any, NamedTuple


class Strategy(NamedTuple):
    """The settings of a rollout. The defaults are those of a document without settings."""

    replicas: int = 1
    preview_replicas: int = 1
    has_preview: bool = False
    auto: bool = True
    seconds: int = 0
    pre: bool = False
    post: bool = False
    delay: int = 30
    revision_limit: int | None = None
    abort_delay: int = 30
    history_limit: int = 10
    drain_limit: int | None = None


def without_nulls(members: dict[str, Any]) -> dict[str, Any]:
    """A null is as good as a key that is not there."""
    return {name: value for name, value in members.items() if value is not None}


def strategy_of(document: str) -> Strategy:
    """The strategy of a document that `check` accepts."""
    spec = without_nulls(json.loads(document)["spec"])
    settings = without_nulls(spec["strategy"]["blueGreen"])
    replicas = spec.get("replicas", 1)
    return Strategy(
        replicas=replicas,
        preview_replicas=min(settings.get("previewReplicaCount", replicas), replicas),
        has_preview=bool(settings.get("previewService")),
        auto=settings.get("autoPromotionEnabled", True),
        seconds=settings.get("autoPromotionSeconds", 0),
        pre="prePromotionAnalysis" in settings,
        post="postPromotionAnalysis" in settings,
        delay=settings.get("scaleDownDelaySeconds", 30),
        revision_limit=settings.get("scaleDownDelayRevisionLimit"),
        abort_delay=settings.get("abortScaleDownDelaySeconds", 30),
        history_limit=spec.get("revisionHistoryLimit", 10),
        drain_limit=settings.get("drainLimitSeconds"),
    )
