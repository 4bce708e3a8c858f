"""The phases of a rollout, in the words of a report."""
import enum


class Phase(enum.StrEnum):
    """Where an attempt is. No attempt runs in `STEADY` and `ABORTED`."""

    STEADY = "steady"
    SCALING = "scaling"
    PRE_ANALYSIS = "preAnalysis"
    PAUSED = "paused"
    SIZING = "sizing"
    POST_ANALYSIS = "postAnalysis"
    ABORTED = "aborted"


PHASES: tuple[Phase, ...] = tuple(Phase)
# The phases of an attempt. One attempt passes through them in this order, and may leave some out.
RUNNING = (
    Phase.SCALING,
    Phase.PRE_ANALYSIS,
    Phase.PAUSED,
    Phase.SIZING,
    Phase.POST_ANALYSIS,
)
PAST_THE_PAUSE = (Phase.SIZING, Phase.POST_ANALYSIS)
