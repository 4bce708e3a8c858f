"""Whether an attempt makes progress, as Argo Rollouts' `progressDeadlineSeconds` asks."""
from bg_switch_tools.switch.phases import Phase
from bg_switch_tools.switch.reports import Report

# the phases that wait for endpoints; a pause and an analysis do not count
WAITS = (Phase.SCALING, Phase.SIZING)


class ProgressClock:
    """Since when the attempt that runs has waited for endpoints without one more of them having
    come up."""

    def __init__(self) -> None:
        self.attempt: tuple[Phase, int] | None = None  # the phase and the number of the revision
        self.most = 0  # endpoints that were up at a time
        self.since = 0.0

    def waited(self, report: Report, now: float) -> float:
        """For how many seconds there was no progress by this report, at the time `now`. 0 in a
        phase that waits for none."""
        newest = report.newest
        attempt = (report.phase, newest.number) if report.phase in WAITS else None
        if attempt is None or attempt != self.attempt or newest.available > self.most:
            self.attempt, self.most, self.since = attempt, newest.available, now
        return now - self.since
