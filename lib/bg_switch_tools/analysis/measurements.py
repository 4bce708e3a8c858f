"""Measurements of a revision's requests, and what an analysis by them comes to."""
import math
from collections.abc import Sequence
from typing import NamedTuple

from bg_switch_tools.switch.access_log import LogEntry

SILENCE = "no request has come"
ALL_GONE = "no client has waited for its answer"
MANY_GONE = 10  # clients that have gone while none has stayed, from which on this is said


class Limits(NamedTuple):
    """What is asked of the requests: the share of errors and the 99th percentile of the duration in
    milliseconds at most, if these are limits; how many requests a measurement needs; and how many
    measurements may fail."""

    errors: float | None
    p99: float | None
    requests: int
    failures: int
    by_endpoint: bool = (
        False  # whether durations are those of the endpoint, and not of the whole request
    )
    is_silence_allowed: bool = False  # whether a window without a request is no failure


class Request(NamedTuple):
    """What an analysis keeps of a request: many of them can wait. `duration` is None if it has no
    duration to be judged."""

    is_error: bool
    duration: float | None


def request_of(entry: LogEntry, limits: Limits) -> Request:
    if entry.is_without_endpoint:
        # a refusal is fast, and says nothing of the revision's durations
        return Request(True, None)
    return Request(entry.is_error, entry.upstream_ms if limits.by_endpoint else entry.answer_ms)


def quantile(values: Sequence[float], share: float) -> float:
    """The smallest of these sorted values which so large a share of them does not exceed."""
    return values[max(math.ceil(share * len(values)), 1) - 1]


class Measurement(NamedTuple):
    """What requests came to. `p99` is None if no request has a duration, `problems` says which
    limits they exceed, and `gone` counts the clients that had gone before their answers, whose
    requests are not among these."""

    requests: int
    errors: int
    p99: float | None
    problems: tuple[str, ...]
    gone: int = 0

    def text(self) -> str:
        if not self.requests:
            return f"0 requests{gone_text(self.gone)}"
        p99 = "" if self.p99 is None else f", p99 {self.p99:.4g} ms"
        errors = f"{self.errors} errors ({self.errors / self.requests:.2%})"
        return f"{self.requests} requests, {errors}{p99}{gone_text(self.gone)}"


def gone_text(gone: int) -> str:
    """How many clients had gone, for the end of a text; empty if none had."""
    return f" ({gone} clients had gone)" if gone else ""


def _p99(requests: Sequence[Request], missing: int = 0) -> float | None:
    """The 99th percentile of the durations and of `missing` further ones, each of which counts as
    0; None if no request has a duration."""
    durations = sorted(request.duration for request in requests if request.duration is not None)
    return quantile([0.0] * missing + durations, 0.99) if durations else None


def _problems(errors: float, p99: float | None, limits: Limits) -> tuple[str, ...]:
    """The limits that a share of errors and a 99th percentile exceed; one that is None exceeds
    none."""
    found = []
    if limits.errors is not None and errors > limits.errors:
        found.append(f"errors are above {limits.errors * 100:g}%")
    if limits.p99 is not None and p99 is not None and p99 > limits.p99:
        found.append(f"p99 is above {limits.p99:g} ms")
    return tuple(found)


def measure(requests: Sequence[Request], limits: Limits, gone: int = 0) -> Measurement:
    """The measurement of these requests, of which there is one or more, beside `gone` requests
    whose clients had gone."""
    errors, p99 = sum(request.is_error for request in requests), _p99(requests)
    problems = _problems(errors / len(requests), p99, limits)
    if limits.p99 is not None and p99 is None:
        problems += ("no endpoint has answered",)
    return Measurement(len(requests), errors, p99, problems, gone)


def measure_few(requests: Sequence[Request], limits: Limits, gone: int = 0) -> Measurement:
    """The measurement of requests that are too few and which no others follow. It has only those
    problems that it would also have if all requests that are missing had been answered at once and
    without an error."""
    errors, missing = sum(request.is_error for request in requests), max(
        limits.requests - len(requests), 0
    )
    problems = _problems(errors / (len(requests) + missing), _p99(requests, missing), limits)
    return Measurement(len(requests), errors, _p99(requests), problems, gone)


class Analyser:
    """Measures requests window by window. Those of a window are judged by themselves; if they are
    too few, they wait, and are judged together with those of the next window, but never with
    requests that were judged before. A request whose client had gone before its answer says nothing
    of the revision, and is only counted. But if that many requests come, and each of the clients
    has gone, a measurement has failed: a revision that hangs is left by all of its clients.
    """

    def __init__(self, limits: Limits) -> None:
        self.limits = limits
        self.unjudged: list[Request] = []  # not judged yet
        self.gone = 0  # clients that had gone, since the last measurement
        self.came = 0  # requests of the present window
        self.has_seen = False  # whether an earlier window had requests
        self.measured = self.failed = 0  # measurements

    def take(self, entries: Sequence[LogEntry]) -> None:
        stayed = [entry for entry in entries if not entry.has_client_gone]
        self.unjudged += [request_of(entry, self.limits) for entry in stayed]
        self.gone += len(entries) - len(stayed)
        self.came += len(entries)

    def end_window(self, can_be_silent: bool = True) -> Measurement | None:
        """A measurement of what waits, or None if that is too little. A window without a request
        that follows one with some is a failed measurement; `can_be_silent` is false for a window
        that says nothing if it has no request, such as a short one.
        """
        came, self.came = self.came, 0
        if came == 0 and self.has_seen and can_be_silent and not self.limits.is_silence_allowed:
            return self._counted(Measurement(0, 0, None, (SILENCE,)))
        self.has_seen = self.has_seen or came > 0
        if not self.unjudged and self.gone >= max(self.limits.requests, MANY_GONE):
            return self._counted(Measurement(0, 0, None, (ALL_GONE,), self._take_gone()))
        if len(self.unjudged) < max(self.limits.requests, 1):
            return None
        unjudged, self.unjudged = self.unjudged, []
        return self._counted(measure(unjudged, self.limits, self._take_gone()))

    def _take_gone(self) -> int:
        gone, self.gone = self.gone, 0
        return gone

    def end_rest(self) -> Measurement | None:
        """The failed measurement of what still waits after the last window; None if it has not
        failed, or if no window was measured: requests that are too few in all are not judged."""
        rest = (
            measure_few(self.unjudged, self.limits, self.gone)
            if self.unjudged and self.has_judged
            else None
        )
        return self._counted(rest) if rest and rest.problems else None

    def _counted(self, measurement: Measurement) -> Measurement:
        self.measured += 1
        self.failed += bool(measurement.problems)
        return measurement

    @property
    def has_failed(self) -> bool:
        return self.failed > self.limits.failures

    @property
    def has_judged(self) -> bool:
        return self.measured > 0
