"""Clients that never pause, by wrk: what it prints of a run."""
import re
import subprocess
from typing import NamedTuple

from support.peers import MeasurementError
from support.ports import HOST

# The units in which wrk prints a time, in milliseconds.
UNITS = {"us": 0.001, "ms": 1.0, "s": 1_000.0, "m": 60_000.0, "h": 3_600_000.0}
NEVER = float("inf")  # the wait for an answer, if no request was answered well
LONGEST_WAIT = 10  # seconds for which a client waits, until the request counts as an error
LONGEST_END = 60.0  # seconds that wrk may take beside its run
CLOSE = "Connection: close"

REQUESTS = re.compile(r"^\s*(\d+) requests in ", re.M)
RATE = re.compile(r"^Requests/sec:\s+(\d+(?:\.\d+)?)$", re.M)
P99 = re.compile(r"^\s*99%\s+(\S+)$", re.M)
STATUSES = re.compile(r"^\s*Non-2xx or 3xx responses: (\d+)$", re.M)
SOCKETS = re.compile(r"^\s*Socket errors: (.*)$", re.M)


class Load(NamedTuple):
    """What a run has shown: how many requests were answered well (a status below 400), how many of
    them in a second, the 99th percentile of the wait in milliseconds, and how many errors there
    were."""

    requests: int
    rate: float
    p99: float
    errors: int


def milliseconds(text: str) -> float:
    """A time as wrk prints it. `ValueError` if it is not such a time."""
    found = re.fullmatch(r"(\d+(?:\.\d+)?)([a-z]+)", text)
    if not found or found[2] not in UNITS:
        raise ValueError(f"{text!r} is no time of wrk")
    return float(found[1]) * UNITS[found[2]]


def found_in(printed: str, pattern: re.Pattern[str]) -> str:
    found = pattern.search(printed)
    if not found:
        raise ValueError(f"wrk has not printed {pattern.pattern!r}")
    return found[1]


def load_of(printed: str) -> Load:
    """What wrk has printed with `--latency`. `ValueError` if a figure is missing."""
    answered = int(found_in(printed, REQUESTS))
    statuses = sum(map(int, STATUSES.findall(printed)))
    sockets = sum(
        int(count) for line in SOCKETS.findall(printed) for count in re.findall(r"\d+", line)
    )
    good = answered - statuses
    rate = float(found_in(printed, RATE)) * good / answered if good else 0.0
    p99 = milliseconds(found_in(printed, P99)) if good else NEVER
    return Load(good, rate, p99, statuses + sockets)


def words(port: int, clients: int, seconds: int, is_kept: bool) -> list[str]:
    """The words of a run. Each client sends its next request once it is answered, on the same
    connection if that is kept."""
    return [
        "wrk",
        "-t1",
        f"-c{clients}",
        f"-d{seconds}s",
        "--latency",
        "--timeout",
        f"{LONGEST_WAIT}s",
        *([] if is_kept else ["-H", CLOSE]),
        f"http://{HOST}:{port}/",
    ]


def run(port: int, clients: int, seconds: int, is_kept: bool) -> Load:
    """`clients` clients for `seconds` seconds."""
    ended = subprocess.run(
        words(port, clients, seconds, is_kept),
        capture_output=True,
        text=True,
        timeout=seconds + LONGEST_END,
        check=False,
    )
    try:
        return load_of(ended.stdout)
    except ValueError as error:
        raise MeasurementError(f"{error}, but {ended.stdout}{ended.stderr}") from error
