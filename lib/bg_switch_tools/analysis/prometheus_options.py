"""The options of bin/analysis for a query of Prometheus: what is wrong with them, and the analysis
that they ask for."""
import argparse
import math
import os

from bg_switch_tools.analysis.judged_revision import NAME, subject_of
from bg_switch_tools.analysis.prometheus_analysis import (
    ARGUMENT,
    PrometheusAnalysis,
    QueryLimits,
    filled,
)
from bg_switch_tools.analysis.prometheus_query import server_of

CONSECUTIVE_ERRORS = 4  # queries in a row without an answer, as in Argo Rollouts


def fault_of(options: argparse.Namespace) -> str:
    """What is wrong with words that are each right; empty if nothing is."""
    try:
        server_of(options.prometheus)
    except ValueError as reason:
        return f"--prometheus: {reason}"
    if not options.query:
        return "--query is needed"
    if options.at_most is None and options.at_least is None:
        return "a limit is needed: --at-most, --at-least or both"
    if (options.count is None) == (options.seconds is None):
        return "one of --count and --seconds is needed"
    return "--count is above 0" if options.count == 0 else ""


def judge(options: argparse.Namespace) -> int:
    """Judges, and gives the exit status. `NotJudgedError` if the revision can't be judged."""
    needs_revision = ARGUMENT.search(options.query) or options.revision or os.environ.get(NAME)
    subject = subject_of(options.revision, options.control) if needs_revision else None
    count = (
        math.ceil(round(options.seconds / options.every, 6))
        if options.count is None
        else options.count
    )
    condition = QueryLimits(
        options.at_most,
        options.at_least,
        count,
        options.failures,
        options.inconclusive or 0,
        CONSECUTIVE_ERRORS if options.query_errors is None else options.query_errors,
    )
    analysis = PrometheusAnalysis(
        server_of(options.prometheus),
        filled(options.query, subject),
        subject.title if subject else "a query",
        condition,
    )
    return analysis.judge(options.every, options.initial_delay or 0.0)
