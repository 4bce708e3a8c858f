"""bin/analysis: judges a revision by its requests in the access log of the switch, or by a query of
Prometheus."""
import argparse
import contextlib
from collections.abc import Sequence
from typing import NoReturn

from bg_switch_tools.analysis.judged_revision import subject_of
from bg_switch_tools.analysis.log_analysis import LogAnalysis
from bg_switch_tools.analysis.measurements import Limits
from bg_switch_tools.analysis.verdicts import NOT_JUDGED, NotJudgedError, tell
from bg_switch_tools.switch.access_log import Follower
from bg_switch_tools.switch.arguments import control_of, count_of, share_of
from bg_switch_tools.switch.durations import (
    duration_of,
    milliseconds_of,
    positive_duration_of,
    value_of,
)
from bg_switch_tools.switch.frame import Frame
from bg_switch_tools.switch.installed_names import named

USAGE = """bin/analysis --log FILE [--revision NAME] --seconds N [options]
       bin/analysis --prometheus URL --query QUERY (--at-most X | --at-least X) --count N [options]"""
ABOUT = """Judges a revision from now on, by its requests in the access log of the switch or by a query of Prometheus. In the log, errors
are requests with a status from 500 on, requests without an answer, and requests that found no endpoint of the revision.
Requests whose clients had gone before their answers (status 499) are neither errors nor judged: the output tells how many."""
END = """
As an analysis of a plan it needs no --revision, since the controller names the revision:
  "post": ["/usr/bin/bg-analysis", "--log", "/var/log/bg/access.log", "--seconds", "1m", "--errors-at-most", "1%",
           "--requests-at-least", "50"]
  "post": ["/usr/bin/bg-analysis", "--prometheus", "http://127.0.0.1:9090", "--interval", "10s", "--count", "6", "--at-most", "1%",
           "--query", "sum(rate(errors{revision='{{args.revision}}'}[1m])) / sum(rate(requests{revision='{{args.revision}}'}[1m]))"]
Elsewhere --revision names it: by its number, or by its name together with --control.

By the access log, a measurement judges the requests of the last --every seconds. If they are fewer than --requests-at-least, they
count with those of the next measurement. A measurement without a request, after one with requests, has failed, and so has one of
ten clients or more (of --requests-at-least, if that is more) that have all gone before their answers. By Prometheus, each
measurement is a query; one without data, or with a value that is not a number, is inconclusive.

A duration is 60, 60s, 1m or 1h.

Exit status: 0 if the limits held to the end; 1 as soon as more measurements than --failures have failed; 2 if the revision
can't be judged: too few requests came, the log can't be read, measurements are inconclusive, Prometheus gives no answer, or the
words are wrong.
"""
FRAME = Frame("analysis", has_whole_lines=True)
OF_LOG = ("errors_at_most", "p99_at_most", "requests_at_least", "by_endpoint", "silence_allowed")
OF_PROMETHEUS = (
    "query",
    "at_most",
    "at_least",
    "count",
    "inconclusive",
    "query_errors",
    "initial_delay",
)


class AnalysisWordsError(Exception):
    """Words that are no analysis. The text says why."""


class Judging(argparse.ArgumentParser):
    """A parser that does not end the run if the words are wrong."""

    def error(self, message: str) -> NoReturn:
        raise AnalysisWordsError(message)


def parser(
    kind: type[argparse.ArgumentParser] = argparse.ArgumentParser,
) -> argparse.ArgumentParser:
    argument_parser = kind(
        prog="analysis",
        usage=named(USAGE),
        description=ABOUT,
        epilog=END,
        formatter_class=argparse.RawDescriptionHelpFormatter,
    )
    add_options(argument_parser)
    return argument_parser


def add_options(argument_parser: argparse.ArgumentParser) -> None:
    """Adds the options of an analysis."""
    source = argument_parser.add_mutually_exclusive_group(required=True)
    source.add_argument(
        "--log", metavar="FILE", help="the access log of the switch, BG_SWITCH_ACCESS_LOG"
    )
    source.add_argument(
        "--prometheus", metavar="URL", help="a Prometheus server, such as http://127.0.0.1:9090"
    )
    argument_parser.add_argument(
        "--revision", default="", metavar="NAME", help="the name of the revision, or its number"
    )
    argument_parser.add_argument(
        "--control",
        type=control_of,
        metavar="PORT",
        help="the control port: the switch tells the number of a name, and which revisions the services select",
    )
    argument_parser.add_argument(
        "--seconds", type=positive_duration_of, metavar="N", help="how long the limits have to hold"
    )
    argument_parser.add_argument(
        "--every",
        "--interval",
        type=positive_duration_of,
        default=5.0,
        metavar="N",
        help="the seconds between two measurements (5)",
    )
    argument_parser.add_argument(
        "--failures",
        "--failure-limit",
        type=count_of,
        default=0,
        metavar="N",
        help="how many measurements may fail (0)",
    )
    add_log_options(argument_parser.add_argument_group("by the access log"))
    add_prometheus_options(argument_parser.add_argument_group("by Prometheus"))


def add_log_options(group: "argparse._ArgumentGroup") -> None:
    group.add_argument("--errors-at-most", type=share_of, metavar="1%", help="the share of errors")
    group.add_argument(
        "--p99-at-most",
        type=milliseconds_of,
        metavar="300ms",
        help="the 99th percentile of the duration",
    )
    group.add_argument(
        "--requests-at-least", type=count_of, metavar="N", help="what a measurement needs (1)"
    )
    group.add_argument(
        "--by-endpoint",
        action="store_true",
        help="durations are those of the endpoint, without the time that clients take",
    )
    group.add_argument(
        "--silence-allowed",
        action="store_true",
        help="a measurement without a request has not failed",
    )


def add_prometheus_options(group: "argparse._ArgumentGroup") -> None:
    group.add_argument(
        "--query",
        metavar="QUERY",
        help="in PromQL; {{args.revision}} and {{args.revision-number}} are replaced",
    )
    group.add_argument(
        "--at-most",
        type=value_of,
        metavar="X",
        help="each value of the result is this at most, such as 0.01 or 1%%",
    )
    group.add_argument(
        "--at-least", type=value_of, metavar="X", help="each value of the result is this at least"
    )
    group.add_argument(
        "--count",
        type=count_of,
        metavar="N",
        help="the number of measurements, in place of --seconds",
    )
    group.add_argument(
        "--inconclusive",
        "--inconclusive-limit",
        type=count_of,
        metavar="N",
        help="how many measurements may be inconclusive (0)",
    )
    group.add_argument(
        "--query-errors",
        "--consecutive-error-limit",
        type=count_of,
        metavar="N",
        help="how many queries in a row may have no answer (4)",
    )
    group.add_argument(
        "--initial-delay",
        type=duration_of,
        metavar="N",
        help="the seconds before the first measurement (0)",
    )


def judge_by_log(options: argparse.Namespace) -> int:
    subject = subject_of(options.revision, options.control)
    requests = 1 if options.requests_at_least is None else options.requests_at_least
    limits = Limits(
        options.errors_at_most,
        options.p99_at_most,
        requests,
        options.failures,
        options.by_endpoint,
        options.silence_allowed,
    )
    with contextlib.closing(Follower(options.log)) as follower:
        if follower.fault:
            raise NotJudgedError(f"the log {options.log}: {follower.fault}")
        return LogAnalysis(follower, subject, limits).judge(options.seconds, options.every)


def fault_of(options: argparse.Namespace) -> str:
    """What is wrong with words that are each right; empty if nothing is."""
    foreign = [
        name
        for name in (OF_PROMETHEUS if options.log is not None else OF_LOG)
        if getattr(options, name) not in (None, False)
    ]
    if foreign:
        option = "--prometheus" if options.log is not None else "--log"
        return f"--{foreign[0].replace('_', '-')} belongs to {option}"
    if options.log is not None:
        if options.seconds is None:
            return "--seconds is needed"
        has_limit = options.errors_at_most is not None or options.p99_at_most is not None
        return "" if has_limit else "a limit is needed: --errors-at-most, --p99-at-most or both"
    # here, since HTTP would make each start of the other tools slower
    from bg_switch_tools.analysis import prometheus_options

    return prometheus_options.fault_of(options)


def fault_of_words(words: Sequence[str]) -> str:
    """Why these words are no analysis; empty if they are one."""
    try:
        return fault_of(parser(Judging).parse_args(words))
    except AnalysisWordsError as wrong:
        return str(wrong)


def judge(options: argparse.Namespace) -> int:
    """Judges a revision. Gives the exit status, as the verdict has it."""
    try:
        if options.log is not None:
            return judge_by_log(options)
        from bg_switch_tools.analysis import prometheus_options

        return prometheus_options.judge(options)
    except NotJudgedError as reason:
        tell(f"analysis: it can't be judged: {reason}")
        return NOT_JUDGED


def main(words: Sequence[str]) -> int:
    argument_parser = parser()
    options = argument_parser.parse_args(words)
    if fault := fault_of(options):
        argument_parser.error(fault)
    return FRAME.run(lambda: judge(options))
