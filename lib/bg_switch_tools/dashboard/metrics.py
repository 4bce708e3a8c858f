"""The metrics of a board, as `prometheus_client` writes them. docs/DASHBOARD.md lists them."""
from collections.abc import Iterator, Mapping

from prometheus_client.core import HistogramMetricFamily, Metric

from bg_switch_tools.controller.state.controller_life import Life
from bg_switch_tools.dashboard.alarms import without_endpoint
from bg_switch_tools.dashboard.board import Board
from bg_switch_tools.dashboard.local_controller import ControllerView
from bg_switch_tools.dashboard.metric_families import by_label, counter, gauge, gauges
from bg_switch_tools.dashboard.totals import Labels, Totals
from bg_switch_tools.switch.phases import PHASES, Phase
from bg_switch_tools.switch.reports import SERVICES, Report

# The phases of Argo Rollouts.
ARGO_PHASES = {Phase.STEADY: "Healthy", Phase.ABORTED: "Degraded", Phase.PAUSED: "Paused"}
LABELS = list(Labels._fields)
DROPPED_IN = "0.2.0"  # the version that no longer has the old names
# The names that metrics had before, which are those of exporters that can run beside the dashboard.
OLD_NAMES = {
    "bg_switch_rollout_info": "rollout_info",
    "bg_switch_rollout_events": "rollout_events",
    "bg_switch_replicas_desired": "rollout_info_replicas_desired",
    "bg_switch_replicas_available": "rollout_info_replicas_available",
    "bg_switch_replicas_unavailable": "rollout_info_replicas_unavailable",
    "bg_switch_http_requests": "nginx_http_requests",
    "bg_switch_http_request_duration_seconds": "nginx_ingress_controller_request_duration_seconds",
    "bg_switch_http_response_duration_seconds": "nginx_ingress_controller_response_duration_seconds",
}


def _histogram(name: str, text: str, totals: Totals, of_upstream: bool) -> Metric:
    family = HistogramMetricFamily(name, text, labels=LABELS)
    for labels, counted in totals.items():
        tally = counted.upstream if of_upstream else counted.durations
        if not tally.is_empty:
            family.add_metric(labels, tally.buckets(), tally.sum)
    return family


def _of_revisions(report: Report) -> Iterator[Metric]:
    revisions = report.revisions.values()

    def each(name: str, text: str, values: Mapping[str, float]) -> Metric:
        return by_label(name, text, "revision", values)

    yield each(
        "bg_switch_replicas_desired",
        "Desired endpoints of the revision.",
        {one.name: one.desired for one in revisions},
    )
    yield each(
        "bg_switch_replicas_available",
        "Endpoints of the revision that can take requests.",
        {one.name: one.available for one in revisions},
    )
    yield each(
        "bg_switch_replicas_unavailable",
        "Desired endpoints of the revision that cannot take requests.",
        {one.name: one.desired - one.available for one in revisions},
    )
    yield each(
        "bg_switch_open_requests",
        "Requests of the revision that are being served.",
        {one.name: one.open for one in revisions},
    )
    yield each(
        "bg_switch_draining",
        "Whether the scale-down of the revision waits for its open requests.",
        {one.name: one.draining for one in revisions},
    )
    yield each(
        "bg_switch_scale_down_seconds",
        "Seconds until the revision may be scaled down, where that is due.",
        {
            one.name: max(one.deadline - report.moment, 0)
            for one in revisions
            if one.deadline is not None
        },
    )


def _of_report(report: Report) -> Iterator[Metric]:
    yield gauges(
        "bg_switch_rollout_info",
        "The strategy and the phase, in the words of Argo Rollouts.",
        ["strategy", "phase"],
        [(["blueGreen", ARGO_PHASES.get(report.phase, "Progressing")], 1)],
    )
    yield by_label(
        "bg_switch_phase",
        "The phase: 1 for the one that the switch is in.",
        "phase",
        {phase: phase == report.phase for phase in PHASES},
    )
    yield gauges(
        "bg_switch_selected",
        "The revision that is selected, 1 for each.",
        ["service", "revision"],
        [([service, report.service(service).name], 1) for service in SERVICES],
    )
    yield by_label(
        "bg_switch_service_without_endpoint",
        "Whether no endpoint is up of the revision that the service selects.",
        "service",
        without_endpoint(report),
    )
    yield gauge(
        "bg_switch_moment_seconds",
        "The moment of the switch, in seconds from its start.",
        report.moment,
    )
    yield from _of_revisions(report)


def _of_requests(totals: Totals) -> Iterator[Metric]:
    yield counter(
        "bg_switch_http_requests",
        "Requests that ended.",
        LABELS,
        [(labels, counted.requests) for labels, counted in totals.items()],
    )
    yield counter(
        "bg_switch_response_bytes",
        "Bytes of responses.",
        LABELS,
        [(labels, counted.bytes) for labels, counted in totals.items()],
    )
    yield counter(
        "bg_switch_redispatched_requests",
        "Requests of which another endpoint was dialled than that of their slot.",
        LABELS,
        [(labels, counted.redispatched) for labels, counted in totals.items()],
    )
    yield counter(
        "bg_switch_connect_retries",
        "Connects to endpoints after the first one of each request.",
        LABELS,
        [(labels, counted.retries) for labels, counted in totals.items()],
    )
    yield counter(
        "bg_switch_client_gone_requests",
        "Requests whose clients had gone before their answers, with the status 499 in the log.",
        LABELS,
        [(labels, counted.gone) for labels, counted in totals.items()],
    )
    yield counter(
        "bg_switch_kept_connection_requests",
        "Requests on connections of clients that had carried a request before.",
        LABELS,
        [(labels, counted.kept) for labels, counted in totals.items()],
    )
    yield counter(
        "bg_switch_upstream_reused_requests",
        "Requests on connections to endpoints that had carried a request before.",
        LABELS,
        [(labels, counted.reused) for labels, counted in totals.items()],
    )
    yield _histogram(
        "bg_switch_http_request_duration_seconds",
        "From the connection of a client to its end.",
        totals,
        False,
    )
    yield _histogram(
        "bg_switch_http_response_duration_seconds",
        "From the dial of an endpoint to its response.",
        totals,
        True,
    )


def _of_controller(view: ControllerView) -> Iterator[Metric]:
    if view.life.life != Life.UNKNOWN:
        yield gauge(
            "bg_controller_up",
            "Whether a controller runs the plan, and does not hang.",
            not view.life.is_wrong,
        )
    yield gauge(
        "bg_controller_revisions_held_back",
        "Revisions of the plan that the controller holds back.",
        len(view.held),
    )


def _of_board(board: Board) -> Iterator[Metric]:
    totals = board.totals
    yield gauge("bg_switch_up", "Whether the switch answers at its control port.", not board.fault)
    if board.report and not board.fault:
        yield from _of_report(board.report)
        yield gauge(
            "bg_switch_journal_lacks_order",
            "Whether an order was carried out that the journal of the switch does not keep.",
            board.lacks_order,
        )
    if board.controller:
        yield from _of_controller(board.controller)
    yield counter(
        "bg_switch_rollout_events",
        "Changes, by the reason of the event of Argo Rollouts.",
        ["reason"],
        [([reason], count) for reason, count in totals.events.items()],
    )
    yield from _of_requests(totals)
    yield counter(
        "bg_switch_idle_connections",
        "Connections that ended without having sent a byte. They are no requests.",
        [],
        [([], totals.idle_connections)],
    )
    yield counter(
        "bg_switch_log_lines_lost",
        "Lines that the switch could not write into its log.",
        [],
        [([], totals.lost)],
    )
    yield counter(
        "bg_switch_log_lines_unreadable",
        "Lines of the log that the dashboard could not read.",
        [],
        [([], totals.unreadable)],
    )
    yield counter(
        "bg_switch_dashboard_faults",
        "Looks of the dashboard that ended by a fault of its own.",
        [],
        [([], board.own_faults)],
    )


def _renamed(metric: Metric, name: str) -> Metric:
    """The same metric by its old name."""
    text = f"Deprecated: the old name of {metric.name}. Version {DROPPED_IN} drops it."
    family = Metric(name, text, metric.type)
    family.samples = [
        sample._replace(name=name + sample.name.removeprefix(metric.name))
        for sample in metric.samples
    ]
    return family


class Collector:
    """Gives the metrics of a board each time they are asked for."""

    def __init__(self, board: Board) -> None:
        self.board = board

    def collect(self) -> Iterator[Metric]:
        for metric in _of_board(self.board):
            yield metric
            if metric.name in OLD_NAMES:
                yield _renamed(metric, OLD_NAMES[metric.name])
