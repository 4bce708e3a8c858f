"""Metrics of one name, as `prometheus_client` takes them."""
from collections.abc import Iterable, Mapping, Sequence

from prometheus_client.core import CounterMetricFamily, GaugeMetricFamily, Metric

Values = Iterable[tuple[Sequence[str], float]]  # by the values of the labels


def gauge(name: str, text: str, value: float) -> Metric:
    """A gauge without labels."""
    return GaugeMetricFamily(name, text, value)


def gauges(name: str, text: str, labels: Sequence[str], values: Values) -> Metric:
    """A gauge with labels."""
    family = GaugeMetricFamily(name, text, labels=list(labels))
    for each, number in values:
        family.add_metric(each, number)
    return family


def by_label(name: str, text: str, label: str, values: Mapping[str, float]) -> Metric:
    """A gauge with one label."""
    return gauges(name, text, [label], [([value], number) for value, number in values.items()])


def counter(name: str, text: str, labels: Sequence[str], values: Values) -> Metric:
    """A counter."""
    family = CounterMetricFamily(name, text, labels=list(labels))
    for each, number in values:
        family.add_metric(each, number)
    return family
