"""What is wrong with a switch that answers: states in which clients get errors."""
from typing import TypedDict

from bg_switch_tools.switch.access_log import CLIENT_SERVICES
from bg_switch_tools.switch.reports import Report

ALARMED = (
    "active"  # the preview service has no endpoint while a new revision starts, which is no fault
)


class Alarm(TypedDict):
    """An alarm: the service and the revision that it is about, and what it says."""

    service: str
    revision: str
    text: str


def has_endpoint(report: Report, service: str) -> bool:
    """Whether an endpoint is available of the revision that a service selects."""
    return report.service(service).available > 0


def without_endpoint(report: Report) -> dict[str, bool]:
    """For each service of clients, whether the revision that it selects has no available
    endpoint."""
    return {service: not has_endpoint(report, service) for service in CLIENT_SERVICES}


def alarms(report: Report | None) -> list[Alarm]:
    """The alarms of a report: the active service selects a revision of which no endpoint is up."""
    if report is None or has_endpoint(report, ALARMED):
        return []
    name = report.service(ALARMED).name
    text = f"No endpoint of {name} is up. The active service selects {name}, so each request is answered 503."
    return [{"service": ALARMED, "revision": name, "text": text}]
