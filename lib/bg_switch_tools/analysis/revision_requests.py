"""Which requests of an access log are those of a revision.

A request that entered names its revision. One that was refused since no endpoint of the selected
revision was available names
none: it counts for the revision that its service selected then. Reports of the switch tell which
one that was; without them, the requests before it do.
"""
from collections.abc import Collection, Sequence

from bg_switch_tools.switch.access_log import CLIENT_SERVICES, LogEntry
from bg_switch_tools.switch.reports import Report

Services = frozenset[str]
NO_SERVICE: Services = frozenset()


def services_of(report: Report | None, number: int) -> Services:
    """The services of clients that select the revision of this number."""
    if report is None:
        return NO_SERVICE
    return frozenset(service for service in CLIENT_SERVICES if report.selected[service] == number)


class ByReports:
    """A request without an endpoint counts if its service selects the revision both in the report
    before it and in the one after it. So one that came about when the service moved counts for no
    revision."""

    def __init__(self, services: Services) -> None:
        self.services = services
        self.held: list[LogEntry] = []  # since the last report

    def take(self, entries: Sequence[LogEntry], number: int) -> list[LogEntry]:
        """Those of these entries that are the revision's. Some are given later, by
        `take_services`."""
        self.held += [entry for entry in entries if entry.is_without_endpoint]
        return [entry for entry in entries if entry.revision == number]

    def take_services(self, services: Services) -> list[LogEntry]:
        """Takes in which services select the revision now. Gives the entries before this that are
        the revision's."""
        both, held = self.services & services, self.held
        self.services, self.held = services, []
        return [entry for entry in held if entry.service in both]

    @property
    def unknown(self) -> int:
        """How many requests found no endpoint of a revision that is not known."""
        return 0


class ByNeighbours:
    """A request without an endpoint counts for the revision of its service's last request that
    entered before it; before the first one, for the revision of that one. Of two requests the one
    that began later tells: a long one can end after the service has moved."""

    def __init__(self) -> None:
        # by the service: when its latest request began, and its revision
        self.latest: dict[str, tuple[float, int]] = {}
        # before the first request
        self.held: dict[str, list[LogEntry]] = {service: [] for service in CLIENT_SERVICES}

    def take(self, entries: Sequence[LogEntry], number: int) -> list[LogEntry]:
        """Those of these entries that are the revision's, and those held before which turn out to
        be."""
        found: list[LogEntry] = []
        for entry in entries:
            if entry.revision is not None:
                found += self._entered(entry, entry.revision, number)
            elif entry.is_without_endpoint:
                found += self._refused(entry, number)
        return found

    def _entered(self, entry: LogEntry, revision: int, number: int) -> Collection[LogEntry]:
        known = self.latest.get(entry.service)
        if known is None or entry.begun >= known[0]:
            self.latest[entry.service] = (entry.begun, revision)
        if revision != number:
            self.held[entry.service].clear()
            return ()
        held, self.held[entry.service] = self.held[entry.service], []
        return [*held, entry]

    def _refused(self, entry: LogEntry, number: int) -> Collection[LogEntry]:
        known = self.latest.get(entry.service)
        if known is None:
            held = self.held[entry.service]
            # the first one stands for each: all are judged alike, and many can come
            held.append(held[0] if held else entry)
            return ()
        return (entry,) if known[1] == number else ()

    @property
    def unknown(self) -> int:
        """How many requests found no endpoint of a revision that is not known."""
        return sum(map(len, self.held.values()))
