"""A report as a table, and in one line."""
from bg_switch_tools.switch.phases import Phase
from bg_switch_tools.switch.reports import Report, Revision

WAITS_FOR = {
    Phase.STEADY: "no attempt runs",
    Phase.SCALING: "waits for endpoints of the newest revision",
    Phase.PRE_ANALYSIS: "waits for: verdict pre RESULT",
    Phase.PAUSED: "waits for: promote",
    Phase.SIZING: "waits for all endpoints of the newest revision",
    Phase.POST_ANALYSIS: "waits for: verdict post RESULT",
    Phase.ABORTED: "back at the stable revision; retry begins again",
}
NO_BOOK = "no book is open yet"


def _scale_down(revision: Revision, moment: int) -> str:
    """What is to be said of a revision's scale-down."""
    if revision.desired == 0:
        return "scaled down"
    if revision.cut:
        return "draining: its open requests are given up"
    if revision.draining:
        return "draining: waits for its open requests"
    if revision.deadline is None:
        return ""
    return f"in {max(revision.deadline - moment, 0)} s"


def _cells(report: Report, revision: Revision) -> tuple[str, ...]:
    services = [service for service, number in report.selected.items() if number == revision.number]
    return (
        f"{revision.number} {revision.name}",
        ", ".join(services),
        f"{revision.available} of {revision.desired}",
        str(revision.open),
        _scale_down(revision, report.moment),
    )


def draw(report: Report | None) -> list[str]:
    """The lines of a report as a tree of its revisions, newest first."""
    if report is None:
        return [NO_BOOK]
    newest_first = sorted(report.revisions.values(), key=lambda revision: -revision.number)
    lines_of_cells = [
        ("REVISION", "SERVICES", "AVAILABLE", "OPEN", "SCALE-DOWN"),
        *(_cells(report, each) for each in newest_first),
    ]
    widths = [max(len(cells[column]) for cells in lines_of_cells) for column in range(5)]
    branches = ["   "] + ["├─ "] * (len(lines_of_cells) - 2) + ["└─ "]
    table = [
        "  ".join(cell.ljust(width) for cell, width in zip(cells, widths))
        for cells in lines_of_cells
    ]
    head = f"phase {report.phase} ({WAITS_FOR[report.phase]})   moment {report.moment}"
    return [head] + [(branch + line).rstrip() for branch, line in zip(branches, table)]


def in_one_line(report: Report | None) -> str:
    """The state in one line: the phase, what the services select, and the moment."""
    if report is None:
        return NO_BOOK
    selected = ", ".join(f"{service} {report.service(service).name}" for service in report.selected)
    return f"{report.phase}: {selected}, moment {report.moment}"
