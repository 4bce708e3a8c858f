"""What a crash of the switch has undone, as far as the reports before it show."""
from bg_switch_tools.controller.plan.plan import PlannedRevision
from bg_switch_tools.switch.phases import PAST_THE_PAUSE, Phase
from bg_switch_tools.switch.report_text import in_one_line
from bg_switch_tools.switch.reports import Report


def last_seen(report: Report, age: float) -> str:
    """What was known of a book when it was lost. A line that came later is not known."""
    return f"its last report is {age:.1f} seconds old: {in_one_line(report)}; a line that came after it is lost"


def losses(report: Report, opened: PlannedRevision, again: PlannedRevision | None) -> list[str]:
    """What is not as it was, once the book is opened with a revision, and the attempt of another
    one is begun again."""
    active, name = report.service("active").name, report.newest.name
    kept = again.name if again else ""
    found = []
    if active != opened.name:
        found.append(f"live traffic was at {active}, and is at {opened.name}")
    if report.phase is Phase.ABORTED:
        found.append(f"{name} was aborted: retry does not begin it again, a deploy does")
    elif report.is_running and name != kept:
        found.append(f"the attempt of {name} is not begun again")
    elif report.phase in PAST_THE_PAUSE:
        found.append(
            f"the attempt of {name} was in the phase {report.phase} and begins again: a promote is to be sent again"
        )
    return found + [
        f"{revision.title()} does not exist any more"
        for revision in report.revisions.values()
        if revision.desired and revision.name not in (opened.name, kept, name)
    ]
