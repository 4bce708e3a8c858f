"""Which revision an undo takes again."""
from collections.abc import Sequence

from bg_switch_tools.bgctl.target import TargetError
from bg_switch_tools.controller.history.attempts import STABLE, Attempt
from bg_switch_tools.controller.history.kept_ports import Kept
from bg_switch_tools.controller.plan.plan import Plan, PlannedRevision
from bg_switch_tools.switch.reports import Report
from bg_switch_tools.switch.suggestion import did_you_mean


class KnownRevisions:
    """What is known of revisions: the report, the history (none without a plan), the plan, and the
    ports that names keep."""

    def __init__(
        self, report: Report, attempts: Sequence[Attempt], plan: Plan | None, kept: Kept
    ) -> None:
        self.report = report
        self.attempts = attempts
        self.plan = plan
        self.kept = kept

    def before(self) -> str:
        """The name of the revision that was stable before the newest one. Without a history that is
        the only other revision. `TargetError` if it can't be told."""
        newest = self.report.newest.name
        if self.report.stable.name != newest:
            return self.report.stable.name
        for attempt in reversed(self.attempts):
            if attempt.how == STABLE and attempt.name != newest:
                return attempt.name
        others = [
            revision.name for revision in self.report.revisions.values() if revision.name != newest
        ]
        if len(others) == 1 and not self.attempts:
            return others[0]
        if self.attempts or not others:
            raise TargetError(
                f"no revision is known that was stable before {newest}: --to NAME names another one"
            )
        raise TargetError(
            f"no history tells which revision was stable before {newest}: --to NAME names one of {', '.join(others)}"
        )

    def named(self, name_or_number: str) -> str:
        """The name of the revision of this name or number. `TargetError` if none is known."""
        if (
            name_or_number.isascii()
            and name_or_number.isdigit()
            and len(name_or_number) <= 20
            and int(name_or_number) in self.report.revisions
        ):
            return self.report.revisions[int(name_or_number)].name
        names = self.names()
        if name_or_number not in names:
            raise TargetError(
                f"no revision {name_or_number} is known{did_you_mean(name_or_number, names)}"
            )
        return name_or_number

    def names(self) -> list[str]:
        """All names that are known, each once."""
        planned = [revision.name for revision in self.plan.revisions] if self.plan else []
        existing = [revision.name for revision in self.report.revisions.values()]
        return list(
            dict.fromkeys([*existing, *planned, *(attempt.name for attempt in self.attempts)])
        )

    def ports(self, name: str) -> tuple[int, ...]:
        """The ports of a revision: those that it was opened or deployed with, or else those of the
        plan; empty if they are not known."""
        known = self.kept.get(name) or (self.plan.named(name) if self.plan else None)
        return known.ports if known else ()


def revision_to_undo_to(
    known: KnownRevisions, to: str | None, ports: Sequence[int]
) -> PlannedRevision:
    """The revision that an undo takes again, with its ports; `ports` are used if they are given.
    `TargetError` if either is not known."""
    name = known.named(to) if to else known.before()
    found = tuple(ports) or known.ports(name)
    if not found:
        raise TargetError(
            f"the ports of {name} are not known, since the switch does not report them: --ports PORT.. names them, or "
            "--plan FILE a plan that has them"
        )
    return PlannedRevision(name, found)
