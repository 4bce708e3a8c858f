"""The commands that deploy a revision: by an edit of the plan, which its controller then deploys, or
by the line `deploy` without a plan."""
import os

from bg_switch_tools.bgctl.command import (
    UNTIL_THE_END,
    Command,
    CommandRun,
    argument,
    timeout_of,
)
from bg_switch_tools.bgctl.completions import names_of_revisions
from bg_switch_tools.bgctl.exit_statuses import DONE, REFUSED
from bg_switch_tools.bgctl.plan_notices import tell_absence, tell_pause
from bg_switch_tools.bgctl.state_commands import wait_until
from bg_switch_tools.bgctl.target import TargetError
from bg_switch_tools.bgctl.undo_target import KnownRevisions, revision_to_undo_to
from bg_switch_tools.controller.edits.announced_deploy import AnnouncedDeploy
from bg_switch_tools.controller.edits.plan_edit import make_last, told_of
from bg_switch_tools.controller.history.attempts import Attempt
from bg_switch_tools.controller.history.history_file import HistoryFile
from bg_switch_tools.controller.history.kept_ports import kept_revisions
from bg_switch_tools.controller.plan.plan import PlannedRevision
from bg_switch_tools.controller.plan.plan_file import PlanEdit, plan_of
from bg_switch_tools.controller.plan.plan_limits import missing_commands
from bg_switch_tools.controller.plan.plan_reader import PlanError
from bg_switch_tools.controller.state.plan_author import Author
from bg_switch_tools.switch.arguments import numbered_port
from bg_switch_tools.switch.json_values import MOST_PORTS


def _made_last(run: CommandRun, path: str, revision: PlannedRevision) -> PlanEdit | None:
    """Makes the revision the last one of the plan. None if that is refused, which it tells."""
    author = Author(path)
    try:
        edit = make_last(run.target.file, revision, author.sign)
    except PlanError as wrong:
        for problem in wrong.problems:
            run.tell(f"{path}: {problem}")
        return None
    except OSError as error:
        run.tell(f"{path} can't be written: {error.strerror}")
        return None
    print(told_of(edit, path, revision.name), flush=True)
    for each in author.overtaken(edit.after):
        if each.by == revision.name:
            run.tell(
                f"{each.name}, which {each.who} had named last, was not deployed yet, and is overtaken"
            )
    # without them its controller could not start the endpoints, or judge the revision
    for problem in missing_commands(plan_of(edit.after), os.path.dirname(os.path.abspath(path))):
        run.tell(f"{path}: {problem}")
    tell_pause(run, path)
    tell_absence(run, path)
    return edit


def _was_deployed(run: CommandRun, path: str, revision: PlannedRevision) -> bool:
    """Whether the plan names the revision last, and its controller has deployed it for that. It does
    so once: if somebody has undone it since, or it is live, an edit of the plan does nothing."""
    text = run.target.file.text()
    return plan_of(text).last == revision and AnnouncedDeploy(path, text=text).look().name is None


def _sent(run: CommandRun, revision: PlannedRevision) -> int:
    """Sends the line `deploy`. Gives the exit status."""
    return run.show(run.switch().deploy(revision.name, revision.ports, is_idempotent=True))


def _deployed(run: CommandRun, revision: PlannedRevision) -> int:
    """Deploys a revision: by the plan, and by a line if there is no plan, or its controller has
    done its part. With `--wait` the end of the attempt is awaited. Gives the exit status."""
    run.switch()  # that it is not known is told before anything is changed
    text, is_sent = None, True
    if (path := run.target.path) is not None:
        is_sent = _was_deployed(run, path, revision)
        edit = _made_last(run, path, revision)
        if edit is None:
            return REFUSED
        text = edit.after
    status = _sent(run, revision) if is_sent else DONE
    if status != DONE or not run.options.wait:
        return status
    return wait_until(run, [f"stable={revision.name}"], text)


def deploy(run: CommandRun) -> int:
    return _deployed(run, PlannedRevision(run.options.name, tuple(run.options.ports)))


def _attempts(run: CommandRun, path: str) -> list[Attempt]:
    try:
        return HistoryFile(path).read()[0].all
    except OSError as error:
        run.tell(f"the history of {path} can't be read: {error.strerror}")
        return []


def undo(run: CommandRun) -> int:
    """Deploys the revision that was stable before the newest one, or the one of this name or
    number. `TargetError` if it or its ports are not known."""
    report = run.switch().report()
    if report is None:
        raise TargetError("no book is open, so there is nothing to undo")
    path, plan = run.target.path, run.target.plan()
    known = KnownRevisions(
        report, _attempts(run, path) if path else [], plan, kept_revisions(path) if path else {}
    )
    revision = revision_to_undo_to(known, run.options.to, run.options.ports)
    if revision.name != report.newest.name:
        run.tell(f"takes {revision.name} again, in the place of {report.newest.name}")
    return _deployed(run, revision)


def endpoint_port(text: str) -> int:
    return numbered_port(text, "the port of an endpoint")


PORTS = f"the port of each endpoint, at most {MOST_PORTS}"
DEPLOY = Command(
    "deploy",
    "deploys a revision",
    "bgctl deploy web-v2 9201 9202 --plan plan.json --wait",
    deploy,
    (
        argument(
            "name", "NAME", "the name of the revision: lower-case letters, digits and hyphens"
        ),
        argument("ports", "PORT", PORTS, nargs="+", type=endpoint_port),
        UNTIL_THE_END,
        timeout_of("--wait"),
    ),
    more="With a plan, the revision becomes the last one of the plan, in one step, and its controller deploys it. Without a plan, "
    "the line `deploy` is sent to the switch. The revision has one port for each replica. A name keeps its ports: other ports need a "
    "new name.",
)
OWN_PORTS = "its ports, if no plan has them"
UNDO = Command(
    "undo",
    "deploys the revision again that was stable before the newest one",
    "bgctl undo --to web-v1",
    undo,
    (
        argument("--to", "NAME|NUMBER", "the revision to be taken again", names_of_revisions),
        argument("--ports", "PORT", OWN_PORTS, nargs="+", type=endpoint_port, default=[]),
        UNTIL_THE_END,
        timeout_of("--wait"),
    ),
    more="With a plan, that revision becomes the last one of the plan. Without a plan, the line `deploy` is sent, and --ports "
    "names the ports, which the switch does not report.",
)
