"""The commands that show the state of a switch, and wait for one."""
from collections.abc import Callable, Sequence

from bg_switch_tools.bgctl.command import (
    JSON,
    LONGEST_WAIT,
    Command,
    CommandRun,
    argument,
    timeout_of,
)
from bg_switch_tools.bgctl.completions import conditions
from bg_switch_tools.bgctl.exit_statuses import DARK, DONE, HELD_BACK, NO_CONTROLLER, REFUSED
from bg_switch_tools.bgctl.plan_notices import tell_analyses, tell_pause
from bg_switch_tools.controller.edits.announced_deploy import AnnouncedDeploy, held_back
from bg_switch_tools.controller.state.controller_life import ControllerLife, Life, life_of
from bg_switch_tools.controller.state.state_file import HeldBack
from bg_switch_tools.switch.conditions import CONDITION_SYNTAX, Conditions, wrong_condition
from bg_switch_tools.switch.connection import UnreachableError
from bg_switch_tools.switch.line_help import LineHelp
from bg_switch_tools.switch.meanings import LACKS_ORDER
from bg_switch_tools.switch.phases import Phase
from bg_switch_tools.switch.report_text import in_one_line
from bg_switch_tools.switch.reports import Report, ReportError, as_json
from bg_switch_tools.switch.wait import Announcement, WaitResult, nothing_comes, wait_for
from bg_switch_tools.switch.watch import dated
from bg_switch_tools.switch.watch import watch as watch_switch


NOT_KNOWN = (
    "whether the switch has an order that its journal lacks is not known: it gave no answer in time"
)


def _read_state(run: CommandRun) -> tuple[Report | None, bool | None]:
    """The report, and whether the journal of the switch lacks an order. If the switch gives none,
    JSON says why, too."""
    switch = run.switch()
    try:
        return switch.state()
    except (UnreachableError, ReportError) as reason:
        if run.is_json:
            run.show_json({"phase": None, "reason": str(reason)})
        raise


def _show_state(
    run: CommandRun,
    state: tuple[Report | None, bool | None],
    life: ControllerLife,
    held: Sequence[HeldBack],
) -> None:
    """Prints a report, and tells what is the matter with the journal and the controller."""
    report, lacks_order = state
    if run.is_json:
        members: dict[str, object] = {"phase": None} if report is None else as_json(report)
        if report is not None:
            members["unsaved"] = lacks_order
        if run.target.path:
            members |= {
                "controller": life.life.value,
                "held_back": [each.as_json() for each in held],
            }
        run.show_json(members)
    else:
        print(in_one_line(report))
    journal = NOT_KNOWN if lacks_order is None else LACKS_ORDER if lacks_order else ""
    for text in filter(None, (journal, life.text, *(each.text() for each in held))):
        run.tell(text)


def status(run: CommandRun) -> int:
    """Shows the state in one line. The exit status is 0 if it is steady or an attempt runs, `DARK`
    if no endpoint of the active revision is available, `NO_CONTROLLER` if no controller acts by the
    plan, `HELD_BACK` if it holds a revision of the plan back, and else 1."""
    path = run.target.path
    if path:
        tell_pause(run, path)
        tell_analyses(run, path)
    state = _read_state(run)
    report = state[0]
    plan = run.target.plan_if_right()
    held = held_back(path, plan) if path and plan else []
    life = life_of(path) if path else ControllerLife(Life.UP)
    _show_state(run, state, life, held)
    if report is not None and report.service("active").available == 0:
        run.tell(
            f"no endpoint of {report.service('active').title()}, which is active, is available"
        )
        return DARK
    if life.is_wrong:
        return NO_CONTROLLER
    if held:
        return HELD_BACK
    return REFUSED if report is None or report.phase is Phase.ABORTED else DONE


def watch(run: CommandRun) -> int:
    """Watches until ctrl-C."""
    try:
        watch_switch(run.switch())
    except KeyboardInterrupt:
        print()
    return DONE


def _telling(run: CommandRun, announced: Callable[[], Announcement]) -> Callable[[], Announcement]:
    """The same, which also tells at once why a deploy that is announced is not carried out yet."""
    last_trouble = ""

    def look() -> Announcement:
        nonlocal last_trouble
        coming = announced()
        if coming.trouble and coming.trouble != last_trouble:
            last_trouble = coming.trouble
            run.tell(last_trouble)
        return coming

    return look


def _announced(
    run: CommandRun, conditions: Conditions, text: bytes | None
) -> Callable[[], Announcement]:
    """What the plan announces while these conditions are awaited; nothing if no plan is named.
    `text` is that of the plan after an edit."""
    path = run.target.path
    if path is None or run.target.plan() is None:
        return nothing_comes
    known = run.target.file.text() if text is None else text
    return _telling(run, AnnouncedDeploy(path, conditions.revisions, known).look)


def wait_until(run: CommandRun, texts: Sequence[str], text: bytes | None = None) -> int:
    """Waits for conditions. Each change meanwhile is told on standard error. `text` is that of the
    plan after an edit. Gives the exit status."""
    switch, conditions = run.switch(), Conditions(texts)
    announced = _announced(run, conditions, text)
    if run.target.path and (controller := life_of(run.target.path)).is_wrong:
        run.tell(controller.text)
    before: list[Report] = []

    def see(report: Report) -> None:
        for change in dated(before[-1], report) if before else []:
            run.tell(change)
        before[:] = [report]

    longest = getattr(run.options, "timeout", None)
    longest = LONGEST_WAIT if longest is None else longest
    waited = wait_for(switch, conditions, longest, see, announced)
    _show_end(run, waited)
    return waited.status


def _show_end(run: CommandRun, waited: WaitResult) -> None:
    """Prints how a wait has ended."""
    if run.is_json:
        report = as_json(waited.report) if waited.report else None
        run.show_json({"status": waited.status, "reason": waited.reason or None, "report": report})
    elif waited.status == DONE:
        print(in_one_line(waited.report))
    if waited.status != DONE:
        run.tell(waited.reason)


def wait(run: CommandRun) -> int:
    return wait_until(run, run.options.conditions)


STATUS = Command(
    "status",
    "shows the state in one line",
    "bgctl status --control 8082",
    status,
    (JSON,),
    more="With a plan, it also tells whether a controller runs the plan, and which revisions of the plan the controller holds back. "
    "Of a switch with a journal, it tells whether an order was carried out that the journal does not keep.",
    line=LineHelp(
        "status",
        "shows the state in one line; status 0 if it is steady or an attempt runs, 1 if it was aborted, "
        "3 if no endpoint of the active revision is available",
        "status",
    ),
)
WATCH = Command(
    "watch",
    "draws the state once a second, and each change, until ctrl-C",
    "bgctl watch",
    watch,
    line=LineHelp("watch", "draws the state once a second, and each change, until ctrl-C", "watch"),
)
WAIT = Command(
    "wait",
    "waits until conditions hold",
    "bgctl wait phase=paused newest=web-v2 --timeout 60",
    wait,
    (
        argument("conditions", "CONDITION", CONDITION_SYNTAX, conditions, nargs="+"),
        JSON,
        timeout_of("it"),
    ),
    more="With a plan it first waits until the controller has deployed the last revision of the plan.",
    fault=wrong_condition(Conditions),
    line=LineHelp(
        "wait CONDITION..",
        "waits until all conditions hold; status 0 then, 1 as soon as they cannot hold unless a line is sent, "
        "2 at the timeout",
        "wait phase=paused newest=web-v2 --timeout 60",
    ),
)
