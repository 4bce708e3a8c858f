"""The commands about a plan and its controller."""
from bg_switch_tools.bgctl.command import JSON, Command, CommandRun, argument, flag
from bg_switch_tools.bgctl.exit_statuses import DONE, REFUSED
from bg_switch_tools.bgctl.history_table import as_json, table
from bg_switch_tools.bgctl.plan_notices import tell_absence
from bg_switch_tools.controller.history.history_file import HistoryFile
from bg_switch_tools.controller.log import local_time
from bg_switch_tools.controller.state.pause import PauseFile
from bg_switch_tools.switch.arguments import count_of

PAUSED_BY_PLAN = "only a controller is paused"


def history(run: CommandRun) -> int:
    """Prints the latest attempts, the oldest first."""
    path = run.target.needed_path("the controller of a plan keeps the history")
    file, now = HistoryFile(path), local_time()
    try:
        attempts, unreadable = file.read()
    except OSError as error:
        run.tell(f"{file.path} can't be read: {error.strerror}")
        return REFUSED
    shown = attempts.all[-run.options.last :] if run.options.last else []
    if unreadable:
        run.tell(f"{file.path} has {unreadable} lines that are no events")
    if not attempts.all:
        run.tell(f"{file.path} has no attempt yet: the controller of the plan writes it")
    elif run.is_json:
        for attempt in shown:
            run.show_json(as_json(attempt, now))
    else:
        print("\n".join(table(shown, now)))
    return DONE


def pause(run: CommandRun) -> int:
    path = run.target.needed_path(PAUSED_BY_PLAN)
    file = PauseFile(path)
    try:
        paused = file.pause()
    except OSError as error:
        run.tell(f"{file.path} can't be written: {error.strerror}")
        return REFUSED
    print(f"the controller is {paused.text()}", flush=True)
    tell_absence(run, path)
    return DONE


def resume(run: CommandRun) -> int:
    was_paused = PauseFile(run.target.needed_path(PAUSED_BY_PLAN)).resume()
    print("the controller continues" if was_paused else "the controller was not paused")
    return DONE


def check(run: CommandRun) -> int:
    # here, since few commands need it and its HTTP
    from bg_switch_tools.controller import cli as controller_cli

    run.target.take_path(run.options.path)
    path = run.target.needed_path("a plan is judged")
    return controller_cli.check_text(path, run.target.file.text(), run.options.rollout)


def controller(run: CommandRun) -> int:
    from bg_switch_tools.controller import cli as controller_cli

    run.target.take_path(run.options.path)
    path = run.target.needed_path("a controller runs a plan")
    return controller_cli.run(path, run.options.json, run.target.file.text())


PATH = argument("path", "PLAN", "the plan, in the place of --plan", nargs="?")
ROLLOUT = "compares the plan with this Rollout, with which the switch is started"
HISTORY = Command(
    "history",
    "lists what was deployed, when, by whom, how it ended, and for how long it was live",
    "bgctl history --last 5 --plan plan.json",
    history,
    (JSON, argument("--last", "N", "how many attempts are shown (20)", type=count_of, default=20)),
    more="BY is the login name of who edited the plan with bgctl, `plan` for an edit by other means, and `line` for a line that "
    "was sent to the switch. The controller writes the history into PLAN.state.history.",
)
PAUSE = Command(
    "pause",
    "pauses the controller: it sends no deploy, and no verdict of an analysis",
    "bgctl pause --plan plan.json",
    pause,
    more="It still sends ticks, tells which endpoints are up, opens a switch that was started again, and ends an attempt whose "
    "endpoints are all down or that makes no progress. A line of an operator is carried out as before.",
)
RESUME = Command(
    "resume",
    "ends the pause of the controller: what it has held back is sent",
    "bgctl resume --plan plan.json",
    resume,
)
CHECK = Command(
    "check",
    "judges a plan: prints its problems, and carries nothing out",
    "bgctl check plan.json --rollout rollout.json",
    check,
    (PATH, argument("--rollout", "FILE", ROLLOUT)),
    more="With --rollout, it also tells in what the plan and the Rollout do not fit one another: the number of replicas, and the "
    "analyses.",
)
CONTROLLER = Command(
    "controller",
    "runs a rollout by a plan, until SIGTERM or ctrl-C",
    "bgctl controller plan.json",
    controller,
    (PATH, flag("--json", "writes each line of the log as an object of JSON")),
    more="bin/controller -h explains the plan.",
)
