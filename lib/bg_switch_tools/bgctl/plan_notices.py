"""What bgctl tells of the controller of a plan beside what it was asked."""
from bg_switch_tools.bgctl.command import CommandRun
from bg_switch_tools.controller.history.attempts import ABORTED
from bg_switch_tools.controller.state.analysis_results import ResultsFile
from bg_switch_tools.controller.state.controller_life import life_of
from bg_switch_tools.controller.state.pause import PauseFile


def tell_absence(run: CommandRun, path: str) -> None:
    """Tells that no controller acts by a plan, if that is known."""
    controller = life_of(path)
    if controller.is_wrong:
        run.tell(f"{controller.text}; this takes effect once a controller runs the plan")


def tell_pause(run: CommandRun, path: str) -> None:
    """Tells that the controller of a plan is paused, if it is."""
    try:
        paused = PauseFile(path).read()
    except OSError:
        return
    if paused:
        run.tell(
            f"the controller is {paused.text()}: it sends no deploy and no verdict until bgctl resume"
        )


def tell_analyses(run: CommandRun, path: str) -> None:
    """Tells how the analyses of the newest attempt stand, with the last lines that they have
    printed: of one that runs, or was aborted."""
    attempt = ResultsFile(path).read()
    if attempt.how in ("", ABORTED):
        for line in attempt.lines():
            run.tell(line)
