"""The exit statuses of bgctl. `bgctl --help` and its manual page show this table, and no other page
repeats it."""
from bg_switch_tools.switch.frame import INTERRUPTED

DONE, REFUSED, NO_ANSWER = 0, 1, 2
DARK, HELD_BACK, NO_CONTROLLER = 3, 4, 5  # of `status`
FAULT = 70

TABLE = (
    (
        DONE,
        "it was carried out: the conditions of a wait hold, the revision of --wait is stable, an analysis has succeeded. "
        "Also if the reply is `unsaved`, which standard error explains: the journal of the switch is not known to keep it",
    ),
    (
        REFUSED,
        "it was refused, or can no longer happen: the attempt was aborted or replaced, a deploy was refused or overtaken, another "
        "revision is the newest (promote NAME), a name has other ports, the plan is wrong, a file can't be written, an analysis has failed, "
        "the state is aborted or no book is open (status)",
    ),
    (
        NO_ANSWER,
        "the switch gave no answer in time, a wait has reached its timeout, an analysis can't judge, a plan that was named "
        "can't be read, the control port or the revision of an undo is not known, or the words are wrong",
    ),
    (
        DARK,
        "no endpoint of the active revision is available, so that clients are answered 503 (status)",
    ),
    (
        HELD_BACK,
        "the controller holds a revision of its plan back: its deploy was refused, its name has other ports, or its start fails "
        "(status)",
    ),
    (NO_CONTROLLER, "no controller runs the plan, or it hangs (status)"),
    (FAULT, "the controller has ended by a fault of its own (controller)"),
    (INTERRUPTED, "it was ended by ctrl-C"),
)


def listed() -> str:
    """The table as text."""
    return "\n".join(["exit statuses:", *(f"  {status:<4} {meaning}" for status, meaning in TABLE)])
