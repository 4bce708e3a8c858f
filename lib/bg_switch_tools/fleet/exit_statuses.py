"""The exit statuses of bin/fleet. `fleet --help` shows this table, and docs/FLEET.md repeats it."""
from bg_switch_tools.switch.frame import INTERRUPTED
from bg_switch_tools.switch.wait import NEVER, REACHED

DONE, REFUSED, WRONG_WORDS, NO_ANSWER, TAKEN, FAULT = REACHED, NEVER, 2, 4, 5, 70

TABLE = (
    (
        DONE,
        "it is done: an order or a plan was put, the attempt of `--wait` has ended as it was ordered, the conditions of a wait "
        "hold, the plan of `check` has no problem, the attempt of `status` runs or was successful, the agent has ended by SIGTERM or "
        "ctrl-C",
    ),
    (
        REFUSED,
        "it was refused, and nothing was changed; or it can no longer happen: the attempt of `--wait` has ended otherwise, the "
        "conditions of a wait cannot hold unless another plan is put, the attempt of `status` was aborted, or there is none, the agent cannot run by its fleet file",
    ),
    (
        WRONG_WORDS,
        "the words are wrong, or a file that they name can't be read, or the fleet file is wrong",
    ),
    (
        NO_ANSWER,
        "it is not known: etcd gave no answer in time or refused the call, or the time of a wait is over",
    ),
    (TAKEN, "another machine reports as the host of this agent (agent)"),
    (FAULT, "the agent has ended by a fault of its own (agent)"),
    (INTERRUPTED, "it was interrupted by ctrl-C"),
)


def listed() -> str:
    """The table as text."""
    return "\n".join(["exit statuses:", *(f"  {status:<4} {meaning}" for status, meaning in TABLE)])
