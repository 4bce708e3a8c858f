"""What an analysis comes to: its exit status, and the line that says why."""
import contextlib

SUCCESSFUL, FAILED, NOT_JUDGED = 0, 1, 2  # exit statuses
HELD = "the limits held to the end"


class NotJudgedError(Exception):
    """The revision can't be judged. The text says why."""


def tell(text: str) -> None:
    """Prints a line. If nobody takes it any more, the exit status still tells the verdict."""
    with contextlib.suppress(OSError):
        print(text, flush=True)


def failed_text(failed: int, allowed: int) -> str:
    return f"failed: {failed} measurements failed, and the limit is {allowed}"
