"""An analysis: python3 -m support.fleet.analysis FOLDER HOST STEP PORT. While the file
hold-HOST-STEP-REVISION is in the folder, it waits and asks nothing. Then it asks the switch until
it has run for a while, and at least once. It fails if an answer is not the revision's, or if the
file bad-HOST-STEP-REVISION is there. It writes down what it came to."""
import json
import os
import pathlib
import sys
import time

from support.fleet.client import ask
from support.fleet.recording import VERDICTS, Verdict
from support.moments import moment

SECONDS, PAUSE = 0.6, 0.1
LONGEST_HOLD = 15.0  # seconds: shorter than the plan allows for an analysis
STATUSES = {"successful": 0, "failed": 1, "error": 2}


def bad_file(host: str, step: str, revision: str) -> str:
    """The file by which a drill lets an analysis fail."""
    return f"bad-{host}-{step}-{revision}"


def hold_file(host: str, step: str, revision: str) -> str:
    """The file by which a drill lets an analysis wait."""
    return f"hold-{host}-{step}-{revision}"


def verdict_of(folder: pathlib.Path, host: str, step: str, port: int, revision: str) -> str:
    """What the analysis of a revision comes to. `port` is the switch's."""
    begun, hold = time.monotonic(), folder / hold_file(host, step, revision)
    while hold.exists() and time.monotonic() < begun + LONGEST_HOLD:
        time.sleep(PAUSE)
    while True:
        answered = ask("127.0.0.1", port)
        if not answered.status:
            return "error"
        if (answered.status, answered.revision) != (200, revision):
            return "failed"
        if time.monotonic() >= begun + SECONDS:
            return "failed" if (folder / bad_file(host, step, revision)).exists() else "successful"
        time.sleep(PAUSE)


def main(words: list[str]) -> int:
    folder, host, step, port, revision = (
        pathlib.Path(words[0]),
        words[1],
        words[2],
        int(words[3]),
        os.environ["BG_REVISION"],
    )
    verdict = verdict_of(folder, host, step, port, revision)
    with open(folder / VERDICTS, "a", encoding="utf-8") as file:
        file.write(json.dumps(Verdict(moment(), host, step, revision, verdict)._asdict()) + "\n")
    return STATUSES[verdict]


if __name__ == "__main__":
    sys.exit(main(sys.argv[1:]))
