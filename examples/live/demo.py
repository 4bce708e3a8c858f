#!/usr/bin/env python3
"""The story of operator.txt, live: three revisions of a backend, `bg_switch serve` before them,
requests without pause.

It prints each line of the operator with its reply, and for each part of the story how many requests
each revision answered. It ends with status 0 if no request failed.
"""
import contextlib
import pathlib
import sys
import time

HERE = pathlib.Path(__file__).resolve().parent
sys.dont_write_bytecode = True
sys.path.insert(0, str(HERE.parents[1] / "scripts"))

from support.endpoints import Endpoint, by_target  # noqa: E402 (its folder is known by now)
from support.examples import start_switch  # noqa: E402
from support.operators import Operator  # noqa: E402
from support.traffic import Traffic, ask  # noqa: E402

ACTIVE, PREVIEW, CONTROL = 18080, 18081, 18082
REVISIONS = {"media-v1": (19101, 19102), "media-v2": (19201, 19202), "media-v3": (19301, 19302)}
WORKERS, CLIENTS = 4, 3
PAUSE = 0.01  # seconds between two requests of a client
WAIT = 0.7  # seconds of a `wait`
LONGEST = 30


def answered_by(port: int) -> str | None:
    """The revision that answers a request, or None if no revision does."""
    asked = ask(port)
    return asked.revision if asked.status == 200 else None


class Story:
    """The story, which is told line by line beside its traffic."""

    def __init__(self, traffic: Traffic) -> None:
        self.traffic = traffic

    def tell(self, line: str) -> None:
        words = line.split()
        if not words:
            print()
        elif words[0] == "#":
            print(line)
        elif words[0] == "wait":
            self.wait()
        elif words[0] == "preview":
            self.look_at_preview(words[1])
        else:
            self.send(line)

    def wait(self) -> None:
        self.traffic.start()
        time.sleep(WAIT)
        answered = self.traffic.part()
        counts = "  ".join(f"{revision} {answered[revision]:4}" for revision in REVISIONS)
        print(f"    requests answered by  {counts}", flush=True)

    def look_at_preview(self, expected: str) -> None:
        answered = answered_by(PREVIEW)
        print(f"    the preview service is answered by {answered}")
        if answered != expected:
            sys.exit(f"the preview service should be answered by {expected}")

    def send(self, line: str) -> None:
        """Sends a line, and prints it with its reply; a report stands below its line."""
        with contextlib.closing(Operator(CONTROL)) as operator:
            if line == "report":
                print(f"{line}\n{operator.report()}")
                return
            reply = operator.answer_to(line)
        print(f"{line:34} => {reply}")
        if not reply.startswith("ok "):
            sys.exit("an order of the story was not carried out")


def main() -> None:
    for revision, ports in REVISIONS.items():
        for port in ports:
            Endpoint(by_target(revision.encode()), port)
    switch = start_switch(HERE / "rollout.json", ACTIVE, PREVIEW, CONTROL, WORKERS)
    traffic = Traffic(ACTIVE, CLIENTS, PAUSE)
    story = Story(traffic)
    try:
        for line in (HERE / "operator.txt").read_text(encoding="ascii").splitlines():
            story.tell(line.strip())
        traffic.end()
        with contextlib.closing(Operator(CONTROL)) as operator:
            operator.send_quit()
        last = switch.communicate(timeout=LONGEST)[0]
    finally:
        traffic.ended.set()
        switch.kill()
    print(f"\nfailed requests: {traffic.failed}\n\nThe last report of the switch:\n{last}", end="")
    sys.exit(0 if switch.returncode == 0 and traffic.failed == 0 else 1)


if __name__ == "__main__":
    main()
