"""Draws how a fleet stands, and again at each change, until ctrl-C."""
import sys
import time

from bg_switch_tools.controller.log import local_time
from bg_switch_tools.fleet.person.person import Person
from bg_switch_tools.fleet.person.wait import LONGEST_WATCH, PAUSE, wait_for_change
from bg_switch_tools.fleet.record.status import status_of
from bg_switch_tools.fleet.record.status_text import draw
from bg_switch_tools.fleet.store.store import Snapshot, StoreError
from bg_switch_tools.switch.watch import CLEAR, fitting


class Drawing:
    """What was drawn. At a terminal the screen is drawn anew; elsewhere a block of plain text is
    written if it has changed."""

    def __init__(self, fleet: str) -> None:
        self.fleet = fleet
        self.before: list[str] = []
        self.lost = ""  # since when the store gives no answer, and why

    def draw(self, snapshot: Snapshot) -> None:
        lines = draw(status_of(self.fleet, snapshot)) + ([self.lost] if self.lost else [])
        if sys.stdout.isatty():
            print(CLEAR + fitting(lines, []), end="", flush=True)
        elif lines != self.before:
            print("\n".join(lines) + "\n", flush=True)
        self.before = lines

    def lose(self, fault: StoreError) -> None:
        """Notes that the store gives no answer: what is drawn is the last that was read."""
        self.lost = (
            self.lost
            or f"etcd gives no answer since {local_time()}, and this was read before: {fault}"
        )


def watch(person: Person) -> None:
    """Draws until it is interrupted. `StoreError` if the first read has no answer; later ones are
    told below what was read last."""
    snapshot, drawing = person.store.read(), Drawing(person.fleet)
    while True:
        drawing.draw(snapshot)
        if drawing.lost:
            time.sleep(PAUSE)
        else:
            wait_for_change(person.store, snapshot.revision, LONGEST_WATCH)
        try:
            snapshot, drawing.lost = person.store.read(), ""
        except StoreError as fault:
            drawing.lose(fault)
