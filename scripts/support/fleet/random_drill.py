"""A fleet under faults at random, with plans and persons at random: what happens by a seed, until
the fleet has settled again."""
import collections
import contextlib
import pathlib
import random
import threading
import time
from typing import NamedTuple

from support.fleet.aimed_abort import promoted_attempt, put_abort
from support.fleet.etcd_client import EtcdClient, EtcdClientError
from support.fleet.lab import FLEET, Lab, name_of, stepped_agent_words
from support.fleet.random_faults import KINDS as KINDS_OF_FAULTS
from support.fleet.random_faults import MACHINE_STEPPED, Faults
from support.fleet.recording import Recording
from support.fleet.seen import Seen
from support.fleet.session import Session

PACE = (0.5, 4.5)  # seconds between two looks at what comes next
EACH_PLAN = (
    4.0  # seconds that a plan takes at least: how many revisions have endpoints follows from it
)
LONGEST_ATTEMPT = 50.0  # seconds until the next plan is put at the latest
REST = (0.5, 3.0)  # seconds from the end of an attempt to the next plan
MIDDLE = (0.3, 5.0)  # seconds from a plan to the next one that comes in the middle of its attempt
SETTLING = 90.0  # seconds after the last fault in which the fleet has to settle
AIMING = 40.0  # seconds for which a person waits for `promoting`, to abort
# seconds for which a switch is late then: a promote must not rest on a read that is older than one
LATE = (0.1, 1.4)
# seconds from the beginning of `promoting` to the abort: agents read the one, and not the other
ON_ITS_WAY = (0.0, 0.25)
GOOD, BAD_BEFORE, BAD_AFTER = "plans good", "plans bad before", "plans bad after"
PROMOTE, ABORT, AIMED_ABORT, RETRY, UNDO, SPOIL = (
    "promotes ordered",
    "aborts ordered",
    "aborts aimed at promoting",
    "retries",
    "undos",
    "plans spoiled",
)
COUNTED = (GOOD, BAD_BEFORE, BAD_AFTER, PROMOTE, ABORT, AIMED_ABORT, RETRY, UNDO, SPOIL)
KINDS, WEIGHTS = (GOOD, BAD_BEFORE, BAD_AFTER), (8, 1, 1)
# How probable it is at each look that a person does this, if it has an effect.
PERSONS = {PROMOTE: 0.7, ABORT: 0.03, SPOIL: 0.02, RETRY: 0.1, UNDO: 0.05}
SPOILED = (1.0, 8.0)  # seconds for which what stands is no plan
# the last one: it is deleted
NO_PLANS = ("{", '{"revisions": [], "newer": 1}', "revisions: web-1", "")
PROMOTING_SECONDS = 15  # of each plan


class PlanChoice(NamedTuple):
    """A plan at random: its kind, its key `fleet`, whether a person aborts it when it is promoting,
    and whether the next plan comes in the middle of its attempt."""

    kind: str
    fleet: dict[str, object]
    is_aimed: bool
    is_cut_short: bool


def next_plan(chance: random.Random) -> PlanChoice:
    fleet: dict[str, object] = {"promoting_seconds": PROMOTING_SECONDS}
    if chance.random() < 0.15:
        fleet["by_hand"] = True
    elif chance.random() < 0.2:
        fleet["seconds"] = 1.0
    if chance.random() < 0.1:
        fleet["max_missing"] = 1
    kind = chance.choices(KINDS, WEIGHTS)[0]
    return PlanChoice(kind, fleet, kind == GOOD and chance.random() < 0.25, chance.random() < 0.12)


class Due:
    """When the next plan is put."""

    def __init__(self, chance: random.Random) -> None:
        self.chance = chance
        self.at = 0.0
        self.is_awaited = False  # whether the end of the attempt is awaited

    def take_put(self, plan: PlanChoice, now: float) -> None:
        self.is_awaited = not plan.is_cut_short
        self.at = now + (LONGEST_ATTEMPT if self.is_awaited else self.chance.uniform(*MIDDLE))

    def take_spoiled(self, now: float) -> None:
        self.is_awaited, self.at = False, now + self.chance.uniform(*SPOILED)

    def is_due(self, seen: Seen, now: float) -> bool:
        if self.is_awaited and seen.is_of_the_plan and not seen.is_running:
            self.is_awaited, self.at = False, now + self.chance.uniform(*REST)
        return now >= self.at


class Outcome(NamedTuple):
    """What a drill came to: how often each thing was done, the recording, and the seconds from the
    last fault until the fleet had settled (None if it did not in time). `failures` are those of
    programs, which the drill has not made.
    """

    counts: collections.Counter[str]
    recording: Recording
    settled: float | None
    failures: list[str]


class RandomDrill:
    """A drill on a fleet that is up."""

    def __init__(self, lab: Lab, seed: int, steps_machine_clock: bool = False) -> None:
        self.lab = lab
        self.faults_of = (*KINDS_OF_FAULTS, *(MACHINE_STEPPED,) * steps_machine_clock)
        self.session = Session(lab)
        self.chance = random.Random(seed)
        self.counts: collections.Counter[str] = collections.Counter({what: 0 for what in COUNTED})
        self.number = 1  # of the revision that was deployed last
        self.is_spoiled = False  # whether what stands is no plan
        self.due = Due(self.chance)
        self.has_ended = threading.Event()

    def play(self, seconds: float) -> Outcome:
        self.session.begin()
        self.faults = Faults(self.lab, self.chance, self.faults_of)
        end = time.monotonic() + seconds
        while time.monotonic() < end:
            seen = self.lab.seen()
            self._order(seen)
            self._put_plan(seen)
            self.faults.begin_some(seen.leader)
            time.sleep(self.chance.uniform(*PACE))
        self.lab.say("the faults end")
        self.has_ended.set()
        self.faults.end_all()
        settled = self._settle()
        time.sleep(2)  # so that what follows is seen
        self.counts.update(self.faults.counts)
        recording = self.lab.record()
        return Outcome(self.counts, recording, settled, self.lab.failures)

    def _put_plan(self, seen: Seen) -> None:
        now = time.monotonic()
        if not self.due.is_due(seen, now) or self.number == self.lab.revisions:
            return
        plan, number = next_plan(self.chance), self.number + 1
        host, step = (
            self.chance.choice(self.lab.hosts),
            "pre" if plan.kind == BAD_BEFORE else "post",
        )
        if plan.kind != GOOD:
            self.lab.fail_analysis(host, step, number)
        if plan.is_aimed:
            self._aim(number)
        if self.session.put(self.number, number, **plan.fleet):
            self.number, self.is_spoiled = number, False
            self.counts[plan.kind] += 1
            self.due.take_put(plan, now)
        else:
            self.lab.pass_analysis(host, step, number)
            self.due.at = now + REST[0]

    # ---- persons ----

    def _order(self, seen: Seen) -> None:
        """A person gives a command, if it has an effect."""
        can = {
            PROMOTE: seen.is_by_hand and seen.stage == "deploying" and seen.are_all("ready"),
            ABORT: seen.is_running,
            SPOIL: seen.is_running and not self.is_spoiled,
            RETRY: seen.stage == "aborted" and seen.is_of_the_plan,
            UNDO: seen.is_settled,
        }
        words = {PROMOTE: "promote", ABORT: "abort", RETRY: "retry", UNDO: "undo"}
        for what, probability in PERSONS.items():
            if can[what] and self.chance.random() < probability:
                if what == SPOIL:
                    self._spoil()
                elif self.session.try_once(words[what]).status == 0:
                    self.counts[what] += 1
                return

    def _spoil(self) -> None:
        """Somebody puts what is no plan, or deletes the plan, while an attempt runs."""
        client, text = EtcdClient(self.lab.network, FLEET), self.chance.choice(NO_PLANS)
        with contextlib.suppress(EtcdClientError):
            if text:
                client.put("plan", text)
            else:
                client.delete("plan")
            self.is_spoiled = True
            self.counts[SPOIL] += 1
            self.lab.say(f"what stands is no plan: {text or 'nothing'}")
            self.due.take_spoiled(time.monotonic())

    def _aim(self, number: int) -> None:
        """A person aborts the attempt of this revision at the moment at which it begins to be
        promoted, while a switch is late: so its agent sends `promote` when the abort is written
        already."""
        threading.Thread(
            target=self._abort_when_promoting, args=(name_of(number),), daemon=True
        ).start()

    def _abort_when_promoting(self, name: str) -> None:
        client = EtcdClient(self.lab.network, FLEET)
        with contextlib.suppress(EtcdClientError):
            attempt = promoted_attempt(client, name, AIMING)
            if attempt is None or self.has_ended.is_set():
                return
            self.faults.delay_some_switch(self.chance.uniform(*LATE))
            time.sleep(self.chance.uniform(*ON_ITS_WAY))
            put_abort(client, attempt)
            self.counts[AIMED_ABORT] += 1
            self.lab.say(f"a person aborts {name} as it begins to be promoted")

    # ---- the end ----

    def _settle(self) -> float | None:
        """The seconds until all machines agree. A person answers an attempt that waits for one."""
        if self.is_spoiled:
            self.session.put(self.number)
        begun = time.monotonic()
        while time.monotonic() < begun + SETTLING:
            seen = self.lab.seen()
            if seen.is_settled:
                return time.monotonic() - begun
            if seen.is_by_hand and seen.are_all("ready"):
                self.session.try_once("promote")
            time.sleep(0.1)
        self.lab.say(f"it has not settled: {self.session.status()}")
        return None


def revisions_for(seconds: float) -> int:
    """How many revisions a drill of `seconds` seconds may need."""
    return 5 + int(seconds / EACH_PLAN)


def random_drill(
    folder: pathlib.Path, seed: int, seconds: float, steps_machine_clock: bool
) -> Outcome:
    """A whole drill, on a fleet of its own."""
    with Lab(folder, revisions=revisions_for(seconds), agent=stepped_agent_words) as lab:
        return RandomDrill(lab, seed, steps_machine_clock).play(seconds)
