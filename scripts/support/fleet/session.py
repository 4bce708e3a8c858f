"""What persons do with the fleet of a drill, and what they wait for."""
import time
from collections.abc import Callable

from support.checks import comes
from support.fleet.lab import Lab, name_of
from support.fleet.rules import QUIET
from support.fleet.seen import Seen
from support.processes import Run

PERSON = 10.0  # seconds for which a person gives a command again that etcd gave no answer to
ATTEMPT = 45.0  # seconds for which the end of an attempt is awaited: longer than the leases of a leader and of a machine together
PAUSE = 0.5  # seconds between two tries of a person


class Session:
    """A fleet and its plans. `live` is the number of the revision that was successful last, by what
    was awaited."""

    def __init__(self, lab: Lab) -> None:
        self.lab = lab
        self.live = 1

    def begin(self) -> None:
        """All machines become members, web-1 is live on them, and clients ask. `TimeoutError` if
        that does not come, and `ChildProcessError` if a program has failed."""
        self.give("members", "add", *self.lab.hosts)
        self.put(1)
        has_begun = self.until(lambda seen: seen.is_settled) and self.all_select(1, ATTEMPT)
        has_begun = has_begun and comes(self.lab.is_served, ATTEMPT)
        if failures := self.lab.programs.failures():
            raise ChildProcessError(f"the fleet did not begin: {failures}")
        if not has_begun:
            raise TimeoutError(f"the fleet did not begin: {self.status()}")
        self.lab.start_clients()

    # ---- what persons do ----

    def try_once(self, *words: str) -> Run:
        """Gives a command of bin/fleet once."""
        run = self.lab.order(*words)
        self.lab.say(
            f"fleet {' '.join(words)}: status {run.status}; {'; '.join((run.printed + run.told).splitlines())}"
        )
        return run

    def give(self, *words: str) -> bool:
        """Gives a command of bin/fleet, again and again for a while. Whether it was carried out."""

        def is_carried_out() -> bool:
            if self.try_once(*words).status == 0:
                return True
            time.sleep(PAUSE)
            return False

        return comes(is_carried_out, PERSON)

    def put(self, *numbers: int, **fleet: object) -> bool:
        """Puts the plan with these revisions, and this for its key `fleet`. Whether it was put."""
        path = self.lab.folder / "plan.json"
        path.write_text(self.lab.plan_text(*numbers, **fleet), encoding="ascii")
        return self.give("plan", str(path))

    def deploy(self, number: int, **fleet: object) -> bool:
        """Puts a plan that goes from the live revision to this one, and waits until its attempt has
        begun."""
        return self.put(self.live, number, **fleet) and self.is_at(
            number, "deploying", "promoting", "successful", "aborted"
        )

    # ---- what they wait for ----

    def until(self, holds: Callable[[Seen], object], longest: float = ATTEMPT) -> bool:
        """Whether something comes to hold of what the keys say."""
        return comes(lambda: holds(self.lab.seen()), longest)

    def is_at(self, number: int, *stages: str, longest: float = ATTEMPT) -> bool:
        """Whether the attempt of a revision comes to one of these stages."""
        return self.until(
            lambda seen: seen.revision == name_of(number) and seen.stage in stages, longest
        )

    def leader(self) -> str:
        """The host that leads, once one does."""
        self.until(lambda seen: seen.leader)
        return self.lab.seen().leader

    def follower(self) -> str:
        """The last host that does not lead."""
        leader = self.leader()
        return next(host for host in reversed(self.lab.hosts) if host != leader)

    def selects(self, host: str, number: int, longest: float = 5.0) -> bool:
        """Whether the switch of a host comes to select a revision."""
        return comes(lambda: self.lab.looks()[host].active == name_of(number), longest)

    def all_select(self, number: int, longest: float = 5.0) -> bool:
        """Whether all switches come to select a revision, which is stable, while no attempt
        runs."""

        def agree() -> bool:
            return all(
                (look.active, look.stable) == (name_of(number), name_of(number))
                and look.phase in QUIET
                for look in self.lab.looks().values()
            )

        return comes(agree, longest)

    def still_select(self, number: int, seconds: float) -> bool:
        """Whether all switches select a revision all the time for `seconds` seconds."""
        return not comes(
            lambda: any(
                look.is_up and look.active != name_of(number) for look in self.lab.looks().values()
            ),
            seconds,
        )

    def has_ended(self, number: int, stage: str) -> bool:
        """Whether the attempt of a revision comes to this end, and all machines agree with that."""
        ended = self.is_at(number, stage) and self.until(lambda seen: seen.is_settled)
        if ended and stage == "successful":
            self.live = number
        return ended and self.all_select(self.live)

    def status(self) -> str:
        """What bin/fleet shows, and what the switches select: for people, after something was
        awaited in vain."""
        shown = self.lab.order("status")
        looks = ", ".join(
            f"{host} {look.phase or 'down'} active {look.active} stable {look.stable}"
            for host, look in self.lab.looks().items()
        )
        return f"{shown.printed}{shown.told}{looks}"
