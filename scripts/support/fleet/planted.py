"""Planted faults of agents, each with a drill in which it breaks a rule. Agents without it break
none in the same drill."""
import contextlib
import pathlib
import sys
import time
from collections.abc import Callable, Iterator, Mapping
from typing import NamedTuple
from unittest import mock

from support import TOP
from support.fleet.aimed_abort import promoted_attempt, put_abort
from support.fleet.etcd_client import EtcdClient
from support.fleet.lab import FLEET, Lab, agent_words, module_words, name_of
from support.fleet.rules import Broken, broken_rules
from support.fleet.session import Session

# isort: split; `support` tells where the packages of the tools and of the tests are
sys.path.insert(0, str(TOP))
from bg_switch_tools.controller.lines.book import Book  # noqa: E402
from bg_switch_tools.controller.plan.plan import Plan  # noqa: E402
from bg_switch_tools.fleet.agent.agent import LEASE  # noqa: E402
from bg_switch_tools.fleet.agent.candidate import Candidate, Pending  # noqa: E402
from bg_switch_tools.fleet.agent.fleet_lines import FleetLines  # noqa: E402
from bg_switch_tools.fleet.machine.line_table import PROMOTE_LINE  # noqa: E402
from bg_switch_tools.fleet.record.record import ORDER, PROMOTING  # noqa: E402
from bg_switch_tools.switch.connection import Connection  # noqa: E402
from bg_switch_tools.switch.lines import Line  # noqa: E402
from bg_switch_tools.switch.phases import Phase  # noqa: E402
from bg_switch_tools.switch.replies import Reply  # noqa: E402
from bg_switch_tools.switch.reports import Report  # noqa: E402
from tests.fleet_faults import (  # noqa: E402
    Patch,
    alone,
    back_by_permission,
    no_catch_up,
    on_changes,
    on_reads_of_any_age,
    plan_first,
    silent_about_orders,
    without_compares,
    without_one_member,
    without_time_limit,
)

LATE = 2.0  # seconds for which an agent waits: a read of before is too old then, and no round has given up yet
STOPPED = 4.0  # seconds for which an agent is stopped after it has decided
ON_ITS_WAY = 0.3  # seconds in which each agent has read that an attempt is promoting
PROMOTING_SECONDS = 4.0
ENDING = 25.0  # seconds for which the end of an attempt is awaited: longer than the rule allows
READING = 0.6  # seconds in which a leader has read what was written
LOST = 6.0  # seconds for which a machine has no etcd: more than its agent needs to notice that
CATCHING_UP = 20.0  # seconds in which a machine that was away catches up
SLEEP = LEASE + 2.0  # seconds for which a leader sleeps before it writes: it leads no longer then


@contextlib.contextmanager
def slow_without_compares() -> Iterator[None]:
    """A leader without compares, which sleeps past its lease before it writes."""
    send = Candidate.send

    def late(self: Candidate, pending: Pending) -> bool:
        if pending.write.record and pending.write.record.is_running:
            time.sleep(SLEEP)
        return send(self, pending)

    with without_compares(""), mock.patch.object(Candidate, "send", late):
        yield


@contextlib.contextmanager
def slow_without_the_order() -> Iterator[None]:
    """A leader that does not compare the order, and waits before it writes that an attempt is
    promoted."""
    send = Candidate.send

    def late(self: Candidate, pending: Pending) -> bool:
        if pending.write.record and pending.write.record.stage == PROMOTING:
            time.sleep(LATE)
        return send(self, pending)

    with without_compares(ORDER), mock.patch.object(Candidate, "send", late):
        yield


@contextlib.contextmanager
def slow_on_old_reads() -> Iterator[None]:
    """An agent that waits before it decides to promote, and does not ask how old its read is then."""
    line_of = FleetLines.next_line

    def late(self: FleetLines, plan: Plan, report: Report) -> Line | None:
        record = self.machine.record
        if record and record.stage == PROMOTING and report.phase is Phase.PAUSED:
            time.sleep(LATE)
        return line_of(self, plan, report)

    with on_reads_of_any_age(), mock.patch.object(FleetLines, "next_line", late):
        yield


@contextlib.contextmanager
def slow_without_time_limit() -> Iterator[None]:
    """An agent that is stopped after it has decided to promote, and whose promotes have no time
    limit."""
    send = Book.send

    def late(self: Book, connection: Connection, line: Line) -> Reply:
        if line == PROMOTE_LINE:
            time.sleep(STOPPED)
        return send(self, connection, line)

    with without_time_limit(), mock.patch.object(Book, "send", late):
        yield


# ---- the drills ----


def one_member_away(session: Session) -> None:
    """An attempt begins while a machine is cut off."""
    away = session.follower()
    session.lab.cut(away)
    session.deploy(2)
    time.sleep(LOST)
    session.lab.mend(away)
    session.until(lambda seen: seen.is_settled, CATCHING_UP)


def etcd_lost(session: Session) -> None:
    """All machines are ready, a person is awaited, and a machine loses etcd."""
    lost = session.follower()
    session.deploy(2, by_hand=True)
    session.until(lambda seen: seen.are_all("ready"))
    session.lab.cut(lost)
    time.sleep(LOST)
    session.lab.mend(lost)
    session.give("abort")
    session.until(lambda seen: seen.is_settled, CATCHING_UP)


def one_good_revision(session: Session) -> None:
    session.deploy(2)
    session.until(lambda seen: seen.is_settled, 3 * SLEEP)


def missed_attempt(session: Session) -> None:
    """A machine that was removed misses an attempt, and is added again."""
    away = session.follower()
    session.lab.cut(away)
    session.give("members", "remove", away)
    session.deploy(2)
    session.is_at(2, "successful")
    session.lab.mend(away)
    session.give("members", "add", away)
    session.until(lambda seen: seen.is_settled, CATCHING_UP)


def abort_when_promoting(session: Session) -> None:
    """A person aborts as soon as the attempt begins to be promoted."""
    client = EtcdClient(session.lab.network, FLEET)
    session.put(1, 2, seconds=2)  # so that the keys are followed before it is promoted
    if attempt := promoted_attempt(client, name_of(2), CATCHING_UP):
        time.sleep(ON_ITS_WAY)
        put_abort(client, attempt)
    time.sleep(STOPPED + LATE)
    session.until(lambda seen: seen.is_settled, CATCHING_UP)


def abort_when_ready(session: Session) -> None:
    """A person aborts when the leader has read that all machines are ready."""
    session.deploy(2)
    session.until(lambda seen: seen.are_all("ready"))
    time.sleep(READING)
    put_abort(EtcdClient(session.lab.network, FLEET), session.lab.seen().id)
    session.until(lambda seen: seen.is_settled, CATCHING_UP)


def abort_after_the_end(session: Session) -> None:
    """A person's abort comes when the attempt is over."""
    session.deploy(2)
    session.has_ended(2, "successful")
    put_abort(EtcdClient(session.lab.network, FLEET), session.lab.seen().id)
    session.until(lambda seen: "order" not in seen.entries)


def plan_spoiled(session: Session) -> None:
    """An attempt is promoting, its analysis goes on on one machine, and what stands is no plan: it
    ends by its time. Then a person aborts one that is deploying, and no plan stands at all."""
    host, client = session.follower(), EtcdClient(session.lab.network, FLEET)
    with session.lab.held_analysis(host, "post", 2):
        session.deploy(2, promoting_seconds=PROMOTING_SECONDS)
        session.is_at(2, "promoting")
        client.put("plan", '{"revisions": []')
        session.is_at(2, "aborted", longest=ENDING)
    with session.lab.held_analysis(host, "pre", 3):
        session.deploy(3)
        client.delete("plan")
        session.give("abort")
        session.is_at(3, "aborted", longest=ENDING)
    session.put(1)
    session.until(lambda seen: seen.is_settled, CATCHING_UP)


def failure_without_etcd(session: Session) -> None:
    """The analysis after the switch fails on a machine that has lost etcd."""
    lost = session.follower()
    with session.lab.held_analysis(lost, "post", 2):
        session.deploy(2)
        session.selects(lost, 2, CATCHING_UP)
        session.lab.cut(lost)
        session.lab.fail_analysis(lost, "post", 2)
    time.sleep(LOST)
    session.lab.mend(lost)
    session.until(lambda seen: seen.is_settled, CATCHING_UP)


class Planted(NamedTuple):
    """A fault of the agents, the drill in which it shows, the rule that it breaks, and a part of
    what that says."""

    plant: Callable[[], Patch]
    drill: Callable[[Session], None]
    rule: int
    text: str

    def is_found(self, broken: list[Broken]) -> bool:
        return any(rule == self.rule and self.text in text for rule, text in broken)


PLANTED: Mapping[str, Planted] = {
    "without-one-member": Planted(
        without_one_member, one_member_away, 1, "promoting was written while"
    ),
    "alone": Planted(alone, etcd_lost, 1, "selected web-2"),
    "without-compares": Planted(
        slow_without_compares, one_good_revision, 3, "was written by the leader"
    ),
    "no-catch-up": Planted(no_catch_up, missed_attempt, 4, "at the end"),
    "old-reads": Planted(slow_on_old_reads, abort_when_promoting, 2, "by a read"),
    "without-time-limit": Planted(
        slow_without_time_limit, abort_when_promoting, 2, "more than a second after"
    ),
    "order-not-compared": Planted(
        slow_without_the_order, abort_when_ready, 7, "whose abort was ordered before"
    ),
    "silent-about-orders": Planted(
        silent_about_orders, abort_after_the_end, 7, "went without a word"
    ),
    "plan-first": Planted(plan_first, plan_spoiled, 8, "seconds after it was promoting"),
    "changes": Planted(on_changes, missed_attempt, 4, "at the end"),
    "back-by-permission": Planted(
        back_by_permission, failure_without_etcd, 6, "still selected web-2"
    ),
}


def faulty_words(fault: str) -> Callable[[Lab, str], list[str]]:
    """The words of agents with this fault."""
    return lambda lab, host: module_words("faulty_agent", fault, str(lab.fleet_file(host)))


def broken_by(folder: pathlib.Path, name: str, is_planted: bool) -> list[Broken]:
    """The rules that are broken in the drill of a fault, by agents with it or without."""
    with Lab(folder, revisions=3, agent=faulty_words(name) if is_planted else agent_words) as lab:
        session = Session(lab)
        session.begin()
        PLANTED[name].drill(session)
        lab.mend_all()
        time.sleep(2)  # so that what follows is seen
        return broken_rules(lab.record())
