"""A fleet of three machines with etcd, nginx and HAProxy, in a session with each kind of fault
once: what becomes of each attempt, and the rules of a fleet on what was recorded."""
import os
import pathlib
import shutil
import signal
import sys
import tempfile
import time
from collections.abc import Callable

from support.checks import COUNTS, check, comes, fail, run_part
from support.fleet.etcd_client import EtcdClient
from support.fleet.lab import FLEET, Lab, missing_programs, name_of
from support.fleet.recording import Recording
from support.fleet.rules import RULES, broken_rules, figures
from support.fleet.session import Session
from support.pace import at_the_limit

# seconds for all of it; on a machine that has no other work it takes about two minutes
LONGEST = 400
AWAY = 20.0  # seconds until a lease of 10 seconds has ended, even if etcd has begun it anew
ANSWERED = 20.0  # seconds in which an order is answered, and an attempt of four seconds ends
NO_ANSWER = 4  # the exit status of bin/fleet if etcd gives no answer
PACKAGES = "apt-get install etcd-server haproxy nginx"
OPENED, JUDGES = "no book is open: it is opened with", "analysis post of web-{} begins"
LAST_LINES = 150  # of a log that is shown if a check has failed
# of a whole session: fewer are a recording that shows nothing
LEAST_REQUESTS, LEAST_LOOKS = (1000, 300)


def check_end(session: Session, name: str, number: int, stage: str) -> None:
    """The attempt of a revision ends so on all machines."""
    ended = session.has_ended(number, stage)
    check(f"{name}: {name_of(number)} is {stage} on all machines", ended or session.status(), True)


def count_told(session: Session, host: str, text: str) -> int:
    """How often the agent of a host has told this."""
    log = session.lab.folder / f"agent-{host}.log"
    return log.read_text(encoding="utf-8").count(text)


def reason(session: Session) -> str:
    """Why the attempt is where it is, by the record."""
    return str(session.lab.seen().attempt.get("reason", ""))


# ---- good and bad revisions ----


def good_revision(session: Session) -> None:
    session.deploy(2)
    check("a person waits for it", session.try_once("wait", "web-2=successful").status, 0)
    check_end(session, "a good revision", 2, "successful")


def analysis_before(session: Session) -> None:
    session.lab.fail_analysis("b", "pre", 3)
    session.deploy(3)
    check_end(session, "an analysis before the switch fails on b alone", 3, "aborted")
    check(
        "the reason is told",
        reason(session).startswith("b: analysis pre: failed") or reason(session),
        True,
    )


def analysis_after(session: Session) -> None:
    session.lab.fail_analysis("c", "post", 4)
    session.deploy(4)
    check("c selects it before its analysis fails", session.selects("c", 4, 20), True)
    check_end(session, "an analysis after the switch fails on c alone", 4, "aborted")
    check(
        "the reason is told",
        reason(session).startswith("c: analysis post: failed") or reason(session),
        True,
    )


# ---- agents ----


def kill_leader(session: Session, number: int, step: str) -> None:
    """Kills the agent that leads, in the middle of an attempt: an analysis of another machine goes
    on meanwhile."""
    held, stage = session.follower(), {"pre": "deploying", "post": "promoting"}[step]
    with session.lab.held_analysis(held, step, number):
        session.deploy(number)
        check(f"the attempt is {stage}", session.is_at(number, stage), True)
        leader = session.leader()
        session.lab.kill("agent", leader)
    check(
        "another one leads", session.until(lambda seen: seen.leader not in ("", leader), AWAY), True
    )
    check("the attempt is where it was", session.lab.seen().stage, stage)
    session.lab.restart("agent", leader)
    check_end(session, f"the leader is killed in {stage}", number, "successful")


def leader_killed_in_deploying(session: Session) -> None:
    kill_leader(session, 5, "pre")


def leader_killed_in_promoting(session: Session) -> None:
    kill_leader(session, 6, "post")


def agent_stopped(session: Session) -> None:
    """The leader's agent is stopped, so that its leases end, and wakes with what it knew."""
    session.deploy(7)
    stopped = session.leader()
    session.lab.stop("agent", stopped)
    check(
        "its leases have ended",
        session.until(
            lambda seen: seen.leader not in ("", stopped) and seen.is_away(stopped), AWAY
        ),
        True,
    )
    check(
        "nothing is promoted without it",
        (session.lab.seen().stage, session.still_select(session.live, 1)),
        ("deploying", True),
    )
    session.lab.wake("agent", stopped)
    check_end(session, "an agent is stopped past its lease and woken", 7, "successful")


# ---- a machine without etcd ----


def cut_before_promoting(session: Session) -> None:
    cut = session.follower()
    session.lab.cut(cut)
    session.deploy(8)
    others = [host for host in session.lab.hosts if host != cut]
    check(
        "the others are ready",
        session.until(lambda seen: all(seen.state(host) == "ready" for host in others)),
        True,
    )
    check(
        "nothing is promoted without it",
        (session.still_select(session.live, 2), session.lab.seen().stage),
        (True, "deploying"),
    )
    session.lab.mend(cut)
    check_end(session, "a machine is cut off from etcd before promoting", 8, "successful")


def cut_after_promoting(session: Session) -> None:
    """A person aborts meanwhile: the others go back at once, the machine that is cut off when it is
    back."""
    cut = session.follower()
    with session.lab.held_analysis(cut, "post", 9):
        session.deploy(9)
        check("it selects the revision", session.selects(cut, 9, 20), True)
        session.lab.cut(cut)
        check(
            "it goes on as it is",
            comes(lambda: session.lab.looks()[cut].active != name_of(9), 2),
            False,
        )
        check("a person aborts", session.give("abort"), True)
        others = [host for host in session.lab.hosts if host != cut]
        check(
            "the others are back", all(session.selects(host, session.live) for host in others), True
        )
        check("it goes on as it is", session.lab.looks()[cut].active, name_of(9))
        session.lab.mend(cut)
        check_end(
            session,
            "a machine is cut off from etcd after promoting, and a person aborts",
            9,
            "aborted",
        )


def failed_while_cut(session: Session) -> None:
    """Going back needs no permission: etcd is away."""
    cut = session.follower()
    with session.lab.held_analysis(cut, "post", 20):
        session.deploy(20)
        check("it selects the revision", session.selects(cut, 20, 20), True)
        session.lab.cut(cut)
        session.lab.fail_analysis(cut, "post", 20)
    check("it is back at once", session.selects(cut, session.live, 3), True)
    others = [host for host in session.lab.hosts if host != cut]
    check(
        "the others do not know yet",
        {session.lab.looks()[host].active for host in others},
        {name_of(20)},
    )
    session.lab.mend(cut)
    check_end(session, "an analysis after the switch fails while etcd is away", 20, "aborted")


def member_that_missed_two(session: Session) -> None:
    away, before = session.follower(), session.live
    session.lab.cut(away)
    check("it is no member", session.give("members", "remove", away), True)
    for number in (10, 11):
        session.deploy(number)
        check(f"{name_of(number)} succeeds without it", session.is_at(number, "successful"), True)
        session.live = number
    check("it has missed both", session.lab.looks()[away].active, name_of(before))
    with session.lab.held_analysis(session.leader(), "pre", 12):
        session.deploy(12)
        check("it is a member again", session.give("members", "add", away), True)
    session.lab.mend(away)
    check_end(session, "a member that was removed and has missed two attempts", 12, "successful")


# ---- etcd ----


def etcd_member_killed(session: Session) -> None:
    session.lab.kill("etcd", "a")
    session.deploy(13)
    check_end(session, "a member of etcd is killed", 13, "successful")
    session.lab.restart("etcd", "a")


def etcd_majority_killed(session: Session) -> None:
    with session.lab.held_analysis("a", "pre", 14):
        session.deploy(14)
        for host in "bc":
            session.lab.kill("etcd", host)
    check(
        "nothing is switched without a majority of etcd",
        session.still_select(session.live, 4),
        True,
    )
    check(
        "a person is told that etcd gives no answer", session.try_once("status").status, NO_ANSWER
    )
    for host in "bc":
        session.lab.restart("etcd", host)
    check_end(session, "two of three members of etcd are killed", 14, "successful")


# ---- switches and persons ----


def kill_switch(session: Session, host: str, number: int, selected: int) -> None:
    """Kills a switch while the attempt is `promoting`. Once it is started again, it selects this
    revision."""
    with session.lab.held_analysis(host, "post", number):
        session.deploy(number)
        check(f"{host} selects the revision", session.selects(host, number, 20), True)
        judges = JUDGES.format(number)
        check("its analysis has begun", comes(lambda: count_told(session, host, judges)), True)
        session.lab.kill("switch", host)
        check("it is down", comes(lambda: not session.lab.looks()[host].is_up), True)
        session.lab.restart("switch", host)
        check(f"{host} selects web-{selected}", session.selects(host, selected), True)
    check_end(session, "a switch is killed in promoting", number, "successful")


def switch_killed(session: Session) -> None:
    """A switch without a journal comes back with the stable revision, and its machine joins the
    attempt that is `promoting`."""
    opened = count_told(session, "c", OPENED)
    kill_switch(session, "c", 15, session.live)
    check("it is opened again", count_told(session, "c", OPENED), opened + 1)


def switch_resumed(session: Session) -> None:
    """A switch with a journal goes on with the attempt: the agent opens nothing, and the analysis
    that runs goes on."""
    opened = count_told(session, "b", OPENED)
    kill_switch(session, "b", 23, 23)
    check("it is not opened again", count_told(session, "b", OPENED), opened)
    check("the analysis goes on", count_told(session, "b", JUDGES.format(23)), 1)


def switch_aborted_while_down(session: Session) -> None:
    """What the fleet has decided while a switch with a journal was down is made up for."""
    with session.lab.held_analysis("b", "post", 24):
        session.deploy(24)
        check("b selects the revision", session.selects("b", 24, 20), True)
        session.lab.kill("switch", "b")
        check("a person aborts", session.give("abort"), True)
        session.lab.restart("switch", "b")
        check("b goes back", session.selects("b", session.live), True)
    check_end(session, "an abort while a switch is down", 24, "aborted")


def person_promotes(session: Session) -> None:
    session.deploy(16, by_hand=True)
    check("all are ready", session.until(lambda seen: seen.are_all("ready")), True)
    check(
        "it waits for a person",
        (session.still_select(session.live, 1), session.lab.seen().stage),
        (True, "deploying"),
    )
    check("a person promotes", session.give("promote"), True)
    check_end(session, "a person promotes", 16, "successful")


def person_aborts(session: Session) -> None:
    session.deploy(17, by_hand=True)
    run = session.try_once("abort", "--wait", "--timeout", f"{ANSWERED:g}")
    check("a person aborts", run.status, 0)
    check(
        "and is told how the attempt has ended", "web-17: aborted, ordered by" in run.printed, True
    )
    check_end(session, "a person aborts", 17, "aborted")


def another_plan(session: Session) -> None:
    with session.lab.held_analysis("c", "post", 18):
        session.deploy(18)
        check("the first one is promoting", session.is_at(18, "promoting"), True)
        session.deploy(19)
    check_end(session, "another plan in the middle", 19, "successful")


def undo(session: Session) -> None:
    """The stable revision before is 16: 17 and 18 were aborted."""
    check("a person undoes it", session.give("undo"), True)
    check_end(session, "an undo", 16, "successful")


def plan_that_is_none(session: Session) -> None:
    """What stands is no plan, and then there is none: an attempt ends by its time, and by an
    order."""
    client = EtcdClient(session.lab.network, FLEET)
    with session.lab.held_analysis("b", "post", 21):
        session.deploy(21, promoting_seconds=4)
        check("it is promoting", session.is_at(21, "promoting"), True)
        client.put("plan", "{")
        ended = session.is_at(21, "aborted", longest=ANSWERED) and session.all_select(session.live)
        check("an attempt ends by its time while what stands is no plan", ended, True)
        told = session.try_once("status").printed
        check("and status tells it", "problem: no attempt begins: the plan is wrong" in told, True)
    with session.lab.held_analysis("b", "pre", 22):
        session.deploy(22)
        client.delete("plan")
        run = session.try_once("abort", "--wait", "--timeout", f"{ANSWERED:g}")
        is_told = "web-22: aborted, ordered by" in run.printed
        check("a person aborts while there is no plan", (run.status, is_told), (0, True))
    session.put(session.live)
    settled = session.until(lambda seen: seen.is_settled) and session.all_select(session.live)
    check("the next plan goes on", settled, True)


DRILLS: tuple[Callable[[Session], None], ...] = (
    good_revision,
    analysis_before,
    analysis_after,
    leader_killed_in_deploying,
    leader_killed_in_promoting,
    agent_stopped,
    cut_before_promoting,
    cut_after_promoting,
    failed_while_cut,
    member_that_missed_two,
    etcd_member_killed,
    etcd_majority_killed,
    switch_killed,
    switch_resumed,
    switch_aborted_while_down,
    person_promotes,
    person_aborts,
    another_plan,
    undo,
    plan_that_is_none,
)


def check_recording(recording: Recording) -> None:
    """The rules hold, and the recording has what they are judged by."""
    broken = broken_rules(recording)
    for rule in range(1, len(RULES) + 1):
        check(f"rule {rule}", [text for number, text in broken if number == rule], [])
    check(
        "requests were made",
        len(recording.requests) > LEAST_REQUESTS or len(recording.requests),
        True,
    )
    check(
        "each switch was looked at",
        [host for host, looks in recording.looks.items() if len(looks) < LEAST_LOOKS],
        [],
    )
    check(
        "each machine has promoted",
        {promote.host for promote in recording.promotes},
        set(recording.looks),
    )
    check(
        "the faults were recorded",
        {outage.what for outage in recording.outages},
        {"agent", "link", "etcd", "switch"},
    )


def run_drill(drill: Callable[[Session], None], session: Session) -> None:
    def part() -> None:
        drill(session)

    part.__name__ = drill.__name__
    session.lab.say(f"---- {drill.__name__}")
    run_part(part)
    session.lab.mend_all()


def play(folder: pathlib.Path) -> Recording:
    with Lab(folder, is_quiet=True) as lab:
        session = Session(lab)
        session.begin()
        for drill in DRILLS:
            run_drill(drill, session)
        time.sleep(1)  # so that what follows the last attempt is seen
        recording = lab.record()
        check("no program has failed", lab.failures, [])
        return recording


def give_up() -> None:
    """Ends the script, and with it all that it has started."""
    fail("live_fleet", f"it has not ended after {LONGEST} seconds")
    os.kill(os.getpid(), signal.SIGTERM)


def run_all(folder: pathlib.Path) -> None:
    begun = time.monotonic()

    def whole_session() -> None:
        recording = play(folder)
        print(f"live_fleet: it took {time.monotonic() - begun:.0f} seconds")
        check_recording(recording)
        for what, figure in figures(recording).items():
            print(f"live_fleet: {what}: {figure}")

    at_the_limit(LONGEST, give_up)
    run_part(whole_session)


def show(folder: pathlib.Path) -> None:
    """Prints what the session and its agents have logged, for whoever has to find out why a check
    has failed."""
    for path in sorted(folder.glob("*.log")):
        if path.name.startswith(("drill", "agent")):
            lines = path.read_text(encoding="utf-8").splitlines()[-LAST_LINES:]
            print("\n".join([f"---- {path.name}", *lines]))
    print(f"live_fleet: what was recorded is in {folder}")


def main() -> int:
    if missing := missing_programs():
        print(
            f"live_fleet: skipped, since {' and '.join(missing)} can't be found here: {PACKAGES}",
            flush=True,
        )
        return 0
    folder = pathlib.Path(tempfile.mkdtemp(prefix="bg_fleet_"))
    try:
        run_all(folder)
    finally:
        if COUNTS.failed:
            show(folder)
        else:
            shutil.rmtree(folder)
        print(f"live_fleet: {COUNTS.passed} passed, {COUNTS.failed} failed", flush=True)
    return int(COUNTS.failed != 0)


if __name__ == "__main__":
    sys.exit(main())
