"""`bg_switch serve --journal`: what a start resumes after a kill, a disk that fails or is full, the
journals that are refused, what `bg_switch journal` tells, journals that are restarted, and kills at
random."""
import contextlib
import itertools
import os
import pathlib
import random
import resource
import signal
import sqlite3
import subprocess
import tempfile
import threading
import time
from collections.abc import Iterator, Sequence
from typing import Any

from refused_memory import refuse
from support import PROGRAM, TOP, checks, clients, processes
from support.checks import check, comes
from support.endpoints import Endpoint, by_target
from support.journals import (
    FILES,
    FailingDisk,
    Failure,
    bounds_in,
    build_object,
    events_in,
    report_by_rule,
    rows_in,
)
from support.messages import BY_HAND
from support.ports import free_ports
from support.rule.strategy import strategy_of
from support.switch import LISTENING, Switch, run_to_end
from support.traffic import ACCESS_LOG

# isort: split; `support` tells where the tools' package is
from bg_switch_tools.switch.access_log import read_lines
from bg_switch_tools.switch.connection import UnreachableError

# The program itself, and not the script that starts it, which asks for memory too.
BUILT = os.environ.get("BG_SWITCH_PROGRAM", str(TOP / "crates/bg_switch/out/bg_switch"))
FEWEST_REQUESTS, REQUESTS_EACH = 50, 40
OTHER = BY_HAND.replace('"replicas": 1', '"replicas": 2')
ANALYSED = """{"spec": {"replicas": 1, "revisionHistoryLimit": 2, "strategy": {"blueGreen": {
"activeService": "web", "previewService": "web-preview", "autoPromotionEnabled": false,
"scaleDownDelaySeconds": 5, "abortScaleDownDelaySeconds": 3, "prePromotionAnalysis": {},
"postPromotionAnalysis": {}}}}}"""
REFUSED = "fault Journal\n"
NO_BOOK = "refused NotOpen"
UNSAVED, JOURNAL_FAILED = "unsaved 0", "refused JournalFailed"
LACKS = "it lacks the last order that was carried out"
KEEPS = "keeps each order again"
OTHER_STRATEGY = "the journal is one of another strategy"
# The kills of the drill in the gate and by hand, how many of them one journal takes, how long a
# switch lives, and the pause after an order: the rule reads the whole journal for each report.
KILLS, KILLS_BY_HAND, KILLS_EACH = 12, 500, 4
SHORTEST_LIFE, LONGEST_LIFE = 0.05, 0.6
PAUSE = 0.004
# How many restarts of a journal are killed, in the gate and by hand.
KILLED_RESTARTS, KILLED_RESTARTS_BY_HAND = 30, 300
# The files of a restart without room have so many bytes more, run by run, up to so many.
MORE_BYTES, MOST_BYTES = 16_384, 2**20
CLIENTS = 4
# How many numbers a run has before those of the next run begin, if it is killed.
NUMBERS_OF_RUN = 10**12
SEED = random.SystemRandom().randrange(10**9)


@contextlib.contextmanager
def a_folder() -> Iterator[str]:
    with tempfile.TemporaryDirectory() as folder:
        yield folder


@contextlib.contextmanager
def journaled(path: str, rollout: str = BY_HAND, **words: Any) -> Iterator[Switch]:
    """A switch with a journal, which has begun to listen. It is killed at the end of the block."""
    switch = Switch(rollout, workers=4, flags=("--journal", path), **words)
    try:
        check("a switch with a journal listens", switch.first, LISTENING)
        yield switch
    finally:
        switch.kill()


def report_of(switch: Switch) -> str:
    with contextlib.closing(switch.operator()) as operator:
        return operator.report()


def judged(path: str) -> processes.Run:
    """A run of `bg_switch journal`."""
    return processes.run_to_end([PROGRAM, "journal", path])


def content_of(path: str) -> bytes:
    return pathlib.Path(path).read_bytes()


def orders_survive_a_kill() -> None:
    """A start goes on where the last one was killed, at once, and tells what it has resumed."""
    endpoints = [Endpoint(by_target(name)) for name in (b"one", b"two")]
    one, two = (endpoint.port for endpoint in endpoints)
    with a_folder() as folder:
        path = f"{folder}/journal"
        with journaled(path) as switch:
            with contextlib.closing(switch.operator()) as operator:
                for line, reply in (
                    (f"open one {one}", "ok 0"),
                    ("available 1 1", "ok 0"),
                    ("tick 30", "ok 0"),
                    (f"deploy two {two}", "ok 0"),
                    ("promote", "refused NotPaused"),
                    ("available 2 1", "ok 1"),
                    ("before 1 promote", "refused TooLate"),
                    ("promote", "ok 3"),
                ):
                    operator.check(line, reply)
            was = report_of(switch)
            check("no journal is told of", switch.count_told("journal"), 0)
            busy = judged(path)
            check("a journal that is open", (busy.printed, busy.status), (REFUSED, 1))
            check("why it is refused", "another process has" in busy.told, True)
        rows = rows_in(path)
        check(
            "an order has a row",
            events_in(rows),
            ["available 1 1", "tick 30", f"deploy two {two}", "available 2 1", "promote"],
        )
        check("the rule resumes the same", report_by_rule(rows, strategy_of(BY_HAND)), was)
        check("the journal is judged", judged(path), (was, "", 0))
        with journaled(path) as switch:
            check("the report of a resumed switch", report_of(switch), was)
            check(
                "what was resumed is told",
                switch.tells(
                    f"the journal {path} was resumed: orders 5, revisions 2, phase", "moment 30"
                ),
                True,
            )
            check("a request after a start", switch.get(switch.active), (200, b"two"))
            check("an open after a start", switch.answer_to(f"open x {one}"), "refused AlreadyOpen")
            check("the moment does not go back", switch.answer_to("tick 29"), "refused MomentBack")
            check("no delay has passed", switch.answer_to("tick 59"), "ok 0")
            check("a delay passes", switch.answer_to("tick 60"), "ok 1")
            was = report_of(switch)
        with journaled(path) as switch:
            check("the report after a second kill", report_of(switch), was)
            with contextlib.closing(switch.operator()) as operator:
                operator.send_quit()
                check("the last report", switch.wait(), (f"{was}calls 0\n", 0))
        check("the journal of a switch that has ended", judged(path), (was, "", 0))


def numbers_in(log: pathlib.Path) -> list[int]:
    """The numbers of the requests in an access log."""
    entries = read_lines(log.read_bytes().splitlines()).entries
    return [entry.request for entry in entries if entry.request is not None]


def numbers_go_on() -> None:
    """An access log over several runs has each number once: a run goes on above the bound that the last
    one kept if it was killed, with the next number if it has ended, and if its journal is restarted.
    """
    endpoint = Endpoint(by_target(b"one"))
    with a_folder() as folder:
        path, log = f"{folder}/journal", pathlib.Path(folder) / "access.log"
        given = list[int]()

        def request(switch: Switch, count: int, first: int) -> None:
            """Requests get numbers from this one on, and each is in the log."""
            for _ in range(count):
                check("a request", switch.get(switch.active), (200, b"one"))
            given.extend(range(first, first + count))
            check("they are in the log", comes(lambda: len(numbers_in(log)) == len(given)), True)
            check("their numbers", numbers_in(log), given)

        def end(switch: Switch) -> None:
            with contextlib.closing(switch.operator()) as operator:
                operator.send_quit()
            check("the status at the end", switch.wait()[1], 0)

        variables = {ACCESS_LOG: str(log)}
        with journaled(path, variables=variables) as switch:
            check("it is begun", switch.answer_to(f"open one {endpoint.port}"), "ok 0")
            check("its endpoint", switch.answer_to("available 1 1"), "ok 0")
            request(switch, 3, 1)
        check("a bound of a run that was killed", bounds_in(path), [NUMBERS_OF_RUN])
        with journaled(path, variables=variables) as switch:
            request(switch, 2, NUMBERS_OF_RUN + 1)
        with journaled(path, variables=variables) as switch:
            check("no line of the operator", switch.count_told("can't be"), 0)
            request(switch, 2, 2 * NUMBERS_OF_RUN + 1)
            check("an order behind them", switch.answer_to("tick 5"), "ok 0")
            request(switch, 1, 2 * NUMBERS_OF_RUN + 3)
            end(switch)
        check("a bound of a run that has ended", bounds_in(path)[-1], given[-1])
        with journaled(path, variables=variables) as switch:
            request(switch, 2, given[-1] + 1)
            end(switch)
        check("the orders", events_in(rows_in(path)), ["available 1 1", "tick 5"])
        check("the journal is restarted", restarted(path, BY_HAND).status, 0)
        check("the bound of the new journal", bounds_in(path), [given[-1]])
        with journaled(path, variables=variables) as switch:
            check("its endpoint again", switch.answer_to("available 1 1"), "ok 0")
            request(switch, 2, given[-1] + 1)


def what_a_start_finds_before_an_open() -> None:
    """A journal without orders is begun by an `open`, and one whose first row alone was written is
    resumed."""
    with a_folder() as folder:
        path = f"{folder}/journal"
        missing = judged(path)
        check("a journal that is not there", (missing.printed, missing.status), (REFUSED, 1))
        check("it is not made", os.path.exists(path), False)
        with journaled(path) as switch:
            there = sorted(os.listdir(folder))
            check("a new journal is at its path", there, ["journal", "journal-wal"])
            check("a new journal has no book", switch.answer_to("report"), NO_BOOK)
            check("a name that is none", switch.answer_to("open A 1"), "refused BadName")
        empty = judged(path)
        check("a journal that was not begun", (empty.printed, empty.status), (REFUSED, 1))
        with journaled(path) as switch:
            check("it has no book", switch.answer_to("report"), NO_BOOK)
            check("it is begun", switch.answer_to("open one 9001"), "ok 0")
            was = report_of(switch)
        with journaled(path) as switch:
            check("the first revision is resumed", report_of(switch), was)


def check_refused(name: str, path: str, reason: str, rollout: str = BY_HAND) -> str:
    """Checks that no switch starts with a journal, why, and that its file stays as it is. Gives all
    that is told."""
    content = content_of(path)
    active, control = free_ports(2)
    run = run_to_end(rollout, active, control, flags=("--journal", path))
    told = f"bg_switch: the journal {path} can't be used: {reason}\n"
    check(name, (run.printed, told in run.told, run.status), (REFUSED, True, 1))
    check(f"{name}: the file", content_of(path) == content, True)
    return run.told


def move_log(path: str) -> None:
    """Has Python's sqlite3 move the log of a journal into its database."""
    with contextlib.closing(sqlite3.connect(path)) as connection:
        connection.execute("PRAGMA wal_checkpoint(TRUNCATE)")


def journals_that_are_refused() -> None:
    """Another strategy, a process that has the journal, a damaged journal, another database, and no
    database."""
    with a_folder() as folder:
        path = f"{folder}/journal"
        with journaled(path) as switch:
            with contextlib.closing(switch.operator()) as operator:
                for line in ("open one 9001", "available 1 1", "deploy two 9002"):
                    operator.check(line, "ok 0")
            check_refused(
                "a journal of another process", path, "another process has the journal open"
            )
            check("the process goes on", switch.answer_to("available 2 1"), "ok 1")
            was = report_of(switch)
        check("the journal is judged", judged(path), (was, "", 0))
        told = check_refused("another strategy", path, OTHER_STRATEGY, OTHER)
        other = "bg_switch: the journal has replicas 1, and the Rollout replicas 2\n"
        check("what differs is told", other in told, True)
        move_log(path)
        check("the log is gone", os.path.exists(f"{path}-wal"), False)
        check("the journal is judged without a log", judged(path), (was, "", 0))
        move_log(path)
        whole = content_of(path)
        middle = len(whole) // 2
        pathlib.Path(path).write_bytes(
            whole[:middle] + bytes([whole[middle] ^ 1]) + whole[middle + 1 :]
        )
        check_refused("a damaged journal", path, "the database is damaged")
        damaged = judged(path)
        check("it is judged", (damaged.printed, damaged.status), (REFUSED, 1))
        pathlib.Path(path).write_bytes(b"no database, but a text of some length\n" * 300)
        check_refused("a text", path, "the file is no database that obeys its schema")
        os.unlink(path)
        with contextlib.closing(sqlite3.connect(path)) as connection:
            connection.execute("CREATE TABLE entries (text TEXT)")
            connection.commit()
        check_refused("another database", path, "the database is no journal")
        check_refused_paths(folder)


def write_journal(path: str, rows: Sequence[str]) -> None:
    """Has Python's sqlite3 write a journal with these rows."""
    with contextlib.closing(sqlite3.connect(path)) as connection:
        for table, texts in (("entries", rows), ("settings", ("1",))):
            connection.execute(
                f"CREATE TABLE {table} (number INTEGER PRIMARY KEY, text TEXT NOT NULL) STRICT"
            )
            connection.executemany(
                f"INSERT INTO {table} (text) VALUES (?)", [(text,) for text in texts]
            )
        connection.commit()


def rows_that_are_refused() -> None:
    """Journals whose rows name no strategy, another one, no first revision, or a line of no entry."""
    with a_folder() as folder:
        path = f"{folder}/journal"
        was = begun_with(path, ("open one 9001", "tick 5"))
        begin, *orders = rows_in(path)
        settings = begin.removesuffix("deploy 1 one 9001\n")
        bound, bad = f"requests {NUMBERS_OF_RUN}", "no entry\n"
        no_revision = "the first row of the journal names no first revision"
        for name, rows, reason in (
            ("other settings", [begin.replace("replicas 1", "replicas 2")], OTHER_STRATEGY),
            ("no settings", ["deploy 1 one 9001\n", *orders], OTHER_STRATEGY),
            ("no revision", [settings, *orders], no_revision),
            ("a later revision", [f"{settings}deploy 2 one 9001\n", *orders], no_revision),
            ("two revisions", [f"{begin}deploy 2 two 9002\n", *orders], no_revision),
            ("a bad line", [begin, bad], "line 1 of order 1 is not that of an entry"),
            (
                "a bad line behind a bound",
                [begin, bound, *orders, bound, f"abort\n{bad}"],
                "line 2 of order 2 is not that of an entry",
            ),
        ):
            other = f"{folder}/{name}"
            write_journal(other, rows)
            check_refused(name, other, reason)
        unnamed = judged(f"{folder}/no settings")
        check("it is judged", (unnamed.printed, unnamed.status), (REFUSED, 1))
        check("why", "the first row of the journal names no strategy" in unnamed.told, True)
        whole = f"{folder}/whole"
        write_journal(whole, [begin, bound, *orders])
        check("the same rows", judged(whole), (was, "", 0))


def check_refused_paths(folder: str) -> None:
    """A journal in a folder that is not there, and one in no file."""
    for path in (f"{folder}/x/journal", ":memory:"):
        active, control = free_ports(2)
        run = run_to_end(BY_HAND, active, control, flags=("--journal", path))
        check(f"the path {path}", (run.printed, run.status), (REFUSED, 1))


def check_failing(disk: FailingDisk, failure: Failure) -> None:
    """Checks what operators are told while the disk fails: requests go on, nothing is carried out but
    one order, and that one is kept once the disk works again."""
    endpoint = Endpoint(by_target(b"one"))
    path = f"{disk.flag}.{failure}.journal"
    with journaled(path, variables=disk.variables) as switch:
        with contextlib.closing(switch.operator()) as operator:
            operator.check(f"open one {endpoint.port}", "ok 0")
            operator.check("available 1 1", "ok 0")
            with disk.fails(failure):
                operator.check("tick 10", UNSAVED)
                operator.check("tick 11", JOURNAL_FAILED)
                operator.check("abort", JOURNAL_FAILED)
                check("a request while it fails", switch.get(switch.active), (200, b"one"))
                check("the order is in effect", operator.state().moment, 10)
            operator.check("tick 12", "ok 0")
            was = operator.report()
            check(f"a {failure} that fails is told once", switch.count_told(path, LACKS), 1)
            check("that it works again is told", switch.tells(path, KEEPS), True)
    rows = rows_in(path)
    check(
        f"the orders of a {failure} that fails",
        events_in(rows),
        ["available 1 1", "tick 10", "tick 12"],
    )
    with journaled(path) as switch:
        check(f"the report after a {failure} that fails", report_of(switch), was)


def a_disk_that_fails() -> None:
    with a_folder() as folder:
        disk = FailingDisk(folder)
        check_failing(disk, "write")
        check_failing(disk, "flush")
        path = f"{folder}/journal"
        with journaled(path, variables=disk.variables) as switch:
            with disk.fails("write"):
                check(
                    "an open that can't be kept", switch.answer_to("open one 9001"), JOURNAL_FAILED
                )
                check("no book is open", switch.answer_to("report"), NO_BOOK)
                check("it is told", switch.tells(f"the journal {path} can't be used"), True)
            check("an open of a disk that works", switch.answer_to("open one 9001"), "ok 0")


def ignore_the_limit() -> None:
    """A write beyond the limit on the size of a file fails, and does not end the program. Python
    itself ignores this signal, and a program that it starts does not."""
    signal.signal(signal.SIGXFSZ, signal.SIG_IGN)


def a_file_that_may_not_grow() -> None:
    """The files of the switch may have no bytes any more, and later they may."""
    unlimited = (resource.RLIM_INFINITY, resource.RLIM_INFINITY)
    with a_folder() as folder:
        path = f"{folder}/journal"
        with journaled(path, prepare=ignore_the_limit) as switch:
            check("open", switch.answer_to("open one 9001"), "ok 0")
            process = switch.process.pid
            resource.prlimit(process, resource.RLIMIT_FSIZE, (0, resource.RLIM_INFINITY))
            check("an order without room", switch.answer_to("tick 10"), UNSAVED)
            check("the next one", switch.answer_to("tick 11"), JOURNAL_FAILED)
            resource.prlimit(process, resource.RLIMIT_FSIZE, unlimited)
            check("an order with room again", switch.answer_to("tick 12"), "ok 0")
        check("the orders", events_in(rows_in(path)), ["tick 10", "tick 12"])


def out_of_memory(path: str) -> bytes:
    """What is told of a journal for which there is too little memory."""
    return f"bg_switch: the journal {path} can't be used: out of memory\n".encode()


def refuse_memory(step: int) -> None:
    """Of the requests for memory by which a journal is opened, read and resumed, one in so many is
    refused in each run: the journal is judged as ever, or there is too little memory, and its rows
    stay as they are."""
    with a_folder() as folder:
        path, refuser = f"{folder}/journal", pathlib.Path(folder) / "refuse_memory.so"
        build_object(TOP / "scripts" / "refuse_memory.c", refuser)
        with journaled(path) as switch:
            for line in ("open one 9001", "available 1 1", "deploy two 9002", "tick 30"):
                check(line, switch.answer_to(line), "ok 0")
            was = report_of(switch)
        rows, words = rows_in(path), [BUILT, "journal", path]
        whole, refused = (0, was.encode(), b""), (1, REFUSED.encode())
        # before the journal is named, and later
        short = ((1, b"", b"OutOfMemory\n"), (*refused, out_of_memory(path)))
        for request in itertools.count(1, step):
            run = refuse(str(refuser), request, words)
            if not run.was_refused:
                break
            told = (run.status, run.replies, run.complaint)
            check(f"request {request} is refused: {told}", told in (whole, *short), True)
        check("ample memory", (run.status, run.replies, run.complaint), whole)
        check("some requests were refused", request > FEWEST_REQUESTS, True)
        check("the rows are as they were", rows_in(path), rows)


def memory_refused_at_a_start() -> None:
    refuse_memory(REQUESTS_EACH)


def all_memory_refused_at_a_start() -> None:
    refuse_memory(1)


def restarted(path: str, rollout: str, *words: str) -> processes.Run:
    """A run of `bg_switch journal --restart`."""
    return processes.run_to_end([PROGRAM, "journal", "--restart", *words, path], rollout)


def check_not_restarted(
    name: str, path: str, reason: str, *words: str, rollout: str = BY_HAND
) -> None:
    """Checks that a journal is not restarted, why, and that its file stays as it is."""
    content = content_of(path) if os.path.exists(path) else None
    beside = left_beside(path)
    run = restarted(path, rollout, *words)
    told = f"bg_switch: the journal {path} can't be restarted: {reason}"
    check(name, (run.printed, told in run.told, run.status), (REFUSED, True, 1))
    now = content_of(path) if os.path.exists(path) else None
    check(f"{name}: the file", now == content, True)
    check(f"{name}: no other file", left_beside(path), beside)


def left_beside(path: str) -> list[str]:
    """The files beside a journal but its log and what is no part of a restart."""
    folder, name = os.path.split(path)
    return sorted(file for file in os.listdir(folder) if file.startswith(f"{name}."))


def copies_of(path: str) -> list[str]:
    """The copies of a journal that are beside it, in the order in which they were made."""
    folder, name = os.path.split(path)
    numbers = [file.removeprefix(f"{name}.") for file in os.listdir(folder)]
    return [f"{path}.{number}" for number in sorted(filter(str.isdigit, numbers), key=int)]


def begun_with(path: str, lines: Sequence[str]) -> str:
    """Begins a journal with these orders, which are carried out. Gives the report at its end."""
    with journaled(path) as switch:
        with contextlib.closing(switch.operator()) as operator:
            for line in lines:
                check(line, operator.answer_to(line).split()[0], "ok")
            return operator.report()


# A revision that is promoted, and a later one that is not. The journal has a row for each order.
PROMOTED = (
    "open one 9001",
    "available 1 1",
    "tick 30",
    "deploy two 9002",
    "available 2 1",
    "promote",
    "tick 99",
    "deploy three 9003",
)
ROWS_BEFORE = len(PROMOTED)


def other_settings() -> None:
    """A journal begins anew with the stable revision and other settings, and a copy is kept."""
    with a_folder() as folder:
        path = f"{folder}/journal"
        was = begun_with(path, PROMOTED)
        os.chmod(path, 0o640)
        pathlib.Path(f"{path}.1").write_text("a file of somebody else")
        later = BY_HAND.replace("}}}", ', "scaleDownDelaySeconds": 7}}}')
        run = restarted(path, later)
        rows = rows_in(path)
        check("one row", (len(rows), rows[0].splitlines()[-1]), (1, "deploy 1 two 9002"))
        new = report_by_rule(rows, strategy_of(later))
        check("the journal is restarted", run, (new, "", 0))
        check("the journal is judged", judged(path), (new, "", 0))
        check("no other file is left", left_beside(path), ["journal.1", "journal.2"])
        check("no file is overwritten", content_of(f"{path}.1"), b"a file of somebody else")
        check("its mode", [os.stat(it).st_mode & 0o777 for it in (path, f"{path}.2")], [0o640] * 2)
        check("the copy is judged", judged(f"{path}.2"), (was, "", 0))
        check_refused("the strategy before", path, OTHER_STRATEGY)
        with journaled(path, later) as switch:
            check("the report of a start", report_of(switch), new)
            for line in ("available 1 1", "tick 5", "deploy three 9003"):
                check(line, switch.answer_to(line).split()[0], "ok")
            newer = report_of(switch)
        check("the journal goes on", judged(path), (newer, "", 0))
        os.replace(f"{path}.2", path)
        os.unlink(f"{path}-wal")
        check("the copy in its place", judged(path), (was, "", 0))


def other_replicas() -> None:
    """Other replicas need as many ports; a second restart keeps a second copy."""
    with a_folder() as folder:
        path = f"{folder}/journal"
        was = begun_with(path, PROMOTED)
        ports = "a revision has one port for each replica"
        check_not_restarted("no ports for two replicas", path, ports, rollout=OTHER)
        for words in ("9001", "9001,9001", "9001,0"):
            check_not_restarted(f"ports {words}", path, ports, "--ports", words, rollout=OTHER)
        for words in ("9001 9002", "9001,", "9001,70000"):
            reason = "--ports is no list of ports"
            check_not_restarted(f"ports {words}", path, reason, "--ports", words, rollout=OTHER)
        check("the journal is as it was", judged(path), (was, "", 0))
        run = restarted(path, OTHER, "--ports", "9002,9012")
        rows = rows_in(path)
        check("two ports", rows[0].splitlines()[-1], "deploy 1 two 9002 9012")
        check("two replicas", run, (report_by_rule(rows, strategy_of(OTHER)), "", 0))
        check("the other replicas again", restarted(path, BY_HAND, "--ports", "9002").status, 0)
        check("two copies", copies_of(path), [f"{path}.1", f"{path}.2"])
        check("the first copy", judged(f"{path}.1").printed, was)
        check("the second copy", judged(f"{path}.2").printed, run.printed)


def journals_that_are_not_restarted() -> None:
    """A journal that is open, not there, not begun, damaged, or none; a strategy with a fault; and a
    disk without room."""
    with a_folder() as folder:
        path = f"{folder}/journal"
        check_not_restarted("a journal that is not there", path, "it is not there, or is empty")
        check("it is not made", os.listdir(folder), [])
        with journaled(path) as switch:
            reason = "no book was opened with it yet"
            check_not_restarted("a journal that was not begun", path, reason)
            check("it goes on without a book", switch.answer_to("report"), NO_BOOK)
        was = begun_with(path, PROMOTED)
        with journaled(path) as switch:
            reason = "another process has the journal open"
            check_not_restarted("a journal that is open", path, reason)
            check("it goes on", report_of(switch), was)
        run = restarted(path, "{}")
        check("no strategy", (run.printed, run.status), ("fault Missing spec\n", 1))
        check_without_room(path, was)
        move_log(path)
        whole = content_of(path)
        middle = len(whole) // 2
        pathlib.Path(path).write_bytes(
            whole[:middle] + bytes([whole[middle] ^ 1]) + whole[middle + 1 :]
        )
        check_not_restarted("a damaged journal", path, "the database is damaged")
        pathlib.Path(path).write_bytes(b"no database, but a text of some length\n" * 300)
        check_not_restarted("a text", path, "the file is no database that obeys its schema")


def restarted_in(most: int, path: str) -> processes.Run:
    """A run that restarts a journal, and whose files may have so many bytes at most."""

    def prepare() -> None:
        ignore_the_limit()
        resource.setrlimit(resource.RLIMIT_FSIZE, (most, most))

    words = [BUILT, "journal", "--restart", path]
    with subprocess.Popen(
        words,
        stdin=subprocess.PIPE,
        stdout=subprocess.PIPE,
        stderr=subprocess.PIPE,
        text=True,
        preexec_fn=prepare,
    ) as process:
        output = processes.output_of(process, BY_HAND)
    return processes.Run(*output, process.returncode)


def check_without_room(path: str, was: str) -> None:
    """There is no room to move the log into the file, for the copy, or for the new journal."""
    for most in range(0, MOST_BYTES, MORE_BYTES):
        run = restarted_in(most, path)
        if run.status == 0:
            break
        check(f"files of {most} bytes", (run.printed, copies_of(path)), (REFUSED, []))
        check(f"the journal after files of {most} bytes", judged(path), (was, "", 0))
    check("files of more bytes", (run.status, most > MORE_BYTES), (0, True))
    check("the copy", judged(f"{path}.1").printed, was)


def kill_at_random(words: Sequence[str], longest: float) -> bool:
    """Starts a program and kills it after at most so many seconds. Gives whether it had ended."""
    with subprocess.Popen(
        words, stdin=subprocess.PIPE, stdout=subprocess.DEVNULL, stderr=subprocess.DEVNULL
    ) as process:
        with contextlib.suppress(BrokenPipeError):
            assert process.stdin is not None
            process.stdin.write(BY_HAND.encode())
            process.stdin.close()
        time.sleep(random.uniform(0, longest))
        process.kill()
    return process.returncode == 0


def kill_restarts(kills: int) -> None:
    """A journal is restarted by programs that are killed at random moments: its file has the old one or
    the new one whole, and if it is the new one, the copy has the old one. The next restart goes through.
    """
    with a_folder() as folder:
        path = f"{folder}/journal"
        was, ended, changed = begun_with(path, PROMOTED), 0, 0
        kept = {end: content_of(path + end) for end in FILES}
        begun = time.monotonic()
        new = restarted(path, BY_HAND).printed
        longest = 1.2 * (time.monotonic() - begun)
        for _ in range(kills):
            for file in os.listdir(folder):
                os.unlink(f"{folder}/{file}")
            for end, content in kept.items():
                pathlib.Path(path + end).write_bytes(content)
            ended += kill_at_random([BUILT, "journal", "--restart", path], longest)
            rows = rows_in(path)
            check("the rows of one of both", len(rows) in (1, ROWS_BEFORE), True)
            is_new = len(rows) == 1
            changed += is_new
            check("a journal after a kill", judged(path), (new if is_new else was, "", 0))
            if is_new:
                check("the copy is whole", judged(f"{path}.1"), (was, "", 0))
            check("the next restart", restarted(path, BY_HAND), (new, "", 0))
            last = judged(copies_of(path)[-1])
            check("its copy", last, (new if is_new else was, "", 0))
        print(f"live_journal: {kills} kills of restarts, {changed} changed, {ended} had ended")


def restarts_that_are_killed() -> None:
    kill_restarts(KILLED_RESTARTS)


def many_restarts_that_are_killed() -> None:
    kill_restarts(KILLED_RESTARTS_BY_HAND)


class Drill:
    """A journal under operators and clients at random, whose switch is killed again and again."""

    def __init__(self, path: str, seed: int) -> None:
        self.path = path
        self.chance = random.Random(seed)
        self.strategy = strategy_of(ANALYSED)
        self.endpoints = {
            name: Endpoint(by_target(name.encode())).port for name in ("a", "b", "c", "d")
        }
        self.kept = list[str]()  # the orders that were acknowledged
        self.pending = ""  # the one that has no answer yet
        self.moment = 0
        self.is_over = threading.Event()

    def line(self) -> str:
        """A line of an operator at random; most of them are carried out."""
        name = self.chance.choice([*self.endpoints])
        self.moment += self.chance.randrange(3)
        return self.chance.choice(
            (
                f"tick {self.moment}",
                f"deploy {name} {self.endpoints[name]}",
                f"available {self.chance.randrange(1, 9)} {self.chance.randrange(4) and 1}",
                f"verdict {self.chance.choice(('pre', 'post'))} {self.chance.choice(('successful', 'failed', 'error'))}",
                "promote",
                "promote full",
                "abort",
                "retry",
            )
        )

    def send_orders(self, switch: Switch) -> None:
        """Sends orders until the switch is killed."""
        with contextlib.suppress(UnreachableError, OSError):
            with contextlib.closing(switch.operator()) as operator:
                while not self.is_over.is_set():
                    self.pending = self.line()
                    reply = operator.answer_to(self.pending)
                    check("a reply", reply.split()[0] in ("ok", "refused"), True)
                    if reply.startswith("ok "):
                        self.kept.append(self.pending)
                    self.pending = ""
                    time.sleep(PAUSE)

    def send_requests(self, switch: Switch) -> None:
        """Sends requests until the switch is killed; each before that is answered."""
        while not self.is_over.is_set():
            answer = clients.get(switch.active)
            if not self.is_over.is_set():
                check("a request", answer is not None and answer[0] in (200, 503), True)

    def live(self) -> None:
        """A switch begins with the journal, and is killed at random."""
        with journaled(self.path, ANALYSED) as switch:
            if not rows_in(self.path):
                self.open(switch)
            self.is_over.clear()
            threads = [
                threading.Thread(target=each, args=(switch,), daemon=True)
                for each in (self.send_orders, *[self.send_requests] * CLIENTS)
            ]
            for thread in threads:
                thread.start()
            time.sleep(self.chance.uniform(SHORTEST_LIFE, LONGEST_LIFE))
            self.is_over.set()
            switch.kill()
            for thread in threads:
                thread.join()
        self.check_rows()

    def open(self, switch: Switch) -> None:
        line = f"open a {self.endpoints['a']}"
        check("a drill begins", switch.answer_to(line), "ok 0")

    def check_rows(self) -> None:
        """The journal has each order that was acknowledged, and at most the one in doubt too."""
        events = events_in(rows_in(self.path))
        in_doubt = [self.pending] if self.pending else []
        check("the orders of a journal", events in (self.kept, self.kept + in_doubt), True)
        self.kept, self.pending = events, ""

    def check_report(self) -> None:
        """A start gives the report that the rule gives of the journal."""
        was = report_by_rule(rows_in(self.path), self.strategy)
        check("the journal is judged", judged(self.path), (was, "", 0))
        with journaled(self.path, ANALYSED) as switch:
            check("the report after a kill", report_of(switch), was)
            resumed = f"the journal {self.path} was resumed: orders {len(self.kept)},"
            check("what was resumed is told", switch.tells(resumed), True)


def drill(kills: int) -> None:
    """Switches that are killed under orders and requests, with a new journal now and then."""
    print(f"live_journal: the seed of the drill is {SEED}", flush=True)
    carried_out = 0
    for first in range(0, kills, KILLS_EACH):
        with a_folder() as folder:
            one = Drill(f"{folder}/journal", SEED + first)
            for _ in range(first, min(first + KILLS_EACH, kills)):
                one.live()
                one.check_report()
            carried_out += len(one.kept)
    check("orders were carried out", carried_out > kills, True)
    print(f"live_journal: {kills} kills, {carried_out} orders were carried out", flush=True)


def kills_at_random() -> None:
    drill(KILLS)


def many_kills_at_random() -> None:
    drill(KILLS_BY_HAND)


if __name__ == "__main__":
    checks.run(
        "live_journal",
        [
            orders_survive_a_kill,
            numbers_go_on,
            what_a_start_finds_before_an_open,
            journals_that_are_refused,
            rows_that_are_refused,
            a_disk_that_fails,
            a_file_that_may_not_grow,
            memory_refused_at_a_start,
            kills_at_random,
            other_settings,
            other_replicas,
            journals_that_are_not_restarted,
            restarts_that_are_killed,
        ],
        at_once=3,
        by_hand=[
            many_kills_at_random,
            many_restarts_that_are_killed,
            all_memory_refused_at_a_start,
        ],
    )
