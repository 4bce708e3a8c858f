"""What drills of a fleet choose at random, what they read off the keys, and how they judge a run:
without a fleet."""
import collections
import ctypes
import json
import os
import pathlib
import random
import subprocess
import sys
import tempfile
import threading
import time
import unittest
from collections.abc import Sequence
from typing import cast
from unittest import mock

from bg_switch_tools.controller.lines.book import Book
from bg_switch_tools.fleet.agent import fleet_lines
from bg_switch_tools.fleet.agent.candidate import Candidate
from bg_switch_tools.fleet.agent.fleet_lines import FleetLines
from bg_switch_tools.fleet.machine import line_table
from bg_switch_tools.fleet.machine.machine import Machine
from bg_switch_tools.fleet.record import leader
from bg_switch_tools.fleet.record.leader import Votes
from support.endpoints import Endpoint
from support.fleet import random_faults
from support.fleet.aimed_abort import is_promoting
from support.fleet.analysis import bad_file, hold_file, verdict_of
from support.fleet.lab import Lab
from support.fleet.machine_clock import ADJ_NANO, ADJ_SETOFFSET, Timex, step_wall_clock
from support.fleet.planted import PLANTED
from support.fleet.random_drill import (
    BAD_AFTER,
    BAD_BEFORE,
    GOOD,
    KINDS,
    LONGEST_ATTEMPT,
    Due,
    Outcome,
    PlanChoice,
    next_plan,
)
from support.fleet.random_faults import Fault, Faults, next_fault
from support.fleet.programs import Programs
from support.fleet.recording import Answered, Event, Look, Promote
from support.fleet.rules import RULES, Broken, Run
from support.fleet.seen import Seen
from support.fleet.stepped_clock import clock_file, stepped
from support.fleet.verdict import Mix, mix_of, rule_lines, table, verdict
from support.messages import response
from support.moments import moment
from tests.fake_port import free_port
from tests.test_fleet_rules import SECOND, good, record
from tests.tool_runs import TOP, WAIT, comes

HOSTS = ("a", "b", "c")


def faults_in_turn(seed: int, count: int = 4000) -> list[list[Fault]]:
    """Faults at random: each that comes, and those before it that last. Each lasts for some of
    those that follow."""
    chance, lasting = random.Random(seed), list[Fault]()
    found = []
    for _ in range(count):
        broken = [one for fault in lasting for one in fault.broken]
        if fault := next_fault(chance, HOSTS, chance.choice(HOSTS), broken):
            found.append([fault, *lasting])
            lasting.append(fault)
        lasting = [each for each in lasting if chance.random() > 0.3]
    return found


class RandomFaults(unittest.TestCase):
    def test_what_may_come_together(self) -> None:
        for together in faults_in_turn(1):
            broken = [one for fault in together for one in fault.broken]
            self.assertEqual(len(broken), len(set(broken)), together)
            counts = collections.Counter(random_faults.BREAKS[fault.kind] for fault in together)
            self.assertLessEqual(counts["switch"] + counts["delay"], 1, together)
            self.assertLessEqual(counts["etcd"] + counts["link"], 1, together)

    def test_each_kind_comes(self) -> None:
        counts = collections.Counter(together[0].kind for together in faults_in_turn(2))
        self.assertEqual(set(counts), set(random_faults.KINDS))
        self.assertLess(counts[random_faults.MAJORITY_KILLED], counts[random_faults.MEMBER_KILLED])

    def test_seconds(self) -> None:
        seconds = collections.defaultdict[str, list[float]](list)
        for fault, *_ in faults_in_turn(3):
            seconds[fault.kind].append(fault.seconds)
        self.assertLess(max(seconds[random_faults.SWITCH_DELAYED]), 1.5)
        self.assertGreater(max(seconds[random_faults.AGENT_STOPPED]), 10)
        self.assertLess(min(seconds[random_faults.AGENT_STOPPED]), 1)

    def test_a_seed_gives_the_same_faults(self) -> None:
        self.assertEqual(faults_in_turn(4, 200), faults_in_turn(4, 200))
        self.assertNotEqual(faults_in_turn(4, 200), faults_in_turn(5, 200))

    def test_the_leader_is_hit_more_often(self) -> None:
        chance = random.Random(6)
        faults = [next_fault(chance, HOSTS, "b", []) for _ in range(4000)]
        hit = collections.Counter(
            fault.hosts for fault in faults if fault and fault.kind == random_faults.AGENT_KILLED
        )
        self.assertGreater(hit["b",], 1.1 * hit["a",])


class LabOfCalls:
    """What faults do to a lab."""

    hosts = HOSTS

    def __init__(self) -> None:
        self.calls: list[str] = []

    def looks(self) -> dict[str, Look]:
        return {}

    def compact(self) -> bool:
        return True

    def __getattr__(self, name: str) -> object:
        """Notes a call, with its words but for numbers."""
        return lambda *words: self.calls.append(
            " ".join((name, *(word for word in words if isinstance(word, str))))
        )


class RunningFaults(unittest.TestCase):
    def setUp(self) -> None:
        self.lab = LabOfCalls()
        self.faults = Faults(cast(Lab, self.lab), random.Random(1))
        self.addCleanup(self.faults.end_all)

    def test_a_delay_ends_in_time(self) -> None:
        self.assertTrue(self.faults.delay_some_switch(0.1))
        self.assertFalse(self.faults.delay_some_switch(0.1))
        delayed = self.lab.calls[0].split()[1]
        self.assertTrue(comes(lambda: self.lab.calls[1:]))
        self.assertEqual(self.lab.calls, [f"delay_switch {delayed}", f"let_switch_go_on {delayed}"])
        self.assertEqual(self.faults.counts[random_faults.SWITCH_DELAYED], 1)

    def test_all_end_at_the_end(self) -> None:
        while len(self.faults.lasting) < 3:
            self.faults.begin_some("a")
        self.faults.end_all()
        self.assertEqual((self.faults.lasting, self.faults.broken), ([], []))
        begun = [
            call
            for call in self.lab.calls
            if call.split()[0] in ("kill", "stop", "cut", "delay_switch", "step_clock")
        ]
        self.assertEqual(len(self.lab.calls), 2 * len(begun))
        self.assertFalse(self.faults.delay_some_switch(0.1))

    def test_a_fault_that_does_not_end(self) -> None:
        """The drill then ends with the reason."""

        def fail(_: object, host: str) -> None:
            raise ValueError(f"switch-{host} runs already")

        with mock.patch.object(LabOfCalls, "let_switch_go_on", fail, create=True):
            self.assertTrue(self.faults.delay_some_switch(0.1))
            self.assertTrue(comes(lambda: self.faults.error))
        with self.assertRaisesRegex(ValueError, "runs already"):
            self.faults.begin_some("a")

    def test_what_ends_is_what_began(self) -> None:
        ends = {
            "kill": "restart",
            "stop": "wake",
            "cut": "mend",
            "step_clock": "set_clock_right",
            "delay_switch": "let_switch_go_on",
        }
        for _ in range(300):
            self.faults.begin_some("a")
        self.faults.end_all()
        calls = [call.split(" ", 1) for call in self.lab.calls]
        begun = collections.Counter((ends[what], words) for what, words in calls if what in ends)
        self.assertEqual(
            begun, collections.Counter((what, words) for what, words in calls if what not in ends)
        )

    def test_the_machine_s_clock_is_stepped_only_where_the_drill_may(self) -> None:
        for _ in range(300):
            self.faults.begin_some("a")
        self.assertNotIn("step_machine_clock", self.lab.calls)
        kinds = (*random_faults.KINDS, random_faults.MACHINE_STEPPED)
        faults = Faults(cast(Lab, self.lab), random.Random(1), kinds)
        for _ in range(300):
            faults.begin_some("a")
        faults.end_all()
        steps = self.lab.calls.count("step_machine_clock")
        self.assertEqual((steps > 0, faults.counts[random_faults.MACHINE_STEPPED]), (True, steps))
        self.assertEqual(self.lab.calls.count("set_machine_clock_right"), steps)

    def test_a_switch_that_is_not_up_again_keeps_the_others_up(self) -> None:
        """One that was started again waits for its agent, which may be killed."""
        looks = {host: Look(1.0, 1.1, "" if host == "b" else "steady") for host in HOSTS}
        with mock.patch.object(LabOfCalls, "looks", lambda _: looks):
            self.assertFalse(self.faults.delay_some_switch(0.1))
            for _ in range(300):
                self.faults.begin_some("a")
        self.faults.end_all()
        hit = [call for call in self.lab.calls if "switch" in call]
        self.assertEqual((hit, len(self.lab.calls) > 10), ([], True))

    def test_etcd_is_compacted_while_a_link_is_cut_and_only_then(self) -> None:
        for _ in range(300):
            self.faults.begin_some("a")
            compacted = self.faults.counts[random_faults.COMPACTED]
            if "cut" in " ".join(self.lab.calls):
                break
            self.assertEqual(compacted, 0)
        for _ in range(20):
            self.faults.begin_some("a")
        self.assertGreater(self.faults.counts[random_faults.COMPACTED], 0)


class Clocks(unittest.TestCase):
    def test_a_clock_is_stepped_by_its_file(self) -> None:
        with tempfile.TemporaryDirectory() as folder:
            path = clock_file(pathlib.Path(folder), "a")
            clock = stepped(path, lambda: 1000.0)
            self.assertEqual(clock(), 1000.0)
            path.write_text("-7200.000", encoding="ascii")
            self.assertEqual(clock(), -6200.0)
            path.write_text("", encoding="ascii")  # it is being written
            self.assertEqual(clock(), 1000.0)


class MachineClock(unittest.TestCase):
    def library(self, answer: int) -> mock.Mock:
        """A C library whose clock_adjtime notes what it is asked for."""

        def clock_adjtime(clock: int, step: object) -> int:
            found = ctypes.cast(step, ctypes.POINTER(Timex)).contents  # type: ignore[arg-type]
            self.asked.append((clock, found.modes, found.seconds, found.nanoseconds))
            return answer

        self.asked: list[tuple[int, int, int, int]] = []
        return mock.Mock(clock_adjtime=clock_adjtime)

    def test_is_stepped_in_one_call(self) -> None:
        with mock.patch.object(ctypes, "CDLL", return_value=self.library(0)):
            step_wall_clock(-120)
        self.assertEqual(self.asked, [(time.CLOCK_REALTIME, 0x2100, -120, 0)])

    def test_tells_where_it_may_not_be_set(self) -> None:
        with mock.patch.object(ctypes, "CDLL", return_value=self.library(-1)):
            with self.assertRaisesRegex(OSError, "the wall clock can't be set"):
                step_wall_clock(30)

    def test_has_the_fields_of_the_system(self) -> None:
        source = "#include <sys/timex.h>\n#include <stddef.h>\n" + "".join(
            f'_Static_assert({of_c} == {ours}, "timex");\n'
            for of_c, ours in (
                ("sizeof(struct timex)", ctypes.sizeof(Timex)),
                ("offsetof(struct timex, time.tv_sec)", Timex.seconds.offset),
                ("offsetof(struct timex, time.tv_usec)", Timex.nanoseconds.offset),
                ("ADJ_SETOFFSET | ADJ_NANO", ADJ_SETOFFSET | ADJ_NANO),
            )
        )
        words = ["gcc", "-fsyntax-only", "-x", "c", "-"]
        made = subprocess.run(words, input=source, capture_output=True, text=True, check=False)
        self.assertEqual((made.returncode, made.stderr), (0, ""))

    def test_what_is_recorded_does_not_go_by_it(self) -> None:
        with mock.patch.object(time, "time", lambda: 0.0):
            before = time.clock_gettime(time.CLOCK_BOOTTIME)
            self.assertLessEqual(before, moment())
            self.assertLess(moment(), before + 60)


class Plans(unittest.TestCase):
    def test_the_mix(self) -> None:
        chance = random.Random(1)
        plans = [next_plan(chance) for _ in range(4000)]
        counts = collections.Counter(plan.kind for plan in plans)
        self.assertEqual(set(counts), set(KINDS))
        self.assertGreater(counts[GOOD], 4 * max(counts[BAD_BEFORE], counts[BAD_AFTER]))
        self.assertTrue(all(plan.kind == GOOD for plan in plans if plan.is_aimed))
        self.assertGreater(sum(plan.is_aimed for plan in plans), len(plans) / 10)
        self.assertEqual(
            {key for plan in plans for key in plan.fleet},
            {"by_hand", "seconds", "max_missing", "promoting_seconds"},
        )

    def test_the_next_one_awaits_the_end(self) -> None:
        due = Due(random.Random(1))
        due.take_put(PlanChoice(GOOD, {}, False, False), 100.0)
        self.assertFalse(due.is_due(seen_at("deploying"), 120.0))
        self.assertFalse(due.is_due(seen_at("successful"), 120.0))
        self.assertTrue(due.is_due(seen_at("successful"), 123.1))

    def test_it_does_not_await_it_for_ever(self) -> None:
        due = Due(random.Random(1))
        due.take_put(PlanChoice(GOOD, {}, False, False), 100.0)
        self.assertFalse(due.is_due(Seen({}), 100 + LONGEST_ATTEMPT - 1))
        self.assertTrue(due.is_due(Seen({}), 100 + LONGEST_ATTEMPT))

    def test_the_end_of_the_attempt_before_is_not_awaited(self) -> None:
        due = Due(random.Random(1))
        due.take_put(PlanChoice(GOOD, {}, False, False), 100.0)
        self.assertFalse(due.is_due(seen_at("successful", plan=21), 110.0))
        self.assertTrue(due.is_awaited)

    def test_one_in_the_middle(self) -> None:
        due = Due(random.Random(1))
        due.take_put(PlanChoice(GOOD, {}, False, True), 100.0)
        self.assertTrue(due.is_due(seen_at("deploying"), 105.1))


def keys_at(
    stage: str,
    plan: int = 20,
    states: Sequence[str] = ("ready", "ready", "ready"),
    attempt: int = 20,
) -> dict[str, Event]:
    found = [Event(2, f"members/{host}", "", 2) for host in HOSTS]
    found += [
        Event(30, f"machines/{host}", json.dumps({"attempt": attempt, "state": state}), 3)
        for host, state in zip(HOSTS, states)
        if state
    ]
    found += [
        Event(plan, "plan", json.dumps({"fleet": {"by_hand": True}}), 5),
        Event(6, "leader", "b", 6),
        Event(31, "attempt", record(20, "web-2", "web-1", stage), 7),
    ]
    return {event.name: event for event in found}


def seen_at(stage: str, plan: int = 20) -> Seen:
    return Seen(keys_at(stage, plan))


class Keys(unittest.TestCase):
    def test_without_any(self) -> None:
        seen = Seen({})
        self.assertEqual(
            (seen.id, seen.revision, seen.stage, seen.stable, seen.leader, seen.members),
            (0, "", "", "", "", []),
        )
        self.assertEqual(
            (
                seen.is_running,
                seen.is_of_the_plan,
                seen.is_settled,
                seen.is_by_hand,
                seen.are_all("ready"),
            ),
            (False,) * 5,
        )
        self.assertTrue(seen.is_away("a"))

    def test_a_running_attempt(self) -> None:
        seen = seen_at("deploying")
        self.assertEqual(
            (seen.id, seen.revision, seen.stage, seen.stable, seen.leader),
            (20, "web-2", "deploying", "web-1", "b"),
        )
        self.assertEqual(
            (seen.is_running, seen.is_of_the_plan, seen.is_settled, seen.is_by_hand),
            (True, True, False, True),
        )
        self.assertEqual(
            (seen.are_all("ready"), seen.are_all("passed"), seen.is_away("c")), (True, False, False)
        )

    def test_reports(self) -> None:
        self.assertFalse(
            Seen(keys_at("deploying", states=("ready", "working", "ready"))).are_all("ready")
        )
        self.assertFalse(Seen(keys_at("deploying", states=("ready", "ready", ""))).are_all("ready"))
        self.assertFalse(Seen(keys_at("deploying", attempt=10)).are_all("ready"))

    def test_settled(self) -> None:
        follow = ("follows", "follows", "follows")
        self.assertTrue(Seen(keys_at("aborted", states=follow)).is_settled)
        self.assertTrue(Seen(keys_at("successful", states=follow, attempt=0)).is_settled)
        self.assertFalse(
            Seen(keys_at("successful", states=("follows", "follows", "working"))).is_settled
        )
        self.assertFalse(Seen(keys_at("successful", states=("follows", "follows", ""))).is_settled)
        self.assertFalse(Seen(keys_at("successful", plan=21, states=follow)).is_settled)
        self.assertFalse(Seen(keys_at("promoting", states=follow)).is_settled)

    def test_the_moment_of_an_aimed_abort(self) -> None:
        attempt = Event(31, "attempt", record(20, "web-2", "web-1", "promoting"), 7)
        self.assertTrue(is_promoting(attempt, "web-2"))
        self.assertFalse(is_promoting(attempt, "web-3"))
        self.assertFalse(is_promoting(attempt._replace(name="machines/a"), "web-2"))
        self.assertFalse(is_promoting(attempt._replace(value=None), "web-2"))
        self.assertFalse(
            is_promoting(attempt._replace(value=record(20, "web-2", "web-1", "deploying")), "web-2")
        )


class Verdicts(unittest.TestCase):
    def outcome(self, **changed: object) -> Outcome:
        return Outcome(collections.Counter({GOOD: 2}), good()._replace(**changed), 1.5, [])  # type: ignore[arg-type]

    def test_a_mix_that_shows_too_little(self) -> None:
        self.assertEqual(Mix(30, 10, 1).faults(), [])
        self.assertEqual(
            Mix(30, 9, 1).faults(), ["9 of 30 attempts were promoted, which is below a third"]
        )
        self.assertEqual(Mix(30, 10, 0).faults(), ["no promote met an abort on its way"])
        self.assertEqual(
            Mix(19, 19, 5).faults(), ["19 attempts are too few to judge the mix: 20 are needed"]
        )

    def test_the_mix_of_a_run(self) -> None:
        run = good()
        self.assertEqual(mix_of(Run(run)), Mix(2, 2, 0))
        late = [
            *run.promotes,
            Promote("c", 47.9, "web-3", SECOND, 0.9),
            Promote("b", 46.9, "web-3", SECOND, 0.1),
        ]
        self.assertEqual(mix_of(Run(run._replace(promotes=late))), Mix(2, 2, 1))

    def test_the_table(self) -> None:
        rows = list(table(self.outcome()))
        self.assertIn("| plans good / bad before / bad after | 2 / 0 / 0 |", rows)
        self.assertIn("| settled after the last fault | 1.5 s |", rows)
        self.assertIn(
            "| requests | 25, 0 failed, 0 of these at a machine whose switch was killed, and 0 at a step of the wall clock |",
            rows,
        )
        self.assertIn(
            "| settled after the last fault | no |",
            list(table(self.outcome()._replace(settled=None))),
        )

    def test_the_lines(self) -> None:
        lines, holds = verdict(self.outcome())
        self.assertEqual(
            lines[: len(RULES) + 1],
            [
                *(f"rule {number + 1}: holds" for number in range(len(RULES))),
                "no program has failed",
            ],
        )
        self.assertFalse(holds)  # its attempts are too few
        lines, _ = verdict(
            self.outcome(
                requests=[
                    *good().requests,
                    *good().requests[:1],
                    good().requests[0]._replace(status=502),
                ]
            )
        )
        self.assertEqual(lines[4], "rule 5: BROKEN, 1 times")

    def test_a_program_that_has_failed(self) -> None:
        self.assertIn(
            "FAILED agent-a: status 70",
            verdict(self.outcome()._replace(failures=["agent-a: status 70"]))[0],
        )

    def test_what_holds_only_together(self) -> None:
        """A drill has passed if nothing is wrong with it, and fails by each thing that is."""
        outcome = self.outcome()
        with mock.patch("support.fleet.verdict.mix_of", return_value=Mix(30, 20, 1)):
            self.assertTrue(verdict(outcome)[1])
            for wrong in (
                outcome._replace(settled=None),
                outcome._replace(failures=["agent-a: status 70"]),
                outcome._replace(
                    recording=outcome.recording._replace(
                        requests=[Answered(35.0, 0.01, 502, "", "b")]
                    )
                ),
            ):
                self.assertFalse(verdict(wrong)[1])
        with mock.patch("support.fleet.verdict.mix_of", return_value=Mix(30, 20, 0)):
            self.assertFalse(verdict(outcome)[1])

    def test_a_rule_that_is_broken_often(self) -> None:
        self.assertEqual(len(list(rule_lines(1, [Broken(1, "x")] * 50 + [Broken(2, "y")]))), 11)


class PlantedFaults(unittest.TestCase):
    def test_each_of_the_design(self) -> None:
        self.assertEqual(
            list(PLANTED),
            [
                "without-one-member",
                "alone",
                "without-compares",
                "no-catch-up",
                "old-reads",
                "without-time-limit",
                "order-not-compared",
                "silent-about-orders",
                "plan-first",
                "changes",
                "back-by-permission",
            ],
        )
        self.assertEqual({planted.rule for planted in PLANTED.values()}, {1, 2, 3, 4, 6, 7, 8})

    def test_it_is_found_by_its_own_rule_alone(self) -> None:
        planted = PLANTED["old-reads"]
        self.assertTrue(
            planted.is_found([Broken(2, "a promoted web-2 by a read 3.000 seconds old")])
        )
        self.assertFalse(
            planted.is_found(
                [
                    Broken(1, "a promoted web-2 by a read 3.000 seconds old"),
                    Broken(2, "attempt 3 went on"),
                ]
            )
        )
        self.assertFalse(planted.is_found([]))

    def test_it_is_planted_and_taken_out(self) -> None:
        """Each patch changes the code of the agents, and leaves nothing behind."""

        def parts() -> list[object]:
            return [
                vars(place)[name]
                for place, name in (
                    (Votes, "are_enough"),
                    (Machine, "permitted_line"),
                    (Machine, "is_fresh"),
                    (leader, "compares_of"),
                    (leader, "decision_of"),
                    (line_table, "_catch_up"),
                    (FleetLines, "may_hand_in"),
                    (FleetLines, "next_line"),
                    (fleet_lines, "before"),
                    (Book, "send"),
                    (Candidate, "send"),
                    (Candidate, "_tell_dropped"),
                )
            ]

        before = parts()
        for name, planted in PLANTED.items():
            with self.subTest(name):
                with planted.plant():
                    self.assertNotEqual(parts(), before)
                self.assertEqual(parts(), before)


class Analyses(unittest.TestCase):
    def test_files(self) -> None:
        self.assertEqual(
            (bad_file("a", "pre", "web-2"), hold_file("b", "post", "web-3")),
            ("bad-a-pre-web-2", "hold-b-post-web-3"),
        )

    def test_one_that_goes_on(self) -> None:
        with tempfile.TemporaryDirectory() as name:
            lab = Lab(pathlib.Path(name), HOSTS, agent=None, is_quiet=True)
            with lab.held_analysis("a", "post", 2):
                self.assertEqual(
                    [path.name for path in pathlib.Path(name).iterdir()], ["hold-a-post-web-2"]
                )
            self.assertEqual(list(pathlib.Path(name).iterdir()), [])
            lab.fail_analysis("a", "pre", 2)
            lab.pass_analysis("a", "pre", 2)
            lab.pass_analysis("a", "pre", 2)
            self.assertEqual(list(pathlib.Path(name).iterdir()), [])

    def test_one_that_waits(self) -> None:
        """It asks nothing while it waits: the switch is down then."""
        port, found = free_port(), list[str]()
        with tempfile.TemporaryDirectory() as name:
            lab = Lab(pathlib.Path(name), HOSTS, agent=None, is_quiet=True)

            def judge() -> None:
                found.append(verdict_of(pathlib.Path(name), "a", "post", port, "web-2"))

            with lab.held_analysis("a", "post", 2):
                waiting = threading.Thread(target=judge)
                waiting.start()
                waiting.join(1.0)
                self.assertEqual(found, [])
                switch = Endpoint(lambda _, to: to.sendall(response(b"web-2")), port)
            waiting.join(WAIT)
            self.assertEqual(found, ["successful"])
            for revision, other in (("web-2", "successful"), ("web-3", "failed")):
                self.assertEqual(verdict_of(pathlib.Path(name), "a", "post", port, revision), other)
            lab.fail_analysis("a", "post", 2)
            judge()
            switch.stop()
            judge()
        self.assertEqual(found, ["successful", "failed", "error"])


class Failures(unittest.TestCase):
    def test_of_programs(self) -> None:
        with tempfile.TemporaryDirectory() as name:
            programs = Programs(pathlib.Path(name))
            programs.start("sleeps", ["sleep", "60"])
            programs.start("ends", ["sh", "-c", "exit 3"])
            programs.start("raises", [sys.executable, "-c", "1 / 0"])
            programs.start("is-ended", ["sleep", "60"])
            self.assertEqual(programs.end("is-ended"), -15)
            self.assertTrue(
                comes(lambda: not programs.is_running("ends") and not programs.is_running("raises"))
            )
            expected = ["ends: status 3", "raises: status 1", "raises.err has a traceback"]
            self.assertEqual(programs.failures(), expected)
            programs.kill("ends")
            programs.kill("sleeps")
            self.assertEqual(programs.failures(), expected)
            programs.end_all()


class Scripts(unittest.TestCase):
    def run_script(
        self, *words: str, path: str = os.environ["PATH"], library: str = ""
    ) -> "subprocess.CompletedProcess[str]":
        return subprocess.run(
            [sys.executable, "-B", *words],
            cwd=TOP,
            capture_output=True,
            text=True,
            timeout=WAIT,
            check=False,
            env={"PATH": path, "PYTHONPATH": library},
        )

    def test_without_the_programs(self) -> None:
        """The gate says what it has left out, and a person who asks for a drill gets none."""
        with tempfile.TemporaryDirectory() as empty:
            ran = self.run_script("tests/live/live_fleet.py", path=empty, library="scripts")
            self.assertEqual(
                (ran.returncode, ran.stdout),
                (
                    0,
                    "live_fleet: skipped, since etcd and haproxy and nginx can't be found here: "
                    "apt-get install etcd-server haproxy nginx\n",
                ),
                ran.stderr,
            )
            ran = self.run_script(
                "scripts/fleet_drill.py", "--seed", "1", "--seconds", "10", path=empty
            )
            self.assertEqual((ran.returncode, ran.stdout), (2, ""))
            self.assertIn("etcd and haproxy and nginx can't be found here", ran.stderr)

    def test_words(self) -> None:
        for words in (
            (),
            ("--seed", "1"),
            ("--seed", "1", "--seconds", "1"),
            ("--fault", "none"),
            ("--seed", "1", "--seconds", "20", "--fault", "all"),
        ):
            ran = self.run_script("scripts/fleet_drill.py", *words)
            self.assertEqual((ran.returncode, ran.stdout), (2, ""), words)
            self.assertIn("usage: ", ran.stderr)


if __name__ == "__main__":
    unittest.main()
