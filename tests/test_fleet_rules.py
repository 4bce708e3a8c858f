"""The rules of a fleet on a recorded run: they hold on a good one, and each planted violation is
found by its rule."""
import json
import pathlib
import tempfile
import unittest
from collections.abc import Callable, Sequence

from support.fleet.recording import (
    HISTORY,
    OUTAGES,
    POLLS,
    REQUESTS,
    VERDICTS,
    Answered,
    Dropped,
    Event,
    Look,
    Outage,
    Poll,
    Promote,
    Recording,
    Verdict,
    agent_file,
    look_file,
    read_recording,
)
from support.fleet.rules import broken_rules, elections, figures

HOSTS = ("a", "b", "c")
PORTS = {"web-1": [9010, 9011], "web-2": [9020, 9021], "web-3": [9030, 9031]}
LEADER = 5  # the revision that made the leader's key
# the revisions of the plans of web-2, which succeeds, and of web-3, which is aborted
FIRST, SECOND = (20, 40)


def record(attempt: int, name: str, stable: str, stage: str, **others: object) -> str:
    told = {
        "version": 1,
        "id": attempt,
        "revision": {"name": name, "ports": PORTS[name]},
        "stable": {"name": stable, "ports": PORTS[stable]},
        "stage": stage,
        "reason": "",
        "missing": [],
        "by": LEADER,
        "time": 0,
    }
    return json.dumps({**told, **others})


def report(attempt: int, state: str, active: str) -> str:
    return json.dumps({"version": 1, "attempt": attempt, "state": state, "active": active})


def plan(name: str, **fleet: object) -> str:
    return json.dumps({"revisions": [{"name": name, "ports": PORTS[name]}], "fleet": fleet})


def good_events() -> list[Event]:
    """web-1 is live; web-2 is promoted and succeeds; web-3 is promoted, fails on c, and is
    aborted."""
    events = [
        Event(2 + place, f"members/{host}", "", 2 + place) for place, host in enumerate(HOSTS)
    ]
    events += [Event(LEADER, "leader", "a", LEADER), Event(6, "plan", plan("web-1"), 6)]
    events += [
        Event(7 + place, f"machines/{host}", report(0, "follows", "web-1"), 7)
        for place, host in enumerate(HOSTS)
    ]
    events += [Event(10, "attempt", record(0, "web-1", "web-1", "successful"), 10)]

    def reports(revision: int, attempt: int, state: str, active: str) -> list[Event]:
        return [
            Event(revision + place, f"machines/{host}", report(attempt, state, active), 7)
            for place, host in enumerate(HOSTS)
        ]

    events += [
        Event(FIRST, "plan", plan("web-2"), 6),
        Event(21, "attempt", record(FIRST, "web-2", "web-1", "deploying"), 10),
        *reports(22, FIRST, "ready", "web-1"),
        Event(25, "attempt", record(FIRST, "web-2", "web-1", "promoting"), 10),
        *reports(26, FIRST, "passed", "web-2"),
        Event(29, "attempt", record(FIRST, "web-2", "web-1", "successful"), 10),
        *reports(30, FIRST, "follows", "web-2"),
    ]
    events += [
        Event(SECOND, "plan", plan("web-3"), 6),
        Event(41, "attempt", record(SECOND, "web-3", "web-2", "deploying"), 10),
        *reports(42, SECOND, "ready", "web-2"),
        Event(45, "attempt", record(SECOND, "web-3", "web-2", "promoting"), 10),
        Event(46, "machines/c", report(SECOND, "failed", "web-2"), 7),
        Event(47, "attempt", record(SECOND, "web-3", "web-2", "aborted"), 10),
        *reports(48, SECOND, "follows", "web-2"),
    ]
    return events


def good_looks() -> list[Look]:
    """Ten looks a second at a switch. Revision R of etcd is written at the moment R."""
    looks = []
    for tenth in range(60, 600):
        moment = tenth / 10
        newest = "web-1" if moment < 21 else "web-2" if moment < 41 else "web-3"
        active = "web-1" if moment < 25.3 else "web-3" if 45.3 <= moment < 46.9 else "web-2"
        stable = "web-1" if moment < 29.3 else "web-2"
        phase = (
            ("paused" if active == stable else "postAnalysis")
            if 21 <= moment < 29.3 or 41 <= moment < 46.9
            else "steady"
        )
        looks.append(Look(moment, moment + 0.01, phase, active, stable, newest))
    return looks


def good() -> Recording:
    polls = [Poll(moment / 20, moment / 20 + 0.01, int(moment / 20)) for moment in range(20, 1200)]
    return Recording(
        good_events(),
        polls,
        {host: good_looks() for host in HOSTS},
        [
            Promote(host, moment, name, attempt, 0.02)
            for moment, name, attempt in ((25.2, "web-2", FIRST), (45.2, "web-3", SECOND))
            for host in HOSTS
        ],
        [
            Verdict(27.0, "a", "post", "web-2", "successful"),
            Verdict(45.9, "c", "post", "web-3", "failed"),
        ],
        [Answered(30.0 + number, 0.05, 200, "web-2", HOSTS[number % 3]) for number in range(25)],
    )


class Good(unittest.TestCase):
    def test_all_rules_hold(self) -> None:
        self.assertEqual(broken_rules(good()), [])

    def test_figures(self) -> None:
        told = figures(good())
        self.assertEqual(
            told["writes of the record"], "7 (successful 2, deploying 2, promoting 2, aborted 1)"
        )
        self.assertEqual(told["promotes of agents"], "6, 0 of them while an abort was on its way")
        self.assertEqual(told["changes of active services"], "9")

    def test_a_request_of_a_machine_whose_switch_was_killed(self) -> None:
        run = good()
        failed = [*run.requests, Answered(35.0, 0.01, 502, "", "b")]
        run = with_look(run, "b", 34.5, 36, lambda look: Look(look.begun, look.ended))
        self.assertEqual(
            broken_rules(
                run._replace(requests=failed, outages=[Outage("switch", "b", 34.4, 36.0)])
            ),
            [],
        )

    def test_an_answer_of_the_load_balancer_while_all_switches_were_killed(self) -> None:
        run = good()
        run = run._replace(requests=[*run.requests, Answered(35.0, 0.01, 503)])
        killed = [Outage("switch", host, 34.4, 36.0) for host in HOSTS]
        self.assertEqual(broken_rules(run._replace(outages=killed)), [])
        for count in (0, 2):
            found = broken_rules(run._replace(outages=killed[:count]))
            self.assertEqual([rule for rule, _ in found], [5])
            self.assertIn("got 503 from no machine", found[0].text)

    def test_an_answer_of_the_load_balancer_at_a_step_of_the_wall_clock(self) -> None:
        run = good()
        for answered, is_excused in (
            (Answered(35.0, 0.01, 504, stepped=30.0), True),
            (Answered(35.0, 0.01, 504, stepped=15.0), False),
            (Answered(35.0, 0.01, 504, stepped=-30.0), False),
            (Answered(35.0, 0.01, 504), False),
            (Answered(35.0, 0.01, 504, "", "b", 30.0), False),
            (Answered(35.0, 0.01, 503, stepped=30.0), False),
        ):
            found = broken_rules(run._replace(requests=[*run.requests, answered]))
            self.assertEqual([rule for rule, _ in found], [] if is_excused else [5], answered)

    def test_no_promote_of_a_machine_without_a_vote_is_needed(self) -> None:
        run = good()
        events = with_event(
            run.events, 25, record(FIRST, "web-2", "web-1", "promoting", missing=["c"])
        )
        events = with_event(
            events, 29, record(FIRST, "web-2", "web-1", "successful", missing=["c"])
        )
        events = with_event(events, 24, report(0, "working", "web-1"))
        events = with_event(events, 20, plan("web-2", max_missing=1))
        self.assertEqual(broken_rules(run._replace(events=events)), [])

    def test_a_machine_that_catches_up(self) -> None:
        """It promotes the stable revision of an attempt that was aborted."""
        self.assertEqual(
            broken_rules(added("promotes", Promote("c", 50.0, "web-2", SECOND, 0.02))(good())), []
        )

    def test_an_ordered_promotion(self) -> None:
        run = good()
        events = ordered(
            with_event(run.events, 20, plan("web-2", by_hand=True)),
            Event(24, "order", order("promote", FIRST), 24),
            Event(25, "order", None),
        )
        self.assertEqual(broken_rules(run._replace(events=events)), [])

    def test_orders_that_are_answered(self) -> None:
        """An abort that takes the place of a promote and is carried out, and one that is dropped
        with a word."""
        run = good()
        events = ordered(
            run.events,
            Event(45, "order", order("promote", SECOND), 45),
            Event(46, "order", order("abort", SECOND), 45),
            Event(47, "order", None),
            Event(50, "order", order("abort", SECOND), 50),
            Event(51, "order", None),
        )
        dropped = [Dropped("a", 51.0, "abort", SECOND, "somebody")]
        self.assertEqual(broken_rules(run._replace(events=events, dropped=dropped)), [])


def with_event(events: Sequence[Event], revision: int, value: str) -> list[Event]:
    """These events with another value at a revision."""
    return [
        event._replace(value=value) if event.revision == revision else event for event in events
    ]


def with_look(
    run: Recording, host: str, begun: float, ended: float, seen: Callable[[Look], Look]
) -> Recording:
    """This run, in which looks between two moments have seen something else."""
    changed: Sequence[Look] = [
        seen(look) if begun <= look.begun < ended else look for look in run.looks[host]
    ]
    return run._replace(
        looks={each: changed if each == host else looks for each, looks in run.looks.items()}
    )


def events_changed(revision: int, value: str) -> Callable[[Recording], Recording]:
    return lambda run: run._replace(events=with_event(run.events, revision, value))


def added(field: str, value: object) -> Callable[[Recording], Recording]:
    return lambda run: run._replace(**{field: [*getattr(run, field), value]})  # type: ignore[arg-type]


def order(what: str, attempt: int) -> str:
    return json.dumps({"version": 1, "order": what, "attempt": attempt, "by": "somebody"})


def ordered(events: Sequence[Event], *orders: Event) -> list[Event]:
    """These events and further ones, by their revisions."""
    return sorted([*events, *orders], key=lambda event: event.revision)


# By its name: the rule that is broken, a part of what is said, and the violation.
PLANTED: dict[str, tuple[int, str, Callable[[Recording], Recording]]] = {
    "promoting without one member": (
        1,
        "while c reported (20, 'working')",
        events_changed(24, report(FIRST, "working", "web-1")),
    ),
    "promoting for too long": (
        8,
        "attempt 40 was promoting 33.0 seconds after it was promoting",
        lambda run: run._replace(
            events=[
                event._replace(revision=event.revision + 32) if event.revision >= 47 else event
                for event in with_event(
                    run.events,
                    45,
                    record(
                        SECOND,
                        "web-3",
                        "web-2",
                        "promoting",
                        plan={"fleet": {"promoting_seconds": 9}},
                    ),
                )
            ],
            polls=[Poll(moment, moment + 0.01, moment) for moment in range(100)],
        ),
    ),
    "an abort that does not end its attempt": (
        8,
        "attempt 40 was promoting 32.0 seconds after its abort was ordered",
        lambda run: run._replace(
            events=ordered(
                [
                    event._replace(revision=event.revision + 32) if event.revision >= 47 else event
                    for event in run.events
                ],
                Event(46, "order", order("abort", SECOND), 46),
            ),
            polls=[Poll(moment, moment + 0.01, moment) for moment in range(100)],
        ),
    ),
    "promoting after an abort": (
        7,
        "revision 25: promoting of attempt 20, whose abort was ordered before",
        lambda run: run._replace(
            events=ordered(run.events, Event(24, "order", order("abort", FIRST), 24))
        ),
    ),
    "success after an abort": (
        7,
        "revision 29: successful of attempt 20, whose abort was ordered before",
        lambda run: run._replace(
            events=ordered(run.events, Event(28, "order", order("abort", FIRST), 28))
        ),
    ),
    "an order that goes without a word": (
        7,
        "revision 31: the order abort for attempt 20, by somebody, went without a word",
        lambda run: run._replace(
            events=ordered(
                run.events,
                Event(30, "order", order("abort", FIRST), 30),
                Event(31, "order", None),
            )
        ),
    ),
    "a word that is of another order": (
        7,
        "revision 31: the order abort for attempt 20, by somebody, went without a word",
        lambda run: run._replace(
            events=ordered(
                run.events,
                Event(30, "order", order("abort", FIRST), 30),
                Event(31, "order", None),
            ),
            dropped=[Dropped("a", 31.0, "abort", SECOND, "somebody")],
        ),
    ),
    "promoting by a report of another attempt": (
        1,
        "while c reported (10, 'ready')",
        events_changed(24, report(10, "ready", "web-1")),
    ),
    "promoting without a member that is away": (
        1,
        "while c reported None",
        lambda run: run._replace(
            events=[
                event for event in run.events if event.name != "machines/c" or event.revision > 25
            ]
        ),
    ),
    "more are missing than the plan allows": (
        1,
        "without c, and the plan allows fewer",
        events_changed(25, record(FIRST, "web-2", "web-1", "promoting", missing=["c"])),
    ),
    "nobody ordered it": (
        1,
        "nobody had ordered it",
        events_changed(20, plan("web-2", by_hand=True)),
    ),
    "a switch that selects early": (
        1,
        "c selected web-2 at 23.",
        lambda run: with_look(run, "c", 23, 25.3, lambda look: look._replace(active="web-2")),
    ),
    "a report that selects early": (
        1,
        "revision 22: a reports that it selects web-2",
        events_changed(22, report(FIRST, "ready", "web-2")),
    ),
    "a promote before promoting": (
        1,
        "a promoted web-3 at 43",
        added("promotes", Promote("a", 43.0, "web-3", SECOND, 0.02)),
    ),
    "a client that is answered early": (
        1,
        "answered by web-3 at 43",
        added("requests", Answered(43.0, 0.1, 200, "web-3", "a")),
    ),
    "an old read": (
        2,
        "a read 1.200 seconds old",
        added("promotes", Promote("a", 46.2, "web-3", SECOND, 1.2)),
    ),
    "a read after the abort": (
        2,
        "b promoted web-3 by a read at 49",
        added("promotes", Promote("b", 49.0, "web-3", SECOND, 0.0)),
    ),
    "promoting after aborted": (
        2,
        "went from aborted to promoting",
        lambda run: run._replace(
            events=[
                *run.events,
                Event(52, "attempt", record(SECOND, "web-3", "web-2", "promoting"), 10),
                Event(53, "attempt", record(SECOND, "web-3", "web-2", "aborted"), 10),
            ]
        ),
    ),
    "a running attempt is replaced": (
        2,
        "attempt 20 was replaced while it was promoting",
        lambda run: run._replace(events=[event for event in run.events if event.revision != 29]),
    ),
    "a switch that selects long after the abort": (
        2,
        "a selected web-3 at 55",
        lambda run: with_look(
            run, "a", 55, 56, lambda look: look._replace(active="web-3", phase="postAnalysis")
        ),
    ),
    "another leads": (
        3,
        "was written by the leader 5, and 43 led",
        lambda run: run._replace(events=[*run.events, Event(43, "leader", "b", 43)]),
    ),
    "nobody leads": (
        3,
        "and nobody led",
        lambda run: run._replace(events=[*run.events, Event(43, "leader", None)]),
    ),
    "an older leader writes after a newer one": (
        3,
        "by the leader 5 after the leader 24",
        lambda run: run._replace(
            events=[
                *with_event(run.events, 25, record(FIRST, "web-2", "web-1", "promoting", by=24)),
                Event(24, "leader", "b", 24),
            ]
        ),
    ),
    "another plan was put": (
        3,
        "promoting of attempt 20, and the plan was 24",
        lambda run: run._replace(events=[*run.events, Event(24, "plan", plan("web-3"), 6)]),
    ),
    "a machine that did not catch up": (
        4,
        "c is at",
        lambda run: with_look(
            run, "c", 29.3, 60, lambda look: look._replace(active="web-1", stable="web-1")
        ),
    ),
    "a switch that is down at the end": (
        4,
        "a is at",
        lambda run: with_look(run, "a", 59, 60, lambda look: look._replace(phase="")),
    ),
    "an attempt that does not end": (
        4,
        "attempt 40 is promoting",
        lambda run: run._replace(events=[event for event in run.events if event.revision != 47]),
    ),
    "a request fails": (5, "got 502 from b", added("requests", Answered(35.0, 0.01, 502, "", "b"))),
    "a request gets no answer": (
        5,
        "got no answer from no machine",
        added("requests", Answered(35.0, 0.01, 0)),
    ),
    "a request of another machine fails": (
        5,
        "got 502 from b",
        lambda run: run._replace(
            requests=[*run.requests, Answered(35.0, 0.01, 502, "", "b")],
            outages=[Outage("switch", "a", 34.4, 36.0)],
        ),
    ),
    "a machine that stays": (
        6,
        "c still selected web-3",
        lambda run: with_look(run, "c", 46.5, 50, lambda look: look._replace(active="web-3")),
    ),
    "success without a member's word": (
        6,
        "successful was written while b reported (20, 'failed')",
        events_changed(27, report(FIRST, "failed", "web-1")),
    ),
}


def drill_of_602(terms: Callable[[float], int], ended: int = 85) -> Recording:
    """As in a drill by seed 602: web-3 is promoting from 45 on, for 39.9 seconds, while its plan
    gives it 15. The agent that leads was killed for four seconds, and a member of etcd for two."""
    promoting = record(
        SECOND, "web-3", "web-2", "promoting", plan={"fleet": {"promoting_seconds": 15}}
    )
    events = [
        event._replace(revision=event.revision + ended - 47) if event.revision >= 47 else event
        for event in with_event(good().events, 45, promoting)
    ]
    polls = [
        Poll(moment / 10, moment / 10 + 0.01, moment // 10, terms(moment / 10))
        for moment in range(10, 1000)
    ]
    outages = [Outage("agent", "a", 55.0, 59.0), Outage("etcd", "b", 57.0, 61.0)]
    return good()._replace(events=events, polls=polls, outages=outages)


class Elections(unittest.TestCase):
    """Rule 8, if a leader is lost and etcd elects a leader of its own meanwhile."""

    def rule_8(self, run: Recording) -> list[str]:
        return [text for rule, text in broken_rules(run) if rule == 8]

    def test_an_election_begins_leases_anew(self) -> None:
        self.assertEqual(self.rule_8(drill_of_602(lambda moment: 2 + (moment >= 58))), [])

    def test_without_one_the_attempt_lasts_too_long(self) -> None:
        [told] = self.rule_8(drill_of_602(lambda moment: 2))
        self.assertIn("the limit is 34.0, with 0 elections of etcd", told)

    def test_one_lets_it_last_for_one_lease(self) -> None:
        [told] = self.rule_8(drill_of_602(lambda moment: 2 + (moment >= 58), 90))
        self.assertIn("the limit is 44.0, with 1 elections of etcd", told)

    def test_one_of_another_time_does_not_count(self) -> None:
        for at in (31.0, 86.0):
            [told] = self.rule_8(drill_of_602(lambda moment, at=at: 2 + (moment >= at)))  # type: ignore[misc]
            self.assertIn("with 0 elections", told)

    def test_terms(self) -> None:
        """A member that is behind, a term that was not seen, and a recording without terms."""

        def polls(*terms: int) -> list[Poll]:
            return [Poll(moment, moment + 0.5, 1, term) for moment, term in enumerate(terms)]

        for terms, count in (
            ((2, 2, 3, 3), 1),
            ((2, 3, 2, 3), 1),
            ((2, 5, 5, 6), 2),
            ((0, 0, 0), 0),
            ((0, 2, 2), 0),
        ):
            self.assertEqual(elections(polls(*terms), 0, 10), count, terms)

    def test_faults_at_the_same_time_count_once(self) -> None:
        told = self.rule_8(
            drill_of_602(lambda moment: 2)._replace(
                outages=[Outage("agent", host, 55.0, 59.0) for host in HOSTS]
            )
        )
        self.assertIn("the limit is 32.0", told[0])


class Planted(unittest.TestCase):
    def test_each_is_found_by_its_rule(self) -> None:
        for name, (rule, text, violate) in PLANTED.items():
            with self.subTest(name):
                found = broken_rules(violate(good()))
                self.assertTrue(
                    [each for each in found if each.rule == rule and text in each.text], found
                )

    def test_each_rule_has_one(self) -> None:
        self.assertEqual({rule for rule, _, _ in PLANTED.values()}, {1, 2, 3, 4, 5, 6, 7, 8})


class Files(unittest.TestCase):
    def test_what_was_written_is_read(self) -> None:
        run = good()._replace(
            outages=[Outage("link", "a", 1.0, 2.0)],
            dropped=[Dropped("b", 51.0, "abort", SECOND, "a person, by name")],
        )
        with tempfile.TemporaryDirectory() as folder:
            self.write(pathlib.Path(folder), run)
            found = read_recording(pathlib.Path(folder), HOSTS)
            self.assertEqual(found._replace(promotes=[]), run._replace(promotes=[]))
            self.assertEqual(sorted(found.promotes), sorted(run.promotes))

    def test_a_line_that_was_cut_off(self) -> None:
        with tempfile.TemporaryDirectory() as folder:
            path = pathlib.Path(folder)
            (path / POLLS).write_text(
                '{"begun": 1, "ended": 2, "revision": 3}\n{"begun": 2, "en', encoding="ascii"
            )
            self.assertEqual(
                read_recording(path, HOSTS),
                Recording([], [Poll(1, 2, 3)], {host: [] for host in HOSTS}, [], [], [], [], []),
            )

    def write(self, folder: pathlib.Path, run: Recording) -> None:
        def write(name: str, rows: Sequence[dict[str, object]]) -> None:
            (folder / name).write_text(
                "".join(json.dumps(row) + "\n" for row in rows), encoding="utf-8"
            )

        write(HISTORY, [event._asdict() for event in run.events])
        write(POLLS, [poll._asdict() for poll in run.polls])
        write(VERDICTS, [verdict._asdict() for verdict in run.verdicts])
        write(REQUESTS, [request._asdict() for request in run.requests])
        write(OUTAGES, [outage._asdict() for outage in run.outages])
        for host in HOSTS:
            write(look_file(host), [look._asdict() for look in run.looks[host]])
            text = "2026-11-25T18:03:12+01:00 moment 7: promotes {} by attempt {}, which was read {:.3f} seconds ago"
            write(
                agent_file(host),
                [
                    {
                        "moment": each.moment,
                        "line": text.format(each.revision, each.attempt, each.age),
                    }
                    for each in run.promotes
                    if each.host == host
                ]
                + [
                    {
                        "moment": each.moment,
                        "line": f"2026-11-25T18:03:12+01:00: drops the order {each.order} for attempt {each.attempt}, "
                        f"by {each.by}: the attempt is aborted, b: why",
                    }
                    for each in run.dropped
                    if each.host == host
                ],
            )


if __name__ == "__main__":
    unittest.main()
