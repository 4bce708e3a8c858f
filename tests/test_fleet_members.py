"""bin/fleet members: who is listed, added and removed, what is refused, and races with others."""
import unittest

from bg_switch_tools.fleet.person import person_members
from bg_switch_tools.fleet.person.person_members import CHANGING, MOST_MEMBERS
from bg_switch_tools.fleet.record.record import MACHINES, MEMBERS
from tests.fleet_people import HOSTS, V2, V3, WithFleet

LEFT = "nothing was changed: no member would be left for attempt 6 of web-v2, which is not over"


class Members(WithFleet):
    def check_members(self, *hosts: str) -> None:
        self.assertEqual(self.view.members, hosts)


class Listed(Members):
    def test_with_the_word_and_without(self) -> None:
        for words in (("members",), ("members", "list")):
            self.assertEqual(self.fleet(*words), ("web-1\nweb-2\nweb-3\n", "", 0))

    def test_none(self) -> None:
        for host in HOSTS:
            self.delete(MEMBERS + host)
        self.assertEqual(self.fleet("members"), ("", "", 0))


class Added(Members):
    def test_new_ones_and_one_that_is_there(self) -> None:
        self.report("follows", "web-4")
        run = self.fleet("members", "add", "web-4", "web-2", "web-5", "web-4")
        self.assertEqual(
            run,
            (
                "web-4 is a member\nweb-2 is a member already\nweb-5 is a member\n",
                "fleet: web-5 is away: no agent reports as web-5 yet\n",
                0,
            ),
        )
        self.check_members(*HOSTS, "web-4", "web-5")

    def test_one_that_is_there_writes_nothing(self) -> None:
        before = self.keys.revision
        self.assertEqual(
            self.fleet("members", "add", "web-2"), ("web-2 is a member already\n", "", 0)
        )
        self.assertEqual(self.keys.revision, before)

    def test_while_an_attempt_runs(self) -> None:
        self.begin()
        self.report("working", "web-4")
        self.assertEqual(
            self.fleet("members", "add", "web-4").told,
            "fleet: attempt 6 of web-v2 is deploying, and counts web-4 too\n",
        )

    def test_a_host_that_no_fleet_file_can_have(self) -> None:
        for host in ("Web-4", "web/4", "", "-4"):
            self.assertEqual(self.fleet("members", "add", "--", host).status, 2)
        self.check_members(*HOSTS)

    def test_no_more_than_a_transaction_of_etcd_compares(self) -> None:
        hosts = [f"host-{number}" for number in range(MOST_MEMBERS - len(HOSTS))]
        self.assertEqual(self.fleet("members", "add", *hosts).status, 0)
        self.check_refused(
            f"nothing was changed: a fleet has at most {MOST_MEMBERS} members, and these would be {MOST_MEMBERS + 1}",
            "members",
            "add",
            "web-4",
        )

    def test_another_one_adds_meanwhile(self) -> None:
        self.store.before_writes = [lambda: self.put(f"{MEMBERS}web-4", "")]
        self.assertEqual(
            self.fleet("members", "add", "web-4", "web-5").printed,
            "web-4 is a member already\nweb-5 is a member\n",
        )
        self.check_members(*HOSTS, "web-4", "web-5")

    def test_the_bound_holds_for_two_who_add_at_once(self) -> None:
        hosts = [f"host-{number}" for number in range(MOST_MEMBERS - len(HOSTS) - 1)]
        self.fleet("members", "add", *hosts)
        self.store.before_writes = [lambda: self.put(f"{MEMBERS}web-4", "")]
        self.assertEqual(self.fleet("members", "add", "web-5").status, 1)

    def test_others_that_never_end(self) -> None:
        self.store.before_writes = [
            lambda number=number: self.put(f"{MEMBERS}web-{number}", "")  # type: ignore[misc]
            for number in range(4, 4 + person_members.TRIES)
        ]
        self.assertEqual(self.fleet("members", "add", "other"), ("", f"fleet: {CHANGING}\n", 1))


class Removed(Members):
    def test_one_and_two(self) -> None:
        self.begin("successful")
        self.assertEqual(
            self.fleet("members", "remove", "web-2"), ("web-2 is no member any more\n", "", 0)
        )
        self.check_members("web-1", "web-3")
        self.assertIsNotNone(self.view.machine("web-2"))  # what a machine reports is its own
        self.assertEqual(
            self.fleet("members", "remove", "web-1", "web-3", "web-1").printed,
            "web-1 is no member any more\nweb-3 is no member any more\n",
        )
        self.check_members()

    def test_one_that_is_none(self) -> None:
        self.check_refused(
            "nothing was changed: no member is called web-9; the members are web-1, web-2, web-3",
            "members",
            "remove",
            "web-9",
        )
        self.check_refused(
            "nothing was changed: no member is called web-8, web-9; the members are web-1, web-2, web-3",
            "members",
            "remove",
            "web-8",
            "web-1",
            "web-9",
        )
        self.check_members(*HOSTS)

    def test_the_last_one_while_an_attempt_runs(self) -> None:
        self.begin()
        self.check_refused(LEFT, "members", "remove", *HOSTS)
        self.assertEqual(self.fleet("members", "remove", "web-1", "web-2").status, 0)
        self.check_refused(LEFT, "members", "remove", "web-3")

    def test_the_last_one_while_a_plan_waits(self) -> None:
        self.begin("successful")
        plan_id = self.put_plan(V2, V3)
        self.check_refused(
            f"nothing was changed: no member would be left for plan {plan_id}, which is not over",
            "members",
            "remove",
            *HOSTS,
        )

    def test_the_last_one_while_no_attempt_runs(self) -> None:
        for stage in ("successful", "aborted"):
            for host in HOSTS:
                self.put(MEMBERS + host, "")
            self.begin(stage)
            self.assertEqual(self.fleet("members", "remove", *HOSTS).status, 0)

    def test_an_attempt_that_begins_meanwhile(self) -> None:
        self.begin("successful")
        for change in (lambda: self.put_record("deploying"), lambda: self.put_plan(V2, V3)):
            self.begin("successful")
            self.store.before_writes = [change]
            self.assertEqual(self.fleet("members", "remove", *HOSTS).status, 1)
            self.check_members(*HOSTS)

    def test_two_people_remove_the_last_two(self) -> None:
        """Each leaves the one that the other removes."""
        self.begin()
        self.delete(f"{MEMBERS}web-3")
        self.store.before_writes = [lambda: self.delete(f"{MEMBERS}web-1")]
        self.assertEqual(self.fleet("members", "remove", "web-2"), ("", f"fleet: {LEFT}\n", 1))
        self.check_members("web-2")

    def test_another_one_removes_it_meanwhile(self) -> None:
        self.store.before_writes = [lambda: self.delete(f"{MEMBERS}web-2")]
        self.assertEqual(
            self.fleet("members", "remove", "web-2").told,
            "fleet: nothing was changed: no member is called web-2; the members are web-1, web-3\n",
        )

    def test_at_a_terminal(self) -> None:
        run = self.fleet("members", "remove", "web-2", lines="n\n", at_terminal=True)
        self.assertEqual(
            run, ("", "remove web-2 of 3 members? [y/N] fleet: nothing was changed\n", 1)
        )
        self.check_members(*HOSTS)
        self.assertEqual(
            self.fleet("members", "remove", "web-2", "--yes", at_terminal=True).status, 0
        )

    def test_a_machine_that_goes_on_reporting(self) -> None:
        self.put(MACHINES + "web-2", "{}")
        self.assertEqual(self.fleet("members", "remove", "web-2").status, 0)
        self.assertIsNotNone(self.view.machine("web-2"))


if __name__ == "__main__":
    unittest.main()
