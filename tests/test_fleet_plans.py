"""bin/fleet check, plan, retry and undo: what each puts, what is refused, and races with others."""
import importlib.util
import json
import unittest

from bg_switch_tools.controller.plan.plan import PlannedRevision
from bg_switch_tools.fleet.person.person_plans import MOVED_ON
from bg_switch_tools.fleet.record.record import LEADER, MEMBERS, PLAN
from tests.fleet_people import HOSTS, V1, V2, V3, WithFleet, plan_text

OTHER_V2 = PlannedRevision("web-v2", (9301, 9302))
WRONG_PORTS = (
    "fleet: the plan is wrong:\n  revisions[1].ports: web-v2 had the ports 9201, 9202 before: a switch that has the revision refuses "
    "others, so other ports need another name\n"
)


class Plans(WithFleet):
    def names(self) -> list[str]:
        """The revisions of the plan that stands, from the first one to the last one."""
        plan = self.view.plan
        return [revision.name for revision in plan.revisions] if plan else []

    def text(self) -> str:
        return self.view.snapshot.keys[PLAN].value


class Checked(Plans):
    def test_it_needs_no_store(self) -> None:
        self.store.is_cut = True
        path = self.plan_file(V1, V2, fleet={"by_hand": True})
        self.assertEqual(
            self.fleet("check", path), (f"{path} is a plan of a fleet: it deploys web-v2\n", "", 0)
        )

    def test_each_problem_is_told(self) -> None:
        path = self.write_file(
            "plan.json",
            '{"control": 1, "revisions": [{"name": "W", "ports": [1]}], "fleet": {"max_missing": -1}}',
        )
        self.assertEqual(
            self.fleet("check", path),
            (
                "",
                "fleet: the plan is wrong:\n"
                "  control: stands in the fleet file of each machine\n"
                '  revisions[0].name: "W" is not a name: a name is 1 to 63 lower-case letters, digits and hyphens, with no hyphen at '
                "its ends\n  fleet.max_missing: -1 is below 0\n",
                1,
            ),
        )

    def test_a_file_that_can_not_be_read(self) -> None:
        missing = str(self.folder / "none.json")
        for command in ("check", "plan"):
            self.assertEqual(
                self.fleet(command, missing),
                ("", f"fleet: {missing} can't be read: No such file or directory\n", 2),
            )
        self.folder.joinpath("plan.json").write_bytes(b"\xff{}")
        self.assertEqual(
            self.fleet("check", str(self.folder / "plan.json")).told,
            "fleet: the plan is wrong:\n  it is not text in UTF-8\n",
        )

    def test_by_the_file_of_a_machine(self) -> None:
        told = {
            "fleet": "web",
            "etcd": ["127.0.0.1:2379"],
            "host": "web-1",
            "control": 9201,
            "analyses": {"smoke": ["./smoke"]},
        }
        self.file = self.write_file("fleet.json", json.dumps(told))
        path = self.plan_file(V1, V2, analyses={"pre": "smoke", "post": "errors"})
        wrong = (
            "fleet: the plan is wrong:\n  analyses: web-1 has no command for errors\n  revisions[1].ports[0]: 9201 is a port of the switch "
            "itself, as control says\n"
        )
        for command in ("check", "plan"):
            self.assertEqual(self.fleet(command, path), ("", wrong, 1))
        self.assertEqual(self.store.writes, 0)


class Put(Plans):
    def test_another_revision(self) -> None:
        self.begin("successful", "follows")
        path = self.plan_file(V2, V3)
        revision = self.keys.revision + 1
        self.assertEqual(
            self.fleet("plan", path), (f"plan {revision}: web-v3 is deployed\n", "", 0)
        )
        self.assertEqual((self.text(), self.view.changed(PLAN)), (plan_text(V2, V3), revision))

    def test_what_is_said_of_it(self) -> None:
        self.begin()
        said = self.fleet("plan", self.plan_file(V1, V2, V3)).printed.partition(": ")[2]
        self.assertEqual(said, "the attempt of web-v2 is aborted; web-v3 is deployed\n")
        said = self.fleet("plan", self.plan_file(V2, V1)).printed.partition(": ")[2]
        self.assertEqual(
            said,
            "the attempt of web-v2 is aborted; nothing else is deployed: web-v1 is the stable revision of the fleet\n",
        )

    def test_the_first_plan(self) -> None:
        for name in (PLAN, LEADER, *(MEMBERS + host for host in HOSTS)):
            self.delete(name)
        run = self.fleet("plan", self.plan_file(V1))
        self.assertEqual(
            run.printed.partition(": ")[2],
            "the fleet begins: its stable revision is the one that is live, and web-v1 is deployed "
            "unless it is that one\n",
        )
        self.assertEqual(
            (run.told, run.status),
            (
                "fleet: the fleet has no member yet: `members add` adds some\n"
                "fleet: no agent leads now: the plan waits until one does\n",
                0,
            ),
        )
        self.assertEqual(self.names(), ["web-v1"])

    def test_one_that_stands_already(self) -> None:
        same = plan_text(V1, V2, health={}, redispatch=True)  # other words for the same plan
        for stage in ("deploying", "promoting", "successful"):
            self.begin(stage)
            self.check_unchanged(f"and attempt 6 of web-v2 is {stage}", same)

    def check_unchanged(self, how: str, text: str) -> None:
        before = self.keys.revision
        self.assertEqual(
            self.fleet("plan", self.write_file("plan.json", text)),
            (f"nothing is changed: this plan stands already, {how}\n", "", 0),
        )
        self.assertEqual(self.keys.revision, before)

    def test_one_that_stands_and_waits(self) -> None:
        self.check_unchanged("and waits for a leader (plan 6)", plan_text(V1, V2))
        self.begin("successful")
        waiting = self.put_plan(V2, V3)
        self.check_unchanged(f"and waits for a leader (plan {waiting})", plan_text(V2, V3))

    def test_one_that_stands_and_was_aborted(self) -> None:
        self.begin("aborted")
        self.check_refused(
            "nothing is changed: this plan stands already, and attempt 6 of web-v2 was aborted; `retry` begins it again",
            "plan",
            self.plan_file(V1, V2),
        )

    def test_other_ports_of_a_revision(self) -> None:
        self.begin("successful")
        before = self.keys.revision
        self.assertEqual(self.fleet("plan", self.plan_file(V1, OTHER_V2)), ("", WRONG_PORTS, 1))
        self.assertEqual(self.keys.revision, before)

    def test_other_ports_of_a_revision_that_only_the_record_knows(self) -> None:
        self.put_plan(V1, V3)
        self.put_record("deploying", V3, V2)
        self.assertEqual(self.fleet("plan", self.plan_file(V1, OTHER_V2)), ("", WRONG_PORTS, 1))

    def test_another_number_of_replicas(self) -> None:
        self.begin("successful")
        one = PlannedRevision("web-v3", (9301,))
        self.assertEqual(
            self.fleet("plan", self.plan_file(one)).told,
            "fleet: the plan is wrong:\n  revisions[0].ports: has 1, and the revisions "
            "before have 2: each switch keeps its number of replicas\n",
        )

    def test_in_place_of_one_that_is_wrong(self) -> None:
        self.begin("successful")
        self.put(PLAN, "[]")
        run = self.fleet("plan", self.plan_file(V2, V3))
        self.assertEqual(
            (run.told, run.status),
            (
                "fleet: the plan that stands is replaced, since it can't be used: the plan is wrong: the plan: [] "
                "is not an object\n",
                0,
            ),
        )

    def test_over_a_record_of_another_version(self) -> None:
        self.put("attempt", '{"version": 2}')
        self.check_refused(
            "the record of the attempt can't be read: its version is 2, and this program knows version 1",
            "plan",
            self.plan_file(V2, V3),
        )

    @unittest.skipUnless(importlib.util.find_spec("yaml"), "python3-yaml is not installed")
    def test_one_in_yaml_is_put_as_json(self) -> None:
        self.begin("successful")
        path = self.write_file(
            "plan.yaml",
            "revisions:  # the next one\n- {name: web-v2, ports: [9201, 9202]}\n"
            "- {name: web-v3, ports: [9301, 9302]}\n",
        )
        self.assertEqual(self.fleet("plan", path).status, 0)
        self.assertEqual(json.loads(self.text()), json.loads(plan_text(V2, V3)))

    def test_two_people(self) -> None:
        self.begin("successful")
        self.store.before_writes = [lambda: self.put_plan(V1, V2, fleet={"by_hand": True})]
        self.assertEqual(
            self.fleet("plan", self.plan_file(V2, V3)), ("", f"fleet: {MOVED_ON}\n", 1)
        )
        self.assertEqual(self.names(), ["web-v1", "web-v2"])

    def test_the_same_plan_by_two_people(self) -> None:
        """The second one would begin the attempt of the first one again."""
        self.begin("successful")
        self.store.before_writes = [lambda: self.put_plan(V2, V3)]
        self.assertEqual(self.fleet("plan", self.plan_file(V2, V3)).status, 1)

    def test_an_attempt_that_moves_on_meanwhile(self) -> None:
        """A plan does not rest on the stage."""
        self.begin()
        self.store.before_writes = [lambda: self.put_record("promoting")]
        self.assertEqual(self.fleet("plan", self.plan_file(V2, V3)).status, 0)

    def test_at_a_terminal(self) -> None:
        self.begin()
        question = "the attempt of web-v2 is aborted; web-v3 is deployed. Put this plan? [y/N] "
        path = self.plan_file(V2, V3)
        self.assertEqual(
            self.fleet("plan", path, lines="n\n", at_terminal=True),
            ("", f"{question}fleet: nothing was changed\n", 1),
        )
        self.assertEqual(self.names(), ["web-v1", "web-v2"])
        self.assertEqual(self.fleet("plan", path, lines="y\n", at_terminal=True)[1:], (question, 0))
        self.assertEqual(self.names(), ["web-v2", "web-v3"])


class Retried(Plans):
    def test_an_attempt_that_was_aborted(self) -> None:
        self.begin("aborted", "follows")
        text, revision = self.text(), self.keys.revision + 1
        self.assertEqual(
            self.fleet("retry"),
            (f"plan {revision}: the attempt of web-v2, which was aborted, begins again\n", "", 0),
        )
        self.assertEqual((self.text(), self.view.changed(PLAN)), (text, revision))

    def test_one_that_runs_or_was_successful(self) -> None:
        for stage in ("deploying", "promoting", "successful"):
            self.begin(stage)
            self.check_refused(
                f"attempt 6 of web-v2 is {stage}: only an attempt that was aborted begins again",
                "retry",
            )

    def test_a_plan_that_waits(self) -> None:
        self.begin("aborted")
        plan_id = self.put_plan(V2, V3)
        self.check_refused(f"plan {plan_id} waits for a leader: it deploys web-v3", "retry")

    def test_before_the_first_attempt(self) -> None:
        self.check_refused("no attempt has begun", "retry")
        self.delete(PLAN)
        self.check_refused("no plan was put", "retry")

    def test_two_people(self) -> None:
        self.begin("aborted")
        self.store.before_writes = [lambda: self.put(PLAN, self.text())]
        self.assertEqual(self.fleet("retry"), ("", f"fleet: {MOVED_ON}\n", 1))

    def test_a_record_that_moves_on(self) -> None:
        self.begin("aborted")
        self.store.before_writes = [lambda: self.put_record("successful")]
        self.assertEqual(self.fleet("retry"), ("", f"fleet: {MOVED_ON}\n", 1))


class Undone(Plans):
    def check_undone(self, effect: str, names: list[str], *words: str) -> None:
        last = self.names()[-1]
        run = self.fleet("undo", *words)
        self.assertEqual(
            run,
            (
                f"plan {self.keys.revision}: {effect}\n",
                f"fleet: the file of your plan still names {last} last: put it again only after an edit\n",
                0,
            ),
        )
        self.assertEqual(self.names(), names)

    def test_a_revision_that_is_live(self) -> None:
        self.put_plan(V3, V1, V2, health={"path": "/health"})
        self.put_record("successful")
        self.check_undone(
            "web-v1 is deployed again: the plan before names it too", ["web-v3", "web-v2", "web-v1"]
        )
        # the rest of the plan stays
        self.assertEqual(json.loads(self.text())["health"], {"path": "/health"})

    def test_an_undo_of_an_undo(self) -> None:
        self.put_plan(V1, V2)
        self.put_record("successful")
        self.fleet("undo")
        self.put_record("successful", V1, V2)
        self.check_undone(
            "web-v2 is deployed again: the plan before names it too", ["web-v1", "web-v2"]
        )

    def test_an_attempt_that_runs(self) -> None:
        self.begin()
        self.check_undone(
            "the attempt of web-v2 is aborted; nothing else is deployed: web-v1 is the stable revision of the fleet",
            ["web-v2", "web-v1"],
        )

    def test_an_attempt_that_was_aborted(self) -> None:
        self.begin("aborted")
        self.check_undone(
            "nothing else is deployed: web-v1 is the stable revision of the fleet",
            ["web-v2", "web-v1"],
        )

    def test_a_plan_that_waits(self) -> None:
        self.put_record("successful")
        self.put_plan(V1, V2, V3)
        self.check_undone(
            "nothing else is deployed: web-v2 is the stable revision of the fleet",
            ["web-v1", "web-v3", "web-v2"],
        )

    def test_a_revision_that_the_plan_names_no_longer(self) -> None:
        self.put_plan(V2)
        self.put_record("successful")
        self.check_undone("web-v1 is deployed", ["web-v2", "web-v1"])
        plan = self.view.plan
        self.assertEqual(plan and plan.last.ports, V1.ports)

    def test_one_by_its_name(self) -> None:
        self.put_plan(V1, V3, V2)
        self.put_record("successful", V2, V3)
        self.check_undone(
            "web-v1 is deployed again: the plan before names it too",
            ["web-v3", "web-v2", "web-v1"],
            "--to",
            "web-v1",
        )

    def test_what_was_stable_before_is_not_known(self) -> None:
        """The record of a plan that named the stable revision again has no other one."""
        self.put_plan(V1, V3, V2)
        self.put_record("successful", V2, V2)
        self.check_refused(
            "it is not known which revision was stable before web-v2: --to NAME names one of web-v1, web-v3",
            "undo",
        )
        self.put_plan(V1, V2)
        self.put_record("successful", V2, V2)
        self.check_undone(
            "web-v1 is deployed again: the plan before names it too", ["web-v2", "web-v1"]
        )
        self.put_plan(V2)
        self.put_record("successful", V2, V2)
        self.check_refused(
            "it is not known which revision was stable before web-v2: the plan names no other one",
            "undo",
        )

    def test_what_is_refused(self) -> None:
        self.check_refused("no attempt has begun", "undo")
        self.put_record("successful")
        self.check_refused(
            "no revision web-v9 is known; the plan names web-v1, web-v2", "undo", "--to", "web-v9"
        )
        self.check_refused(
            "nothing is changed: web-v2 is the last revision of the plan already",
            "undo",
            "--to",
            "web-v2",
        )

    def test_races(self) -> None:
        for change in (lambda: self.put_plan(V2, V3), lambda: self.put_record("aborted")):
            self.put_plan(V1, V2)
            self.put_record("successful")
            self.store.before_writes = [change]
            self.assertEqual(self.fleet("undo"), ("", f"fleet: {MOVED_ON}\n", 1))

    def test_at_a_terminal(self) -> None:
        self.put_record("successful")
        self.assertEqual(self.fleet("undo", lines="n\n", at_terminal=True).status, 1)
        self.assertEqual(self.names(), ["web-v1", "web-v2"])


if __name__ == "__main__":
    unittest.main()
