"""bin/fleet as a whole: its words, its exit statuses, what docs/FLEET.md says of both, and a
session over a real etcd."""
import json
import pathlib
import re
import types
import unittest
from unittest import mock

from bg_switch_tools.fleet import cli
from bg_switch_tools.fleet.agent import agent_process
from bg_switch_tools.fleet.agent.agent_process import AgentArguments
from bg_switch_tools.fleet.agent.candidate import Candidate
from bg_switch_tools.fleet.argument_parser import parser
from bg_switch_tools.fleet.commands import FLEET_COMMANDS
from bg_switch_tools.fleet.exit_statuses import TABLE
from bg_switch_tools.fleet.person.person_members import MOST_MEMBERS
from bg_switch_tools.fleet.plan.fleet_file import FleetFile
from bg_switch_tools.fleet.record.record import (
    ABORT,
    ATTEMPT,
    LEADER,
    MACHINES,
    ORDER,
    PLAN,
    PROMOTE,
    MachineReport,
    Record,
    View,
)
from bg_switch_tools.fleet.store.store import StoreError
from support.processes import Run, run_to_end
from tests.fleet_people import HOSTS, V1, V2, WithFleet, plan_text
from tests.real_etcd import HOST, Cluster, WithCluster, asked, in_base64, port_that_refuses
from tests.store_checks import FLEET, PREFIX, store_at
from tests.test_fleet_status import RUNNING
from tests.tool_runs import TOOLS, TOP, WAIT, run_in_process

PAGE = (TOP / "docs" / "FLEET.md").read_text(encoding="utf-8")


def section(title: str) -> str:
    """The section of docs/FLEET.md with this title."""
    return PAGE.split(f"\n## {title}\n", 1)[1].split("\n## ", 1)[0]


class Page(WithFleet):
    """docs/FLEET.md says what the tool says."""

    def test_each_command_has_a_row(self) -> None:
        table = section("Commands").split("| Command | Meaning |\n", 1)[1].split("\n\n", 1)[0]
        names = re.findall(r"^\| `([a-z]+)", table, re.M)
        self.assertEqual(list(dict.fromkeys(names)), [command.name for command in FLEET_COMMANDS])

    def test_the_status_of_an_attempt_that_runs(self) -> None:
        self.assertIn(f"\n```\n{RUNNING}```\n", section("Commands"))

    def test_each_exit_status(self) -> None:
        rows = re.findall(r"^\| (\d+) \| (.*) \|$", section("Exit statuses"), re.M)
        self.assertEqual([(int(status), meaning) for status, meaning in rows], list(TABLE))

    def test_each_key_of_the_json(self) -> None:
        self.begin("aborted", "follows")
        self.report("follows", "web-9")
        self.put_order(ABORT)
        told = json.loads(self.fleet("status", "--json").printed)
        parts = {
            "": told,
            **{f"{key}.": told[key] for key in ("attempt", "plan", "order")},
            "members[].": told["members"][0],
        }
        for prefix, members in parts.items():
            for key in members:
                self.assertIn(f"`{prefix}{key}`", section("Commands"))


class Words(WithFleet):
    def test_what_is_wrong(self) -> None:
        for words, told in (
            (
                ("jump",),
                "argument COMMAND: invalid choice: 'jump' (choose from 'agent', 'status', 'watch', 'check', 'plan', "
                "'promote', 'abort', 'retry', 'undo', 'members', 'wait')",
            ),
            ((), "the following arguments are required: COMMAND"),
            (("plan",), "the following arguments are required: PLAN"),
            (
                ("promote", "--attempt", "x"),
                "argument --attempt: the id of an attempt is expected, as `status` shows it, and not 'x'",
            ),
            (
                ("undo", "--to", "W"),
                "argument --to: 'W' is not a name: a name is 1 to 63 lower-case letters, digits and "
                "hyphens, with no hyphen at its ends",
            ),
            (("status", "--jso"), "unrecognized arguments: --jso"),
            (
                ("agent", "--round", "3"),
                "argument --round: a number of seconds from 0.05 to 0.9 is expected, and not '3'",
            ),
        ):
            run = self.fleet(*words)
            self.assertEqual(
                (run.printed, run.told.splitlines()[-1].partition("error: ")[2], run.status),
                ("", told, 2),
            )

    def test_the_fleet_file_comes_first(self) -> None:
        self.assertEqual(
            run_in_process(cli.main, "status").told.splitlines()[-1],
            "fleet: error: the fleet file stands before the command: fleet FLEET.json status",
        )
        run = run_in_process(cli.main, "plan", "wait", "settled")
        self.assertEqual(
            (run.told.splitlines(), run.status),
            (
                [
                    "fleet: plan is not a fleet file:",
                    "  it can't be read: No such file or directory",
                    "fleet: the fleet file stands before the command: fleet FLEET.json plan",
                ],
                2,
            ),
        )

    def test_a_fleet_file_that_is_wrong(self) -> None:
        self.file = self.write_file("fleet.json", '{"fleet": "Web", "etcd": []}')
        self.assertEqual(
            self.fleet("status"),
            (
                "",
                f"fleet: {self.file} is not a fleet file:\n"
                '  etcd: it is not a list of 1 to 16 endpoints\n  fleet: "Web" is not a name: a name is 1 to 63 lower-case letters, '
                "digits and hyphens, with no hyphen at its ends\n",
                2,
            ),
        )

    def test_the_help_has_all(self) -> None:
        told = parser().format_help()
        for command in FLEET_COMMANDS:
            self.assertIn(f"    {command.name}", told)
        for status, meaning in TABLE:
            self.assertIn(f"  {status:<4} {meaning}", told)


class Faults(WithFleet):
    """A store that gives no answer is one line, and a status of its own."""

    WRITING = (
        "promote",
        "abort",
        "retry",
        "undo",
        ("members", "add", "web-4"),
        ("members", "remove", "web-1"),
    )

    def test_at_the_read(self) -> None:
        self.store.is_cut = True
        for command in ("status", "watch", "members", ("plan", self.plan_file(V2)), *self.WRITING):
            words = (command,) if isinstance(command, str) else command
            self.assertEqual(self.fleet(*words), ("", "fleet: it is away\n", 4))

    def test_at_the_write(self) -> None:
        for command in (("plan", self.plan_file(V2)), *self.WRITING):
            words = (command,) if isinstance(command, str) else command
            self.begin("aborted" if command == "retry" else "deploying", "ready")
            with mock.patch.object(
                self.store, "write", side_effect=StoreError("etcd is full: free its space")
            ):
                self.assertEqual(
                    self.fleet(*words), ("", "fleet: etcd is full: free its space\n", 4)
                )

    def test_ctrl_c(self) -> None:
        with mock.patch.object(self.store, "read", side_effect=KeyboardInterrupt):
            self.assertEqual(self.fleet("status"), ("\n", "", 130))


class Agent(WithFleet):
    """The command hands the fleet file and its options to the process of the agent, and gives its
    exit status."""

    def run_with(self, *words: str) -> tuple[Run, list[tuple[str, AgentArguments]]]:
        given: list[tuple[str, AgentArguments]] = []

        def run_agent(file: FleetFile, arguments: AgentArguments) -> int:
            given.append((file.host, arguments))
            return 5

        with mock.patch.object(agent_process, "run_agent", run_agent):
            return self.fleet("agent", *words), given

    def test_what_it_is_given(self) -> None:
        told = {"fleet": "web", "etcd": ["127.0.0.1:2379"], "host": "web-1", "control": 8082}
        self.file = self.write_file("fleet.json", json.dumps(told))
        self.assertEqual(
            self.run_with("--state", "/var/lib/bg", "--round", "0.5", "--json"),
            (Run("", "", 5), [("web-1", AgentArguments(pathlib.Path("/var/lib/bg"), 0.5, True))]),
        )
        self.assertEqual(self.run_with(), (Run("", "", 5), [("web-1", AgentArguments())]))


def check_whole_session(case: unittest.TestCase, fleet: "Person", agents: "Agents") -> None:
    """A session of a person with each command, while agents do what they are asked."""

    def check(words: str, printed: str, status: int = 0, told: str = "") -> None:
        run = fleet.run(*words.split())
        case.assertEqual(
            (re.sub(r"plan \d+:", "plan N:", run.printed), run.told, run.status),
            (printed, told, status),
            words,
        )

    no_leader = "fleet: no agent leads now: the plan waits until one does\n"
    check(
        "members add web-1 web-2",
        "web-1 is a member\nweb-2 is a member\n",
        0,
        "".join(f"fleet: {host} is away: no agent reports as {host} yet\n" for host in HOSTS[:2]),
    )
    fleet.write_plan("plan.json", V1)
    check(
        "plan plan.json",
        "plan N: the fleet begins: its stable revision is the one that is live, and web-v1 is deployed unless it is that "
        "one\n",
        0,
        no_leader,
    )
    agents.put("successful", V1, V1)
    check(
        "wait web-v1=successful settled --timeout 20",
        f"attempt {agents.plan_id} of web-v1: successful\n",
    )
    fleet.write_plan("plan.json", V1, V2, fleet={"by_hand": True})
    check("check plan.json", "plan.json is a plan of a fleet: it deploys web-v2\n")
    check("plan plan.json", "plan N: web-v2 is deployed\n")
    agents.put("deploying", V2, V1, "ready")
    check(
        "wait web-v2=ready",
        f"attempt {agents.plan_id} of web-v2: deploying; waits for a person's promote\n",
    )
    attempt = f"attempt {agents.plan_id} of web-v2"
    check(f"promote --attempt {agents.plan_id}", f"promote is ordered for {attempt}\n")
    case.assertEqual(json.loads(fleet.run("status", "--json").printed)["order"]["order"], PROMOTE)
    check(
        "promote",
        "",
        1,
        agents.told_by(
            f"the order promote for {attempt}, by NAME, stands already; no leader has answered it"
        ),
    )
    check(
        "abort",
        f"abort is ordered for {attempt}\n",
        0,
        agents.told_by(
            f"it takes the place of the order promote for attempt {agents.plan_id}, by NAME"
        ),
    )
    agents.put("aborted", V2, V1)
    check(
        "wait web-v2=successful",
        "",
        1,
        f"fleet: web-v2=successful cannot hold unless another plan is put: {attempt} is over: aborted\n",
    )
    check("retry", "plan N: the attempt of web-v2, which was aborted, begins again\n")
    agents.put("successful", V2, V1)
    check(
        "undo",
        "plan N: web-v1 is deployed again: the plan before names it too\n",
        0,
        "fleet: the file of your plan still names web-v2 last: put it again only after an edit\n",
    )
    agents.put("deploying", V1, V2)
    case.assertEqual(
        fleet.run("status").printed.splitlines()[-1],
        "└─ web-2   working  steady  web-v2  web-v2   web-v2  ready",
    )
    agents.put("successful", V1, V2)
    check("members remove web-2", "web-2 is no member any more\n")
    check("members", "web-1\n")


class Person:
    """Runs bin/fleet in this process, with a fleet file of its own. Its plans are in the folder of
    the cluster."""

    def __init__(self, cluster: Cluster, **members: object) -> None:
        self.cluster = cluster
        told = {
            "fleet": FLEET,
            "etcd": [str(endpoint) for endpoint in cluster.endpoints],
            "timeout_seconds": 5,
            **members,
        }
        self.file = cluster.folder / f"fleet-{id(self)}.json"
        self.file.write_text(json.dumps(told), encoding="ascii")

    def write_plan(self, name: str, *revisions: object, **members: object) -> None:
        (self.cluster.folder / name).write_text(plan_text(*revisions, **members), encoding="ascii")  # type: ignore[arg-type]

    def run(self, *words: str) -> Run:
        folder = f"{self.cluster.folder}/"
        run = run_in_process(
            cli.main,
            str(self.file),
            *(folder + word if word.endswith(".json") else word for word in words),
        )
        return run._replace(printed=run.printed.replace(folder, ""))


class Agents:
    """What agents write to a real etcd, with the store's own code."""

    def __init__(self, cluster: Cluster, **settings: str) -> None:
        self.store = store_at(*cluster.endpoints, **settings)  # type: ignore[arg-type]
        self.plan_id = 0

    def told_by(self, text: str) -> str:
        order = View(self.store.read()).order
        return f"fleet: {text.replace('NAME', order.by if order else '')}\n"

    def put(self, stage: str, revision: object, stable: object, state: str = "") -> None:
        """The record of the plan that stands, and the reports of both machines."""
        self.store.write([], {LEADER: "web-1"})
        view = View(self.store.read())
        self.plan_id = view.changed(PLAN)
        record = Record(self.plan_id, revision, stable, stage)  # type: ignore[arg-type]
        state = state or ("working" if record.is_running else "follows")
        name = record.stable.name
        report = MachineReport(
            "m", self.plan_id, state, "", "steady", name, name, name, name, 2, view.leader
        ).text()
        self.store.write(
            [],
            {
                ATTEMPT: record.text(),
                MACHINES + "web-1": report,
                MACHINES + "web-2": report,
            },
            [ORDER],
        )


class OverEtcd(WithCluster):
    def test_a_whole_session(self) -> None:
        check_whole_session(self, Person(self.cluster), Agents(self.cluster))


class WithAllMembers(WithCluster):
    def test_as_many_as_a_fleet_may_have(self) -> None:
        """The transactions of a person and of a leader are then the largest that they can be."""
        person, store = Person(self.cluster), store_at(*self.cluster.endpoints)
        hosts = [f"host-{number}" for number in range(MOST_MEMBERS)]
        self.assertEqual(person.run("members", "add", *hosts).status, 0)
        person.write_plan("plan.json", V1, V2)
        self.assertEqual(person.run("plan", "plan.json").status, 0)
        store.write(
            [],
            {
                MACHINES + host: MachineReport("m", 0, "working", stable="web-v1").text()
                for host in hosts
            },
        )
        leader = Candidate("host-0", store, lambda *_: None)
        self.assertTrue(leader.do_round())  # it leads
        for name in ("web-v1", "web-v2"):
            self.assertTrue(leader.do_round())
            record = View(store.read()).record
            self.assertEqual(record and record.revision.name, name)
        plan_id = View(store.read()).changed(PLAN)
        store.write(
            [],
            {
                MACHINES
                + host: MachineReport(
                    "m", plan_id, "ready", stable="web-v1", leader=leader.created
                ).text()
                for host in hosts
            },
        )
        self.assertEqual(person.run("promote").status, 0)
        self.assertTrue(leader.do_round())
        self.assertEqual(
            json.loads(person.run("status", "--json").printed)["attempt"]["stage"], "promoting"
        )
        self.assertEqual(person.run("members", "remove", *hosts[1:]).status, 0)


class ByRole(WithCluster):
    """People may write `plan`, `members/` and `order`, and read all keys of the fleet."""

    WORDS = ("--bcrypt-cost=4",)

    def setUp(self) -> None:
        endpoint = self.cluster.endpoints[0]

        def below(name: str, kind: str) -> dict[str, str]:
            key = PREFIX + name
            end = (
                {"range_end": in_base64(key[:-1] + chr(ord(key[-1]) + 1))}
                if key.endswith("/")
                else {}
            )
            return {"permType": kind, "key": in_base64(key), **end}

        calls: list[tuple[str, dict[str, object]]] = [
            ("user/add", {"name": "root", "password": "secret"}),
            ("user/grant", {"user": "root", "role": "root"}),
            ("user/add", {"name": "person", "password": "hidden"}),
            ("user/add", {"name": "guest", "password": "hidden"}),
            ("role/add", {"name": "people"}),
            ("user/grant", {"user": "person", "role": "people"}),
        ]
        for perm in (("", "READ"), ("plan", "WRITE"), ("order", "WRITE"), ("members/", "WRITE")):
            calls.append(("role/grant", {"name": "people", "perm": below(*perm)}))
        calls.append(("enable", {}))
        for path, message in calls:
            answer = asked(endpoint, f"/v3/auth/{path}", message)
            self.assertNotIn("error", answer, path)
        for name in ("secret", "hidden", "wrong"):
            (self.cluster.folder / name).write_text(name, encoding="ascii")

    def test_a_whole_session_and_who_is_refused(self) -> None:
        agents = Agents(
            self.cluster, user="root", password_file=str(self.cluster.folder / "secret")
        )
        check_whole_session(
            self, Person(self.cluster, user="person", password_file="hidden"), agents
        )
        for user, file, told in (
            (
                "guest",
                "hidden",
                "etcd denies this to the user guest: etcdserver: permission denied",
            ),
            (
                "person",
                "wrong",
                "etcd refuses this: etcdserver: authentication failed, invalid user ID or password",
            ),
            (
                "person",
                "none",
                f"the password of etcd's user can't be read from {self.cluster.folder}/none: No such "
                "file or directory",
            ),
        ):
            person = Person(self.cluster, user=user, password_file=file)
            for words in (
                ("status",),
                ("wait", "settled", "--timeout", "0"),
                ("members", "add", "web-1"),
            ):
                self.assertIn(f"fleet: {told}\n", person.run(*words).told)
                self.assertEqual(person.run(*words)[::2], ("", 4))
        self.assertEqual(
            Person(self.cluster).run("status"),
            ("", "fleet: etcd asks for a user and a password, and none are set\n", 4),
        )


class WithoutSpace(WithCluster):
    WORDS = ("--quota-backend-bytes=3000000",)

    def test_an_etcd_that_is_full(self) -> None:
        person, store = Person(self.cluster), store_at(*self.cluster.endpoints)
        with self.assertRaises(StoreError):
            for number in range(9):
                store.write([], {f"waste{number}": "x" * 1000000})
        run = person.run("members", "add", "web-1")
        self.assertEqual((run.printed, run.status), ("", 4))
        self.assertRegex(
            run.told,
            r"^fleet: etcd is full: etcdserver: mvcc: database space exceeded; free its space, then disarm its alarm\n$",
        )
        self.assertEqual(person.run("status").status, 1)  # reads go on


class WithoutQuorum(WithCluster):
    COUNT = 3

    def test_members_that_are_stopped_and_killed(self) -> None:
        person = Person(self.cluster, timeout_seconds=2)
        self.assertEqual(person.run("members", "add", "web-1").status, 0)
        # the others may have to elect a leader, which takes longer on a busy machine
        patient = Person(self.cluster, timeout_seconds=10)
        self.cluster.members[0].stop()
        run = patient.run("members")  # the next endpoint is asked
        self.cluster.members[0].go_on()
        self.assertEqual(run, ("web-1\n", "", 0))
        for member in self.cluster.members[1:]:
            member.kill()
        for words in (
            ("status",),
            ("members", "add", "web-2"),
            ("wait", "settled", "--timeout", "1"),
        ):
            run = person.run(*words)
            self.assertEqual((run.printed, run.status), ("", 4))
            self.assertNotIn("Traceback", run.told)
            self.assertTrue(
                all(line.startswith("fleet: ") for line in run.told.splitlines()), run.told
            )


class Away(unittest.TestCase):
    def test_nobody_listens(self) -> None:
        cluster = types.SimpleNamespace(folder=TOP / "out", endpoints=[port_that_refuses()])
        cluster.folder.mkdir(exist_ok=True)
        person = Person(cluster)  # type: ignore[arg-type]
        self.addCleanup(person.file.unlink)
        self.assertEqual(
            run_to_end([str(TOOLS / "fleet"), str(person.file), "status"], "", WAIT),
            (
                "",
                f"fleet: no endpoint of etcd gives an answer: {HOST}:{cluster.endpoints[0].port}: Connection refused\n",
                4,
            ),
        )


if __name__ == "__main__":
    unittest.main()
