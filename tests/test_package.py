"""The package: its version, the files that it has, and what its units, users and rotation of the
log say of one another."""
import contextlib
import os
import pathlib
import re
import shutil
import socket
import subprocess
import tempfile
import unittest

from support.processes import Run
from tests.tool_runs import TOP, WAIT

BUILD = TOP / "packaging" / "build.sh"
EXECUTABLE = "usr/libexec/bg-switch/bg_switch"  # the program, which the command bg_switch starts
# by unit: the folder of examples that has it; production for the others
EXAMPLES = {"bg-fleet": "fleet"}
EXAMPLE = TOP / "examples" / "production"
UNITS = ("bg-switch", "bg-controller", "bg-fleet", "bg-dashboard")
SOURCE = TOP / "crates" / "bg_command_line" / "src" / "command_line.rt"
# The commands of the tools.
PACKAGED_COMMANDS = (
    "bgctl",
    "bg-operator",
    "bg-controller",
    "bg-analysis",
    "bg-dashboard",
    "bg-fleet",
)
LINK = re.compile(r"\[[^\]]*\]\(([^)#\s]*)(?:#[^)\s]*)?\)")
ARCHIVE = "/usr/share/bg-switch/bg_switch_tools.pyz"
KINDS_OF_CHANGE = ("Added", "Changed", "Deprecated", "Removed", "Fixed", "Security")
# The event loops of both client ports at most, each of which has a thread and a descriptor.
LOOPS = 64 + 1
# Descriptors for each request at a time, connections at each client port, operators at the control
# port, and what the switch has beside.
FOR_A_REQUEST, FOR_A_PORT, FOR_OPERATORS, OWN = 2, 1024, 1024, 64
# Memory in MiB: the largest request at a time and its response; requests and responses that a client
# port buffers, for which requests may count twice their bound, and the system's buffers of its
# sockets if no client reads; and what the switch has beside.
OF_A_REQUEST, OF_A_PORT, BESIDE = 1 + 4, 2 * 128 + 512 + 4 * FOR_A_PORT, 512


def version() -> str:
    """The version that the program prints."""
    found = re.search(r'^const VERSION: &str = "(.*)";$', SOURCE.read_text(encoding="utf-8"), re.M)
    assert found
    return found[1]


def run(words: list[str], program: str = "") -> Run:
    environment = {**os.environ, "BG_SWITCH_PROGRAM": program}
    done = subprocess.run(
        words, capture_output=True, text=True, timeout=WAIT, check=False, env=environment
    )
    return Run(done.stdout, done.stderr, done.returncode)


def program_of(folder: str, printed: str) -> str:
    """A program that prints this as its version."""
    path = pathlib.Path(folder, "program")
    path.write_text(f"#!/bin/sh\necho '{printed}'\n", encoding="ascii")
    path.chmod(0o755)
    return str(path)


def unit_text(unit: str) -> str:
    return (TOP / "examples" / EXAMPLES.get(unit, "production") / f"{unit}.service").read_text(
        encoding="ascii"
    )


def values(unit: str, key: str) -> list[str]:
    return [
        line.partition("=")[2]
        for line in unit_text(unit).splitlines()
        if line.startswith(f"{key}=")
    ]


def requests_of_the_switch() -> int:
    """How many requests both client ports of the unit forward at a time."""
    (start,) = values("bg-switch", "ExecStart")
    active = int(word_after(start, "--concurrency"))
    return active + max(active // 8, 1)


def word_after(command: str, word: str) -> str:
    """The word of a command that follows another one."""
    words = command.split()
    return words[words.index(word) + 1]


# Some program that has the words of the switch.
STAND_IN = """#!/bin/sh
case $1 in
    serve) exec python3 -m tests.stand_in_switch "$@" ;;
    replay) sed '1,/^---$/d; s/.*/ok 0/' ;;
    *) cat > /dev/null ;;
esac
"""


# The first digits of a port of the rollout of examples/controller.
PORT_OF_EXAMPLE = re.compile(r"\b1[89](?=08[012]\b|\$\{revision\}0[12]|[12]0[12]\b)")


def is_free(port: int) -> bool:
    with contextlib.suppress(OSError), socket.create_server(("127.0.0.1", port)):
        return True
    return False


class Version(unittest.TestCase):
    def test_the_changelog_and_the_package_have_the_programs(self) -> None:
        newest = re.search(
            r"^## \[(\d[^]]*)\]", (TOP / "CHANGELOG.md").read_text(encoding="utf-8"), re.M
        )
        assert newest, "CHANGELOG.md has no heading of a version"
        self.assertEqual(
            (newest[1], run([str(BUILD), "version"]).printed.strip()), (version(), version())
        )

    def test_a_program_of_another_version_is_refused(self) -> None:
        with tempfile.TemporaryDirectory() as folder:
            done = run(
                [str(BUILD), "stage", f"{folder}/root"], program_of(folder, "bg_switch 0.0.9")
            )
            self.assertEqual(done.status, 1)
            self.assertIn(f"is bg_switch 0.0.9, and the sources are {version()}", done.told)

    def test_a_folder_that_is_there_stays_as_it_is(self) -> None:
        with tempfile.TemporaryDirectory() as folder:
            program = program_of(folder, f"bg_switch {version()}")
            done = run([str(BUILD), "stage", folder], program)
            self.assertEqual(
                (done.told, done.status), (f"packaging: {folder} is there already\n", 1)
            )
            self.assertEqual(os.listdir(folder), ["program"])


class Changelog(unittest.TestCase):
    """The form of Keep a Changelog: a section Unreleased, and one for each version with its date,
    the newest first."""

    def setUp(self) -> None:
        self.text = (TOP / "CHANGELOG.md").read_text(encoding="utf-8")

    def test_each_version_has_one_section(self) -> None:
        unreleased, *released = re.findall(r"^## (.*)$", self.text, re.M)
        self.assertEqual(unreleased, "[Unreleased]")
        found = [
            re.fullmatch(r"\[(\d+)\.(\d+)\.(\d+)\] - \d{4}-\d\d-\d\d", heading)
            for heading in released
        ]
        numbers = [tuple(map(int, one.groups())) if one else () for one in found]
        self.assertNotIn((), numbers, released)
        self.assertEqual(numbers, sorted(set(numbers), reverse=True))

    def test_each_kind_of_change_stands_once_in_a_section(self) -> None:
        for section in re.split(r"^## ", self.text, flags=re.M)[1:]:
            with self.subTest(section.splitlines()[0]):
                kinds = re.findall(r"^### (.*)$", section, re.M)
                self.assertEqual(kinds, [kind for kind in KINDS_OF_CHANGE if kind in kinds])


class Staged(unittest.TestCase):
    """The files of the package, with a script in the place of the program."""

    root: pathlib.Path

    @classmethod
    def setUpClass(cls) -> None:
        folder = cls.enterClassContext(tempfile.TemporaryDirectory())
        cls.root = pathlib.Path(folder, "root")
        done = run(
            [str(BUILD), "stage", str(cls.root)], program_of(folder, f"bg_switch {version()}")
        )
        assert (done.printed, done.told, done.status) == ("", "", 0), done

    def commands(self) -> pathlib.Path:
        """A folder with the commands of the package, which run its tools where they lie here, and a
        stand-in for the switch."""
        folder = self.root.with_name("commands")
        folder.mkdir(exist_ok=True)
        for name in PACKAGED_COMMANDS:
            text = (self.root / "usr" / "bin" / name).read_text(encoding="ascii")
            self.assertIn(ARCHIVE, text)
            (folder / name).write_text(
                text.replace(ARCHIVE, f"{self.root}{ARCHIVE}"), encoding="ascii"
            )
            (folder / name).chmod(0o755)
        (folder / "bg_switch").write_text(STAND_IN, encoding="ascii")
        (folder / "bg_switch").chmod(0o755)
        return folder


class Files(Staged):
    def test_each_command_of_the_units_is_there(self) -> None:
        for unit in UNITS:
            for command in [*values(unit, "ExecStart"), *values(unit, "ExecStop")]:
                place = command.removeprefix("-").split()[0]
                if place != "/usr/bin/tail":
                    with self.subTest(f"{unit}: {command}"):
                        self.assertTrue(os.access(self.root / place[1:], os.X_OK))

    def test_editors_find_the_schema_of_plans(self) -> None:
        place = "usr/share/bg-switch/plan.schema.json"
        self.assertEqual(
            (self.root / place).read_bytes(), (TOP / "share" / "plan.schema.json").read_bytes()
        )
        self.assertIn(f"/{place}", (TOP / "docs" / "OPERATING.md").read_text(encoding="utf-8"))

    def test_editors_find_the_schema_of_fleet_files(self) -> None:
        place = "usr/share/bg-switch/fleet.schema.json"
        self.assertEqual(
            (self.root / place).read_bytes(), (TOP / "share" / "fleet.schema.json").read_bytes()
        )

    def test_everybody_may_read_all_files_and_run_the_commands(self) -> None:
        for path in self.root.rglob("*"):
            with self.subTest(path.relative_to(self.root)):
                expected = (
                    0o755
                    if path.is_dir() or path.parent.name == "bin" or path == self.root / EXECUTABLE
                    else 0o644
                )
                self.assertIn(
                    path.stat().st_mode & 0o777,
                    (expected, 0o755) if "examples" in path.parts else (expected,),
                )

    def test_a_command_runs_the_one_file_of_the_tools_and_names_what_is_installed(self) -> None:
        folder = self.commands()
        for line in (*PACKAGED_COMMANDS, "bgctl deploy", "bgctl controller"):
            with self.subTest(line):
                name, *words = line.split()
                done = run([str(folder / name), *words, "--help"])
                self.assertEqual(done.status, 0, done.told)
                self.assertIn(f"usage: {line} ", done.printed)
                self.assertNotRegex(done.printed, r"(?<!/)\bbin/|(?<!/)\bdocs/|(?<!/)\bshare/")

    def test_the_pages_have_the_files_that_they_link_to(self) -> None:
        documents = self.root / "usr" / "share" / "doc" / "bg-switch"
        for page in (TOP / "docs").rglob("*.*"):
            self.assertTrue((documents / page.relative_to(TOP)).exists(), page)
        for page in documents.rglob("*.md"):
            for target in LINK.findall(page.read_text(encoding="utf-8")):
                if target and "://" not in target:
                    with self.subTest(page=page.relative_to(documents), target=target):
                        place = (
                            self.root / target[1:]
                            if target.startswith("/")
                            else page.parent / target
                        )
                        self.assertTrue(place.exists())

    def test_the_page_of_the_switch_names_each_of_its_options(self) -> None:
        page = (
            (self.root / "usr" / "share" / "man" / "man1" / "bg_switch.1")
            .read_text(encoding="ascii")
            .replace("\\-", "-")
        )
        options = re.findall(
            r'name: "([a-z-]+)"', SOURCE.with_name("serve_options.rt").read_text(encoding="utf-8")
        )
        self.assertIn("redispatch", options)
        described = re.findall(r"^\.TP\n\.BI? --([a-z-]+)", page, re.M)
        self.assertEqual(sorted(described), sorted(options))


class Examples(Staged):
    """The examples of the package run from where it puts them: they find its commands, and write
    nothing beside themselves."""

    def setUp(self) -> None:
        self.examples = self.root / "usr" / "share" / "doc" / "bg-switch" / "examples"
        library = os.pathsep.join(map(str, (TOP, TOP / "lib", TOP / "scripts")))
        self.environment = {
            **os.environ,
            "PATH": f"{self.commands()}:{os.environ['PATH']}",
            "PYTHONPATH": library,
        }

    def at_free_ports(self) -> tuple[pathlib.Path, dict[str, str]]:
        """A copy of the examples whose ports are free here, and by the first digits of each port
        those that stand in their place."""
        folder = self.enterContext(tempfile.TemporaryDirectory())
        digits = {"18": "", "19": ""}
        for first, others in (("18", ("080", "081", "082")), ("19", ("101", "102", "201", "202"))):
            digits[first] = next(
                str(own)
                for own in range(20, 60)
                if str(own) not in digits.values()
                and all(is_free(int(f"{own}{other}")) for other in others)
            )
        copied = pathlib.Path(shutil.copytree(self.examples, pathlib.Path(folder, "examples")))
        for path in copied.glob("controller/*"):
            text = path.read_text(encoding="utf-8")
            path.write_text(
                PORT_OF_EXAMPLE.sub(lambda port: digits[port[0]], text), encoding="utf-8"
            )
        return copied, digits

    def test_what_needs_the_repository_is_not_there(self) -> None:
        self.assertEqual([path for path in self.examples.rglob("*.py")], [])

    def test_the_scripts_of_lines(self) -> None:
        done = subprocess.run(
            [str(self.examples / "demo.sh")],
            capture_output=True,
            text=True,
            timeout=WAIT,
            check=False,
            env=self.environment,
        )
        self.assertEqual(
            (done.returncode, done.stderr, done.stdout.count("examples/")),
            (0, "", len(list(self.examples.glob("*.txt")))),
        )

    def test_a_rollout_and_a_release(self) -> None:
        """The stand-in pauses, whatever the Rollout says, so the job of a release goes on with
        it."""
        examples, digits = self.at_free_ports()
        before = sorted(examples.rglob("*"))
        with subprocess.Popen(
            [str(examples / "controller" / "run.sh")],
            stdout=subprocess.PIPE,
            stderr=subprocess.PIPE,
            text=True,
            env=self.environment,
        ) as running:
            try:
                assert running.stdout is not None and running.stderr is not None
                plan = next(
                    line for line in running.stdout if line.startswith("the plan is ")
                ).split()[-1]
                words = [
                    f"{digits['18']}082",
                    plan,
                    "media-v2",
                    f"{digits['19']}201",
                    f"{digits['19']}202",
                ]
                told = subprocess.run(
                    [str(examples / "ci" / "release.sh"), *words],
                    capture_output=True,
                    text=True,
                    timeout=WAIT,
                    check=False,
                    env=self.environment,
                )
                self.assertEqual(
                    (
                        told.returncode,
                        told.stdout.splitlines()[-1].startswith("steady: active media-v2"),
                    ),
                    (0, True),
                    told,
                )
            finally:
                running.terminate()
                running.communicate(timeout=WAIT)
        self.assertEqual(sorted(examples.rglob("*")), before)


class Units(unittest.TestCase):
    def test_the_agent_of_a_fleet_takes_the_place_of_the_controller(self) -> None:
        """It has the same user and groups, the same folder of state and the same limits, and never runs
        beside it."""
        self.assertEqual(values("bg-fleet", "Conflicts"), ["bg-controller.service"])
        for key in ("User", "SupplementaryGroups", "StateDirectory", "WorkingDirectory"):
            self.assertEqual(values("bg-fleet", key), values("bg-controller", key), key)
        limits = [
            unit_text(unit).partition("\nCapabilityBoundingSet=")[2]
            for unit in ("bg-fleet", "bg-controller")
        ]
        self.assertIn("NoNewPrivileges=yes", limits[0])
        self.assertEqual(limits[0], limits[1])

    def test_the_rules_of_debian_name_each_unit(self) -> None:
        rules = (TOP / "packaging" / "debian" / "rules").read_text(encoding="ascii")
        self.assertEqual(set(re.findall(r"([\w-]+)\.service", rules)), set(UNITS))

    def test_each_user_and_group_is_made_and_is_removed_by_a_purge(self) -> None:
        made = re.findall(
            r"^([ug]) (\S+)", (EXAMPLE / "sysusers.conf").read_text(encoding="ascii"), re.M
        )
        users = {name for kind, name in made if kind == "u"}
        groups = {name for _, name in made}
        used = {
            key: {name for unit in UNITS for value in values(unit, key) for name in value.split()}
            for key in ("User", "Group", "SupplementaryGroups")
        }
        self.assertEqual(used["User"], users)
        self.assertLessEqual(used["Group"] | used["SupplementaryGroups"], groups)
        purge = (TOP / "packaging" / "debian" / "bg-switch.postrm").read_text(encoding="ascii")
        self.assertLessEqual(users | groups, set(re.findall(r"[\w-]+", purge)))

    def test_the_switch_has_descriptors_for_all_requests_and_threads_for_all_loops(self) -> None:
        of_requests = FOR_A_REQUEST * requests_of_the_switch()
        needed = of_requests + 2 * FOR_A_PORT + FOR_OPERATORS + LOOPS + OWN
        self.assertGreaterEqual(int(values("bg-switch", "LimitNOFILE")[0]), needed)
        self.assertGreaterEqual(int(values("bg-switch", "TasksMax")[0]), LOOPS + OWN)

    def test_the_switch_has_memory_for_the_largest_messages_of_all_requests(self) -> None:
        (most,) = values("bg-switch", "MemoryMax")
        self.assertEqual(most[-1], "G")
        self.assertGreaterEqual(
            int(most[:-1]) * 1024, OF_A_REQUEST * requests_of_the_switch() + 2 * OF_A_PORT + BESIDE
        )

    def test_all_have_one_control_socket(self) -> None:
        """It lies in the folder that systemd makes for the switch."""
        (start,) = values("bg-switch", "ExecStart")
        control = word_after(start, "--control-socket")
        (folder,) = values("bg-switch", "RuntimeDirectory")
        self.assertEqual(control, f"/run/{folder}/control")
        self.assertEqual(values("bg-switch", "RuntimeDirectoryMode"), [])  # so all may reach it
        self.assertEqual(
            word_after(values("bg-switch", "ExecStop")[0], "/usr/bin/bg-operator"), control
        )
        self.assertEqual(
            word_after(values("bg-dashboard", "ExecStart")[0], "/usr/bin/bg-dashboard"), control
        )
        self.assertNotIn("--control", start.split())

    def test_the_journal_of_the_switch_outlives_its_process_and_ends_with_the_package(self) -> None:
        """It lies in a folder that systemd makes for the switch and keeps, and that a purge removes."""
        (start,) = values("bg-switch", "ExecStart")
        (folder,) = values("bg-switch", "StateDirectory")
        journal = pathlib.Path(word_after(start, "--journal"))
        self.assertEqual(str(journal.parent), f"/var/lib/{folder}")
        self.assertEqual(values("bg-switch", "StateDirectoryMode"), ["0700"])
        purge = (TOP / "packaging" / "debian" / "bg-switch.postrm").read_text(encoding="ascii")
        self.assertIn(str(journal.parent), re.findall(r"\S+", purge))

    def test_who_may_order_is_in_the_group_of_the_socket(self) -> None:
        (start,) = values("bg-switch", "ExecStart")
        group = word_after(start, "--control-socket-group")
        self.assertEqual(word_after(start, "--control-socket-mode"), "660")
        for unit in UNITS:
            self.assertIn(group, values(unit, "SupplementaryGroups")[0].split(), unit)
            families = values(unit, "RestrictAddressFamilies")[0].split()
            self.assertIn("AF_UNIX", families, unit)
        # what comes later adds to the calls, or takes from them
        self.assertEqual(
            values("bg-switch", "SystemCallFilter"), ["@system-service", "~@privileged", "@chown"]
        )

    def test_the_page_tells_of_the_controller(self) -> None:
        """The files of the controller can be read by all, since its unit has no umask of its
        own."""
        plan = word_after(values("bg-controller", "ExecStart")[0], "/usr/bin/bg-controller")
        self.assertEqual(word_after(values("bg-dashboard", "ExecStart")[0], "--plan"), plan)
        self.assertEqual(
            values("bg-controller", "UMask") + values("bg-controller", "StateDirectoryMode"), []
        )

    def test_all_have_one_access_log(self) -> None:
        log = values("bg-switch", "Environment")[0].removeprefix("BG_SWITCH_ACCESS_LOG=")
        self.assertEqual(
            str(pathlib.Path(log).parent), f"/var/log/{values('bg-switch', 'LogsDirectory')[0]}"
        )
        self.assertEqual(word_after(values("bg-dashboard", "ExecStart")[0], "--log"), log)
        rotation = (EXAMPLE / "logrotate.conf").read_text(encoding="ascii")
        self.assertIn(f"\n{log} {{\n", rotation)
        self.assertIn(
            f"\n    su {values('bg-switch', 'User')[0]} {values('bg-switch', 'Group')[0]}\n",
            rotation,
        )
        for unit in ("bg-controller", "bg-fleet", "bg-dashboard"):
            (groups,) = values(unit, "SupplementaryGroups")
            self.assertIn(values("bg-switch", "Group")[0], groups.split(), unit)


if __name__ == "__main__":
    unittest.main()
