"""The rule by which stand-ins for the switch work, and by which the program is judged."""
import ast
import pathlib
import re
import sys
import unittest
from collections.abc import Iterator, Sequence

from support.messages import BY_HAND
from support.rule.book import RuleBook
from support.rule.entries import Command, Deploy, Entry, Outcome, Template, Tick
from support.rule.history import History, Opening
from support.rule.journals import resumed
from support.rule.refusals import control_refusal
from support.rule.steps import fault
from support.rule.strategy import Strategy, strategy_of
from tests.live import live_random
from tests.tool_runs import TOP

RULE, ROWS, LINES = TOP / "scripts/support/rule", TOP / "rows", TOP / "docs/LINES.md"
LEAST_ROWS = 40
MOST_LINES = 60  # of a row: the rule is slow
WELL_FORMED = re.compile(r"[a-z]+( ([a-zA-Z][-\w]*|0|[1-9]\d*))*")
# Replies that the rule does not have: those to lines that are not well formed, or for which the
# program itself is asked.
NOT_OF_THE_RULE = re.compile(r"fault |compacted |refused NotHere")
# Refusals of the control port, and of a program that has no room.
NOT_OF_A_BOOK = {
    "NotHere",
    "TooLate",
    "JournalFailed",
    "NumbersSpent",
    "HistoryFull",
    "OutOfMemory",
}
OF_MANY_REVISIONS = {"TooManyRevisions"}

PLAIN = Strategy(replicas=2, preview_replicas=2)
PAUSED = PLAIN._replace(auto=False)
OPENED = ("open v1 9001 9002", "available 1 2")
DEPLOYED = (*OPENED, "deploy v2 9101 9102")
READY = (*DEPLOYED, "available 2 2")
PROMOTED = (*READY, "promote")


def book_after(strategy: Strategy, *lines: str) -> RuleBook:
    book = RuleBook(strategy)
    for line in lines:
        book.reply(line)
    return book


def replies(strategy: Strategy, before: Sequence[str], *lines: str) -> list[str]:
    """The replies to lines that come after these."""
    book = book_after(strategy, *before)
    return [book.reply(line)[0] for line in lines]


def report(strategy: Strategy, *lines: str) -> dict[str, str]:
    """What a report says after these lines, by the first words of its lines."""
    found = {}
    for line in book_after(strategy, *lines).reply("report"):
        name, _, rest = line.partition(" ")
        if name == "revision":
            number, _, rest = rest.partition(" ")
            name = f"revision {number}"
        found[name] = rest
    return found


def history_of(*entries: Entry) -> History:
    """A history that need not be legal."""
    return History(Opening(PLAIN, Template("v1", ("9001", "9002"))), entries)


def deploy(number: int) -> Deploy:
    return Deploy("deploy", number, f"v{number}", ("9001", "9002"))


class RuleCase(unittest.TestCase):
    def assert_report(self, strategy: Strategy, lines: Sequence[str], **expected: object) -> None:
        """That a report after these lines says so; `r1` is the line of revision 1."""
        told = report(strategy, *lines)
        names = {name: re.sub(r"^r(\d)$", r"revision \1", name) for name in expected}
        self.assertEqual({name: told[names[name]] for name in expected}, expected)


class Attempts(RuleCase):
    def test_a_deploy_begins_an_attempt(self) -> None:
        self.assert_report(PLAIN, DEPLOYED, phase="scaling", active="1", preview="2", newest="2")
        self.assert_report(PLAIN, DEPLOYED, r2="v2 desired 2 available 0 open 0 deadline none")

    def test_without_a_pause_it_is_promoted_once_it_is_available(self) -> None:
        self.assertEqual(
            replies(PLAIN, DEPLOYED, "available 2 1", "available 2 2"), ["ok 0", "ok 4"]
        )
        self.assert_report(PLAIN, READY, phase="steady", active="2", preview="2", stable="2")

    def test_a_pause_waits_for_a_promote(self) -> None:
        self.assertEqual(replies(PAUSED, DEPLOYED, "available 2 2", "promote"), ["ok 1", "ok 3"])
        self.assert_report(PAUSED, READY, phase="paused", active="1", preview="2", stable="1")

    def test_a_pause_ends_after_its_seconds(self) -> None:
        timed = PLAIN._replace(seconds=60)
        told = replies(timed, DEPLOYED, "tick 5", "available 2 2", "tick 64", "tick 65")
        self.assertEqual(told, ["ok 0", "ok 1", "ok 0", "ok 3"])
        self.assertEqual(replies(timed._replace(auto=False), READY, "tick 99"), ["ok 0"])

    def test_a_preview_of_fewer_endpoints_grows_after_the_pause(self) -> None:
        small = PAUSED._replace(preview_replicas=1)
        told = replies(
            small, DEPLOYED, "available 2 2", "available 2 1", "promote", "available 2 2"
        )
        self.assertEqual(told, ["refused MoreThanDesired", "ok 1", "ok 1", "ok 2"])
        lines = (*DEPLOYED, "available 2 1", "promote")
        self.assert_report(small, lines, phase="sizing", active="1", preview="2")

    def test_an_analysis_before_comes_before_the_pause(self) -> None:
        analysed = PAUSED._replace(pre=True)
        self.assert_report(analysed, READY, phase="preAnalysis")
        self.assert_report(analysed, (*READY, "verdict pre successful"), phase="paused")
        self.assertEqual(replies(analysed, READY, "promote"), ["refused NotPaused"])

    def test_an_analysis_after_decides_what_is_stable(self) -> None:
        analysed = PLAIN._replace(post=True)
        self.assert_report(analysed, READY, phase="postAnalysis", active="2", stable="1")
        self.assertEqual(replies(analysed, READY, "verdict post successful"), ["ok 1"])
        lines = (*READY, "verdict post successful")
        self.assert_report(analysed, lines, phase="steady", active="2", stable="2")

    def test_a_full_promotion_skips_analyses_and_pauses(self) -> None:
        analysed = PAUSED._replace(pre=True, post=True)
        self.assertEqual(replies(analysed, READY, "promote full"), ["ok 3"])
        self.assertEqual(
            replies(analysed, DEPLOYED, "promote full", "available 2 2"), ["ok 0", "ok 4"]
        )

    def test_an_abort_takes_both_services_back(self) -> None:
        for line in ("abort", "verdict post failed", "verdict post error"):
            with self.subTest(line):
                lines = (*READY, line)
                analysed = PLAIN._replace(post=True)
                self.assertEqual(replies(analysed, READY, line), ["ok 0"])
                self.assert_report(analysed, lines, phase="aborted", active="1", preview="1")

    def test_a_retry_begins_the_attempt_again(self) -> None:
        lines = (*READY, "abort", "retry")
        self.assertEqual(replies(PAUSED, (*READY, "abort"), "retry"), ["ok 1"])
        self.assert_report(PAUSED, lines, phase="paused", active="1", preview="2")

    def test_a_deploy_of_the_stable_revision_takes_both_services_back(self) -> None:
        lines = (*READY, "deploy v1 9001 9002")
        analysed = PLAIN._replace(post=True)
        self.assert_report(analysed, lines, phase="steady", active="1", preview="1", newest="1")

    def test_a_deploy_of_a_name_has_the_number_of_its_revision(self) -> None:
        lines = (*PROMOTED, "deploy v1 9001 9002")
        self.assert_report(PAUSED, lines, phase="paused", active="2", preview="1", newest="1")


class ScaleDown(RuleCase):
    def test_after_the_delay(self) -> None:
        self.assert_report(PAUSED, PROMOTED, r1="v1 desired 2 available 2 open 0 deadline 30")
        self.assertEqual(replies(PAUSED, PROMOTED, "tick 29", "tick 30"), ["ok 0", "ok 1"])
        lines = (*PROMOTED, "tick 30")
        self.assert_report(PAUSED, lines, r1="v1 desired 0 available 0 open 0 deadline none")

    def test_once_the_last_request_has_left(self) -> None:
        limited = PAUSED._replace(drain_limit=10)
        lines = (*READY, "enter 0 active", "promote", "tick 30")
        state = "v1 desired 2 available 2 open 1 deadline 30 draining"
        self.assert_report(limited, lines, r1=state)
        self.assert_report(limited, (*lines, "tick 39"), r1=state)
        self.assert_report(limited, (*lines, "tick 40"), r1=f"{state} cut")
        self.assertEqual(replies(limited, lines, "leave 0"), ["left 1 revision 1"])
        left = (*lines, "leave 0")
        self.assert_report(limited, left, r1="v1 desired 0 available 0 open 0 deadline none")

    def test_at_once_when_it_is_superseded(self) -> None:
        self.assertEqual(replies(PAUSED, READY, "deploy v3 9201 9202"), ["ok 1"])

    def test_of_an_aborted_revision(self) -> None:
        aborted = (*READY, "abort")
        self.assert_report(PAUSED, aborted, r2="v2 desired 2 available 2 open 0 deadline 30")
        self.assertEqual(replies(PAUSED, aborted, "tick 30"), ["ok 1"])
        kept = PAUSED._replace(abort_delay=0)
        self.assert_report(kept, aborted, r2="v2 desired 2 available 2 open 0 deadline none")
        retried = (*aborted, "retry")
        self.assert_report(PAUSED, retried, r2="v2 desired 2 available 2 open 0 deadline none")

    def test_of_revisions_beyond_the_limit(self) -> None:
        limited = PLAIN._replace(revision_limit=1)
        lines = (*READY, "deploy v3 9201 9202")
        self.assertEqual(replies(limited, lines, "available 3 2"), ["ok 5"])
        self.assertEqual(replies(PLAIN, lines, "available 3 2"), ["ok 4"])

    def test_old_revisions_are_removed(self) -> None:
        short = PLAIN._replace(history_limit=0)
        self.assertEqual(replies(short, READY, "tick 30"), ["ok 2"])
        self.assertNotIn("revision 1", report(short, *READY, "tick 30"))


class Journals(RuleCase):
    def resumed_report(self, *lines: str) -> list[str]:
        """What a book reports that was resumed from the journal of one that has carried these lines
        out."""
        before, after = book_after(PAUSED, *lines), RuleBook(PAUSED)
        assert before.history is not None
        after.history = resumed(before.history)
        self.assertIsNone(fault(after.history))
        return after.reply("report")

    def test_a_book_is_resumed_as_it_was(self) -> None:
        for lines in (OPENED, READY, PROMOTED, (*READY, "abort"), (*PROMOTED, "tick 30")):
            self.assertEqual(
                self.resumed_report(*lines), book_after(PAUSED, *lines).reply("report")
            )

    def test_no_request_is_open_any_more(self) -> None:
        """What drained is scaled down, and a request that has left leaves no entry."""
        lines = (*READY, "enter 0 active", "promote", "tick 30")
        left = book_after(PAUSED, *lines, "leave 0").reply("report")
        self.assertEqual(self.resumed_report(*lines), left)
        self.assertEqual(self.resumed_report(*lines, "leave 0"), left)


class Requests(RuleCase):
    def test_take_turns_among_the_available_ports(self) -> None:
        told = replies(PLAIN, OPENED, "enter 0 active", "enter 1 active", "leave 0", "leave 1")
        self.assertEqual(
            told,
            [
                "entered 1 revision 1 port 9002",
                "entered 2 revision 1 port 9001",
                "left 1 revision 1",
                "left 2 revision 1",
            ],
        )
        one = (*OPENED, "available 1 1")
        self.assertEqual(replies(PLAIN, one, "enter 0 active"), ["entered 1 revision 1 port 9001"])

    def test_go_where_the_services_point(self) -> None:
        told = replies(
            PAUSED._replace(has_preview=True), READY, "enter 0 active", "enter 1 preview"
        )
        self.assertEqual(told, ["entered 1 revision 1 port 9002", "entered 2 revision 2 port 9101"])


# By the refusal: the strategy, the lines before, and a line that is refused so.
REFUSED: tuple[tuple[str, Strategy, Sequence[str], str], ...] = (
    ("NotOpen", PLAIN, (), "report"),
    ("AlreadyOpen", PLAIN, OPENED, "open v1 9001"),
    ("BadName", PLAIN, (), "open V1 9001"),
    ("BadName", PLAIN, OPENED, "deploy -v 9001"),
    ("BadPorts", PLAIN, (), "open v1 9001"),
    ("BadPorts", PLAIN, OPENED, "deploy v2 9001 9001"),
    ("BadPorts", PLAIN, OPENED, "deploy v2 0 9001"),
    ("SameTemplate", PAUSED, READY, "deploy v2 9101 9102"),
    ("PortsDiffer", PAUSED, READY, "deploy v1 9001 9003"),
    ("PortsDiffer", PAUSED, READY, "deploy v1 9002 9001"),
    ("NoSuchRevision", PLAIN, OPENED, "available 2 1"),
    ("MoreThanDesired", PLAIN, OPENED, "available 1 3"),
    ("NoSuchSeat", PLAIN, OPENED, "enter 4 active"),
    ("NoSuchSeat", PLAIN, OPENED, "leave 4"),
    ("SeatBusy", PLAIN, (*OPENED, "enter 0 active"), "enter 0 preview"),
    ("SeatIdle", PLAIN, OPENED, "leave 0"),
    ("NoPreview", PLAIN, OPENED, "enter 0 preview"),
    ("NoEndpoints", PLAIN, OPENED[:1], "enter 0 active"),
    ("NoAnalysis", PLAIN, OPENED, "verdict pre successful"),
    ("NoAnalysis", PAUSED._replace(pre=True), READY, "verdict post successful"),
    ("Aborted", PAUSED, (*READY, "abort"), "promote"),
    ("Aborted", PAUSED, (*READY, "abort"), "promote full"),
    ("NotPaused", PAUSED, DEPLOYED, "promote"),
    ("NotPaused", PAUSED, PROMOTED, "promote"),
    ("NothingToPromote", PAUSED, OPENED, "promote full"),
    ("AlreadyFull", PAUSED, (*DEPLOYED, "promote full"), "promote full"),
    ("AlreadyAborted", PAUSED, (*READY, "abort"), "abort"),
    ("NothingToAbort", PAUSED, OPENED, "abort"),
    ("NotAborted", PAUSED, READY, "retry"),
    ("MomentTooLarge", PLAIN, OPENED, f"tick {2**53 + 1}"),
    ("MomentBack", PLAIN, (*OPENED, "tick 5"), "tick 4"),
)


class Refusals(unittest.TestCase):
    def test_each_line_is_refused_so_and_changes_nothing(self) -> None:
        for name, strategy, before, line in REFUSED:
            with self.subTest(f"{name}: {line}"):
                book = book_after(strategy, *before)
                history = book.history
                self.assertEqual(book.reply(line), [f"refused {name}"])
                self.assertEqual(book.history, history)

    def test_more_revisions_than_there_may_be(self) -> None:
        """The entries are made without the outcomes between, which take long."""
        deploys = [deploy(number) for number in range(2, 66)]
        history = history_of(*deploys[:62])
        self.assertIsNone(control_refusal(history, deploys[62]))
        full = history.with_entry(deploys[62])
        self.assertEqual(control_refusal(full, deploys[63]), "TooManyRevisions")

    def test_each_that_the_page_names_has_a_line(self) -> None:
        table = LINES.read_text(encoding="utf-8").partition("What the refusals mean:")[2]
        named = set(re.findall(r"^\| `(\w+)` \|", table.partition("\n## ")[0], re.M))
        tried = {name for name, *_ in REFUSED} | OF_MANY_REVISIONS
        self.assertEqual(named - NOT_OF_A_BOOK, tried)


class Histories(unittest.TestCase):
    """Whether a list of entries is legal and settled."""

    def test_what_is_wrong(self) -> None:
        judged: tuple[tuple[Sequence[Entry], str | None], ...] = (
            ((), None),
            ((Tick("tick", 5), Tick("tick", 5)), None),
            ((Tick("tick", 5), Tick("tick", 4)), "tick"),
            ((Command("abort"),), "abort"),
            ((Outcome("ready", 1),), "ready"),
        )
        for entries, expected in judged:
            with self.subTest(entries):
                self.assertEqual(fault(history_of(*entries)), expected)

    def test_an_outcome_that_is_left_out(self) -> None:
        book = book_after(PLAIN, *READY)
        assert book.history is not None
        self.assertIsNone(fault(book.history))
        ready, resumed, switched, promoted = range(len(book.history.entries))[-4:]
        for place, expected in (
            (ready, "pending ready"),
            (resumed, "pending resumed"),
            (switched, "pending switched"),
            (promoted, "pending promoted"),
        ):
            with self.subTest(expected):
                self.assertEqual(fault(book.history.until(place)), expected)


def is_of_the_rule(row: pathlib.Path) -> bool:
    """Whether a row is one of `replay` whose lines are well formed, and with no other reply than
    those of the rule."""
    lines = (row / "input").read_text(errors="replace").partition("---\n")[2].splitlines()
    return (
        (row / "command").read_text().split() == ["replay"]
        and len(lines) <= MOST_LINES
        and all(WELL_FORMED.fullmatch(line) and line != "quit" for line in lines)
        and not NOT_OF_THE_RULE.search((row / "replies").read_text())
    )


class Examples(unittest.TestCase):
    def test_the_worked_rows(self) -> None:
        rows = [row for row in sorted(ROWS.iterdir()) if is_of_the_rule(row)]
        self.assertGreaterEqual(len(rows), LEAST_ROWS)
        for row in rows:
            with self.subTest(row.name):
                document, _, script = (row / "input").read_text().partition("---\n")
                book = RuleBook(strategy_of(document))
                told = [reply for line in script.splitlines() for reply in book.reply(line)]
                self.assertEqual(told, (row / "replies").read_text().splitlines())

    def test_a_rollout_under_traffic(self) -> None:
        """What the check over sockets takes from the rule."""
        book = RuleBook(strategy_of(BY_HAND))
        self.assertEqual(
            list(live_random.steps_of(book, 9001, 9002, 9003)),
            [
                ({"open one 9001": "ok 0", "available 1 1": "ok 0"}, b"one", b"one"),
                ({"deploy two 9002": "ok 0", "available 2 1": "ok 1"}, b"one", b"two"),
                ({"promote": "ok 3"}, b"two", b"two"),
                ({"tick 30": "ok 1"}, b"two", b"two"),
                ({"deploy three 9003": "ok 0", "available 3 1": "ok 1"}, b"two", b"three"),
                ({"abort": "ok 0"}, b"two", b"two"),
                ({"available 2 0": "ok 0"}, None, None),
                ({"available 2 1": "ok 0"}, b"two", b"two"),
                ({"retry": "ok 1"}, b"two", b"three"),
                ({"promote": "ok 3"}, b"three", b"three"),
            ],
        )
        self.assertEqual(
            book.reply("report"),
            [
                "moment 30",
                "phase steady",
                "active 3",
                "preview 3",
                "stable 3",
                "newest 3",
                "revision 1 one desired 0 available 0 open 0 deadline none",
                "revision 2 two desired 1 available 1 open 0 deadline 60",
                "revision 3 three desired 1 available 1 open 0 deadline none",
                "end",
            ],
        )


def imported(text: str) -> Iterator[str]:
    """The modules that a source imports."""
    for node in ast.walk(ast.parse(text)):
        if isinstance(node, ast.Import):
            yield from (each.name for each in node.names)
        elif isinstance(node, ast.ImportFrom):
            yield "." * node.level + (node.module or "")


def shared(text: str) -> list[str]:
    """What a source of the rule imports beside the rule and the standard library."""
    return [
        name
        for name in imported(text)
        if not name.startswith("support.rule.")
        and name.partition(".")[0] not in sys.stdlib_module_names
    ]


class Independence(unittest.TestCase):
    def test_the_rule_imports_nothing_that_it_judges(self) -> None:
        sources = sorted(RULE.glob("*.py"))
        self.assertGreater(len(sources), 10)
        for path in sources:
            with self.subTest(path.name):
                self.assertEqual(shared(path.read_text(encoding="utf-8")), [])

    def test_what_is_imported_is_found(self) -> None:
        text = "import re\nimport support.switch\nfrom bg_switch_tools.switch import lines\nfrom . import a\n"
        self.assertEqual(shared(text), ["support.switch", "bg_switch_tools.switch", "."])


if __name__ == "__main__":
    unittest.main()
