"""scripts/read_alike.py: its corpus, and that it finds readers that disagree."""
import collections
import contextlib
import io
import re
import unittest
from unittest import mock

import read_alike
from support.smuggling.comparing import Compared, Kind, kind_of, table_of
from support.smuggling.corpus import corpus
from support.smuggling.forwarded import is_built
from support.smuggling.messages import HIDDEN
from support.smuggling.readings import Read, Reading, case_of
from tests.stand_in_readers import BY_CODING, BY_LENGTH, StandIn, requests
from tests.tool_runs import TOP

LEAST_MESSAGES = 400
SOURCE = re.compile(
    r"RFC \d{4} (?:section|sections|appendix) [\dA-C]|CVE-\d{4}-\d+ \(|\((?:20\d\d)\)"
)
# What the corpus must have, by the beginning of a section's name and of a name there.
ATTACKS = (
    "both-framings/cl.te",
    "both-framings/te.cl",
    "coding-value/",
    "coding-twice/",
    "fold/",
    "separator-before-length/cr",
    "separator-before-length/lf",
    "length-name/space-before-colon",
    "length-twice/equal",
    "length-twice/zero",
    "length-value/plus",
    "length-value/leading-zero",
    "length-value/list",
    "chunk-size/plus",
    "chunk-size/hexadecimal-mark",
    "chunk-size/2^64-more",
    "chunk-size/space",
    "chunk-extension/bare-lf",
    "trailer/content-length",
    "trailer/transfer-encoding",
    "last-chunk/missing-last-crlf",
    "version-1.0/chunks",
    "version-0.9/",
    "target/absolute",
    "field-line/nul",
    "field-line/control-byte",
    "expect-with-length/",
    "connection-with-length/content-length",
    "connection-with-length/both-framings",
    "upgrade/",
    "request-line/",
    "before-request-line/space",
    "between-requests/crlf",
)


class Corpus(unittest.TestCase):
    def test_it_is_large_and_has_each_message_once(self) -> None:
        messages = corpus()
        self.assertGreaterEqual(len(messages), LEAST_MESSAGES)
        for part in ("name", "text"):
            counts = collections.Counter(getattr(message, part) for message in messages)
            self.assertEqual([each for each, count in counts.items() if count > 1], [], part)

    def test_each_message_has_a_source(self) -> None:
        for source in sorted({message.source for message in corpus()}):
            with self.subTest(source):
                self.assertRegex(source, SOURCE)

    def test_each_attack_of_the_field_is_there(self) -> None:
        names = [message.name for message in corpus()]
        for attack in ATTACKS:
            with self.subTest(attack):
                self.assertTrue(any(name.startswith(attack) for name in names))

    def test_the_spelled_lengths_are_those_of_the_hidden_request(self) -> None:
        """The tables spell 36 in several ways."""
        self.assertEqual((len(HIDDEN), b"%x" % len(HIDDEN)), (36, b"24"))

    def test_the_requests_behind_a_message_are_those_of_its_case_alone(self) -> None:
        first, second = (case_of(b"", number, 2) for number in (1, 2))
        self.assertEqual(len({*first.followers, *second.followers}), 4)
        self.assertEqual(
            [item.target for item in requests(BY_LENGTH.read(first.stream, first.last))],
            list(first.followers),
        )


class Comparing(unittest.TestCase):
    def compared(self, *readers: StandIn) -> dict[str, Compared]:
        return {each.message.name: each for each in read_alike.compare_all(readers, corpus())}

    def test_readers_that_prefer_different_fields_are_found(self) -> None:
        """They differ exactly if a message has both fields as they know them."""
        every = self.compared(BY_LENGTH, BY_CODING)
        found = every["both-framings/cl.te-length-first"]
        self.assertIs(found.kind, Kind.ENDS)
        self.assertEqual(
            str(found).partition(": ")[2].split("; ")[1].split(", ")[:2],
            ["coding: POST /m", "GET /smuggle"],
        )
        self.assertIs(every["both-framings/te.cl-length-first"].kind, Kind.ENDS)
        for each in every.values():
            if each.kind is not Kind.ALIKE:
                text = each.message.text.lower()
                self.assertRegex(text, b"(?s)content-length.*transfer-encoding|coding.*-length")

    def test_equal_readers_differ_nowhere(self) -> None:
        kinds = {
            each.kind for each in self.compared(BY_LENGTH, BY_LENGTH._replace(name="b")).values()
        }
        self.assertEqual(kinds, {Kind.ALIKE})

    def test_the_table_counts_each_section(self) -> None:
        every = self.compared(BY_LENGTH, BY_CODING)
        rows = table_of(list(every.values()))
        members = [name for name in every if name.startswith("both-framings/")]
        alike, stops, names, ends = (
            sum(every[name].kind is kind for name in members) for kind in Kind
        )
        self.assertGreater(ends, 5)
        self.assertIn(
            f"| both-framings | {len(members)} | {alike} | {stops} | {names} | {ends} | coding |",
            rows,
        )

    def test_how_far_readings_differ(self) -> None:
        m, other = Read(b"POST", b"/m", b"a"), Read(b"POST", b"/n", b"a")
        longer, behind = m._replace(body=b"ab"), Read(b"GET", b"/b", b"")
        hidden = Read(b"GET", b"/smuggle", b"")
        for one, its, kind in (
            (Reading((m, behind)), Reading((m, behind)), Kind.ALIKE),
            (Reading((m, behind)), Reading((400,)), Kind.STOPS),
            (Reading((m, behind)), Reading((501, behind)), Kind.STOPS),
            (Reading((m, behind)), Reading((m,)), Kind.STOPS),
            (Reading(()), Reading((), True), Kind.STOPS),
            (Reading((), True), Reading((400,)), Kind.STOPS),
            (Reading((m, behind)), Reading((other, behind)), Kind.NAMES),
            (Reading((m, behind)), Reading((longer, behind)), Kind.ENDS),
            (Reading((m, behind)), Reading((m, hidden, behind)), Kind.ENDS),
            (Reading((m, behind)), Reading((501, hidden, behind)), Kind.ENDS),
            (Reading((m, behind)), Reading((), True), Kind.ENDS),
            (Reading((m, behind)), Reading((m,), True), Kind.ENDS),
        ):
            with self.subTest(f"{one} and {its}"):
                self.assertIs(kind_of(one, its), kind)
                self.assertIs(kind_of(its, one), kind)


class Words(unittest.TestCase):
    def run_words(self, *words: str) -> tuple[int, str]:
        with contextlib.ExitStack() as stack:
            printed = stack.enter_context(contextlib.redirect_stdout(io.StringIO()))
            stack.enter_context(contextlib.redirect_stderr(printed))
            stack.enter_context(mock.patch("sys.argv", ["read_alike.py", *words]))
            stack.enter_context(mock.patch("support.smuggling.servers.program_of", lambda _: None))
            try:
                status = read_alike.main()
            except SystemExit as end:
                status = int(str(end.code))
        return status, printed.getvalue()

    def test_a_server_that_is_missing_is_named(self) -> None:
        status, printed = self.run_words("--server", "node", "--servers-only")
        self.assertEqual(
            (status, printed), (2, "read_alike: node is not installed: apt-get install nodejs\n")
        )

    def test_a_program_that_is_not_built(self) -> None:
        self.assertFalse(is_built(str(TOP / "none")))
        with mock.patch("read_alike.missing", lambda _: []), mock.patch(
            "read_alike.is_built", lambda: False
        ):
            self.assertEqual(
                self.run_words(), (2, "read_alike: the program is not built: make build\n")
            )

    def test_a_section_that_there_is_not(self) -> None:
        status, printed = self.run_words("--section", "none")
        self.assertEqual(status, 2)
        self.assertIn("there is no section none, but before-request-line", printed)


if __name__ == "__main__":
    unittest.main()
