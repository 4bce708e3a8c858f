"""The lines, replies and phases of the tools: each is read as it is printed, what is not one is
refused, and the words, the help and the meanings are those of docs/LINES.md."""
import os
import random
import re
import unittest

from bg_switch_tools.switch.lines import (
    BY_WORD,
    EVENT_WORDS,
    KINDS,
    LINES,
    LINE_WORDS,
    LONGEST_LINE,
    Abort,
    AnalysisKind,
    AskReport,
    Available,
    Before,
    Compact,
    Deploy,
    Down,
    Event,
    Line,
    LineError,
    Open,
    Promote,
    Quit,
    Retry,
    Tick,
    Verdict,
    VerdictResult,
    in_time,
    line_in,
    read_line,
    without_time_limit,
)
from bg_switch_tools.switch.meanings import FAULTS, REFUSALS, UNSAVED
from bg_switch_tools.switch.phases import PAST_THE_PAUSE, PHASES, RUNNING, Phase
from bg_switch_tools.switch.replies import (
    NAMED,
    NOT_ALLOWED,
    NUMBERED,
    SAME_TEMPLATE,
    TOO_LATE,
    UNKNOWN_WORD,
    Compacted,
    Done,
    Fault,
    Refused,
    Reply,
    ReplyError,
    ReportBegin,
    Unsaved,
    as_json,
    read_reply,
    reply_in,
    with_meaning,
)
from tests import before_line
from tests.typed_lines import line_of

PAGE = os.path.join(os.path.dirname(__file__), "..", "docs", "LINES.md")
# By the text: the line. No two texts are one line.
READ: dict[str, Line] = {
    "open web-v1 9101 9102": Open("web-v1", (9101, 9102)),
    "available 2 1": Available(2, 1),
    "deploy web-v2 9201": Deploy("web-v2", (9201,)),
    "tick 18446744073709551615": Tick(18446744073709551615),
    "verdict pre successful": Verdict(AnalysisKind.PRE, VerdictResult.SUCCESSFUL),
    "verdict post failed": Verdict(AnalysisKind.POST, VerdictResult.FAILED),
    "verdict post error": Verdict(AnalysisKind.POST, VerdictResult.ERROR),
    "promote": Promote(),
    "promote full": Promote(is_full=True),
    "abort": Abort(),
    "retry": Retry(),
    "before 5 promote full": Before(5, Promote(is_full=True)),
    "before 0 deploy web-v2 9201": Before(0, Deploy("web-v2", (9201,))),
    "down": Down(()),
    "down 9101 9102": Down((9101, 9102)),
    "report": AskReport(),
    "compact": Compact(),
    "quit": Quit(),
}
# By the fault: texts that are no lines for it.
WRONG: dict[str, tuple[bytes, ...]] = {
    "TooLong": (b" " * (LONGEST_LINE + 1), b"down" + b" 9101" * 819),
    "NotAscii": (b"tick\t5", b"deploy w\xc3\xa9b 1", b"abort\nquit", b"report\r\r", b"\x00"),
    "Empty": (b"", b"   ", b"\r"),
    "UnknownWord": (b"jump", b"ticks 5", b"Abort", b"enter 0 active", b"before 9 jump"),
    "WrongCount": (
        *(b"tick", b"tick 1 2", b"open v1", b"deploy v2", b"available 1", b"verdict pre"),
        *(b"promote full now", b"abort now", b"retry 1", b"report 1", b"compact 1", b"quit now"),
        *(b"before", b"before 5", b"before 5 tick"),
    ),
    "BadWord": (
        *(b"promote half", b"promote Full", b"verdict mid successful", b"verdict post good"),
        *(b"before 5 report", b"before 5 down", b"before 5 before 5 promote", b"before 5 before"),
        b"before 5 open v1 1",
    ),
    "BadNumber": (
        *(b"tick x", b"tick -1", b"tick 1.5", b"tick 000000000000000000001", b"deploy v2 9 x"),
        *(b"available x 1", b"available 1 x", b"down x", b"before x promote", b"before x jump"),
    ),
}
REPLIES: dict[str, Reply] = {
    "ok 0": Done(0),
    "ok 18446744073709551615": Done(18446744073709551615),
    "unsaved 2": Unsaved(2),
    "compacted 4": Compacted(4),
    "moment 30": ReportBegin(30),
    "refused SameTemplate": SAME_TEMPLATE,
    "refused NotAllowed": NOT_ALLOWED,
    "refused Unheard": Refused("Unheard"),
    "fault UnknownWord": UNKNOWN_WORD,
}
NO_REPLIES = (
    *("unsaved", "unsaved x"),
    *("", " ", "ok", "ok ", "ok x", "ok 1 2", "ok 01", "ok -1", " ok 1", "ok 1 ", "OK 1"),
    *("refused", "refused ", "refused A B", "refused 1", "fault", "fault A\n", "end"),
    *("moment", "moment x", "phase steady", "HTTP/1.1 400 Bad Request", "ok \u0663"),
    "ok 111111111111111111111",
)
# What may stand in a line, for lines at random.
WORDS = (
    *BY_WORD,
    *"full pre post successful failed error web-v1 x 0 5 9101 -1".split(),
)


def page() -> str:
    with open(PAGE, encoding="utf-8") as file:
        return file.read()


def fault_of(text: bytes) -> str:
    """The fault of a text; empty if it is a line."""
    try:
        read_line(text)
    except LineError as error:
        return error.fault
    return ""


class Lines(unittest.TestCase):
    def test_each_is_read_as_it_is_printed(self) -> None:
        for text, line in READ.items():
            with self.subTest(text):
                self.assertEqual(line_of(text), line)
                self.assertIs(type(line_of(text)), type(line))
                self.assertEqual((str(line), line.encoded()), (text, text.encode()))
        self.assertEqual({type(line) for line in READ.values()}, set(KINDS))
        self.assertEqual(len(set(READ.values())), len(READ))

    def test_spaces_and_the_end_count_for_nothing(self) -> None:
        self.assertEqual(read_line(b"  available  2   01 \r"), Available(2, 1))
        self.assertEqual(read_line(b"before  5  promote  full "), Before(5, Promote(is_full=True)))
        self.assertEqual(read_line(b"report" + b" " * (LONGEST_LINE - 6) + b"\r"), AskReport())

    def test_what_is_no_line_is_refused_by_its_fault(self) -> None:
        for fault, texts in WRONG.items():
            for text in texts:
                with self.subTest(text=text[:60]):
                    self.assertEqual((fault_of(text), line_in(text)), (fault, None))
        with self.assertRaisesRegex(LineError, "^the line has too few or too many words$"):
            read_line(b"tick")
        self.assertEqual(set(FAULTS) - set(WRONG), {"OutOfMemory"})

    def test_a_name_that_no_switch_takes_is_printed(self) -> None:
        self.assertEqual(Deploy("w\u00e9b \udcff", (3,)).encoded(), b"deploy w\xc3\xa9b \xff 3")

    def test_it_reads_as_what_stands_in_for_a_switch(self) -> None:
        """`tests/before_line.py` has the faults in their order, written a second time."""
        chance, seen = random.Random(28), set[str]()
        for _ in range(20_000):
            words = chance.choices(WORDS, k=chance.randint(1, 5))
            fault = fault_of(" ".join(words).encode())
            self.assertEqual(fault, before_line.fault_of(words), words)
            seen.add(fault)
        self.assertEqual(seen, {"", "UnknownWord", "WrongCount", "BadWord", "BadNumber"})

    def test_which_lines_give_events(self) -> None:
        told = page().split("`before MILLISECONDS LINE` | carries LINE out")[1].split("with its")[0]
        self.assertEqual(set(re.findall(r"`(\w+)`", told.split("LINE is")[1])), set(EVENT_WORDS))
        for line in READ.values():
            self.assertEqual(isinstance(line, Event), line.word in EVENT_WORDS, line)

    def test_without_a_time_limit(self) -> None:
        for line in READ.values():
            event = line.event if isinstance(line, Before) else line
            self.assertEqual(without_time_limit(line), event)

    def test_a_time_limit_for_what_a_person_wrote(self) -> None:
        for text in (b"promote", b" promote half ", b"deploy w\xc3\xa9b", b"tick\r"):
            self.assertEqual(in_time(7, text), b"before 7 " + text)
        for text in (b"report", b"before 5 promote", b"down 1", b"jump", b"", b"promote\t"):
            self.assertEqual(in_time(7, text), text)


class Replies(unittest.TestCase):
    def test_each_is_read_as_it_is_printed(self) -> None:
        for text, reply in REPLIES.items():
            with self.subTest(text):
                self.assertEqual((read_reply(text), str(reply)), (reply, text))
                self.assertIs(type(read_reply(text)), type(reply))
        kinds = {type(reply) for reply in REPLIES.values()}
        self.assertEqual(kinds, {*NUMBERED.values(), *NAMED.values()})
        self.assertEqual(len(set(REPLIES.values())), len(REPLIES))

    def test_what_is_no_reply_is_refused(self) -> None:
        for text in NO_REPLIES:
            with self.subTest(text):
                self.assertRaisesRegex(ReplyError, "is no reply of a switch", read_reply, text)
                self.assertIsNone(reply_in(text))

    def test_which_were_carried_out(self) -> None:
        for word, kind in NUMBERED.items():
            reply = read_reply(f"{word} 1")
            meaning = UNSAVED if kind is Unsaved else None
            self.assertEqual((reply.was_carried_out, reply.meaning), (True, meaning))
        for word in NAMED:
            self.assertFalse(read_reply(f"{word} OutOfMemory").was_carried_out)

    def test_as_json(self) -> None:
        self.assertEqual(
            as_json(Promote(is_full=True), Refused("NotPaused")),
            {
                "line": "promote full",
                "reply": "refused NotPaused",
                "carried_out": False,
                "meaning": "the rollout is not paused",
            },
        )


class Phases(unittest.TestCase):
    def test_they_are_those_of_the_page(self) -> None:
        told = page().split("W is ")[1].split(";")[0]
        self.assertEqual(re.findall(r"`(\w+)`", told), list(PHASES))

    def test_which_are_those_of_an_attempt(self) -> None:
        self.assertEqual(set(PHASES) - set(RUNNING), {Phase.STEADY, Phase.ABORTED})
        self.assertEqual(RUNNING[RUNNING.index(Phase.PAUSED) + 1 :], PAST_THE_PAUSE)


class Meanings(unittest.TestCase):
    def test_each_refusal_of_the_page_has_a_meaning(self) -> None:
        told = page().split("What the refusals mean:")[1].split("\n## ")[0]
        names = {
            name
            for line in re.findall(r"^\| (.*?) \|", told, re.M)
            for name in re.findall(r"`(\w+)`", line)
        }
        self.assertGreater(len(names), 20)
        self.assertEqual(names - set(REFUSALS), set())

    def test_the_faults_are_those_of_the_page(self) -> None:
        told = (
            page()
            .split("## How a line is read")[1]
            .split("`BadWord` and `BadNumber` are judged")[0]
        )
        self.assertEqual(set(re.findall(r"^\| `(\w+)` \|", told, re.M)), set(FAULTS))

    def test_the_lines_are_those_of_the_page(self) -> None:
        told = page().split("\n## The lines\n")[1].split("What the refusals mean:")[0]
        lines = set(re.findall(r"^\| `(\w+)", told, re.M)) - {"enter", "leave"}
        self.assertEqual(set(LINE_WORDS), lines)
        for line in LINES:
            self.assertEqual(line.example.split()[0], line.syntax.split()[0])
            self.assertEqual(str(line_of(line.example)), line.example)

    def test_what_a_reply_means(self) -> None:
        self.assertEqual(Refused("NotPaused").meaning, "the rollout is not paused")
        self.assertEqual(Fault("WrongCount").meaning, "the line has too few or too many words")
        self.assertEqual(
            TOO_LATE.meaning,
            "the boot clock is not below the time limit of the line; nothing has changed",
        )
        for reply in (Done(0), ReportBegin(3), Refused("Unheard"), Fault("NotPaused")):
            self.assertIsNone(reply.meaning)
        self.assertEqual(
            with_meaning("refused NotPaused"), "refused NotPaused: the rollout is not paused"
        )
        for text in ("ok 3", "refused Unheard", "phase steady", "end", "refused NotPaused now"):
            self.assertEqual(with_meaning(text), text)


if __name__ == "__main__":
    unittest.main()
