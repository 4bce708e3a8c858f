"""The line `before` as the switch reads and judges it, for switches that stand in for it."""
from collections.abc import Callable, Mapping, Sequence

from bg_switch_tools.switch.before import WORD
from bg_switch_tools.switch.lines import LINE_WORDS
from bg_switch_tools.switch.replies import TOO_LATE

GREATEST, LONGEST = 2**64 - 1, 20  # of a number, and of its digits
GREATEST_PORT, GREATEST_COUNT = 65535, 2**32 - 1
SCRIPT_WORDS = ("enter", "leave")  # which `replay` knows beside the lines of an operator
EVENTS = ("available", "deploy", "verdict", "promote", "tick", "abort", "retry")
# By the first word: what each word that is no number and no name may be.
PLACES = {
    "verdict": (("pre", "post"), ("successful", "failed", "error")),
    "promote": (("full",),),
    "enter": (("active", "preview"),),
}
Clock = Callable[[], float]  # seconds since the boot
Answer = Callable[[str], Sequence[str] | None]


def is_number(word: str, greatest: int = GREATEST - 1) -> bool:
    return word.isascii() and word.isdigit() and len(word) <= LONGEST and int(word) <= greatest


def is_count_right(words: Sequence[str]) -> bool:
    """Whether a line of a known word has as many words as it has to have."""
    word, count = words[0], len(words) - 1
    if word in ("open", "deploy", WORD):
        return count >= 2
    if word in ("available", "verdict", "enter"):
        return count == 2
    if word == "promote":
        return count <= 1
    return count == 1 if word in ("tick", "leave") else word == "down" or count == 0


def numbers_of(words: Sequence[str]) -> Mapping[str, int]:
    """The words of a line that are numbers, each with the greatest that it may be."""
    word, told = words[0], words[1:]
    if word in ("open", "deploy", "down"):
        return dict.fromkeys(told[word != "down" :], GREATEST_PORT)
    if word in ("enter", "leave"):
        return {told[0]: GREATEST_COUNT}
    if word == "available":
        return {told[0]: GREATEST, told[1]: GREATEST_COUNT}
    return {told[0]: GREATEST} if word in ("tick", WORD) else {}


def fault_of_words(words: Sequence[str]) -> str:
    """The first wrong word of a line that has the right count; empty if none is wrong."""
    if not all(is_number(word, greatest) for word, greatest in numbers_of(words).items()):
        return "BadNumber"
    allowed = PLACES.get(words[0], ())
    told = words[1:] if words[0] != "enter" else words[2:]
    return "" if all(word in place for word, place in zip(told, allowed)) else "BadWord"


def fault_of(words: list[str]) -> str:
    """The fault of a line; empty if it is well formed."""
    if not words:
        return "Empty"
    if words[0] not in (*LINE_WORDS, *SCRIPT_WORDS, WORD):
        return "UnknownWord"
    if not is_count_right(words):
        return "WrongCount"
    if fault := fault_of_words(words):
        return fault
    return fault_of_event(words[2:]) if words[0] == WORD else ""


def fault_of_event(words: list[str]) -> str:
    """The fault of a line that has a time limit: no second limit may follow."""
    if words[0] == WORD:
        return "BadWord"
    return fault_of(words) or ("" if words[0] in EVENTS else "BadWord")


def answer_before(line: str, is_open: bool, clock: Clock, answer: Answer) -> Sequence[str] | None:
    """The reply to a line `before` at a control port: `answer` carries LINE out."""
    words = [word for word in line.split(" ") if word]
    if fault := fault_of(words):
        return [f"fault {fault}"]
    if not is_open:
        return ["refused NotOpen"]
    if int(clock() * 1000) >= int(words[1]):
        return [str(TOO_LATE)]
    return answer(" ".join(words[2:]))
