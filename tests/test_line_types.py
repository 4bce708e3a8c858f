"""The texts of lines, replies and phases stand in the modules that read and print them; elsewhere
the tools have values of types."""
import ast
import pathlib
import tempfile
import unittest
from collections.abc import Iterator

from bg_switch_tools.switch.lines import BY_WORD, KINDS, line_in
from bg_switch_tools.switch.phases import Phase
from bg_switch_tools.switch.replies import NAMED, NUMBERED, reply_in
from tools.module_map import LIBRARY

# They read and print the texts. `line_help` and `meanings` have sentences for people.
READERS = {
    f"switch/{name}.py"
    for name in ("lines", "replies", "reports", "phases", "line_help", "meanings")
}
OF_REPLIES = (*NUMBERED, *NAMED)
FIRST_WORDS = {*BY_WORD, *OF_REPLIES}
REPORT_BEGIN = "moment"
# What looks for a text in another one, and what splits one.
LOOKING = (
    *("startswith", "endswith", "removeprefix", "removesuffix", "find", "index", "count"),
    *("compile", "match", "fullmatch", "search"),
)
SPLITTING = ("split", "rsplit", "partition", "rpartition")
# Words of phases that nothing else has: a stage of a fleet is `aborted`, too.
OWN_WORDS = {"steady", "scaling", "preAnalysis", "sizing", "postAnalysis"}
NAMES_OF_TEXTS = ("line", "reply", "replies", "answer")
NAMES_OF_WORDS = ("word", "words")


def texts_in(node: ast.AST) -> Iterator[str]:
    """The constant texts of an expression: its own, and those of a list of texts."""
    if isinstance(node, ast.Constant) and isinstance(node.value, (str, bytes)):
        value = node.value
        yield value.decode("latin-1") if isinstance(value, bytes) else value
    elif isinstance(node, (ast.Tuple, ast.List, ast.Set)):
        for each in node.elts:
            yield from texts_in(each)


def begins_a_line(text: str) -> bool:
    """Whether a text is a line or a reply, or its begin."""
    words = text.split()
    return bool(words) and words[0] in FIRST_WORDS and not text.startswith(" ")


def ends_in_a_phase(text: str) -> bool:
    """Whether a text such as " -> aborted" ends in a phase."""
    words = text.split()
    return bool(words) and words[-1] in tuple(Phase)


def last_name(node: ast.AST) -> str:
    """The name of a variable or a member, also of an item of it, or of what a call makes of it."""
    if isinstance(node, ast.Subscript):
        return last_name(node.value)
    if isinstance(node, ast.Call):
        of = node.func.value if isinstance(node.func, ast.Attribute) else None
        return last_name(of or (node.args or [node.func])[0])
    if isinstance(node, ast.Attribute):
        return node.attr
    return node.id if isinstance(node, ast.Name) else ""


def is_named(node: ast.AST, *names: str) -> bool:
    return bool(set(last_name(node).split("_")) & set(names))


def looks_for_a_line(node: ast.AST) -> bool:
    """A call such as `line.startswith("deploy ")` or `change.endswith(" -> aborted")`."""
    return (
        isinstance(node, ast.Call)
        and isinstance(node.func, ast.Attribute)
        and node.func.attr in LOOKING
        and any(
            begins_a_line(text) or ends_in_a_phase(text)
            for each in node.args
            for text in texts_in(each)
        )
    )


def splits_a_line(node: ast.AST) -> bool:
    """A call such as `line.split()`: into words, and not into lines."""
    if not (isinstance(node, ast.Call) and isinstance(node.func, ast.Attribute)):
        return False
    is_by_spaces = not node.args or " " in texts_in(node.args[0])
    return (
        node.func.attr in SPLITTING and is_by_spaces and is_named(node.func.value, *NAMES_OF_TEXTS)
    )


def compares_a_line(node: ast.AST) -> bool:
    """A comparison such as `reply == "refused TooLate"`, or of a line with a text."""
    if not isinstance(node, ast.Compare):
        return False
    sides = [node.left, *node.comparators]
    is_of_line = any(is_named(side, *NAMES_OF_TEXTS, *NAMES_OF_WORDS) for side in sides)
    return any(
        begins_a_line(text) and (is_of_line or text.split()[0] in OF_REPLIES and " " in text)
        for side in sides
        for text in texts_in(side)
    )


def compares_a_phase(node: ast.AST) -> bool:
    """A comparison such as `report.phase == "paused"`."""
    if not isinstance(node, ast.Compare):
        return False
    sides = [node.left, *node.comparators]
    is_of_phase = any(is_named(side, "phase", "phases") for side in sides)
    return is_of_phase and any(text in tuple(Phase) for side in sides for text in texts_in(side))


def names_a_phase(node: ast.AST) -> bool:
    """A text such as "postAnalysis", which only a phase has."""
    return not OWN_WORDS.isdisjoint(texts_in(node)) and isinstance(node, ast.Constant)


def matches_a_line(node: ast.AST) -> bool:
    """A pattern such as `case "promote"` or `case ["deploy", name, *ports]`."""
    return isinstance(node, ast.MatchValue) and any(map(begins_a_line, texts_in(node.value)))


def prints_a_line(node: ast.AST) -> bool:
    """A text such as f"tick {moment}" or f"refused {name}". Of a moment, people are told, too."""
    if not isinstance(node, ast.JoinedStr) or len(node.values) < 2:
        return False
    first, second = node.values[:2]
    words = FIRST_WORDS - {REPORT_BEGIN}
    is_begin = any(text.endswith(" ") and text.strip() in words for text in texts_in(first))
    return is_begin and isinstance(second, ast.FormattedValue)


def is_a_line(node: ast.AST) -> bool:
    """A text such as "verdict post successful" or "refused TooLate". A line of one word may be the
    name of a command; as bytes it is not."""
    if not isinstance(node, ast.Constant):
        return False
    has_words = isinstance(node.value, bytes)
    return any(
        (has_words or " " in text) and (line_in(text.encode("latin-1")) or reply_in(text))
        for text in texts_in(node)
        if text.isascii()
    )


FAULTS = {
    looks_for_a_line: "looks for a line, a reply or a phase in a text",
    splits_a_line: "splits a line or a reply",
    compares_a_line: "compares a line or a reply as a text",
    compares_a_phase: "compares a phase as a text",
    names_a_phase: "names a phase as a text",
    matches_a_line: "matches a line or a reply as a text",
    prints_a_line: "prints a line or a reply",
    is_a_line: "is a line or a reply as a text",
}


def untyped(library: pathlib.Path) -> list[str]:
    """The places where a text of a line, a reply or a phase is read or printed elsewhere than in
    `READERS`: `FILE:LINE: what it does`."""
    found = []
    for path in sorted(library.rglob("*.py")):
        name = str(path.relative_to(library))
        if name not in READERS:
            for node in ast.walk(ast.parse(path.read_text(encoding="utf-8"))):
                found += [
                    f"{name}:{getattr(node, 'lineno', 0)}: {told}"
                    for fault, told in FAULTS.items()
                    if fault(node)
                ]
    return found


class Texts(unittest.TestCase):
    def found_in(self, *lines: str) -> list[str]:
        with tempfile.TemporaryDirectory() as folder:
            path = pathlib.Path(folder, "controller", "a.py")
            path.parent.mkdir()
            path.write_text("\n".join(lines) + "\n", encoding="ascii")
            return untyped(pathlib.Path(folder))

    def test_each_stands_where_it_is_read_and_printed(self) -> None:
        self.assertEqual(untyped(LIBRARY), [])
        for name in READERS:
            self.assertTrue((LIBRARY / name).is_file(), name)

    def test_what_is_untyped_is_found(self) -> None:
        for text, told in (
            ('line.startswith("deploy ")', "looks for a line, a reply or a phase in a text"),
            (
                'text.startswith(("refused ", "fault "))',
                "looks for a line, a reply or a phase in a text",
            ),
            ('got.startswith(b"ok ")', "looks for a line, a reply or a phase in a text"),
            ('line.startswith("down")', "looks for a line, a reply or a phase in a text"),
            ('change.removeprefix("tick ")', "looks for a line, a reply or a phase in a text"),
            ('change.endswith(" -> aborted")', "looks for a line, a reply or a phase in a text"),
            ("line.split()[0]", "splits a line or a reply"),
            ('str(line).split(" ")[1]', "splits a line or a reply"),
            ('told_line.removesuffix("x").split()', "splits a line or a reply"),
            ('replies[0].split(" ", 1)[1]', "splits a line or a reply"),
            ('self.latest_reply.partition(" ")', "splits a line or a reply"),
            ('reply == "refused SameTemplate"', "compares a line or a reply as a text"),
            ('got != "fault UnknownWord"', "compares a line or a reply as a text"),
            ('line in ("promote", "abort")', "compares a line or a reply as a text"),
            ('report.phase == "paused"', "compares a phase as a text"),
            ('phase not in ("steady", "aborted")', "compares a phase as a text"),
            ('words[0] == "tick"', "compares a line or a reply as a text"),
            ('PAST = {"postAnalysis": 1}', "names a phase as a text"),
            ('re.fullmatch("deploy (.*)", text)', "looks for a line, a reply or a phase in a text"),
            ('f"tick {clock.moment()}"', "prints a line or a reply"),
            ('f"deploy {name} {port}"', "prints a line or a reply"),
            ('f"refused {name}"', "prints a line or a reply"),
            ('asked = connection.answer(b"report")', "is a line or a reply as a text"),
            ('LINE = "verdict post successful"', "is a line or a reply as a text"),
            ('MORE_OF = {"fault UnknownWord": "upgrade"}', "is a line or a reply as a text"),
        ):
            with self.subTest(text):
                self.assertIn(f"controller/a.py:3: {told}", self.found_in("import a", "", text))
        self.assertEqual(
            self.found_in("match words:", '    case ["deploy", name]:', "        pass"),
            ["controller/a.py:2: matches a line or a reply as a text"],
        )

    def test_what_is_none_of_them(self) -> None:
        self.assertEqual(
            self.found_in(
                '"""Deploys a revision: deploy NAME PORT.. is the line."""',
                'f"deploys {name}: the line is sent"',
                'text.startswith("--")',
                'stage == "aborted"',
                'command in ("status", "wait")',
                'text.split(",")',
                'lines.split(b"\\n")',
                'WAITS = "waits for: promote"',
                'told["phase"] is None',
                'f"moment {report.moment}: {text}"',
                'Command("promote", "ends the pause")',
                '"bgctl line verdict pre successful"',
            ),
            [],
        )

    def test_each_kind_of_line_has_its_own_word(self) -> None:
        self.assertEqual(len(FIRST_WORDS), len(KINDS) + len(OF_REPLIES))


if __name__ == "__main__":
    unittest.main()
