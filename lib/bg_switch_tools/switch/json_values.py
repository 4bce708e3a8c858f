"""Values of JSON, judged one by one. What is wrong with one is noted with its place, and the
reading goes on."""
import collections
import difflib
import ipaddress
import json
import os
import re
import shlex
from collections.abc import Callable, Iterable, Sequence
from typing import TypeVar

from bg_switch_tools.switch.control import ABSOLUTE, HOST, LONGEST_PATH, Control
from bg_switch_tools.switch.meanings import REFUSALS

LONGEST_TOLD = 60  # characters of a value that a problem repeats
NAME = re.compile(r"[a-z0-9]([a-z0-9-]{0,61}[a-z0-9])?")
MOST_PORTS, GREATEST_PORT = 64, 65535
PATH = re.compile(r"/[\x21-\x7e]*")
ADDRESS = re.compile(r"[0-9A-Fa-f:.]{2,45}")  # what only addresses are made of
Value = TypeVar("Value")


class JsonObject(dict[str, object]):
    """An object of JSON, which also knows the keys that it has twice."""

    def __init__(self, pairs: Sequence[tuple[str, object]]) -> None:
        super().__init__(pairs)
        self.repeated = sorted(
            key for key, count in collections.Counter(key for key, _ in pairs).items() if count > 1
        )


def decoded(text: bytes) -> object:
    """The value of a text of JSON in UTF-8. `ValueError` if it is not JSON, or nested too deep."""

    def refuse(name: str) -> object:
        raise ValueError(f"{name} is not a JSON value")

    try:
        value: object = json.loads(
            text.decode("utf-8"), object_pairs_hook=JsonObject, parse_constant=refuse
        )
    except RecursionError as error:
        raise ValueError(str(error)) from None
    return value


def shown(value: object) -> str:
    """A value as a problem tells it: in printable ASCII, and not at any length."""
    text = json.dumps(value)
    return text if len(text) <= LONGEST_TOLD else text[:LONGEST_TOLD] + ".."


class Judge:
    """Reads values, and notes each problem that it finds with its place. `whole` is what the
    outermost value is."""

    def __init__(self, whole: str = "the plan") -> None:
        self.whole = whole
        self.problems: list[str] = []

    def note(self, place: str, problem: str) -> None:
        self.problems.append(f"{place}: {problem}" if place else problem)

    def members(
        self, value: object, place: str, known: Sequence[str], needed: Iterable[str] = ()
    ) -> JsonObject:
        """The members of an object that has no other keys than these; empty if it is not an
        object."""
        if not isinstance(value, JsonObject):
            self.note(place or self.whole, f"{shown(value)} is not an object")
            return JsonObject([])
        prefix = f"{place}." if place else ""
        for key in value:
            if key not in known:
                self.note(
                    f"{prefix}{self.key_shown(key)}",
                    f"there is no such key; {self.nearest(key, known)}",
                )
        for key in value.repeated:
            self.note(f"{prefix}{self.key_shown(key)}", "is there more than once")
        for key in needed:
            if key not in value:
                self.note(f"{prefix}{key}", "is missing")
        return value

    @staticmethod
    def key_shown(key: str) -> str:
        return key if re.fullmatch(r"[\w-]{1,40}", key, re.ASCII) else shown(key)

    @staticmethod
    def nearest(key: str, known: Sequence[str]) -> str:
        found = difflib.get_close_matches(key, known, 1, 0.5)
        return (
            f"the nearest is {found[0]}"
            if found
            else "those that can stand there are " + ", ".join(known)
        )

    def member(
        self,
        members: JsonObject,
        key: str,
        place: str,
        read: Callable[[object, str], Value],
        default: Value,
    ) -> Value:
        """The value of a key, as `read` reads it, or the default if the key isn't there."""
        return read(members[key], f"{place}.{key}" if place else key) if key in members else default

    def number(self, value: object, place: str, least: float, most: float) -> float:
        """A number between these two. The least if it is not such a number."""
        if type(value) not in (int, float) or not isinstance(value, (int, float)):
            self.note(place, f"{shown(value)} is not a number")
        elif value < least:
            self.note(place, f"{shown(value)} is below {least:g}")
        elif value > most:
            self.note(place, f"{shown(value)} is above {most:.15g}")
        else:
            return value
        return least

    def whole_number(self, value: object, place: str, least: int, most: int) -> int:
        if type(value) is float:
            self.note(place, f"{shown(value)} is not a whole number")
            return least
        return int(self.number(value, place, least, most))

    def flag(self, value: object, place: str) -> bool:
        if not isinstance(value, bool):
            self.note(place, f"{shown(value)} is neither true nor false")
        return value is True

    def text(self, value: object, place: str) -> str:
        if isinstance(value, str):
            return value
        self.note(place, f"{shown(value)} is not a text")
        return ""

    def path(self, value: object, place: str) -> str:
        """The path of a request: printable ASCII that begins with a slash."""
        if isinstance(value, str) and PATH.fullmatch(value):
            return value
        self.note(place, f'{shown(value)} is not a path, such as "/health"')
        return "/"

    def command(self, value: object, place: str) -> tuple[str, ...]:
        """A command as a list of words, the program first."""
        if isinstance(value, str):
            self.note(
                place, f"{shown(value)} is not a list of words, such as {json.dumps(split(value))}"
            )
        elif (
            not isinstance(value, list)
            or not value
            or not all(isinstance(word, str) for word in value)
        ):
            self.note(
                place, f'{shown(value)} is not a list of words, such as ["./smoke_test.sh", "8081"]'
            )
        elif not value[0] or not all(is_argument(word) for word in value):
            self.note(place, f"{shown(value)} has a word that no command can have")
        else:
            return tuple(value)
        return ()

    def control(self, value: object, place: str) -> Control:
        """A control port, or the absolute path of a control socket."""
        if not isinstance(value, str) or "/" not in value:
            return self.whole_number(value, place, 1, GREATEST_PORT)
        if ABSOLUTE.fullmatch(value) is None or len(value) > LONGEST_PATH:
            self.note(
                place,
                f"{shown(value)} is not the absolute path of a socket: / and at most {LONGEST_PATH - 1} further "
                "printable characters of ASCII",
            )
        return value

    def address(self, value: object, place: str) -> str:
        """An IPv4 or IPv6 address to which connections can be opened, in its shortest form; an
        IPv4-mapped IPv6 address stands for the IPv4 address in it."""
        address = address_of(value) if isinstance(value, str) else None
        if address is None:
            self.note(place, f"{shown(value)} is not an IPv4 or IPv6 address")
        elif address.is_unspecified:
            self.note(place, f"no connection can be opened to {shown(value)}")
        else:
            return str(address)
        return HOST

    def controls(self, value: object, place: str) -> tuple[Control, ...]:
        """Control ports and control sockets, 64 at most."""
        if not isinstance(value, list) or len(value) > MOST_PORTS:
            self.note(
                place, f"{shown(value)} is not a list of at most {MOST_PORTS} ports and paths"
            )
            return ()
        return tuple(self.control(one, f"{place}[{number}]") for number, one in enumerate(value))

    def name(self, value: object, place: str) -> str:
        """A revision's name, by the switch's rule."""
        if isinstance(value, str) and NAME.fullmatch(value):
            return value
        self.note(place, f"{shown(value)} is not a name: {REFUSALS['BadName']}")
        return ""

    def ports(self, value: object, place: str) -> tuple[int, ...]:
        """A revision's ports, by the switch's rule: distinct numbers from 1 to 65535, 64 at
        most."""
        if not isinstance(value, list) or not 1 <= len(value) <= MOST_PORTS:
            self.note(place, f"{shown(value)} is not a list of 1 to {MOST_PORTS} ports")
            return ()
        ports = tuple(
            self.whole_number(port, f"{place}[{number}]", 1, GREATEST_PORT)
            for number, port in enumerate(value)
        )
        for number, port in enumerate(value):
            if port in value[:number]:
                self.note(
                    f"{place}[{number}]",
                    f"{shown(port)} is already at {place}[{value.index(port)}]",
                )
        return ports


def address_of(text: str) -> ipaddress.IPv4Address | ipaddress.IPv6Address | None:
    """The address that a text writes, or None. An IPv4-mapped IPv6 address (RFC 4291 section
    2.5.5.2) stands for the IPv4 address in it."""
    try:
        address = ipaddress.ip_address(text if ADDRESS.fullmatch(text) else "")
    except ValueError:
        return None
    mapped = address.ipv4_mapped if isinstance(address, ipaddress.IPv6Address) else None
    return mapped or address


def split(text: str) -> list[str]:
    """The words of a command line, as a shell splits it."""
    try:
        return shlex.split(text)
    except ValueError:
        return text.split()


def is_argument(word: str) -> bool:
    """Whether a process can be given this word: it has no NUL, and can be written in the system's
    encoding."""
    try:
        return b"\0" not in os.fsencode(word)
    except ValueError:
        return False
