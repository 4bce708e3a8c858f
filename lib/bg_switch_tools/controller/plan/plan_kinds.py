"""The kinds of the values of a plan, and the keys of its objects: how each is read, and its schema."""
import dataclasses
import json
import textwrap
from collections.abc import Callable, Iterator, Sequence
from typing import Any, Generic, NamedTuple, TypeVar

from bg_switch_tools.switch.control import ABSOLUTE, LONGEST_PATH
from bg_switch_tools.switch.json_values import (
    ADDRESS,
    GREATEST_PORT,
    MOST_PORTS,
    NAME,
    PATH,
    JsonObject,
    Judge,
)

LEAST_SECONDS, LONGEST = 0.1, 86400  # of each interval and limit of a plan
MOST_FAILURES = 1000
HELP_INDENT, HELP_WIDTH = 27, 128  # of what a help says of a key
Value = TypeVar("Value")
Schema = dict[str, object]


@dataclasses.dataclass(frozen=True)
class Kind(Generic[Value]):
    """A kind of values: how one is read at its place, and the JSON schema of those that are
    taken."""

    read: Callable[[Judge, object, str], Value]
    schema: Schema

    def member(
        self, judge: Judge, members: JsonObject, name: str, place: str, default: Value
    ) -> Value:
        """The value of a key, or the default if the key isn't there."""
        return judge.member(
            members, name, place, lambda value, at: self.read(judge, value, at), default
        )


class Key(NamedTuple):
    """A key of an object: what it is about, the kind of its value, and the value without it. If
    the key is needed, that is what stands for its value in an object that has a problem."""

    name: str
    about: str
    kind: Kind[Any]
    default: Any = None
    is_needed: bool = False

    def schema(self) -> Schema:
        """The schema of its value, with the default if a schema can name it."""
        schema = described(self.about, self.kind.schema)
        has_default = self.default != "" and isinstance(self.default, (str, int, float))
        return {**schema, "default": self.default} if has_default and not self.is_needed else schema


def described(about: str, schema: Schema) -> Schema:
    """A schema with what it is about."""
    return {"description": about, **schema}


def text_of(pattern: str) -> Schema:
    """A whole text of this pattern. In some languages `$` also matches before a line end, which is
    no part of it."""
    return {"type": "string", "pattern": rf"^{pattern}(?!\n)$"}


def whole_numbers(least: int, most: int) -> Kind[int]:
    return Kind(
        lambda judge, value, place: judge.whole_number(value, place, least, most),
        {"type": "integer", "minimum": least, "maximum": most},
    )


def numbers(least: float, most: float) -> Kind[float]:
    return Kind(
        lambda judge, value, place: judge.number(value, place, least, most),
        {"type": "number", "minimum": least, "maximum": most},
    )


WORD: Schema = {"type": "string", "pattern": "^[^\\u0000]*$"}
FIRST_WORD: Schema = {**WORD, "minLength": 1}
FLAG = Kind(Judge.flag, {"type": "boolean"})
TEXT = Kind(Judge.text, {"type": "string"})
REVISION_NAME = Kind(Judge.name, text_of(NAME.pattern))
REQUEST_PATH = Kind(Judge.path, text_of(PATH.pattern))
ENDPOINT_ADDRESS = Kind(Judge.address, text_of(ADDRESS.pattern))
SECONDS = numbers(LEAST_SECONDS, LONGEST)
PORT = whole_numbers(1, GREATEST_PORT)
LIST_OF_PORTS: Schema = {
    "type": "array",
    "minItems": 1,
    "maxItems": MOST_PORTS,
    "uniqueItems": True,
    "items": PORT.schema,
}
PORTS = Kind(Judge.ports, LIST_OF_PORTS)
PORT_OR_SOCKET: Schema = {
    **text_of(ABSOLUTE.pattern),
    **PORT.schema,
    "type": ["integer", "string"],
    "maxLength": LONGEST_PATH,
}
CONTROL = Kind(Judge.control, PORT_OR_SOCKET)
COMMAND = Kind(
    Judge.command,
    {
        "type": "array",
        "minItems": 1,
        "items": [FIRST_WORD],
        "additionalItems": WORD,
    },
)


def names_of(keys: Sequence[Key]) -> tuple[str, ...]:
    return tuple(key.name for key in keys)


def needed_of(keys: Sequence[Key]) -> tuple[str, ...]:
    return tuple(key.name for key in keys if key.is_needed)


def object_schema(properties: Schema, required: Sequence[str] = ()) -> Schema:
    """An object that has no other keys."""
    schema: Schema = {"type": "object", "additionalProperties": False, "properties": properties}
    return {**schema, "required": list(required)} if required else schema


def schema_of(keys: Sequence[Key]) -> Schema:
    """An object with these keys."""
    return object_schema({key.name: key.schema() for key in keys}, needed_of(keys))


def values_of(
    judge: Judge, members: JsonObject, keys: Sequence[Key], place: str = ""
) -> dict[str, Any]:
    """The values of these keys in the members of an object, by their names."""
    return {key.name: key.kind.member(judge, members, key.name, place, key.default) for key in keys}


def object_of(make: Callable[..., Value], *keys: Key) -> Kind[Value]:
    """An object with these keys. `make` makes a value of those of its keys, by their names."""

    def read(judge: Judge, value: object, place: str) -> Value:
        members = judge.members(value, place, names_of(keys), needed_of(keys))
        return make(**values_of(judge, members, keys, place))

    return Kind(read, schema_of(keys))


def objects_below(schema: Any) -> Iterator[tuple[str, Any]]:
    """The objects that a schema takes, each with how a place of its keys goes on."""
    for each in schema.get("anyOf", [schema]):
        if each["type"] == "object":
            yield ".", each
        elif each["type"] == "array" and isinstance(each["items"], dict):
            yield from (("[].", below) for _, below in objects_below(each["items"]))


def places_of(schema: Any, place: str = "") -> Iterator[tuple[str, Any, bool]]:
    """The place of each key of an object, with its schema, and whether it is needed; those of an
    object after its own."""
    for name, each in schema["properties"].items():
        yield place + name, each, name in schema.get("required", ())
        for sign, below in objects_below(each):
            yield from places_of(below, f"{place}{name}{sign}")


def help_of(schema: Schema) -> str:
    """What a help says of the keys of an object: a paragraph for each."""
    return "\n".join(
        textwrap.fill(
            f"{place:<{HELP_INDENT - 3}} {each.get('description', '')}"
            + (f" Without it: {json.dumps(each['default'])}." if "default" in each else ""),
            HELP_WIDTH,
            initial_indent="  ",
            subsequent_indent=" " * HELP_INDENT,
            break_on_hyphens=False,
        )
        for place, each, _ in places_of(schema)
    )
